#!/usr/bin/env python3
"""Runs of the shared index on threads, checked against their own history.

    tests/machine/index_runs.py PROGRAM [--runs N] [--passes P] [--keys K] [--requests R] [--updates U] [--listings L]
                        [--page P] [--nodes N] [--entries E] [--seconds S] [--seed SEED]
    tests/machine/index_runs.py PROGRAM --held MEANWHILE [--runs N] [--passes P] [--keys K] [--requests R] [--nodes N] [--entries E]
                        [--puts]
    tests/machine/index_runs.py PROGRAM --tries [--runs N] [--passes P] [--keys K] [--requests R] [--nodes N] [--least-met N]
    tests/machine/index_runs.py PROGRAM --visits READERS [--runs N] [--requests R] [--turns T] [--nodes N] [--entries E]
    tests/machine/index_runs.py PROGRAM --few READERS [--runs N] [--passes P] [--keys K] [--requests R] [--turns T] [--nodes N]
                        [--entries E] [--least-made M]
    tests/machine/index_runs.py PROGRAM --far READERS [--runs N] [--meanwhile M] [--turns T] [--seconds S]
    tests/machine/index_runs.py PROGRAM --deep [--runs N] [--passes P] [--keys K] [--requests R] [--seconds S]
    tests/machine/index_runs.py PROGRAM --sections TURNS [--runs N]
    tests/machine/index_runs.py PROGRAM --waits TURNS [--runs N] [--seconds S]

PROGRAM is the built `crates/index_runs`. Each run is a process of its own, with a bound on its seconds. Of what it
prints this is checked, by a map of the script's own that the history is replayed on:

- each update stands in the history once, at the place that was reported to its pass, with the pass's number, its
  line, key and value, and nothing else stands there;
- the places of a pass rise, also over its listings, the removals that found no key and the puts of a new key that
  found it;
- an answer says that the key was there exactly where the map before its place has it; a put of a new key was made
  exactly where it has not, and one that was not made stands at a place where the map has the key;
- a listing has the first pairs of the map at its place, from its key on;
- an update is refused exactly where its pass owns no node: one less after each put of a new key, one more after each
  removal (the passes have entries for all updates);
- when all passes have laid their work down each plain link of the tree holds the child that the tree at the stamp has
  there, and the tree has one link more than twice the keys of the map.

With `--entries E` each pass has so few entries. Then an update may also be refused where the pass owns nodes: which
pass owns an entry depends on the schedule, and while a snapshot is open the entries that it reads stay where they
are. How many were refused is reported.

With `--held` the first pass makes its requests, all updates; then each other pass opens a snapshot and is held inside
it while the first one makes MEANWHILE more updates, whose removals are of the least key: that one has no child to its
left, so its removal waits for nobody. Their listings come after these: they are the map at the place that was theirs.
After each of the updates a try to settle is held by pass 1 in its first section, once something was taken out; after
the end of the snapshots one settles. With `--nodes N --entries E` the first pass has so few slots, and still no
update may be refused. With `--puts` all updates are puts.

With `--visits` one pass of few slots puts and removes one key alternately, R requests, while readers come and go: each
opens a snapshot, stays in it for T turns, reads it and closes it, T turns between two visits, until the requests are
made. Once they are gone the pass makes one more update. An update is refused only where a reader was at a visit at
some time of the call, by the readers' own counts of visits begun and ended. How many were refused is reported.

With `--few` P passes of few slots make updates next to such readers. When all is done one pass after
another puts each key and removes it, and each reports which of its slots are free. Besides the history this is checked:

- no slot is free in two places, or twice, and no slot is free that the table has not;
- as many nodes are not free as the map has keys. It is empty at the end, but where the passes that own slots own too
  few to empty it: such a run counts as not emptied, and where no run is emptied that is a failure;
- where the map is empty exactly two entries are not free, which the one bundle left keeps: that of the last removal,
  and the one that it found, of the put before it. These two updates are of one pass, and no other works meanwhile, so the
  removal cuts what comes after it; but a pass that owns more entries than it was given leaves them.

How many updates were refused is reported, how many of them while a reader was at a visit, and fewer than M updates in
a hundred requests are a failure.

With `--far` a pass puts 31 keys, so that the tree has five full levels. READERS open a snapshot and are held inside
it. Then seven passes remove a key each, all at once: each key has two children, and its successor hangs further down.
When all seven keys are gone for the first pass it puts another key M times, and gives the processor away T times;
none of the removals has returned by then, and the readers still list all 31 keys. Then the snapshots are closed, and
all removals return.

With `--deep` one pass puts K random keys below K, and then all P passes remove R keys each: the first one from a
random key on.

With `--tries` each request is one try of a put. With `--least-met N` fewer than N tries in all the runs that found a
lock held, that found that something had moved, or that found an entry without a number, are a failure.

With `--sections` four passes enter, leave, fill and look four times TURNS times, while a fifth one stays inside its
section. Each of them has met the other three at work four times; it has made exactly the looks that it was to make;
no word had fallen between two looks; and each other pass's word rose by exactly 2 for each of its turns, that of the
fifth not at all.

With `--waits` a pass stops in the middle of an update, with its entries in front of their bundles, and gives the
processor away TURNS times, while eight others look for a pair there and seven put the same key. All are on one
processor, and the run may use S seconds of it: a pass that waits and keeps the processor for its whole turn uses some
milliseconds in each of the TURNS, and one that lets the others run next to nothing. What each found or did is
compared with handwritten answers.
"""
import argparse
import os
import resource
import subprocess
import sys
from collections import defaultdict


def checked(lines, nodes, scarce=False):
    """What is wrong with a run, or None; and how many updates, listings and refusals it has. Where entries are scarce an
    update may be refused when these run out."""
    requests, history, links = defaultdict(list), [], []
    for line in lines:
        kind, *fields = line.split()
        if kind == "J":
            history.append(fields)
        elif kind == "X":
            links.append(" ".join(fields))
        else:
            requests[int(fields[0])].append((kind, fields[1:]))
    by_place, told, refused = defaultdict(list), {}, 0
    for number, asked in requests.items():
        last, left = 0, nodes
        for kind, fields in asked:
            if kind != "L" and (kind == "N") != (left == 0) and not (scarce and kind == "N"):
                return f"pass {number} owns {left} nodes: {kind} {fields}", None
            if kind == "N":
                refused += 1
                continue
            at = int(fields[1] if kind in "PRI" else fields[0])
            made = kind == "P" or (kind in "RI" and (fields[-1] == "true") == (kind == "R"))
            if at < last or (made and at == last):
                return f"pass {number}: place {at} after place {last}", None
            last = at
            left += (kind == "R" and made) - (kind == "P" and fields[4] == "false") - (kind == "I" and made)
            by_place[at].append((number, kind, fields))
            if made:
                if at in told:
                    return f"place {at} was reported twice", None
                value = fields[3] if kind in "PI" else None
                told[at] = [str(number), fields[0], fields[2]] + ([value] if value is not None else [])
    if len(told) != len(history):
        return f"{len(told)} updates were reported, the history has {len(history)}", None
    state, listings = {}, 0
    for at in range(len(history) + 1):
        before = dict(state) if at == 0 else None
        was = None
        if at > 0:
            place, *update = history[at - 1]
            if int(place) != at or update != told.get(at):
                return f"place {at}: {update} in the history, {told.get(at)} reported", None
            key = update[2]
            was = key in state
            if len(update) == 4:
                state[key] = update[3]
            else:
                state.pop(key, None)
        for number, kind, fields in by_place.get(at, ()):
            if kind == "L":
                listings += 1
                first, page = int(fields[1]), int(fields[2])
                keys = sorted(key for key in map(int, state) if key >= first)[:page]
                wanted = [f"{key}:{state[str(key)]}" for key in keys]
                if fields[3:] != wanted:
                    return f"place {at}: pass {number} listed {fields[3:]}, and not {wanted}", None
            elif kind == "P":
                if (fields[4] == "true") != was:
                    return f"place {at}: pass {number} was answered {fields[4]}", None
            elif kind == "I":
                if fields[4] == "false" and was:
                    return f"place {at}: pass {number} put key {fields[2]} though it was there", None
                if fields[4] == "true" and fields[2] not in state:
                    return f"place {at}: pass {number} found key {fields[2]} that is not there", None
            elif fields[3] == "true":
                if not was:
                    return f"place {at}: pass {number} removed a key that was not there", None
            elif fields[2] in state:
                return f"place {at}: pass {number} did not find key {fields[2]}", None
    if links != [str(2 * len(state) + 1)]:
        return f"the map has {len(state)} keys, and of the plain links it reports: {links}", None
    return None, (len(history), listings, refused)


def printed(words, task, **numbers):
    """The lines of one run of this task, with these numbers."""
    named = [word for name, number in numbers.items() for word in (name, str(number))]
    try:
        ended = subprocess.run([words.program, task, *named], capture_output=True, text=True, timeout=words.seconds)
    except subprocess.TimeoutExpired:
        sys.exit(f"{named}: the run had not ended after {words.seconds} seconds")
    if ended.returncode != 0:
        sys.exit(f"{named}: status {ended.returncode}: {ended.stderr}")
    return ended.stdout.splitlines()


def run_of_requests(words, seed):
    """A run in which each pass makes its requests: what is wrong, and how many updates, listings and refusals it
    has."""
    nodes = words.requests if words.nodes is None else words.nodes
    entries = 4 * words.requests + 4 if words.entries is None else words.entries
    lines = printed(
        words, "run", passes=words.passes, keys=words.keys, requests=words.requests, updates=words.updates,
        listings=words.listings, page=words.page, seed=seed, nodes=nodes, entries=entries,
    )
    if len(lines) < words.passes * words.requests:
        return f"{lines[:1]}", None
    wrong, counts = checked(lines, nodes, words.entries is not None)
    return wrong, counts and dict(zip(("updates", "listings", "refused"), counts))


def run_while_held(words, seed):
    """A run in which all passes but the first are held: what is wrong, and how many updates, listings and held tries
    it has."""
    readers = words.passes - 1
    nodes = words.nodes or words.requests + words.held + 1
    lines = printed(
        words, "puts" if words.puts else "held", passes=1, readers=readers, keys=words.keys, requests=words.requests,
        updates=100, page=words.keys, meanwhile=words.held, seed=seed, nodes=nodes, entries=words.entries or 4 * nodes,
    )
    wrong, counts = checked([line for line in lines if line[0] != "T"], nodes)
    if wrong:
        return wrong, None
    if counts[2] > 0:
        return f"{counts[2]} updates were refused", None
    out, tried, held = 0, 0, 0
    for line in lines:
        kind, number, *fields = line.split()
        if kind in "PR" and number == "0":
            out += fields[-1] == "true"
        if kind == "T":
            tried += 1
            is_held = out > 0 and tried <= words.held and readers > 0
            wanted = ["held", "1", "1"] if is_held else ["settled"]
            if fields != wanted:
                return f"try {tried} to settle: {fields}, and not {wanted}", None
            held += fields[0] == "held"
    if tried != words.held + 1 or counts[1] != readers:
        return f"{tried} tries to settle, {counts[1]} listings", None
    return None, {"updates": counts[0], "listings": counts[1], "held tries": held}


def refused_beside(lines):
    """How many updates were refused while a reader was at a visit at some time of the call, and how many while nobody
    was."""
    beside = alone = 0
    for line in lines:
        if line[0] == "N":
            gone, come = map(int, line.split()[3:])
            beside, alone = beside + (come > gone), alone + (come == gone)
    return beside, alone


def run_beside_visits(words, seed):
    """A run of one pass next to readers that come and go: what is wrong, and what it had."""
    nodes, entries = words.nodes or 3, words.entries or 12
    lines = printed(
        words, "visits", passes=1, readers=words.visits, keys=1, requests=words.requests, updates=100, page=1,
        turns=words.turns, seed=seed, nodes=nodes, entries=entries,
    )
    wrong, counts = checked(lines, nodes, True)
    if wrong:
        return wrong, None
    beside, alone = refused_beside(lines)
    if alone > 0:
        return f"{alone} updates were refused while nobody read", None
    # a removal after a refused put finds no key, and is no update
    asked = sum(line[0] in "PRN" for line in lines)
    if asked != words.requests + 1:
        return f"{asked} requests were answered", None
    return None, {"requests": asked, "updates": counts[0], "visits": counts[1], "refused, all of them next to a reader": beside}


def places_of(lines, nodes, entries, keys, share):
    """What is wrong with the free slots that the passes report at the end, or None. The table has so many nodes and
    entries, a pass with no more entries than the share has no surplus, and the map has so many keys."""
    free, most_owned = {"node": [], "entry": []}, 0
    for line in lines:
        _, _, kind, *slots = line.split()
        free[kind] += map(int, slots)
        if kind == "entry":
            most_owned = max(most_owned, len(slots))
    for kind, most in (("node", nodes), ("entry", entries)):
        if len(set(free[kind])) != len(free[kind]):
            return f"a slot is free in two places: {kind} {sorted(free[kind])}"
        if not set(free[kind]) <= set(range(1, most + 1)):
            return f"a free slot is none of the table: {kind} {sorted(free[kind])}"
    if nodes - len(free["node"]) != keys:
        return f"{nodes - len(free['node'])} nodes are not free, and the map has {keys} keys"
    left = entries - len(free["entry"])
    if keys == 0 and (left < 2 or left > 2 and most_owned <= share):
        return f"{left} entries are not free, and the map is empty"
    return None


def run_with_few_slots(words, seed):
    """A run of passes with few slots next to readers: what is wrong, and what it had."""
    passes, readers, each = words.passes, words.few, words.requests
    nodes, entries = words.nodes or 3, words.entries or 12
    lines = printed(
        words, "few", passes=passes, readers=readers, keys=words.keys, requests=each, turns=words.turns, seed=seed, nodes=nodes,
        entries=entries,
    )
    wrong, counts = checked([line for line in lines if line[0] != "F"], nodes, True)
    if wrong:
        return wrong, None
    state = set()
    for line in lines:
        if line[0] == "J":
            fields = line.split()
            (state.add if len(fields) == 6 else state.discard)(fields[4])
    free = [line for line in lines if line[0] == "F"]
    if len(free) != 2 * (passes + readers):
        return f"{len(free)} lists of free slots: {lines[:1]}", None
    every = passes * entries + 4 * readers
    wrong = places_of(free, passes * nodes + readers, every, len(state), min(entries, every // (passes + readers)))
    if wrong:
        return wrong, None
    if counts[0] * 100 < words.least_made * passes * each:
        return f"{counts[0]} updates of {passes * each} requests were made", None
    return None, {
        "updates": counts[0], "visits": counts[1], "refused": counts[2], "of them next to a reader": refused_beside(lines)[0],
        "not emptied": int(bool(state)),
    }


def run_of_far_removals(words, seed):
    """A run of removals that wait for the readers: what is wrong, and how many removals have waited."""
    readers, keys, removals = words.far, 31, 7
    # While the readers are held nothing that goes out can be used again.
    nodes = keys + words.meanwhile + 10
    lines = printed(
        words, "far", passes=removals + 1, readers=readers, keys=keys, requests=keys, meanwhile=words.meanwhile, turns=words.turns,
        seed=seed, nodes=nodes, entries=4 * nodes,
    )
    wrong, counts = checked([line for line in lines if line[0] != "B"], nodes)
    if wrong:
        return wrong, None
    if counts != (keys + removals + words.meanwhile, readers + 1, 0):
        return f"updates, listings and refusals: {counts}", None
    back = [line for line in lines if line[0] == "B"]
    if readers and back != ["B 0 0"]:
        return f"removals had returned while readers were held: {back}", None
    listed = [line.split() for line in lines if line[0] == "L"]
    for _, number, at, _, _, *pairs in listed:
        wanted = (str(keys), keys) if int(number) > removals else (str(keys + removals), keys - removals)
        if (at, len(pairs)) != wanted:
            return f"pass {number} listed {len(pairs)} keys at place {at}, and not {wanted}", None
    return None, {"removals next to readers": removals, "updates meanwhile": words.meanwhile}


def run_in_a_deep_tree(words, seed):
    """A run in which all passes remove: what is wrong, and how many keys they have removed."""
    lines = printed(
        words, "deep", passes=words.passes, keys=words.keys, requests=words.requests, seed=seed, nodes=words.keys,
        entries=4 * words.keys + 4,
    )
    asked = sum(line[0] in "PRN" for line in lines)
    if asked != words.keys + words.passes * words.requests:
        return f"{asked} requests were answered: {lines[:1]}", None
    wrong, counts = checked(lines, words.keys)
    if wrong:
        return wrong, None
    gone = sum(line[0] == "R" and line.endswith("true") for line in lines)
    return None, {"removals": gone, "removals that found no key": words.passes * words.requests - gone}


def run_of_tries(words, seed):
    """A run of tries: what is wrong, and how many puts were made and how many tries have met what."""
    nodes = 64 if words.nodes is None else words.nodes
    lines = printed(
        words, "tries", passes=words.passes, keys=words.keys, requests=words.requests, nodes=nodes, entries=4 * words.requests,
        seed=seed,
    )
    wrong, counts = checked([line for line in lines if line[0] != "C"], nodes)
    if wrong:
        return wrong, None
    met = [[int(field) for field in line.split()[2:]] for line in lines if line[0] == "C"]
    if len(met) != words.passes:
        return f"{len(met)} passes have counted", None
    busy, moved, pending = map(sum, zip(*met))
    return None, {"updates": counts[0], "busy": busy, "moved": moved, "pending": pending}


def run_in_sections(words, _seed):
    """A run over the table itself: what is wrong, and how many looks it has."""
    turns, looks = words.sections, 0
    lines = printed(words, "sections", turns=turns)
    found = [line.split()[1:] for line in lines if line[0] == "S"]
    history = [line for line in lines if line[0] == "J"]
    # The puts were made one after another: each pass's number as the key, with the values 1 and 2.
    if history != [f"J {2 * n + i} {n} {i} {n} {i}" for n in range(4) for i in (1, 2)]:
        return f"the history is {history}", None
    if [fields[0] for fields in found] != ["0", "1", "2", "3"]:
        return f"{len(found)} passes have counted: {lines[:1]}", None
    for number, (_, meetings, looked, falls, *words_of) in enumerate(found):
        others = [other for other in range(5) if other != number]
        wanted = 8 + 4 * sum(turn % 5 != number for turn in range(turns))
        if (meetings, int(looked), falls) != ("4", wanted, "0"):
            return f"pass {number}: {meetings} meetings, {looked} looks and not {wanted}, {falls} falls", None
        looks += wanted
        for other in others:
            first, last = map(int, words_of[other].split(":"))
            rise = 8 * turns if other < 4 else 0
            if last - first != rise or first % 2 != (other == 4):
                return f"pass {number} found {first} and then {last} at pass {other}", None
    return None, {"looks": looks}


def run_while_waiting(words, _seed):
    """A run on one processor in which all passes but one wait for that one: what is wrong, and how many waited."""
    processor = min(os.sched_getaffinity(0))

    def limited():
        os.sched_setaffinity(0, {processor})
        resource.setrlimit(resource.RLIMIT_CPU, (words.seconds, words.seconds))

    ended = subprocess.run(
        [words.program, "waits", "turns", str(words.waits)], capture_output=True, text=True, preexec_fn=limited
    )
    if ended.returncode != 0:
        return f"status {ended.returncode}, with {words.seconds} seconds of one processor", None
    answers = [line.split() for line in ended.stdout.splitlines()]
    if [fields[:2] for fields in answers] != [["W", str(number)] for number in range(16)]:
        return f"{answers[:1]}", None
    found = [int(fields[2]) for fields in answers]
    # The update that stopped has place 2. A snapshot that was opened before has the value before it.
    if found[0] != 2 or found[1:9] != [50] * 8 or sorted(found[9:]) != list(range(3, 10)):
        return f"the passes have {found}", None
    return None, {"waits": 15}


def main():
    parser = argparse.ArgumentParser()
    parser.add_argument("program")
    for name, value in (
        ("runs", 10), ("passes", 4), ("keys", 16), ("requests", 2000), ("updates", 60), ("listings", 10),
        ("page", 10), ("seed", 1), ("seconds", 60), ("least-met", 0), ("least-made", 0), ("turns", 3),
        ("meanwhile", 0),
    ):
        parser.add_argument(f"--{name}", type=int, default=value)
    for name in ("nodes", "entries", "held", "visits", "few", "far", "sections", "waits"):
        parser.add_argument(f"--{name}", type=int)
    for name in ("tries", "puts", "deep"):
        parser.add_argument(f"--{name}", action="store_true")
    words = parser.parse_args()
    make = run_of_requests
    if words.held is not None:
        make = run_while_held
    elif words.visits is not None:
        make = run_beside_visits
    elif words.few is not None:
        make = run_with_few_slots
    elif words.far is not None:
        make = run_of_far_removals
    elif words.deep:
        make = run_in_a_deep_tree
    elif words.sections is not None:
        make = run_in_sections
    elif words.waits is not None:
        make = run_while_waiting
    elif words.tries:
        make = run_of_tries
    sums = defaultdict(int)
    for run in range(words.runs):
        seed = words.seed + run * 1000
        wrong, counts = make(words, seed)
        if wrong:
            sys.exit(f"seed {seed}: {wrong}")
        for name, count in counts.items():
            sums[name] += count
    for name in ("busy", "moved", "pending"):
        if words.tries and sums[name] < words.least_met:
            sys.exit(f"{sums[name]} tries were answered {name}, and {words.least_met} were wanted")
    if sums.get("not emptied", 0) == words.runs:
        sys.exit(f"none of the {words.runs} runs was emptied")
    told = ", ".join(f"{count} {name}" for name, count in sums.items())
    print(f"{words.runs} runs, none wrong: {told}")


if __name__ == "__main__":
    main()
