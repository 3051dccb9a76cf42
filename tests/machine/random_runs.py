#!/usr/bin/env python3
"""Runs the pure machine on long random lists of events, and compares it with a model of the words.

    tests/machine/random_runs.py PROGRAM [--runs N] [--events N] [--seed N] [--inserts]

Several seats put, remove and look up keys at once, by the procedures of a Citrus tree with bundled
references; a scheduler lets one of them make its next step. A seat announces before it reads, and cuts
bundles of nodes that it has locked where nobody can select the rest any more. The model keeps the words by
itself. Whenever a seat has a section number, and at the stamp, the words must spell the tree of the map
after so many updates. PROGRAM reads the sizes and the events, and prints the words at the end, or the first
event that it refuses. Events without which a later one must be refused are left out, and cuts are moved to
an entry too far in front. The model shares no code with PROGRAM. The script ends with status 1 at the first
difference.
"""
import argparse
import random
import subprocess
import sys
from collections import Counter
from itertools import chain
from pathlib import Path

sys.path.insert(0, str(Path(__file__).resolve().parent.parent / "models"))
import search_model
from table_seats import Seat
from table_words import LEFT, LOCK, RIGHT, Refused, Table


def check(table, seats):
    """The words spell the map after each number that is read at, and at the stamp."""
    for number in {table.words[0]} | {seat.at for seat in seats if seat.at is not None}:
        got, wanted = table.pairs(number), sorted(table.maps[number].items())
        if got != wanted:
            raise Refused("at %d the words spell %r, and the map is %r" % (number, got, wanted))
    slots = table.slots(table.words[0])
    owned = [slot for seat in seats for slot in seat.free[0] + seat.retired[0] + seat.batch[0]]
    assert len(set(slots)) == len(slots) and not set(slots) & set(owned)


def check_links(table, seats):
    """Each plain link of the tree leads where the tree does, but where a seat has still to set it; tags lie below
    numbers."""
    stamp = table.words[0]
    nodes = table.slots(stamp)
    links = {(0, RIGHT)} | {(node, side) for node in nodes for side in (LEFT, RIGHT)}
    unset = {(node, side): (seat, was, child) for seat in seats for node, side, was, child in seat.unset}
    owed = Counter(link for seat in seats for link in seat.owed)
    for link in set(unset) | set(owed):
        assert link in links, "a link that is still to be set is none of the tree"
    for node, side in links:
        now, word = table.selected(node, side, stamp), table.words[table.link(node, side)]
        if (node, side) in unset:
            seat, was, child = unset[node, side]
            held = table.words[table.node(node, LOCK)] == seat.number + 1
            right = held and (word, now) == (was, child) and was != child
        else:
            right = word == now
        if not right or table.words[table.tag(node, side)] + owed[node, side] > table.newest(node, side):
            raise Refused("the plain link of %d on %d holds %d, and the tree has %d" % (node, side, word, now))


def random_run(rng, count, inserts):
    most = (40, 90) if inserts else (12, 60)
    sizes = [(rng.randint(2, most[0]), rng.randint(8, most[1]), count) for _ in range(rng.randint(1, 4))]
    table, seats, node, entry = Table(sizes, inserts), [], 1, 1
    for number, size in enumerate(sizes):
        seats.append(Seat(table, rng, number, node, entry))
        node, entry = node + size[0], entry + size[1]
    keys = rng.choice([30, 60, 200] if inserts else [3, 6, 10])
    table.most_key = keys
    lives = [seat.live(keys) for seat in seats]
    steps = 0
    while len(table.events) < count:
        next(lives[rng.randrange(len(seats))])
        steps += 1
        check_links(table, seats)
        search_model.check_searches(table, seats)
        if steps % 17 == 0:
            check(table, seats)
    return table


def nested_run(rng, count):
    """Two removals wait, the second one of the node with which the first replaced its own; then all seats go on at random.

    By the procedures the second one would be stopped at the successor of the first, which is locked. So it has locked
    the link to its own successor before, on its way past that node."""
    sizes = [(14, 60, count)] * 4
    table, seats = Table(sizes, False), []
    for number in range(4):
        seats.append(Seat(table, rng, number, 1 + 14 * number, 1 + 60 * number))
    table.most_key = keys = 12

    def run(life, until=lambda: False):
        for _ in life:
            check_links(table, seats)
            search_model.check_searches(table, seats)
            if until():
                return

    def answered(seat, key, change):
        done = False
        while not done:
            done = yield from seat.try_update(0, key, change)

    def waits(seat):
        return lambda: seat.last and not seat.is_inside() and len(seat.unset) == 1

    table.inserts = True
    for key in (2, 0, 10, 4, 8, 6):
        run(answered(seats[3], key, key))
    table.inserts, ahead = False, []
    run(seats[1].lock_ahead(6, ahead))
    first, second = seats[0].remove_deep(2), seats[1].remove_above(4, *ahead)
    run(first, waits(seats[0]))
    run(second, waits(seats[1]))
    assert seats[0].last and seats[1].last
    lives = [chain(first, seats[0].live(keys)), chain(second, seats[1].live(keys))]
    lives += [seat.live(keys) for seat in seats[2:]]
    for _ in range(rng.randrange(120)):
        next(lives[2 if rng.random() < 0.9 else 3])
        check_links(table, seats)
        search_model.check_searches(table, seats)
    while len(table.events) < count:
        next(lives[rng.randrange(4)])
        check_links(table, seats)
        search_model.check_searches(table, seats)
    return table


# An event of the first kind must not be left out before the seat's next event of the second, in the same section.
NEEDED_BY = {"Prepare": "Raise", "Mark": "Unlock", "Finalise": "Unlock", "SetLink": "Unlock", "SetTag": "Unlock", "Announce": "LookAnn", "LookAnn": "Cut"}
CASES = {"insert", "replace", "remove, 0 children", "remove, 1 children", "remove, 2 children, deep", "remove, 2 children, right child"}
WAITS = {"waits"}
CUTS = {"cut, after an older reader", "cut, after the newest entry read"}


def answer(program, sizes, events):
    """What the program says of these events."""
    text = " ".join("%d,%d,%d" % size for size in sizes) + "\n" + "".join(event + "\n" for event in events)
    done = subprocess.run([program], input=text, capture_output=True, text=True)
    return done.stdout + done.stderr


def lock_of(table, word):
    """The lock of the node of a word."""
    return word - (word - table.node(0, 0)) % 10 + LOCK


def needed_event(rng, table):
    """A random event that a later one needs, and the place of that one: for a plain link the unlock of its node."""
    events = table.events
    places = [place for place, event in enumerate(events) if event.split()[1] in NEEDED_BY and place not in table.marks]
    rng.shuffle(places)
    for place in places:
        seat, kind, word = events[place].split()[:3]
        needs = [seat, NEEDED_BY[kind]]
        if kind in ("SetLink", "SetTag"):
            needs.append(str(lock_of(table, int(word))))
        for later in range(place + 1, len(events)):
            if events[later].split()[:2] == [seat, "Leave"]:
                break
            if events[later].split()[: len(needs)] == needs:
                return place, later
    return None


def fail(run, what, said):
    print("run %d %s: %s" % (run, what, said[:400]))
    sys.exit(1)


def compare(program, rng, table, run):
    """The program's answers to a run, to the run without one event, and to one with a cut too far, are as they must
    be."""
    said = answer(program, table.sizes, table.events)
    if said != " ".join(map(str, table.words)) + "\n":
        print("run %d: %s" % (run, said[:400]))
        if said.split()[:1] == ["refused"]:
            at = int(said.split()[1])
            print("\n".join(table.events[max(0, at - 12) : at + 1]))
        sys.exit(1)
    found = needed_event(rng, table)
    if found:
        place, later = found
        said = answer(program, table.sizes, table.events[:place] + table.events[place + 1 :])
        if said.split()[:1] != ["refused"] or int(said.split()[1]) > later - 1:
            fail(run, "without event %d, %s" % (place, table.events[place]), said)
    if table.unlinks:
        place, later = rng.choice(table.unlinks)
        said = answer(program, table.sizes, table.events[:place] + table.events[place + 1 : later + 1])
        if said != "refused %d\n" % (later - 1):
            fail(run, "without event %d, %s, the unlinking at %d" % (place, table.events[place], later), said)
    if table.too_far:
        place, cut = rng.choice(table.too_far)
        said = answer(program, table.sizes, table.events[:place] + [cut])
        if said != "refused %d\n" % place:
            fail(run, "with the event %d, %s, in place of %s" % (place, cut, table.events[place]), said)


def main():
    parser = argparse.ArgumentParser(description=__doc__.split("\n")[0])
    parser.add_argument("program", nargs="?")
    parser.add_argument("--runs", type=int, default=20)
    parser.add_argument("--events", type=int, default=3000)
    parser.add_argument("--seed", type=int, default=1)
    parser.add_argument("--inserts", action="store_true", help="puts of absent keys and look-ups alone")
    options = parser.parse_args()
    rng = random.Random(options.seed)
    cases, freed, cut_off = Counter(), 0, 0
    for run in range(options.runs):
        nested = run % 5 == 4 and not options.inserts
        table = nested_run(rng, options.events) if nested else random_run(rng, options.events, options.inserts)
        cases.update(table.cases)
        freed += table.freed
        cut_off += table.cut_off
        if options.program:
            compare(options.program, rng, table, run)
    missed = sorted((CASES | CUTS | WAITS) - set(cases)) + ["slots that are used again"] * (not freed) + ["entries cut off"] * (not cut_off)
    if not options.inserts and missed:
        print("not reached: %s (%s)" % (", ".join(missed), dict(cases)))
        sys.exit(1)
    counts = ", ".join("%s: %d" % case for case in sorted(cases.items()))
    told = (options.runs, options.events, counts, cut_off, freed)
    print("%d runs of %d events, all as the model (%s; entries cut off: %d; slots freed: %d)" % told, file=sys.stderr)


if __name__ == "__main__":
    main()
