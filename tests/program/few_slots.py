#!/usr/bin/env python3
"""Runs clients that have few node slots through many updates, and reports how many requests were refused because these ran out.

    tests/program/few_slots.py PROGRAM [--runs N]

Each text is checked to be that of a legal run, by legal_model.py. It ends with status 1 where one is not, or where
- a client that puts and deletes one key in two slots, alone or next to clients that only list, is refused;
- the same client in one slot is not refused after its first put;
- a client that replaces one key next to one that lists takes more than three times as long with two slots as with ample
  ones, or is refused;
- clients that put and delete two keys of their own each, 10,000 lines in no fixed order, are refused more often than once
  in 500 lines, or one of them in its last tenth: four of three, four and eight slots, alone and next to clients that list
  and then end, and 32 of four slots;
- a client that puts four names again and again, next to one that deletes them all the while, with a pool of eight slots
  each, is refused more often than once in 500 puts;
- 32 clients of 200,000 puts in all, with 8 slots each, take more memory than with ample slots, or more than twice as much
  as for as many lines that only look.
How often clients are refused that put and delete the same key depends on the schedule, and is only reported.
"""
import argparse
import json
import os
import random
import statistics
import subprocess
import sys
import tempfile
import time
from pathlib import Path

sys.path.insert(0, str(Path(__file__).resolve().parent.parent / "models"))
from legal_model import fault_of, rule_of
from running import make_ready, text_of, words_of

REFUSED = '"Status":503}'
PUT_AND_DELETE = "PUT a 1 e1 1\nDELETE a\n" * 10_000


def clients(*parts):
    return "".join("CLIENT\n" + part for part in parts).encode()


def run(program, session, slots):
    """The text, the seconds and the peak of memory in KiB of a run."""
    with tempfile.TemporaryFile() as given, tempfile.TemporaryFile() as taken:
        given.write(session)
        given.seek(0)
        begun = time.monotonic()
        child = subprocess.Popen([program, *words_of(slots)], stdin=given, stdout=taken)
        _, status, usage = os.wait4(child.pid, 0)
        seconds = time.monotonic() - begun
        child.returncode = os.waitstatus_to_exitcode(status)
        if child.returncode:
            sys.exit("status %d" % child.returncode)
        taken.seek(0)
        return taken.read().decode(), seconds, usage.ru_maxrss


def legal_text(program, session, slots):
    """The text of a run that is seen to be legal."""
    text = run(program, session, slots)[0]
    fault = fault_of(session, text, rule_of(slots))
    if fault:
        sys.exit("no legal run: " + fault)
    return text


def refused(program, session, slots):
    """How many requests are refused for lack of slots."""
    return legal_text(program, session, slots).count(REFUSED)


def refused_lines(text):
    """The refused lines of a text, as pairs of a client and a line."""
    replies = (json.loads(line) for line in text.splitlines() if line.endswith(REFUSED))
    return [(reply["Client"], reply["Line"]) for reply in replies]


def expect(what, got, holds):
    print("%s: %s" % (what, got), flush=True)
    if not holds:
        sys.exit("this was not to be")


def try_one_key(program, runs):
    counts = [refused(program, clients(PUT_AND_DELETE), 2) for _ in range(runs)]
    expect("one key put and deleted 10,000 times in two slots, refused", counts, not any(counts))
    count = refused(program, clients(PUT_AND_DELETE), 1)
    expect("the same in one slot", count, count == 19_999)
    for listers, lists in (1, 20_000), (7, 3_000), (31, 1_500):
        others = ["LIST max-keys=60\n" * lists] * listers
        counts = [refused(program, clients(PUT_AND_DELETE, *others), 2) for _ in range(runs)]
        expect("the same in two slots, next to %d clients that list" % listers, counts, not any(counts))
    counts = [refused(program, clients(PUT_AND_DELETE, PUT_AND_DELETE), 2) for _ in range(runs)]
    expect("two clients that put and delete the same key so, in two slots each, of 40,000 requests", counts, True)


def try_replacing(program, runs):
    for puts, lists in (190_000, 10_000), (100_000, 100_000):
        putting = "".join("PUT a %d e1 1\n" % at for at in range(puts))
        session = clients(putting, "LIST max-keys=1\n" * lists)
        few = statistics.median(run(program, session, 2)[1] for _ in range(runs))
        ample = statistics.median(run(program, session, None)[1] for _ in range(runs))
        what = "one key replaced %d times next to %d listings, seconds with two slots and with ample ones" % (puts, lists)
        expect(what, "%.2f, %.2f" % (few, ample), few <= 3 * ample)
        count = refused(program, session, 2)
        expect("refused", count, count == 0)


def keys_of_its_own(chance, client, lines):
    """Lines of a client that puts and deletes two keys of its own, in no fixed order."""
    keys = ["c%d/%d" % (client, at) for at in range(2)]
    verbs = ["PUT %s 1 e1 1\n", "DELETE %s\n"]
    return "".join(chance.choice(verbs) % chance.choice(keys) for _ in range(lines))


def last_tenths(parts):
    """The lines at which the last tenth of each client begins."""
    starts, line = [], 0
    for part in parts:
        lines = part.count("\n")
        starts.append(line + 2 + lines - lines // 10)
        line += 1 + lines
    return starts


def try_own_keys(program, runs):
    """Each client needs two slots for its keys, and one more for an update."""
    for count, lines, slots, listers in (4, 10_000, 3, 0), (4, 10_000, 4, 0), (4, 10_000, 8, 0), (4, 10_000, 4, 2), (32, 2_000, 4, 0):
        refusals, late = [], 0
        for seed in range(runs):
            chance = random.Random(seed)
            parts = [keys_of_its_own(chance, client, lines) for client in range(count)]
            ends = last_tenths(parts)
            pairs = refused_lines(legal_text(program, clients(*parts, *["LIST max-keys=60\n" * 1_000] * listers), slots))
            refusals.append(len(pairs))
            late += len({client for client, line in pairs if line >= ends[client]})
        what = "two keys of its own put and deleted by each of %d clients in %d slots, %d that list beside" % (count, slots, listers)
        expect(what + ", refused of %d lines" % (count * lines), refusals, 500 * sum(refusals) < runs * count * lines)
        expect("clients refused in their last tenth", late, late == 0)


def try_pair(program, runs):
    """Eight slots for keys each suffice for four names, so only slots for versions can run out."""
    look, names = "LIST max-keys=20\n", ["w%d" % at for at in range(4)]
    putting = "".join("PUT %s 1 e1 1\n" % names[at % 4] + look * 10 for at in range(4_000))
    deleting = ("".join("DELETE %s\n" % name for name in names) + look) * 25_000
    session, refusals = clients(putting, deleting), []
    for _ in range(runs):
        text = text_of(program, session, 60, 8, "--pool")
        fault = fault_of(session, text, rule_of(8))
        if fault:
            sys.exit("no legal run: " + fault)
        refusals.append(text.count(REFUSED))
    what = "four names put 4,000 times next to a client that deletes them, with a pool of eight slots each, refused"
    expect(what, refusals, 500 * sum(refusals) < runs * 4_000)


def try_memory(program):
    lines = "".join("PUT k%d 1 e1 1\n" % (at % 7) for at in range(200_000 // 32))
    few, ample = (run(program, clients(*[lines] * 32), slots)[2] for slots in (8, None))
    idle = run(program, clients(*["HEAD k\n" * (200_000 // 32)] * 32), None)[2]
    what = "KiB that 32 clients of 6,250 puts take with 8 slots, with ample ones, and with lines that only look"
    expect(what, (few, ample, idle), few < min(ample, 2 * idle))


def main():
    parser = argparse.ArgumentParser(description=__doc__.split("\n")[0])
    parser.add_argument("program")
    parser.add_argument("--runs", type=int, default=5)
    options = parser.parse_args()
    make_ready(options.program)
    # First: a peak is at least that of this script, in which the process of the program begins.
    try_memory(options.program)
    try_one_key(options.program, options.runs)
    try_own_keys(options.program, options.runs)
    try_pair(options.program, options.runs)
    try_replacing(options.program, options.runs)


if __name__ == "__main__":
    main()
