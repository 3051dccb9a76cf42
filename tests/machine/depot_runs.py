#!/usr/bin/env python3
"""Threads at a depot by itself: each tag that was given was taken or left once.

    tests/machine/depot_runs.py PROGRAM [--runs N] [--seats S] [--room R] [--parcels P] [--seconds S]

PROGRAM is the built `crates/depot_runs`. Each run is a process of its own, with a bound on its seconds. So many
parcels are given from the seats, and some of them taken, each seat on a thread of its own; then the depot is closed.
Of what is printed this is checked:

- each tag below P was given once, from one seat;
- each tag that was given stands once among those that were taken and those that were left, and no other tag does;
- what each seat reports that it gave and took are as many tags as it lists;
- no more parcels are left than the depot holds.

How many looks have found the depot empty and full is reported.
"""
import argparse
import subprocess
import sys
from collections import Counter


def checked(lines, words):
    """What is wrong with a run, or None; and how many parcels were taken and left, and how many looks found what."""
    gave, took, left, told = Counter(), Counter(), Counter(), {}
    by_seat = Counter()
    for line in lines:
        kind, *fields = line.split()
        if kind == "S":
            told[fields[0]] = [int(field) for field in fields[1:]]
        elif kind == "L":
            left[fields[0]] += 1
        elif kind in "GT":
            (gave if kind == "G" else took)[fields[1]] += 1
            by_seat[kind, fields[0]] += 1
        else:
            return f"{line}", None
    if len(told) != words.seats:
        return f"{len(told)} seats have reported", None
    for seat, (given, taken, *_) in told.items():
        if (given, taken) != (by_seat["G", seat], by_seat["T", seat]):
            return f"seat {seat} reports {given} and {taken}, and lists {by_seat['G', seat]} and {by_seat['T', seat]}", None
    if gave != Counter(map(str, range(words.parcels))):
        return f"{len(gave)} tags were given, {gave.most_common(1)} the most often", None
    if took + left != gave:
        odd = (took + left) - gave or gave - (took + left)
        return f"{sum(odd.values())} tags, {next(iter(odd))} among them, were not taken or left as often as given", None
    if sum(left.values()) > words.room:
        return f"{sum(left.values())} parcels are left", None
    empties, fulls = (sum(counts[place] for counts in told.values()) for place in (2, 3))
    return None, Counter(given=sum(gave.values()), taken=sum(took.values()), left=sum(left.values()), empty=empties, full=fulls)


def main():
    parser = argparse.ArgumentParser()
    parser.add_argument("program")
    for name, value in (("runs", 1), ("seats", 8), ("room", 64), ("parcels", 1_000_000), ("seconds", 120)):
        parser.add_argument(f"--{name}", type=int, default=value)
    words = parser.parse_args()
    sums = Counter()
    for run in range(words.runs):
        numbers = (words.seats, words.room, words.parcels)
        try:
            ended = subprocess.run(
                [words.program, *map(str, numbers)], capture_output=True, text=True, timeout=words.seconds
            )
        except subprocess.TimeoutExpired:
            sys.exit(f"run {run}: it had not ended after {words.seconds} seconds")
        if ended.returncode != 0:
            sys.exit(f"run {run}: status {ended.returncode}: {ended.stderr}")
        wrong, counts = checked(ended.stdout.splitlines(), words)
        if wrong:
            sys.exit(f"run {run}: {wrong}")
        sums += counts
    told = ", ".join(f"{sums[name]} {name}" for name in ("given", "taken", "left"))
    print(f"{words.runs} runs, none wrong: {told}; {sums['empty']} looks found it empty, {sums['full']} full")


if __name__ == "__main__":
    main()
