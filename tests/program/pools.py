#!/usr/bin/env python3
"""Runs clients that put keys next to clients that take them out, with slots of their own and with a pool of them.

    tests/program/pools.py PROGRAM [--runs N] [--pairs N] [--slots N] [--puts N] [--look LINE] [--looks N] [--sweeps N]
                   [--most-share X] [--model-every N]

Of each pair one client puts names of its own, with so many looks after each; the other deletes the same names again and
again, with a quarter as many looks after each sweep. A look takes some ten microseconds, so each client has many turns on
its processor: else most clients would have put all their names before the other one of the pair runs at all. The runs
without a pool and with one take turns. Each text is checked to be that of a legal run by the program's own `check --slots
N`, and one in so many by legal_runs.py (with 0 none), which takes a hundred times as long. It reports how many requests
are refused because slots ran out, and ends with status 1 where a text is not legal, or where with a pool more than that
share of those without are refused.
"""
import argparse
import statistics
import subprocess
import sys
from pathlib import Path

sys.path.insert(0, str(Path(__file__).resolve().parent.parent / "models"))
from legal_model import fault_of, rule_of
from running import make_ready, text_of

REFUSED = '"Status":503}'
OPTIONS = ("--slots", "--pool")


def session_of(pairs, puts, look, looks, sweeps):
    """The clients of a pair stand side by side, so that their threads start so."""
    parts = []
    for pair in range(pairs):
        names = ["w%d/%d" % (pair, at) for at in range(puts)]
        parts.append("".join("PUT %s 1 e 1\n" % name + look * looks for name in names))
        parts.append(("".join("DELETE %s\n" % name for name in names) + look * (looks // 4)) * sweeps)
    return "".join("CLIENT\n" + part for part in parts).encode()


def check(program, session, text, slots, by_model):
    """Ends the script where the text is of no legal run."""
    words = [program, "check", "--slots", str(slots)]
    told = subprocess.run(words, input=session + b"----\n" + text.encode(), capture_output=True)
    if (told.returncode, told.stdout) != (0, b'{"Legal":true}\n'):
        sys.exit("check: status %d, %s" % (told.returncode, told.stderr.decode()))
    fault = fault_of(session, text, rule_of(slots)) if by_model else None
    if fault:
        sys.exit("no legal run: " + fault)


def refused(program, session, slots, runs, every):
    """How many requests each run refuses, of those without a pool and of those with one."""
    counts = {option: [] for option in OPTIONS}
    for run in range(runs):
        for option in OPTIONS:
            text = text_of(program, session, 60, slots, option)
            check(program, session, text, slots, every and run % every == 0)
            counts[option].append(text.count(REFUSED))
    return counts


def main():
    parser = argparse.ArgumentParser(description=__doc__.split("\n")[0])
    parser.add_argument("program")
    parser.add_argument("--runs", type=int, default=100)
    parser.add_argument("--pairs", type=int, default=16)
    parser.add_argument("--slots", type=int, default=8)
    parser.add_argument("--puts", type=int, default=12)
    parser.add_argument("--look", default="LIST delimiter=/&max-keys=20")
    parser.add_argument("--looks", type=int, default=250)
    parser.add_argument("--sweeps", type=int, default=72)
    parser.add_argument("--most-share", type=float, default=0.25)
    parser.add_argument("--model-every", type=int, default=100)
    options = parser.parse_args()
    make_ready(options.program)
    session = session_of(options.pairs, options.puts, options.look + "\n", options.looks, options.sweeps)
    counts = refused(options.program, session, options.slots, options.runs, options.model_every)
    for option, of_runs in counts.items():
        figures = (min(of_runs), statistics.median(of_runs), statistics.mean(of_runs), max(of_runs))
        told = "%s %d, %d legal runs: refused are " % (option, options.slots, len(of_runs))
        print(told + "%d at least, %d in the median, %.1f in the mean, %d at most" % figures)
    alone, pooled = (statistics.mean(counts[option]) for option in OPTIONS)
    if pooled > options.most_share * alone:
        sys.exit("more than %.2f of those without a pool" % options.most_share)


if __name__ == "__main__":
    main()
