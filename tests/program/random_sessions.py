#!/usr/bin/env python3
"""Compares the program with a model of the definitions on random sessions of one client.

    tests/program/random_sessions.py PROGRAM [--sessions N] [--seed N] [--hostile] [--tokens]

The model is bucket_model.py, which is written from docs/DEFINITIONS.md and shares no code with the program. The script
prints the first session that the program answers otherwise, and ends with status 1 then. With `--hostile` the sessions
are broken first, as `hostile_sessions.py` does it, and one session below, at and above each limit follows. With
`--tokens` nearly each listing has a continuation token, many of them broken or of another listing.
"""
import argparse
import collections
import itertools
import random
import subprocess
import sys
from pathlib import Path

sys.path.insert(0, str(Path(__file__).resolve().parent.parent / "models"))
from hostile_sessions import CAUSES, broken, limit_sessions, outcome
from legal_model import fault_of
from one_client import Session
from running import first_difference, make_ready


def check(program, session, wanted_status, wanted, wanted_error):
    """Runs the session, and ends with status 1 where the program does otherwise. Where no text is wanted, what it
    writes is to be of a legal run."""
    run = subprocess.run([program, "run"], input=session, capture_output=True)
    got, error = run.stdout.decode(), run.stderr.decode()
    if wanted is None and run.returncode == 0:
        fault = fault_of(session, got)
        wanted = "(a legal run: %s)\n" % fault if fault else got
    if (run.returncode, error, got) != (wanted_status, wanted_error, wanted):
        print(repr(session[:4000]) if wanted_status else session[:100_000].decode())
        print("status %d for %d, standard error %r for %r" % (run.returncode, wanted_status, error, wanted_error))
        if got != wanted:
            print(first_difference(got, wanted))
        sys.exit(1)


def hostile(options, rng):
    """Broken sessions, and one below, at and above each limit; each cause comes at least once."""
    made = (broken(rng, Session(rng).input().encode()) for _ in range(options.sessions))
    ends = collections.Counter()
    for session in itertools.chain(made, limit_sessions()):
        status, text, error = outcome(session)
        check(options.program, session, status, text, error)
        ends[error.split(":")[-1].strip() or "accepted"] += 1
    missing = [cause for cause in CAUSES if not ends[cause]]
    told = ", ".join("%s %d" % end for end in ends.most_common())
    print("%d hostile sessions: all end as the model does; %s" % (sum(ends.values()), told), file=sys.stderr)
    if missing:
        print("no session had the cause " + ", ".join(missing))
        sys.exit(1)


def main():
    parser = argparse.ArgumentParser(description=__doc__.split("\n")[0])
    parser.add_argument("program")
    parser.add_argument("--sessions", type=int, default=1000)
    parser.add_argument("--seed", type=int, default=7)
    parser.add_argument("--hostile", action="store_true")
    parser.add_argument("--tokens", action="store_true")
    options = parser.parse_args()
    make_ready(options.program)
    rng = random.Random(options.seed)
    if options.hostile:
        return hostile(options, rng)
    requests, tokens = 0, collections.Counter()
    for _ in range(options.sessions):
        session = Session(rng, 0.9) if options.tokens else Session(rng)
        requests += len(session.lines) - 1
        tokens.update(session.model.tokens)
        check(options.program, session.input().encode(), 0, session.model.text(), "")
    print("%d sessions, %d requests: all answered as the model does" % (options.sessions, requests), file=sys.stderr)
    print("tokens of listings: " + ", ".join("%s %d" % kind for kind in sorted(tokens.items())), file=sys.stderr)


if __name__ == "__main__":
    main()
