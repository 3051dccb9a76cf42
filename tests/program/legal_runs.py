#!/usr/bin/env python3
"""Checks that what the program writes for several clients is a legal run of its session.

    tests/program/legal_runs.py PROGRAM [--sessions N] [--most-clients N] [--requests N] [--seed N] [--seconds S]
                        [--names N] [--least-interleaved N] [--rounds N] [--contenders N] [--whole] [--slots N]
                        [--pool N] [--least-clients N]
    tests/program/legal_runs.py --session FILE --text FILE [--slots N]

Which of several legal texts is written depends on the schedule, so nothing is compared here:
legal_model.py says what is wrong with a text, from the definition of a legal run in docs/DEFINITIONS.md alone.
The first form runs random sessions, with few names and with many, and ends with status 1 at the first faulty text, or
at the first run that takes too many seconds. It counts the texts that no run of the clients one after another writes,
and ends with status 1 too where there are fewer of them than asked for. With --rounds each session is the same: two
clients that put the same seven names, list them and remove them, each so many times. With --contenders so many
clients put one name once, each where it is not there: exactly one of them is answered 200, and all others 412. With
--whole each session has as many clients, requests of each client and names as it may have at most. With --slots each
client has so many node slots, by the program's option, and may be refused once these run out. With --pool it has so
many too, and clients hand spare ones to one another.
"""
import argparse
import random
import sys
from pathlib import Path

sys.path.insert(0, str(Path(__file__).resolve().parent.parent / "models"))
from legal_model import Fault, fault_of, legal_run_of, rule_of, want
from many_clients import contending_session, random_session, rounds_session
from running import make_ready, text_of


def session_of(rng, options):
    if options.rounds:
        return rounds_session(options.rounds)
    if options.contenders:
        return contending_session(options.contenders)
    return random_session(rng, options)


def check_contention(run):
    """Exactly one client has put the name."""
    statuses = sorted(reply["Status"] for replies in run.replies for reply in replies)
    want(statuses == [200] + [412] * (len(statuses) - 1), "one of", len(statuses), "is to be answered 200:", statuses)


def run_sessions(options):
    rng, requests, interleaved, refused = random.Random(options.seed), 0, 0, 0
    slots, option = (options.pool, "--pool") if options.pool else (options.slots, "--slots")
    for _ in range(options.sessions):
        raw, text = session_of(rng, options), ""
        try:
            text = text_of(options.program, raw, options.seconds, slots, option)
            run = legal_run_of(raw, text, rule_of(slots))
            if options.contenders:
                check_contention(run)
        except Fault as fault:
            sys.exit("%s\n%s\n%s" % (raw.decode(), text, fault))
        requests += len(run.by_line)
        interleaved += not run.is_one_after_another()
        refused += sum(reply["Status"] == 503 for replies in run.replies for reply in replies)
    told = "%d sessions, %d requests: each text is of a legal run, and %d are of no run of the clients one after another"
    print(told % (options.sessions, requests, interleaved), file=sys.stderr)
    if slots is not None:
        print("%d requests were refused because slots ran out" % refused, file=sys.stderr)
    if interleaved < options.least_interleaved:
        sys.exit("fewer than the %d asked for" % options.least_interleaved)


def main():
    parser = argparse.ArgumentParser(description=__doc__.split("\n")[0])
    parser.add_argument("program", nargs="?")
    parser.add_argument("--sessions", type=int, default=200)
    parser.add_argument("--least-clients", type=int, default=2)
    parser.add_argument("--most-clients", type=int, default=32)
    parser.add_argument("--requests", type=int, default=40)
    parser.add_argument("--names", type=int, default=200)
    parser.add_argument("--seed", type=int, default=7)
    parser.add_argument("--seconds", type=int, default=60)
    parser.add_argument("--least-interleaved", type=int, default=0)
    parser.add_argument("--rounds", type=int, default=0)
    parser.add_argument("--contenders", type=int, default=0)
    parser.add_argument("--whole", action="store_true")
    parser.add_argument("--slots", type=int)
    parser.add_argument("--pool", type=int)
    parser.add_argument("--session")
    parser.add_argument("--text")
    options = parser.parse_args()
    if options.session:
        fault = fault_of(Path(options.session).read_bytes(), Path(options.text).read_bytes().decode(), rule_of(options.slots))
        print(fault or "legal")
        sys.exit(1 if fault else 0)
    make_ready(options.program)
    run_sessions(options)


if __name__ == "__main__":
    main()
