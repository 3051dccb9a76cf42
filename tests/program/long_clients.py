#!/usr/bin/env python3
"""Runs one session of many clients again and again, and prints the time and the peak of memory of each run.

    tests/program/long_clients.py PROGRAM [--clients N] [--lines N] [--names N] [--runs N] [--seconds S] [--check N] [--seed N]

The session has as many lines as clients may have together, of all kinds but NEXT, over few or many names. A run that
takes more seconds than allowed is a failure, and so is one that ends otherwise than by status 0 without a word. Every
N-th text (--check) is checked to be that of a legal run, by legal_runs.py. At the end stand the number of different
texts, and by how much the peak of the last quarter of the runs is above that of the first. The peak is the greatest
resident size that the system counted for the process of a run. It is at least that of this script, in which the
process begins; so checks are processes of their own.
"""
import argparse
import hashlib
import os
import random
import subprocess
import sys
import tempfile
import threading
import time
from pathlib import Path

sys.path.insert(0, str(Path(__file__).resolve().parent.parent / "models"))
from legal_model import Fault, want
from running import make_ready

CHECKER = Path(__file__).resolve().parent / "legal_runs.py"

MOST_ENTRIES = 4_000_000


def long_session(rng, clients, lines, names):
    """A session of so many request lines in all: 100 are about 50 PUT, 20 DELETE, 28 HEAD and 2 LIST. The pages of
    all listings together stay below the limit of a session."""
    most_keys = max(1, min(20, MOST_ENTRIES // max(1, lines)))
    parts = []
    for client in range(clients):
        parts.append("CLIENT")
        for at in range(lines * client // clients, lines * (client + 1) // clients):
            parts.append(long_line(rng, "k%d" % rng.randrange(names), at, most_keys))
    return "".join(part + "\n" for part in parts).encode()


def long_line(rng, name, at, most_keys):
    kind = rng.randrange(100)
    if kind < 50:
        return "PUT %s %d e%d 1" % (name, at, at)
    if kind < 70:
        return "DELETE " + name
    if kind < 98:
        return "HEAD " + name
    return "LIST max-keys=%d&start-after=%s" % (most_keys, name)


class Ended:
    """What a run used: seconds, seconds of processors, and the peak of memory in KiB."""

    def __init__(self, wall, usage):
        self.wall, self.processors, self.peak = wall, usage.ru_utime + usage.ru_stime, usage.ru_maxrss


def run_of(program, session, text, seconds):
    """Runs the session in a process of its own, whose use of resources the system counts, and writes its text."""
    with session.open("rb") as given, text.open("wb") as taken, tempfile.TemporaryFile() as told:
        begun = time.monotonic()
        child = subprocess.Popen([program, "run"], stdin=given, stdout=taken, stderr=told)
        late = threading.Timer(seconds, child.kill)
        late.start()
        _, status, usage = os.wait4(child.pid, 0)
        late.cancel()
        wall = time.monotonic() - begun
        child.returncode = os.waitstatus_to_exitcode(status)
        told.seek(0)
        want(wall < seconds, "the run had not ended after", seconds, "seconds")
        want((child.returncode, told.read()) == (0, b""), "it ends with status", child.returncode)
        return Ended(wall, usage)


def check(session, text):
    ran = subprocess.run([sys.executable, CHECKER, "--session", session, "--text", text], capture_output=True, text=True)
    want(ran.returncode == 0, ran.stdout + ran.stderr)


def grown(peaks):
    """By how many per cent the middle peak of the last quarter is above that of the first."""
    quarter = max(1, len(peaks) // 4)
    first, last = sorted(peaks[:quarter])[quarter // 2], sorted(peaks[-quarter:])[quarter // 2]
    return 100.0 * (last - first) / first


def run_all(options, session, text):
    rng = random.Random(options.seed)
    session.write_bytes(long_session(rng, options.clients, options.lines, options.names))
    peaks, texts, checked = [], set(), 0
    for at in range(options.runs):
        ended = run_of(options.program, session, text, options.seconds)
        peaks.append(ended.peak)
        with text.open("rb") as file:
            texts.add(hashlib.file_digest(file, "sha256").digest())
        told = ""
        if at % options.check == 0:
            check(session, text)
            checked, told = checked + 1, ", legal"
        figures = (at + 1, ended.wall, ended.processors, ended.peak / 1024, told)
        print("run %d: %.1f s, %.1f s of processors, peak %.1f MiB%s" % figures, flush=True)
    print("%d runs, %d different texts; %d checked, all legal" % (options.runs, len(texts), checked))
    figures = (min(peaks) / 1024, max(peaks) / 1024, grown(peaks))
    print("peaks from %.1f to %.1f MiB; the middle one of the last quarter is %+.1f %% above the first quarter's" % figures)


def main():
    parser = argparse.ArgumentParser(description=__doc__.split("\n")[0])
    parser.add_argument("program")
    parser.add_argument("--clients", type=int, default=32)
    parser.add_argument("--lines", type=int, default=200_000)
    parser.add_argument("--names", type=int, default=20_000)
    parser.add_argument("--runs", type=int, default=20)
    parser.add_argument("--seconds", type=int, default=120)
    parser.add_argument("--check", type=int, default=10)
    parser.add_argument("--seed", type=int, default=9)
    options = parser.parse_args()
    make_ready(options.program)
    with tempfile.TemporaryDirectory() as made:
        try:
            run_all(options, Path(made) / "session", Path(made) / "text")
        except Fault as fault:
            sys.exit(str(fault))


if __name__ == "__main__":
    main()
