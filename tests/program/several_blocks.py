#!/usr/bin/env python3
"""Sessions whose lines are read in several blocks at once, against a model that reads them one after another.

    tests/program/several_blocks.py PROGRAM [--sessions N] [--seed N]

A block has at least 256 KiB: `BLOCK_BYTES` of crates/request_lines/src/blocks.rt. A session has eight to twelve of
them, so a machine with four threads reads them in several rounds. Of two out of three sessions up to four lines are
faulty, in the same block or in several, or pass a limit; the first one is to be reported, with its first cause. The
first session that the program answers or refuses otherwise is reported, and the status is 1 then.
"""
import argparse
import collections
import random
import subprocess
import sys
from pathlib import Path

sys.path.insert(0, str(Path(__file__).resolve().parent.parent / "models"))
from hostile_sessions import FAULTY_LINES, outcome

BLOCK = 1 << 18


def key_of(rng, keys):
    return rng.choice(keys)


def good_line(rng, keys, number):
    kind = rng.randrange(20)
    if kind < 3:
        return b"PUT %s %d e%d %d" % (key_of(rng, keys), number, number, number)
    if kind == 3:
        return b"DELETE " + key_of(rng, keys)
    if kind == 4:
        return rng.choice([b"", b"\r", b"LIST max-keys=1", b"NEXT", b"LIST max-keys=2&prefix=" + keys[0][:40]])
    return b"HEAD " + key_of(rng, keys) + rng.choice([b"", b"", b"", b"\r"])


def at_a_border(lines, border):
    """With a line more, so that its line feed is the byte of the input with this number, counted from 0: the first byte
    that a search after a block's bytes looks at."""
    size = 0
    for at, line in enumerate(lines):
        if 5 < border - size <= 1029:
            return lines[:at] + [b"HEAD ".ljust(border - size, b"k")] + lines[at:]
        size += len(line) + 1
    raise ValueError("no place for a line at the border")


def session_of(rng):
    keys = [(b"k%d/" % number).ljust(rng.randint(300, 1000), b"x") for number in range(50)]
    lines, size, most = [b"CLIENT"], 7, rng.randint(8, 12) * BLOCK
    while size < most:
        lines.append(good_line(rng, keys, len(lines)))
        size += len(lines[-1]) + 1
    lines = at_a_border(lines, rng.choice([BLOCK - 1, BLOCK, BLOCK + 1]))
    faults = rng.choice(["none", "lines", "lines", "limit"])
    if faults == "lines":
        for _ in range(rng.randint(1, 4)):
            lines.insert(rng.randint(1, len(lines)), rng.choice(FAULTY_LINES))
    if faults == "limit":
        what = rng.choice(["no client", "clients", "entries"])
        if what == "no client":
            lines[0] = rng.choice([b"", b"\r", lines[1]])
        elif what == "clients":
            for _ in range(32):
                lines.insert(rng.randint(1, len(lines)), b"CLIENT")
        else:
            at = rng.randint(1, len(lines))
            lines[at:at] = [b"LIST"] * 4100
    return b"\n".join(lines) + rng.choice([b"", b"\n", b"\r\n"])


def plain_session():
    """Five blocks of lines with few names, each of which lies in its value."""
    keys = [(b"blocks/%03d/" % number).ljust(60, b"b") for number in range(100)]
    puts = [b"PUT %s %d e%d %d" % (key, number, number, number) for number, key in enumerate(keys)]
    heads = [b"HEAD " + keys[number * 7 % 100] for number in range(5 * BLOCK // 66)]
    return b"\n".join([b"CLIENT", *puts, *heads, b"LIST max-keys=3", b""])


def main():
    parser = argparse.ArgumentParser(description=__doc__, formatter_class=argparse.RawDescriptionHelpFormatter)
    parser.add_argument("program")
    parser.add_argument("--sessions", type=int, default=40)
    parser.add_argument("--seed", type=int, default=0)
    given = parser.parse_args()
    seen = collections.Counter()
    for seed in range(given.seed, given.seed + given.sessions):
        raw = session_of(random.Random(seed))
        wanted = outcome(raw)
        ran = subprocess.run([given.program, "run"], input=raw, capture_output=True)
        got = ran.returncode, ran.stdout.decode(), ran.stderr.decode()
        if got[0] != wanted[0] or got[2] != wanted[2] or (wanted[1] is not None and got[1] != wanted[1]):
            print("session %d: status %d for %d, %r for %r" % (seed, got[0], wanted[0], got[2][:200], wanted[2][:200]))
            return 1
        seen[wanted[2].split()[-1] if wanted[0] else "answered"] += 1
    if "answered" not in seen or len(seen) < 4:
        print("too few kinds of ends: %s" % dict(seen))
        return 1
    print("%d sessions of several blocks: %s" % (given.sessions, ", ".join("%s %d" % end for end in sorted(seen.items()))))
    return 0


if __name__ == "__main__":
    sys.exit(main())
