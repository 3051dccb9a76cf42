#!/usr/bin/env python3
"""Runs the generated session several times, and compares its summary with one worked out here; and tries words of no form.

    tests/program/samples.py PROGRAM [--times N]

For 1, 7 and 1003 requests of each client the lines are also handwritten. The model makes the requests of one client
after the other, and shares no code with the program. With bad arguments nothing is read and nothing but one line is
reported.
"""
import argparse
import json
import os
import subprocess
import sys
import tempfile

BY_HAND = {
    1: b'{"Keys":4,"Listed":0,"Requests":4,"Updates":4}\n',
    7: b'{"Keys":16,"Listed":8,"Requests":28,"Updates":16}\n',
    1003: b'{"Keys":2000,"Listed":90200,"Requests":4012,"Updates":2012}\n',
}
OTHERS = [2, 3, 4, 5, 8, 100, 403, 2000, 40000]
BAD_WORDS = [
    "", "sample", "sample 0", "sample 00", "sample 01", "sample 007", "sample 40001", "sample 4294967297", "sample +1",
    "sample -1", "sample 1x", "sample x", "sample 1 1", "sample -- 1", "sample --help", "sample -h", "sample --number 1",
    "Sample 1", "--", "--help", "-h", "help", "help run", "help sample", "-V", "--version", "run --", "run --help", "run -h",
    "run now", "run 1", "run sample 1", "run --slots", "run --slots=", "run --slots 0", "run --slots=0",
    "run --slots 8193", "run --slots=8193", "run --slots 10000", "run --slots=4294967297", "run --slots 01", "run --slots=01",
    "run --slots +1", "run --slots=+1", "run --slots -1", "run --slots 1x", "run --slots =1", "run --slots==1", "run -slots=1",
    "run --slot=1", "run --slots1", "run --Slots=1", "run --number 1", "run --slots 1 1", "run --slots 1 --slots 1",
    "run --slots=1 --slots=2", "run --slots=1 --", "run -- --slots=1", "run --slots=1 run", "run --slots 1,2", "--slots 1 run",
    "--slots=1 run", "--slots 1", "sample --slots 1", "sample 1 --slots 1", "sample --slots=1 1", "run run",
    "run --pool", "run --pool=", "run --pool 0", "run --pool=0", "run --pool 8193", "run --pool=8193", "run --pool=01", "run --pool +1",
    "run --pools=1", "run --poo 1", "run --pool1", "run --pool 1 1", "run --pool 1 --pool 1", "run --pool=1 --", "--pool 1 run",
    "run --slots 1 --pool 1", "run --pool=1 --slots=1", "run --slots --pool 1", "check --pool 1", "check --pool=1", "sample --pool 1",
    "run --slots=1 --slots=1", "run --pool 1 --slots 1", "run --slots=1 --pool=1", "check --slots", "check --slots 8193", "check run",
    "sample --slots=1",
]


def model(n):
    keys = listed = updates = 0
    for _ in range(4):
        names = set()
        for i in range(n):
            x = 389 * i % 1001
            if i % 4 < 2:
                names.add(x)
                updates += 1
            elif i % 4 == 2:
                updates += x in names
                names.discard(x)
            else:
                listed += min(len(names), 100)
        keys += len(names)
    summary = {"Keys": keys, "Listed": listed, "Requests": 4 * n, "Updates": updates}
    return json.dumps(summary, separators=(",", ":")).encode() + b"\n"


def bad_words():
    """Lists of words of no form."""
    return [words.split() for words in BAD_WORDS] + [[""], ["run", ""], ["sample", ""], ["sample", "1", ""], ["sample", " 1"],
        ["run", "--slots", ""], ["run", "--slots", "1", ""], ["run", "--slots=1", ""], ["run", "--slots= 1"], ["run", "--slots 1"],
        ["run", "--pool", ""], ["run", "--pool= 1"], ["check", ""], ["check", "--slots", ""], ["check", "--slots=1", ""]]


def try_bad_words(program):
    with tempfile.TemporaryFile() as file:
        file.write(b"CLIENT\nHEAD a\n")
        for words in bad_words():
            file.seek(0)
            ran = subprocess.run([program, *words], stdin=file.fileno(), capture_output=True)
            # The page on use, which ./bucketidx shows where the arguments ask for it, is not the program's.
            said = ran.stderr.partition(b"\nusage: ")[0]
            got = (ran.returncode, ran.stdout, said, os.lseek(file.fileno(), 0, os.SEEK_CUR))
            if got != (2, b"", b"bucketidx: bad words\n", 0):
                sys.exit("words %r\n  got %r" % (words, got))
    return len(bad_words())


def try_full_device(program):
    with open("/dev/full", "wb") as full:
        ran = subprocess.run([program, "sample", "7"], stdin=subprocess.DEVNULL, stdout=full, stderr=subprocess.PIPE)
    if (ran.returncode, ran.stderr) != (6, b"bucketidx: write fault\n"):
        sys.exit("sample 7 on a full device: status %d, %r" % (ran.returncode, ran.stderr))


def main():
    parser = argparse.ArgumentParser(description=__doc__, formatter_class=argparse.RawDescriptionHelpFormatter)
    parser.add_argument("program")
    parser.add_argument("--times", type=int, default=3)
    args = parser.parse_args()
    rows = {**{n: model(n) for n in OTHERS}, **BY_HAND}
    for n, wanted in rows.items():
        if model(n) != wanted:
            sys.exit("the model differs from the handwritten line for %d" % n)
        for _ in range(args.times):
            ran = subprocess.run([args.program, "sample", str(n)], stdin=subprocess.DEVNULL, capture_output=True)
            if (ran.returncode, ran.stdout, ran.stderr) != (0, wanted, b""):
                sys.exit("sample %d\n  got    %r, status %d\n  wanted %r" % (n, ran.stdout, ran.returncode, wanted))
    bad = try_bad_words(args.program)
    try_full_device(args.program)
    print("%d numbers, %d times each: the same summary; %d lists of bad arguments" % (len(rows), args.times, bad), file=sys.stderr)


if __name__ == "__main__":
    main()
