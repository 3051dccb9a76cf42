#!/usr/bin/env python3
"""Compares the program with a model of the grammar on random inputs, most of them faulty.

    tests/program/random_inputs.py PROGRAM [--inputs N] [--seed N]

The model is that of session_model.py. The first input that the program answers or refuses otherwise is printed,
and the status is 1 then.
"""
import argparse
import collections
import random
import subprocess
import sys
from pathlib import Path

sys.path.insert(0, str(Path(__file__).resolve().parent.parent / "models"))
from legal_model import fault_of
from one_client import Session
from running import make_ready
from session_model import PARAMETERS, Refused, answers

ODD_FIELDS = [
    b"", b"%", b"%4", b"%zz", b"%41", b"%ff", b"%c3%a9", b"a+b", b'"', b'""', b'"e1"', b"e_1", b"e-1", b"x" * 64, b"x" * 65,
    b"0", b"007", b"1k", b"-1", b"+1", b"18446744073709551615", b"18446744073709551616", b"n" * 1024, b"n" * 1025,
    b"%61" * 1024, b"%61" * 1025, b"\xe9", b"\xc3\xa9", b"?", b"??a", b"a\tb", b"\r",
]
ODD_VALUES = [
    b"", b"2", b"1", b"url", b"URL", b"true", b"false", b"yes", b"ten", b"0", b"0005", b"2147483647", b"2147483648", b"%32",
    b"%", b"a=b", b"%26", b"/", b"S2E", b"v" * 1025,
]
ODD_LINES = [
    b"", b"\r", b"\r\r", b" ", b"CLIENT", b"CLIENT ", b"client", b"LIST", b"LIST ", b"LIST  ", b"LIST ?", b"LIST &&", b"LIST =",
    b"LISTV1", b"LISTV1 ", b"LISTV1  ", b"LISTV1 ?", b"LISTV1 marker", b"listv1", b"LISTV2", b"LISTV1 a b",
    b"NEXT", b"NEXT ", b"PUT", b"PUT a 1 e1 1 1", b"HEAD", b"HEAD  a", b"DELETE a b", b"\xff", b"HEAD a\r", b"HEAD a\r\r", b"GET a",
]


def odd_query(rng):
    names = [name.encode() for name in PARAMETERS["LIST"]] + [b"marker", b"marker", b"", b"Prefix"]
    pieces = [rng.choice(names) + rng.choice([b"=", b"=", b"=", b""]) + rng.choice(ODD_VALUES) for _ in range(rng.randint(0, 4))]
    return rng.choice([b"", b"", b"?"]) + rng.choice([b"&", b"&", b"&&"]).join(pieces)


def odd_line(rng):
    verb = rng.choice([b"PUT", b"PUT", b"PUTNEW", b"DELETE", b"HEAD", b"LIST", b"LIST", b"LIST", b"LISTV1", b"LISTV1", b"ANY"])
    if verb == b"ANY":
        return rng.choice(ODD_LINES)
    if verb in (b"LIST", b"LISTV1"):
        return verb + b" " + odd_query(rng)
    put = [b"key", b"1", b"e1", b"2"]
    good = {b"PUT": put, b"PUTNEW": put, b"DELETE": [b"key"], b"HEAD": [b"key"]}[verb]
    fields = [rng.choice(ODD_FIELDS) if rng.random() < 0.4 else field for field in good]
    return b" ".join([verb, *fields])


def odd_input(rng):
    """A session with a few lines that may be faulty, and now and then some bytes changed."""
    lines = Session(rng).input().encode().split(b"\n")[: rng.randint(1, 12)]
    for _ in range(rng.randint(1, 3)):
        lines.insert(rng.randint(0 if rng.random() < 0.2 else 1, len(lines)), odd_line(rng))
    raw = bytearray(rng.choice([b"\n", b"\n", b"\n", b"\r\n"]).join(lines) + rng.choice([b"", b"\n", b"\r", b"\n\n"]))
    for _ in range(rng.choice([0, 0, 0, 1, 2])):
        raw[rng.randrange(len(raw))] = rng.choice(b"\n\r %&=?\x00\xc3\xa9aZ09")
    return bytes(raw)


def main():
    parser = argparse.ArgumentParser(description=__doc__.split("\n")[0])
    parser.add_argument("program")
    parser.add_argument("--inputs", type=int, default=1000)
    parser.add_argument("--seed", type=int, default=7)
    options = parser.parse_args()
    make_ready(options.program)
    rng, causes = random.Random(options.seed), collections.Counter()
    for _ in range(options.inputs):
        raw = odd_input(rng)
        try:
            text = answers(raw)
            wanted = text and text.encode(), b"", 0
        except Refused as refusal:
            wanted = b"", b"bucketidx: %s\n" % str(refusal).encode(), 3
        causes[wanted[1].decode().strip().split(": ")[-1]] += 1
        ran = subprocess.run([options.program, "run"], input=raw, capture_output=True)
        if wanted[0] is None and ran.returncode == 0 and fault_of(raw, ran.stdout.decode()) is None:
            wanted = ran.stdout, b"", 0
        if (ran.stdout, ran.stderr, ran.returncode) != wanted:
            print("input   %r\ngot     %r\nwanted  %r" % (raw, (ran.stderr, ran.stdout, ran.returncode), wanted))
            sys.exit(1)
    answered = causes.pop("", 0)
    told = ", ".join("%d %s" % (count, cause) for cause, count in sorted(causes.items()))
    print("%d inputs, %d answered, all as the model does; refused: %s" % (options.inputs, answered, told), file=sys.stderr)


if __name__ == "__main__":
    main()
