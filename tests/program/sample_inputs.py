#!/usr/bin/env python3
"""Compares the input of the generated session with a model of its own.

    tests/program/sample_inputs.py PROGRAM [--most N]

PROGRAM prints the input for the number of requests that its word says. It is run for each number from 1 to 300 (or to
N), and for 40,000. For 5 requests of each client the lines are also handwritten.
"""
import argparse
import subprocess
import sys

FIVE = """CLIENT
PUT %s/0000 0 e 0
PUT %s/0389 1 e 1
DELETE %s/0778
LIST prefix=%s/&max-keys=100
PUT %s/0555 4 e 4
"""
BY_HAND = "".join(FIVE.replace("%s", name) for name in ("s0", "s1", "s2", "s3")).encode()


def line(client, i):
    name = "s%d/%04d" % (client, 389 * i % 1001)
    return ["PUT %s %d e %d" % (name, i, i)] * 2 + ["DELETE " + name, "LIST prefix=s%d/&max-keys=100" % client]


def model(n):
    lines = []
    for client in range(4):
        lines.append("CLIENT")
        lines += [line(client, i)[i % 4] for i in range(n)]
    return "".join(text + "\n" for text in lines).encode()


def main():
    parser = argparse.ArgumentParser(description=__doc__, formatter_class=argparse.RawDescriptionHelpFormatter)
    parser.add_argument("program")
    parser.add_argument("--most", type=int, default=300)
    args = parser.parse_args()
    if model(5) != BY_HAND:
        sys.exit("the model differs from the handwritten lines for 5")
    numbers = [*range(1, args.most + 1), 40000]
    for n in numbers:
        ran = subprocess.run([args.program, str(n)], capture_output=True)
        if (ran.returncode, ran.stdout) != (0, model(n)):
            sys.exit("the input for %d differs (status %d)" % (n, ran.returncode))
    print("the inputs for %d numbers are those of the model" % len(numbers), file=sys.stderr)


if __name__ == "__main__":
    main()
