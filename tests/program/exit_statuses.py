#!/usr/bin/env python3
"""Tries each exit status of the program, with its line on standard error.

    tests/program/exit_statuses.py PROGRAM

The input of some runs is a folder, which cannot be read, and the output of others a full device. Two runs have less
memory than their input has bytes. With words of no form nothing of the input is read.
"""
import argparse
import os
import resource
import subprocess
import sys
import tempfile

SESSION = b"CLIENT\nPUT a 1 e1 1\nLIST\n"
FAULTY = b"CLIENT\nPUT a 1 e1 1\nPUT b\n"
CHECKED = b'CLIENT\nHEAD a\n----\n{"At":0,"Client":0,"Line":2,"Status":404}\n{"Updates":0}\n'
TOO_LONG = b"\n" * (64 * 1024 * 1024 + 1)
# As long as an input may be, and too long for half as much memory.
LONG = b"\n" * (64 * 1024 * 1024)

# the words, the input or a folder, where the output goes, the status, standard error, and whether anything is written
ROWS = [
    (["run"], SESSION, None, 0, "", True),
    (["run"], b"", None, 0, "", True),
    ([], SESSION, None, 2, "bucketidx: bad words\n", False),
    (["run", "run"], SESSION, None, 2, "bucketidx: bad words\n", False),
    (["run", "now"], SESSION, None, 2, "bucketidx: bad words\n", False),
    (["run", ""], SESSION, None, 2, "bucketidx: bad words\n", False),
    ([""], SESSION, None, 2, "bucketidx: bad words\n", False),
    (["RUN"], SESSION, None, 2, "bucketidx: bad words\n", False),
    (["runs"], SESSION, None, 2, "bucketidx: bad words\n", False),
    (["ru"], SESSION, None, 2, "bucketidx: bad words\n", False),
    (["--help"], SESSION, None, 2, "bucketidx: bad words\n", False),
    ([b"r\xffn"], SESSION, None, 2, "bucketidx: bad words\n", False),
    (["run"], FAULTY, None, 3, "bucketidx: line 3: WrongFields\n", False),
    (["run"], b"\xff", None, 3, "bucketidx: line 1: NotUtf8\n", False),
    (["run"], TOO_LONG, None, 4, "bucketidx: input too long\n", False),
    (["run"], "/", None, 5, "bucketidx: read fault\n", False),
    (["run"], SESSION, "/dev/full", 6, "bucketidx: write fault\n", False),
    (["run"], FAULTY, "/dev/full", 3, "bucketidx: line 3: WrongFields\n", False),
    (["check"], CHECKED, None, 0, "", True),
    (["check", "--slots", "1"], CHECKED, None, 0, "", True),
    (["check", "--slots=1"], CHECKED, None, 0, "", True),
    (["check", "--slots", "8192"], CHECKED, None, 0, "", True),
    (["check", "--slots=8192"], CHECKED, None, 0, "", True),
    (["check"], CHECKED.replace(b"404", b"403"), None, 8, "bucketidx: wrong line 1\n", True),
    (["check", "now"], CHECKED, None, 2, "bucketidx: bad words\n", False),
    (["check", "--slots=0"], CHECKED, None, 2, "bucketidx: bad words\n", False),
    (["checks"], CHECKED, None, 2, "bucketidx: bad words\n", False),
    (["check"], SESSION, None, 3, "bucketidx: line 4: NoText\n", False),
    (["check"], FAULTY, None, 3, "bucketidx: line 3: WrongFields\n", False),
    (["run"], CHECKED, None, 3, "bucketidx: line 3: UnknownVerb\n", False),
    (["check"], TOO_LONG, None, 4, "bucketidx: input too long\n", False),
    (["check"], "/", None, 5, "bucketidx: read fault\n", False),
    (["check"], CHECKED, "/dev/full", 6, "bucketidx: write fault\n", False),
    # A fault of the output comes before the verdict.
    (["check"], CHECKED.replace(b"404", b"403"), "/dev/full", 6, "bucketidx: write fault\n", False),
    (["check"], SESSION, "/dev/full", 3, "bucketidx: line 4: NoText\n", False),
]


def run(program, words, source, target):
    """The status, standard error, whether anything was written where that is seen, and whether anything was read."""
    output = os.open(target, os.O_WRONLY) if target else subprocess.PIPE
    with tempfile.TemporaryFile() as file:
        if isinstance(source, bytes):
            file.write(source)
            file.seek(0)
        given = file.fileno() if isinstance(source, bytes) else os.open(source, os.O_RDONLY)
        ran = subprocess.run([program, *words], stdin=given, stdout=output, stderr=subprocess.PIPE)
        # The page on use, which ./bucketidx shows where the arguments ask for it, is not the program's.
        said = ran.stderr.decode().partition("\nusage: ")[0]
        # The program has moved the place in the file that it shares with this script.
        return ran.returncode, said, bool(ran.stdout), os.lseek(file.fileno(), 0, os.SEEK_CUR) > 0


def without_memory(program, form):
    """How a run ends that gets half as much memory as its input wants."""

    def limited():
        resource.setrlimit(resource.RLIMIT_AS, (len(LONG) // 2, len(LONG) // 2))

    ran = subprocess.run([program, form], input=LONG, capture_output=True, preexec_fn=limited)
    return ran.returncode, ran.stderr.decode(), ran.stdout


def main():
    parser = argparse.ArgumentParser(description=__doc__.split("\n")[0])
    parser.add_argument("program")
    program = parser.parse_args().program
    for words, source, target, status, error, writes in ROWS:
        got = run(program, words, source, target)
        reads = isinstance(source, bytes) and source != b"" and status != 2
        if got != (status, error, writes, reads):
            wanted, shown = (status, error, writes, reads), source[:40]
            print("words %r, input %r, output %s\n  got    %r\n  wanted %r" % (words, shown, target, got, wanted))
            sys.exit(1)
    forms = ("run", "check")
    for form in forms:
        got, wanted = without_memory(program, form), (7, "bucketidx: no memory\n", b"")
        if got != wanted:
            sys.exit("%s, a long input and little memory\n  got    %r\n  wanted %r" % (form, got, wanted))
    print("%d runs ended with the wanted status and line" % (len(ROWS) + len(forms)), file=sys.stderr)


if __name__ == "__main__":
    main()
