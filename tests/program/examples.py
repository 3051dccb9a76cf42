#!/usr/bin/env python3
"""Runs all examples, and compares what the program writes with what stands next to them.

    tests/program/examples.py PROGRAM
    tests/program/examples.py --model     compares the examples and the sessions of the documents with the model alone, which needs no program
    tests/program/examples.py --write     writes the answers of examples/ anew: by the model, and never by the program

- Each session examples/NAME.txt is answered, with the slots that SLOTS names for it, by examples/NAME.out, which is
  also what the model of session_model.py answers. The pair that the program's crate is checked with is the first
  session of rows.txt. A session of several clients has no answers next to it, since they depend on the schedule: what
  the program writes is to be a legal run.
- Each session examples/refused/CAUSE.txt is refused for this cause, at the line that the model names.
- In README.md, docs/ and examples/README.md, each block marked `sh` that a block marked `output` follows
  prints exactly that, run at the top of the repository; and each block marked `session` is answered by the
  block marked `output` after it, or by one marked `folded`, whose long lines are cut (`folded` below).
  Lines that use jq are run where jq is there.
"""
import argparse
import re
import shutil
import subprocess
import sys
from pathlib import Path

sys.path.insert(0, str(Path(__file__).resolve().parent.parent / "models"))
from broken_streams import whole_session
from legal_model import fault_of
from running import make_ready, words_of
from session_model import Refused, answers

TOP = Path(__file__).resolve().parent.parent.parent
EXAMPLES = TOP / "examples"
PAGES = [TOP / "README.md", EXAMPLES / "README.md", *sorted((TOP / "docs").glob("*.md"))]
# Sessions with these causes are long, and so they stand nowhere as a file.
LONG = {
    "TooManyLines": b"CLIENT\n" + b"HEAD a\n" * 200001,
    "TooManyEntries": b"CLIENT\n" + b"LIST\n" * 4001,
}


# How long the lines of a block marked `folded` are at most.
FOLD = 108

# The examples whose clients have a named number of node slots; the others are run by the one word `run`.
SLOTS = {"few_slots": 2}


class Tally:
    """Counts what agrees, and prints what does not."""

    def __init__(self):
        self.passed, self.failed, self.left_out = 0, 0, 0

    def compare(self, what, got, wanted):
        if got == wanted:
            self.passed += 1
            return
        self.failed += 1
        print("%s\n  got    %s\n  wanted %s" % (what, first_other(got, wanted), first_other(wanted, got)))


def first_other(text, other):
    """The first line that differs, of texts or of what a run wrote, said and ended with."""
    if isinstance(text, tuple):
        text, other = ("".join(map(str, parts)) for parts in (text, other))
    lines, others = text.split("\n"), other.split("\n")
    return next((line for at, line in enumerate(lines) if others[at : at + 1] != [line]), "(the start of it)")


def run(program, raw, slots=None):
    ran = subprocess.run([program, *words_of(slots)], input=raw, capture_output=True)
    return ran.stdout.decode(), ran.stderr.decode(), ran.returncode


def model(raw, slots=None):
    """What the program is to write, to say and to end with."""
    try:
        return answers(raw, slots), "", 0
    except Refused as refusal:
        return "", "bucketidx: %s\n" % refusal, 3


def check_sessions(program, tally):
    for path in sorted(EXAMPLES.glob("*.txt")):
        raw, slots = path.read_bytes(), SLOTS.get(path.stem)
        if model(raw)[0] is None:
            got = run(program, raw)
            tally.compare(path.name, (fault_of(raw, got[0]) or "", *got[1:]), ("", "", 0))
            continue
        beside = path.with_suffix(".out").read_text()
        tally.compare("%s and the model" % path.name, model(raw, slots), (beside, "", 0))
        tally.compare(path.name, run(program, raw, slots), (beside, "", 0))
    crate = TOP / "crates" / "bucketidx"
    raw, text = whole_session()
    tally.compare("crates/bucketidx/stdin", (crate / "stdin").read_text(), raw.decode())
    tally.compare("crates/bucketidx/stdout", (crate / "stdout").read_text(), text.decode())


def check_refused(program, tally):
    sessions = {path.stem: path.read_bytes() for path in sorted((EXAMPLES / "refused").glob("*.txt"))}
    for cause, raw in {**sessions, **LONG}.items():
        wanted = model(raw)
        tally.compare("the cause of %s by the model" % cause, wanted[1].split(": ")[-1].strip(), cause)
        tally.compare("refused/" + cause, run(program, raw), wanted)


def blocks(path):
    """The fenced blocks of a page as (line, mark, text)."""
    found = re.finditer(r"^```(\w*)\n(.*?)^```$", path.read_text(), re.M | re.S)
    text = path.read_text()
    return [(text[: block.start()].count("\n") + 1, block.group(1), block.group(2)) for block in found]


def folded(text):
    """The text with each line cut to at most FOLD characters; what follows a cut is set in by two spaces."""
    lines = []
    for line in text.splitlines():
        lines.append(line[:FOLD])
        rest = line[FOLD:]
        while rest:
            lines.append("  " + rest[: FOLD - 2])
            rest = rest[FOLD - 2 :]
    return "".join(line + "\n" for line in lines)


def check_pages(program, tally):
    for path in PAGES:
        found = blocks(path) if path.exists() else []
        for (line, mark, text), (_, mark_after, wanted) in zip(found, found[1:]):
            where = "%s:%d" % (path.relative_to(TOP), line)
            if mark == "session" and mark_after in ("output", "folded"):
                shown = folded if mark_after == "folded" else str
                # A page shows what standard output gets, or what standard error does.
                tally.compare(where + " and the model", shown("".join(model(text.encode())[:2])), wanted)
                if program:
                    tally.compare(where, shown("".join(run(program, text.encode())[:2])), wanted)
            if program and mark == "sh" and mark_after == "output":
                if re.search(r"\bjq\b", text) and not shutil.which("jq"):
                    tally.left_out += 1
                    continue
                ran = subprocess.run(["sh", "-c", text], cwd=TOP, stdin=subprocess.DEVNULL, capture_output=True)
                tally.compare(where, ran.stdout.decode(), wanted)


def check_by_model(tally):
    """What can be compared where no program is built."""
    for path in sorted(EXAMPLES.glob("*.txt")):
        wanted = model(path.read_bytes(), SLOTS.get(path.stem))
        if wanted[0] is not None:
            tally.compare("%s and the model" % path.name, wanted, (path.with_suffix(".out").read_text(), "", 0))
    check_pages(None, tally)


def write():
    for path in sorted(EXAMPLES.glob("*.txt")):
        text = answers(path.read_bytes(), SLOTS.get(path.stem))
        if text is not None:
            path.with_suffix(".out").write_text(text)


def main():
    parser = argparse.ArgumentParser(description=__doc__.split("\n")[0])
    asked = parser.add_mutually_exclusive_group(required=True)
    asked.add_argument("program", nargs="?")
    asked.add_argument("--model", action="store_true")
    asked.add_argument("--write", action="store_true")
    options = parser.parse_args()
    if options.write:
        return write()
    tally = Tally()
    if options.model:
        check_by_model(tally)
    else:
        program = str(Path(options.program).resolve())
        make_ready(program)
        check_sessions(program, tally)
        check_refused(program, tally)
        check_pages(program, tally)
    left_out = ", %d left out because jq is not there" % tally.left_out if tally.left_out else ""
    print("examples: %d comparisons agree, %d do not%s" % (tally.passed, tally.failed, left_out))
    sys.exit(tally.failed > 0)


if __name__ == "__main__":
    main()
