#!/usr/bin/env python3
"""Compares the verdict of `check` on written texts with that of a model, which is written from the definition alone.

    tests/program/checked_texts.py PROGRAM [--sessions N] [--changes N] [--most-clients N] [--requests N] [--seed N]

Each random session gets a text of a legal run: what the program writes for it, or one that the model makes, where the
clients' requests follow one another in any order and a look may be answered at any place from its client's last one
on. `check` has to call it legal. Then come so many texts with one change each: a digit of a place, two lines changed
about, a line left out or doubled, a line of the journal moved, a byte anywhere, a cut end. `check` has to name the
first wrong line as the model does. The model looks for a reply at each place of the history, so it reads no number
from a line. Where it names no line, tests/program/legal_runs.py has to find no fault, and else one.
"""
import argparse
import collections
import multiprocessing
import random
import re
import subprocess
import sys
from pathlib import Path

sys.path.insert(0, str(Path(__file__).resolve().parent.parent / "models"))
from legal_model import asked_of, fault_of, rule_of
from many_clients import random_session
from running import make_ready, text_of
from wrong_line_model import made_text, wrong_line

KINDS = ["a digit of a place", "two lines changed about", "a line left out", "a line doubled", "a line of the journal moved", "a byte", "a cut end"]


def changed(rng, kind, text, count):
    """The text with one change of this kind; `count` is how many reply lines it has."""
    lines = text.splitlines(keepends=True)
    place, other = rng.randrange(len(lines)), rng.randrange(len(lines))
    if kind == "a digit of a place":
        found = rng.choice([found for found in re.finditer(rb'"At":(\d+)', text)] or [re.search(rb":(\d+)}\n$", text)])
        at = rng.randrange(*found.span(1))
        return text[:at] + b"%d" % rng.randrange(10) + text[at + 1 :]
    if kind == "two lines changed about":
        lines[place], lines[other] = lines[other], lines[place]
    elif kind == "a line left out":
        del lines[place]
    elif kind == "a line doubled":
        lines.insert(place, lines[place])
    elif kind == "a line of the journal moved":
        lines.insert(rng.randrange(count, len(lines)), lines.pop(rng.randrange(count, len(lines))))
    elif kind == "a byte":
        at = rng.randrange(len(text))
        return text[:at] + bytes([rng.choice([rng.randrange(256), 10, 34, 48, 125])]) + text[at + 1 :]
    else:
        return text[: rng.randrange(len(text))]
    return b"".join(lines)


def words_of(slots):
    return ["check"] if slots is None else ["check", "--slots", str(slots)] if slots % 2 else ["check", "--slots=%d" % slots]


def verdict_of(program, raw, text, slots):
    """The line that the program names, or None where it calls the text legal."""
    ran = subprocess.run([program, *words_of(slots)], input=raw + b"----\n" + text, capture_output=True)
    if (ran.returncode, ran.stdout, ran.stderr) == (0, b'{"Legal":true}\n', b""):
        return None
    named = re.fullmatch(rb"bucketidx: wrong line (\d+)\n", ran.stderr)
    if ran.returncode != 8 or not named or ran.stdout != b'{"Legal":false,"Wrong":%s}\n' % named[1]:
        return "status %d, %r, %r" % (ran.returncode, ran.stdout, ran.stderr)
    return int(named[1])


def is_fault_free(raw, text, slots):
    """Whether the other model finds no fault."""
    try:
        return fault_of(raw, text.decode(), rule_of(slots)) is None
    except UnicodeDecodeError:
        return False


def try_session(given):
    """How many texts with a change are legal still, how many are not, and the first fault."""
    number, options = given
    rng = random.Random("%d %d" % (options.seed, number))
    raw = random_session(rng, options)
    clients = asked_of(raw)
    slots = rng.choice([None, None, 1, 2, 3])
    legal = text_of(options.program, raw, 60, slots).encode() if number % 4 == 0 else made_text(rng, clients, slots)
    counts = collections.Counter()
    for kind in [None] + [KINDS[(number + turn) % len(KINDS)] for turn in range(options.changes)]:
        text = legal if kind is None else changed(rng, kind, legal, sum(map(len, clients)))
        wanted, got = wrong_line(clients, text, slots), verdict_of(options.program, raw, text, slots)
        if kind is None and wanted is not None:
            got = "the model names a line of a legal text"
        if (wanted is None) != is_fault_free(raw, text, slots):
            got = "the models differ"
        if got != wanted:
            return counts, "%s\n----\n%s\nslots %s, %s: got %s, wanted %s" % (raw.decode(), text.decode(errors="replace"), slots, kind, got, wanted)
        counts["unchanged" if kind is None else "legal" if wanted is None else "wrong"] += 1
    return counts, None


def main():
    parser = argparse.ArgumentParser(description=__doc__.split("\n")[0])
    parser.add_argument("program")
    parser.add_argument("--sessions", type=int, default=400)
    parser.add_argument("--changes", type=int, default=10)
    parser.add_argument("--least-clients", type=int, default=1)
    parser.add_argument("--most-clients", type=int, default=32)
    parser.add_argument("--requests", type=int, default=8)
    parser.add_argument("--names", type=int, default=10)
    parser.add_argument("--seed", type=int, default=1)
    parser.set_defaults(whole=False)
    options = parser.parse_args()
    make_ready(options.program)
    counts = collections.Counter()
    with multiprocessing.Pool() as pool:
        for found, fault in pool.imap_unordered(try_session, ((number, options) for number in range(options.sessions))):
            if fault:
                pool.terminate()
                sys.exit(fault)
            counts += found
    told = "%d texts are called legal; of %d with one change %d are called legal and %d wrong, at the line that the model names"
    print(told % (counts["unchanged"], counts["legal"] + counts["wrong"], counts["legal"], counts["wrong"]), file=sys.stderr)


if __name__ == "__main__":
    main()
