#!/usr/bin/env python3
"""Counts what docs/PROVED.md says of the repository in figures, and compares other numbers of the documents.

    tests/documents/figures.py            prints the figures of PROVED.md
    tests/documents/figures.py --check    compares them with the page, and the other numbers
    tests/documents/figures.py --write    puts the figures in there

The table of the page stands between the lines `<!-- NAME: .. -->` and `<!-- end -->`. The limits that README.md and
docs/FORMAT.md name are those of the definitions. What README.md says was measured at a commit stands in the section
of bench/README.md that names this commit. README.md has at most 120 lines of at most 110 characters. All documents
together have at most 280,000 bytes.
"""
import argparse
import re
import sys
from pathlib import Path

sys.path.insert(0, str(Path(__file__).resolve().parent.parent / "program"))
import rows as rows_by_hand
from contracts import crates, public_functions
from trusted_files import closure, sums

TOP = Path(__file__).resolve().parent.parent.parent
CRATES = TOP / "crates"


def text_of(paths):
    return "".join(path.read_text() for path in paths)


def lines_in(paths):
    return sum(len(path.read_text().splitlines()) for path in paths)


def files(kind):
    """All files of a crate below this folder of it, such as src/**/*.rt."""
    return [path for crate in crates() for path in sorted((CRATES / crate).glob(kind)) if path.is_file()]


def is_test(path):
    return "tests" in path.parts or path.name == "tests.rt" or path.parts[-3].endswith("_tests") or path.parts[-3] == "core_runs"


def hundreds(paths):
    """The lines of these files, rounded, so that not every change of a line changes the figure."""
    return round(lines_in(paths), -2)


def count(number):
    return "{:,}".format(number)


def compared(script, option):
    """How many sessions or runs .ci/run gives this script."""
    found = re.search(r"tests/\w+/%s\b.*--%s (\d+)" % (re.escape(script), option), (TOP / ".ci" / "run").read_text())
    return int(found.group(1)) if found else 0


def figures():
    src = [path for path in files("src/**/*.rt") if not is_test(path)]
    edits = lambda folder: len(files(folder + "/*.edit"))
    clauses = [clause for name in crates() for found in public_functions(name).values() for clause in found]
    promised = sum(kind == "ensures" for kind, _, _ in clauses)
    headline = closure()
    by_hand = (sum(1 for _ in rows_by_hand.rows()), sum(1 for _ in rows_by_hand.starts()))
    rows = [
        ("Clauses that public functions promise, each proved", promised),
        ("Lines of code with its contracts, to the nearest hundred", hundreds(src)),
        ("Lines of definitions; of proofs", (hundreds(files("specs/**/*.antt")), hundreds(files("proofs/**/*.antt")))),
        ("Lines of definitions that the headline rests on; of these neither empty nor an import; files", (*sums(headline), len(headline))),
        ("Wrong bodies that `.ci/run` tries; others kept next to them", (edits("must-fail"), edits("more-edits"))),
        ("Tests", len(re.findall(r"^\s*#\[test\]", text_of(files("src/**/*.rt")), re.M))),
        ("Handwritten rows of whole sessions that `.ci/run` compares; starts of one session, cut at every byte", by_hand),
        ("Random sessions that `.ci/run` compares with a model", compared("random_sessions.py", "sessions")),
        ("Random inputs, most of them faulty, that `.ci/run` compares with a model", compared("random_inputs.py", "inputs")),
        ("Random lists of events that `.ci/run` compares with a model", compared("random_runs.py", "runs")),
    ]
    # A script that .ci/run does not run has no row.
    rows = [row for row in rows if row[1]]
    shown = lambda value: "; ".join(map(count, value)) if isinstance(value, tuple) else count(value)
    return "\n".join(["| What | How many |", "|---|---|"] + ["| %s | %s |" % (name, shown(value)) for name, value in rows])


def parts():
    yield TOP / "docs" / "PROVED.md", "figures", figures()


# ---- other numbers of the documents

# By page: a sentence with limits, and for each of its numbers the file of the definition, the definition, and the unit.
LIMITS = [
    ("README.md", r"([\d,]+) MiB, ([\d,]+) requests, ([\d,]+) clients, and pages of ([\d,]+) entries", [
        ("request_lines/specs/Input.antt", r"most_input_bytes = (\d+)", 1 << 20),
        ("request_lines/specs/InputParts.antt", r"most_requests = (\d+)", 1),
        ("request_lines/specs/InputParts.antt", r"most_clients = (\d+)", 1),
        ("request_lines/specs/InputParts.antt", r"most_listed = (\d+)", 1),
    ]),
    ("README.md", r"Up to ([\d,]+) clients", [("request_lines/specs/InputParts.antt", r"most_clients = (\d+)", 1)]),
    ("docs/FORMAT.md", r"the input has more than ([\d,]+) bytes", [("request_lines/specs/Input.antt", r"most_input_bytes = (\d+)", 1)]),
    ("docs/FORMAT.md", r"There are at most ([\d,]+) clients", [("request_lines/specs/InputParts.antt", r"most_clients = (\d+)", 1)]),
    ("docs/FORMAT.md", r"can have more than ([\d,]+) entries", [("request_lines/specs/InputParts.antt", r"most_listed = (\d+)", 1)]),
    ("docs/FORMAT.md", r"`N` from 1 to ([\d,]+) without", [("command_words/specs/Words.antt", r"n ≤ (8\d+)", 1)]),
    ("docs/FORMAT.md", r"a number from 1 to ([\d,]+) in decimal", [("request_lines/specs/SampleSession.antt", r"most_sample_requests = (\d+)", 1)]),
]


def wrong_limits():
    for page, sentence, wanted in LIMITS:
        found = re.search(sentence.replace(" ", r"\s+"), (TOP / page).read_text())
        numbers = [number.replace(",", "") for number in found.groups()] if found else []
        known = [re.search(definition, (CRATES / file).read_text()) for file, definition, _ in wanted]
        meant = [str(int(limit.group(1)) // unit) if limit else "?" for limit, (_, _, unit) in zip(known, wanted)]
        if numbers != meant:
            yield "%s: the limits of '%s' are %s, and the definitions have %s" % (page, sentence, numbers, meant)


def wrong_measurements():
    """Each number in a sentence of README that names a commit stands in the part of bench/README.md with this
    commit."""
    readme = " ".join((TOP / "README.md").read_text().split())
    bench = re.split(r"\n(?=## )", (TOP / "bench" / "README.md").read_text())
    for commit in re.findall(r"at commit ([0-9a-f]{8})", readme):
        part = "".join(text for text in bench if commit in text)
        sentence = next(text for text in re.split(r"(?<=[.;]) (?=[A-Z-])", readme) if commit in text)
        for number in re.findall(r"\d+\.\d+", sentence):
            if not re.search(r"(?<![\d.])%s(?![\d.]*\d)" % re.escape(number), part):
                yield "README.md: bench/README.md does not have %s as measured at %s" % (number, commit)


def documents():
    """README.md and the pages of docs/, bench/, examples/ and crates/."""
    folders = ("docs", "bench", "examples", "crates")
    return [TOP / "README.md"] + [path for folder in folders for path in sorted((TOP / folder).glob("*.md"))]


def wrong_sizes():
    lines = (TOP / "README.md").read_text().splitlines()
    if len(lines) > 120 or max(map(len, lines)) > 110:
        yield "README.md has %d lines, the longest of %d characters" % (len(lines), max(map(len, lines)))
    size = sum(len(path.read_bytes()) for path in documents())
    if size > 280_000:
        yield "all documents together have %s bytes" % count(size)


def main():
    parser = argparse.ArgumentParser(description=__doc__.split("\n")[0])
    parser.add_argument("--check", action="store_true")
    parser.add_argument("--write", action="store_true")
    options = parser.parse_args()
    if not (options.check or options.write):
        print(figures())
    else:
        wrong = [error for part in parts() for error in held(*part, options.write)] + [*wrong_limits(), *wrong_measurements(), *wrong_sizes()]
        print("\n".join(wrong) or "the figures are those of the source")
        sys.exit(len(wrong) > 0)


def held(path, name, wanted, writes):
    """Compares the part of the page with what it should have, and writes it where that is asked."""
    text = path.read_text()
    found = re.search(r"(<!-- %s: [^\n]*-->\n)(.*?)(\n<!-- end -->)" % name, text, re.S)
    if not found:
        return ["%s has no part %s" % (path.name, name)]
    if found.group(2) == wanted:
        return []
    if writes:
        path.write_text(text[: found.start(2)] + wanted + text[found.end(2) :])
        return []
    return ["%s: the part %s differs; tests/documents/figures.py --write mends it" % (path.name, name)]


if __name__ == "__main__":
    main()
