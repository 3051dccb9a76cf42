#!/usr/bin/env python3
"""Prints where a kind of event, a word of the table, a field of a node or a part of an entry stands: what a change of it opens.

    tests/documents/where_kind.py NAME

For each enum that has the name as a variant (`Kind` of core_events, `Word`, `Field` and `Part` of index_words) each file is
printed that speaks of it besides its imports, lowest crate first, with the number of lines. A file of definitions or proofs
speaks of it by the name under which it imports it, and in Rust also by `Kind::NAME`. Any other name, such as that of a field
of a view, of a group in `crates/core_invariant/proofs/Groups.antt` or of a part of the rule, is looked for as it is. Where
no file has the name, the script ends with status 1.
"""
import argparse
import re
import sys
from pathlib import Path

from contracts import crates

TOP = Path(__file__).resolve().parent.parent.parent
CRATES = TOP / "crates"
ENUMS = {
    "Kind": CRATES / "core_events" / "src" / "event.rt",
    "Word": CRATES / "index_words" / "src" / "word.rt",
    "Field": CRATES / "index_words" / "src" / "word.rt",
    "Part": CRATES / "index_words" / "src" / "word.rt",
}
IMPORT = re.compile(r"^\s*(?:pub |ghost )*use ", re.M)


def variants(enum):
    """The names of the enum's variants."""
    body = re.search(rf"\benum {enum} {{(.*?)^}}", ENUMS[enum].read_text(), re.M | re.S).group(1)
    return re.findall(r"^    (\w+)", body, re.M)


def source_files():
    for crate in crates():
        for path in sorted((CRATES / crate).rglob("*")):
            if path.suffix in (".rt", ".antt") and "out" not in path.parts:
                yield path


def names_in(path, text, enum, name):
    """The names by which this file speaks of the variant; the file that declares it, by the name itself."""
    found = {name} if path == ENUMS[enum] else {f"{enum}::{name}"}
    for group in re.findall(rf"\.{enum}\.TheVariants\.\{{([^}}]*)\}}", text):
        for item in group.split(","):
            words = item.split()
            if words and words[0] == name:
                found.add(words[-1])
    return found


def lines_with(text, names):
    """How many lines have one of the names, besides imports and comments."""
    found = re.compile("|".join(rf"(?<![\w.:]){re.escape(name)}\b" for name in names))
    lines = (re.sub(r"(--|//).*", "", line) for line in text.splitlines() if not IMPORT.match(line))
    return sum(1 for line in lines if found.search(line))


def print_files(title, names_of):
    print(title)
    files = lines = 0
    for path in source_files():
        text = path.read_text()
        count = lines_with(text, names_of(path, text))
        if count:
            files, lines = files + 1, lines + count
            print(f"    {path.relative_to(CRATES)} {count}")
    print(f"    in all {files} files, {lines} lines")
    return files


def main():
    parser = argparse.ArgumentParser(description=__doc__.split("\n")[0])
    parser.add_argument("name")
    name = parser.parse_args().name
    enums = [enum for enum in ENUMS if name in variants(enum)]
    files = sum(print_files(f"{enum}::{name}", lambda path, text, enum=enum: names_in(path, text, enum, name)) for enum in enums)
    if not enums:
        files = print_files(name, lambda path, text: {name, "." + name})
    sys.exit(files == 0)


if __name__ == "__main__":
    main()
