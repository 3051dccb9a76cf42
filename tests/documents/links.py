#!/usr/bin/env python3
"""Tries each link of the documents, each file of the repository that they name, and each name in code style; and
compares the floor plan of crates/README.md with crates.txt, docs/DEFINITIONS.md with docs/TRUSTED.md, and the parts
of the rule in docs/CHANGING.md with the files of the core, and the page on use of ./bucketidx with docs/FORMAT.md. A
page with the marks of a merge that was not finished is reported.

    tests/documents/links.py

A link leads to a file, or to a heading of one, as GitHub names headings. Addresses on the network are not tried. The
floor plan has the headings of crates.txt and the crates below each, in the same order, and the file of each crate
that it says to open first is there. docs/DEFINITIONS.md has a section for each file that docs/TRUSTED.md lists, in
its order.

A name in code style, such as `serve` or `AnswersList.same_page`, is declared in the source, or stands in one of its
texts, in a script, in crates.txt or in the name of a file; the parts of one with a dot or `::` stand in one file of the
source. Of a line in code style with spaces, such as a session's or a command's, the words are tried that have `_` or a
capital inside.
"""
import argparse
import re
import sys
from pathlib import Path

TOP = Path(__file__).resolve().parent.parent.parent
FOLDERS = ("crates", "docs", "tests", "examples", "bench", ".ci")
# What declares a name, by the ending of the file; the name is the group.
DECLARES = {
    ".rt": (
        r"\b(?:fn|struct|enum|trait|mod|const|static|type|impl|use|for)\s+(\w+)",
        r"(\w+)\s*:",
        r"(?m)^\s+(\w+)\s*(?:[({,=]|$)",
        r"\b(?:requires|ensures|invariant)\s+(\w+)",
        r"\b([A-Z]\w*)",
    ),
    ".antt": (r"(?m)^\s*(?:pub )?(?:abbrev |record |data |mod )?(?:pub )?(\w+)", r"\b([A-Z]\w*)"),
}
ENDINGS = {"rt", "antt", "py", "md", "txt", "edit", "out", "rs", "svg"}


def pages():
    found = [TOP / "README.md", TOP / "crates" / "README.md"]
    for folder in ("docs", "examples", "bench"):
        found += sorted((TOP / folder).glob("*.md"))
    return found


def without_code(text):
    return re.sub(r"^```.*?^```$", "", text, flags=re.M | re.S)


def anchors(path):
    """The names of a page's headings: small letters, with - in place of spaces, and no other signs."""
    for heading in re.findall(r"^#+ (.*)$", without_code(path.read_text()), re.M):
        plain = re.sub(r"\[([^]]*)\]\([^)]*\)", r"\1", heading)
        yield re.sub(r"[^\w\- ]", "", plain.lower()).strip().replace(" ", "-")


def wrong_links(page):
    text = re.sub(r"`[^`\n]*`", "", without_code(page.read_text()))
    targets = re.findall(r"\]\(([^)\s]+)\)", text) + re.findall(r'(?:src|srcset|href)="([^"]+)"', text)
    for target in targets:
        if re.match(r"[a-z]+:", target):
            continue
        file, _, anchor = target.partition("#")
        path = (page.parent / file).resolve() if file else page
        if not path.exists():
            yield "the link %s leads nowhere" % target
        elif anchor and anchor not in anchors(path):
            yield "no heading for the link %s" % target


def wrong_merges(page):
    for number, line in enumerate(page.read_text().splitlines(), 1):
        if re.match(r"(<<<<<<<|=======|>>>>>>>)( |$)", line):
            yield "line %d has the mark of a merge" % number


def wrong_files(page):
    """Files in code style, such as `docs/FORMAT.md` and `crates/key_map/src/items.rt`."""
    for name in re.findall(r"`((?:%s)/[\w./-]+)`" % "|".join(map(re.escape, FOLDERS)), page.read_text()):
        # What a build makes is not there in a clean clone.
        if "/out/" not in name and not (TOP / name).exists():
            yield "there is no file `%s`" % name
    for name in re.findall(r"(?<![\w/])(\w+/(?:specs|proofs|src)/[\w/]+\.\w+)", page.read_text()):
        if not (TOP / "crates" / name).exists():
            yield "there is no file %s in crates/" % name


def sources():
    """The text of each file of the crates' source, without its comments, by its path."""
    for path in sorted((TOP / "crates").glob("*/*/**/*")):
        if path.suffix in DECLARES and path.relative_to(TOP).parts[2] in ("src", "specs", "proofs"):
            comment = r"//.*" if path.suffix == ".rt" else r"--.*"
            yield path, re.sub(comment, "", path.read_text())


def declared(texts):
    """The names that the source declares, the words of its texts, of scripts, of crates.txt, and of the names of
    files."""
    names = set()
    for path, text in texts.items():
        for form in DECLARES[path.suffix]:
            names.update(re.findall(form, text))
        for part in re.findall(r'"([^"\n]*)"', text):
            names.update(re.findall(r"\w+", part))
    scripts = [path for folder in FOLDERS[1:] for path in (TOP / folder).rglob("*") if path.is_file()]
    scripts = [path for path in scripts if path.suffix in ("", ".py", ".rs")] + [TOP / "bucketidx", TOP / "crates.txt"]
    for path in scripts:
        names.update(re.findall(r"\w+", re.sub(r"(?m)^\s*(?:#|//).*", "", path.read_text())))
    for folder in FOLDERS:
        for path in (TOP / folder).rglob("*"):
            names.update(re.findall(r"\w+", path.name) if "out" not in path.parts else ())
    return names


def wrong_names(page, names, words_of_files):
    for span in re.findall(r"`([^`\n]+)`", without_code(page.read_text())):
        if " " not in span and span.endswith("_.."):
            if not any(name.startswith(span[:-2]) for name in names):
                yield "no name begins as `%s` does" % span
            continue
        for name in re.findall(r"\w+", span):
            is_tried = " " not in span or re.search(r"\w_\w|[a-z][A-Z]", name)
            if is_tried and not name.isdigit() and name not in names:
                yield "nothing is named %s: `%s`" % (name, span)
        for parts in re.findall(r"\b(\w+)(?:::|\.)(\w+)", "" if re.search("[/ ]", span) else span):
            if parts[1] not in ENDINGS and not any(words.issuperset(parts) for words in words_of_files):
                yield "no file of the source has both parts of `%s.%s`" % parts


def floors():
    """The headings of crates.txt, each with the crates below it. A comment of more than one line is no heading."""
    found = []
    for part in (TOP / "crates.txt").read_text().split("\n\n"):
        heading, *lines = part.strip().splitlines()
        if lines and not lines[0].startswith("#"):
            found.append((heading.lstrip("# "), [re.split(r"[\s:]", line)[0] for line in lines]))
    return found


def wrong_floors():
    plan = TOP / "crates" / "README.md"
    found = []
    for part in plan.read_text().split("\n## ")[1:]:
        rows = re.findall(r"^\| `(\w+)` \|.*\| `([\w/.]+)` \|$", part, re.M)
        found.append((part.splitlines()[0], [name for name, _ in rows]))
        for name, file in rows:
            if not (TOP / "crates" / name / file).exists():
                yield "crates/%s has no file %s" % (name, file)
    if found != floors():
        yield "the headings or the crates are not those of crates.txt"


def wrong_definitions():
    sections = re.findall(r"^### (.*)$", (TOP / "docs" / "DEFINITIONS.md").read_text(), re.M)
    listed = re.findall(r"^\d+\. `crates/([\w/.]+)`", (TOP / "docs" / "TRUSTED.md").read_text(), re.M)
    if sections != listed:
        other = sorted(set(sections) ^ set(listed)) or ["the order"]
        yield "the sections are not the files of docs/TRUSTED.md: " + ", ".join(other)


def wrong_parts():
    """The rows of the rule's parts: each record is declared in the file of its definition, and stands in each file
    that shows it kept."""
    section = (TOP / "docs" / "CHANGING.md").read_text().split("\n## A part of the rule\n")[-1].split("\n## ")[0]
    rows = re.findall(r"^\|([^|]*)\| ((?:`\w+`(?:, )?)+) \| `([\w/.]+)` \| (.*) \|$", section, re.M)
    if len(rows) < 20:
        yield "the table of the rule's parts has %d rows that can be read" % len(rows)
    for _, records, definition, proofs in rows:
        names = re.findall(r"`(\w+)`", records)
        text = (TOP / "crates" / definition).read_text() if (TOP / "crates" / definition).exists() else ""
        for name in names:
            if not re.search(r"(?m)^(?:pub )?(?:abbrev |record |data )(?:pub )?%s\b" % name, text):
                yield "%s does not declare %s" % (definition, name)
        for files, crate in re.findall(r"((?:`\w+`(?:, )?)+) of (\w+)", proofs):
            for file in re.findall(r"`(\w+)`", files):
                path = TOP / "crates" / crate / "proofs" / (file + ".antt")
                words = set(re.findall(r"\w+", path.read_text())) if path.exists() else set()
                if not words & set(names):
                    yield "%s of %s has none of %s" % (file, crate, ", ".join(names))


def usage():
    """The page on use that ./bucketidx shows, and the parts of it that say the lines of a session and the exit
    statuses."""
    page = (TOP / "bucketidx").read_text().split("<<END\n")[1].split("\nEND\n")[0]
    lines = page.split("one request a line:\n\n")[1].split("\n\n")[0]
    return page, lines, page.split("exit status:\n")[1].split("\n\n")[0]


def wrong_usage():
    """The page has each line of a session with its fields, each exit status, and each number of these in
    docs/FORMAT.md."""
    page, lines, statuses = usage()
    text = (TOP / "docs" / "FORMAT.md").read_text()
    table = text.split("| Line | What it asks |\n")[1].split("\n\n")[0]
    # The last form of a row is the one with all fields.
    wanted = {re.findall(r"`([^`]+)`", row.split("|")[1])[-1] for row in table.splitlines()[1:]}
    shown = {re.split(r"  +", line.strip())[0] for line in lines.splitlines() if re.match(r"    \S", line)}
    yield from ("the line `%s` is in one of the two alone" % line for line in sorted(wanted ^ shown))
    for fields in {line.split(" ", 1)[1] for line in wanted if " " in line and "query" not in line}:
        for field in fields.split():
            if not re.search(r"(?m)^    %s   ?" % field, page):
                yield "the field `%s` is not explained" % field
    ends = text.split("\n## How it ends\n")[1]
    numbers = set(re.findall(r"(?m)^\| (\d+) \|", ends))
    if numbers != set(re.findall(r"\d+", " ".join(re.findall(r"(?m)^    (\d[\d, ]*) ", statuses)))):
        yield "the exit statuses are not those of the page on use"
    numbers_of = lambda some: {number.replace(",", "") for number in re.findall(r"\d[\d,]*\d|\d", some)}
    yield from ("docs/FORMAT.md does not have the number %s" % number for number in sorted(numbers_of(page) - numbers_of(text)))
    for parameter in set(re.findall(r"([a-z-]+)=", lines)):
        if "| `%s` |" % parameter not in text:
            yield "docs/FORMAT.md has no parameter `%s`" % parameter


def main():
    argparse.ArgumentParser(description=__doc__.split("\n")[0]).parse_args()
    wrong = ["crates/README.md: " + fault for fault in wrong_floors()]
    wrong += ["bucketidx and docs/FORMAT.md: " + fault for fault in wrong_usage()]
    wrong += ["docs/CHANGING.md: " + fault for fault in wrong_parts()]
    wrong += ["docs/DEFINITIONS.md: " + fault for fault in wrong_definitions()]
    texts = dict(sources())
    names, words_of_files = declared(texts), [set(re.findall(r"\w+", text)) for text in texts.values()]
    for page in pages():
        faults = [*wrong_links(page), *wrong_merges(page), *wrong_files(page)]
        faults += wrong_names(page, names, words_of_files)
        wrong += ["%s: %s" % (page.relative_to(TOP), fault) for fault in faults]
    print("\n".join(wrong) if wrong else "each link of %d pages leads somewhere" % len(pages()))
    sys.exit(len(wrong) > 0)


if __name__ == "__main__":
    main()
