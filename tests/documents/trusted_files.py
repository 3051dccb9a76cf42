#!/usr/bin/env python3
"""Checks that docs/TRUSTED.md lists exactly the definition files and the types on which the clauses of `serve` rest.

    tests/documents/trusted_files.py [--list]

The files are the closure of the imports of the file of `serve`, and of the two traits of its source and sink. The types
are the Rust types of this repository that these files and the clauses name.
Each definition in these files is one that a clause of `serve` reaches by names.
Of the crates that have one of them, each other definition file says in its first line that it is a helper. All
other crates below `serve` have helpers alone.
With `--list` the files are printed in place of the check, each with its lines, and with those of them that are
neither empty nor an import; then the definitions in these files that no clause of `serve` needs, by their names.
"""
import argparse
import re
import sys
from pathlib import Path

HERE = Path(__file__).resolve().parent.parent.parent
DOCUMENT = HERE / "docs" / "TRUSTED.md"
ROOTS = ["serve_session/src/serving.rt", "outside_io/src/source.rt", "outside_io/src/sink.rt"]
HELPER = "-- Helper: the headline does not rest on this file."
TYPES = re.compile(r"Rust types that the definitions speak of, (.*?)\. A `Text`", re.DOTALL)
USE = re.compile(r"^\s*(?:pub |ghost )*use Rattle\.(\w+)\.specs\.([\w.]*?)(?:\.?\{(.*)\}| as .*)?;?$", re.MULTILINE)


def modules_of(path):
    """The modules of definitions from which the file imports, each with its crate."""
    for crate, module, names in USE.findall(path.read_text()):
        for name in names.split(", ") if names else []:
            yield crate, (module + "." + name).strip(".").rpartition(".")[0]
        if not names:
            yield crate, module


def imports_of(path):
    """The definition files of this repository that the file imports."""
    for crate, module in modules_of(path):
        found = HERE / "crates" / crate / "specs" / (module.replace(".", "/") + ".antt")
        if found.exists():
            yield found


def closure():
    seen, waiting = set(), [HERE / "crates" / root for root in ROOTS]
    while waiting:
        for found in imports_of(waiting.pop()):
            if found not in seen:
                seen.add(found)
                waiting.append(found)
    return names_of(seen)


def types_of(names):
    """The Rust types of this repository that these files and the clauses of `serve` name, each with its crate."""
    for path in [HERE / name for name in names] + [HERE / "crates" / root for root in ROOTS]:
        for crate, module in modules_of(path):
            if module.startswith("declared.") and (HERE / "crates" / crate).is_dir():
                yield "%s of %s" % (module.removesuffix(".TheVariants").split(".")[-1], crate)


def types_listed(document):
    """The types of the document's sentence on them, each with its crate."""
    for group in TYPES.search(document)[1].split(";"):
        *types, crate = re.findall(r"`(\w+)`", group)
        for name in types:
            yield "%s of %s" % (name, crate)


def crates_below(crate):
    """This crate, and those of the repository that it stands on."""
    below = dict(re.findall(r"^(\w+)[^:\n]*:(.*)$", (HERE / "crates.txt").read_text(), re.MULTILINE))
    seen, waiting = set(), [crate]
    while waiting:
        name = waiting.pop()
        if name in below and name not in seen:
            seen.add(name)
            waiting += below[name].split()
    return seen


def marked(needed):
    """Of the crates that have a needed file: the definition files that say that they are helpers, and the others."""
    crates = crates_below("bucketidx") & {name.split("/")[1] for name in needed}
    files = [path for crate in crates for path in (HERE / "crates" / crate / "specs").rglob("*.antt")]
    files = [path for path in files if path.name != "Lib.antt"]
    helpers = {path for path in files if path.read_text().startswith(HELPER + "\n")}
    return names_of(helpers), names_of(set(files) - helpers)


def names_of(paths):
    return {str(path.relative_to(HERE)) for path in paths}


def definitions(name):
    """Each definition of a file: its name, and its text without comments."""
    text = re.sub(r"--.*", "", (HERE / name).read_text())
    for block in re.split(r"\n\s*\n", text):
        found = re.search(r"^(?:pub )?(?:abbrev|unfoldable|record|data) (?:pub )?(\S+)", block, re.MULTILINE)
        if found:
            yield found[1], block


def words(text):
    """The names in a text; `do` blocks use one that they do not write."""
    return set(re.findall(r"[A-Za-z_][\w'-]*", text)) | {"◌>>=◌" for _ in re.findall("←", text)}


def not_needed(needed):
    """The definitions of these files that no clause reaches by names. Two that share a name count as one."""
    texts = {}
    for name in needed:
        for definition, text in definitions(name):
            texts[definition] = texts.get(definition, "") + text
    waiting, seen = [(HERE / "crates" / root).read_text() for root in ROOTS], set()
    while waiting:
        for word in (words(waiting.pop()) & texts.keys()) - seen:
            seen.add(word)
            waiting.append(texts[word])
    return sorted(texts.keys() - seen)


def lines_of(name):
    """The lines of a file, and those that are neither empty nor an import."""
    lines = (HERE / name).read_text().splitlines()
    return len(lines), sum(1 for line in lines if line and not re.match(r"(pub )?use ", line))


def sums(names):
    return tuple(map(sum, zip(*map(lines_of, names))))


def main():
    parser = argparse.ArgumentParser(description=__doc__.split("\n")[0])
    parser.add_argument("--list", action="store_true")
    options = parser.parse_args()
    needed = closure()
    if options.list:
        for name in sorted(needed):
            print("%4d %4d  %s" % (*lines_of(name), name))
        print("%d files, %d lines, %d of them neither empty nor an import" % (len(needed), *sums(needed)))
        return print("not needed: %s" % (", ".join(not_needed(needed)) or "none"))
    document = DOCUMENT.read_text()
    listed = re.findall(r"^\d+\. `(crates/[\w/]+\.antt)`", document, re.MULTILINE)
    wrong = ["%s is not listed" % name for name in sorted(needed - set(listed))]
    wrong += ["%s is listed and no clause of serve rests on it" % name for name in sorted(set(listed) - needed)]
    wrong += ["%s is listed twice" % name for name in sorted(set(listed)) if listed.count(name) > 1]
    wrong += ["%s is a definition in these files, and no clause of serve needs it" % name for name in not_needed(needed)]
    helpers, others = marked(needed)
    wrong += ["%s calls itself a helper, and a clause of serve rests on it" % name for name in sorted(helpers & needed)]
    wrong += ["%s does not call itself a helper in its first line" % name for name in sorted(others - needed)]
    named, told = set(types_of(needed)), list(types_listed(document))
    wrong += ["the type %s is not listed" % name for name in sorted(named - set(told))]
    wrong += ["the type %s is listed and no definition names it" % name for name in sorted(set(told) - named)]
    wrong += ["the type %s is listed twice" % name for name in sorted(set(told)) if told.count(name) > 1]
    if wrong:
        print("docs/TRUSTED.md:\n  " + "\n  ".join(wrong))
        sys.exit(1)
    print("docs/TRUSTED.md: %d files, %d lines" % (len(needed), sums(needed)[0]), file=sys.stderr)


if __name__ == "__main__":
    main()
