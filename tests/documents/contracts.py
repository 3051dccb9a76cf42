#!/usr/bin/env python3
"""Prints the contracts of the public functions, and compares the clauses that the documents name with the source.

    tests/documents/contracts.py                    prints the contracts of all crates, as a page in Markdown
    tests/documents/contracts.py page_rules         prints those of the named crates
    tests/documents/contracts.py --since COMMIT     prints the functions and promises that were there at a commit and are gone,
                                                    and the conditions that are new
    tests/documents/contracts.py --check            reports where the documents differ from the source, and then ends with status 1

A function is public where it is named by `pub use` in the crate's root file, or is a method of a type or trait
that is. The page has each of them with its comment and its clauses; what an `impl Display` says of its bytes is the
clause `output` of its `fmt`. The repository does not keep the page. In docs/PROVED.md, and wherever README or
a page of docs/ says "clause `c` of `f`", each function has a clause of that name.
"""
import argparse
import re
import subprocess
import sys
import tarfile
import tempfile
from pathlib import Path

TOP = Path(__file__).resolve().parent.parent.parent
NAMELESS = "–"


# ---- the source


def crates(top=TOP):
    lines = (top / "crates.txt").read_text().splitlines()
    return [re.split(r"[\s:]", line)[0] for line in lines if line.strip() and not line.startswith("#")]


def one_line(text):
    return " ".join(text.split())


def without_generics(text):
    while True:
        shorter = re.sub(r"<[^<>]*>", "", text.replace("->", " "))
        if shorter == text:
            return one_line(text)
        text = shorter


def clauses_from(lines, start, indent):
    """The clauses of the function whose first line is given, as (kind, name, text)."""
    found, at = [], start
    while at < len(lines):
        line = lines[at]
        begun = re.match(r"\s*(ensures|requires)\b\s*(\w*)\s*\{", line)
        if begun and at > start:
            text = line[begun.end() :]
            while text.count("{") + 1 > text.count("}"):
                at += 1
                text += " " + lines[at]
            text = text[: text.rindex("}")]
            found.append((begun.group(1), begun.group(2) or NAMELESS, one_line(text)))
            ends = lines[at].rstrip().endswith("};")
        else:
            ends = line in (indent + "{", indent + "{}") or line.rstrip().endswith(("{", ";"))
        if ends:
            return found
        at += 1
    return found


def comment_before(lines, at):
    """The doc comment that ends immediately before a line, as one paragraph."""
    said = []
    while at > 0 and re.match(r"\s*(///|#\[)", lines[at - 1]):
        at -= 1
        if lines[at].lstrip().startswith("///"):
            said.insert(0, lines[at].strip()[3:].strip())
    return one_line(" ".join(said))


def functions_of(path):
    """Each function of the file that may be public, as (owner, name, clauses, comment); the owner is a type or a
    trait."""
    lines = path.read_text().splitlines()
    owner, is_trait, output = None, False, []
    for at, line in enumerate(lines):
        if line.startswith("}"):
            owner, is_trait, output = None, False, []
        opened = re.match(r"(?:pub )?(impl|trait)\b(.*)", line)
        if opened and not line[0].isspace():
            rest = opened.group(2)
            for more in lines[at + 1 :]:
                if "{" in rest:
                    break
                rest += " " + more
            words = without_generics(rest.split("{")[0]).split(" where ")[0]
            is_trait = opened.group(1) == "trait" or " for " in words
            owner = words.split(" for ")[-1].split(":")[0].split()[0].split("::")[-1]
        stated = re.fullmatch(r"    ghost output = \{(.*)\};", line)
        if stated:
            output = [("ensures", "output", one_line(stated.group(1)))]
        begun = re.match(r"( *)(pub )?(?:const |unsafe )*fn (\w+)", line)
        if begun and (begun.group(2) or (is_trait and owner)) and len(begun.group(1)) == (4 if owner else 0):
            yield owner, begun.group(3), output + clauses_from(lines, at, begun.group(1)), comment_before(lines, at)


def exports(src):
    """The names that the root file makes public, each with the module of this crate that it is taken from."""
    root = src / "lib.rt" if (src / "lib.rt").exists() else src / "main.rt"
    text = re.sub(r"//[^\n]*", "", root.read_text())
    taken = {}
    for tree in re.findall(r"^pub use ([^;]+);", text, re.M):
        path, _, braced = one_line(tree).partition("::{")
        names = braced.rstrip("} ").split(",") if braced else [path.split("::")[-1]]
        module = path.split("::")[0] if "::" in path or braced else ""
        for name in names:
            taken[name.split(" as ")[0].strip()] = module.replace("crate", "")
    return taken


def files_of(src, module):
    if not module:
        return [src / "lib.rt", src / "main.rt"]
    return [src / (module + ".rt")] + sorted((src / module).rglob("*.rt"))


def documented_functions(crate, top=TOP):
    """The functions of the crate that others can call: `Owner::name` or `name`, with their clauses and comments."""
    src = top / "crates" / crate / "src"
    public = exports(src)
    found = {}

    def add(name, clauses, comment):
        known, said = found.get(name, ([], ""))
        found[name] = (known + clauses, said or comment)

    for name, module in public.items():
        for path in files_of(src, module):
            if path.exists():
                for owner, function, clauses, comment in functions_of(path):
                    if owner is None and function == name:
                        add(function, clauses, comment)
    # The methods of a public type may stand in any file of the crate.
    for path in sorted(src.rglob("*.rt")):
        for owner, function, clauses, comment in functions_of(path):
            if owner in public:
                add(owner + "::" + function, clauses, comment)
    return found


def public_functions(crate, top=TOP):
    """The same with their clauses alone."""
    return {name: clauses for name, (clauses, _) in documented_functions(crate, top).items()}


# ---- the page

HEAD = """# The contracts

For each crate, its public functions: the comment and the clauses of each as they stand in the source. A clause that begins with *needs* has to hold before the call, each other one holds after it. A dash stands for a clause without a name.

In a clause, `result` is the answer. `x.old` and `x.new` are a borrowed value before and after the call; `x.now` is a value that is only read. `x.entry` is the value of a parameter when the call begins. `IfOk result P` says P of the value of a success. `OnOk result P` says P where the call succeeds. `IfErr` and `OnErr` are the same for an error. `IfSome result P` says P of the value where there is one. `MatchOption result P Q` says P where there is no value, and Q of the value where there is one. `IsErrOf result e` says that the error is `e`.

A method of a trait has the clauses of the trait; an implementation is listed where it has a comment or states a clause of its own."""


def written(clause):
    kind, name, text = clause
    return "- %s%s: `%s`" % ("*needs* " if kind == "requires" else "", name, text)


def page(names):
    """The contracts of these crates."""
    parts = [HEAD]
    for crate in names:
        functions = {name: told for name, told in documented_functions(crate).items() if any(told)}
        if functions:
            parts.append("## " + crate)
        for name, (clauses, comment) in functions.items():
            needed_first = sorted(clauses, key=lambda clause: clause[0] != "requires")
            parts.append("\n".join(["### `%s`" % name, ""] + [comment] * bool(comment) + [""] * bool(comment and clauses) + list(map(written, needed_first))))
    return "\n\n".join(parts) + "\n"


# ---- the clauses that other pages name


def named_in_table(path):
    """The rows of PROVED.md: a crate, what is proved, and `f`, `g`: `clause`, `clause`; `h`: .."""
    for line in path.read_text().splitlines():
        cells = [cell.strip() for cell in line.strip("|").split("|")]
        if len(cells) != 3 or not re.fullmatch(r"`\w+`", cells[0]):
            continue
        for part in cells[2].split(";"):
            functions, colon, clauses = part.partition(": ")
            for function in re.findall(r"`([\w:]+)`", functions):
                # A function without clauses, or with "each clause", has to be there all the same.
                for clause in (re.findall(r"`(\w+)`", clauses) if colon else []) or [None]:
                    yield cells[0].strip("`"), function, clause


def named_in_text(path):
    """Each "clause `c` of `f`" and "clauses `c`, `d` and `e` of `f`"."""
    for clauses, function in re.findall(r"clauses? ((?:`\w+`(?:, | and )?)+) of `([\w:]+)`", path.read_text()):
        for clause in re.findall(r"`(\w+)`", clauses):
            yield function, clause


def wrong_names():
    by_crate = {crate: public_functions(crate) for crate in crates()}
    has = lambda functions, function, clause: function in functions and (
        clause is None or clause in [name for _, name, _ in functions[function]]
    )
    proved = TOP / "docs" / "PROVED.md"
    if proved.exists():
        for crate, function, clause in named_in_table(proved):
            if not has(by_crate.get(crate, {}), function, clause):
                yield "PROVED.md: %s has no `%s`%s" % (crate, function, " with a clause `%s`" % clause if clause else "")
    for path in [TOP / "README.md"] + sorted((TOP / "docs").glob("*.md")):
        for function, clause in named_in_text(path):
            if not any(has(functions, function, clause) for functions in by_crate.values()):
                yield "%s: no `%s` has a clause `%s`" % (path.name, function, clause)


def check():
    wrong = list(wrong_names())
    print("\n".join(wrong), end="\n" if wrong else "")
    if wrong:
        sys.exit("%d differences" % len(wrong))
    clauses = sum(len(c) for crate in crates() for c in public_functions(crate).values())
    print("the public functions have %d clauses, and each one that the documents name is there" % clauses)


# ---- an earlier commit


def all_clauses(top):
    """The clauses of each public function; of a name that several crates have, those of all of them."""
    found = {}
    for crate in crates(top):
        for function, clauses in public_functions(crate, top).items():
            found.setdefault(function, set()).update(clauses)
    return found


def differences(before, after):
    """Functions and promises of `before` that `after` lacks, and conditions that `before` did not have. A function is the
    same one where it has moved to another crate. A clause in other words is reported too: a reader decides."""
    for function in sorted(before):
        if function not in after:
            yield "gone: `%s`" % function
            continue
        for kind, clauses, others in (("ensures", before, after), ("requires", after, before)):
            for clause in sorted(clauses[function] - others[function]):
                if clause[0] == kind:
                    what = "promise gone or in other words" if kind == "ensures" else "condition new or in other words"
                    yield "%s: `%s`, `%s`: %s" % (what, function, clause[1], clause[2])


def since(commit):
    with tempfile.TemporaryDirectory() as folder:
        packed = subprocess.run(["git", "-C", TOP, "archive", commit, "crates", "crates.txt"], check=True, stdout=subprocess.PIPE).stdout
        with tempfile.TemporaryFile() as file:
            file.write(packed)
            file.seek(0)
            tarfile.open(fileobj=file).extractall(folder)
        before, after = all_clauses(Path(folder)), all_clauses(TOP)
    found = list(differences(before, after))
    print("\n".join(found), end="\n" if found else "")
    print("%d functions at %s, %d now, %d differences" % (len(before), commit, len(after), len(found)))


def main():
    parser = argparse.ArgumentParser(description=__doc__.split("\n")[0])
    parser.add_argument("crates", nargs="*")
    parser.add_argument("--check", action="store_true")
    parser.add_argument("--since", metavar="COMMIT")
    options = parser.parse_args()
    if options.check:
        return check()
    if options.since:
        return since(options.since)
    unknown = [name for name in options.crates if name not in crates()]
    if unknown:
        parser.error("no crate is named " + ", ".join(unknown))
    print(page(options.crates or crates()), end="")


if __name__ == "__main__":
    main()
