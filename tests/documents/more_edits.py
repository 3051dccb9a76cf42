#!/usr/bin/env python3
"""Tries the wrong bodies of crates/NAME/more-edits, which the gate leaves out for their cost.

    tests/documents/more_edits.py [NAME ..]
    tests/documents/more_edits.py --changed [COMMIT]
    tests/documents/more_edits.py --apply

Without a name it tries those of every crate; with --changed those of the crates whose files differ from the commit
(without one: from the last commit). With --apply none is tried: of each edit, those of must-fail/ too, the text that it
replaces must stand exactly once in its file. Each edit must be refused by the prover, as those in must-fail/ must.
A crate is tried on a copy of the sources in which its more-edits/ stand in the place of must-fail/.
The script counts, and ends with status 1 where an edit is still proved, cannot be applied or was not tried.
It says where only a proof that names what the edit took away has refused it: that says little about the
contract, and wants an edit of the same shape.
"""
import argparse
import re
import shutil
import subprocess
import sys
import tempfile
from pathlib import Path

ROOT = Path(__file__).resolve().parent.parent.parent
RESULT = re.compile(r"must-fail (\S+)/(\S+\.edit): (refused|NOT REFUSED|BAD EDIT|NOT TRIED)(.*)")
# What `rt must-fail` says after a refusal of that kind.
BY_SHAPE = "only because a proof file names what the edit took away"


def copied(folder):
    """The sources, without what checks have made."""
    for name in ("crates.txt", "HANDLES"):
        shutil.copy(ROOT / name, folder / name)
    shutil.copytree(ROOT / "crates", folder / "crates", ignore=shutil.ignore_patterns("out"))


def changed(commit):
    """The crates with more-edits/ of which a file differs from the commit, committed or not."""
    said = subprocess.run(
        ["git", "diff", "--name-only", commit, "--", "crates"], cwd=ROOT, capture_output=True, text=True, check=True
    ).stdout
    touched = {line.split("/")[1] for line in said.splitlines()}
    return sorted(name for name in touched if (ROOT / "crates" / name / "more-edits").is_dir())


def replaced(edit):
    """The texts that an edit replaces, each with its file."""
    place, word, lines = None, None, []
    for line in [*edit.read_text().splitlines(), "file:"]:
        begins = re.match(r"(file|old|new): ?(.*)$", line)
        if begins is None:
            lines.append(line)
            continue
        if word == "old":
            yield edit.parent.parent / place, "\n".join(lines).rstrip("\n")
        word, lines = begins[1], [begins[2]]
        place = begins[2].strip() if word == "file" else place


def misplaced():
    """The edits that cannot be applied."""
    for edit in sorted(ROOT.glob("crates/*/*/*.edit")):
        texts = list(replaced(edit))
        if not texts or any(not at.is_file() or at.read_text().count(text) != 1 for at, text in texts):
            yield edit


def tried(folder, crate):
    """What each edit of a crate came to, which were refused by their shape alone, and all that was said."""
    home = folder / "crates" / crate
    shutil.rmtree(home / "must-fail", ignore_errors=True)
    shutil.move(home / "more-edits", home / "must-fail")
    subprocess.run(["rt", "check"], cwd=home, capture_output=True, text=True)
    run = subprocess.run(["rt", "must-fail", crate], cwd=folder, capture_output=True, text=True)
    said = run.stdout + run.stderr
    found = list(RESULT.finditer(said))
    by_shape = {match[2] for match in found if BY_SHAPE in match[4]}
    return {match[2]: match[3] for match in found}, by_shape, said


def main():
    parser = argparse.ArgumentParser(description=__doc__.splitlines()[0])
    parser.add_argument("names", nargs="*", help="crates; without one, all that have more-edits/")
    parser.add_argument("--changed", nargs="?", const="HEAD", metavar="COMMIT", help="the crates that differ from it")
    parser.add_argument("--apply", action="store_true", help="only see that each edit can be applied")
    args = parser.parse_args()
    if args.apply:
        found = [str(edit.relative_to(ROOT)) for edit in misplaced()]
        print(*found, "each edit can be applied" if not found else "cannot be applied", sep="\n")
        return 1 if found else 0
    if args.changed:
        names = changed(args.changed)
        print("to be tried:", *names or ["none"], flush=True)
    else:
        names = args.names or sorted(at.parent.name for at in ROOT.glob("crates/*/more-edits"))
    passed = failed = shapes = 0
    with tempfile.TemporaryDirectory() as made:
        folder = Path(made)
        copied(folder)
        for crate in names:
            edits = sorted(at.name for at in (folder / "crates" / crate / "more-edits").glob("*.edit"))
            results, by_shape, said = tried(folder, crate)
            for edit in edits:
                result = results.get(edit, "NOT TRIED")
                passed, failed = passed + (result == "refused"), failed + (result != "refused")
                shapes += edit in by_shape
                print(f"{crate}/{edit}: {result}{' by its shape alone' * (edit in by_shape)}", flush=True)
            if any(edit not in results for edit in edits):
                print(said[-2000:], file=sys.stderr)
    print(f"{passed} passed, {shapes} of them by their shape alone, {failed} failed")
    return 1 if failed else 0


if __name__ == "__main__":
    sys.exit(main())
