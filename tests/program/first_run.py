#!/usr/bin/env python3
"""Tries the script ./bucketidx with a kit that only pretends to build, and without one: what it says, and how it ends.

    tests/program/first_run.py

The words that it refuses before the program is built are those that tests/program/samples.py and tests/program/exit_statuses.py see the
program itself refuse.
"""
import argparse
import os
import pty
import shutil
import signal
import subprocess
import sys
import tempfile
from pathlib import Path

from exit_statuses import ROWS
from samples import bad_words

TOP = Path(__file__).resolve().parent.parent.parent
FORMS = [["run"], ["check"], ["sample", "1"], ["sample", "9"], ["sample", "10"], ["sample", "39999"], ["sample", "40000"]]
FORMS += [words for n in ("1", "9", "10", "8191", "8192") for verb, option in (("run", "--slots"), ("run", "--pool"), ("check", "--slots"))
          for words in ([verb, option, n], [verb, option + "=" + n])]
HELP = [[], ["--help"], ["-h"], ["help"]]
CRATES = """# Two crates of the program, the program, and one of tests
key_map:
key_names: arrayvec
bucketidx: key_names key_map arrayvec

key_map_tests: key_map
"""
# `rt ci` prints what it does of two crates, and that a third is kept; `rt run` what it does of two. Both leave a program
# that takes the one word `run`. `rt ci` wants a copy of the program's crates alone, without wrong bodies. Of the two calls
# ahead, one after the other, the second leaves its number and never ends by itself; the call for all waits until it has
# begun. Where a call sleeps it becomes the command that does: a shell that starts one as a child can lose a signal which
# comes between the two, and then waits for the child to the end.
KIT = """#!/bin/sh
block() { echo "so far: 1 of 2 functions checked"; echo "crate $1: modules loaded=1"; echo "logic=proved functions=2"; }
case $1 in
ci)
    [ "$(ls crates | tr '\\n' ' ')" = "bucketidx key_map key_names " ] && [ -f HANDLES ] && ! grep -q tests crates.txt ||
        { echo "error: not a copy of the program's crates alone"; exit 1; }
    [ ! -e crates/key_map/must-fail ] && [ ! -e crates/key_map/out ] || { echo "error: too much in the copy"; exit 1; }
    [ "${2-}" != update_try ] || exit 0
    [ "${2-}" != shared_index ] || { echo $$ >"$TMPDIR/../ahead"; touch "$TMPDIR/left"; exec sleep 600; }
    until [ -s "$TMPDIR/ahead" ]; do sleep 0.01; done
    echo "rt: key_names is kept: an earlier run on this machine proved the same files"
    echo "== key_map"; echo "fn key_map::put: proved"; block key_map; echo "rt: key_map proved"
    [ -z "${BROKEN:-}" ] || { echo "== bucketidx"; echo "error: no proof of a clause"; echo "rt: bucketidx NOT PROVED"
        for at in $(seq 50); do echo "rt: more is said"; done; echo "2 passed, 1 failed"; exit 1; }
    [ -z "${SLOW:-}" ] || exec sleep 60
    [ -z "${MEANWHILE:-}" ] || { sleep 0.1; touch "$MEANWHILE"; }
    echo "== bucketidx"; block bucketidx; echo "rt: bucketidx proved"
    cd crates/bucketidx; last="3 passed, 0 failed" ;;
run)
    block key_map; block key_names; last="" ;;
esac
mkdir -p out
cat >out/bucketidx <<'END'
#!/bin/sh
[ "$*" = run ] || { echo "bucketidx: bad words" >&2; exit 2; }
cat; exit "${ENDS:-0}"
END
chmod +x out/bucketidx
echo "$last"
"""


def run(top, words, kit="kit", **more):
    path = "%s:%s" % (top / kit, os.environ["PATH"])
    here = {**os.environ, "PATH": path, "TMPDIR": str(top / "tmp"), **more}
    (top / "tmp" / "ahead").unlink(missing_ok=True)
    ran = subprocess.run([top / "bucketidx", *words], input=b"a session\n", capture_output=True, env=here)
    return ran.returncode, ran.stdout.decode(), ran.stderr.decode()


def at_a_terminal(top, words):
    """The status, and what standard error shows where it is a terminal."""
    ours, theirs = pty.openpty()
    ran = subprocess.run([top / "bucketidx", *words], stdin=subprocess.DEVNULL, stdout=subprocess.PIPE, stderr=theirs)
    os.close(theirs)
    shown = b""
    try:
        while piece := os.read(ours, 4096):
            shown += piece
    except OSError:
        # All that was written has been read.
        pass
    os.close(ours)
    return ran.returncode, ran.stdout.decode(), shown.decode().replace("\r\n", "\n")


def expect(what, holds):
    if not holds:
        sys.exit("./bucketidx: " + what)


def make_top(top):
    """A small repository, with a kit that pretends to build, and one that must not be called."""
    for name in ("bucketidx", "key_map", "key_names", "key_map_tests"):
        (top / "crates" / name / "src").mkdir(parents=True)
        (top / "crates" / name / "src" / "lib.rt").write_text("// %s\n" % name)
    (top / "crates" / "key_map" / "must-fail").mkdir()
    (top / "crates" / "key_map" / "out").mkdir()
    for kit, text in (("kit", KIT), ("no kit", '#!/bin/sh\necho "called" >&2\nexit 1\n')):
        (top / kit).mkdir()
        (top / kit / "rt").write_text(text)
        (top / kit / "rt").chmod(0o755)
    (top / "tmp").mkdir()
    (top / "crates.txt").write_text(CRATES)
    (top / "HANDLES").write_text("Handles allowed: none.\n")
    shutil.copy(TOP / "bucketidx", top)


def try_words(top):
    """Before anything is built: which words are refused, and how."""
    refused = bad_words() + [row[0] for row in ROWS if row[3] == 2]
    for words in refused:
        status, out, said = run(top, words, "no kit")
        line, _, page = said.partition("\n")
        expect("%r is refused without the kit" % words, (status, out, line) == (2, "", "bucketidx: bad words"))
        expect("the page on use comes where the arguments ask for it: %r" % words, (page != "") == (words in HELP))
    for words in FORMS:
        status, _, said = run(top, words, "no kit")
        expect("%r is not refused" % words, status == 70 and "called" in said)
    page = at_a_terminal(top, ["walk"])[2]
    expect("at a terminal the page follows each bad word", page.startswith("bucketidx: bad words\n\nusage: "))
    for part in ("./bucketidx run", "./bucketidx run --slots N", "./bucketidx run --pool N", "./bucketidx check", "./bucketidx check --slots N", "./bucketidx sample N", "exit status:", *("\n    %d" % status for status in (0, 2, 3, 4, 5, 7, 8, 70))):
        expect("the page has %r" % part, part in page)


def ended_ahead(top):
    """Whether the call ahead has ended. The other call waits until it has begun."""
    try:
        os.kill(int((top / "tmp" / "ahead").read_text()), 0)
    except ProcessLookupError:
        return True
    return False


def try_a_stop(top):
    """A build that is stopped from the terminal ends with 130, ends the call ahead, and leaves no copy."""
    path = "%s:%s" % (top / "kit", os.environ["PATH"])
    here = {**os.environ, "PATH": path, "TMPDIR": str(top / "tmp"), "SLOW": "yes"}
    how = {"stdin": subprocess.DEVNULL, "stdout": subprocess.DEVNULL, "stderr": subprocess.PIPE, "start_new_session": True}
    # Where this script runs in the background the signal is ignored, and a shell cannot trap one that it was given so.
    how["preexec_fn"] = lambda: signal.signal(signal.SIGINT, signal.SIG_DFL)
    with subprocess.Popen([top / "bucketidx", "run"], env=here, **how) as started:
        for line in started.stderr:
            if b"proved key_map" in line:
                break
        os.killpg(started.pid, signal.SIGINT)
        expect("a build that was stopped ends with 130", started.wait(30) == 130)
    expect("it ends the call ahead", ended_ahead(top))
    expect("it leaves no copy", not [path for path in (top / "tmp").iterdir() if path.is_dir()])


def try_builds(top):
    status, out, said = run(top, ["run"], BROKEN="1")
    expect("a failed build ends with 70, and shows why", status == 70 and out == "" and "no proof of a clause" in said)
    status, out, said = run(top, ["run"])
    expect("the first run builds", status == 0 and out == "a session\n")
    told = [line for line in said.splitlines() if "proved" in line and " of 3 crates" in line]
    names = [line.split(",")[0] for line in told]
    expect("it reports each crate: " + said, names == ["bucketidx: proved " + name for name in ("key_names", "key_map", "bucketidx")])
    expect("and counts them", all("%d of 3" % (place + 1) in line for place, line in enumerate(told)))
    expect("a build ends the call ahead", ended_ahead(top))
    expect("no copy is left", not [path for path in (top / "tmp").iterdir() if path.is_dir()])
    expect("the second run is silent", run(top, ["run"]) == (0, "a session\n", ""))
    source = top / "crates" / "key_map" / "src" / "lib.rt"
    os.utime(source)
    run(top, ["run"], MEANWHILE=str(source))
    expect("a source that changed while it was built is built again", "built after" in run(top, ["run"])[2])
    (top / "crates" / "bucketidx" / "out" / "incremental").mkdir()
    os.utime(source)
    status, out, said = run(top, ["run"])
    expect("what checks kept here is taken up", "proved key_map, 1 of" in said and "proved key_names, 2 of" in said)


def try_program(top):
    expect("the program's status is kept", run(top, ["run"], ENDS="6") == (6, "a session\n", ""))
    expect("bad words have one line", run(top, ["walk"]) == (2, "", "bucketidx: bad words\n"))
    for words in HELP:
        expect("help has the page: %r" % words, "\nusage: " in run(top, words)[2])
    status, out, shown = at_a_terminal(top, ["walk"])
    expect("at a terminal the page on use follows", status == 2 and shown.startswith("bucketidx: bad words\n\nusage: "))
    expect("and only there", at_a_terminal(top, ["run"]) == (0, "", ""))


def main():
    argparse.ArgumentParser(description=__doc__.split("\n")[0]).parse_args()
    with tempfile.TemporaryDirectory() as folder:
        top = Path(folder)
        make_top(top)
        try_words(top)
        try_a_stop(top)
        try_builds(top)
        try_program(top)
    print("./bucketidx: the first run, a failed build, and bad arguments, as they should be")


if __name__ == "__main__":
    main()
