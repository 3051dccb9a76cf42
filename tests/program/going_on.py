#!/usr/bin/env python3
"""Tries examples/go_on and examples/by_ranges on random sessions and on a long one.

    tests/program/going_on.py PROGRAM [--sessions N] [--lines N] [--seed N]

- A session is run in two parts, the second one after what go_on makes of the first. At the end that run has the records
  which the model of random_sessions.py has after the whole session; and of a session of several clients go_on puts what
  the journal of its text says.
- A session is split into ranges, they are run as the page of by_ranges says it, and joined: the text is that of the model for
  the whole session, byte for byte. A session of 20,000 lines over four ranges has the text of one run.
- What the scripts cannot use they refuse with one line: sessions and texts that are faulty or not of one another.

The scripts of examples/ run inside this process and its workers, since starting Python takes longer than most of what
they do. The long session has a process for each script, by the commands that docs/FORMAT.md shows.
"""
import argparse
import collections
import io
import json
import random
import runpy
import subprocess
import sys
import tempfile
from concurrent.futures import ProcessPoolExecutor
from pathlib import Path
from typing import NamedTuple

sys.path.insert(0, str(Path(__file__).resolve().parent.parent / "models"))
from one_client import Session
from running import first_difference, make_ready
from session_model import answers, command_of, lines_of

TOP = Path(__file__).resolve().parent.parent.parent
EXAMPLES = TOP / "examples"


sys.path.insert(0, str(EXAMPLES))


class Done(NamedTuple):
    """What a script did that ran in this process."""

    returncode: int
    stdout: bytes
    stderr: bytes


def called(words, given=b""):
    """Runs a script of examples/ in this process."""
    kept = sys.argv, sys.stdin, sys.stdout, sys.stderr
    out, err, status = io.TextIOWrapper(io.BytesIO()), io.StringIO(), 0
    sys.argv, sys.stdin, sys.stdout, sys.stderr = [str(word) for word in words], io.TextIOWrapper(io.BytesIO(given)), out, err
    try:
        runpy.run_path(sys.argv[0], run_name="__main__")
    except SystemExit as ended:
        status = ended.code or 0
    finally:
        sys.argv, sys.stdin, sys.stdout, sys.stderr = kept
    out.flush()
    if isinstance(status, str):
        print(status, file=err)
        status = 1
    return Done(status, out.buffer.getvalue(), err.getvalue().encode())


def started(words, given=b""):
    """Runs a command in a process of its own."""
    return subprocess.run([str(word) for word in words], input=given, capture_output=True)


def text_of(words, given=b"", by=started):
    done = by(words, given)
    if done.returncode != 0 or done.stderr:
        sys.exit("%s: status %d\n%s" % (words, done.returncode, done.stderr.decode()))
    return done.stdout


def written(folder, **files):
    """The paths of files with these contents."""
    paths = []
    for name, content in files.items():
        paths.append(Path(folder, name))
        paths[-1].write_bytes(content if isinstance(content, bytes) else content.encode())
    return paths


def compare(what, got, wanted):
    if got != wanted:
        sys.exit("%s\n%s" % (what, first_difference(got, wanted)))


# ---- a run that goes on


def gone_on(folder, program, session):
    """The session that go_on makes of this one and of its text."""
    paths = written(folder, session=session, text=text_of([program, "run"], session))
    return text_of([EXAMPLES / "go_on", *paths], by=called)


def records_of(listing):
    """The records of a page, by name."""
    return {item["Key"].encode(): {name: item[name] for name in ("Size", "ETag", "LastModified")} for item in listing["Contents"]}


def try_two_parts(program, session, cut):
    """The records after a run in two parts: the lines from the cut on follow the records of the others."""
    lines = session.lines[1:]
    first, second = (["CLIENT", *lines[:cut]], lines[cut:])
    with tempfile.TemporaryDirectory() as folder:
        start = gone_on(folder, program, "".join(line + "\n" for line in first).encode())
    whole = start + "".join(line + "\n" for line in [*second, "LIST"]).encode()
    text = text_of([program, "run"], whole).decode()
    listing = json.loads(text.split("\n")[len(list(lines_of(whole))) - 2])
    if records_of(listing) != session.model.records:
        sys.exit("other records after two parts, cut at line %d of\n%s" % (cut, "\n".join(session.lines)))


def try_clients(program, path):
    """What go_on makes of a session of several clients, whose end depends on the schedule: what its journal says."""
    session = path.read_bytes()
    text = text_of([program, "run"], session)
    commands, records = {number: command_of(line) for number, line in lines_of(session)}, {}
    for entry in map(json.loads, text.splitlines()):
        if entry.get("Verb") == "PUT":
            records[entry["Key"].encode()] = dict(zip(("Size", "ETag", "LastModified"), commands[entry["Line"]][1][1:]))
        elif entry.get("Verb") == "DELETE":
            del records[entry["Key"].encode()]
    with tempfile.TemporaryDirectory() as folder:
        start = text_of([EXAMPLES / "go_on", *written(folder, session=session, text=text)])
    listing = text_of([program, "run"], start + b"LIST\n").decode().split("\n")[start.count(b"\n") - 1]
    if records_of(json.loads(listing)) != records:
        sys.exit("other records after %s:\n%s\n%s" % (path, text.decode(), start.decode()))


# ---- a session over ranges


def run_round(program, todo):
    """Runs the sessions of a round, one after another."""
    for name in todo.decode().splitlines():
        Path(name + ".out").write_bytes(text_of([program, "run"], Path(name + ".txt").read_bytes()))


def run_round_at_once(program, todo):
    run = ["xargs", "-P", "4", "-I", "NAME", "sh", "-c", "'%s' run < 'NAME.txt' > 'NAME.out'" % program]
    text_of(run, todo)


def over_ranges(folder, program, session, ranges, by=called, run=run_round):
    """The text of a session that runs over ranges, and how many rounds it took."""
    script, here = EXAMPLES / "by_ranges", Path(folder, "ranges")
    text_of([script, "split", str(ranges), here], session, by)
    rounds = 0
    while by([script, "next", here]).returncode == 0:
        rounds += 1
        run(program, (here / "todo").read_bytes())
    return text_of([script, "join", here], by=by), rounds


def try_ranges(program, session, ranges):
    with tempfile.TemporaryDirectory() as folder:
        text, rounds = over_ranges(folder, program, session.input().encode(), ranges)
    compare("over %d ranges\n%s" % (ranges, session.input()), text.decode(), session.model.text())
    return rounds


def long_session(rng, lines):
    """A session of so many lines: updates and lookups of 6,000 names, and listings of all, of a folder and of folders."""
    made = ["CLIENT"]
    names = ["%s/%s/%05d" % (rng.choice("abcdefgh"), rng.choice("xyz"), at) for at in range(6000)]
    asks = ["LIST max-keys=%d" % most for most in (1, 20, 1000)] + ["LIST delimiter=/&max-keys=3", "LISTV1 delimiter=x/", "LISTV1 max-keys=50&marker=d"]
    asks += ["LIST prefix=%s/&delimiter=/" % letter for letter in "adh"] + ["LIST prefix=c/&max-keys=400", "LIST start-after=e/y&encoding-type=url"]
    while len(made) < lines:
        name, kind = rng.choice(names), rng.random()
        made.append(
            "PUT %s %d e%d %d" % (name, rng.randrange(9999), len(made), len(made)) if kind < 0.5
            else "PUTNEW %s 1 n 2" % name if kind < 0.6
            else "DELETE " + name if kind < 0.75
            else "HEAD " + name if kind < 0.97
            else rng.choice(asks) if kind < 0.98
            else "NEXT"
        )
    return "".join(line + "\n" for line in made).encode()


def try_long(program, rng, lines):
    session = long_session(rng, lines)
    with tempfile.TemporaryDirectory() as folder:
        text, rounds = over_ranges(folder, program, session, 4, started, run_round_at_once)
    compare("%d lines over four ranges" % lines, text.decode(), text_of([program, "run"], session).decode())
    return rounds


# ---- what is refused

SESSION = "CLIENT\nPUT a 1 e 2\nPUTNEW b 2 f 3\nDELETE a\nHEAD a\nDELETE a\nLIST\nNEXT\n"
MANY = 200_001


def text_for(session):
    return answers(session.encode())


def changed(old, new, session=SESSION):
    """The text of the session with one change."""
    text = text_for(session)
    if text.count(old) != 1:
        sys.exit("%r stands %d times in\n%s" % (old, text.count(old), text))
    return text.replace(old, new)


def many_puts():
    """A session of more PUT lines than a run takes, and a text as a run would write it."""
    session = "CLIENT\n" + "".join("PUT %d 1 e 2\n" % at for at in range(MANY))
    replies = "".join('{"At":%d,"Client":0,"Line":%d,"Replaced":false,"Status":200}\n' % (at + 1, at + 2) for at in range(MANY))
    journal = "".join('{"At":%d,"Client":0,"Key":"%d","Line":%d,"Verb":"PUT"}\n' % (at + 1, at, at + 2) for at in range(MANY))
    return session, replies + journal + '{"Updates":%d}\n' % MANY


MANY_PUTS = many_puts()
# A session, a text, and what the one line has.
MIXED = [
    (text_for(SESSION), SESSION, "session: line 1 is no line of a session"),
    (SESSION, SESSION, "text: line 8 is not what ./bucketidx run writes: NEXT"),
    (SESSION, "CLIENT\n", "text: it ends before the answers to all 7 requests"),
    (SESSION, "", "text: it ends before the answers to all 7 requests"),
    (SESSION, text_for(SESSION)[:-1], "text: it ends before"),
    (SESSION, text_for(SESSION) + "\n", "text: line 12 is not what ./bucketidx run writes"),
    (SESSION, text_for(SESSION).replace('{"Updates":3}\n', ""), 'text: its last line is not {"Updates":2}'),
    (SESSION, changed('"Updates":3', '"Updates":4'), 'text: its last line is not {"Updates":3}'),
    (SESSION, text_for("\n" + SESSION), "text: line 1 is not the answer to line 2"),
    (SESSION, text_for(SESSION.replace("PUTNEW b", "PUTNEW c")), "text: entry 2 of the journal is not that of line 3"),
    (SESSION, text_for(SESSION.replace("DELETE a\nH", "DELETE c\nH")), "text: the answer to line 4"),
    (SESSION, changed('{"At":2,"Client":0,"Key"', '{"At":3,"Client":0,"Key"'), "text: line 9 is not entry 2 of the journal"),
    (SESSION, changed('"Line":3,"Verb"', '"Line":[3],"Verb"'), "text: line 9 is not entry 2 of the journal"),
    (SESSION, changed('"Line":2,"Verb":"PUT"', '"Line":2,"Verb":"DELETE"'), "text: entry 1 of the journal is not that of line 2"),
    (SESSION, changed('"Line":2,"Replaced":false', '"Line":2,"Replaced":true'), "text: entry 1 of the journal is not that of line 2"),
    (SESSION, changed('"Line":2,"Replaced":false,"Status":200', '"Line":2,"Status":503'), "text: entry 1 of the journal is not that of line 2"),
    (SESSION, changed('"Line":4,"Status":204', '"Line":4,"Status":503'), "text: entry 3 of the journal is not that of line 4"),
    ("CLIENT\nPUTNEW a 1 e 2\n", '{"At":1,"Client":0,"Line":2,"Replaced":false,"Status":200}\n{"Updates":0}\n', "text: the journal lacks the update of line 2"),
    (SESSION, changed('{"At":3,"Client":0,"Line":6', '{"At":4,"Client":0,"Line":6'), "text: the answer to line 6 of "),
    (SESSION, changed('{"At":3,"Client":0,"Line":6', '{"At":2,"Client":0,"Line":6'), "text: the answer to line 6 of "),
    (SESSION, text_for(SESSION).replace("{", "[", 1), "text: line 1 is not what ./bucketidx run writes"),
    (SESSION, b"\xff", "text: not UTF-8"),
    (b"CLIENT\nHEAD \xff\n", "", "session: not UTF-8"),
    ("HEAD a\n", "", "session: line 1 comes before any CLIENT line"),
    ("CLIENT\nGET a\n", "", "session: line 2 is no line of a session: GET a"),
    ("CLIENT\nPUT my cat 1 e 2\n", "", "session: line 2 is no line of a session"),
    ("CLIENT\n\nHEAD 100%.txt\n", "", "session: line 3 has no key"),
    ("CLIENT\nHEAD %ff\n", "", "session: line 2 has no key"),
    ("CLIENT\nDELETE \n", "", "session: line 2 has no key"),
    ("CLIENT\nHEAD %s\n" % ("a" * 1025), "", "session: line 2 has no key"),
    ("CLIENT\nPUT a x e 2\n", text_for("CLIENT\nPUT a 1 e 2\n"), "session: line 2 has no size, tag and time"),
    (*MANY_PUTS, "200001 names, and a session takes at most 200000 requests"),
]
# The number of ranges, a session, and what the one line has.
UNSPLIT = [
    ("0", SESSION, "0: not a number of ranges from 1 to 10000"),
    ("four", SESSION, "four: not a number of ranges"),
    ("2", SESSION + "CLIENT\n", "standard input: line 9 begins a second client"),
    ("2", SESSION + "GET a\n", "standard input: line 9 is no line of a session: GET a"),
    ("2", "HEAD a\n", "standard input: line 1 comes before any CLIENT line"),
    ("2", b"CLIENT\nHEAD \xff\n", "standard input: not UTF-8"),
    ("2", "CLIENT\n" + "HEAD a\n" * MANY, "range 1 of 1 would have more than 200000 requests: take more ranges"),
    ("2", "CLIENT\nHEAD a\nHEAD b\n" + "LIST\n" * 4001, "range 1 of 2 would have more than 4000000 entries of pages"),
    ("1", "CLIENT\n" + "".join("HEAD %01000d\n" % at for at in range(70_000)), "range 1 of 1 would have more than 67108864 bytes"),
]
# A file of a folder that split has made for two ranges of the session, what it has in place of its own, and what the one line has.
SPOILED = [
    ("bounds.json", "[", "bounds.json: not what split writes"),
    ("bounds.json", '["a"]\n', "1/1.txt: not the session that this folder asks for"),
    ("session.txt", SESSION + "HEAD a\n", "1/1.txt: not the session that this folder asks for"),
    ("1/2.txt", SESSION, "1/2.txt: not the session that this folder asks for"),
    ("1/2.out", None, "1/2.out: not there yet"),
    ("1/2.out", "", "1/2.out: it ends before the answers to all 2 requests"),
    ("1/2.out", SESSION, "1/2.out: line 8 is not what ./bucketidx run writes: NEXT"),
    ("1/1.out", "as 1/2.out", "1/1.out: it ends before the answers to all 6 requests"),
    ("1/2.out", ('"Line":3,"Replaced":false,"Status":200', '"Line":3,"Status":503'), "1/2.out: line 3 was refused for want of slots"),
    ("1/2.out", ('{"At":1,"Client":0,"CommonPrefixes"', '{"At":0,"Client":0,"CommonPrefixes"'), "1/2.out: the answer to line 7 has not the place"),
    ("1/2.out", ('"Line":3,"Verb":"PUT"', '"Line":3,"Verb":"DELETE"'), "1/2.out: entry 1 of its journal is of no update of its session"),
    ("1/2.out", ('"IsTruncated":false,', ""), "the answers to line 7 are not pages"),
]


def refused(words, given, what, wanted):
    done = called(words, given if isinstance(given, bytes) else given.encode())
    said = done.stderr.decode()
    if (done.returncode, done.stdout, said.count("\n")) != (1, b"", 1) or wanted not in said:
        sys.exit("%s\n  got    %r, status %d\n  wanted %r" % (what, said[:500], done.returncode, wanted))


def try_mixed():
    for session, text, wanted in MIXED:
        with tempfile.TemporaryDirectory() as folder:
            refused([EXAMPLES / "go_on", *written(folder, session=session, text=text)], b"", "go_on " + repr(session[:200]), wanted)
    with tempfile.TemporaryDirectory() as folder:
        refused([EXAMPLES / "go_on", Path(folder, "nowhere"), Path(folder, "text")], b"", "go_on nowhere", "nowhere: No such file or directory")


def try_wide():
    """With --wide go_on prints more names than a session takes."""
    session, text = MANY_PUTS
    with tempfile.TemporaryDirectory() as folder:
        wide = text_of([EXAMPLES / "go_on", "--wide", *written(folder, session=session, text=text)], by=called)
        if sorted(wide.decode().splitlines()) != sorted(session.splitlines()):
            sys.exit("go_on --wide: other lines")


def try_unsplit():
    for ranges, session, wanted in UNSPLIT:
        with tempfile.TemporaryDirectory() as folder:
            refused([EXAMPLES / "by_ranges", "split", ranges, Path(folder, "new")], session, "split " + repr(session[:200]), wanted)
    with tempfile.TemporaryDirectory() as folder:
        refused([EXAMPLES / "by_ranges", "split", "2", folder], SESSION, "split into a folder that is there", "File exists")
        refused([EXAMPLES / "by_ranges", "join", folder], b"", "join of another folder", "bounds.json: No such file or directory")


def try_spoiled(program):
    for name, content, wanted in SPOILED:
        with tempfile.TemporaryDirectory() as top:
            whole = over_ranges(top, program, SESSION.encode(), 2)[0].decode()
            compare("the session of the refusals over two ranges", whole, text_for(SESSION))
            path = Path(top, "ranges", name)
            if content is None:
                path.unlink()
            elif isinstance(content, tuple):
                old = path.read_text()
                path.write_text(old.replace(*content))
                if old.count(content[0]) != 1:
                    sys.exit("%r stands %d times in\n%s" % (content[0], old.count(content[0]), old))
            else:
                path.write_bytes(Path(top, "ranges", content[3:]).read_bytes() if content.startswith("as ") else content.encode())
            refused([EXAMPLES / "by_ranges", "join", Path(top, "ranges")], b"", "join with another " + name, wanted)


def main():
    parser = argparse.ArgumentParser(description=__doc__.split("\n")[0])
    parser.add_argument("program")
    parser.add_argument("--sessions", type=int, default=200)
    parser.add_argument("--lines", type=int, default=20_000)
    parser.add_argument("--seed", type=int, default=3)
    options = parser.parse_args()
    program, rng = str(Path(options.program).resolve()), random.Random(options.seed)
    make_ready(program)
    sessions = [Session(rng) for _ in range(options.sessions)]
    cuts = [rng.randint(0, len(session.lines) - 1) for session in sessions]
    counts = [rng.randint(1, 5) for _ in sessions]
    with ProcessPoolExecutor(4) as pool:
        longest = pool.submit(try_long, program, rng, options.lines)
        others = [pool.submit(try_mixed), pool.submit(try_wide), pool.submit(try_unsplit), pool.submit(try_spoiled, program)]
        others += [pool.submit(try_clients, program, EXAMPLES / (name + ".txt")) for name in ("clients", "compete", "pool")]
        others += [pool.submit(try_two_parts, program, session, cut) for session, cut in zip(sessions, cuts)]
        ranges = [pool.submit(try_ranges, program, session, count) for session, count in zip(sessions, counts)]
        rounds = collections.Counter(each.result() for each in ranges)
        for each in others:
            each.result()
        longest = longest.result()
    print("go_on and by_ranges: %d sessions in two parts, and over ranges, in rounds %s" % (len(sessions), sorted(rounds.items())))
    print("%d lines over four ranges in %d rounds, and %d refusals" % (options.lines, longest, len(MIXED) + len(UNSPLIT) + len(SPOILED) + 3))


if __name__ == "__main__":
    main()
