#!/usr/bin/env python3
"""Compares the verdicts of `check` with handwritten rows, made from the definitions.

    tests/program/check_rows.py PROGRAM

- VERDICTS: a session with a text, and the first wrong line, or None where the text is legal.
- CLAUSES: the same for each clause of a legal run: a text in which that clause alone is broken.
- REFUSED: an input, the line that is refused, and its cause.
- the text that the program writes for each session of rows.txt, of SLOTS in rows.py, and for two sessions whose clients
  change the same keys: all are legal.
- a text of 64 MiB less a session, without a line feed: it is one line, and the first wrong one.

Nothing of VERDICTS, CLAUSES and REFUSED is taken from the program or from a model. A refused input writes nothing.
"""
import argparse
import subprocess
import sys
from pathlib import Path

sys.path.insert(0, str(Path(__file__).resolve().parent.parent / "models"))
from many_clients import contending_session, rounds_session
from rows import SESSIONS, SLOTS, sessions
from running import make_ready

MOST_BYTES = 67_108_864

SESSION = b"CLIENT\nPUT b 2 e2 20\nPUT a 1 e1 10\nPUT b 3 e3 30\nLIST\n"
TEXT = [
    b'{"At":1,"Client":0,"Line":2,"Replaced":false,"Status":200}\n',
    b'{"At":2,"Client":0,"Line":3,"Replaced":false,"Status":200}\n',
    b'{"At":3,"Client":0,"Line":4,"Replaced":true,"Status":200}\n',
    b'{"At":3,"Client":0,"CommonPrefixes":[],"Contents":[{"ETag":"e1","Key":"a","LastModified":10,"Size":1},'
    b'{"ETag":"e3","Key":"b","LastModified":30,"Size":3}],"IsTruncated":false,"KeyCount":2,"Line":5,"MaxKeys":1000,"Prefix":"",'
    b'"Status":200}\n',
    b'{"At":1,"Client":0,"Key":"b","Line":2,"Verb":"PUT"}\n',
    b'{"At":2,"Client":0,"Key":"a","Line":3,"Verb":"PUT"}\n',
    b'{"At":3,"Client":0,"Key":"b","Line":4,"Verb":"PUT"}\n',
    b'{"Updates":3}\n',
]


def with_line(number, line):
    """The text with another line of this number, counted from 1."""
    return b"".join(TEXT[: number - 1] + [line] + TEXT[number:])


WHOLE = b"".join(TEXT)
# The text in which each client looks at the key before both of them put it, and one in which each looks after both.
TWO = b"CLIENT\nHEAD a\nPUT a 1 e1 1\nCLIENT\nPUT a 2 e2 2\nHEAD a\n"
TWO_JOURNAL = b'{"At":1,"Client":1,"Key":"a","Line":5,"Verb":"PUT"}\n{"At":2,"Client":0,"Key":"a","Line":3,"Verb":"PUT"}\n{"Updates":2}\n'
TWO_TEXT = (
    b'{"At":%d,"Client":0,"Line":2,"Status":404}\n{"At":2,"Client":0,"Line":3,"Replaced":true,"Status":200}\n'
    b'{"At":1,"Client":1,"Line":5,"Replaced":false,"Status":200}\n'
    b'{"At":%d,"Client":1,"ETag":"%s","LastModified":%d,"Line":6,"Size":%d,"Status":200}\n'
)
FEW = b"CLIENT\nPUT a 1 e1 1\nPUT b 2 e2 2\n"
FEW_TEXT = (
    b'{"At":1,"Client":0,"Line":2,"Replaced":false,"Status":200}\n{"At":null,"Client":0,"Line":3,"Status":503}\n'
    b'{"At":1,"Client":0,"Key":"a","Line":2,"Verb":"PUT"}\n{"Updates":1}\n'
)

# what it shows, the words, the session, the line between, the text, and the first wrong line
VERDICTS = [
    ("the text of a run", ["check"], SESSION, b"----\n", WHOLE, None),
    ("with a named number of slots", ["check", "--slots", "4"], SESSION, b"----\n", WHOLE, None),
    ("the same in one word", ["check", "--slots=4"], SESSION, b"----\n", WHOLE, None),
    ("a line that ends with CR LF", ["check"], SESSION, b"----\r\n", WHOLE, None),
    ("an answer that is not true", ["check"], SESSION, b"----\n", with_line(3, TEXT[2].replace(b"true", b"false")), 3),
    ("a journal line left out", ["check"], SESSION, b"----\n", with_line(6, b""), 6),
    ("the last line left out", ["check"], SESSION, b"----\n", with_line(8, b""), 7),
    ("another number of updates", ["check"], SESSION, b"----\n", with_line(8, b'{"Updates":2}\n'), 8),
    ("a last line without LF", ["check"], SESSION, b"----\n", WHOLE[:-1], 8),
    ("a line after the last one", ["check"], SESSION, b"----\n", WHOLE + b"\n", 8),
    ("a CR at the end of a line", ["check"], SESSION, b"----\n", with_line(1, TEXT[0].replace(b"\n", b"\r\n")), 1),
    ("a space more", ["check"], SESSION, b"----\n", with_line(2, TEXT[1].replace(b":2,", b": 2,")), 2),
    ("a place with a leading zero", ["check"], SESSION, b"----\n", with_line(2, TEXT[1].replace(b":2,", b":02,")), 2),
    ("a place beyond the journal", ["check"], SESSION, b"----\n", with_line(4, TEXT[3].replace(b'"At":3', b'"At":4')), 4),
    ("a look below an earlier place", ["check"], SESSION, b"----\n", with_line(4, TEXT[3].replace(b'"At":3', b'"At":2')), 4),
    ("bytes that are no text", ["check"], SESSION, b"----\n", with_line(1, b"\xff\n"), 1),
    ("two wrong lines, the journal's first", ["check"], SESSION, b"----\n", with_line(1, b"{}\n").replace(b'"Key":"a"', b'"Key":"c"'), 6),
    ("two updates of one line", ["check"], SESSION, b"----\n", with_line(7, TEXT[4].replace(b'"At":1', b'"At":3')), 7),
    ("an update of another name of the session", ["check"], SESSION, b"----\n", with_line(5, TEXT[4].replace(b'"b"', b'"a"')), 5),
    ("an update with another verb", ["check"], SESSION, b"----\n", with_line(5, TEXT[4].replace(b"PUT", b"DELETE")), 5),
    ("no text after the line", ["check"], SESSION, b"----\n", b"", 1),
    ("no line feed after the line", ["check"], SESSION, b"----", b"", 1),
    ("CR alone after the line", ["check"], SESSION, b"----\r", b"", 1),
    ("fewer lines than requests", ["check"], SESSION, b"----\n", b"".join(TEXT[:3]), 4),
    ("as many lines as requests, none of them right", ["check"], SESSION, b"----\n", b"\n\n\n\n", 5),
    ("a session without a client", ["check"], b"", b"----\n", b'{"Updates":0}\n', None),
    ("no session, and nothing written", ["check"], b"", b"----\n", b"", 1),
    ("the line once more in the text", ["check"], b"CLIENT\n", b"----\n", b'----\n{"Updates":0}\n', 1),
    ("a session whose last line is empty", ["check"], b"CLIENT\n\n", b"----\n", b'{"Updates":0}\n', None),
    ("looks at old places", ["check"], TWO, b"----\n", TWO_TEXT % (0, 1, b"e2", 2, 2) + TWO_JOURNAL, None),
    ("looks after both updates", ["check"], TWO, b"----\n", TWO_TEXT % (0, 2, b"e1", 1, 1) + TWO_JOURNAL, None),
    ("an update of another client", ["check"], TWO, b"----\n", (TWO_TEXT % (0, 2, b"e1", 1, 1) + TWO_JOURNAL).replace(b'1,"Key"', b'0,"Key"'), 5),
    ("an answer of another place", ["check"], TWO, b"----\n", TWO_TEXT % (0, 2, b"e2", 2, 2) + TWO_JOURNAL, 4),
    ("a look where the key is there", ["check"], TWO, b"----\n", TWO_TEXT % (1, 1, b"e2", 2, 2) + TWO_JOURNAL, 1),
    ("a refusal because slots ran out", ["check", "--slots", "1"], FEW, b"----\n", FEW_TEXT, None),
    ("the same with slots enough", ["check", "--slots", "2"], FEW, b"----\n", FEW_TEXT, 2),
    ("the same without a number", ["check"], FEW, b"----\n", FEW_TEXT, 2),
]



def put(at, line, replaced=b"false", client=0):
    """The reply line of a PUT or PUTNEW line that made an update."""
    return b'{"At":%d,"Client":%d,"Line":%d,"Replaced":%s,"Status":200}\n' % (at, client, line, replaced)


def status(at, line, code, client=0):
    """A reply line that shows a status alone; `at` is None where nothing was answered."""
    place = b"null" if at is None else b"%d" % at
    return b'{"At":%s,"Client":%d,"Line":%d,"Status":%d}\n' % (place, client, line, code)


def found(at, line, record):
    """The reply line of a HEAD line that found the record `PUT key N eN N`."""
    return b'{"At":%d,"Client":0,"ETag":"e%d","LastModified":%d,"Line":%d,"Size":%d,"Status":200}\n' % (at, record, record, line, record)


def page(at, line, key, record):
    """The reply line of a LIST line whose page has one key."""
    entry = b'{"ETag":"e%d","Key":"%s","LastModified":%d,"Size":%d}' % (record, key, record, record)
    return (
        b'{"At":%d,"Client":0,"CommonPrefixes":[],"Contents":[%s],"IsTruncated":false,"KeyCount":1,"Line":%d,"MaxKeys":1000,'
        b'"Prefix":"","Status":200}\n' % (at, entry, line)
    )


def made(at, line, key=b"a", verb=b"PUT"):
    """A journal line of client 0."""
    return b'{"At":%d,"Client":0,"Key":"%s","Line":%d,"Verb":"%s"}\n' % (at, key, line, verb)


def end(updates):
    return b'{"Updates":%d}\n' % updates


PUT_TWICE = b"CLIENT\nPUT a 1 e1 1\nPUT b 2 e2 2\n"
PUT_NEW = b"CLIENT\nPUT a 1 e1 1\nPUTNEW a 2 e2 2\n"
TRUNCATED = (
    b'{"At":2,"Client":0,"CommonPrefixes":[],"Contents":[{"ETag":"e1","Key":"a","LastModified":1,"Size":1}],"IsTruncated":true,'
    b'"KeyCount":1,"Line":4,"MaxKeys":1,"NextContinuationToken":"MkswMDAwMDAwMGE","Prefix":"","Status":200}\n'
)

# what it shows, the words after `check`, the session, the text, and the first wrong line
CLAUSES = [
    (
        "no HEAD is refused for want of slots",
        ["--slots", "1"],
        b"CLIENT\nPUT a 1 e1 1\nHEAD a\n",
        put(1, 2) + status(None, 3, 503) + made(1, 2) + end(1),
        2,
    ),
    (
        "no LIST is refused for want of slots",
        ["--slots", "1"],
        b"CLIENT\nPUT a 1 e1 1\nLIST\n",
        put(1, 2) + status(None, 3, 503) + made(1, 2) + end(1),
        2,
    ),
    ("of two wrong replies the first client's", [], TWO, TWO_TEXT % (1, 2, b"e2", 2, 2) + TWO_JOURNAL, 1),
    (
        "a removal uses up a slot",
        ["--slots", "2"],
        b"CLIENT\nPUT a 1 e1 1\nDELETE a\nPUT b 2 e2 2\n",
        put(1, 2) + status(2, 3, 204) + status(None, 4, 503) + made(1, 2) + made(2, 3, verb=b"DELETE") + end(2),
        None,
    ),
    (
        "each client has the named number of slots",
        ["--slots", "2"],
        PUT_TWICE + b"CLIENT\n",
        put(1, 2) + status(None, 3, 503) + made(1, 2) + end(1),
        2,
    ),
    (
        "places do not fall",
        [],
        b"CLIENT\nPUT b 2 e2 2\nPUT a 1 e1 1\nLIST\n",
        put(1, 2) + put(2, 3) + page(1, 4, b"b", 2) + made(1, 2, b"b") + made(2, 3) + end(2),
        3,
    ),
    (
        "an own update stands above an earlier answer",
        [],
        b"CLIENT\nHEAD a\nPUT a 1 e1 1\n",
        found(1, 2, 1) + put(1, 3) + made(1, 3) + end(1),
        2,
    ),
    (
        "a removal that made an update stands at its place",
        [],
        b"CLIENT\nPUT a 1 e1 1\nDELETE a\nPUT b 1 e1 1\nDELETE b\n",
        put(1, 2)
        + status(3, 3, 204)
        + put(3, 4)
        + status(4, 5, 204)
        + made(1, 2)
        + made(2, 3, verb=b"DELETE")
        + made(3, 4, b"b")
        + made(4, 5, b"b", b"DELETE")
        + end(4),
        2,
    ),
    (
        "a removal finds a key that is there",
        [],
        b"CLIENT\nPUT a 1 e1 1\nDELETE a\n",
        put(1, 2) + status(1, 3, 204) + made(1, 2) + end(1),
        2,
    ),
    (
        "a removal that finds no key makes no update",
        [],
        b"CLIENT\nDELETE a\n",
        status(1, 2, 204) + made(1, 2, verb=b"DELETE") + end(1),
        1,
    ),
    (
        "a PUTNEW line that is answered with 412 makes no update",
        [],
        PUT_NEW,
        put(1, 2) + status(2, 3, 412) + made(1, 2) + made(2, 3) + end(2),
        2,
    ),
    ("412 only where the key is there", [], b"CLIENT\nPUTNEW a 1 e1 1\n", status(0, 2, 412) + end(0), 1),
    (
        "a PUTNEW line replaces no record",
        [],
        PUT_NEW,
        put(1, 2) + put(2, 3, b"true") + made(1, 2) + made(2, 3) + end(2),
        2,
    ),
    (
        "a line that is refused makes no update",
        ["--slots", "1"],
        PUT_TWICE,
        put(1, 2) + status(None, 3, 503) + made(1, 2) + made(2, 3, b"b") + end(2),
        2,
    ),
    ("a LIST without a token is not refused", [], b"CLIENT\nLIST\n", status(None, 2, 400) + end(0), 1),
    (
        "a NEXT after a truncated page is not refused",
        [],
        b"CLIENT\nPUT a 1 e1 1\nPUT b 1 e1 1\nLIST max-keys=1\nNEXT\n",
        put(1, 2) + put(2, 3) + TRUNCATED + status(None, 5, 400) + made(1, 2) + made(2, 3, b"b") + end(2),
        4,
    ),
    (
        "another client's update uses up no slot",
        ["--slots", "1"],
        b"CLIENT\nPUT a 1 e1 1\nCLIENT\nPUT a 2 e2 2\n",
        put(1, 2) + status(None, 4, 503, 1) + made(1, 2) + end(1),
        2,
    ),
    (
        "a later line's update uses up no slot",
        ["--slots", "1"],
        PUT_TWICE,
        status(None, 2, 503) + put(1, 3) + made(1, 3, b"b") + end(1),
        1,
    ),
    (
        "a HEAD line makes no update",
        [],
        b"CLIENT\nHEAD a\nPUT a 1 e1 1\n",
        status(0, 2, 404) + put(2, 3, b"true") + made(1, 2) + made(2, 3) + end(2),
        3,
    ),
]

REFUSED = [
    (["check"], SESSION, 6, "NoText"),
    (["check", "--slots=4"], SESSION, 6, "NoText"),
    (["check"], SESSION[:-1], 6, "NoText"),
    (["check"], b"", 1, "NoText"),
    (["check"], b"\n", 2, "NoText"),
    (["check"], b"CLIENT\n\r", 3, "NoText"),
    (["check"], b"CLIENT", 2, "NoText"),
    (["check"], b"HEAD a\n", 1, "NoClient"),
    (["check"], b"HEAD a\n----\n" + WHOLE, 1, "NoClient"),
    (["check"], SESSION + b"PUT a\n----\n" + WHOLE, 6, "WrongFields"),
    (["check"], SESSION + b"PUT a", 6, "WrongFields"),
    # Lines that are nearly the one between, and what stands after them.
    (["check"], SESSION + b"-----\n" + WHOLE, 6, "UnknownVerb"),
    (["check"], SESSION + b"---\n" + WHOLE, 6, "UnknownVerb"),
    (["check"], SESSION + b" ----\n" + WHOLE, 6, "UnknownVerb"),
    (["check"], SESSION + b"---- \n" + WHOLE, 6, "UnknownVerb"),
    (["check"], SESSION + b"----\r\r\n" + WHOLE, 6, "UnknownVerb"),
    (["check"], SESSION + WHOLE, 6, "UnknownVerb"),
    # `run` takes no line between, and no text.
    (["run"], SESSION + b"----\n" + WHOLE, 6, "UnknownVerb"),
]


class Check:
    """How a run of the program ended."""

    def __init__(self, program, words, given):
        ran = subprocess.run([program, *words], input=given, capture_output=True)
        self.got = ran.returncode, ran.stdout.decode(), ran.stderr.decode()


def of_verdict(line):
    if line is None:
        return 0, '{"Legal":true}\n', ""
    return 8, '{"Legal":false,"Wrong":%d}\n' % line, "bucketidx: wrong line %d\n" % line


def text_of(program, words, session):
    ran = subprocess.run([program, *words], input=session, capture_output=True)
    if ran.returncode != 0:
        sys.exit("no text: %r" % session[:200])
    return ran.stdout


def rows(program):
    """What each row shows, its words, its input, and how it ends."""
    for name, words, session, between, text, line in VERDICTS:
        yield name, words, session + between + text, of_verdict(line)
    for name, words, session, text, line in CLAUSES:
        yield name, ["check", *words], session + b"----\n" + text, of_verdict(line)
    for words, given, line, cause in REFUSED:
        yield "refused", words, given, (3, "", "bucketidx: line %d: %s\n" % (line, cause))
    for row in sessions(SESSIONS.read_text()):
        yield row.name, ["check"], row.raw + b"----\n" + text_of(program, ["run"], row.raw), of_verdict(None)
    for name, slots, session, _ in SLOTS:
        raw = session.encode()
        text = text_of(program, ["run", "--slots", str(slots)], raw)
        yield name, ["check", "--slots", str(slots)], raw + b"----\n" + text, of_verdict(None)
    for raw in (rounds_session(500), contending_session(32)):
        yield "clients at once", ["check"], raw + b"----\n" + text_of(program, ["run"], raw), of_verdict(None)
    head = SESSION + b"----\n"
    yield "a text without a line feed", ["check"], head + b" " * (MOST_BYTES - len(head)), of_verdict(2)
    yield "one byte too many", ["check"], head + b" " * (MOST_BYTES + 1 - len(head)), (4, "", "bucketidx: input too long\n")


def main():
    parser = argparse.ArgumentParser(description=__doc__.split("\n")[0])
    parser.add_argument("program")
    program = parser.parse_args().program
    make_ready(program)
    passed = failed = 0
    for name, words, given, wanted in rows(program):
        got = Check(program, words, given).got
        passed, failed = passed + (got == wanted), failed + (got != wanted)
        if got != wanted:
            print("%s: %s, %r\n  got    %r\n  wanted %r" % (name, " ".join(words), given[:300], got, wanted))
    print("rows of check: %d hold, %d do not" % (passed, failed))
    sys.exit(failed > 0)


if __name__ == "__main__":
    main()
