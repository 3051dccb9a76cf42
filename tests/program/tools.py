#!/usr/bin/env python3
"""Tries the scripts of examples/ on a folder made here, and takes its records there and back.

    tests/program/tools.py PROGRAM

A folder becomes a session, the program lists it page by page, the pages become the JSON that
`aws s3api list-objects-v2` prints, or of version 1 `list-objects`, and that becomes a session again: the same PUT lines, in byte order. And so
does a listing whose names are escaped, as the service escapes them. What the scripts cannot use they refuse with one line.
"""
import argparse
import json
import os
import subprocess
import sys
import tempfile
from pathlib import Path
from urllib.parse import quote_plus

sys.path.insert(0, str(Path(__file__).resolve().parent.parent / "models"))
from running import make_ready

EXAMPLES = Path(__file__).resolve().parent.parent.parent / "examples"
FILES = {
    "readme.md": b"hello\n",
    "empty": b"",
    "my cat.jpg": b"cat",
    "100%.txt": b"all",
    "a+b&c=d?.txt": b"signs",
    "tab\there": b"tab",
    'say"hi"\\.txt': b"quoted",
    "Grüße/hellö €😀.txt": b"umlauts",
    "photos/2006/January/sample.jpg": b"J" * 70000,
    "photos/2006/February/sample2.jpg": b"F" * 100,
    "photos/2006/index.html": b"<html>",
    "line\nbreak\r.txt": b"control",
}


def made_folder(top):
    for at, (name, content) in enumerate(FILES.items()):
        path = Path(top, name)
        path.parent.mkdir(parents=True, exist_ok=True)
        path.write_bytes(content)
        os.utime(path, (at, 1795564800 + at))
    os.symlink("readme.md", Path(top, "link"))


def text_of(words, given=""):
    ran = subprocess.run(words, input=given.encode(), capture_output=True)
    if ran.returncode != 0 or ran.stderr:
        sys.exit("%s: status %d\n%s" % (words, ran.returncode, ran.stderr.decode()))
    return ran.stdout.decode()


def sorted_lines(session):
    return sorted(session.split("\n"))


def escaped(listing):
    """The listing with its names escaped as the service does it, where it is asked to."""
    document = json.loads(listing)
    for item in document["Contents"]:
        item["Key"] = quote_plus(item["Key"], safe="/")
    return json.dumps(document)


def listing_of(names):
    item = {"Size": 1, "ETag": '"e"', "LastModified": "2026-11-27T11:48:03+00:00"}
    return json.dumps({"Contents": [{"Key": name, **item} for name in names]})


# The script with its words, its input, and what its one line has.
REFUSED = [
    (["from_listing"], '{"Error": {"Code": "NoSuchBucket"}}', "standard input: not what `aws s3api list-objects-v2` or `list-objects` prints"),
    (["from_listing"], "[]", "not what `aws s3api list-objects-v2` or `list-objects` prints"),
    (["from_listing"], "An error occurred", "not JSON"),
    (["from_listing"], '{"Contents": [{"Key": "a"}]}', 'not an object with Key, Size, ETag and LastModified: {"Key": "a"}'),
    (["from_listing"], listing_of(map(str, range(200001))), "200001 names, and a session takes at most 200000 requests"),
    (["from_listing"], listing_of("%01000d" % at for at in range(70000)), "a session has at most 67108864 bytes"),
    (["from_listing", "nowhere.json"], "", "nowhere.json: No such file or directory"),
    (["from_listing", "--all"], "", "there is no option --all"),
    (["from_folder", "nowhere"], "", "nowhere: not a folder"),
    (["to_listing"], "bucketidx: bad words", "line 1 is not what ./bucketidx run writes"),
]


def try_refusals():
    for (name, *words), given, wanted in REFUSED:
        ran = subprocess.run([EXAMPLES / name, *words], input=given.encode(), capture_output=True)
        said = ran.stderr.decode()
        if (ran.returncode, ran.stdout, said.count("\n")) != (1, b"", 1) or wanted not in said:
            sys.exit("%s %s\n  got    %r, status %d\n  wanted %r" % (name, words, said[:300], ran.returncode, wanted))
    for name in ("from_folder", "from_listing", "to_listing"):
        ran = subprocess.run([EXAMPLES / name, "--help"], stdin=subprocess.DEVNULL, capture_output=True)
        if ran.returncode != 0 or ran.stderr or b"examples/" + name.encode() not in ran.stdout:
            sys.exit("%s --help: status %d\n%s" % (name, ran.returncode, ran.stderr.decode()))


def main():
    parser = argparse.ArgumentParser(description=__doc__.split("\n")[0])
    parser.add_argument("program")
    program = [str(Path(parser.parse_args().program).resolve()), "run"]
    try_refusals()
    make_ready(program[0])
    with tempfile.TemporaryDirectory() as top:
        made_folder(top)
        session = text_of([EXAMPLES / "from_folder", top])
    if session.count("PUT ") != len(FILES):
        sys.exit("not all files have a line:\n" + session)
    for asked in (
        "LIST max-keys=5\nNEXT\nNEXT\n", "LIST\n", "LIST encoding-type=url&max-keys=7\nNEXT\n", "LISTV1\n", "LISTV1 encoding-type=url\n",
    ):
        answer = text_of(program, session + asked)
        listings = text_of([EXAMPLES / "to_listing"], answer)
        back = text_of([EXAMPLES / "from_listing"], listings)
        if sorted_lines(back) != sorted_lines(session):
            sys.exit("another session came back after %r:\n%s\n%s" % (asked, session, back))
    listing = text_of([EXAMPLES / "to_listing"], text_of(program, session + "LIST\n"))
    back = text_of([EXAMPLES / "from_listing", "--url"], escaped(listing))
    if sorted_lines(back) != sorted_lines(session):
        sys.exit("another session came back from a listing with escaped names:\n%s\n%s" % (session, back))
    count = (len(FILES), len(REFUSED))
    print("from_folder, to_listing and from_listing: %d files there and back, in six ways, and %d refusals" % count)


if __name__ == "__main__":
    main()
