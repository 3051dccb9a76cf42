#!/usr/bin/env python3
"""Compares the pages of both versions of ListObjects over one map: they have the same entries.

    tests/program/both_versions.py PROGRAM [--maps N] [--queries N] [--seed N]

A session puts random names. Each query is asked as a LIST, whose pages go on with NEXT, and as a LISTV1, whose pages
go on with a marker: the next marker where one is given, else the name of the last key. Page by page the keys, the
common prefixes and whether more is left have to be the same.
"""
import argparse
import json
import random
import subprocess
import sys
from urllib.parse import quote

MOST_PAGES = 40


def answers(program, lines):
    """The replies to a session of one client, by the numbers of their lines."""
    given = "CLIENT\n" + "".join(line + "\n" for line in lines)
    ran = subprocess.run([program, "run"], input=given.encode(), capture_output=True)
    if ran.returncode:
        sys.exit("%s ended with %d: %s" % (program, ran.returncode, ran.stderr.decode()))
    replies = [json.loads(line) for line in ran.stdout.splitlines()]
    return {reply["Line"]: reply for reply in replies if "Status" in reply}


def shown(page):
    return page["Contents"], page["CommonPrefixes"], page["IsTruncated"]


def query_of(draw):
    parts = ["max-keys=%d" % draw.choice((1, 1, 2, 3, 5))]
    if draw.random() < 0.6:
        parts.append("prefix=" + quote(draw.choice(("a", "a/", "b/", "a/b", "a/b/", "c")), safe=""))
    if draw.random() < 0.7:
        parts.append("delimiter=" + quote(draw.choice(("/", "/", "b", "//")), safe=""))
    return "&".join(parts)


def pages_by_next(program, puts, query):
    replies = answers(program, [*puts, "LIST " + query] + ["NEXT"] * MOST_PAGES)
    pages = [replies[line] for line in range(len(puts) + 2, len(puts) + 3 + MOST_PAGES)]
    return [page for page in pages if page["Status"] == 200]


def pages_by_marker(program, puts, query):
    pages, marker = [], ""
    while True:
        line = "LISTV1 " + query + ("&marker=" + quote(marker, safe="") if marker else "")
        page = answers(program, [*puts, line])[len(puts) + 2]
        pages.append(page)
        if not page["IsTruncated"]:
            return pages
        marker = page.get("NextMarker") or page["Contents"][-1]["Key"]


def main():
    parser = argparse.ArgumentParser(description=__doc__.splitlines()[0])
    parser.add_argument("program")
    parser.add_argument("--maps", type=int, default=40)
    parser.add_argument("--queries", type=int, default=8)
    parser.add_argument("--seed", type=int, default=1)
    given = parser.parse_args()
    draw, compared, groups = random.Random(given.seed), 0, 0
    for _ in range(given.maps):
        names = {"/".join(draw.choice("abc") * draw.choice((1, 1, 2)) for _ in range(draw.choice((1, 2, 3)))) for _ in range(draw.randrange(1, 16))}
        puts = ["PUT %s %d e%d 1" % (quote(name, safe="/"), size, size) for size, name in enumerate(draw.sample(sorted(names), len(names)))]
        for query in (query_of(draw) for _ in range(given.queries)):
            second, first = pages_by_next(given.program, puts, query), pages_by_marker(given.program, puts, query)
            if list(map(shown, second)) != list(map(shown, first)):
                sys.exit("%s\nof\n%s\nhas other pages in the two versions:\n%s\n%s" % (query, "\n".join(puts), second, first))
            compared += len(first)
            groups += sum(len(page["CommonPrefixes"]) for page in first)
    if not groups:
        sys.exit("no page had a common prefix")
    print("%d pages of both versions, with %d common prefixes, have the same entries" % (compared, groups))


if __name__ == "__main__":
    main()
