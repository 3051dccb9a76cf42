#!/usr/bin/env python3
"""Compares what the program writes with handwritten rows, made from the definitions.

    tests/program/rows.py PROGRAM

- rows.txt: sessions of one client, and lines of their text at their places, counted from 1.
- TEXTS: the same, of inputs that the file cannot show: ends of lines, no request, long ones.
- LIMITS: what fits a limit exactly.
- SLOTS: sessions whose clients have a named number of node slots, in both forms of the arguments, and with a pool.
- TOKENS: the value of a continuation token, and whether it is read. BOUND: those that name their listing.
- RIGHT: lines after `CLIENT` that are not refused.
- FAULTY: a line between good ones, and its cause.
- REFUSED: an input, the line that is refused, and its cause.
- STARTS: how each start of one session, cut at every byte, ends.

Nothing of this is taken from the program or from a model. A refused input writes nothing.
"""
import argparse
import base64
import subprocess
import sys
from os.path import commonprefix
from pathlib import Path
from typing import NamedTuple

sys.path.insert(0, str(Path(__file__).resolve().parent.parent / "models"))
from running import make_ready

SESSIONS = Path(__file__).resolve().parent / "rows.txt"


def base64url(raw):
    return base64.urlsafe_b64encode(raw).decode().rstrip("=")


NO_UPDATES = {1: '{"Updates":0}'}

# Every character of ASCII but NUL, and one each of two, three and four bytes: escaped for a PUT line, as JSON has it,
# and as `encoding-type=url` shows it.
EVERY = "".join("%%%02x" % code for code in range(1, 128)) + "é€𝄞"
EVERY_IN_JSON = (
    r"\u0001\u0002\u0003\u0004\u0005\u0006\u0007\b\t\n\u000b\f\r\u000e\u000f\u0010\u0011\u0012\u0013\u0014\u0015\u0016\u0017"
    r"\u0018\u0019\u001a\u001b\u001c\u001d\u001e\u001f !\"#$%&'()*+,-./0123456789:;<=>?@ABCDEFGHIJKLMNOPQRSTUVWXYZ[\\]^_`"
    "abcdefghijklmnopqrstuvwxyz{|}~\x7fé€𝄞"
)
EVERY_ESCAPED = (
    "%01%02%03%04%05%06%07%08%09%0A%0B%0C%0D%0E%0F%10%11%12%13%14%15%16%17%18%19%1A%1B%1C%1D%1E%1F%20%21%22%23%24%25%26%27%28"
    "%29%2A%2B%2C-./0123456789%3A%3B%3C%3D%3E%3F%40ABCDEFGHIJKLMNOPQRSTUVWXYZ%5B%5C%5D%5E_%60abcdefghijklmnopqrstuvwxyz%7B%7C"
    "%7D~%7F%C3%A9%E2%82%AC%F0%9D%84%9E"
)

TEXTS = [
    ("an empty input", "", NO_UPDATES),
    ("empty lines alone", "\n\r\n\n", NO_UPDATES),
    ("a last line that is empty and ends with CR", "\r", NO_UPDATES),
    ("a client without requests", "CLIENT\n", NO_UPDATES),
    ("a client without requests, and no LF", "CLIENT", NO_UPDATES),
    ("a client without requests between empty lines", "\nCLIENT\r\n\n", NO_UPDATES),
    (
        "lines with CR LF, and a last one with CR alone",
        "\r\nCLIENT\r\nPUT a 1 e1 1\r",
        {
            1: '{"At":1,"Client":0,"Line":3,"Replaced":false,"Status":200}',
            2: '{"At":1,"Client":0,"Key":"a","Line":3,"Verb":"PUT"}',
            3: '{"Updates":1}',
        },
    ),
    (
        "an empty line is counted, and a last line without LF answered",
        "CLIENT\n\nPUT a 1 e1 1\nPUT b 1 e1 1",
        {
            1: '{"At":1,"Client":0,"Line":3,"Replaced":false,"Status":200}',
            2: '{"At":2,"Client":0,"Line":4,"Replaced":false,"Status":200}',
            3: '{"At":1,"Client":0,"Key":"a","Line":3,"Verb":"PUT"}',
            4: '{"At":2,"Client":0,"Key":"b","Line":4,"Verb":"PUT"}',
            5: '{"Updates":2}',
        },
    ),
    (
        "one CR at the end of a line is dropped",
        "CLIENT\nPUT a%0D 1 e 1\nHEAD a\r\r\n",
        {2: '{"At":1,"Client":0,"ETag":"e","LastModified":1,"Line":3,"Size":1,"Status":200}'},
    ),
    (
        "characters that end a line elsewhere end none",
        "CLIENT\nPUT a\x0b\x0c\x85\u2028b 1 e 1\n",
        {2: '{"At":1,"Client":0,"Key":"a\\u000b\\f\x85\u2028b","Line":2,"Verb":"PUT"}'},
    ),
    ("a tab cuts no field", "CLIENT\nHEAD a\tb\n", {1: '{"At":0,"Client":0,"Line":2,"Status":404}'}),
    (
        "an input of more than a piece that is read at once",
        "CLIENT\n" + "HEAD photos/2006/January/sample.jpg\n" * 20000,
        {
            1: '{"At":0,"Client":0,"Line":2,"Status":404}',
            20000: '{"At":0,"Client":0,"Line":20001,"Status":404}',
            20001: '{"Updates":0}',
        },
    ),
    (
        "every character of ASCII but NUL, and longer ones",
        "CLIENT\nPUT %s 1 e 1\nLIST\nLIST encoding-type=url\n" % EVERY,
        {
            2: '{"At":1,"Client":0,"CommonPrefixes":[],"Contents":[{"ETag":"e","Key":"%s","LastModified":1,"Size":1}],"IsTruncated":false,"KeyCount":1,"Line":3,"MaxKeys":1000,"Prefix":"","Status":200}'
            % EVERY_IN_JSON,
            3: '{"At":1,"Client":0,"CommonPrefixes":[],"Contents":[{"ETag":"e","Key":"%s","LastModified":1,"Size":1}],"EncodingType":"url","IsTruncated":false,"KeyCount":1,"Line":4,"MaxKeys":1000,"Prefix":"","Status":200}'
            % EVERY_ESCAPED,
            4: '{"At":1,"Client":0,"Key":"%s","Line":2,"Verb":"PUT"}' % EVERY_IN_JSON,
        },
    ),
]

LONG_KEY = "k" * 1024
WHOLE_PAGE = '{"At":1000,"Client":0,"CommonPrefixes":[],"Contents":[%s],"IsTruncated":false,"KeyCount":1000,"Line":%d,"MaxKeys":1000,"Prefix":"","Status":200}'
ENTRIES = ",".join('{"ETag":"e","Key":"%s","LastModified":1,"Size":1}' % key for key in sorted("k%d" % k for k in range(1000)))

LIMITS = [
    (
        "keys of 1,024 bytes",
        "CLIENT\nPUT %s 1 e1 1\nHEAD %s\nHEAD %s\n" % (LONG_KEY, LONG_KEY, "j" * 1024),
        {
            1: '{"At":1,"Client":0,"Line":2,"Replaced":false,"Status":200}',
            2: '{"At":1,"Client":0,"ETag":"e1","LastModified":1,"Line":3,"Size":1,"Status":200}',
            3: '{"At":1,"Client":0,"Line":4,"Status":404}',
        },
    ),
    (
        "a key and a prefix of 1,024 bytes, each of them escaped",
        "CLIENT\nPUT %s 1 e1 1\nHEAD %s\nLIST prefix=%s\n" % ("%6b" * 1024, LONG_KEY, "%6B" * 1024),
        {
            1: '{"At":1,"Client":0,"Line":2,"Replaced":false,"Status":200}',
            2: '{"At":1,"Client":0,"ETag":"e1","LastModified":1,"Line":3,"Size":1,"Status":200}',
            3: '{"At":1,"Client":0,"CommonPrefixes":[],"Contents":[{"ETag":"e1","Key":"%s","LastModified":1,"Size":1}],"IsTruncated":false,"KeyCount":1,"Line":4,"MaxKeys":1000,"Prefix":"%s","Status":200}'
            % (LONG_KEY, LONG_KEY),
        },
    ),
    ("64 MiB", "\n" * 67_108_864, NO_UPDATES),
    (
        "20 whole pages of 1,000 keys",
        "CLIENT\n" + "".join("PUT k%d 1 e 1\n" % k for k in range(1000)) + "LIST\n" * 20,
        {**{line - 1: WHOLE_PAGE % (ENTRIES, line) for line in range(1002, 1022)}, 2021: '{"Updates":1000}'},
    ),
    (
        "pages of 4,000,000 entries",
        "CLIENT\nNEXT\nLIST max-keys=0\nLIST max-keys=1001\n" + "NEXT\n" * 3998 + "LIST max-keys=1000\n",
        {},
    ),
    (
        "a client whose NEXT lines follow no LIST of its own",
        "CLIENT\nLIST\nCLIENT\n" + "NEXT\n" * 4001,
        {2: '{"At":null,"Client":1,"Line":4,"Status":400}', 4003: '{"Updates":0}'},
    ),
    (
        "200,000 requests",
        "CLIENT\n\n" + "HEAD a\n" * 200_000,
        {
            1: '{"At":0,"Client":0,"Line":3,"Status":404}',
            200_000: '{"At":0,"Client":0,"Line":200002,"Status":404}',
            200_001: '{"Updates":0}',
        },
    ),
    ("32 clients", "CLIENT\n" * 32, NO_UPDATES),
]

# A put of a new key takes a node slot, and one of a present key gives back as many as it takes. Where none is left,
# each PUT, PUTNEW and DELETE is refused, also one that would change nothing.
PUT_AND_REFUSED = {
    1: '{"At":1,"Client":0,"Line":2,"Replaced":false,"Status":200}',
    2: '{"At":null,"Client":0,"Line":3,"Status":503}',
}
SLOTS = [
    (
        "one slot, for one key",
        1,
        "CLIENT\nPUT a 1 e1 1\nPUT b 2 e2 2\nDELETE a\nHEAD a\n",
        PUT_AND_REFUSED
        | {
            3: '{"At":null,"Client":0,"Line":4,"Status":503}',
            4: '{"At":1,"Client":0,"ETag":"e1","LastModified":1,"Line":5,"Size":1,"Status":200}',
            5: '{"At":1,"Client":0,"Key":"a","Line":2,"Verb":"PUT"}',
            6: '{"Updates":1}',
        },
    ),
    (
        "two slots, for three puts of one key",
        2,
        "CLIENT\nPUT a 1 e1 1\nPUT a 2 e2 2\nPUT a 3 e3 3\nHEAD a\n",
        {
            1: '{"At":1,"Client":0,"Line":2,"Replaced":false,"Status":200}',
            2: '{"At":2,"Client":0,"Line":3,"Replaced":true,"Status":200}',
            3: '{"At":3,"Client":0,"Line":4,"Replaced":true,"Status":200}',
            4: '{"At":3,"Client":0,"ETag":"e3","LastModified":3,"Line":5,"Size":3,"Status":200}',
            5: '{"At":1,"Client":0,"Key":"a","Line":2,"Verb":"PUT"}',
            6: '{"At":2,"Client":0,"Key":"a","Line":3,"Verb":"PUT"}',
            7: '{"At":3,"Client":0,"Key":"a","Line":4,"Verb":"PUT"}',
            8: '{"Updates":3}',
        },
    ),
    (
        "one slot, and a key that is there",
        1,
        "CLIENT\nPUTNEW a 1 e1 1\nPUTNEW a 2 e2 2\nHEAD a\n",
        PUT_AND_REFUSED
        | {
            3: '{"At":1,"Client":0,"ETag":"e1","LastModified":1,"Line":4,"Size":1,"Status":200}',
            4: '{"At":1,"Client":0,"Key":"a","Line":2,"Verb":"PUT"}',
            5: '{"Updates":1}',
        },
    ),
    (
        "two slots: a put that is kept out takes none",
        2,
        "CLIENT\nPUTNEW a 1 e1 1\nPUTNEW a 2 e2 2\nPUTNEW b 3 e3 3\nPUTNEW a 4 e4 4\n",
        {
            1: '{"At":1,"Client":0,"Line":2,"Replaced":false,"Status":200}',
            2: '{"At":1,"Client":0,"Line":3,"Status":412}',
            3: '{"At":2,"Client":0,"Line":4,"Replaced":false,"Status":200}',
            4: '{"At":null,"Client":0,"Line":5,"Status":503}',
            5: '{"At":1,"Client":0,"Key":"a","Line":2,"Verb":"PUT"}',
            6: '{"At":2,"Client":0,"Key":"b","Line":4,"Verb":"PUT"}',
            7: '{"Updates":2}',
        },
    ),
    (
        "the most slots that can be named",
        8192,
        "CLIENT\nPUT a 1 e1 1\nDELETE b\nDELETE a\n",
        {
            2: '{"At":1,"Client":0,"Line":3,"Status":204}',
            3: '{"At":2,"Client":0,"Line":4,"Status":204}',
            6: '{"Updates":2}',
        },
    ),
    (
        "one slot, and the removal of an absent key",
        1,
        "CLIENT\nPUT a 1 e1 1\nDELETE b\n",
        PUT_AND_REFUSED | {3: '{"At":1,"Client":0,"Key":"a","Line":2,"Verb":"PUT"}', 4: '{"Updates":1}'},
    ),
    ("a session without a client", 1, "", NO_UPDATES),
    ("the most slots, for as many clients as there may be", 8192, "CLIENT\n" * 32, NO_UPDATES),
]

# A token without a bound is `K` and a key or `P` and a common prefix, in URL-safe base64 without padding. These are
# of `Pa/`, `Ka`, `Kb`, `Ka?`, `Ka>` and `Ké€𝄞`; and the others: padding, bits left over, a letter alone, another
# letter, symbols of another alphabet, a space, bytes that are no text, `2` alone, `2P00000001/a/` of a listing with a
# delimiter. A key has 1,024 bytes at most.
TOKENS = [(token, True) for token in ["UGEv", "S2E", "S2I", "S2E_", "S2E-", "S8Op4oKs8J2Eng"]]
TOKENS += [(base64url(b"K" + b"k" * 1024), True), (base64url(b"K" + b"k" * 1025), False)]
TOKENS += [(token, False) for token in ["UGEv=", "S2F", "UA", "Sw", "WGE", "S2E+", "S2E/", "S2E%20", "S_8", "Mg", "MlAwMDAwMDAwMS9hLw"]]

# A token with a bound: `2` and the letter; the prefix and the delimiter of its listing, each after its length in
# bytes as four digits; and the key or the common prefix. Here by the prefix and the delimiter of the LIST that has
# it, whether it is read, and its bytes.
PREFIX, DELIMITER = "p" * 1024, "é" * 512
BOUND = [
    ("", "", True, b"2K00000000a"),
    ("", "", True, b"2P00000000a/"),
    ("", "", True, b"K2K00000000a"),
    ("", "/", True, b"2P00000001/a/"),
    ("a", "/", True, b"2K0001a0001/a"),
    ("2K", "0000", True, b"2P00022K000400002K0000"),
    ("é", "", True, "2K0002é0000éa".encode()),
    ("", "", True, b"2K00000000" + b"k" * 1024),
    (PREFIX, DELIMITER, True, b"2K1024%s1024%sa" % (PREFIX.encode(), DELIMITER.encode())),
    # another prefix or delimiter, a longer one, and each in the place of the other
    ("", "", False, b"2P00000001/a/"),
    ("", "/", False, b"2P00000000a/"),
    ("a", "", False, b"2K0001a0001/a"),
    ("", "/", False, b"2K0001a0001/a"),
    ("b", "/", False, b"2K0001a0001/a"),
    ("a", "//", False, b"2K0001a0001/a"),
    ("/", "a", False, b"2K0001a0001/a"),
    # cut off, a text that is missing or too long, another letter
    ("", "", False, b"2K"),
    ("", "", False, b"2K0000"),
    ("", "", False, b"2K0000000"),
    ("", "", False, b"2K00000000"),
    ("", "", False, b"2K00000000" + b"k" * 1025),
    ("", "", False, b"2X00000000a"),
    ("", "", False, b"1K00000000a"),
    ("", "", False, b"22K00000000a"),
    # lengths that do not fit, and those that are not four digits
    ("a", "", False, b"2K0002a0000"),
    ("a", "", False, b"2K0001a0009a"),
    ("a", "", False, b"2K9999a0000a"),
    ("a", "", False, b"2K001a0000a"),
    ("a", "", False, b"2K   1a0000a"),
    ("a", "", False, b"2K+001a0000a"),
    ("a", "", False, b"2K-001a0000a"),
    ("a", "", False, b"2K0001a    a"),
    ("a", "", False, b"2K0x01a0000a"),
    ("a", "", False, "2K٠٠٠١a0000a".encode()),
    # a prefix that is no text, and one character in two texts
    ("", "", False, b"2K0001\xff0000a"),
    ("é", "", False, b"2K0001\xc30001\xa9a"),
    (PREFIX, "", False, b"2K1025%sp0000a" % PREFIX.encode()),
]

RIGHT = [
    'PUT a+b 0018446744073709551615 "e-1" 00',
    'PUT a 1 "%s" 1' % ("e" * 64),
    "HEAD é",
    "LIST ",
    "LIST ?",
    "LIST max-keys=0002147483647",
    "LIST max-keys=%31&continuation-token=&encoding-type=",
    "LIST ?list-type=2&&prefix=a%2Fb&delimiter=/&start-after=a&fetch-owner=true&",
    "LISTV1 ",
    "LISTV1 ?",
    "LISTV1 marker",
    "LISTV1 ?marker=a%2Fb&&prefix=a&delimiter=/&max-keys=0&encoding-type=url&",
    "LISTV1 marker=" + "m" * 1024,
]

FAULTY = [
    (b"HEAD \xff", "NotUtf8"),
    (b"PUT \xff 1 e1", "NotUtf8"),
    (b"GET a", "UnknownVerb"),
    (b"put a 1 e1 1", "UnknownVerb"),
    (b"putnew a 1 e1 1", "UnknownVerb"),
    (b"PUTNE a 1 e1 1", "UnknownVerb"),
    (b"head a", "UnknownVerb"),
    (b" HEAD a", "UnknownVerb"),
    (b"PUT a 1 e1", "WrongFields"),
    (b"PUT a 1 e1 1 ", "WrongFields"),
    (b"PUTNEW a", "WrongFields"),
    (b"HEAD", "WrongFields"),
    (b"LIST a b", "WrongFields"),
    (b"NEXT a", "WrongFields"),
    (b"CLIENT x", "WrongFields"),
    (b"PUT a%2 1 e1 1", "BadEscape"),
    (b"PUT a%2x 1 e1 1", "BadEscape"),
    (b"HEAD %FF", "BadEscape"),
    # half of a pair of UTF-16, and a `/` in two bytes
    (b"HEAD %ED%A0%80", "BadEscape"),
    (b"HEAD %C0%AF", "BadEscape"),
    (b"LIST marker=%", "BadEscape"),
    (b"LIST prefix=%zz", "BadEscape"),
    (b"PUT  1 e1 1", "EmptyKey"),
    (b"DELETE ", "EmptyKey"),
    (b"HEAD " + b"k" * 1025, "KeyTooLong"),
    (b"PUT " + b"k" * 1025 + b" 1 e1 1", "KeyTooLong"),
    (b"LIST prefix=" + b"k" * 1025, "KeyTooLong"),
    (b"LIST prefix=" + b"k" * 1025 + b"&x", "KeyTooLong"),
    (b"HEAD " + "é".encode() * 513, "KeyTooLong"),
    (b"LIST delimiter=" + b"k" * 1025, "KeyTooLong"),
    (b"LIST start-after=" + b"k" * 1025, "KeyTooLong"),
    (b"PUT a x e1 1", "BadNumber"),
    (b"PUT a 1 e1 +1", "BadNumber"),
    (b"PUT a  e1 1", "BadNumber"),
    (b"PUT a 1 e1 ", "BadNumber"),
    ("PUT a ١ e1 1".encode(), "BadNumber"),
    (b"PUT a 18446744073709551616 e1 1", "NumberTooLarge"),
    (b"PUT a 1 e! 1", "BadEtag"),
    (b'PUT a 1 " 1', "BadEtag"),
    (b'PUT a 1 "" 1', "BadEtag"),
    (b'PUT a 1 "e 1', "BadEtag"),
    (b"PUT a 1 e_1 1", "BadEtag"),
    ("PUT a 1 é 1".encode(), "BadEtag"),
    (b"PUT a 1 " + b"e" * 65 + b" 1", "BadEtag"),
    (b"LIST marker=a", "UnknownParameter"),
    (b"LIST =a", "UnknownParameter"),
    (b"LIST ??prefix=a", "UnknownParameter"),
    (b"LIST %70refix=a", "UnknownParameter"),
    (b"LIST Prefix=a", "UnknownParameter"),
    (b"LIST %zz=a", "UnknownParameter"),
    (b"LIST x=" + b"k" * 1025, "UnknownParameter"),
    (b"LIST prefix=a&prefix=b", "RepeatedParameter"),
    (b"LIST prefix=&prefix=a", "RepeatedParameter"),
    (b"LIST list-type=1", "BadListType"),
    (b"LIST list-type=", "BadListType"),
    (b"LIST list-type", "BadListType"),
    (b"LIST list-type=02", "BadListType"),
    (b"LIST max-keys=-1", "BadMaxKeys"),
    (b"LIST max-keys=", "BadMaxKeys"),
    (b"LIST max-keys=2147483648", "BadMaxKeys"),
    ("LIST max-keys=١".encode(), "BadMaxKeys"),
    (b"LIST encoding-type=gzip", "BadEncoding"),
    (b"LIST encoding-type=URL", "BadEncoding"),
    (b"LIST fetch-owner=yes", "BadFetchOwner"),
    (b"LIST fetch-owner=TRUE", "BadFetchOwner"),
    # a LISTV1 line has the parameters of version 1 alone
    (b"listv1", "UnknownVerb"),
    (b"LISTV2", "UnknownVerb"),
    (b"LISTV1 a b", "WrongFields"),
    (b"LISTV1 marker=%", "BadEscape"),
    (b"LISTV1 marker=%FF", "BadEscape"),
    (b"LISTV1 marker=" + b"k" * 1025, "KeyTooLong"),
    (b"LISTV1 prefix=" + b"k" * 1025, "KeyTooLong"),
    (b"LISTV1 delimiter=" + b"k" * 1025, "KeyTooLong"),
    (b"LISTV1 x&marker=" + b"%c3%a9" * 513, "KeyTooLong"),
    # it takes no `start-after`, but a long one is first too long
    (b"LISTV1 start-after=" + b"k" * 1025, "KeyTooLong"),
    (b"LISTV1 start-after=a", "UnknownParameter"),
    (b"LIST marker=" + b"k" * 1025, "UnknownParameter"),
    (b"LISTV1 list-type=2", "UnknownParameter"),
    (b"LISTV1 list-type=1", "UnknownParameter"),
    (b"LISTV1 continuation-token=S2E", "UnknownParameter"),
    (b"LISTV1 fetch-owner=", "UnknownParameter"),
    (b"LISTV1 Marker=a", "UnknownParameter"),
    (b"LISTV1 start-after=a&start-after=a", "UnknownParameter"),
    (b"LISTV1 marker=a&marker=a", "RepeatedParameter"),
    (b"LISTV1 marker=a&max-keys=x&marker=", "RepeatedParameter"),
    (b"LISTV1 encoding-type=gzip&max-keys=x", "BadMaxKeys"),
    (b"LISTV1 encoding-type=gzip", "BadEncoding"),
    # the first of several causes, in the grammar's order
    (b"PUT %2 x e! 1", "BadEscape"),
    (b"PUT  x e! 1", "EmptyKey"),
    (b"PUT a 18446744073709551616 e1 x", "BadNumber"),
    (b"PUT a 18446744073709551616 e! 1", "NumberTooLarge"),
    (b"PUT a 1 e! 18446744073709551616", "NumberTooLarge"),
    (b"LIST fetch-owner=yes&max-keys=x", "BadMaxKeys"),
    (b"LIST fetch-owner=yes&encoding-type=gzip", "BadEncoding"),
    (b"LIST fetch-owner=yes&list-type=2&max-keys=x&list-type=2", "RepeatedParameter"),
    (b"LIST list-type=1&marker=a", "UnknownParameter"),
    (b"LIST list-type=1&prefix=a&prefix=b", "RepeatedParameter"),
    (b"LIST max-keys=x&list-type=1", "BadListType"),
    (b"LIST encoding-type=gzip&max-keys=x", "BadMaxKeys"),
    (b"HEAD %zz" + b"k" * 1030, "BadEscape"),
    (b"LIST list-type=1&list-type=1&x", "UnknownParameter"),
    (b"LIST x=1&prefix=%zz", "BadEscape"),
]
# A PUTNEW line has the causes of a PUT line, in their order.
FAULTY += [(line.replace(b"PUT", b"PUTNEW", 1), cause) for line, cause in FAULTY if line.startswith(b"PUT ")]

REFUSED = [
    (b"PUT a 1 e1 1\nCLIENT\n", 1, "NoClient"),
    (b"PUTNEW a 1 e1 1\nCLIENT\n", 1, "NoClient"),
    (b"\n\nLIST\n", 3, "NoClient"),
    (b"PUT a x e! 1\n", 1, "BadNumber"),
    # a byte order mark is a part of the line
    (b"\xef\xbb\xbfCLIENT\n", 1, "UnknownVerb"),
    # the first of several faulty lines
    (b"CLIENT\n\nPUT a 1 e! 1\nGET\n", 3, "BadEtag"),
    (b"CLIENT\nGET a\nHEAD %FF\n", 2, "UnknownVerb"),
    # of a second client
    (b"CLIENT\nPUT a 1 e1 1\n\nCLIENT\nHEAD", 5, "WrongFields"),
    # one more than the limit
    (b"CLIENT\n" * 32 + b"\nCLIENT\nHEAD\n", 34, "TooManyClients"),
    (b"CLIENT\n" * 32 + b"CLIENT x\n", 33, "WrongFields"),
    (b"CLIENT\n" + b"LIST\n" * 4001, 4002, "TooManyEntries"),
    # a listing with a bad token counts too
    (b"CLIENT\n" + b"LIST continuation-token=UA\n" * 4001, 4002, "TooManyEntries"),
    (
        b"CLIENT\nNEXT\nLIST max-keys=0\nLIST max-keys=1001\n" + b"NEXT\n" * 3998 + b"LIST max-keys=1000\nLIST max-keys=1\n",
        4004,
        "TooManyEntries",
    ),
    # a LISTV1 counts with its own number, and changes nothing of what a NEXT counts with
    (b"CLIENT\n" + b"LISTV1\n" * 4001, 4002, "TooManyEntries"),
    (b"CLIENT\n" + b"LISTV1 delimiter=/\n" * 4001, 4002, "TooManyEntries"),
    (b"CLIENT\nLISTV1\n" + b"NEXT\n" * 10 + b"LIST\n" * 3999 + b"LISTV1 max-keys=1\n", 4012, "TooManyEntries"),
    (b"CLIENT\nLIST\nLISTV1 max-keys=0\n" + b"NEXT\n" * 4000, 4003, "TooManyEntries"),
    (b"\nLISTV1\nCLIENT\n", 2, "NoClient"),
    # other lines change nothing of what a NEXT counts with
    (b"CLIENT\nLIST\nPUT a 1 e 1\nPUTNEW b 1 e 1\nDELETE a\nHEAD a\n" + b"NEXT\n" * 4000, 4006, "TooManyEntries"),
    (b"CLIENT\n\n" + b"HEAD a\n" * 200_001, 200_003, "TooManyLines"),
    # a request of each verb, and as many more as are one too many
    (
        b"CLIENT\nPUT a 1 e 1\nPUTNEW a 1 e 1\nDELETE a\nLIST max-keys=0\nNEXT\n" + b"HEAD a\n" * 199_996,
        200_002,
        "TooManyLines",
    ),
    # over two limits at once
    (b"CLIENT\n" + b"LIST max-keys=20\n" * 200_000 + b"LIST max-keys=1\n", 200_002, "TooManyLines"),
]

STARTED = (
    b"CLIENT\nPUT sample.jpg 1 e1 10\nPUT photos/2006/January/sample.jpg 2 e2 20\n"
    b"PUT photos/2006/February/sample2.jpg 3 e3 30\nLIST list-type=2&delimiter=%2F\n"
    b"LIST list-type=2&prefix=photos/2006/&delimiter=/\n"
)

# From each length on, how the start of this length of STARTED ends: None where it is answered.
STARTS = [
    (0, None),
    (1, (1, "UnknownVerb")),
    (6, None),
    (8, (2, "UnknownVerb")),
    (10, (2, "WrongFields")),
    (27, (2, "BadNumber")),
    (28, None),
    (31, (3, "UnknownVerb")),
    (33, (3, "WrongFields")),
    (70, (3, "BadNumber")),
    (71, None),
    (74, (4, "UnknownVerb")),
    (76, (4, "WrongFields")),
    (115, (4, "BadNumber")),
    (116, None),
    (119, (5, "UnknownVerb")),
    (122, None),
    (124, (5, "UnknownParameter")),
    (132, (5, "BadListType")),
    (134, None),
    (136, (5, "UnknownParameter")),
    (144, None),
    (146, (5, "BadEscape")),
    (148, None),
    (150, (6, "UnknownVerb")),
    (153, None),
    (155, (6, "UnknownParameter")),
    (163, (6, "BadListType")),
    (165, None),
    (167, (6, "UnknownParameter")),
    (172, None),
    (187, (6, "UnknownParameter")),
    (195, None),
]

# What a token that is read is answered on an empty bucket, and any other one.
NO_TOKEN = '{"At":null,"Client":0,"Line":2,"Status":400}'


def page_behind(token, prefix="", delimiter=""):
    shown = '"Delimiter":"%s",' % delimiter if delimiter else ""
    return (
        '{"At":0,"Client":0,"CommonPrefixes":[],"Contents":[],"ContinuationToken":"%s",%s"IsTruncated":false,"KeyCount":0,"Line":2,'
        '"MaxKeys":1000,"Prefix":"%s","Status":200}' % (token, shown, prefix)
    )


class Row(NamedTuple):
    """An input, with the lines wanted of its text by their places, or with the refused line and its cause."""

    name: str
    raw: bytes
    lines: dict = {}
    refusal: tuple | None = None
    words: tuple = ("run",)


def sessions(text):
    """The rows of rows.txt."""
    for block in text.split("\n\n"):
        lines = [line for line in block.strip("\n").split("\n") if not line.startswith("#")]
        if lines:
            end = lines.index("answers")
            wanted = (line.split(" ", 1) for line in lines[end + 1 :])
            session = "".join(line + "\n" for line in lines[1:end])
            yield Row(lines[0].removeprefix("session "), session.encode(), {int(place): line for place, line in wanted})


def rows():
    """All rows but the starts of STARTED."""
    answered = list(sessions(SESSIONS.read_text()))
    yield from answered
    # The text does not depend on how lines end.
    first = answered[0]
    yield Row(first.name + ", without a last LF", first.raw[:-1], first.lines)
    yield Row(first.name + ", with CR LF", first.raw.replace(b"\n", b"\r\n"), first.lines)
    for name, session, lines in TEXTS + LIMITS:
        yield Row(name, session.encode(), lines)
    for name, slots, session, lines in SLOTS:
        # One client alone is answered so with a pool too: it never owns more slots than it has begun with.
        forms = [[option, str(slots)] for option in ("--slots", "--pool")]
        for words in [("run", *form) for form in forms] + [("run", "=".join(form)) for form in forms]:
            yield Row("%s, %s" % (" ".join(words), name), session.encode(), lines, words=words)
    for option in ("--slots=1", "--pool=1"):
        yield Row("a faulty line, with slots", b"CLIENT\nGET a\n", refusal=(2, "UnknownVerb"), words=("run", option))
    for token, is_read in TOKENS:
        wanted = page_behind(token) if is_read else NO_TOKEN
        yield Row("token " + token, b"CLIENT\nLIST continuation-token=%s\n" % token.encode(), {1: wanted})
    for prefix, delimiter, is_read, raw in BOUND:
        token = base64url(raw)
        session = "CLIENT\nLIST prefix=%s&delimiter=%s&continuation-token=%s\n" % (prefix, delimiter, token)
        wanted = page_behind(token, prefix, delimiter) if is_read else NO_TOKEN
        yield Row("token of %r" % raw[:40], session.encode(), {1: wanted})
    for line in RIGHT:
        yield Row("right line " + line, b"CLIENT\n%s\n" % line.encode())
    for line, cause in FAULTY:
        yield Row("faulty line", b"CLIENT\nPUT a 1 e1 1\n\n%s\nLIST\n" % line, refusal=(4, cause))
    for raw, line, cause in REFUSED:
        yield Row("refused input", raw, refusal=(line, cause))


def starts():
    """STARTED, cut at every byte."""
    for length in range(len(STARTED) + 1):
        refusal = [end for start, end in STARTS if start <= length][-1]
        yield Row("the first %d bytes" % length, STARTED[:length], refusal=refusal)


def faults(row, status, text, said):
    """What of a run differs from its row."""
    error = "bucketidx: line %d: %s\n" % row.refusal if row.refusal else ""
    if (status, said) != (3 if error else 0, error):
        yield "status %d, %r on standard error; wanted %r" % (status, said, error)
    if bool(text) == bool(error):
        yield "a text in place of none" if error else "no text"
    written = text.split("\n")
    for place, line in row.lines.items():
        found = written[place - 1] if place < len(written) else None
        if found is None:
            yield "no line %d" % place
        elif found != line:
            # A whole page is long: shown from shortly before the first other character.
            start = max(len(commonprefix((found, line))) - 100, 0)
            yield "line %d, from character %d on\n    got    %.400s\n    wanted %.400s" % (place, start, found[start:], line[start:])
    last = max(row.lines, default=0)
    if row.lines.get(last, "").startswith('{"Updates":') and written[last:] != [""]:
        yield "the text does not end after line %d" % last


def main():
    parser = argparse.ArgumentParser(description=__doc__.split("\n")[0])
    parser.add_argument("program")
    program = parser.parse_args().program
    make_ready(program)
    passed = failed = 0
    for row in (row for part in (rows(), starts()) for row in part):
        ran = subprocess.run([program, *row.words], input=row.raw, capture_output=True)
        wrong = list(faults(row, ran.returncode, ran.stdout.decode(), ran.stderr.decode()))
        passed, failed = passed + (not wrong), failed + bool(wrong)
        for fault in wrong:
            print("%s: %r\n  %s" % (row.name, row.raw[:200], fault))
    print("rows: %d hold, %d do not" % (passed, failed))
    sys.exit(failed > 0)


if __name__ == "__main__":
    main()
