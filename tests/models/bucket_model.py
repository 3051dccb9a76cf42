"""A model of one bucket, written from docs/DEFINITIONS.md: tokens, pages, and the answers to one client's requests.

It shares no code with the program.
"""
import base64
import collections
import json
import re
from urllib.parse import quote


def base64url(raw):
    return base64.urlsafe_b64encode(raw).decode().rstrip("=")


def sized(text):
    """A text after its length in bytes, as four digits."""
    raw = text.encode()
    return b"%04d" % len(raw) + raw


def token_text(entry, prefix, delimiter):
    """The token of the page whose last entry it is, of a listing with this prefix and delimiter."""
    kind, text = entry
    return base64url(b"2" + kind + sized(prefix) + sized(delimiter) + text)


def cut_sized(raw):
    """The text after its length, and the bytes after that. Where the length does not fit, `ValueError`."""
    if not re.fullmatch(rb"[0-9]{4}", raw[:4]):
        raise ValueError
    end = 4 + int(raw[:4])
    if not end <= min(len(raw), 4 + 1024):
        raise ValueError
    return raw[4:end].decode(), raw[end:]


def token_of(text):
    """The token with this text as (kind, text, bound), or None where there is none. A bound is a prefix and a delimiter,
    or None."""
    padded = text.replace("-", "+").replace("_", "/") + "=" * (-len(text) % 4)
    try:
        raw = base64.b64decode(padded, validate=True)
        if base64url(raw) != text:
            return None
        kind, rest, bound = raw[:1], raw[1:], None
        if kind == b"2":
            kind = raw[1:2]
            prefix, rest = cut_sized(raw[2:])
            delimiter, rest = cut_sized(rest)
            bound = prefix, delimiter
        rest.decode()
    except ValueError:
        return None
    return (kind, rest, bound) if kind in (b"K", b"P") and 1 <= len(rest) <= 1024 else None


def point_of(query):
    """The point of the query's token as (kind, text), or None where it is that of no token, or of another prefix or
    delimiter."""
    token = token_of(query["token"])
    if token is None or token[2] not in (None, (query["prefix"], query["delimiter"])):
        return None
    return token[:2]


def kind_of(text):
    """Which form of a token the text has."""
    token = token_of(text)
    return "none" if token is None else "without a bound" if token[2] is None else "with a bound"


def is_behind(key, query, point):
    """Whether a listing that begins at this point, or after `start-after`, reaches the key."""
    if point is None:
        after = query["start_after"].encode()
        return not after or key > after
    kind, text = point
    return key > text and not (kind == b"P" and key.startswith(text))


def page_of(keys, query, point):
    """The entries of the page as (kind, text), and whether it is truncated."""
    prefix, delimiter = query["prefix"].encode(), query["delimiter"].encode()
    entries = []
    for key in sorted(keys):
        if not key.startswith(prefix) or not is_behind(key, query, point):
            continue
        end = key.find(delimiter, len(prefix)) if delimiter else -1
        entry = (b"K", key) if end < 0 else (b"P", key[: end + len(delimiter)])
        if entries[-1:] == [entry]:
            continue
        if len(entries) == query["max_keys"]:
            return entries, query["max_keys"] > 0
        entries.append(entry)
    return entries, False


def page_members(records, query, point):
    """The members of the page of this query, in the bucket of these records."""
    entries, truncated = page_of(records, query, point)
    shown = (lambda text: quote(text, safe="-._~/")) if query["url"] else (lambda text: text)
    members = dict(
        CommonPrefixes=[{"Prefix": shown(t.decode())} for kind, t in entries if kind == b"P"],
        Contents=[dict(records[t], Key=shown(t.decode())) for kind, t in entries if kind == b"K"],
        IsTruncated=truncated,
        KeyCount=len(entries),
        MaxKeys=query["max_keys"],
        Prefix=shown(query["prefix"]),
    )
    if query["token"]:
        members["ContinuationToken"] = query["token"]
    if query["delimiter"]:
        members["Delimiter"] = shown(query["delimiter"])
    if query["url"]:
        members["EncodingType"] = "url"
    if query["start_after"]:
        members["StartAfter"] = shown(query["start_after"])
    if truncated:
        members["NextContinuationToken"] = token_text(entries[-1], query["prefix"], query["delimiter"])
    return members


def is_common_prefix(query, text):
    """Whether the text is a common prefix of the query: it begins with the prefix, and the first delimiter after the
    prefix's length ends it."""
    prefix, delimiter = query["prefix"], query["delimiter"]
    if not delimiter or not text.startswith(prefix):
        return False
    start = text.find(delimiter, len(prefix))
    return start >= 0 and start + len(delimiter) == len(text)


def marker_point(query):
    """After what a listing of version 1 begins: None, a key or a common prefix."""
    marker = query["marker"]
    if not marker:
        return None
    return b"P" if is_common_prefix(query, marker) else b"K", marker.encode()


def v1_members(records, query):
    """The members of the page of this query of version 1, in the bucket of these records."""
    plain = dict(query, start_after="", token="")
    entries, truncated = page_of(records, plain, marker_point(query))
    shown = (lambda text: quote(text, safe="-._~/")) if query["url"] else (lambda text: text)
    members = page_members(records, plain, marker_point(query))
    del members["KeyCount"]
    members.pop("NextContinuationToken", None)
    members["Marker"] = shown(query["marker"])
    if truncated and query["delimiter"]:
        members["NextMarker"] = shown(entries[-1][1].decode())
    return members


JSON = json.JSONEncoder(separators=(",", ":"), ensure_ascii=False, sort_keys=True)


def line_text(members):
    """A line of the text: the members by their names, without spaces."""
    return JSON.encode(members) + "\n"


class Model:
    """One client's bucket, the answers so far, and the journal."""

    def __init__(self):
        self.records, self.journal, self.answers = {}, [], []
        self.last_query, self.next_token = None, None
        # The last entry of the last page of version 1, where it was truncated.
        self.next_marker = None
        self.tokens = collections.Counter()

    def answer(self, line, status, **members):
        at = None if status == 400 else len(self.journal)
        self.answers.append(dict(At=at, Client=0, Line=line, Status=status, **members))

    def put(self, line, name, size, etag, modified):
        replaced = name.encode() in self.records
        self.records[name.encode()] = dict(Size=size, ETag=etag, LastModified=modified)
        self.journal.append((line, name, "PUT"))
        self.answer(line, 200, Replaced=replaced)

    def putnew(self, line, name, *record):
        if name.encode() in self.records:
            self.answer(line, 412)
        else:
            self.put(line, name, *record)

    def delete(self, line, name):
        if self.records.pop(name.encode(), None):
            self.journal.append((line, name, "DELETE"))
        self.answer(line, 204)

    def head(self, line, name):
        record = self.records.get(name.encode())
        self.answer(line, 200, **record) if record else self.answer(line, 404)

    def list(self, line, query):
        self.last_query, self.next_token = query, None
        point = point_of(query) if query["token"] else None
        if query["token"]:
            self.tokens[kind_of(query["token"]) + (", refused" if point is None else ", taken")] += 1
        if query["token"] and point is None:
            return self.answer(line, 400)
        members = page_members(self.records, query, point)
        self.next_token = members.get("NextContinuationToken")
        self.answer(line, 200, **members)

    def listv1(self, line, query):
        entries, truncated = page_of(self.records, dict(query, start_after=""), marker_point(query))
        self.next_marker = entries[-1][1].decode() if truncated else None
        self.answer(line, 200, **v1_members(self.records, query))

    def next(self, line):
        if self.next_token is None:
            self.answer(line, 400)
        else:
            self.list(line, dict(self.last_query, token=self.next_token))

    def text(self):
        lines = list(self.answers)
        for at, (line, name, verb) in enumerate(self.journal, 1):
            lines.append(dict(At=at, Client=0, Key=name, Line=line, Verb=verb))
        lines.append(dict(Updates=len(self.journal)))
        return "".join(map(line_text, lines))
