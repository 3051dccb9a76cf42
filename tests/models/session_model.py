"""A model of a session's grammar and of its answers, written from docs/FORMAT.md and docs/DEFINITIONS.md.

`answers(raw)` is what the program is to write for an input: its text, or the faulty line and its cause. It shares no
code with the program. What a bucket answers is the model in bucket_model.py. The text of several clients depends
on the schedule; legal_model.py checks it. `answers(raw, slots)` is the same for a client that has so many node slots,
in a session in which its entry slots suffice.
"""
import re

from bucket_model import Model

# By verb the parameters that a query may have, and those whose values are compared with names.
PARAMETERS = {
    "LIST": ["list-type", "prefix", "delimiter", "max-keys", "start-after", "continuation-token", "encoding-type", "fetch-owner"],
    "LISTV1": ["prefix", "delimiter", "max-keys", "marker", "encoding-type"],
}
COMPARED = {"LIST": ["prefix", "delimiter", "start-after"], "LISTV1": ["prefix", "delimiter", "start-after", "marker"]}
FIELDS = {"CLIENT": (1, 1), "PUT": (5, 5), "PUTNEW": (5, 5), "DELETE": (2, 2), "HEAD": (2, 2), "LIST": (1, 2), "LISTV1": (1, 2), "NEXT": (1, 1)}


class Refused(Exception):
    """The cause of a faulty line, or the line with it as `bucketidx` says it."""


def refuse_if(holds, cause):
    if holds:
        raise Refused(cause)


def lines_of(raw):
    """The lines with their numbers from 1, without those that are empty."""
    pieces = raw.split(b"\n")
    if pieces[-1] == b"":
        pieces.pop()
    for number, piece in enumerate(pieces, 1):
        line = piece[:-1] if piece.endswith(b"\r") else piece
        if line:
            yield number, line


def unescaped(text):
    refuse_if(re.search(r"%(?![0-9A-Fa-f]{2})", text), "BadEscape")
    raw = re.sub(rb"%(..)", lambda pair: bytes([int(pair.group(1), 16)]), text.encode())
    try:
        return raw.decode()
    except UnicodeDecodeError:
        raise Refused("BadEscape")


def is_number(text):
    return re.fullmatch("[0-9]+", text) is not None


def is_long(text):
    return len(text.encode()) > 1024


def query_of(verb, text):
    """The query of a verb as (name, value) pairs, tested for its own causes in their order, as the model's query."""
    pieces = [piece.partition("=") for piece in text.removeprefix("?").split("&") if piece]
    pairs = [(name, unescaped(value)) for name, _, value in pieces]
    names = [name for name, _ in pairs]
    given = dict(reversed(pairs))
    refuse_if(any(is_long(value) for name, value in pairs if name in COMPARED[verb]), "KeyTooLong")
    refuse_if(any(name not in PARAMETERS[verb] for name in names), "UnknownParameter")
    refuse_if(len(set(names)) < len(names), "RepeatedParameter")
    refuse_if(given.get("list-type", "2") != "2", "BadListType")
    most = given.get("max-keys", "1000")
    refuse_if(not is_number(most) or int(most) > 2147483647, "BadMaxKeys")
    refuse_if(given.get("encoding-type", "") not in ("", "url"), "BadEncoding")
    refuse_if(given.get("fetch-owner", "") not in ("", "true", "false"), "BadFetchOwner")
    query = dict(
        prefix=given.get("prefix", ""),
        delimiter=given.get("delimiter", ""),
        max_keys=min(int(most), 1000),
        url=given.get("encoding-type") == "url",
    )
    if verb == "LISTV1":
        return dict(query, marker=given.get("marker", ""))
    return dict(query, start_after=given.get("start-after", ""), token=given.get("continuation-token", ""))


def put_of(size, etag, modified):
    refuse_if(not is_number(size) or not is_number(modified), "BadNumber")
    refuse_if(max(int(size), int(modified)) > 2**64 - 1, "NumberTooLarge")
    bare = etag[1:-1] if len(etag) >= 2 and etag[0] == etag[-1] == '"' else etag
    refuse_if(not re.fullmatch("[A-Za-z0-9-]{1,64}", bare), "BadEtag")
    return int(size), bare, int(modified)


def command_of(line):
    """The line's verb and what follows it, tested for the line's own causes in their order."""
    try:
        fields = line.decode().split(" ")
    except UnicodeDecodeError:
        raise Refused("NotUtf8")
    verb, rest = fields[0], fields[1:]
    refuse_if(verb not in FIELDS, "UnknownVerb")
    least, most = FIELDS[verb]
    refuse_if(not least <= len(fields) <= most, "WrongFields")
    if verb in PARAMETERS:
        return verb, [query_of(verb, rest[0] if rest else "")]
    if verb in ("CLIENT", "NEXT"):
        return verb, []
    key = unescaped(rest[0])
    refuse_if(key == "", "EmptyKey")
    refuse_if(is_long(key), "KeyTooLong")
    return verb, [key, *(put_of(*rest[1:]) if verb in ("PUT", "PUTNEW") else [])]


class Limits:
    """What the limits count of the lines so far."""

    def __init__(self):
        self.clients = self.lines = self.entries = self.acting = 0

    def count(self, verb, rest):
        if verb == "CLIENT":
            self.clients += 1
            self.acting = 0
        else:
            self.lines += 1
        if verb == "LIST":
            self.acting = rest[0]["max_keys"]
        if verb in ("LIST", "NEXT"):
            self.entries += self.acting
        if verb == "LISTV1":
            self.entries += rest[0]["max_keys"]
        refuse_if(self.clients == 0, "NoClient")
        refuse_if(verb == "CLIENT" and self.clients > 32, "TooManyClients")
        refuse_if(self.lines > 200000, "TooManyLines")
        refuse_if(self.entries > 4000000, "TooManyEntries")


class FewSlots(Model):
    """A bucket whose one client has so many node slots. A put of a new key takes one, a removal gives one back, and a
    put of a present key gives back what it takes. Without a slot each request that may make an update is refused."""

    def __init__(self, slots):
        super().__init__()
        self.slots = slots

    def is_refused(self, line):
        if self.slots > len(self.records):
            return False
        self.answers.append(dict(At=None, Client=0, Line=line, Status=503))
        return True

    def put(self, line, *record):
        self.is_refused(line) or super().put(line, *record)

    def putnew(self, line, *record):
        self.is_refused(line) or super().putnew(line, *record)

    def delete(self, line, name):
        self.is_refused(line) or super().delete(line, name)


def answers(raw, slots=None):
    """The text that the program writes for this input, or None where several clients may write several texts.
    `Refused` names the first faulty line and its cause."""
    model, limits = FewSlots(slots) if slots else Model(), Limits()
    for number, line in lines_of(raw):
        try:
            verb, rest = command_of(line)
            limits.count(verb, rest)
        except Refused as cause:
            raise Refused("line %d: %s" % (number, cause)) from None
        if verb != "CLIENT":
            getattr(model, verb.lower())(number, *rest)
    return model.text() if limits.clients < 2 else None
