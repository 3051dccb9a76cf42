"""How a session, and the text that a run of it wrote, are read by the scripts next to this one.

What they cannot use ends the script with one line on standard error, which names the file and its line.
"""
import json
import re
import sys
from pathlib import Path
from typing import NamedTuple, Optional
from urllib.parse import unquote_to_bytes

from session_lines import stop

# How many fields a line has, by its verb, and where the program writes what it changed, the verb there.
FIELDS = {"CLIENT": {1}, "PUT": {5}, "PUTNEW": {5}, "DELETE": {2}, "HEAD": {2}, "LIST": {1, 2}, "LISTV1": {1, 2}, "NEXT": {1}}
UPDATES = {"PUT": "PUT", "PUTNEW": "PUT", "DELETE": "DELETE"}
LISTINGS = {"LIST", "LISTV1", "NEXT"}


class Request(NamedTuple):
    """A request of a session: the number of its line, its client, its verb, what follows it, and the key that it names."""

    line: int
    client: int
    verb: str
    rest: list
    name: Optional[str]


STANDARD = "standard input"


def text_of(path):
    try:
        return (sys.stdin.buffer.read() if path == STANDARD else Path(path).read_bytes()).decode()
    except OSError as error:
        stop("%s: %s" % (path, error.strerror))
    except UnicodeDecodeError:
        stop("%s: not UTF-8" % path)


def unescaped(text):
    """The text without its escapes, or None where one is no escape, or the bytes are no text."""
    if "%" not in text:
        return text
    if re.search("%(?![0-9A-Fa-f]{2})", text):
        return None
    try:
        return unquote_to_bytes(text).decode()
    except UnicodeDecodeError:
        return None


def requests_of(path, session):
    """The requests of the session. They are tested so far that each has its fields and its key: all else the program tests."""
    client = -1
    for number, line in enumerate(session.split("\n"), 1):
        line = line[:-1] if line.endswith("\r") else line
        if not line:
            continue
        verb, *rest = line.split(" ")
        if len(rest) + 1 not in FIELDS.get(verb, ()):
            stop("%s: line %d is no line of a session: %.120s" % (path, number, line))
        client += verb == "CLIENT"
        if verb == "CLIENT":
            continue
        if client < 0:
            stop("%s: line %d comes before any CLIENT line" % (path, number))
        name = None if verb in LISTINGS else unescaped(rest[0])
        if verb not in LISTINGS and not 1 <= len((name or "").encode()) <= 1024:
            stop("%s: line %d has no key of 1 to 1024 bytes: %.120s" % (path, number, line))
        yield Request(number, client, verb, rest, name)


def members_of(path, number, line):
    """The members of a line of a text."""
    try:
        members = json.loads(line)
    except ValueError:
        members = None
    if not isinstance(members, dict):
        stop("%s: line %d is not what ./bucketidx run writes: %.120s" % (path, number, line))
    return members


class Text:
    """The text of a run of these requests: its replies, in their order, and its journal. Both are tested so far that each line
    stands where it has to, and that the journal is one of these requests."""

    def __init__(self, path, text, requests):
        self.path, self.requests = path, requests
        self.lines = text.split("\n")
        self.updates = len(self.lines) - len(requests) - 2
        if self.updates < 0 or self.lines[-1]:
            stop("%s: it ends before the answers to all %d requests and the number of updates" % (path, len(requests)))
        if self.members(len(self.lines) - 2) != {"Updates": self.updates}:
            stop('%s: its last line is not {"Updates":%d}, as its other lines ask for' % (path, self.updates))
        self.journal = [self.entry(at) for at in range(self.updates)]

    def members(self, place):
        return members_of(self.path, place + 1, self.lines[place])

    def reply(self, place):
        """The reply to the request at this place of the list."""
        reply, request = self.members(place), self.requests[place]
        if (reply.get("Line"), reply.get("Client"), "Verb" in reply) != (request.line, request.client, False):
            stop("%s: line %d is not the answer to line %d of the session" % (self.path, place + 1, request.line))
        return reply

    def entry(self, at):
        place = len(self.requests) + at
        entry = self.members(place)
        if entry.get("At") != at + 1 or not {"Client", "Key", "Verb"} <= entry.keys() or not isinstance(entry.get("Line"), int):
            stop("%s: line %d is not entry %d of the journal" % (self.path, place + 1, at + 1))
        return entry
