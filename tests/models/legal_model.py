"""The definition of a legal run as a check: what is wrong with a text as one of a session's legal runs.

Written from docs/DEFINITIONS.md alone. `fault_of(raw, text)` takes a session and a text, and says what is wrong.
"""
import bisect
import json

from bucket_model import line_text, page_members, point_of, v1_members
from session_model import command_of, lines_of

# The verbs of the lines that may make an update, with the verb that their entry of the journal has.
UPDATES = {"PUT": "PUT", "PUTNEW": "PUT", "DELETE": "DELETE"}


class Fault(Exception):
    """What is wrong with a text."""


def want(holds, *what):
    if not holds:
        raise Fault(" ".join(map(str, what)))


class Written(dict):
    """The members of a line of the text, with the line itself."""

    def __init__(self, line):
        members = json.loads(line)
        want(isinstance(members, dict), "no object:", line)
        super().__init__(members)
        self.line = line + "\n"
        want(line_text(self) == self.line, "not in the form of a line:", line)


def is_same(written, wanted):
    """Whether the line has the text of these members: to Python alone true, 1 and 1.0 are equal."""
    return written.line == line_text(wanted)


class Asked:
    """A request line of a session."""

    def __init__(self, client, line, verb, rest):
        self.client, self.line, self.verb, self.rest = client, line, verb, rest


def asked_of(raw):
    """The request lines of each client."""
    clients = []
    for line, text in lines_of(raw):
        verb, rest = command_of(text)
        if verb == "CLIENT":
            clients.append([])
        else:
            clients[-1].append(Asked(len(clients) - 1, line, verb, rest))
    return clients


def default_slots(lines):
    return sum(asked.verb in UPDATES for asked in lines) + 1


# ---- the text, cut into its parts


class Run:
    """A written run: each client's replies, the updates, and the places of the lines that have one."""

    def __init__(self, clients, text):
        lines = text.split("\n")
        want(lines.pop() == "", "the text does not end with LF")
        data = [Written(line) for line in lines]
        count = sum(map(len, clients))
        want(len(data) > count, "lines are missing")
        self.clients, self.updates = clients, data[count:-1]
        want(is_same(data[-1], dict(Updates=len(self.updates))), "not the number of updates:", data[-1])
        replies = iter(data[:count])
        self.replies = [[next(replies) for _ in lines] for lines in clients]
        for client, (lines, answers) in enumerate(zip(clients, self.replies)):
            for asked, reply in zip(lines, answers):
                want((reply.get("Client"), reply.get("Line")) == (client, asked.line), "no reply of line", asked.line)
                want("At" in reply and "Status" in reply, "no place or status at line", asked.line)
        self.by_line, self.places = entries_by_line(clients, self)

    def each_client(self):
        return zip(self.clients, self.replies)

    def is_one_after_another(self):
        """Whether some run of the clients one after another has this text: then each place of a client is the number of
        updates before its first request, and of its own so far."""
        starts = []
        for lines, replies in self.each_client():
            made, found = 0, set()
            for asked, reply in zip(lines, replies):
                made += asked.line in self.places
                if reply["At"] is not None:
                    found.add(reply["At"] - made)
            if len(found) > 1:
                return False
            starts += [(start, made) for start in found]
        borders = {start for start, made in starts if made} | {len(self.updates)}
        return all(start in borders for start, _ in starts)


def entries_by_line(clients, run):
    """The place of the update of each line that has one. Each entry of the journal is the update of one line."""
    by_line = {asked.line: asked for lines in clients for asked in lines}
    places = {}
    for at, entry in enumerate(run.updates, 1):
        asked = by_line.get(entry["Line"])
        want(asked is not None and asked.verb in UPDATES, "entry", at, "is of no update")
        wanted = dict(At=at, Client=asked.client, Key=asked.rest[0], Line=asked.line, Verb=UPDATES[asked.verb])
        want(is_same(entry, wanted), "entry", at, "is not the update of its line")
        want(asked.line not in places, "line", asked.line, "has two entries")
        places[asked.line] = at
    return by_line, places


# ---- each client's replies by themselves


def check_order(lines, replies, places, count):
    """Places are within the history, never fall, and an own update stands above all earlier ones."""
    last = 0
    for asked, reply in zip(lines, replies):
        at = reply["At"]
        if at is None:
            continue
        want(type(at) is int and 0 <= at <= count, "line", asked.line, "has a place that is none of the history")
        want(at >= last, "line", asked.line, "has a place below an earlier one")
        if places.get(asked.line) == at:
            want(at > last, "line", asked.line, "made no update above all earlier places")
        last = at
    for asked, reply in zip(lines, replies):
        if asked.line in places:
            want(reply["At"] == places[asked.line], "line", asked.line, "has its update elsewhere than its place")


def resolved(lines, replies):
    """For each line the query and the point of a listing, None where it is bad, and () where it is none."""
    last_query, last_token = None, None
    for asked, reply in zip(lines, replies):
        if asked.verb == "LIST":
            query = asked.rest[0]
        elif asked.verb == "NEXT":
            query = dict(last_query, token=last_token) if last_token else None
        else:
            yield ()
            continue
        point = point_of(query) if query and query["token"] else None
        bad = query is None or (query["token"] and point is None)
        yield None if bad else (query, point)
        last_query, last_token = query, None if bad else reply.get("NextContinuationToken")


def check_refusals(lines, replies, listings, places, slots):
    """A request is refused only for a bad token or because slots ran out, and exactly then has no place."""
    made = 0
    for asked, reply, listing in zip(lines, replies, listings):
        refused = dict(At=None, Client=asked.client, Line=asked.line)
        if listing is None:
            want(is_same(reply, dict(refused, Status=400)), "line", asked.line, "has a bad token and is not refused")
        elif reply["Status"] == 503:
            want(asked.verb in UPDATES, "line", asked.line, "is no update and lacks slots")
            want(is_same(reply, dict(refused, Status=503)), "line", asked.line, "is refused in another form")
            want(made >= slots, "line", asked.line, "is refused after", made, "updates")
            want(asked.line not in places, "line", asked.line, "is refused and has an update")
        else:
            want(reply["At"] is not None, "line", asked.line, "has no place")
        made += asked.line in places


# ---- the replies by place, over the map


class Bucket:
    """The map after the updates so far."""

    def __init__(self):
        self.records = {}

    def update(self, asked):
        name = asked.rest[0].encode()
        if asked.verb == "DELETE":
            self.records.pop(name)
        else:
            size, etag, modified = asked.rest[1:]
            self.records[name] = dict(Size=size, ETag=etag, LastModified=modified)


def check_answer(bucket, asked, reply, listing):
    """The reply is what the map after its place answers."""
    common = dict(At=reply["At"], Client=asked.client, Line=asked.line)
    if asked.verb == "PUTNEW":
        want(asked.rest[0].encode() in bucket.records, "line", asked.line, "found a key that is not there")
        wanted = dict(common, Status=412)
    elif asked.verb == "DELETE":
        want(asked.rest[0].encode() not in bucket.records, "line", asked.line, "found no key that is there")
        wanted = dict(common, Status=204)
    elif asked.verb == "HEAD":
        record = bucket.records.get(asked.rest[0].encode())
        wanted = dict(common, Status=200, **record) if record else dict(common, Status=404)
    elif asked.verb == "LISTV1":
        wanted = dict(common, Status=200, **v1_members(bucket.records, asked.rest[0]))
    else:
        wanted = dict(common, Status=200, **page_members(bucket.records, *listing))
    want(is_same(reply, wanted), "line", asked.line, "is answered", reply, "for", wanted)


def check_update(bucket, asked, reply):
    """The reply of an own update, and the map before it."""
    there = asked.rest[0].encode() in bucket.records
    common = dict(At=reply["At"], Client=asked.client, Line=asked.line)
    if asked.verb == "PUT":
        want(is_same(reply, dict(common, Status=200, Replaced=there)), "line", asked.line, "is answered", reply)
    elif asked.verb == "PUTNEW":
        want(not there, "line", asked.line, "put a key that was there")
        want(is_same(reply, dict(common, Status=200, Replaced=False)), "line", asked.line, "is answered", reply)
    else:
        want(there, "line", asked.line, "took out a key that was not there")
        want(is_same(reply, dict(common, Status=204)), "line", asked.line, "is answered", reply)


def check_run(run, slots):
    """Each client's replies by themselves, and then all by place."""
    looks = []
    for lines, replies in run.each_client():
        listings = list(resolved(lines, replies))
        check_order(lines, replies, run.places, len(run.updates))
        check_refusals(lines, replies, listings, run.places, slots(lines))
        for asked, reply, listing in zip(lines, replies, listings):
            if reply["At"] is None or asked.line in run.places:
                continue
            want(asked.verb != "PUT", "line", asked.line, "has no entry in the journal")
            looks.append((reply["At"], asked, reply, listing))
    looks.sort(key=lambda look: look[0])
    own = {asked.line: reply for lines, replies in run.each_client() for asked, reply in zip(lines, replies)}
    bucket, next_look = Bucket(), 0
    for at in range(len(run.updates) + 1):
        if at:
            asked = run.by_line[run.updates[at - 1]["Line"]]
            check_update(bucket, asked, own[asked.line])
            bucket.update(asked)
        end = bisect.bisect_right(looks, at, key=lambda look: look[0])
        for _, asked, reply, listing in looks[next_look:end]:
            check_answer(bucket, asked, reply, listing)
        next_look = end


def legal_run_of(raw, text, slots=default_slots):
    """The run that the text shows, which is a legal one of the session. Where it is none, `Fault` says why."""
    try:
        run = Run(asked_of(raw), text)
        check_run(run, slots)
    except (AttributeError, KeyError, TypeError, ValueError) as error:
        raise Fault("%s: %s" % (type(error).__name__, error)) from error
    return run


def fault_of(raw, text, slots=default_slots):
    """What is wrong with the text as a legal run of the session, or None."""
    try:
        legal_run_of(raw, text, slots)
    except Fault as fault:
        return str(fault)
    return None


def rule_of(slots):
    """How many node slots the client of these lines has."""
    return default_slots if slots is None else lambda lines: slots
