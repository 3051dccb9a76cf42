"""The first wrong line of a written text, by the definition in docs/DEFINITIONS.md alone; and texts of legal runs.

The model looks for a reply at each place of the history, so it reads no number from a line.
"""
from bucket_model import line_text, page_members, point_of, v1_members
from legal_model import UPDATES, default_slots


def text_bytes(members):
    return line_text(members).encode()


class History:
    """The updates, each by the request line that made it, their places by lines, and the map after each of them."""

    def __init__(self):
        self.updates, self.places, self.maps = [], {}, [{}]

    def add(self, asked):
        records = dict(self.maps[-1])
        name = asked.rest[0].encode()
        if asked.verb == "DELETE":
            records.pop(name, None)
        else:
            size, etag, modified = asked.rest[1:]
            records[name] = dict(Size=size, ETag=etag, LastModified=modified)
        self.updates.append(asked)
        self.maps.append(records)
        self.places[asked.line] = len(self.updates)


class Client:
    """What a client was answered so far."""

    def __init__(self, history, slots):
        self.history, self.slots = history, slots
        self.last_place, self.made, self.last_listing = 0, 0, None

    def resolved(self, asked):
        """The query and the point of a LIST or NEXT; None where the request is bad."""
        if asked.verb == "LIST":
            query = asked.rest[0]
        elif self.last_listing and "NextContinuationToken" in self.last_listing[1]:
            query = dict(self.last_listing[0], token=self.last_listing[1]["NextContinuationToken"])
        else:
            return None
        point = point_of(query) if query["token"] else None
        return None if query["token"] and point is None else (query, point)

    def refused(self, asked):
        """The status of a request that is answered at no place, or None where it can't be."""
        if asked.verb in ("LIST", "NEXT"):
            return 400 if self.resolved(asked) is None else None
        lacks_slots = asked.verb in UPDATES and asked.line not in self.history.places and self.made >= self.slots
        return 503 if lacks_slots else None

    def updated(self, asked, at):
        """The reply of a request that has an update, at its place."""
        there = asked.rest[0].encode() in self.history.maps[at - 1]
        if asked.verb == "PUT" or (asked.verb == "PUTNEW" and not there):
            return dict(Status=200, Replaced=there)
        return dict(Status=204) if asked.verb == "DELETE" and there else None

    def looked(self, asked, at):
        """The reply of a request that makes no update, at this place."""
        records = self.history.maps[at]
        if asked.verb in ("LIST", "NEXT"):
            found = self.resolved(asked)
            return dict(Status=200, **page_members(records, *found)) if found else None
        if asked.verb == "LISTV1":
            return dict(Status=200, **v1_members(records, asked.rest[0]))
        record = records.get(asked.rest[0].encode())
        if asked.verb == "HEAD":
            return dict(Status=200, **record) if record else dict(Status=404)
        if asked.verb == "PUTNEW":
            return dict(Status=412) if record else None
        return dict(Status=204) if asked.verb == "DELETE" and not record else None

    def reply(self, asked, at):
        """The members of the reply at a place, or None where there is none."""
        own = self.history.places.get(asked.line)
        if at is None:
            status = self.refused(asked)
            members = dict(Status=status) if status else None
        elif at < self.last_place or (own is not None and (own != at or at <= self.last_place)):
            members = None
        else:
            members = self.looked(asked, at) if own is None else self.updated(asked, at)
        return dict(members, At=at, Client=asked.client, Line=asked.line) if members else None

    def go_on(self, asked, members):
        if members["At"] is not None:
            self.last_place = members["At"]
        self.made += asked.line in self.history.places
        if asked.verb in ("LIST", "NEXT"):
            found = self.resolved(asked)
            self.last_listing = (found[0], members) if found and members["Status"] == 200 else None


def slots_of(lines, slots):
    return default_slots(lines) if slots is None else slots


def journal_text(asked, at):
    return text_bytes(dict(At=at, Client=asked.client, Key=asked.rest[0], Line=asked.line, Verb=UPDATES[asked.verb]))


def behind_place(asked):
    """A journal line after its place."""
    return journal_text(asked, 0).removeprefix(b'{"At":0')


def lines_with_ends(text):
    lines = text.split(b"\n")
    last = lines.pop()
    return [line + b"\n" for line in lines] + ([last] if last else [])


def wrong_line(clients, text, slots):
    """The first wrong line, counted from 1; None where there is none."""
    lines = lines_with_ends(text)
    count = sum(map(len, clients))
    if len(lines) <= count:
        return len(lines) + 1
    may_update = {behind_place(asked): asked for part in clients for asked in part if asked.verb in UPDATES}
    history = History()
    for at, line in enumerate(lines[count:-1], 1):
        start = b'{"At":%d' % at
        asked = may_update.get(line[len(start) :]) if line.startswith(start) else None
        if asked is None or asked.line in history.places:
            return count + at
        history.add(asked)
    if lines[-1] != text_bytes(dict(Updates=len(history.updates))):
        return len(lines)
    number = 0
    for part in clients:
        client = Client(history, slots_of(part, slots))
        for asked in part:
            line = lines[number]
            number += 1
            members = reply_with(client, asked, line)
            if members is None:
                return number
            client.go_on(asked, members)
    return None


def reply_with(client, asked, line):
    """The members of the reply that has this line, at whichever place."""
    for at in [None, *range(len(client.history.updates) + 1)]:
        if line.startswith(b'{"At":%s,' % (b"null" if at is None else b"%d" % at)):
            members = client.reply(asked, at)
            if members is not None and text_bytes(members) == line:
                return members
    return None


def made_text(rng, clients, slots):
    """The text of a legal run whose requests follow one another in a random order."""
    history = History()
    state = [Client(history, slots_of(part, slots)) for part in clients]
    replies = [[] for _ in clients]
    turns = [number for number, part in enumerate(clients) for _ in part]
    rng.shuffle(turns)
    for number in turns:
        asked, client = clients[number][len(replies[number])], state[number]
        members = client.reply(asked, None)
        if members is None or (members["Status"] == 503 and rng.random() < 0.5):
            at = rng.choice([len(history.updates), rng.randint(client.last_place, len(history.updates))])
            members = client.reply(asked, at)
            if members is None:
                # An update, unless the look has to be at the end of the history.
                members = client.reply(asked, len(history.updates))
            if members is None or asked.verb == "PUT":
                history.add(asked)
                members = client.reply(asked, len(history.updates))
        client.go_on(asked, members)
        replies[number].append(text_bytes(members))
    journal = [journal_text(asked, at) for at, asked in enumerate(history.updates, 1)]
    return b"".join([line for part in replies for line in part] + journal + [text_bytes(dict(Updates=len(history.updates)))])
