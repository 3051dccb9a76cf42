"""The rounds in which by_ranges has the sessions of its ranges run, and the text that it makes of theirs."""
import bisect
import json

from key_ranges import MOST_ENTRIES, Page, Query
from session_lines import MOST_BYTES, MOST_REQUESTS, stop
from session_texts import UPDATES, Request, Text

JSON = json.JSONEncoder(separators=(",", ":"), ensure_ascii=False, sort_keys=True)


class Listing:
    """A LIST or LISTV1 line with the NEXT lines that go on from it. Without a LIST line each NEXT is refused."""

    def __init__(self, request, bounds):
        self.query = Query(request) if request.verb != "NEXT" else None
        self.lines, self.token = [request.line], None
        self.ranges = self.query.touched(bounds, self.query.start()) if self.query else range(0)
        # By the lines that are answered: the round and its ranges, of whose pages the answer is made, or None where it is refused.
        self.pages = []

    def is_open(self):
        return self.query is not None and len(self.pages) < len(self.lines)

    def ask(self, asked, texts):
        """Adds what the ranges are asked in this round. Where there is no token yet that is the line itself."""
        line, *following = self.lines[len(self.pages) :]
        for at in self.ranges:
            asked[at][line] = self.query.with_token(self.token) if self.token else texts[line]
        for line in following:
            asked[self.ranges[0]][line] = "NEXT"

    def settle(self, number, page_of, bounds):
        """Takes what the ranges answered in this round."""
        page = page_of(number, self.lines[len(self.pages)], self.ranges)
        self.pages.append((number, self.ranges))
        while self.is_open() and page.is_full_in_first():
            following = page_of(number, self.lines[len(self.pages)], self.ranges[:1])
            if not following.is_full_in_first():
                break
            self.pages.append((number, self.ranges[:1]))
            page = following
        if not page.truncated:
            self.pages += [None] * (len(self.lines) - len(self.pages))
        elif self.is_open():
            self.token, self.ranges = page.token(), self.query.touched(bounds, page.last())


def listings_of(requests, bounds):
    """The listings of the session, and for the line of each LIST, LISTV1 and NEXT its listing and its place in that."""
    listings, of_line, last = [], {}, None
    for request in requests:
        if request.name:
            continue
        if request.verb == "NEXT" and last:
            last.lines.append(request.line)
            of_line[request.line] = last, len(last.lines) - 1
            continue
        listing = Listing(request, bounds)
        listings.append(listing)
        of_line[request.line] = listing, 0
        last = listing if request.verb == "LIST" else last
    return listings, of_line


class Rounds:
    """A session of one client with the ranges that it is cut into. `texts` has, round by round, what the ranges wrote."""

    def __init__(self, path, session, requests, bounds):
        self.path, self.requests, self.bounds = path, requests, bounds
        lines = [line.removesuffix("\r") for line in session.split("\n")]
        self.client = next((number for number, line in enumerate(lines, 1) if line == "CLIENT"), None)
        self.lines = {request.line: lines[request.line - 1] for request in requests}
        self.home = {request.line: bisect.bisect_right(bounds, request.name.encode()) for request in requests if request.name}
        self.listings, self.of_line = listings_of(requests, bounds)
        self.texts = []

    def is_open(self):
        return not self.texts or any(listing.is_open() for listing in self.listings)

    def asked(self):
        """What each range is asked in the next round: the text of each of its lines, by its number. In the first round these are
        all requests for its keys; in a later one the updates, for the listings that go on."""
        asked = [{} for _ in range(len(self.bounds) + 1)]
        for listing in self.listings:
            if listing.is_open():
                listing.ask(asked, self.lines)
        listed = [bool(lines) for lines in asked]
        for request in self.requests:
            home = self.home.get(request.line)
            if home is not None and (not self.texts or (listed[home] and request.verb in UPDATES)):
                asked[home][request.line] = self.lines[request.line]
        return [dict(sorted(lines.items())) for lines in asked]

    def sessions(self):
        """The sessions of the next round by their ranges. Each request keeps the number of its line: other lines are empty."""
        sessions = {}
        for at, asked in enumerate(self.asked()):
            if asked or not self.texts:
                self.check_size(at, asked)
                lines = [""] * (max(asked, default=self.client or 0) + 1)
                for line, text in asked.items():
                    lines[line - 1] = text
                if self.client:
                    lines[self.client - 1] = "CLIENT"
                sessions[at] = "\n".join(lines)
                if len(sessions[at].encode()) > MOST_BYTES:
                    self.refuse_size(at, "bytes", MOST_BYTES)
        return sessions

    def check_size(self, at, asked):
        if len(asked) > MOST_REQUESTS:
            self.refuse_size(at, "requests", MOST_REQUESTS)
        entries = most = 0
        for line, text in asked.items():
            verb, *rest = text.split(" ")
            if verb in ("LIST", "LISTV1"):
                listed = Query(Request(line, 0, verb, rest, None)).most()
                most = listed if verb == "LIST" else most
            if line in self.of_line:
                entries += listed if verb == "LISTV1" else most
        if entries > MOST_ENTRIES:
            self.refuse_size(at, "entries of pages", MOST_ENTRIES)

    def refuse_size(self, at, what, most):
        stop("%s: range %d of %d would have more than %d %s: take more ranges" % (self.path, at + 1, len(self.bounds) + 1, most, what))

    def take(self, paths, written):
        """Takes the texts that the sessions of this round were answered by, by their ranges."""
        number, asked = len(self.texts), self.asked()
        self.texts.append({})
        for at, text in written.items():
            requests = [Request(line, 0, words.split(" ")[0], [], None) for line, words in asked[at].items()]
            self.texts[number][at] = RangeText(paths[at], text, requests, self.texts[0].get(at))
        for listing in self.listings:
            if listing.is_open():
                listing.settle(number, self.page_of, self.bounds)

    def page_of(self, number, line, ranges):
        """The page of the line that these ranges' replies of this round make."""
        try:
            return Page(self.texts[number][at].reply_to(line) for at in ranges)
        except (KeyError, TypeError, ValueError, AttributeError):
            stop("%s: the answers to line %d are not pages" % (self.path, line))

    def answers(self):
        """The lines of the whole text."""
        journal = sorted((entry["Line"], at, place) for at, text in self.texts[0].items() for place, entry in enumerate(text.journal))
        lines = [line for line, _, _ in journal]
        for request in self.requests:
            at = bisect.bisect_right(lines, request.line)
            if request.name:
                text = self.texts[0][self.home[request.line]]
                yield JSON.encode(dict(text.reply_to(request.line), At=at))
            else:
                yield JSON.encode(self.listed(request, at))
        for at, (_, home, place) in enumerate(journal, 1):
            yield JSON.encode(dict(self.texts[0][home].journal[place], At=at))
        yield JSON.encode({"Updates": len(journal)})

    def listed(self, request, at):
        """The reply to a LIST, LISTV1 or NEXT at this place."""
        listing, place = self.of_line[request.line]
        if not listing.query or not listing.pages[place]:
            return {"At": None, "Client": 0, "Line": request.line, "Status": 400}
        number, ranges = listing.pages[place]
        return self.page_of(number, request.line, ranges).reply(at)


class RangeText(Text):
    """The text of a range's session. Its updates are those of the range's first round."""

    def __init__(self, path, text, requests, first):
        super().__init__(path, text, requests)
        self.place = {request.line: place for place, request in enumerate(requests)}
        self.updated = [entry["Line"] for entry in self.journal]
        if first and first.journal != self.journal:
            stop("%s: its journal is not that of %s" % (path, first.path))
        for entry in self.journal:
            if entry["Line"] not in self.place or entry["Verb"] != UPDATES.get(requests[self.place[entry["Line"]]].verb):
                stop("%s: entry %d of its journal is of no update of its session" % (path, entry["At"]))

    def reply_to(self, line):
        """The reply to the request of this line, at the place that the journal asks for."""
        reply = self.reply(self.place[line])
        at = None if reply.get("Status") == 400 else bisect.bisect_right(self.updated, line)
        if reply.get("Status") == 503:
            stop("%s: line %d was refused for want of slots, which each range has for itself" % (self.path, line))
        if reply.get("At", -1) != at:
            stop("%s: the answer to line %d has not the place that its journal asks for" % (self.path, line))
        return reply
