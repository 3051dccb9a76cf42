"""How by_ranges cuts a session of one client into sessions of key ranges, and makes its text of theirs.

A listing is asked in each range that it may touch, with its own query. What it lists is put together of their pages, range by
range, until its page is full. A NEXT asks for the page after a token that only the joined page has. So it is asked as NEXT
in the first range of its listing, whose own page it goes on from where that page was full; where it was not, it becomes a LIST
with the token, in another round, in each range after that token.
"""
import base64
import bisect
import itertools
from urllib.parse import unquote

from session_texts import unescaped

MOST_ENTRIES = 4000000
MOST_OF_A_PAGE = 1000


def bounds_of(requests, count):
    """The lower bounds of all ranges but the first: keys of the session that cut its requests for keys into parts that are about
    as large. There are fewer where one key has the requests of several parts."""
    keys = sorted(request.name.encode() for request in requests if request.name)
    starts = [at for at in range(1, len(keys)) if keys[at] != keys[at - 1]]
    cuts = [bisect.bisect_left(starts, len(keys) * at // count) for at in range(1, count)] if starts else []
    return sorted({keys[starts[min(at, len(starts) - 1)]] for at in cuts})


class Query:
    """The query of a LIST or LISTV1 line, so far as it decides which ranges it touches."""

    def __init__(self, request):
        self.verb = request.verb
        text = request.rest[0] if request.rest else ""
        self.pairs = [pair for pair in text.removeprefix("?").split("&") if pair]
        # A value that is no text is left to the program, which refuses the line.
        self.given = {name: unescaped(value) or "" for name, _, value in (pair.partition("=") for pair in self.pairs)}
        self.url = self.given.get("encoding-type") == "url"

    def most(self):
        most = self.given.get("max-keys", "")
        return min(int(most), MOST_OF_A_PAGE) if most.isascii() and most.isdecimal() else MOST_OF_A_PAGE

    def start(self):
        """A text that is at most each key of the page. What a token says is not looked at."""
        after = self.given.get("marker", "") if self.verb == "LISTV1" else self.given.get("start-after", "")
        return "" if self.given.get("continuation-token") else after

    def touched(self, bounds, start):
        """The ranges that have keys which begin with the prefix and are not below the start. There is at least one."""
        prefix = self.given.get("prefix", "").encode()
        above = prefix[:-1] + bytes([prefix[-1] + 1]) if prefix else None
        last = bisect.bisect_left(bounds, above) if above else len(bounds)
        first = bisect.bisect_right(bounds, max(prefix, start.encode()))
        return range(min(first, last), last + 1)

    def with_token(self, token):
        """The line that asks for the page after this token."""
        kept = [pair for pair in self.pairs if pair.partition("=")[0] != "continuation-token"]
        return "LIST " + "&".join([*kept, "continuation-token=" + token])


def sized(text):
    return b"%04d%s" % (len(text.encode()), text.encode())


class Page:
    """The page that the ranges' replies to one listing make together."""

    def __init__(self, replies):
        """The replies come in the order of their ranges."""
        self.first = next(replies)
        self.plain = unquote if self.first.get("EncodingType") == "url" else str
        self.entries, self.truncated = [], False
        if "Contents" in self.first and not self.first["IsTruncated"]:
            self.join(replies)
        elif "Contents" in self.first:
            # The first range has filled the page.
            self.entries, self.truncated = self.entries_of(self.first), True

    def entries_of(self, reply):
        """The entries in order, each with its bytes, its letter in a token, and how it is shown."""
        keys = [(self.plain(item["Key"]).encode(), b"K", item) for item in reply["Contents"]]
        groups = [(self.plain(item["Prefix"]).encode(), b"P", item) for item in reply["CommonPrefixes"]]
        return sorted(keys + groups, key=lambda entry: entry[:2])

    def join(self, replies):
        most = self.first["MaxKeys"]
        for reply in itertools.chain([self.first], replies):
            entries = self.entries_of(reply)
            # A common prefix that goes on in this range has been listed.
            listed = bool(entries and self.entries and entries[0][:2] == self.entries[-1][:2])
            self.entries += entries[listed:]
            self.truncated = self.truncated or reply["IsTruncated"]
            if len(self.entries) > most or self.truncated:
                break
        self.truncated = most > 0 and (self.truncated or len(self.entries) > most)
        self.entries = self.entries[:most]

    def is_full_in_first(self):
        return self.first.get("IsTruncated", False)

    def last(self):
        """The text of the last entry."""
        return self.entries[-1][0].decode()

    def token(self):
        """The token of the next page, or None where nothing is left."""
        if not self.truncated:
            return None
        text, kind, _ = self.entries[-1]
        bound = sized(self.plain(self.first["Prefix"])) + sized(self.plain(self.first.get("Delimiter", "")))
        return base64.urlsafe_b64encode(b"2" + kind + bound + text).decode().rstrip("=")

    def reply(self, at):
        """The reply's members, with this place."""
        if "Contents" not in self.first:
            return self.first
        members = dict(self.first, At=at, IsTruncated=self.truncated)
        members["Contents"] = [item for _, kind, item in self.entries if kind == b"K"]
        members["CommonPrefixes"] = [item for _, kind, item in self.entries if kind == b"P"]
        if "KeyCount" in members:
            members["KeyCount"] = len(self.entries)
            if self.truncated:
                members["NextContinuationToken"] = self.token()
        elif self.truncated and "Delimiter" in members:
            item = self.entries[-1][2]
            members["NextMarker"] = item.get("Key", item.get("Prefix"))
        return members
