"""Random sessions of one client, each with the model that was given its requests."""
from bucket_model import Model, base64url, token_text

LETTERS = ["a", "b", "/", "/", "é", "€", "+", '"', "\\", "😀", "\x01", "\x7f", " ", "&", "%", "="]


class Session:
    """A random session: its text, and the model that was given each request. `with_token` is the share of its listings
    that have a token."""

    def __init__(self, rng, with_token=0.3):
        self.rng, self.model, self.lines = rng, Model(), ["CLIENT"]
        self.with_token = with_token
        self.names = [self.word(1, 5) for _ in range(rng.randint(1, 25))]
        asks = [self.put] * 30 + [self.putnew] * 10 + [self.delete] * 10 + [self.head] * 8 + [self.list] * 22 + [self.next] * 20 + [self.listv1] * 16
        for _ in range(rng.randint(1, 60)):
            rng.choice(asks)()

    def word(self, low, high):
        return "".join(self.rng.choice(LETTERS) for _ in range(self.rng.randint(low, high)))

    def name(self):
        return self.rng.choice(self.names) if self.rng.random() < 0.9 else self.word(1, 4)

    def escaped(self, text):
        """The text with some of its characters escaped, and those that a line cannot have as they are."""
        form = self.rng.choice(["%%%02x", "%%%02X"])
        return "".join(
            c if c not in " %&" and self.rng.random() < 0.5 else "".join(form % byte for byte in c.encode())
            for c in text
        )

    def ask(self, text):
        self.lines.append(text)
        return len(self.lines)

    def put(self):
        self.put_by("PUT", self.model.put)

    def putnew(self):
        self.put_by("PUTNEW", self.model.putnew)

    def put_by(self, verb, tell):
        name, etag = self.name(), "e%d" % self.rng.randint(0, 9)
        size, modified = self.rng.choice([0, self.rng.randint(0, 99), 2**64 - 1]), self.rng.randint(0, 99)
        shown = etag if self.rng.random() < 0.7 else '"%s"' % etag
        line = self.ask("%s %s %d %s %d" % (verb, self.escaped(name), size, shown, modified))
        tell(line, name, size, etag, modified)

    def delete(self):
        name = self.name()
        self.model.delete(self.ask("DELETE " + self.escaped(name)), name)

    def head(self):
        name = self.name()
        self.model.head(self.ask("HEAD " + self.escaped(name)), name)

    def next(self):
        self.model.next(self.ask("NEXT"))

    def token(self, query):
        """A token for the query: its own or that of another listing, in both forms, or one that is broken."""
        rng = self.rng
        name, group = self.name().encode(), self.word(1, 2).encode()
        kind, text = entry = rng.choice([(b"K", name), (b"P", name), (b"P", group)])
        prefix, delimiter = query["prefix"], query["delimiter"]
        own = self.model.next_token or token_text(entry, prefix, delimiter)
        other = token_text(entry, *rng.choice([(prefix, self.word(0, 2)), (self.word(0, 2), delimiter), (delimiter, prefix), ("", "")]))
        whole = token_text(entry, prefix, delimiter)
        free = base64url(kind + text)
        bad = [base64url(b"X" + name), base64url(b"K\xff"), "UA", "S2F", "UGEv=", "S", "*", "Mg", ""]
        return rng.choice([own, other, whole, whole, free, free, rng.choice(bad), self.broken(whole), self.misfit(entry, query)])

    def broken(self, token):
        """The token cut, longer, or with one letter changed."""
        rng, letters = self.rng, "ABKMPSZagw019-_"
        place = rng.randrange(len(token))
        return rng.choice([
            token[:place], token[: -rng.randint(1, 3)], token + rng.choice(letters), token + rng.choice(letters + "=") * 4,
            token[:place] + rng.choice(letters) + token[place + 1 :], token[:place] + rng.choice(letters) + token[place:],
            token[:place] + token[place + 1 :],
        ])

    def misfit(self, entry, query):
        """The query's token with a length that does not fit, or that is not four digits, or with another text of 1,024
        bytes and more."""
        rng, (kind, text) = self.rng, entry
        fields = [query["prefix"].encode(), query["delimiter"].encode()]
        lengths = [len(field) for field in fields]
        which, form = rng.randrange(2), "%04d"
        if rng.random() < 0.4:
            lengths[which] = rng.choice([max(lengths[which] - 1, 0), lengths[which] + 1, 1024, 1025, 9999])
        elif rng.random() < 0.4:
            fields[which] = b"x" * rng.choice([1024, 1024, 1025])
            lengths[which] = len(fields[which])
        else:
            form = rng.choice(["%4d", "%+04d", "%d", "%03d", "%05d", "%04x", "%-4d"])
        raw = b"2" + kind
        for place, (field, length) in enumerate(zip(fields, lengths)):
            raw += ((form if place == which else "%04d") % length).encode() + field
        return base64url(raw + text)

    def list(self):
        rng = self.rng
        query = dict(prefix="", delimiter="", start_after="", token="", max_keys=1000, url=False)
        written = self.bounds(query)
        if rng.random() < 0.3:
            query["start_after"] = rng.choice([self.name(), self.word(0, 3)])
            written.append("start-after=" + self.escaped(query["start_after"]))
        if rng.random() < self.with_token:
            query["token"] = self.token(query)
            written.append("continuation-token=" + query["token"])
        if rng.random() < 0.1:
            written.append("fetch-owner=true")
        self.model.list(self.ask_query("LIST", written), query)

    def listv1(self):
        rng = self.rng
        query = dict(prefix="", delimiter="", marker="", max_keys=1000, url=False)
        written = self.bounds(query)
        if rng.random() < 0.7:
            name = self.name()
            cut = name[: name.find(query["delimiter"]) + len(query["delimiter"])] if query["delimiter"] in name else name
            # Mostly where the page before ended, or the common prefix of a name, which the prefix may not begin.
            query["marker"] = rng.choice([self.model.next_marker or name, cut, cut, query["prefix"] + cut, self.word(0, 3)])[:250]
            written.append("marker=" + self.escaped(query["marker"]))
        self.model.listv1(self.ask_query("LISTV1", written), query)

    def ask_query(self, verb, written):
        self.rng.shuffle(written)
        mark = self.rng.choice(["", "?"])
        return self.ask(verb + " " + mark + "&".join(written) if written else verb)

    def bounds(self, query):
        """The parameters that both verbs have, put into the query; and as they are written."""
        rng, written = self.rng, []
        if rng.random() < 0.01:
            query["delimiter"] = rng.choice("/é") * 512 * rng.randint(1, 2)
            query["delimiter"] = query["delimiter"].encode()[:1024].decode()
            written.append("delimiter=" + self.escaped(query["delimiter"]))
        elif rng.random() < 0.6:
            query["delimiter"] = rng.choice(["/", "/", self.word(0, 2)])
            written.append("delimiter=" + self.escaped(query["delimiter"]))
        if rng.random() < 0.01:
            query["prefix"] = rng.choice(LETTERS[:3]) * 1024
            written.append("prefix=" + self.escaped(query["prefix"]))
        elif rng.random() < 0.4:
            query["prefix"] = rng.choice([self.word(0, 2), self.name()[:1]])
            written.append("prefix=" + self.escaped(query["prefix"]))
        if rng.random() < 0.75:
            most = rng.choice([0, 1, 1, 1, 2, 2, 3, 5, 2000])
            query["max_keys"] = min(most, 1000)
            written.append("max-keys=%d" % most)
        if rng.random() < 0.3:
            query["url"] = True
            written.append("encoding-type=url")
        return written

    def input(self):
        return "".join(line + "\n" for line in self.lines)
