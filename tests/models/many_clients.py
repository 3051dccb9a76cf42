"""Sessions of several clients over the same names: random ones, and two that are always the same."""
from bucket_model import base64url, token_text

MOST_REQUESTS = 200_000
MOST_LISTED = 4_000_000


def random_session(rng, options):
    """A session of several clients over the same names, few or many of them. It stays below each limit: its pages are
    the smaller the more requests it has."""
    count = options.names if options.whole else min(rng.choice([1, 2, 3, 10, 200]), options.names)
    names = ["".join(rng.choice("abc/é") for _ in range(rng.randint(1, 6))) for _ in range(count)]
    clients = options.most_clients if options.whole else rng.randint(options.least_clients, options.most_clients)
    most = min(options.requests, MOST_REQUESTS // clients)
    counts = [most if options.whole else rng.randint(0, most) for _ in range(clients)]
    most_keys = min(1000, MOST_LISTED // max(1, sum(counts)))
    parts = []
    for count in counts:
        parts.append("CLIENT")
        parts += [random_line(rng, names, most_keys) for _ in range(count)]
    return "".join(line + "\n" for line in parts).encode()


def rounds_session(rounds):
    """Two clients that put the same seven names, list them and remove them, each so many times. No two puts are
    alike."""
    names, lines = "abcdefg", []
    for client in range(2):
        lines.append("CLIENT")
        for turn in range(rounds):
            lines += ["PUT %s %d e%d %d" % (name, turn, client, at) for at, name in enumerate(names)]
            lines += ["LIST"] + ["DELETE " + name for name in names]
    return "".join(line + "\n" for line in lines).encode()


def contending_session(contenders):
    """Clients that put one name once, each where it is not there."""
    return "".join("CLIENT\nPUTNEW lease 1 e%d 1\n" % client for client in range(contenders)).encode()


def random_line(rng, names, most_keys):
    name = rng.choice(names)
    kind = rng.random()
    if kind < 0.5:
        verb = "PUTNEW" if kind < 1 / 3 else "PUT"
        return "%s %s %d e%d %d" % (verb, name, rng.randint(0, 99), rng.randint(0, 9), rng.randint(0, 99))
    if kind < 0.7:
        return "DELETE " + name
    if kind < 0.8:
        return "HEAD " + name
    if kind < 0.88:
        return "NEXT"
    query = []
    if most_keys < 1000 or rng.random() < 0.7:
        query.append("max-keys=%d" % rng.choice([0, 1, 1, 2, 3, most_keys]))
    if rng.random() < 0.4:
        query.append("delimiter=" + rng.choice("/a"))
    if rng.random() < 0.3:
        query.append("prefix=" + rng.choice("abc"))
    if kind < 0.91:
        if rng.random() < 0.5:
            query.append("marker=" + rng.choice([name, name[:2]]))
        return "LISTV1 " + "&".join(query) if query else "LISTV1"
    if rng.random() < 0.2:
        query.append("start-after=" + name)
    if rng.random() < 0.2:
        entry = rng.choice([(b"K", name.encode()), (b"P", name[:1].encode())])
        bound = token_text(entry, rng.choice(["", "", "a", "b", "c"]), rng.choice(["", "/", "a"]))
        token = rng.choice([base64url(b"".join(entry)), bound, bound, "UA", "*"])
        query.append("continuation-token=" + token)
    if rng.random() < 0.2:
        query.append("encoding-type=url")
    return "LIST " + "&".join(query) if query else "LIST"
