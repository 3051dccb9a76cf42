"""Sessions that break the grammar, and sessions at its limits: no program of its own.

`random_sessions.py --hostile` takes its sessions from here. How each is to end says the model in session_model.py.
"""
from session_model import Refused, answers

MOST_BYTES = 64 * 1024 * 1024
MOST_CLIENTS = 32
MOST_LINES = 200_000
MOST_KEY_BYTES = 1024

CAUSES = [
    "NotUtf8", "UnknownVerb", "WrongFields", "BadEscape", "EmptyKey", "KeyTooLong", "BadNumber", "NumberTooLarge",
    "BadEtag", "UnknownParameter", "RepeatedParameter", "BadListType", "BadMaxKeys", "BadEncoding", "BadFetchOwner",
    "NoClient", "TooManyClients", "TooManyLines", "TooManyEntries",
]


def outcome(session):
    """The exit status, the standard output and the standard error that the definitions want. The output is None where
    it depends on the schedule."""
    if len(session) > MOST_BYTES:
        return 4, "", "bucketidx: input too long\n"
    try:
        return 0, answers(session), ""
    except Refused as refusal:
        return 3, "", "bucketidx: %s\n" % refusal


# ---- sessions that break it

FAULTY_LINES = [
    b"HEAD \xff", b"PUT \xc3( 1 e 1", b"GET a", b"head a", b" HEAD a", b"\rLIST", b"PUT a 1 e1", b"PUTNEW a 1 e1", b"HEAD", b"NEXT 1",
    b"PUT a%2 1 e1 1", b"HEAD %FF", b"LIST prefix=%zz", b"LIST marker=%", b"HEAD a%", b"PUT  1 e1 1", b"DELETE ",
    b"PUT a x e1 1", b"PUT a +1 e1 1", b"PUT a 1 e1 ", b"PUT a 18446744073709551616 e1 1", b"PUT a 1 e1 99999999999999999999999",
    b"PUT a 1 e! 1", b'PUT a 1 "" 1', b'PUT a 1 "e 1', b"PUT a 1 %65 1", b"LIST marker=a", b"LIST =a", b"LIST Prefix=a",
    b"LIST prefix=a&prefix=b", b"LIST max-keys=1&prefix=a&max-keys=1", b"LIST list-type=1", b"LIST list-type=",
    b"LIST max-keys=-1", b"LIST max-keys=", b"LIST max-keys=2147483648", b"LIST encoding-type=gzip", b"LIST encoding-type=URL",
    b"LIST fetch-owner=yes", b"LIST ??prefix=a", b"LISTV1 list-type=2", b"LISTV1 start-after=a", b"LISTV1 marker=a&marker=a",
    b"LISTV1 continuation-token=S2E", b"LISTV1 fetch-owner=true", b"LISTV1 marker=%zz", b"LISTV1 max-keys=x", b"LISTV1 encoding-type=gzip",
    b"LISTV1 a b", b"LISTV2", b"listv1", b"LISTV1 =", b"LISTV1 marker=" + b"k" * 1025, b"LISTV1 start-after=" + b"k" * 1025,
    b"LISTV1 x&delimiter=" + b"k" * 1025, b"LIST marker=" + b"k" * 1025, b"LIST max-keys=x&fetch-owner=yes", b"CLIENT", b"CLIENT 1",
    b"HEAD " + b"k" * 1025, b"LIST delimiter=" + b"%c3%a9" * 513,
]
NASTY = [b"%", b" ", b"\xff", b"\x80", b"\n", b"\r", b"&", b"=", b'"', b"\x00", b"+", b"?", b"%2", b"\n\n", b"\r\n", b"9"]


def broken(rng, session):
    """The session with a faulty line, or with some bytes changed, put in, taken out or cut off."""
    lines = session.split(b"\n")
    if rng.random() < 0.4:
        place = rng.randint(0, len(lines) - 1)
        lines.insert(place, rng.choice(FAULTY_LINES))
        return b"\n".join(lines)
    if rng.random() < 0.1:
        return b"\n".join(lines[1:])
    if rng.random() < 0.1:
        return (b"\r\n" if rng.random() < 0.5 else b"\n\n").join(lines)
    for _ in range(rng.randint(1, 3)):
        place = rng.randint(0, len(session))
        kind = rng.randint(0, 3)
        put_in = rng.choice(NASTY) if kind < 2 else b""
        taken_out = rng.randint(1, 3) if kind == 1 or kind == 2 else 0
        session = session[:place] + put_in + (session[place + taken_out :] if kind < 3 else b"")
    return session


def limit_sessions():
    """Sessions at each limit: one below, at it, and one above."""
    head = b"CLIENT\nPUT a 1 e1 1\nPUT b 2 e2 2\n"
    for step in (-1, 0, 1):
        start = b"CLIENT\nLIST continuation-token="
        yield start + b"A" * (MOST_BYTES + step - len(start))
        key = b"k" * (MOST_KEY_BYTES + step)
        yield head + b"PUT " + key + b" 1 e1 1\nHEAD " + key + b"\n"
        for name in (b"prefix", b"delimiter", b"start-after"):
            yield head + b"LIST " + name + b"=" + key + b"\n"
        yield head + b"LIST max-keys=%d\n" % (1000 + step)
        yield head + b"LIST max-keys=%d\n" % (2**31 - 1 + step)
        yield head + b"PUT c %d e1 1\nHEAD c\n" % (2**64 - 1 + step)
        yield head + b"PUT c 1 e1 %d\nHEAD c\n" % (2**64 - 1 + step)
        yield head + b"PUT c 1 " + b"e" * (64 + step) + b" 1\n"
        yield b"CLIENT\n" * (MOST_CLIENTS + step) + b"\n"
        yield b"CLIENT\n" + b"HEAD a\n" * (MOST_LINES + step)
        yield b"CLIENT\n" + b"LIST\n" * 3999 + b"LIST max-keys=%d\nNEXT\n" % (500 if step < 1 else 501) + (
            b"" if step < 0 else b"LIST max-keys=0\nNEXT\n"
        )
        yield b"CLIENT\n" + b"LIST max-keys=1000\n" * 3999 + b"LIST max-keys=999\nLIST max-keys=%d\n" % (step + 1)
    yield b"CLIENT\n" + b"LIST max-keys=1000\n" * 4000 + b"LIST max-keys=1\n"
