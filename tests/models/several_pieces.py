"""Sessions of one client whose texts are put together in several pieces, and the texts that they get.

A piece has about a mebibyte: `PIECE_BYTES` of crates/run_text/src/pieces.rt. The texts are those of session_model.py.
"""
from session_model import answers

PIECE = 1 << 20


def name(number, length):
    return ("pieces/%06d/" % number).ljust(length, "p")


def puts(names):
    return ["PUT %s %d e%d %d" % (key, number, number, number) for number, key in enumerate(names)]


def checked(lines):
    """The input of these lines, and its text, which has several pieces."""
    raw = ("CLIENT\n" + "\n".join(lines) + "\n").encode()
    text = answers(raw)
    text = text.encode() if isinstance(text, str) else text
    assert len(text) > 3 * PIECE, "the text has %d bytes" % len(text)
    return raw, text


def long_lines(listings=150, names=100):
    """A few lines, most of which list all names."""
    return checked(puts(name(number, 250) for number in range(names)) + ["LIST"] * listings)


def short_lines(count=40000, names=1000):
    """Many lines, each of which is short next to the buffer of the output."""
    keys = [name(number, 60) for number in range(names)]
    return checked(puts(keys) + ["HEAD " + keys[number * 7 % names] for number in range(count)])
