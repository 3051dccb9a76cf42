#!/usr/bin/env python3
"""Gives the program an input in pieces, one that fails, and an output that fails: what it writes then, and how it ends.

    tests/program/broken_streams.py PROGRAM

The session is the first of rows.txt, whose whole text stands there, handwritten.

- Pieces: the text does not depend on how many bytes a read gives.
- Reads: the input fails after each piece, also after the last one. Nothing is written then.
- Writes: the output takes so many bytes and no more, for each number of them. Just these were written.
- Lines: they are kept back until there are some kilobytes of them, and all have been written at the end. Those of a
  piece of a long text come by one write.
- Check: the same pieces, reads and writes where the session and its text are checked.
- Several pieces: the same of texts that are put together in several pieces, on threads. The output fails at each line,
  at its first byte and in its middle.
"""
import argparse
import fcntl
import os
import resource
import signal
import socket
import subprocess
import sys
import tempfile
import termios
import time
from pathlib import Path

sys.path.insert(0, str(Path(__file__).resolve().parent.parent / "models"))
from rows import SESSIONS, sessions
from several_pieces import long_lines, short_lines

PIECES = [1, 7, 10, 1000]
DONE = (0, "")
READ_FAULT = (5, "bucketidx: read fault\n")
WRITE_FAULT = (6, "bucketidx: write fault\n")


def whole_session():
    """The session, and its text as one piece of bytes."""
    row = next(sessions(SESSIONS.read_text()))
    places = sorted(row.lines)
    if places != list(range(1, len(places) + 1)):
        sys.exit("the first session of rows.txt lacks a line of its text")
    return row.raw, "".join(row.lines[place] + "\n" for place in places).encode()


def cut(raw, step):
    return [raw[at : at + step] for at in range(0, len(raw), step)]


def all_read(given):
    """Waits until the program has read all that was sent."""
    left = bytearray(4)
    while True:
        fcntl.ioctl(given, termios.TIOCOUTQ, left)
        if not any(left):
            return
        time.sleep(0.0002)


def from_pieces(program, pieces, fails, form="run"):
    """How a run ends whose reads give these pieces, and then fail or find the end; and what it has written."""
    given, taken = socket.socketpair()
    # A socket that is closed with bytes that were not read has the other one's reads fail.
    if fails:
        taken.send(b"!")
    ran = subprocess.Popen([program, form], stdin=taken.fileno(), stdout=subprocess.PIPE, stderr=subprocess.PIPE)
    taken.close()
    for piece in pieces:
        given.sendall(piece)
        all_read(given)
    given.close()
    text, said = ran.communicate()
    return (ran.returncode, said.decode()), text


def into_room(program, raw, room, form="run"):
    """How a run ends whose output is a file that takes so many bytes; and what was written."""

    def limited():
        # Without the signal a write beyond the limit fails.
        signal.signal(signal.SIGXFSZ, signal.SIG_IGN)
        resource.setrlimit(resource.RLIMIT_FSIZE, (room, room))

    with tempfile.TemporaryFile() as file:
        ran = subprocess.run([program, form], input=raw, stdout=file, stderr=subprocess.PIPE, preexec_fn=limited)
        file.seek(0)
        return (ran.returncode, ran.stderr.decode()), file.read()


def writes_of(program, raw, form="run"):
    """The bytes of each write of a run, or of each page of 4,096 of them. Such a pipe keeps them apart."""
    end, start = os.pipe2(os.O_DIRECT)
    ran = subprocess.Popen([program, form], stdin=subprocess.PIPE, stdout=start, stderr=subprocess.DEVNULL)
    os.close(start)
    ran.stdin.write(raw)
    ran.stdin.close()
    writes = list(iter(lambda: os.read(end, 65536), b""))
    os.close(end)
    ran.wait()
    return writes


def are_few(writes, text):
    """Whether the writes give the text, and one of each two that follow one another takes half a page at least."""
    sizes = [len(write) for write in writes]
    return b"".join(writes) == text and all(one + next >= 4096 for one, next in zip(sizes[:-2], sizes[1:-1]))


def come_in_pieces(writes, text):
    """Whether the writes give the text, and few of them end within a page: a write has many long lines."""
    ends = sum(len(write) != 4096 for write in writes)
    return b"".join(writes) == text and ends <= len(text) // 2**19 + 2


def rooms_of_lines(text):
    """How much is written where the write of a line fails, or ends in the middle of the line."""
    start = 0
    for line in text.splitlines(keepends=True):
        yield start
        yield start + len(line) // 2
        start += len(line)


def compared_by(program, form, raw, text, done):
    """What was tried of a form, what came of it, and what was wanted."""
    for step in PIECES:
        yield "%s: pieces of %d bytes" % (form, step), from_pieces(program, cut(raw, step), False, form), (done, text)
    pieces = cut(raw, 10)
    for count in range(len(pieces) + 1):
        yield "%s: a read that fails after %d pieces" % (form, count), from_pieces(program, pieces[:count], True, form), (READ_FAULT, b"")
    for room in range(len(text)):
        yield "%s: room for %d bytes" % (form, room), into_room(program, raw, room, form), (WRITE_FAULT, text[:room])
    yield form + ": room for all bytes", into_room(program, raw, len(text), form), (done, text)
    yield form + ": one write", writes_of(program, raw, form), [text]


def compared(program):
    """What was tried, what came of it, and what was wanted."""
    raw, text = whole_session()
    yield from compared_by(program, "run", raw, text, DONE)
    yield from compared_by(program, "check", raw + b"----\n" + text, b'{"Legal":true}\n', DONE)
    wrong = raw + b"----\n" + text.replace(b"false", b"true", 1)
    yield from compared_by(program, "check", wrong, b'{"Legal":false,"Wrong":1}\n', (8, "bucketidx: wrong line 1\n"))
    raw, text = short_lines()
    yield "few writes, in several pieces", are_few(writes_of(program, raw), text), True
    raw, text = long_lines()
    yield "long lines, in several pieces", come_in_pieces(writes_of(program, raw), text), True
    for room in rooms_of_lines(text):
        yield "several pieces and room for %d bytes" % room, into_room(program, raw, room), (WRITE_FAULT, text[:room])
    yield "several pieces and room for all bytes", into_room(program, raw, len(text)), (DONE, text)


def main():
    parser = argparse.ArgumentParser(description=__doc__.split("\n")[0])
    parser.add_argument("program")
    program = parser.parse_args().program
    tried = 0
    for what, got, wanted in compared(program):
        if got != wanted:
            sys.exit("%s\n  got    %.2000r\n  wanted %.2000r" % (what, got, wanted))
        tried += 1
    print("broken streams: %d runs ended as wanted" % tried, file=sys.stderr)


if __name__ == "__main__":
    main()
