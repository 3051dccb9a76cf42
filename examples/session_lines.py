"""How a record is written as a line of a session, and what the scripts next to it share."""
import random
import re
import signal
import sys

# What a session takes: docs/FORMAT.md.
MOST_REQUESTS = 200000
MOST_BYTES = 64 * 1024 * 1024
HELP = {"--help", "-h"}


def stop(why):
    """Ends the script with one line on standard error."""
    sys.exit("%s: %s" % (sys.argv[0].rpartition("/")[2], why))


def ready(about):
    """Prints what the script is for, where a word asks for help. Else it writes UTF-8 and LF from now on, and a reader
    that has enough, such as `head`, ends it without a word."""
    if HELP.intersection(sys.argv[1:]):
        print(about.strip())
        sys.exit()
    sys.stdin.reconfigure(encoding="utf-8")
    sys.stdout.reconfigure(encoding="utf-8", newline="\n")
    if hasattr(signal, "SIGPIPE"):
        signal.signal(signal.SIGPIPE, signal.SIG_DFL)


def escaped(name):
    """The name as a field of a line: `%`, spaces and control characters are escaped."""
    return re.sub(r"[\x00-\x20%\x7f]", lambda found: "%%%02X" % ord(found.group()), name)


def put_line(name, size, etag, modified):
    """The PUT line of a record, or None, with a note on standard error, where a session cannot have it."""
    bare = etag.strip('"')
    fault = (
        "its name is empty" if not name
        else "its name has more than 1024 bytes" if len(name.encode()) > 1024
        else "its tag is not 1 to 64 letters, digits and -" if not re.fullmatch("[A-Za-z0-9-]{1,64}", bare)
        else "its time is before 1970" if modified < 0
        else None
    )
    if fault:
        print("left out %r: %s" % (name, fault), file=sys.stderr)
        return None
    return "PUT %s %d %s %d" % (escaped(name), size, bare, modified)


def take_wide():
    """Takes the word --wide out of the words, and tells whether it was there."""
    wide = "--wide" in sys.argv[1:]
    sys.argv[1:] = [word for word in sys.argv[1:] if word != "--wide"]
    return wide


def print_session(lines, wide=False):
    """Prints a session of one client with these PUT lines, in an order that looks random and is always the same. The index
    keeps its keys in a tree that is not balanced: names that are put in rising order make it as deep as it can be.

    Prints nothing where there are more lines than a session takes, unless it may be wide: by_ranges splits such a session.
    The requests after them count too."""
    lines = [line for line in lines if line]
    random.Random(1).shuffle(lines)
    session = "\n".join(["CLIENT", *lines, ""])
    if wide:
        print(session, end="")
        return
    if len(lines) > MOST_REQUESTS:
        stop("%d names, and a session takes at most %d requests: take a part of them" % (len(lines), MOST_REQUESTS))
    if len(session.encode()) > MOST_BYTES:
        stop("a session has at most %d bytes, and this one would have more: take a part of the names" % MOST_BYTES)
    print(session, end="")
