#!/usr/bin/env python3
"""Draws the pictures of the documents, docs/*.svg.

    docs/pictures.py            draws them
    docs/pictures.py --check    says whether they are as drawn here

The picture of the floors is made from crates.txt, and the files in that of the headline are those of TRUSTED.md.
Colours follow the reader's light or dark scheme.
"""
import argparse
import re
import sys
from pathlib import Path

DOCS = Path(__file__).resolve().parent
STYLE = """
.t{fill:#24292f}.s{fill:#57606a}.b{font-weight:600}.m{font-family:ui-monospace,monospace}
.box{fill:#f6f8fa;stroke:#8c959f}.key{fill:#ddf4ff;stroke:#218bff}.good{fill:#dafbe1;stroke:#2da44e}
.warn{fill:#fff8c5;stroke:#bf8700}.line{fill:none;stroke:#6e7781}.dash{fill:none;stroke:#6e7781;stroke-dasharray:4 4}
.head{fill:#6e7781}.span{fill:none;stroke:#218bff}
@media (prefers-color-scheme:dark){
.t{fill:#e6edf3}.s{fill:#9ea7b3}.box{fill:#21262d;stroke:#6e7681}.key{fill:#10304f;stroke:#58a6ff}
.good{fill:#12361f;stroke:#3fb950}.warn{fill:#3b2f0b;stroke:#d29922}.line,.dash{stroke:#8b949e}.head{fill:#8b949e}
.span{stroke:#58a6ff}}
"""


class Picture:
    """Shapes and texts, by their places in units of one pixel."""

    def __init__(self, width, height, title):
        self.width, self.height, self.title, self.parts = width, height, title, []

    def box(self, x, y, width, height, kind="box"):
        shape = '<rect x="%g" y="%g" width="%g" height="%g" rx="5" class="%s"/>'
        self.parts.append(shape % (x, y, width, height, kind))

    def text(self, x, y, text, kind="t", size=12, anchor="middle"):
        escaped = text.replace("&", "&amp;").replace("<", "&lt;")
        shape = '<text x="%g" y="%g" class="%s" font-size="%g" text-anchor="%s">%s</text>'
        self.parts.append(shape % (x, y, kind, size, anchor, escaped))

    def labelled(self, x, y, width, height, lines, kind="box"):
        """A box with lines of text in its middle, each a text or a text with its kind and size."""
        self.box(x, y, width, height, kind)
        lines = [line if isinstance(line, tuple) else (line, "t", 12) for line in lines]
        step = 16
        first = y + height / 2 - step * (len(lines) - 1) / 2 + 4
        for at, (text, style, size) in enumerate(lines):
            self.text(x + width / 2, first + step * at, text, style, size)

    def line(self, x, y, to_x, to_y, kind="line"):
        self.parts.append('<path d="M%g %gL%g %g" class="%s"/>' % (x, y, to_x, to_y, kind))

    def arrow(self, x, y, to_x, to_y):
        self.line(x, y, to_x, to_y)
        length = ((to_x - x) ** 2 + (to_y - y) ** 2) ** 0.5
        along, across = ((to_x - x) / length, (to_y - y) / length), ((y - to_y) / length, (to_x - x) / length)
        corners = [(to_x - 7 * along[0] + side * 3.5 * across[0], to_y - 7 * along[1] + side * 3.5 * across[1]) for side in (1, -1)]
        self.parts.append('<path d="M%.1f %.1fL%.1f %.1fL%.1f %.1fZ" class="head"/>' % (to_x, to_y, *corners[0], *corners[1]))

    def svg(self):
        head = '<svg xmlns="http://www.w3.org/2000/svg" viewBox="0 0 %d %d" width="%d" height="%d" role="img" font-family="system-ui,sans-serif">'
        head = head % (self.width, self.height, self.width, self.height)
        style = re.sub(r"\n", "", STYLE)
        return "\n".join([head, "<title>%s</title>" % self.title, "<style>%s</style>" % style, *self.parts, "</svg>"]) + "\n"


MONO, SMALL = "t m", "s"


def history():
    """The session of README: the journal, and each answer at its place."""
    p = Picture(800, 226, "A journal of three changes, and each answer at its place")
    updates = [("PUT", "…/January/", "sample.jpg"), ("PUT", "photos/2006/", "index.html"), ("DELETE", "photos/2006/", "index.html")]
    p.text(10, 22, "the journal", "s", 12, "start")
    left, step = 60, 224
    for at, (verb, folder, name) in enumerate(updates):
        x = left + step * at
        lines = [(str(at + 1) + "  " + verb, "t b", 13)] + [(part, "t m", 11) for part in (folder, name) if part]
        p.labelled(x + 30, 34, step - 60, 64, lines)
    p.text(10, 160, "the answers, each at its", "s", 12, "start")
    p.text(10, 176, "place: it is true after", "s", 12, "start")
    p.text(10, 192, "so many changes", "s", 12, "start")
    for at in range(len(updates) + 1):
        x = left + step * at
        p.line(x, 34, x, 114, "dash")
        p.text(x, 130, str(at), "t b", 13)
    answers = {
        1: [("line 2  PUT", "200")],
        2: [("line 3  PUT", "200"), ("line 4  LIST", "200")],
        3: [("line 5  DELETE", "204"), ("line 6  HEAD", "404")],
    }
    for place, rows in answers.items():
        for row, (line, status) in enumerate(rows):
            kind = "key" if "LIST" in line else "box"
            p.labelled(left + step * place - 64, 142 + 30 * row, 128, 24, [(line + "  " + status, "t", 12)], kind)
    p.text(left + 2 * step, 218, "the page is read from the bucket after these two changes, and from no other moment", "s", 12)
    return p


# The files that the headline rests on, by crate, below the part of it that they say. Those of the generated session
# and of checks are not in the picture.
PARTS = [
    ("HasRead, IsTaken", ["the word run; the bytes", "read, and those written"], ["command_words", "outside_io"]),
    ("IsSessionOf", ["the session that", "the input's text says"], ["request_lines", "line_grammar"]),
    ("IsLegal", ["one journal; each answer", "right at its place"], ["bucket_terms", "key_map", "key_names"]),
    ("session_text", ["its lines of JSON,", "byte for byte"], ["answer_text"]),
]
TOP_FILES = "serve_session"
OF_OTHER_FORMS = re.compile("Sampl|Summar|Check|WrongLine")


def trusted():
    """The definition files that TRUSTED.md lists, by crate, without those of the forms `sample` and `check` alone."""
    found = {}
    for crate, name in re.findall(r"^\d+\. `crates/(\w+)/specs/(\w+)\.antt`", (DOCS / "TRUSTED.md").read_text(), re.M):
        if not OF_OTHER_FORMS.search(name):
            found.setdefault(crate, []).append(name)
    return found


def wrapped(words, most):
    """Lines of words with commas between, each line at most so long."""
    lines = [""]
    for at, word in enumerate(words):
        word += "," * (at + 1 < len(words))
        fits = len(lines[-1]) + 1 + len(word) <= most
        lines[-1:] = [(lines[-1] + " " + word).strip()] if fits else [lines[-1], word]
    return lines


def headline():
    files = trusted()
    lacking = set(files) - {TOP_FILES} - {crate for _, _, crates in PARTS for crate in crates}
    if lacking:
        sys.exit("docs/pictures.py: the picture of the headline has no place for the files of " + ", ".join(sorted(lacking)))
    columns = []
    for name, about, crates in PARTS:
        lines = []
        for crate in crates:
            if crate in files:
                lines += [(crate + "/specs", "s m", 11)] + [(line, "t", 12) for line in wrapped(files[crate], 26)]
        columns.append((name, about, lines))
    tallest = max(len(lines) for _, _, lines in columns) * 16 + 20
    p = Picture(800, 320 + tallest, "From the headline down to the files of its definitions")
    p.labelled(220, 12, 360, 46, [("clause headline of serve", "t b", 13), ("crates/serve_session/src/serving.rt", "s m", 11)], "good")
    p.arrow(400, 58, 400, 92)
    p.labelled(150, 92, 500, 78, [
        ("HoldsOfInput", "t b", 13), ("some session and one legal run of it: the input is the one,", "t", 12),
        ("what was written is the text of the other", "t", 12), ("serve_session/specs: " + ", ".join(files[TOP_FILES]), "s m", 11)], "key")
    for at, (name, about, lines) in enumerate(columns):
        x = 14 + 196 * at
        p.arrow(250 + 100 * at, 170, x + 92, 212)
        p.labelled(x, 212, 184, 64, [(name, "t b", 13), *about], "key")
        p.arrow(x + 92, 276, x + 92, 304)
        p.labelled(x, 304, 184, tallest, lines)
    return p


def grace():
    p = Picture(800, 300, "A grace period in time")
    rows = [("pass 0 removes a node", 78), ("pass 1", 148), ("pass 2", 218)]
    for name, y in rows:
        p.text(12, y + 4, name, "t", 12, "start")
        p.line(170, y, 780, y, "line")
    p.text(12, 262, "the node's slot", "t", 12, "start")

    def section(y, start, end, word, after):
        p.box(start, y - 13, end - start, 26, "box")
        p.text((start + end) / 2, y + 4, "reads; word " + word, "t", 11)
        p.text(end + 7, y + 4 - 14, after, "s", 11, "start")

    section(148, 190, 300, "5", "6")
    section(218, 205, 520, "9", "10")
    section(218, 590, 760, "11", "")
    events = [(240, "raise: takes", "it out"), (330, "makes it", "the batch"), (440, "looks at 1 and 2:", "finds 6 and 9"), (625, "looks at 2:", "finds 11")]
    for x, first, second in events:
        p.line(x, 70, x, 86, "line")
        p.text(x, 42, first, "t", 11)
        p.text(x, 57, second, "t", 11)
    p.line(440, 86, 440, 218, "dash")
    p.line(625, 86, 625, 218, "dash")
    p.text(447, 120, "6 is even: pass 1 is outside", "s", 11, "start")
    p.text(447, 190, "9 is odd: not yet", "s", 11, "start")
    p.text(632, 187, "not 9: it has been", "s", 11, "start")
    p.text(632, 200, "outside since", "s", 11, "start")
    for start, end, name, kind in [(170, 240, "linked", "box"), (240, 330, "retired", "warn"), (330, 625, "in the batch: waits for all other passes", "warn"), (625, 780, "free again", "good")]:
        p.labelled(start, 246, end - start, 26, [(name, "t", 11)], kind)
    p.text(780, 292, "time", "s", 11, "end")
    return p


def prune():
    p = Picture(800, 356, "A cut next to a reader that announces late, and one that reads at an older number")
    rows = [("the stamp", 27), ("pass 0 cuts", 87), ("pass 1 comes late", 163), ("pass 2 reads", 227)]
    for name, y in rows:
        p.text(12, y + 4, name, "t", 12, "start")
        p.line(170, y, 780, y, "line")
    for start, end, name in [(170, 455, "7"), (455, 780, "8")]:
        p.labelled(start, 14, end - start, 26, [(name, "t b", 12)])

    def event(x, y, first, second=""):
        p.line(x, y - 8, x, y + 8, "line")
        p.text(x, y - 28 if second else y - 14, first, "t", 11)
        if second:
            p.text(x, y - 14, second, "t", 11)

    event(205, 87, "announces 7,", "reads at 7")
    event(312, 87, "looks at 1:", "finds 0")
    event(388, 87, "looks at 2:", "finds 6")
    event(455, 87, "raises", "to 8")
    event(560, 87, "cuts after the entry", "that 5 selects")
    p.line(312, 95, 312, 163, "dash")
    p.line(388, 95, 388, 214, "dash")
    p.text(394, 124, "its least number is 5 now", "s", 11, "start")
    p.line(250, 155, 250, 171, "line")
    p.text(250, 149, "loads 7", "t", 11)
    p.text(400, 156, "is held up: it has no section number", "s", 11, "start")
    event(640, 163, "announces 7,", "finds 8")
    p.labelled(690, 150, 90, 26, [("reads at 8", "t", 11)], "key")
    p.labelled(180, 214, 600, 26, [("its word is 6; reads at 5", "t", 11)], "key")
    p.text(12, 296, "the link's bundle", "t", 12, "start")
    p.text(12, 311, "after the cut", "t", 12, "start")
    for at, (number, kind, reader) in enumerate([("8", "good", "pass 1, at 8"), ("7", "good", "pass 0, at 7"), ("5", "good", "pass 2, at 5"), ("2", "warn", "nobody: retired")]):
        x = 170 + 155 * at
        p.labelled(x, 286, 80, 30, [("number " + number, "t b", 12)], kind)
        p.text(x + 40, 338, reader, "t" if at < 3 else "s", 11)
        if at < 2:
            p.arrow(x + 80, 301, x + 155, 301)
        if at == 2:
            p.line(x + 80, 301, x + 112, 301, "line")
            p.line(x + 112, 293, x + 112, 309, "line")
    p.text(12, 338, "selected by", "s", 11, "start")
    p.text(780, 262, "time", "s", 11, "end")
    return p


def session():
    p = Picture(800, 400, "The life of a session")

    def stage(x, y, name, about, kind="box"):
        p.labelled(x, y, 164, 62, [(name, "t b", 13)] + [(line, "s", 12) for line in about], kind)

    stage(16, 30, "bytes", ["of the input"], "key")
    stage(16, 128, "Session", ["names, records,", "requests by client"])
    stage(16, 226, "Directory", ["each name once, in", "order: rank ↔ name"])
    stage(620, 30, "Placed replies", ["each with its place;", "pages as ranks"])
    stage(620, 128, "Run", ["the replies, and", "the journal"])
    stage(620, 226, "lines", ["of JSON"])
    stage(620, 324, "bytes", ["of the output"], "key")
    p.text(98, 20, "read_all", "t m", 11)
    for x, y, name in [(98, 92, "read_session_ on_threads"), (98, 190, "take_directory"), (702, 92, ""), (702, 190, ""), (702, 288, "write_all")]:
        p.arrow(x, y, x, y + 36)
        words = name.split()
        for at, word in enumerate(words):
            p.text(x + 8, y + 21 + 13 * at - 6 * (len(words) > 1), word, "t m", 11, "start")

    # The index, with a pass for each client: the clients part at the left, and come together at the right.
    p.box(266, 30, 294, 226, "dash")
    p.text(413, 50, "SharedIndex: a pass for each client", "t b", 13)
    lanes = [("client 0", 62), ("client 1", 118), ("client 31", 198)]
    for name, y in lanes:
        p.labelled(290, y, 246, 46, [(name, "t b", 13), ("put, remove, begin, next_from", "s m", 11)])
        p.arrow(228, y + 23, 290, y + 23)
        p.line(536, y + 23, 586, y + 23)
    p.text(413, 184, "…", "t b", 16)
    first, last = lanes[0][1] + 23, lanes[-1][1] + 23
    p.line(180, 257, 228, 257)
    p.line(228, 257, 228, first)
    p.line(586, last, 586, 61)
    p.arrow(586, 61, 620, 61)
    p.line(560, 244, 602, 244)
    p.line(602, 244, 602, 159)
    p.arrow(602, 159, 620, 159)
    p.text(565, 259, "finish", "t m", 11, "start")
    notes = [
        ("open_index", "opens the index; finish ends it to its whole history, the journal."),
        ("run_all", "runs the clients at once, up to 32, each by run_client on a thread of its own."),
        ("push_reply_line, push_journal_line, last_line", "make the lines."),
    ]
    for at, (name, about) in enumerate(notes):
        p.text(16, 326 + 20 * at, name, "t m", 11, "start")
        p.text(24 + 6.75 * len(name), 326 + 20 * at, about, "s", 12, "start")
    return p


def floors():
    """The headings of crates.txt, from the ground up, each with the crates below it."""
    found = []
    for part in (DOCS.parent / "crates.txt").read_text().split("\n\n"):
        heading, *lines = part.strip().splitlines()
        if lines and not lines[0].startswith("#"):
            found.append((heading.lstrip("# ").split(":")[0], [re.split(r"[\s:]", line)[0] for line in lines]))
    return found


def layers():
    """The floors, one above the other, with the crates of each. The program rests on the first five."""
    house = floors()
    top = next(at for at, (_, names) in enumerate(house) if "bucketidx" in names)
    inside, beside = house[: top + 1], house[top + 1 :]
    columns, width, gap, row, head = 3, 132, 10, 40, 30
    span = columns * (width + gap) + gap
    height_of = lambda names: head + -(-len(names) // columns) * row + 8
    total = sum(height_of(names) + 12 for _, names in inside)
    p = Picture(2 * span + 44, total + 48, "The floors of the house")

    def floor(x, bottom, name, names, kind):
        y = bottom - height_of(names)
        p.box(x, y, span, height_of(names), "dash")
        p.text(x + 12, y + 20, name, "t b", 13, "start")
        for at, crate in enumerate(names):
            place = (x + gap + at % columns * (width + gap), y + head + at // columns * row)
            p.labelled(*place, width, row - 10, [(crate, "t m", 12)], "good" if crate == "bucketidx" else kind)
        return y - 12

    p.text(16, 26, "the program, and what it rests on", "s", 12, "start")
    p.text(span + 28, 26, "next to it, and not in the program", "s", 12, "start")
    bottom = p.height - 10
    for name, names in inside:
        bottom = floor(16, bottom, name, names, "key" if "core" in name else "box")
    bottom = p.height - 10
    for name, names in beside:
        bottom = floor(span + 28, bottom, name, names, "warn" if name == "Tests" else "key" if "machine" in name else "box")
    return p


PICTURES = {"history": history, "headline": headline, "grace": grace, "prune": prune, "session": session, "layers": layers}


def main():
    parser = argparse.ArgumentParser(description=__doc__.split("\n")[0])
    parser.add_argument("--check", action="store_true")
    checks = parser.parse_args().check
    wrong = []
    for name, draw in PICTURES.items():
        path, svg = DOCS / (name + ".svg"), draw().svg()
        if checks:
            if not path.exists() or path.read_text() != svg:
                wrong.append("docs/%s.svg is not what docs/pictures.py draws" % name)
        else:
            path.write_text(svg)
    print("\n".join(wrong) or "%d pictures" % len(PICTURES))
    sys.exit(len(wrong) > 0)


if __name__ == "__main__":
    main()
