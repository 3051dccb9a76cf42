"""The words of a table, the history, and the map after each update: the model of random_runs.py."""
from collections import Counter

LEFT, RIGHT = 0, 1
KEY, VAL, LOCK, MARK, HEAD, LINK, TAG = 0, 1, 2, 3, 4, 6, 8
PTR, TS, NEXT = 0, 1, 2


class Refused(Exception):
    """A look-up of the model failed."""


class Table:
    """The words, the history, and the map after each update."""

    def __init__(self, sizes, inserts):
        self.sizes, self.passes, self.inserts = sizes, len(sizes), inserts
        self.nodes = sum(size[0] for size in sizes)
        self.entries = sum(size[1] for size in sizes)
        self.words = [0] * (1 + 2 * self.passes + 10 * (self.nodes + 1) + 3 * self.entries)
        self.maps, self.events, self.raised = [{}], [], {}
        self.cases, self.freed, self.cut_off = Counter(), 0, 0
        # Places of cuts, each with the event of a cut that goes too far.
        self.too_far = []
        self.most_key = 0
        # Places of the looks with which a waiting removal passes another pass, each with that of its last set link.
        self.looks = []
        # Places of the looks with which a waiting removal passes another pass, and of the mark of its successor, each
        # with the place of the set link that unlinks the successor.
        self.unlinks = []
        # Places of the marks of successors that are unlinked after a wait: no unlock before it needs these.
        self.marks = set()

    def section(self, seat):
        return 1 + seat

    def announced(self, seat):
        return 1 + self.passes + seat

    def node(self, node, field):
        return 1 + 2 * self.passes + 10 * node + field

    def head(self, node, side):
        return self.node(node, HEAD + side)

    def link(self, node, side):
        return self.node(node, LINK + side)

    def tag(self, node, side):
        return self.node(node, TAG + side)

    def key(self, node):
        return self.words[self.node(node, KEY)]

    def node_word(self, word):
        """The node and the field of a word of a node, None for another word."""
        at = word - self.node(0, 0)
        return divmod(at, 10) if 0 <= at < 10 * (self.nodes + 1) else None

    def entry(self, entry, part):
        return 1 + 2 * self.passes + 10 * (self.nodes + 1) + 3 * (entry - 1) + part

    def number(self, entry):
        """The number of an entry, written or given by a raise; 0 where it has none."""
        return self.words[self.entry(entry, TS)] or self.raised.get(entry, 0)

    def selected(self, node, side, number):
        """The child that a number selects."""
        entry = self.words[self.head(node, side)]
        while entry:
            if 0 < self.number(entry) <= number:
                return self.words[self.entry(entry, PTR)]
            entry = self.words[self.entry(entry, NEXT)]
        return 0

    def newest(self, node, side):
        """The greatest number in the bundle of a link, 0 for none."""
        return max((self.number(entry) for entry in self.chain_from(self.words[self.head(node, side)])), default=0)

    def chain_from(self, entry):
        while entry:
            yield entry
            entry = self.words[self.entry(entry, NEXT)]

    def pairs(self, number, node=0, side=RIGHT):
        """The pairs of the tree that is spelled at a number, from left to right."""
        child = self.selected(node, side, number)
        if not child:
            return []
        pair = (self.words[self.node(child, KEY)], self.words[self.node(child, VAL)])
        return self.pairs(number, child, LEFT) + [pair] + self.pairs(number, child, RIGHT)

    def slots(self, number, node=0, side=RIGHT):
        child = self.selected(node, side, number)
        return [] if not child else [child] + self.slots(number, child, LEFT) + self.slots(number, child, RIGHT)
