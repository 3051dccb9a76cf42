#!/usr/bin/env python3
"""Has the pure machine carry plans of updates out, and compares what comes of them with a map and a tree.

    tests/machine/plan_runs.py PROGRAM [--runs N] [--turns N] [--seed N]

Up to four passes put, remove and look up keys at once; this script chooses what each is asked for and whose
turn it is. PROGRAM searches for the key of each update on plain links, makes a plan of what it finds again
under locks, makes the plan's events, and reports how each try has ended, and where it has cut a bundle. A
try that was validated must raise. One that was not must have raised the count of its cause by one, and no
other count. Where the search has not found a key that is to be removed, a snapshot tells whether it is
absent. Each look-up in a snapshot must find what the map had at its number, whatever was cut meanwhile. At
the end the words must spell the tree of the whole history, and each plain link must lead where the tree
does. The model of map and tree shares no code with the machine. The script ends with status 1 at the first
difference.
"""
import argparse
import random
import subprocess
import sys
from collections import Counter

LEFT, RIGHT = 0, 1
KEY, VAL, LOCK, MARK, HEAD, LINK, TAG = 0, 1, 2, 3, 4, 6, 8
PTR, TS, NEXT = 0, 1, 2
COUNT_OF = {"Busy": "busy", "Moved": "moves"}
OUTCOMES = {"Done", "Absent", "Late", "Busy", "Moved"}
CASES = {"insert", "replace"}
CASES |= {"remove, " + which for which in ("0 children", "1 children", "2 children, deep", "2 children, right child")}


class Difference(Exception):
    """The program has said something else than the model."""


def ask(condition, text):
    if not condition:
        raise Difference(text)


# ---- the model: a search tree as nested tuples (key, value, left, right)


def put(tree, key, val):
    if tree is None:
        return (key, val, None, None), "insert"
    k, v, left, right = tree
    if key == k:
        return (k, val, left, right), "replace"
    if key < k:
        below, case = put(left, key, val)
        return (k, v, below, right), case
    below, case = put(right, key, val)
    return (k, v, left, below), case


def first(tree):
    while tree[LEFT + 2]:
        tree = tree[LEFT + 2]
    return tree


def without_first(tree):
    k, v, left, right = tree
    return right if left is None else (k, v, without_first(left), right)


def remove(tree, key):
    k, v, left, right = tree
    if key < k:
        below, case = remove(left, key)
        return (k, v, below, right), case
    if k < key:
        below, case = remove(right, key)
        return (k, v, left, below), case
    if left is None or right is None:
        return left or right, "remove, %d children" % bool(left or right)
    successor = first(right)
    case = "remove, 2 children, " + ("right child" if successor is right else "deep")
    return (successor[0], successor[1], left, without_first(right)), case


class Words:
    """The words at the end, when nothing is pending."""

    def __init__(self, sizes, words):
        self.words, self.passes = words, len(sizes)
        self.nodes = sum(size[0] for size in sizes)

    def node(self, node, field):
        return self.words[1 + 2 * self.passes + 10 * node + field]

    def entry(self, entry, part):
        return self.words[1 + 2 * self.passes + 10 * (self.nodes + 1) + 3 * (entry - 1) + part]

    def ask_link(self, node, side, child, number):
        """The plain link leads to the child, and its tag is at most the number."""
        link, tag = self.node(node, LINK + side), self.node(node, TAG + side)
        ask(link == child, "the plain link of %d on %d leads to %d, and not to %d" % (node, side, link, child))
        ask(tag <= number, "the tag of %d on %d is %d, above %d" % (node, side, tag, number))

    def tree(self, node=0, side=RIGHT):
        entry = self.node(node, HEAD + side)
        if not entry:
            self.ask_link(node, side, 0, 0)
            return None
        ask(self.entry(entry, TS) > 0, "entry %d is pending at the end" % entry)
        child = self.entry(entry, PTR)
        self.ask_link(node, side, child, self.entry(entry, TS))
        if not child:
            return None
        ask(not self.node(child, MARK) and not self.node(child, LOCK), "node %d is marked or locked" % child)
        return (self.node(child, KEY), self.node(child, VAL), self.tree(child, LEFT), self.tree(child, RIGHT))


# ---- what the passes are asked for, and whose turn it is


def requests(rng, count, keys, reads):
    """Updates, and snapshots with some look-ups each, as many as fit."""
    made = []
    while len(made) < count:
        if rng.random() < reads:
            gets = ["get %d" % rng.randrange(keys) for _ in range(rng.choice([1, 3, 30]))]
            made += ["open"] + gets + ["close"]
        elif rng.random() < 0.55:
            made.append("put %d %d" % (rng.randrange(keys), rng.randrange(1000)))
        else:
            made.append("remove %d" % rng.randrange(keys))
    return made


def random_run(rng, turns):
    passes = rng.randint(1, 4)
    nodes, entries = rng.choice([((2, 8), (8, 24)), ((16, 40), (60, 200)), ((16, 40), (60, 200))])
    sizes = [(rng.randint(*nodes), rng.randint(*entries), turns) for _ in range(passes)]
    keys = rng.choice([4, 8, 16, 32])
    asked = [requests(rng, turns // 8 + 4, keys, rng.choice([0.02, 0.1, 0.6])) for _ in range(passes)]
    weights = [rng.choice([1, 1, 4]) for _ in range(passes)]
    chosen = []
    while len(chosen) < turns:
        chosen += [rng.choices(range(passes), weights)[0]] * rng.choice([1, 1, 1, 2, 5, 40])
    return sizes, asked, chosen[:turns]


def text_of(sizes, asked, chosen):
    lines = [" ".join("%d,%d,%d" % size for size in sizes)]
    for number, own in enumerate(asked):
        lines += ["ask %d %s" % (number, request) for request in own]
    return "\n".join(lines + ["turns " + " ".join(map(str, chosen))]) + "\n"


class Model:
    """The history as the program tells it, and what each pass has to do next."""

    def __init__(self, sizes, asked):
        self.sizes, self.maps, self.tree = sizes, [{}], None
        self.updates = [[one for one in own if one.split()[0] in ("put", "remove")] for own in asked]
        self.gets = [[one for one in own if one.split()[0] == "get"] for own in asked]
        self.counts = [dict(busy=0, waits=0, moves=0) for _ in sizes]
        self.raised, self.snapshots = [None for _ in sizes], [None for _ in sizes]
        self.seen, self.cases = Counter(), Counter()

    def take(self, line):
        words = line.split()
        takers = {"raised": self.take_raised, "cut": self.take_cut, "tried": self.take_tried}
        takers |= {"found": self.take_found, "missing": self.take_missing}
        ask(words[0] in takers, line)
        takers[words[0]](int(words[1]), line, words[2:])

    def take_raised(self, number, line, words):
        at, update, was = int(words[0]), words[1:-1], words[-1] == "true"
        ask(" ".join(update) == self.updates[number][0], line)
        ask(at == len(self.maps), line)
        key, before = int(update[1]), dict(self.maps[-1])
        ask(was == (key in before), line)
        if update[0] == "put":
            before[key] = int(update[2])
            self.tree, case = put(self.tree, key, int(update[2]))
        else:
            del before[key]
            self.tree, case = remove(self.tree, key)
        self.cases[case] += 1
        self.maps.append(before)
        self.raised[number] = at

    def take_cut(self, number, line, words):
        ask(self.raised[number] is not None, line)
        self.seen["cuts"] += words[1] != "0"

    def take_tried(self, number, line, words):
        outcome, at, counts = words[0], int(words[1]), self.counts_of(words[2:])
        rises = {name: counts[name] - self.counts[number][name] for name in counts}
        if outcome in ("Absent", "Late"):
            # Where the search has not found the key, a snapshot is looked at, which waits for entries without a number.
            ask(rises.pop("waits") >= 0, line)
        ask(rises == {name: int(COUNT_OF.get(outcome) == name) for name in rises}, "%s: %r" % (line, rises))
        ask((outcome == "Done") == (self.raised[number] is not None), line)
        if outcome in ("Absent", "Late"):
            verb, key = self.updates[number][0].split()
            ask(verb == "remove" and (int(key) in self.maps[at]) == (outcome == "Late"), line)
        if outcome in ("Done", "Absent"):
            self.updates[number].pop(0)
        self.raised[number], self.counts[number] = None, counts
        self.seen[outcome] += 1

    def look_up(self, number, line, key, at, found, counts):
        ask("get %d" % key == self.gets[number].pop(0), line)
        ask(found == self.maps[at].get(key), line)
        # A later look-up of a snapshot reaches links that it remembers, and may find newer heads there.
        old, first_one = self.counts[number], self.snapshots[number] != at
        self.snapshots[number] = at
        ask(counts["busy"] == old["busy"] and counts["waits"] >= old["waits"], line)
        ask(counts["moves"] == old["moves"] if first_one else counts["moves"] >= old["moves"], line)
        self.counts[number] = counts
        self.seen["look-ups"] += 1
        self.seen["look-ups that waited"] += counts["waits"] > old["waits"]
        self.seen["old look-ups"] += at < len(self.maps) - 1

    def take_found(self, number, line, words):
        at, key, val = map(int, words[:3])
        self.look_up(number, line, key, at, val, self.counts_of(words[3:]))

    def take_missing(self, number, line, words):
        at, key = map(int, words[:2])
        self.look_up(number, line, key, at, None, self.counts_of(words[2:]))

    @staticmethod
    def counts_of(words):
        return dict(zip(("busy", "waits", "moves"), map(int, words)))


def compare(program, sizes, asked, chosen):
    """The model of a run that the program has made as it must."""
    done = subprocess.run([program], input=text_of(sizes, asked, chosen), capture_output=True, text=True)
    model, lines = Model(sizes, asked), (done.stdout + done.stderr).splitlines()
    ask(len(lines) > 2 and lines[-2].startswith("events "), "\n".join(lines[-3:])[:400])
    for line in lines[:-2]:
        model.take(line)
    words = Words(sizes, list(map(int, lines[-1].split())))
    ask(words.words[0] == len(model.maps) - 1, "the stamp is %d" % words.words[0])
    ask(words.tree() == model.tree, "the words spell %r, and the tree is %r" % (words.tree(), model.tree))
    model.seen["events"] = int(lines[-2].split()[1])
    return model


def main():
    parser = argparse.ArgumentParser(description=__doc__.split("\n")[0])
    parser.add_argument("program")
    parser.add_argument("--runs", type=int, default=50)
    parser.add_argument("--turns", type=int, default=3000)
    parser.add_argument("--seed", type=int, default=1)
    options = parser.parse_args()
    rng, seen, cases = random.Random(options.seed), Counter(), Counter()
    for run in range(options.runs):
        sizes, asked, chosen = random_run(rng, options.turns)
        try:
            model = compare(options.program, sizes, asked, chosen)
        except Difference as difference:
            print("run %d: %s" % (run, difference))
            sys.exit(1)
        seen.update(model.seen)
        cases.update(model.cases)
    missed = (OUTCOMES | {"cuts", "old look-ups", "look-ups that waited"}) - set(seen) | CASES - set(cases)
    if missed:
        print("not reached: %s" % ", ".join(sorted(missed)))
        sys.exit(1)
    told = ", ".join("%s: %d" % one for one in sorted((seen + cases).items()))
    print("%d runs of %d turns, all as the model (%s)" % (options.runs, options.turns, told), file=sys.stderr)


if __name__ == "__main__":
    main()
