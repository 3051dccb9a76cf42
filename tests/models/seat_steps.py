"""The steps of a seat over the words of table_words.py, each one event, and what an update does after its raise."""
from table_words import HEAD, KEY, LEFT, LINK, LOCK, MARK, NEXT, PTR, RIGHT, TAG, TS, VAL, Refused


class Steps:
    """One pass: its slots, what its view knows of plain links, and its events."""

    def __init__(self, table, rng, number, first_node, first_entry):
        size = table.sizes[number]
        self.table, self.rng, self.number, self.left = table, rng, number, size[2]
        self.free = ([first_node + k for k in range(size[0])], [first_entry + k for k in range(size[1])])
        self.retired, self.batch, self.found, self.passed = ([], []), ([], []), {}, set()
        # The section number, and the least number with the passes whose announcements it has looked at.
        self.at, self.least, self.looked = None, None, set()
        # The plain links that its update has still to set, each with what it holds and its new child, and the tags to
        # raise.
        self.unset, self.owed = [], []
        # What its looks have shown since the copy was linked.
        self.wait_found, self.wait_passed = {}, set()
        # Its update: whether it has raised, the node that it brought in, and those that it took out.
        self.raised, self.added, self.taken = False, None, []
        self.locked = set()
        self.nowhere()
        # The successor that is to be unlinked, with its parent, and the place of its mark.
        self.last, self.marked_at = None, None

    # ---- steps: each is one event

    def step(self, kind, word, value, update=None):
        text = "%d %s %d %d" % (self.number, kind, word, value)
        self.table.events.append(text + (" " + update if update else ""))
        self.move(kind, word)

    # ---- what its search on plain links knows

    def nowhere(self):
        # The place: None, or ("entry",), ("node", node, key), ("gap", node, side). The turns, each with its key. The
        # plain links: node, side, child, tag, and the keys of the turns to the left and to the right.
        self.place, self.turns, self.links = None, [None, None], []

    def is_inside(self):
        return self.table.words[self.table.section(self.number)] % 2 == 1

    def turn_keys(self):
        """The keys of the last turns to the right and to the left, None for none."""
        return tuple(turn and turn[1] for turn in (self.turns[RIGHT], self.turns[LEFT]))

    def is_between(self, key):
        low, high = self.turn_keys()
        return (low is None or low < key) and (high is None or key < high)

    def searches_at(self, node, side):
        if self.place is None:
            return (node, side) == (0, RIGHT)
        return self.place[:2] == ("node", node) and self.place[2] is not None and self.is_between(self.place[2])

    def search_nodes(self, top):
        starts = [] if self.place == ("entry",) else [top] if self.place is None else [self.place[1]]
        return starts + [turn[0] for turn in self.turns if turn] + [link[0] for link in self.links]

    def may_lock(self):
        """The nodes whose locks it may try."""
        return sorted(({0} | set(self.search_nodes(0))) - self.locked)

    def move(self, kind, word):
        """What an event of this kind changes in its view of plain links."""
        named = self.table.node_word(word)
        if kind in ("Enter", "Leave", "LoadStamp", "Raise", "Unlock"):
            self.nowhere()
        if kind == "Leave":
            self.added = None
        elif kind in ("LoadHead", "LoadNext"):
            self.place = ("entry",)
        elif kind == "LoadKeyOrVal" and named[1] == KEY and self.place and self.place[:2] == ("node", named[0]):
            self.place = ("node", named[0], self.table.words[word])
        elif kind == "LoadLink":
            self.walk(named[0], named[1] - LINK, self.table.words[word])
        elif kind == "LoadTag":
            for link in self.links:
                if link[:2] == [named[0], named[1] - TAG] and link[3] is None:
                    link[3] = self.table.words[word]
        elif kind == "Unlock":
            self.locked.discard(named[0])
            if not self.locked:
                self.raised, self.added, self.taken = False, None, []

    def walk(self, node, side, child):
        if self.searches_at(node, side):
            if self.place:
                self.turns[side] = (node, self.place[2])
            low, high = self.turn_keys()
            self.links.append([node, side, child, None, high, low])
            self.place = ("node", child, None) if child else ("gap", node, side)

    def store(self, kind, word, value):
        self.step(kind, word, value)
        self.table.words[word] = value

    def load(self, kind, word, value=0):
        self.step(kind, word, value)
        return self.table.words[word]

    def take_batch(self):
        if not self.batch[0] and not self.batch[1]:
            self.batch, self.retired = self.retired, ([], [])
            self.found, self.passed = {}, set()

    def free_passed(self):
        if len(self.passed) == self.table.passes - 1:
            for kind in (0, 1):
                self.table.freed += len(self.batch[kind])
                self.free[kind].extend(self.batch[kind])
            self.batch = ([], [])

    def enter(self):
        word = self.table.section(self.number)
        self.take_batch()
        self.store("Enter", word, self.table.words[word] + 1)
        if self.table.passes == 1:
            self.free_passed()

    def leave(self):
        word = self.table.section(self.number)
        self.store("Leave", word, self.table.words[word] + 1)
        self.at, self.least, self.looked = None, None, set()

    def load_stamp(self, fixes):
        """A load of the stamp, which gives a section number where the seat has announced."""
        stamp = self.load("LoadStamp", 0, fixes)
        if self.table.words[self.table.announced(self.number)]:
            self.at, self.least, self.looked = stamp, stamp, set()
        return stamp

    def begin(self, fixes):
        """Enters and reads from then on, by four steps; by two where the last announcement was not taken back."""
        self.enter()
        yield
        if not self.table.words[self.table.announced(self.number)]:
            seen = self.load_stamp(0)
            yield
            self.store("Announce", self.table.announced(self.number), seen + 1)
            yield
        self.load_stamp(fixes)
        yield

    def end(self):
        self.leave()
        yield
        if self.rng.random() < 0.9:
            self.store("Announce", self.table.announced(self.number), 0)
            yield

    def look_at_announcements(self):
        """Lowers the least number to what the other passes have announced."""
        others = [other for other in range(self.table.passes) if other != self.number]
        self.rng.shuffle(others)
        for other in others:
            word = self.load("LookAnn", self.table.announced(other))
            if word:
                self.least = min(self.least, word - 1)
            self.looked.add(other)
            yield

    def prune(self, node, side):
        """Cuts the bundle of a link of a locked, unmarked node after the entry that the least number selects."""
        table = self.table
        if len(self.looked) < table.passes - 1:
            yield from self.look_at_announcements()
        front, entry = 0, self.load("LoadHead", table.head(node, side))
        yield
        while entry:
            self.load("LoadTs", table.entry(entry, TS))
            yield
            if 0 < table.number(entry) <= self.least:
                break
            front, entry = entry, self.load("LoadNext", table.entry(entry, NEXT))
            yield
        if entry:
            self.cut_behind(front, entry)
            yield

    def cut_behind(self, front, entry):
        table = self.table
        behind = list(table.chain_from(table.words[table.entry(entry, NEXT)]))
        if front:
            table.too_far.append((len(table.events), "%d Cut %d 0" % (self.number, table.entry(front, NEXT))))
        self.store("Cut", table.entry(entry, NEXT), 0)
        self.retired[1].extend(behind)
        table.cut_off += len(behind)
        table.cases["cut, %s" % ("after an older reader" if self.least < self.at else "after the newest entry read")] += 1

    def look(self, other):
        self.take_batch()
        word = self.load("LookSec", self.table.section(other))
        if word % 2 == 0 or self.found.get(other, word) != word:
            self.passed.add(other)
        self.found.setdefault(other, word)
        self.free_passed()

    def has_retired(self):
        return any(self.retired) or any(self.batch)

    def fill_node(self, node, key, val, children):
        words = ((KEY, key), (VAL, val), (MARK, 0), (HEAD, 0), (HEAD + 1, 0), (TAG, 0), (TAG + 1, 0))
        for field, value in words + ((LINK, children[LEFT]), (LINK + 1, children[RIGHT])):
            if self.table.words[self.table.node(node, field)] != value:
                self.store("Fill", self.table.node(node, field), value)
                yield

    def fill_entry(self, entry, child, behind):
        for part, value in ((PTR, child), (TS, 0), (NEXT, behind)):
            if self.table.words[self.table.entry(entry, part)] != value:
                self.store("Fill", self.table.entry(entry, part), value)
                yield

    # ---- procedures: a yield lets another seat step

    def child_at(self, node, side):
        """The entry that the section number selects, and its child; entry 0 where none is selected."""
        table = self.table
        entry = self.load("LoadHead", table.head(node, side))
        yield
        while entry:
            stamp = self.load("LoadTs", table.entry(entry, TS))
            yield
            if stamp == 0:
                continue
            if stamp <= self.at:
                child = self.load("LoadPtr", table.entry(entry, PTR))
                yield
                return entry, child
            entry = self.load("LoadNext", table.entry(entry, NEXT))
            yield
        return 0, 0

    def locked_child(self, node, side):
        """The newest entry of a locked node's link, and its child."""
        table = self.table
        entry = self.load("LoadHead", table.head(node, side))
        yield
        if not entry:
            return 0, 0
        stamp = self.load("LoadTs", table.entry(entry, TS))
        yield
        assert stamp, "a locked node has a pending head"
        child = self.load("LoadPtr", table.entry(entry, PTR))
        yield
        return entry, child

    def search(self, key):
        """The link at which the search for a key ends: node, side, entry and child."""
        node, side = 0, RIGHT
        while True:
            entry, child = yield from self.child_at(node, side)
            if not child:
                return node, side, entry, 0
            here = self.load("LoadKeyOrVal", self.table.node(child, KEY))
            yield
            if here == key:
                return node, side, entry, child
            node, side = child, LEFT if key < here else RIGHT

    def lock(self, node):
        word = self.table.node(node, LOCK)
        self.step("TryLock", word, self.number + 1)
        if self.table.words[word]:
            return False
        self.table.words[word] = self.number + 1
        self.locked.add(node)
        return True

    def unlock(self, node):
        self.store("Unlock", self.table.node(node, LOCK), 0)

    def lock_all(self, nodes):
        """Locks these nodes, or none; tells whether they are locked and unmarked."""
        locked = []
        for node in nodes:
            won = self.lock(node)
            yield
            if won:
                locked.append(node)
                mark = self.load("LoadMark", self.table.node(node, MARK))
                yield
            if not won or mark:
                yield from self.unlock_all(locked)
                return False
        return True

    def unlock_all(self, nodes):
        for node in nodes:
            self.unlock(node)
            yield

    def raise_stamp(self, line, key, change, taken, pending, links):
        table = self.table
        self.last = (taken[1], links[1][0]) if len(links) > 1 else None
        self.raised, self.taken = True, list(taken)
        self.added = links[0][2] if change is not None or len(taken) == 2 else None
        self.wait_found, self.wait_passed = {}, set()
        self.unset = [(node, side, table.words[table.link(node, side)], child) for node, side, child in links]
        self.owed = [(node, side) for node, side, child in links if not child and change is None]
        text = "Put %d" % change if change is not None else "Remove"
        self.step("Raise", 0, 0, "%d %d %d %s" % (self.number, line, key, text))
        entries = [e for node in taken for side in (LEFT, RIGHT) for e in self.chain(node, side)]
        self.retired[0].extend(taken)
        self.retired[1].extend(entries)
        table.words[0] += 1
        table.raised.update((entry, table.words[0]) for entry in pending)
        after = dict(table.maps[-1])
        if change is not None:
            after[key] = change
        else:
            del after[key]
        table.maps.append(after)
        self.left -= 1

    def chain(self, node, side):
        return self.table.chain_from(self.table.words[self.table.head(node, side)])

    def finish(self, entries, marked, locked, changed):
        """Ends an update: its numbers, the bundles of the links that it changed, marks, and locks."""
        prunes = self.rng.random()
        if prunes < 0.2:
            yield from self.prune(*self.rng.choice(changed))
        for entry in entries:
            self.store("Finalise", self.table.entry(entry, TS), self.table.raised.pop(entry))
            yield
        if prunes < 0.8:
            for node, side in changed:
                yield from self.prune(node, side)
        late = self.last and self.rng.random() < 0.7
        for node in marked:
            if not (late and node == self.last[0]):
                self.mark(node)
                yield
        yield from self.set_links(1 if self.last else 0)
        yield from self.unlock_all([node for node in locked if not self.last or node not in self.last])

    def mark(self, node):
        if self.last and node == self.last[0]:
            self.marked_at = len(self.table.events)
            self.table.marks.add(self.marked_at)
        self.store("Mark", self.table.node(node, MARK), 1)

    def set_links(self, left):
        """Sets the plain links that the update changes but for so many, and raises the tags of those made null."""
        table = self.table
        while len(self.unset) > left:
            node, side, was, child = self.unset[0]
            if self.load("LoadLink", table.link(node, side)) != was:
                raise Refused("the plain link of %d on %d" % (node, side))
            yield
            self.store("SetLink", table.link(node, side), child)
            del self.unset[0]
            yield
        self.rng.shuffle(self.owed)
        while self.owed and not left:
            tag = self.load("LoadTag", table.tag(*self.owed[0]))
            yield
            self.store("SetTag", table.tag(*self.owed[0]), tag + 1)
            del self.owed[0]
            yield
        for link in self.owed:
            self.load("LoadTag", table.tag(*link))
            yield

    def unlink(self):
        """Outside of the section: waits for every other pass, and unlinks the successor."""
        table, passed, found, looks = self.table, self.wait_passed, self.wait_found, []
        others = [other for other in range(table.passes) if other != self.number]
        while len(passed) < len(others):
            for other in self.rng.sample(others, len(others)):
                if other not in passed:
                    word = self.load("LookSec", table.section(other))
                    if word % 2 == 0 or found.get(other, word) != word:
                        passed.add(other)
                        looks.append(len(table.events) - 1)
                    found.setdefault(other, word)
                    yield
        successor, parent = self.last
        if not table.words[table.node(successor, MARK)]:
            self.mark(successor)
            yield
        for node, side, _, child in self.unset:
            self.store("SetLink", table.link(node, side), child)
            table.unlinks += [(place, len(table.events) - 1) for place in looks + [self.marked_at]]
        self.unset = []
        yield
        for link in self.owed:
            self.store("SetTag", table.tag(*link), table.words[table.tag(*link)] + 1)
        self.owed, self.last = [], None
        yield
        yield from self.unlock_all(self.rng.sample([successor, parent], 2))
        table.cases["waits"] += 1
