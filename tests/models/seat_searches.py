"""The searches of a seat: that of an update on plain links, and one that wants nothing."""
from seat_steps import Steps
from table_words import KEY, LEFT, MARK, RIGHT, Refused


class Searches(Steps):
    """The searches of one pass. A yield lets another seat step."""

    def plain_search(self, key):
        """The link at which the search on plain links for a key ends: node, side and child. None where it met another
        update."""
        table, node, side = self.table, 0, RIGHT
        while True:
            child = self.load("LoadLink", table.link(node, side))
            yield
            if not child:
                return node, side, 0
            here = self.load("LoadKeyOrVal", table.node(child, KEY))
            yield
            if here == key:
                return node, side, child
            if not self.is_between(here):
                yield from self.meet(child, here)
                return None
            node, side = child, LEFT if key < here else RIGHT

    def meet(self, child, here):
        """At a child whose key is not between those of the turns: it is out, or its turn is."""
        table = self.table
        table.cases["a child beyond its turn"] += 1
        turn = self.turns[LEFT] if self.turns[LEFT] and here >= self.turns[LEFT][1] else self.turns[RIGHT]
        for node in [turn[0] for turn in self.turns if turn]:
            mark = self.load("LoadMark", table.node(node, MARK))
            yield
            if mark:
                return
        won = self.lock(child)
        yield
        if not won:
            return
        mark = self.load("LoadMark", table.node(child, MARK))
        yield
        if not mark and not self.load("LoadMark", table.node(turn[0], MARK)):
            raise Refused("an unmarked child beyond an unmarked turn")
        yield
        yield from self.unlock_all([child])

    def tag_of(self, node, side):
        """The tag of the null link at which the search ended."""
        self.load("LoadTag", self.table.tag(node, side))
        yield
        return self.links[-1][3]

    def is_still(self, node, side, child, tag=None):
        """Whether a link of a locked node is as it was found."""
        found = self.load("LoadLink", self.table.link(node, side))
        yield
        if tag is None or found != child:
            return found == child
        found = self.load("LoadTag", self.table.tag(node, side))
        yield
        return found == tag

    def wander(self, count):
        """So many steps of a search that wants nothing: any that are allowed."""
        table, rng, mine = self.table, self.rng, []
        for _ in range(count):
            choice = rng.random()
            if choice < 0.6 and self.place is None:
                self.load("LoadLink", table.link(0, RIGHT))
            elif choice < 0.6 and self.place[0] == "node":
                node, key = self.place[1:]
                if key is None:
                    self.load("LoadKeyOrVal", table.node(node, KEY))
                elif self.is_between(key):
                    self.load("LoadLink", table.link(node, rng.choice([LEFT, RIGHT])))
                else:
                    continue
            elif choice < 0.75 and self.links:
                link = rng.choice(self.links)
                self.load("LoadTag", table.tag(link[0], link[1]))
            elif choice < 0.8 and self.may_lock():
                node = rng.choice(self.may_lock())
                if self.lock(node):
                    mine.append(node)
            elif choice < 0.85 and self.locked:
                node = rng.choice(sorted(self.locked))
                self.load("LoadLink", table.link(node, rng.choice([LEFT, RIGHT])))
            elif choice < 0.87 and mine:
                self.unlock(mine.pop(rng.randrange(len(mine))))
            elif choice < 0.89:
                self.load_stamp(0)
            else:
                continue
            yield
        return mine

    def found_gap(self):
        """A remembered null link with a tag, and a key between the turns' keys; None where there is none."""
        found = [link for link in self.links if not link[2] and link[3] is not None]
        if not found:
            return None
        node, side, _, tag, above, below = self.rng.choice(found)
        low, high = -1 if below is None else below, self.table.most_key + 1 if above is None else above
        return None if high - low < 2 else (node, side, tag, self.rng.randrange(low + 1, high))

    def plain_successor(self, child, right):
        """The parent and the slot of the successor, with the tag of its null left link; None where another update was
        met."""
        table, parent, here = self.table, child, right
        while True:
            key = self.load("LoadKeyOrVal", table.node(here, KEY))
            yield
            if not self.is_between(key):
                table.cases["a child beyond its turn"] += 1
                return None
            below = self.load("LoadLink", table.link(here, LEFT))
            yield
            if not below:
                tag = yield from self.tag_of(here, LEFT)
                return parent, here, tag
            parent, here = here, below
