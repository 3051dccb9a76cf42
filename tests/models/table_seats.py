"""The seats of random_runs.py: puts, removals and look-ups, by the procedures of a Citrus tree with bundled references."""
from seat_searches import Searches
from table_words import KEY, LEFT, MARK, RIGHT, VAL, Refused


class Seat(Searches):
    """One pass, and the procedure that it is in. A yield lets another seat step."""

    def has_slots(self):
        return self.free[0] and len(self.free[1]) >= 4

    def try_update(self, line, key, change):
        """One try of a put, or of a removal where the change is None; tells whether it is answered."""
        yield from self.begin(0)
        answered = yield from self.try_inside(line, key, change)
        yield from self.end()
        if self.last:
            yield from self.unlink()
        return answered

    def try_found(self, line):
        """An insert by any null link that was met: the key need not be the one that was searched."""
        mine = yield from self.wander(self.rng.randrange(60))
        gap = self.found_gap()
        if not gap or not self.has_slots():
            yield from self.unlock_all(mine)
            return
        node, side, tag, key = gap
        if node not in self.locked:
            won = self.lock(node)
            yield
            if not won:
                yield from self.unlock_all(mine)
                return
            mine.append(node)
        mark = self.load("LoadMark", self.table.node(node, MARK))
        yield
        still = yield from self.is_still(node, side, 0, tag)
        if mark or not still:
            yield from self.unlock_all(mine)
            return
        self.assert_gap(node, side, key)
        head, _ = yield from self.locked_child(node, side)
        yield from self.insert(line, key, self.rng.randrange(1000), node, side, head)
        self.table.cases["insert at a null link that was met"] += 1
        yield from self.unlock_all([other for other in mine if other != node])

    def assert_gap(self, node, side, key):
        """The law on null links: the key is in the gap of the link."""
        where = (0, RIGHT)
        while self.table.selected(*where, self.table.words[0]):
            child = self.table.selected(*where, self.table.words[0])
            here = self.table.key(child)
            if here == key:
                raise Refused("the key of a null link is in the tree")
            where = (child, LEFT if key < here else RIGHT)
        if where != (node, side):
            raise Refused("a null link has not its key in its gap")

    def try_inside(self, line, key, change):
        rng = self.rng
        if rng.random() < 0.15 and not self.table.inserts:
            yield from self.try_found(line)
            return False
        if rng.random() < 0.2:
            mine = yield from self.wander(rng.randrange(12))
            yield from self.unlock_all(mine)
            self.load_stamp(0)
            yield
        ended = yield from self.plain_search(key)
        if not ended:
            return False
        node, side, child = ended
        if not child and change is None or child and self.table.inserts:
            return True
        if not child:
            done = yield from self.try_insert(line, key, change, node, side)
        elif change is not None:
            done = yield from self.try_replace(line, key, change, node, side, child)
        else:
            done = yield from self.try_remove(line, key, node, side, child)
        return done

    def is_locked(self, nodes):
        locked = yield from self.lock_all(nodes)
        if locked and self.rng.random() < 0.1:
            for link in self.rng.sample(self.links, min(2, len(self.links))):
                self.load("LoadTag", self.table.tag(link[0], link[1]))
                yield
        return locked

    def try_insert(self, line, key, change, node, side):
        tag = yield from self.tag_of(node, side)
        locked = yield from self.is_locked([node])
        if not locked:
            return False
        still = yield from self.is_still(node, side, 0, tag)
        if not still:
            yield from self.unlock_all([node])
            return False
        self.assert_gap(node, side, key)
        head, _ = yield from self.locked_child(node, side)
        yield from self.insert(line, key, change, node, side, head)
        return True

    def try_replace(self, line, key, change, node, side, child):
        locked = yield from self.is_locked([node, child])
        if not locked:
            return False
        still = yield from self.is_still(node, side, child)
        if not still:
            yield from self.unlock_all([node, child])
            return False
        if self.rng.random() < 0.3:
            self.load("LoadLink", self.table.link(child, self.rng.choice([LEFT, RIGHT])))
            yield
        head, under = yield from self.locked_child(node, side)
        assert under == child
        yield from self.replace(line, key, change, node, side, head, child)
        return True

    def try_remove(self, line, key, node, side, child):
        table = self.table
        self.load("LoadLink", table.link(child, RIGHT))
        yield
        locked = yield from self.is_locked([node, child])
        if not locked:
            return False
        nodes = [node, child]
        still = yield from self.is_still(node, side, child)
        left = self.load("LoadLink", table.link(child, LEFT))
        yield
        right = self.load("LoadLink", table.link(child, RIGHT))
        yield
        if not still or self.place[1] != right and self.place[0] == "node" or self.place[0] == "gap" and right:
            yield from self.unlock_all(nodes)
            return False
        successor = None
        if left and right:
            successor = yield from self.plain_successor(child, right)
            if not successor:
                yield from self.unlock_all(nodes)
                return False
            parent, first, tag = successor
            more = [parent, first] if parent != child else [first]
            nodes += more
            locked = yield from self.lock_more(more)
            if not locked:
                yield from self.unlock_all([child, node])
                return False
            under = yield from self.is_still(parent, LEFT if parent != child else RIGHT, first)
            still = under and (yield from self.is_still(first, LEFT, 0, tag))
            if not still:
                yield from self.unlock_all(nodes)
                return False
        if self.rng.random() < 0.1:
            yield from self.prune(self.rng.choice(nodes), self.rng.choice([LEFT, RIGHT]))
        head, under = yield from self.locked_child(node, side)
        assert under == child
        if successor is None:
            done = yield from self.cut(line, key, node, side, head, child)
        else:
            done = yield from self.move_up(line, key, node, side, head, child, successor[:2])
        assert done, "what was validated is not so"
        return True

    def remove_deep(self, key):
        """Removes a key whose successor hangs further down."""
        yield from self.begin(0)
        node, side, child = yield from self.plain_search(key)
        done = yield from self.try_remove(0, key, node, side, child)
        assert done
        yield from self.end()
        yield from self.unlink()

    def lock_ahead(self, key, ahead):
        """Enters, and locks the node of a key without a left child, and the node above it; adds both to the list."""
        yield from self.begin(0)
        parent, side, child = yield from self.plain_search(key)
        assert child and side == LEFT and not self.load("LoadLink", self.table.link(child, LEFT))
        yield
        locked = yield from self.lock_all([parent, child])
        assert locked
        ahead += [parent, child]

    def remove_above(self, key, parent, first):
        """Inside its section, with the successor and the node above it locked: begins at the root again, and removes
        a key."""
        self.load_stamp(0)
        yield
        node, side, child = yield from self.plain_search(key)
        locked = yield from self.lock_all([node, child])
        still = yield from self.is_still(node, side, child)
        assert locked and still
        head, _ = yield from self.locked_child(node, side)
        done = yield from self.move_up(0, key, node, side, head, child, (parent, first))
        assert done
        yield from self.end()
        yield from self.unlink()

    def lock_more(self, nodes):
        locked = yield from self.lock_all(nodes)
        return locked

    def prepare(self, node, side, entry):
        self.store("Prepare", self.table.head(node, side), entry)

    def insert(self, line, key, val, node, side, head):
        self.table.cases["insert"] += 1
        slot, entry = self.free[0].pop(), self.free[1].pop()
        yield from self.fill_node(slot, key, val, (0, 0))
        yield from self.fill_entry(entry, slot, head)
        self.prepare(node, side, entry)
        yield
        self.raise_stamp(line, key, val, [], [entry], [(node, side, slot)])
        yield
        yield from self.finish([entry], [], [node], [(node, side)])

    def new_children(self, slot, children):
        """Entries for the children of a new node."""
        entries = []
        for side in (LEFT, RIGHT):
            if children[side]:
                entry = self.free[1].pop()
                yield from self.fill_entry(entry, children[side], 0)
                self.store("Fill", self.table.head(slot, side), entry)
                yield
                entries.append(entry)
        return entries

    def replace(self, line, key, val, node, side, head, child):
        left = yield from self.locked_child(child, LEFT)
        right = yield from self.locked_child(child, RIGHT)
        self.table.cases["replace"] += 1
        slot, entry = self.free[0].pop(), self.free[1].pop()
        yield from self.fill_node(slot, key, val, (left[1], right[1]))
        below = yield from self.new_children(slot, (left[1], right[1]))
        yield from self.fill_entry(entry, slot, head)
        self.prepare(node, side, entry)
        yield
        self.raise_stamp(line, key, val, [child], [entry] + below, [(node, side, slot)])
        yield
        yield from self.finish([entry] + below, [child], [node, child], [(node, side)])

    def cut(self, line, key, node, side, head, child):
        left = yield from self.locked_child(child, LEFT)
        right = yield from self.locked_child(child, RIGHT)
        if left[1] and right[1]:
            yield from self.unlock_all([node, child])
            return False
        self.table.cases["remove, %d children" % bool(left[1] or right[1])] += 1
        entry = self.free[1].pop()
        yield from self.fill_entry(entry, left[1] or right[1], head)
        self.prepare(node, side, entry)
        yield
        self.raise_stamp(line, key, None, [child], [entry], [(node, side, left[1] or right[1])])
        yield
        yield from self.finish([entry], [child], [node, child], [(node, side)])
        return True

    def move_up(self, line, key, node, side, head, child, successor):
        parent, first = successor
        nodes = [node, child] + ([parent] if parent != child else []) + [first]
        left = yield from self.locked_child(child, LEFT)
        right = yield from self.locked_child(child, RIGHT)
        first_left = yield from self.locked_child(first, LEFT)
        first_right = yield from self.locked_child(first, RIGHT)
        above = right
        if parent != child:
            above = yield from self.locked_child(parent, LEFT)
        if not left[1] or not right[1] or first_left[1] or above[1] != first:
            yield from self.unlock_all(nodes)
            return False
        first_key = self.load("LoadKeyOrVal", self.table.node(first, KEY))
        yield
        first_val = self.load("LoadKeyOrVal", self.table.node(first, VAL))
        yield
        self.table.cases["remove, 2 children, " + ("deep" if parent != child else "right child")] += 1
        slot, entry = self.free[0].pop(), self.free[1].pop()
        children = (left[1], right[1] if parent != child else first_right[1])
        yield from self.fill_node(slot, first_key, first_val, children)
        below = yield from self.new_children(slot, children)
        entries = [entry] + below
        yield from self.fill_entry(entry, slot, head)
        if parent != child:
            moved = self.free[1].pop()
            yield from self.fill_entry(moved, first_right[1], above[0])
            self.prepare(parent, LEFT, moved)
            yield
            entries.append(moved)
        self.prepare(node, side, entry)
        yield
        links = [(node, side, slot)] + ([(parent, LEFT, first_right[1])] if parent != child else [])
        self.raise_stamp(line, key, None, [child, first], entries, links)
        yield
        changed = [(node, side)] + ([(parent, LEFT)] if parent != child else [])
        yield from self.finish(entries, [child, first], nodes, changed)
        return True

    def settle(self):
        """Looks at the other passes until the batch is free, or for some rounds."""
        for _ in range(3):
            for other in range(self.table.passes):
                if other != self.number and self.has_retired() and other not in self.passed:
                    self.look(other)
                    yield
        if self.table.passes == 1 and self.has_retired():
            self.enter()
            yield
            self.leave()
            yield

    def read(self, keys):
        """A snapshot with some look-ups."""
        yield from self.begin(1)
        for key in keys:
            yield from self.look_up(key)
        yield from self.end()

    def look_up(self, key):
        node, side, entry, child = yield from self.search(key)
        found = None
        if child:
            found = self.load("LoadKeyOrVal", self.table.node(child, VAL))
            yield
        if found != self.table.maps[self.at].get(key):
            raise Refused("key %d at %d: found %r, and not %r" % (key, self.at, found, self.table.maps[self.at].get(key)))

    def live(self, keys):
        """Random requests, one after another."""
        rng, line = self.rng, 0
        while True:
            line += 1
            key = rng.randrange(keys)
            choice = rng.random()
            if choice < 0.2 or not self.left:
                yield from self.read([rng.randrange(keys) for _ in range(rng.choice([1, 1, 1, 12]))])
                continue
            change = rng.randrange(1000) if choice < 0.6 else None
            answered = False
            while not answered and self.left:
                if not self.has_slots():
                    yield from self.settle()
                    if not self.has_slots():
                        break
                answered = yield from self.try_update(line, key, change)
            yield
