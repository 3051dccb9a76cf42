"""What the rule says of the plain tree and of searches on plain links, checked of the words and the seats of
random_runs.py.

A point is twice a key, so that an odd point lies between two neighbouring keys.
"""
LEFT, RIGHT = 0, 1
KEY, VAL, LOCK, MARK, HEAD, LINK, TAG = 0, 1, 2, 3, 4, 6, 8


class Broken(Exception):
    """A sentence of the rule does not hold."""


class Tree:
    """A tree: a top with its children, or none. It names its nodes."""

    def __init__(self, slot, key, left, right):
        self.slot, self.key, self.left, self.right = slot, key, left, right
        self.nodes = {slot} | nodes_of(left) | nodes_of(right)


def nodes_of(tree):
    return tree.nodes if tree else set()


def tree_now(table, node=0, side=RIGHT):
    child = table.selected(node, side, table.words[0])
    if not child:
        return None
    return Tree(child, table.key(child), tree_now(table, child, LEFT), tree_now(table, child, RIGHT))


def plain_tree(table, node=0, side=RIGHT, met=None):
    """The tree that the plain links spell; no node may stand in it twice."""
    met = set() if met is None else met
    child = table.words[table.link(node, side)]
    if not child:
        return None
    if child in met:
        raise Broken("node %d stands in the plain tree twice" % child)
    met.add(child)
    return Tree(child, table.key(child), plain_tree(table, child, LEFT, met), plain_tree(table, child, RIGHT, met))


class Undone:
    """What updates that have raised have still to do at plain links."""

    def __init__(self, table, seats):
        self.unset, self.out, self.bypassed, self.heirs = set(), set(), set(), set()
        for seat in seats:
            self.out |= set(seat.taken)
            self.unset |= {tuple(item) for item in seat.unset}
            if len(seat.taken) == 1 and seat.added is None:
                self.bypassed.add(seat.taken[0])
            if len(seat.taken) == 2:
                removed, successor = seat.taken
                self.bypassed.add(successor)
                self.heirs.add((removed, successor))
                if not seat.last:
                    copies = {child for _, _, was, child in seat.unset if was == removed}
                    self.unset |= {(copy, RIGHT, successor, table.words[table.link(copy, RIGHT)]) for copy in copies}

    def sets(self, parent, side, was, child=None):
        if child is not None:
            return (parent, side, was, child) in self.unset
        return any(item[:3] == (parent, side, was) for item in self.unset)


def leads_to(bypassed, x, successor, tree):
    while tree:
        if tree.slot == successor and not tree.left and x <= 2 * tree.key:
            return True
        if x < 2 * tree.key and tree.left:
            tree = tree.left
        elif tree.slot in bypassed and not tree.left:
            tree = tree.right
        else:
            return False
    return False


def keys_of(tree):
    return [] if not tree else keys_of(tree.left) + [tree.key] + keys_of(tree.right)


def matches(u, parent, side, plain, now):
    """The plain tree hangs where the tree at the stamp hangs at this link."""
    if not plain:
        return not now or not now.left and not now.right and u.sets(parent, side, 0, now.slot)
    out = plain.slot in u.out
    if now and now.slot == plain.slot:
        return matches(u, plain.slot, LEFT, plain.left, now.left) and matches(u, plain.slot, RIGHT, plain.right, now.right)
    if not out or not u.sets(parent, side, plain.slot):
        return False
    if now and u.sets(parent, side, plain.slot, now.slot):
        below = matches(u, now.slot, LEFT, plain.left, now.left) and matches(u, now.slot, RIGHT, plain.right, now.right)
        if plain.key == now.key and below:
            return True
        points = range(2 * plain.key + 1, 2 * now.key + 1)
        ahead = any(
            removed == plain.slot and all(leads_to(u.bypassed, x, successor, plain.right) for x in points)
            for removed, successor in u.heirs
        )
        if plain.key < now.key and all(key < plain.key for key in keys_of(now.left)) and ahead and below:
            return True
    if plain.slot in u.bypassed and not plain.left and all(plain.key < key for key in keys_of(now)):
        if matches(u, parent, side, plain.right, now):
            return True
    return not plain.right and all(key < plain.key for key in keys_of(now)) and matches(u, parent, side, plain.left, now)


def meets(x, node, tree):
    while tree and tree.slot != node:
        if x == 2 * tree.key:
            return False
        tree = tree.left if x < 2 * tree.key else tree.right
    return tree is not None


def subtree(node, tree):
    if not tree or node not in tree.nodes:
        return None
    return tree if tree.slot == node else subtree(node, tree.left) or subtree(node, tree.right)


def waits_for(seats, seat):
    """The removed nodes and successors of the removals that wait for this seat."""
    found = []
    for other in seats:
        if other.last:
            first = other.wait_found.get(seat.number)
            let = seat.number in other.wait_passed or first is not None and first != seat.table.words[seat.table.section(seat.number)]
            if not let:
                found.append((other.taken[0], other.taken[1]))
    return found


class Rule:
    """The words of a moment, read once."""

    def __init__(self, table, seats):
        self.table, self.seats = table, seats
        self.now, self.plain = tree_now(table), plain_tree(table)
        self.undone = Undone(table, seats)

    def link(self, node, side):
        return self.table.words[self.table.link(node, side)]

    def reached(self, starts):
        met, left = set(), list(starts)
        while left:
            node = left.pop()
            if node and node not in met:
                met.add(node)
                left += [self.link(node, LEFT), self.link(node, RIGHT)]
        return met

    def holds(self, seat):
        if not seat.is_inside():
            return set()
        return self.reached(seat.search_nodes(self.link(0, RIGHT)))

    def says(self, is_so, *what):
        if not is_so:
            raise Broken(" ".join(map(str, what)))

    def check(self):
        self.says(matches(self.undone, 0, RIGHT, self.plain, self.now), "the plain tree does not match")
        held = {seat.number: self.holds(seat) for seat in self.seats}
        free = {node for seat in self.seats for node in seat.free[0]}
        for seat in self.seats:
            self.check_items(seat)
            self.check_reach(seat, held[seat.number], free)
            self.check_turns(seat)
            self.check_leaving(seat)
            if not seat.raised:
                self.check_claims(seat)
                if len(self.seats) == 1 and seat.is_inside():
                    self.check_still(seat)
        for owner in self.seats:
            for seat in self.seats:
                word = self.table.words[self.table.section(seat.number)]
                late = seat.number in owner.found and owner.found[seat.number] != word
                if seat.number in owner.passed or late:
                    self.says(not held[seat.number] & set(owner.batch[0]), "seat", seat.number, "holds a node of a batch")

    def check_items(self, seat):
        plain, now = nodes_of(self.plain), nodes_of(self.now)
        self.says(all(node not in now or node in plain for node in seat.locked), "a locked node is not in the plain tree")
        self.says(len(set(seat.taken)) == len(seat.taken) <= 2, "taken twice")
        if seat.last:
            self.says(len(seat.taken) == 2 and seat.last[0] == seat.taken[1], "the successor")
        for node, side, was, child in seat.unset:
            self.says(was == 0 or was in seat.taken, "what goes was not taken out")
            self.says(was != child, "nothing moves")
            if seat.added is not None and child == seat.added:
                self.says(child not in plain and was == (seat.taken[0] if seat.taken else 0), "the new node is there already")
            else:
                self.says(child == 0 or child in plain, "the child is not there")
            if len(seat.taken) == 2:
                removed, successor = seat.taken
                if was == successor:
                    self.says(seat.last and (node, side) == (seat.last[1], LEFT), "a successor at another link")
                if was == removed and not seat.last:
                    key = self.table.key
                    behind = self.link(child, RIGHT)
                    near = key(successor) == key(child) > key(removed) and not self.link(successor, LEFT) and (not behind or behind in plain)
                    self.says(near, "a near successor")

    def check_reach(self, seat, held, free):
        plain, now = nodes_of(self.plain), nodes_of(self.now)
        self.says(not held & free, "seat", seat.number, "holds a free node")
        self.says(not held & set(seat.batch[0]), "seat", seat.number, "holds a node of its batch")
        for node in held:
            self.says(node not in now or node in plain, "seat", seat.number, "reaches", node, "which is not in the plain tree")
            marked = self.table.words[self.table.node(node, MARK)]
            self.says(node in now or node in plain or marked, "seat", seat.number, "reaches", node, "which is out and unmarked")

    def watches(self, seat):
        """The nodes of which the seat claims something, each with the keys of the turns."""
        low, high = seat.turn_keys()
        if seat.place and seat.place[0] in ("node", "gap"):
            yield seat.place[1], low, high
        for node, side, child, tag, above, below in seat.links:
            if not child:
                yield node, below, above

    def way(self, x, node):
        """The first node of the plain tree on the way of the search for the point; 0 where there is none."""
        met = set()
        while node and node not in nodes_of(self.plain):
            if node in met or x == 2 * self.table.key(node):
                return 0
            met.add(node)
            node = self.link(node, LEFT if x < 2 * self.table.key(node) else RIGHT)
        return node

    def check_claims(self, seat):
        waits, most = waits_for(self.seats, seat), 2 * self.table.most_key + 1
        for start, low, high in self.watches(seat):
            for x in range(-1 if low is None else 2 * low + 1, most + 1 if high is None else 2 * high):
                node = self.way(x, start)
                if not node or meets(x, node, self.plain):
                    continue
                excepted = any(
                    2 * self.table.key(removed) < x and leads_to(self.undone.bypassed, x, successor, subtree(node, self.plain))
                    for removed, successor in waits
                )
                self.says(excepted, "seat", seat.number, "claims the point", x, "of", start, "and comes to", node)

    def ends(self, start):
        """The nodes of the plain tree to which paths from a node lead, through nodes that are out of it."""
        met, found, left, plain = set(), set(), [start], nodes_of(self.plain)
        while left:
            node = left.pop()
            if node in plain:
                found.add(node)
            elif node and node not in met:
                met.add(node)
                left += [self.link(node, LEFT), self.link(node, RIGHT)]
        return found

    def check_turns(self, seat):
        """A turn was made at a node with its key; as long as it is in the plain tree, paths from the place come below
        it."""
        self.says(seat.place or not any(seat.turns), "a search that begins has turned")
        for side in (LEFT, RIGHT):
            if seat.turns[side]:
                node, key = seat.turns[side]
                self.says(node and self.table.key(node) == key, "seat", seat.number, "turned at", node, "with another key")
                turn = subtree(node, self.plain)
                if turn and seat.place[0] == "node":
                    below = nodes_of(turn.left if side == LEFT else turn.right)
                    self.says(self.ends(seat.place[1]) <= below, "seat", seat.number, "is not below its turn")

    def check_leaving(self, seat):
        for node in seat.taken:
            marked = self.table.words[self.table.node(node, MARK)]
            self.says(marked or node in nodes_of(self.plain), node, "left the plain tree unmarked")

    def check_still(self, seat):
        """On a table of one pass nothing moves before the raise."""
        for node, side, child, tag, _, _ in seat.links:
            self.says(self.link(node, side) == child, "a link moved")
            self.says(tag is None or self.table.words[self.table.tag(node, side)] == tag, "a tag moved")
        self.says({node for node in seat.search_nodes(0) if node} <= nodes_of(self.plain), "a node left the plain tree")


def check_searches(table, seats):
    Rule(table, seats).check()
