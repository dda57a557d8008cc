"""A plain model of the trees of an environment, and of what each step of a checkpoint is answered.

A tree is a BIN with slots for names, or an IN with its children in order. A node's image is what its slots showed when it was logged last; the
node is dirty if they show something else now. The model knows nothing of the program: it follows docs/FORMAT.md and docs/ANSWERS.md.
"""

import itertools

FANOUT = 4
CATALOG = 0  # the catalog's place among the databases


class Node:
    def __init__(self, number, level, slots):
        self.number, self.level = number, level
        self.slots = slots  # of a BIN: each name's committed version, None where there is none; of an IN: its children, by their lower bounds
        self.image, self.noted = None, False

    def content(self):
        if self.level == 0:
            return sorted((name, version) for name, version in self.slots.items() if version is not None)
        return [(child.number, child.image) for _, child in sorted(self.slots.items())]

    def is_dirty(self):
        return self.image is None or self.image[1] != self.content()


class Trees:
    """The trees by their databases, and the checkpoint that is under way."""

    def __init__(self):
        self.numbers, self.times = itertools.count(1), itertools.count(1)
        self.roots = {CATALOG: self.new_node(0, {})}
        self.numbered = {}  # a database's number, by its name
        self.databases = itertools.count(1)
        self.made = []  # the slots that the transaction under way made, and the names that it wrote, by database
        self.written = {}
        self.under_way = False

    def new_node(self, level, slots):
        return Node(next(self.numbers), level, slots)

    def log(self, node):
        node.image = (next(self.times), node.content())

    def nodes(self, db):
        """Those of a tree, with each one's level."""
        waiting = [self.roots[db]]
        for node in waiting:
            waiting += node.slots.values() if node.level else []
        return waiting

    # Changes.

    def create(self, name):
        self.write(CATALOG, name, True)
        self.remake(name)

    def remake(self, name):
        """Gives a database a new number, and an empty tree."""
        self.roots.pop(self.numbered.get(name), None)
        number = self.numbered[name] = next(self.databases)
        self.roots[number] = self.new_node(0, {})

    def truncate(self, name):
        self.write(CATALOG, name, True)
        self.remake(name)

    def remove(self, name):
        self.write(CATALOG, name, False)
        del self.roots[self.numbered.pop(name)]

    def change(self, name, at, is_there):
        self.write(self.numbered[name], at, is_there)

    def write(self, db, at, is_there):
        """A change is logged: the name has a slot, for which nodes may be split, and the transaction's version is not committed yet."""
        if at not in self.path(db, at)[-1].slots:
            self.place(db, at)
            self.made.append((db, at))
        self.written[db, at] = next(self.times) if is_there else "deleted"

    def path(self, db, at):
        """The nodes from the root down to the BIN of a name."""
        path = [self.roots[db]]
        while path[-1].level:
            children = path[-1].slots
            path.append(children[max(low for low in children if low <= at)])
        return path

    def place(self, db, at):
        """Puts a slot in its BIN. Full nodes are split from there up, and then the halves of all are logged, and a new root."""
        path, halves = self.path(db, at), []
        low, slot = at, None
        while path:
            node = path.pop()
            into = node
            if len(node.slots) >= FANOUT:
                into, right, bound = self.split(node, low)
                halves += [node, right]
            else:
                right = None
            into.slots[low] = slot
            if right is None:
                break
            low, slot = bound, right
            if not path:
                root = self.new_node(node.level + 1, {self.lowest(db): node, bound: right})
                root.noted = node.noted
                self.roots[db] = root
                halves.append(root)
        for node in halves:
            self.log(node)

    def lowest(self, db):
        return "" if db == CATALOG else (b"", b"")

    def split(self, node, low):
        """Parts a node in two: the half for a new slot, the right half, and where that begins."""
        names = sorted(node.slots)
        stay = (len(names) + 1) // 2
        right = self.new_node(node.level, {name: node.slots.pop(name) for name in names[stay:]})
        right.noted = node.noted
        bound = names[stay]
        return (node if low < bound else right), right, bound

    def end(self, keeps):
        """The transaction ends: its versions are committed, or the slots that it made go."""
        if keeps:
            for (db, at), version in self.written.items():
                if db in self.roots:
                    self.path(db, at)[-1].slots[at] = version
        else:
            for db, at in self.made:
                del self.path(db, at)[-1].slots[at]
        self.made, self.written = [], {}

    # Steps.

    def noted_and_dirty(self):
        """In the order in which they are logged."""
        found = [(node.level, db, node.number, node) for db in self.roots for node in self.nodes(db) if node.noted and node.is_dirty()]
        return [node for *_, node in sorted(found, key=lambda it: it[:3])]

    def note(self, node):
        below = [self.note(child) for child in node.slots.values()] if node.level else []
        node.noted = node.is_dirty() or any(below)
        return node.noted

    def step(self, step):
        """What a step is answered."""
        if step == "sync":
            return "ok"
        if step == "begin":
            if self.under_way:
                return "incheckpoint"
            self.under_way = True
            for root in self.roots.values():
                self.note(root)
            return "ok"
        if not self.under_way:
            return "nocheckpoint"
        left = self.noted_and_dirty()
        if step == "flush":
            if not left:
                return "nothing"
            self.log(left[0])
            return f"flushed {left[0].number}"
        if left:
            return f"nodesleft {len(left)}"
        self.under_way = False
        for db in self.roots:
            for node in self.nodes(db):
                node.noted = False
        return "ok"
