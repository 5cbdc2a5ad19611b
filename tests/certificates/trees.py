"""Trees of certificates as the second checker has them, (tag, set, class, m, children): their bytes, accepted
trees that are built at random for small rounds, and trees that differ from others in one thing."""

import checker
from checker import CLOSE, CUT, IDLE_END, OPEN, OVERLOAD, SPLIT

UNEXAMINED = (OPEN, 0, 0, 0, ())


def two_bytes(number):
    return (number % 65536).to_bytes(2, "big")


def spelled(tree):
    """The bytes of a tree, whether its fields are in their ranges or not."""
    tag, members, c, m, children = tree
    head = {
        OVERLOAD: lambda: two_bytes(members),
        SPLIT: lambda: bytes([c % 256]) + two_bytes(m),
        CUT: lambda: two_bytes(members) + bytes([c % 256]) + two_bytes(len(children)),
        OPEN: lambda: b"",
        CLOSE: lambda: bytes([len(children) % 256]),
    }[tag]()
    return bytes([tag]) + head + b"".join(map(spelled, children))


def certificate(end, batches, tree, first=False):
    """The bytes of a certificate: in the version of its end, or in the first where that is asked for."""
    number = (batches % 2**32).to_bytes(4, "big")
    head = b"PCB1" if first else b"PCB4" if end == IDLE_END else b"PCB2" + bytes([end])
    return head + number + spelled(tree)


def overload(members):
    return OVERLOAD, members, 0, 0, ()


def halved(number, first, last, leaf):
    """The bytes of a tree whose splits part how many pages of a class start early, with the bytes of one leaf for each number from the
    first to the last."""
    if first == last:
        return leaf
    middle = (first + last + 1) // 2
    head = bytes([SPLIT, number]) + two_bytes(middle)
    return head + halved(number, first, middle - 1, leaf) + halved(number, middle, last, leaf)


def wide(count):
    """The bytes of a tree of so many nodes, of cuts at {0}."""
    if count == 1:
        return bytes([OPEN])
    children = min(288, count - 1)
    sizes = [(count - 1) // children + (place < (count - 1) % children) for place in range(children)]
    below = {size: wide(size) for size in set(sizes)}
    return bytes([CUT, 0, 1, 0]) + two_bytes(children) + b"".join(below[size] for size in sizes)


def nodes(tree, path=()):
    """Each node of a tree with the way to it from the root."""
    yield path, tree
    for place, child in enumerate(tree[4]):
        yield from nodes(child, (*path, place))


def replaced(tree, path, node):
    """The tree with another node at the end of the way."""
    if not path:
        return node
    tag, members, c, m, children = tree
    below = list(children)
    below[path[0]] = replaced(below[path[0]], path[1:], node)
    return tag, members, c, m, tuple(below)


class Builder:
    """Builds trees that are accepted for a round, an end and a number of batches, at random, by the second checker
    or by a wrong one. A leaf holds by one alone where it can, and does not hold under the limits of the node above."""

    def __init__(self, source, pages, end, batches, rules=checker):
        self.source, self.pages, self.end, self.b, self.rules = source, pages, end, batches - 1, rules
        self.count, self.turns = rules.classes_of(pages, end)
        self.classes = [c for c in range(136) if self.count[c]]
        self.root = ((0,) * 136, self.count, (self.b,) * 16)
        # Slots or boundaries that lie side by side, all of them at last.
        sides = [sum(1 << (start + place) % 16 for place in range(length)) for length in range(1, 16) for start in range(16)]
        sides.append(0xFFFF)
        sets = [0xFFFF, *sides[:16], *source.sample(sides, 70)]
        sets += [source.choice(sides) ^ source.choice(sides) or 1 for _ in range(30)]
        self.sets = [self.loads_of(members) for members in dict.fromkeys(sets)]
        self.cuts = [members for members in dict.fromkeys(sets) if members & 1 or rules is not checker]
        self.fuel = 0

    def loads_of(self, members):
        slots = [slot for slot in range(16) if members >> slot & 1]
        return (members, slots, *self.rules.loads(members, self.count, self.turns))

    def excess(self, loads, limits):
        """By how much the least load of a set is above its caps."""
        _, slots, all_late, gains = loads
        lo, hi, cap = limits
        least = all_late + sum(min(lo[c] * gain, hi[c] * gain) for c, gain in gains)
        return least - sum(cap[slot] for slot in slots)

    def leaf(self, limits, above):
        """An overload that holds by one under the limits, and not under those above; none where there is none."""
        found = [loads[0] for loads in self.sets if self.excess(loads, limits) == 1 and (above is None or self.excess(loads, above) < 1)]
        return overload(self.source.choice(found)) if found else None

    def loose_leaf(self, limits):
        """An overload that holds under the limits, by as little as any of the sets that are tried."""
        found = [(self.excess(loads, limits), loads[0]) for loads in self.sets]
        found = [pair for pair in found if pair[0] > 0]
        return overload(min(found)[1]) if found else None

    def heads(self, kind, limits):
        """Nodes without children that may stand under the limits."""
        lo, hi, _ = limits
        if kind == SPLIT:
            found = [(SPLIT, 0, c, m, ()) for c in self.classes for m in range(lo[c] + 1, hi[c] + 1)]
        elif kind == CUT:
            found = [
                (CUT, members, c, 0, ())
                for members in self.source.sample(self.cuts, min(24, len(self.cuts)))
                for c in self.classes
                if self.rules.certain(c, members, lo, hi, self.count)
            ]
        else:
            found = [(CLOSE, 0, 0, 0, ())]
        return self.source.sample(found, min(8, len(found)))

    def inner(self, path, limits, depth):
        """An accepted node of the first kind of the path, one child of which goes on along it."""
        for head in self.heads(path[0], limits):
            below = self.rules.changes(head, limits, self.end, self.b, self.count, self.turns)
            if below is None or not 1 <= len(below) <= 8:
                continue
            along, children = self.source.randrange(len(below)), []
            for place, change in enumerate(below):
                child = self.node(path[1:] if place == along else (), self.rules.changed(limits, change), limits, depth)
                if child is None:
                    break
                children.append(child)
            else:
                return (*head[:4], tuple(children))
        return None

    def node(self, path, limits, above, depth):
        """An accepted node: of the path's kinds as long as it goes, and then a leaf or what is above some."""
        self.fuel -= 1
        if self.fuel < 0:
            return None
        if path and path[0] == OVERLOAD:
            return self.leaf(limits, above) or self.leaf(limits, None)
        if path:
            return self.inner(path, limits, depth)
        found = self.leaf(limits, above) if self.source.random() < 0.9 else None
        kinds = self.source.sample((SPLIT, CUT, CLOSE), 3) if depth > 0 else ()
        for kind in kinds:
            found = found or self.inner((kind,), limits, depth - 1)
        return found or self.loose_leaf(limits)

    def tree(self, path):
        """An accepted tree with nodes of these kinds on its levels, the root's first; none where none was found."""
        self.fuel = 300
        return self.node(path, self.root, None, 1)

    def judged(self, tree, path=(), limits=None):
        """Each node of an accepted tree, with the way to it and the limits that it stands under."""
        limits = limits or self.root
        yield path, tree, limits
        below = self.rules.changes(tree, limits, self.end, self.b, self.count, self.turns)
        for place, (child, change) in enumerate(zip(tree[4], below)):
            yield from self.judged(child, (*path, place), self.rules.changed(limits, change))

    def beside(self, node, limits):
        """Nodes that differ from this one in one thing: some of them accepted under the limits, most not."""
        tag, members, c, m, children = node
        if tag == OVERLOAD:
            near = [loads[0] for loads in self.sets if self.excess(loads, limits) in (0, 1)]
            yield from (overload(other) for other in self.source.sample(near, min(3, len(near))))
        if tag in (OVERLOAD, CUT):
            for bit in self.source.sample(range(16), 3):
                yield tag, (members ^ 1 << bit) or 1, c, m, children
        if tag in (SPLIT, CUT):
            others = {(c + 1) % 136, (c + 16) % 136, self.source.randrange(136), *self.classes} - {c}
            yield from ((tag, members, other, m, children) for other in others)
        if tag == SPLIT:
            yield from ((tag, members, c, other, children) for other in (m - 1, m + 1) if other >= 1)
            yield from ((tag, members, c, m, (child, child)) for child in children)
        for place in range(len(children)):
            yield tag, members, c, m, (*children[:place], UNEXAMINED, *children[place + 1:])
        for place in range(len(children) - 1):
            before, (one, two), after = children[:place], children[place:place + 2], children[place + 2:]
            yield tag, members, c, m, (*before, two, one, *after)
        if tag in (CUT, CLOSE):
            yield tag, members, c, m, children[1:]
            yield tag, members, c, m, children[:-1]
            yield tag, members, c, m, (*children, children[-1])
        yield from children
        yield UNEXAMINED

    def neighbours(self, tree):
        """Trees that differ from an accepted one in one node."""
        for path, node, limits in self.judged(tree):
            for other in self.beside(node, limits):
                yield replaced(tree, path, other)
