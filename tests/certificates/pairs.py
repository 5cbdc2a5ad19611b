"""Pairs of a page file and a certificate on which the two checkers have to agree, and each wrong checker of
wrong.py errs somewhere. They are made without the program, and are the same at each run."""

import csv
import pathlib

import checker
import wrong
from checker import CLOSE, CLOSED_END, CUT, IDLE_END, OPEN_END, OVERLOAD, SPLIT
from rounds import HEADER, edge_files, large_files, near_pages, odd_file, page_file, small_pages
from trees import UNEXAMINED, Builder, certificate, overload, wide

DEEPEST_SHAPE = 5
TREES_OF_A_SHAPE = 3
NEIGHBOURS_OF_A_TREE = 16
TRIES_OF_WRONG_RULES = 16
FOUND_OF_WRONG_RULES = 3
ODD_FILES = 500
LONE_TONE = HEADER + b"8,tone0,\n"
VECTORS = pathlib.Path(__file__).resolve().parents[2] / "vectors"
ENDS = (OPEN_END, CLOSED_END, IDLE_END)
VERSIONS = ((OPEN_END, False), (OPEN_END, True), (IDLE_END, False))  # an end with it, and whether it is the first
THREE_OVERLOADED = certificate(OPEN_END, 1, overload(0x0003))


def shapes(source):
    """Kinds of nodes on the levels of a tree, the root's first, with the end: each kind on each of the levels."""
    for end in ENDS:
        inner = (SPLIT, CUT) if end == OPEN_END else (SPLIT, CUT, CLOSE)
        yield end, (OVERLOAD,)
        for depth in range(1, DEEPEST_SHAPE):
            for level in range(depth):
                for kind in inner:
                    row = [source.choice(inner) for _ in range(depth)]
                    row[level] = kind
                    yield end, (*row, OVERLOAD)


def built(source, end, shape, rules=checker):
    """A page file, the builder of its trees, and a tree of this shape that is accepted by these rules; no tree where
    none was found for this page file."""
    pages = small_pages(source, end)
    codewords = sum(length for _, length in pages)
    batches = max(1, (codewords + 15) // 16 + source.choice([-1, 0, 0, 1, 1, 1]))
    builder = Builder(source, pages, end, batches, rules)
    return page_file(source, pages), builder, builder.tree(shape)


def of_trees(source):
    """Accepted trees of every shape, and trees that differ from them in one thing."""
    for end, shape in shapes(source):
        for _ in range(TREES_OF_A_SHAPE):
            tree = None
            while tree is None:
                pages, builder, tree = built(source, end, shape)
            batches = builder.b + 1
            yield "accepted", pages, certificate(end, batches, tree)
            heads = [(end, batches + 1), (end, batches - 1), *((other, batches) for other in ENDS if other != end)]
            yield from (("another head", pages, certificate(*head, tree)) for head in heads)
            yield "first version", pages, certificate(OPEN_END, batches, tree, first=True)
            others = list(builder.neighbours(tree))
            for other in source.sample(others, min(NEIGHBOURS_OF_A_TREE, len(others))):
                yield "beside", pages, certificate(end, batches, other)
            for _ in range(3):
                near = page_file(source, near_pages(source, builder.pages))
                yield "another round", near, certificate(end, batches, tree)


def of_wrong_rules(source):
    """Trees that were built by the rules of a wrong checker, where the second checker answers otherwise."""
    every = list(shapes(source))
    for _, old, new in wrong.OF_RUNS + wrong.OF_VERDICTS:
        rules, found = wrong.checker_with(old, new), 0
        for _ in range(TRIES_OF_WRONG_RULES):
            end, shape = source.choice(every)
            pages, builder, tree = built(source, end, shape, rules)
            text = tree and certificate(end, builder.b + 1, tree)
            if text and wrong.answer_of(rules, pages, text) != checker.verdict(pages, text):
                yield "by wrong rules", pages, text
                found += 1
            if found == FOUND_OF_WRONG_RULES:
                break


def of_files(source):
    """Page files of every sort, with overloads that hold by one or by nothing for their pages where there are any."""
    files = list(edge_files(source)) + [odd_file(source) for _ in range(ODD_FILES)]
    files += [page_file(source, small_pages(source)) for _ in range(100)]
    for data in files:
        yield "page file", data, THREE_OVERLOADED
        pages = checker.pages_of(data)
        for end in ENDS if pages else ():
            for members in (0xFFFF, 1 << source.randrange(16), 1 << source.randrange(16) | 1 << source.randrange(16)):
                count, turns = checker.classes_of(pages, end)
                least = checker.least_load(members, (0,) * 136, count, count, turns)
                size = checker.size(members)
                for batches in {least // size + 1, least // size, (least - 1) // size + 1} - {0}:
                    yield "page file", data, certificate(end, batches, overload(members))


def chain(depth, leaf=UNEXAMINED):
    tree = leaf
    for _ in range(depth - 1):
        tree = (SPLIT, 0, 0, 1, (tree, UNEXAMINED))
    return tree


def at_edges():
    """Trees with a field at the edge of its range and just beyond it, in each version."""
    for members in (0, 1, 65535):
        yield overload(members)
        yield CUT, members, 0, 0, (UNEXAMINED,) * 2
    for c in (0, 126, 127, 128, 134, 135, 136, 255):
        yield SPLIT, 0, c, 1, (UNEXAMINED,) * 2
        yield CUT, 1, c, 0, (UNEXAMINED,) * 2
    for m in (0, 1, 1999, 2000, 2001, 19999, 20000, 20001, 65535):
        yield SPLIT, 0, 0, m, (UNEXAMINED,) * 2
    for count in (0, 1, 2, 3, 271, 272, 273, 287, 288, 289, 300):
        yield CUT, 1, 0, 0, (UNEXAMINED,) * count
    for count in (0, 1, 2, 3, 255):
        yield CLOSE, 0, 0, 0, (UNEXAMINED,) * count
    yield UNEXAMINED
    yield from (chain(depth, leaf) for depth in (2, 299, 300, 301) for leaf in (UNEXAMINED, overload(1)))


def of_bytes():
    """Certificates at the edges of their ranges, cut short, or too long."""
    for end, first in VERSIONS:
        for tree in at_edges():
            for batches in (0, 1, 2, 2**32 - 1) if tree == overload(1) else (1,):
                text = certificate(end, batches, tree, first)
                yield "edge", LONE_TONE, text
                yield "edge", LONE_TONE, text + b"\0"
                yield from (("edge", LONE_TONE, text[:cut]) for cut in range(max(0, len(text) - 4), len(text)))
        whole = certificate(end, 2, (SPLIT, 0, 0, 1, (overload(3), (CUT, 1, 0, 0, (UNEXAMINED,) * 2))), first)
        for place in range(len(whole)):
            yield "cut short", LONE_TONE, whole[:place]
            near = {whole[place] ^ 1, whole[place] ^ 32, whole[place] ^ 128}
            for byte in sorted(near | {0, 1, 2, 3, 4, 5, *range(0x30, 0x36), 0x51, 255}):
                yield "another byte", LONE_TONE, whole[:place] + bytes([byte]) + whole[place + 1:]
    yield from (("no page file", data, text) for data in (b"", HEADER) for text in (b"", b"PCB2", THREE_OVERLOADED))


def of_vectors():
    """The published vectors, but for those that are too large for the repository."""
    with open(VECTORS / "table.csv", newline="") as table:
        for row in csv.DictReader(table):
            pages, text = VECTORS / row["pages"], VECTORS / row["cert"]
            if pages.exists() and text.exists():
                yield f"vector {row['name']}", pages.read_bytes(), text.read_bytes()


def large():
    """Pairs that take long: many pages, many nodes."""
    yield from (("many pages", data, THREE_OVERLOADED) for data in large_files())
    yield from (("many nodes", LONE_TONE, b"PCB2\0\0\0\0\1" + wide(count)) for count in (1_000_000, 1_000_001))


def pairs(source):
    """All pairs, each with what it is, in an order in which every sort comes soon."""
    made = [*of_trees(source), *of_wrong_rules(source), *of_files(source), *of_bytes()]
    source.shuffle(made)
    return [*of_vectors(), *made, *large()]
