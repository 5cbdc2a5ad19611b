"""A second checker of certificates: python3 checker.py PAGES CERT

It answers whether the certificate shows that no legal transmission of the page file's round has fewer than
B batches. It was written from docs/CERTIFICATES.md alone, whose names it uses, and needs nothing but Python 3.
"""
import re
import sys
from functools import lru_cache

# For each kind the form of its message, and the bits for a character.
KINDS = {b"numeric": (rb"[0-9*U \-\]\[]{1,4000}", 4), b"alpha": (rb"[\x01-\x7f]{1,4000}", 7),
         b"tone0": (b"", 0), b"tone1": (b"", 0), b"tone2": (b"", 0), b"tone3": (b"", 0)}
LARGEST_FILE = 268435456
UNQUOTED = re.compile(rb"([^,\r\n]*)(,|\r\n|\r|\n|\Z)")  # what of a field is not quoted, and what ends it
OVERLOAD, SPLIT, CUT, OPEN, CLOSE = range(5)
OPEN_END, CLOSED_END, IDLE_END = range(3)
TOLD = ("", " with a closed end", " with an idle last")  # of each end
LO, HI, CAP = range(3)  # the places in limits, which are (lo, hi, cap)


class Fault(Exception):
    """The page file is refused, or the bytes are no certificate."""


def need(condition):
    if not condition:
        raise Fault


def closing_quote(data, at):
    """The place of the first quote from there on that is not doubled, or the end of the file."""
    while True:
        at = data.find(b'"', at)
        if at < 0 or data[at + 1:at + 2] != b'"':
            return at if at >= 0 else len(data)
        at += 2


def field_at(data, at):
    """The field that begins there with its quotes undone, what ends it, and the place behind that."""
    quoted = b""
    if data[at:at + 1] == b'"':
        close = closing_quote(data, at + 1)
        quoted, at = data[at + 1:close].replace(b'""', b'"'), min(close + 1, len(data))
    rest = UNQUOTED.match(data, at)
    return quoted + rest[1], rest[2], rest.end()


def records(data):
    """The records of a CSV file, each a list of fields."""
    fields, at = [], 3 if data.startswith(b"\xef\xbb\xbf") else 0
    while at < len(data) or fields:
        if not fields and data[at:at + 1] in (b"\n", b"\r"):  # a line with no byte in it
            at += 1
            continue
        field, end, at = field_at(data, at)
        fields.append(field)
        if end != b",":
            yield fields
            fields = []


def page_of(fields):
    """The address and the length of a page."""
    need(len(fields) == 3 and re.fullmatch(rb"[0-9]{1,7}", fields[0]) and fields[1] in KINDS)
    address, (form, bits), message = int(fields[0]), KINDS[fields[1]], fields[2]
    need(address <= 2097151 and not 2007664 <= address <= 2007671 and not 2045056 <= address <= 2045063)
    need(re.fullmatch(form, message))
    return address, 1 + (bits * len(message) + 19) // 20


@lru_cache(maxsize=4)
def pages_of(data):
    """The pages of a page file, each as (frame, length); None where the file is refused."""
    lengths = {}
    try:
        need(len(data) <= LARGEST_FILE)
        rows = records(data)
        need(next(rows, None) == [b"address", b"kind", b"message"])
        for fields in rows:
            address, length = page_of(fields)
            need(address not in lengths and len(lengths) < 20000)
            lengths[address] = length
        need(lengths)
    except Fault:
        return None
    return tuple((address % 8, length) for address, length in lengths.items())


def classes_of(pages, end):
    """`count` and `turns` by class, for pages (frame, length) and the end."""
    count, turns = [0] * 136, [0] * 136
    for frame, length in pages:
        c = 128 + frame if end == CLOSED_END and length == 1 else 16 * frame + length % 16
        count[c] += 1
        turns[c] += length // 16
    return tuple(count), tuple(turns)


def parse(data):
    """(end, B, tree) or None. A node is (tag, set, class, m, children), with 0 for what it has not."""
    at, nodes, top = 4, 0, []
    first = data[:4] == b"PCB1"
    last_tag, last_class, last_m, most = (OPEN, 127, 2000, 272) if first else (CLOSE, 135, 20000, 288)

    def number(size, least, greatest):
        nonlocal at
        value = int.from_bytes(data[at:at + size], "big")
        need(at + size <= len(data) and least <= value <= greatest)
        at += size
        return value

    try:
        need(data[:4] in (b"PCB1", b"PCB2", b"PCB4"))
        end = OPEN_END if first else IDLE_END if data[:4] == b"PCB4" else number(1, OPEN_END, CLOSED_END)
        batches = number(4, 1, 2 ** 32 - 1)
        wanted = [[1, top]]  # for each depth how many nodes are still to come, and where they go
        while wanted:
            if wanted[-1][0] == 0:
                wanted.pop()
                continue
            wanted[-1][0] -= 1
            nodes += 1
            need(len(wanted) <= 300 and nodes <= 1000000)
            tag = number(1, 0, last_tag)
            members = number(2, 1, 65535) if tag in (OVERLOAD, CUT) else 0
            c = number(1, 0, last_class) if tag in (SPLIT, CUT) else 0
            m = number(2, 1, last_m) if tag == SPLIT else 0
            below = (number(2, 2, most) if tag == CUT else number(1, 1, 2) if tag == CLOSE else
                     2 if tag == SPLIT else 0)
            children = [] if below else ()
            wanted[-1][1].append((tag, members, c, m, children))
            if below:
                wanted.append([below, children])
        need(at == len(data))
    except Fault:
        return None
    return end, batches, top[0]


def run(c, late):
    """Of the early run (late = 0) or the late run (late = 1): its two ends, and the slots beside whole turns."""
    frame, rest = (c // 16, c % 16) if c < 128 else (c - 128, 1)
    start = 2 * frame + late
    return 1 << start | 1 << (start + rest) % 16, sum(1 << (start + i) % 16 for i in range(rest))


IDLES = [1 << i | 1 << (i + 1) % 16 for i in range(16)]  # the ends; sets are numbers of 16 bits throughout
RUNS = [run(c, 0) + run(c, 1) for c in range(136)]  # early ends, early slots, late ends, late slots


def size(members):
    return bin(members).count("1")


def crosses(members, ends):
    return members & ends not in (0, ends)


def touches_outside(members, ends):
    return members & ends != ends


@lru_cache(maxsize=4096)
def loads(members, count, turns):
    """The load of a set with no page early, and (class, what each early page adds) where that is not 0."""
    all_late, gains = 0, []
    for c in range(136):
        if count[c]:
            early, late = size(members & RUNS[c][1]), size(members & RUNS[c][3])
            all_late += turns[c] * size(members) + count[c] * late
            gains += [(c, early - late)] if early != late else []
    return all_late, gains


def least_load(members, lo, hi, count, turns):
    all_late, gains = loads(members, count, turns)
    return all_late + sum(min(lo[c] * gain, hi[c] * gain) for c, gain in gains)


def certain(c, members, lo, hi, count):
    early, late = touches_outside(members, RUNS[c][0]), touches_outside(members, RUNS[c][2])
    return count[c] >= 1 and (early and late or early and lo[c] >= 1 or late and hi[c] < count[c])


@lru_cache(maxsize=4096)
def crossing(members, count):
    """The slots whose idle crosses a set, and of the classes with pages: (class, early crosses, late crosses)."""
    runs = [(c, crosses(members, RUNS[c][0]), crosses(members, RUNS[c][2])) for c in range(136) if count[c] >= 1]
    return [i for i in range(16) if crosses(members, IDLES[i])], runs


def ways_across(members, lo, hi, cap, count, b):
    """The ways in their order, each as the change that narrows the limits: (place, index, value)."""
    idles, runs = crossing(members, count)
    ways = [(CAP, i, min(cap[i], b - 1)) for i in idles]
    for c, early, late in runs:
        if early and hi[c] >= 1:
            ways.append((LO, c, max(lo[c], 1)))
        if late and lo[c] < count[c]:
            ways.append((HI, c, min(hi[c], count[c] - 1)))
    return ways


def closing_ways(end, lo, hi, cap, count, b):
    """The ways in which the transmission may end as its end asks, as `ways_across` has them."""
    last = [(CAP, 15, min(cap[15], b - 1))]
    if end == CLOSED_END and count[135] >= 1 and lo[135] < count[135]:
        last.append((HI, 135, min(hi[135], count[135] - 1)))
    return last


def changes(node, limits, end, b, count, turns):
    """The change to the limits for each child that the node must have; None where the node is not accepted."""
    (tag, members, c, m, _), (lo, hi, cap) = node, limits
    if tag == OVERLOAD and members != 0:
        room = sum(cap[i] for i in range(16) if members >> i & 1)
        return [] if least_load(members, lo, hi, count, turns) > room else None
    if tag == SPLIT and c <= 135 and lo[c] < m <= hi[c]:
        return [(HI, c, m - 1), (LO, c, m)]
    if tag == CUT and b >= 1 and members & 1 and c <= 135 and certain(c, members, lo, hi, count):
        return ways_across(members, lo, hi, cap, count, b)
    if tag == CLOSE and end in (CLOSED_END, IDLE_END) and b >= 1:
        return closing_ways(end, lo, hi, cap, count, b)
    return None


def changed(limits, change):
    """New limits; the old ones stay as they are, for the other children."""
    place, index, value = change
    row = list(limits[place])
    row[index] = value
    return limits[:place] + (row,) + limits[place + 1:]


def accepted(tree, end, batches, count, turns):
    """Whether the root is accepted: each node has to be, under the limits that its parent leaves it."""
    b, count, turns = batches - 1, tuple(count), tuple(turns)
    waiting = [(tree, ((0,) * 136, count, (b,) * 16), None)]
    while waiting:
        node, limits, change = waiting.pop()
        limits = changed(limits, change) if change else limits
        below = changes(node, limits, end, b, count, turns)
        if below is None or len(below) != len(node[4]):
            return False
        waiting.extend((child, limits, way) for child, way in zip(node[4], below))
    return True


def verdict(pages_bytes, certificate_bytes):
    pages = pages_of(bytes(pages_bytes))
    if pages is None:
        return "refused"
    certificate = parse(bytes(certificate_bytes))
    if certificate is None:
        return "no certificate"
    end, batches, tree = certificate
    if not accepted(tree, end, batches, *classes_of(pages, end)):
        return "not shown"
    return "at least %d batches" % batches + TOLD[end]


def main(pages_file, certificate_file):
    with open(pages_file, "rb") as pages, open(certificate_file, "rb") as certificate:
        answer = verdict(pages.read(LARGEST_FILE + 1), certificate.read())
    print(answer)
    return 0 if answer.startswith("at least") else 1


if __name__ == "__main__":
    sys.exit(main(*sys.argv[1:]) if len(sys.argv) == 3 else "usage: python3 checker.py PAGES CERT")
