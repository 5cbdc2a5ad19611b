"""Page files for the comparison of the checkers: those of rounds with given frames and lengths, and files whose
quotes, line ends and fields are odd."""

from checker import OPEN_END
from codewords import HEADER

BYTE_ORDER_MARK = b"\xef\xbb\xbf"
NUMERIC = b"0123456789*U -]["


def message_of(source, items):
    """A kind and a message of so many codewords behind the address codeword."""
    if items == 0:
        return b"tone%d" % source.randrange(4), b""
    if source.random() < 0.5:
        return b"numeric", b"1" * source.randrange(5 * items - 4, min(5 * items, 4000) + 1)
    fewest, most = (20 * (items - 1)) // 7 + 1, min(20 * items // 7, 4000)
    return b"alpha", b"a" * source.randrange(fewest, most + 1)


def page_file(source, pages):
    """A page file of pages with these frames and lengths."""
    records, used = [], set()
    for frame, length in pages:
        address = source.choice([place for place in range(frame, 800, 8) if place not in used])
        used.add(address)
        records.append(b"%d,%s,%s\n" % (address, *message_of(source, length - 1)))
    return HEADER + b"".join(records)


def small_pages(source, end=OPEN_END):
    """Frames and lengths of a few pages, alike ones among them; most often they leave no idle. For the ends that ask
    something of the last codeword there are often pages that the closed end lets come last."""
    pages = [] if end == OPEN_END else [(7, 1)] * source.choice([0, 1, 1, 2, 3])
    for _ in range(source.randrange(1, 4)):
        page = source.randrange(8), source.choice([1, 1, 2, 3, 4, 6, 8, 10, 12, 15, 16, 16, 17, 20, 31, 32, 33])
        pages += [page] * source.choice([1, 1, 1, 2, 3])
    rest = -sum(length for _, length in pages) % 16
    if rest and source.random() < 0.6:
        pages.append((source.randrange(8), rest))
    return pages


def near_pages(source, pages):
    """The pages with another frame or length of one, or with one page more or less."""
    place = source.randrange(len(pages))
    frame, length = pages[place]
    other = source.choice([
        [((frame + source.choice([1, 7])) % 8, length)],
        [(frame, max(1, length + source.choice([-1, 1])))],
        [(frame, length + 16)],
        [(frame, length)] * 2,
        [],
    ])
    return [*pages[:place], *other, *pages[place + 1:]] or [(frame, length + 1)]


def quoted(field):
    return b'"' + field.replace(b'"', b'""') + b'"'


def odd_field(source, field):
    """The field as it would stand in a file, or with a quote somewhere."""
    if source.random() < 0.8:
        return quoted(field) if source.random() < 0.3 or any(byte in b'",\r\n' for byte in field) else field
    return source.choice([
        quoted(field)[:-1],
        quoted(field[:1]) + field[1:],
        quoted(field) + source.choice([b" ", b"a", b"1", b'"', b'""', b'x"y']),
        field + b'"',
        field[:1] + b'"' + field[1:],
        b" " + quoted(field),
        b"",
    ])


def odd_record(source):
    kind = source.choice([b"tone0", b"tone1", b"tone3", b"numeric", b"alpha", b"numeric", b"alpha", b"tone4", b"Alpha"])
    message = {
        b"numeric": lambda: bytes(source.choice(NUMERIC) for _ in range(source.randrange(4))),
        b"alpha": lambda: source.choice([b"a", b'"', b'a"b', b"x,y", b"l\nm", b"\r", b'""', b"", b"\x7f", b"\x01"]),
    }.get(kind, lambda: b"")()
    record = [b"%d" % source.choice([source.randrange(60), source.randrange(2**21)]), kind, message]
    return record + [b""] if source.random() < 0.02 else record[:2] if source.random() < 0.02 else record


def odd_file(source):
    """A page file that is odd in some places: refused or not."""
    parts = [BYTE_ORDER_MARK] if source.random() < 0.1 else []
    for record in [HEADER.rstrip().split(b","), *(odd_record(source) for _ in range(source.randrange(5)))]:
        parts.append(b",".join(odd_field(source, field) for field in record))
        parts.append(source.choice([b"\n", b"\n", b"\n", b"\r\n", b"\r", b"\n\n", b"\r\r\n", b",\n", b" \n"]))
    return b"".join(parts[:-1] if source.random() < 0.3 else parts)


def edge_files(source):
    """Page files at the edge of a rule: each rule has one that just meets it and one that just does not."""
    one = b"8,tone0,\n"
    messages = [
        (b"numeric", b"1" * 4000), (b"numeric", b"1" * 4001), (b"numeric", b""), (b"numeric", NUMERIC),
        (b"numeric", b"u"), (b"numeric", b"1\n"), (b"numeric", b"+"), (b"numeric", b"a" * 4001), (b"numeric", b":"),
        (b"alpha", b"a" * 4000), (b"alpha", b"a" * 4001), (b"alpha", b""), (b"alpha", b"\0"), (b"alpha", b"\x01\x7f"),
        (b"alpha", b"\x80"), (b"alpha", b'"' * 4000), (b"alpha", b'"' * 4001), (b"alpha", b"a\n\rb"), (b"alpha", b"\n"),
        (b"alpha", b"\xff" * 4001), (b"alpha", b'a"b'), (b"alpha", b'"ab'),
        (b"tone2", b""), (b"tone2", b"1"), (b"tone4", b""), (b"tone", b""), (b"data1", b""),
        (b"Numeric", b"1"), (b" alpha", b"1"), (b"tone0 ", b""),
    ]
    yield from (HEADER + b"8,%s,%s\n" % (kind, quoted(message)) for kind, message in messages)
    addresses = [0, 2097151, 2097152, 2007663, 2007664, 2007671, 2007672, 2045055, 2045056, 2045063, 2045064, 9999999]
    yield from (HEADER + b"%d,tone3,\n" % address for address in addresses)
    texts = [b"", b" 8", b"8 ", b"+8", b"-1", b"0x8", b"0000008", b"00000008", b"12345678", b"\xb2", b"8\n", b"1_0"]
    yield from (HEADER + b"%s,tone3,\n" % quoted(text) for text in texts)
    yield from (HEADER + one + b"%s,tone1,\n" % text for text in (b"8", b"08", b"16", b"2097151"))
    yield from (b"", b"\n", HEADER, HEADER.rstrip(), BYTE_ORDER_MARK, BYTE_ORDER_MARK * 2 + HEADER + one)
    headers = [b"address,kind", b"address,kind,message,", b"Address,kind,message", b'"address",kind,"message"']
    headers += [b"address,kind,message ", b"address;kind;message", b'address,kind,"mess"age', b"a,kind,message"]
    yield from (header + b"\n" + one for header in headers)
    bodies = [b"8,tone0\n", b"8,tone0,,\n", b"8\n", b",,\n", b'""\n', b"8,tone0,", b'8,tone0,""', b'8,tone0,"']
    bodies += [b" \n" + one]
    bodies += [b"\n\r\n\r" + one + b"\n\n", b"8,tone0,\r16,tone1,\r\n24,tone2,\n\r32,tone3,", b'8,"alpha",a"b""c\n']
    bodies += [b'8,alpha,"a""b"c"d"\n16,tone0,\n', b'8,alpha,"a\n16,tone0,\n', b'8,alpha,"a""', b'8,alpha,""""\n']
    bodies += [b'"8"0,tone0,""\n', b'8,"to"ne0,\n', b'8,alpha,ab"\n', b'8,alpha,a"b\n', b'8,alpha,"a"b"\n',
               b'8,alpha,"a""b"\n', b'8,tone0,""x\n', b'8,tone0,"""\n', b'8,numeric,"1""2"\n']
    yield from (HEADER + body for body in bodies)
    yield BYTE_ORDER_MARK + HEADER + one
    yield HEADER + BYTE_ORDER_MARK + one
    yield HEADER + b"\0" + one


def large_files():
    """Page files of as many pages as there may be, and of one more."""
    many = [b"%d,tone0,\n" % address for address in range(20001)]
    yield from (HEADER + b"".join(many[:count]) for count in (19999, 20000, 20001))
    yield HEADER + b"".join(many[:20000]) + b"5,tone0,\n"
