"""Rounds that are worked by hand, for the scripts that plan, check or compare them."""


def of_ones(*pages):
    """Records of numeric pages, each its address and how many digits it has."""
    return b"".join(b"%d,numeric,%s\n" % (address, b"1" * count) for address, count in pages)


def shaped(shapes):
    """The records of a page of each shape, which is its frame and its codewords: numeric pages and tones, each at an address of its frame."""
    kinds = (b"numeric," + b"1" * (5 * length - 5) if length > 1 else b"tone0," for _, length in shapes)
    return [b"%d,%s\n" % (8 * place + frame, kind) for place, ((frame, _), kind) in enumerate(zip(shapes, kinds))]


# Records.
LONE_TONE = b"8,tone0,\n"
ONE_FULL, LOOP_APART, EXACT, TIGHT = of_ones((0, 75)), of_ones((3, 75)), of_ones((0, 25), (3, 45)), of_ones((0, 25), (3, 45), (11, 75))
BOTH_WAYS = of_ones((0, 65)) + b"7,tone0,\n" + of_ones((15, 10), (1, 65))
LONG_ALPHA = b"0,alpha,%s\n" % (b"A" * 4000)
# Rounds at which the search reaches its default limit: the frame and the codewords of each page, and the fewest batches, with either end.
HARD = [
    ("eight pages", [(5, 5), (0, 9), (4, 9), (1, 3), (7, 31), (6, 15), (2, 31), (1, 15)], 9),
    ("eight more", [(0, 21), (0, 29), (2, 31), (3, 24), (6, 15), (1, 31), (5, 15), (4, 14)], 13),
    ("ten pages", [(6, 31), (1, 24), (5, 22), (7, 27), (2, 31), (3, 9), (3, 31), (0, 22), (4, 21), (4, 15)], 16),
]
