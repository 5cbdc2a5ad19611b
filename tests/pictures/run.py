"""Runs `show` of the compiled program on transmissions: its text, its listing and its drawing; and makes the pictures of
docs/pictures again and compares them."""

import bisect
import itertools
import math
import random
import re
import xml.etree.ElementTree as ElementTree

from codewords import HEADER, IDLE, ONES as MESSAGE, TONE, ZERO, address_at, codewords_of, pages_in, rows_of, transmission
from drawings import SVG, box, check_form
from tally import ANY, TOP, fault, run
from workspace import module_at

make = module_at("pictures", TOP / "docs/pictures/make.py")
HEAD = "       0  1  2  3  4  5  6  7"
# Measures of the drawing: the left side of the first cell, a cell's width and height, the upper side of the first row,
# and from row to row; how wide the dark part of an address codeword is, and the size of the legend.
LEFT, CELL, HEIGHT, UPPER, ROW = 80, 28, 18, 80, 22
DARK, MOST, COLUMNS, COLUMN = 24, 40, 3, 150
HUES = 12
VISIONS = {
    "normal": ((1, 0, 0), (0, 1, 0), (0, 0, 1)),
    # Machado, Oliveira and Fernandes, 2009, severity 1, over linear light
    "protanopia": ((0.152286, 1.052583, -0.204868), (0.114503, 0.786281, 0.099216), (-0.003882, -0.048116, 1.051998)),
    "deuteranopia": ((0.367322, 0.860646, -0.227968), (0.280085, 0.672501, 0.047413), (-0.011820, 0.042940, 0.968881)),
    "tritanopia": ((1.255528, -0.076749, -0.178779), (-0.078411, 0.930809, 0.147602), (0.004733, 0.691367, 0.303900)),
    "grey print": ((0.2126, 0.7152, 0.0722),) * 3,
}


def pages_of(words):
    """Where each page begins, behind which codeword it ends, and its number: how many pages have a smaller address."""
    found = [(start, end, address_at(words, start)) for start, end in pages_in(words)]
    ordered = sorted(address for _, _, address in found)
    return [(start, end, bisect.bisect_left(ordered, address)) for start, end, address in found]


def label_of(number, is_small=False):
    """The letter of a page, and how many times it came, from the second time on."""
    letter = chr((97 if is_small else 65) + number % 26)
    return letter + (str(number // 26 + 1) if number > 25 else "")


def text_of(words, first=1, last=None):
    """The text of codewords, worked out here by itself: of these batches."""
    letters = ["."] * len(words)
    for start, end, number in pages_of(words):
        letters[start:end] = [chr(65 + number % 26)] + [chr(97 + number % 26)] * (end - start - 1)
    batches, idles = len(words) // 16, letters.count(".")
    share = (200 * idles + len(words)) // (2 * len(words))
    times = ", ".join(f"{-(-1000 * (576 + 544 * batches) // rate)} ms at {rate} bit/s" for rate in (512, 1200, 2400))
    lines = [f"batches {batches}, codewords {len(words) - idles}, idles {idles} ({share}%), airtime {times}", HEAD]
    for batch in range(first - 1, min(last or batches, batches)):
        row = "".join(letters[16 * batch : 16 * batch + 16])
        frames = "".join(" " + row[at : at + 2] for at in range(0, 16, 2))
        lines.append(f"{batch + 1:>3}".ljust(5) + frames)
    return "\n".join([*lines, ""]).encode()


def random_words(chance, batches):
    """Codewords of idles, tones and pages with messages."""
    words, may = [], False
    while len(words) < 16 * batches:
        word = chance.choice([IDLE, TONE, ZERO, MESSAGE, MESSAGE, MESSAGE])
        if word == MESSAGE and not may:
            continue
        may = word != IDLE
        words.append(word)
    return words


def try_text(tally, folder):
    chance, path = random.Random(20261122), folder / "tx"
    for batches in (*(1 + trial // 2 for trial in range(60)), 99, 100, 101, 300, 1_001, 10_001):
        words = random_words(chance, batches)
        path.write_bytes(transmission(words))
        tally.check_done(f"text of {batches} batches", run(["show", path]), 0, text_of(words))


def try_list(tally, folder):
    """The places of the pages in the listing, beside the codewords, and the decoder's fields."""
    page_file, tx = folder / "pages.csv", folder / "tx"
    kinds = (b"tone0,", b"tone1,", b"tone2,", b"tone3,", b"numeric,5550199", b'alpha,"Ward 3, ""bed"" 2"', b"alpha,\x01\x7f")
    many = b"".join(b"%d,%s\n" % (5 * place, kinds[place % len(kinds)]) for place in range(1_000))
    for records in (b'0,numeric,12345\n8,tone2,\n11,alpha,"a,b ""c"""\n', many):
        page_file.write_bytes(HEADER + records)
        run(["plan", page_file, tx, folder / "cert"])
        listed, decoded = (rows_of(run(words).stdout) for words in (["show", tx, "--list"], ["decode", tx]))
        tally.check("listing: header", listed[0] == ["batch", "frame", "slot", "codewords", *decoded[0]], listed)
        tally.check("listing: the decoder's fields", [row[4:] for row in listed] == decoded, (listed, decoded))
        words = codewords_of(tx.read_bytes())
        for (start, end), row in zip(pages_in(words), listed[1:], strict=True):
            batch, frame, slot, length, address = map(int, row[:5])
            due = (start, slot // 2, address % 8, end - start)
            tally.check(f"listing: place of {address}", (16 * (batch - 1) + slot, frame, frame, length) == due, row)


def shown_byte(byte):
    """A byte of a message as the drawing shows it: a control character by its picture."""
    return chr(0x2400 + byte) if byte < 32 else "\u2421" if byte == 127 else chr(byte)


def marks_of(x, y, number):
    """What an address codeword has: its dark part, and the label on it."""
    return [("k", (x, y, DARK, HEIGHT)), ("l", label_of(number), x + 12, y + 13)]


def due_pieces(start, end, number, low, high):
    """What a page has in these rows: a rectangle in each, with its label."""
    found = []
    for row in range(max(low, start // 16), min(high, (end + 15) // 16)):
        begin, behind = max(start, 16 * row), min(end, 16 * row + 16)
        x, y = LEFT + CELL * (begin % 16), UPPER + ROW * (row - low)
        found.append((None, (x, y, CELL * (behind - begin), HEIGHT)))
        found += marks_of(x, y, number) if begin == start else [("m", label_of(number, True), x + 12, y + 13)]
    return found


def piece(node):
    """What a rectangle or a text of the drawing is."""
    return (node.get("class"), *([box(node)] if node.tag == SVG + "rect" else [node.text, int(node.get("x")), int(node.get("y"))]))


def due_groups(words, listed, low, high):
    """The group of each page that has codewords in the rows, and the legend."""
    groups, drawn = [], []
    for (start, end, number), (address, kind, message) in zip(pages_of(words), listed, strict=True):
        pieces = due_pieces(start, end, number, low, high)
        if not pieces:
            continue
        told = f"{label_of(number)}: address {address.decode()}, {kind.decode()}"
        told += ": " + "".join(map(shown_byte, message)) if message or b"tone" not in kind else ""
        groups.append((f"p{number % HUES}", told, pieces))
        drawn.append((number, start, f"{address.decode()} {kind.decode()}"))
    if len(drawn) <= MOST:
        places = {page: place for place, page in enumerate(sorted(drawn))}
        for page in drawn:
            x = LEFT + COLUMN * (places[page] % COLUMNS)
            y = UPPER + ROW * (max(high - low, 0) + places[page] // COLUMNS) + 32
            pieces = [(None, (x, y, CELL, HEIGHT)), *marks_of(x, y, page[0]), ("n", page[2], x + 34, y + 13)]
            groups.append((f"p{page[0] % HUES}", None, pieces))
    return groups, len(drawn)


def check_rows(tally, name, root, words, low, high, drawn):
    """What stands behind the pages: numbers, synchronisation codewords and hatching of each row; words and axes."""
    rows = range(max(high - low, 0))
    texts = [piece(node) for node in root.findall(SVG + "text")]
    heading = f"Batches {low + 1} to {high} of {len(words) // 16}"
    due = [("t", heading, 12, 22), ("e", "frame", 74, 60), ("e", "slot", 74, 74), ("e", "batch", 50, 74)]
    due += [("m", str(frame), LEFT + CELL * (2 * frame + 1), 60) for frame in range(8)]
    due += [("m", str(slot), LEFT + CELL * slot + CELL // 2, 74) for slot in range(16)]
    due += [("e", str(low + row + 1), 50, UPPER + ROW * row + 13) for row in rows]
    bottom = UPPER + ROW * len(rows) + 6
    due += [("n", "idle codeword", 114, bottom + 13), ("n", "synchronisation codeword", 248, bottom + 13)]
    if drawn > MOST:
        due.append(("n", "More than 40 pages: show --list tells each.", LEFT, bottom + 26 + 13))
    tally.check(f"{name}: words and numbers", [text for text in texts if text[0]] == due, texts[:40])
    tally.check(f"{name}: heading for readers of screens", root.findtext(SVG + "title") == heading, root.findtext(SVG + "title"))
    syncs = [(60, UPPER + ROW * row, 12, HEIGHT) for row in rows] + [(230, bottom, 12, HEIGHT)]
    found = [box(node) for node in root.findall(SVG + "rect") if node.get("class") == "s"]
    tally.check(f"{name}: synchronisation codewords", found == syncs, found[:3])
    hatched = [f"M{LEFT} {UPPER + ROW * row + 9}h{16 * CELL}" for row in rows] + [f"M{LEFT} {bottom + 9}h{CELL}"]
    found = [node.get("d") for node in root.findall(SVG + "path") if node.get("class") == "h"]
    tally.check(f"{name}: idles are hatched", found == hatched, found[:3])
    lines = "".join(f"M{LEFT + 2 * CELL * frame} {UPPER - 2}V{UPPER + ROW * len(rows)}" for frame in range(9))
    found = [node.get("d") for node in root.findall(SVG + "path") if node.get("class") == "f"]
    tally.check(f"{name}: lines between frames", found == [lines], found)


def check_drawing(tally, name, text, words, sent, first=1, last=None):
    """A drawing that a parser takes, without scripts and without ids, and what is drawn."""
    root = ElementTree.fromstring(text)
    check_form(tally, name, root, text, "pocsag")
    low, high = first - 1, min(last or len(words) // 16, len(words) // 16)
    listed = [[field.encode("latin-1") for field in row] for row in rows_of(run(["decode", sent]).stdout)[1:]]
    due, drawn = due_groups(words, listed, low, high)
    pieces = lambda group: [piece(node) for node in group if node.tag in (SVG + "rect", SVG + "text")]
    found = [(group.get("class"), group.findtext(SVG + "title"), pieces(group)) for group in root.findall(SVG + "g")]
    wrong = [pair for pair in zip(found, due) if pair[0] != pair[1]]
    tally.check(f"{name}: pages and legend", len(found) == len(due) and not wrong, wrong[:1] or (len(found), len(due)))
    check_rows(tally, name, root, words, low, high, drawn)
    lines = (drawn + 2) // 3 if drawn <= MOST else 1
    tall = 116 + ROW * (max(high - low, 0) + lines)
    tally.check(f"{name}: size", root.get("viewBox") == f"0 0 540 {tall}", root.get("viewBox"))
    return root


def try_svg(tally, folder):
    chance = random.Random(7)
    path = folder / "tx"
    for name, words in (
        ("one idle batch", [IDLE] * 16),
        ("three pages", [ZERO, *[MESSAGE] * 5, TONE, *[MESSAGE] * 15, ZERO, *[MESSAGE] * 9]),
        ("300 batches", random_words(chance, 300)),
        ("1250 batches", [TONE] * 20000),
        ("1250 mixed batches", random_words(chance, 1250)),
    ):
        path.write_bytes(transmission(words))
        done = run(["show", path, "--svg"])
        tally.check_done(f"{name}: status", done, 0, ANY)
        check_drawing(tally, name, done.stdout, words, path)
    page_file = folder / "pages.csv"
    every = bytes(range(1, 128)).replace(b'"', b'""')
    for name, records, due in (
        ("escaped", b'11,alpha,"<b>&amp; ""x"" ]]> \x01\x7f"\n', 'A: address 11, alpha: <b>&amp; "x" ]]> \u2401\u2421'),
        ("all characters", b'11,alpha,"%s"\n20,alpha,"\r\n\t"\n0,numeric,0123456789*U -][\n' % every,
         "B: address 11, alpha: " + "".join(map(shown_byte, range(1, 128)))),
    ):  # fmt: skip
        page_file.write_bytes(HEADER + records)
        run(["plan", page_file, path, folder / "cert"])
        root = check_drawing(tally, name, run(["show", path, "--svg"]).stdout, codewords_of(path.read_bytes()), path)
        titles = [node.text for node in root.iter(SVG + "title")]
        tally.check(f"{name}: the message", due in titles, titles)


def try_rows_wanted(tally, folder):
    """Some rows alone, of text and drawing; and words that name no rows."""
    chance, path = random.Random(28), folder / "tx"
    words = random_words(chance, 40)
    path.write_bytes(transmission(words))
    for word, first, last in (("3-7", 3, 7), ("3-", 3, None), ("5", 5, 5), ("1-1", 1, 1), ("38-99", 38, 99), ("40", 40, 40)):
        tally.check_done(f"rows {word}", run(["show", path, "--rows", word]), 0, text_of(words, first, last))
        done = run(["show", path, f"--rows={word}", "--svg"])
        check_drawing(tally, f"rows {word}", done.stdout, words, path, first, last)
    for word in ("0", "0-3", "7-3", "x", "3-x", "-", "3--5", "", "1-2-3", "+3", "18446744073709551616", "1.5"):
        done = run(["show", path, f"--rows={word}"])
        tally.check_usage(f"rows {word!r} are none", done, also=b"--rows" in done.stderr)
    for word in ("41-50", "41-", "41", "18446744073709551615"):
        for more in ([], ["--svg"]):
            done = run(["show", path, "--rows", word, *more])
            tally.check_done(f"rows {word} are behind the last", done, 1, b"", fault(f"rows {word}: the transmission has 40 batches"))
    cut = folder / "cut"
    cut.write_bytes(path.read_bytes()[:-1])
    tally.check_done("a cut transmission before its rows", run(["show", cut, "--rows", "41"]), 1, b"", fault("the transmission is cut short"))


def linear(part):
    """A part of a colour as light."""
    part /= 255
    return part / 12.92 if part <= 0.04045 else ((part + 0.055) / 1.055) ** 2.4


def lab_of(colour, vision):
    """A colour as CIELAB has it (D65), as it is seen with a vision."""
    light = [linear(int(colour[at : at + 2], 16)) for at in (0, 2, 4)]
    red, green, blue = (min(1, max(0, sum(map(float.__mul__, map(float, row), light)))) for row in VISIONS[vision])
    x = (0.4124564 * red + 0.3575761 * green + 0.1804375 * blue) / 0.95047
    y = 0.2126729 * red + 0.7151522 * green + 0.0721750 * blue
    z = (0.0193339 * red + 0.1191920 * green + 0.9503041 * blue) / 1.08883
    x, y, z = (part ** (1 / 3) if part > 216 / 24389 else (24389 / 27 * part + 16) / 116 for part in (x, y, z))
    return 116 * y - 16, 500 * (x - y), 200 * (y - z)


def try_hues(tally, folder):
    """Hues that stand next to one another in the order of letters, and the dark part of each page beside each tint, are
    at least 23 apart (CIE 1976) for each vision, in light and in dark; labels can be read."""
    path = folder / "tx"
    path.write_bytes(transmission([TONE]))
    style = ElementTree.fromstring(run(["show", path, "--svg"]).stdout).findtext(SVG + "style")
    for scheme, rules, ink in zip(("light", "dark"), style.split("@media"), ("ffffff", "16181c"), strict=True):
        tints = dict(re.findall(r"\.p(\d+) rect\{fill:#(\w{6})\}", rules))
        darks = dict(re.findall(r"\.p(\d+) rect\.k\{fill:#(\w{6})\}", rules))
        due = [str(hue) for hue in range(HUES)]
        tally.check(f"{scheme}: hues", (list(tints), list(darks)) == (due, due), (tints, darks))
        tints, darks = [tints[hue] for hue in due], [darks[hue] for hue in due]
        for vision in VISIONS:
            seen, heads = [lab_of(it, vision) for it in tints], [lab_of(it, vision) for it in darks]
            least = min(math.dist(seen[at - 1], seen[at]) for at in range(HUES))
            tally.check(f"{scheme}, {vision}: neighbours", least >= 23, least)
            least = min(itertools.starmap(math.dist, itertools.product(seen, heads)))
            tally.check(f"{scheme}, {vision}: a page's first codeword beside any page", least >= 23, least)
        least = min(contrast(ink, head) for head in darks)
        tally.check(f"{scheme}: labels on their ground", least >= 4.5, least)


def contrast(*colours):
    """The contrast of two colours, as the guidelines for web contents have it."""
    lights = [[linear(int(colour[at : at + 2], 16)) for at in (0, 2, 4)] for colour in colours]
    dim, bright = sorted(0.2126 * red + 0.7152 * green + 0.0722 * blue for red, green, blue in lights)
    return (bright + 0.05) / (dim + 0.05)


def try_pictures(tally, _folder):
    for name, text in make.pictures().items():
        kept = TOP / "docs/pictures" / name
        tally.check(f"picture {name}", kept.is_file() and kept.read_bytes() == text, "run docs/pictures/make.py")
