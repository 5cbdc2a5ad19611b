"""Runs `explain` and `report --frames` of the compiled program.

The sentences of `explain`, in shown.txt, and the numbers of its drawings are written by hand, from the rules of
docs/CERTIFICATES.md over rounds that a person can count. The verdict has to be that of `check`, whatever the certificate.
The frames are counted again from the page file and from the letters of `show`.
"""

import json
import pathlib
import random
import re
import xml.etree.ElementTree as ElementTree

from checker import CLOSE, CLOSED_END as CLOSED, CUT, IDLE_END as IDLE, OPEN_END as OPEN, SPLIT
from drawings import SVG, box, check_form
from rounds import page_file, small_pages
from tally import ANY, ENDS, TOP, Text, run
from trees import UNEXAMINED, certificate, overload as overload_of

EXAMPLES = TOP / "examples"
HEADER = "address,kind,message\n"
TONES = HEADER + "".join(f"{address},tone0,\n" for address in (5, 13, 21))
LOOP = HEADER + f"0,numeric,{'5' * 75}\n"


def set_of(places):
    """A set of slots or boundaries, as certificates have it."""
    return sum(1 << place for place in places)


def overload(*slots):
    return overload_of(set_of(slots))


def split(number, m, below, from_m):
    return SPLIT, 0, number, m, (below, from_m)


def cut(boundaries, number, *children):
    return CUT, set_of(boundaries), number, 0, children


def close(*children):
    return CLOSE, 0, 0, 0, children


APART = (EXAMPLES / "loops-apart.csv").read_text()
CUT_APART = cut([0], 48, overload(0), overload(15))
# The same from the other side: the second loop stands between boundaries 6 and 7, and an idle of slot 5 or 7 leads there.
AROUND = [at for at in range(16) if at not in (6, 7)]
CUT_AROUND = cut(AROUND, 48, overload(5), overload(7))
# Two pages of 2 codewords and two of 18 in one frame, each of which covers slot 7 once, and by a whole turn once more.
TURNS = HEADER + "".join(f"{address},numeric,{'5' * digits}\n" for address, digits in ((3, 5), (11, 85), (19, 5), (27, 85)))
# Loops of all frames, two of them of frame 7, and pages of 17 codewords of frames 0 and 1.
MANY = HEADER + "".join(f"{address},numeric,{'5' * digits}\n" for address, digits in [*((n, 75) for n in range(8)), (15, 75), (8, 80), (9, 80)])
LAST_TONE = LOOP + "7,tone0,\n"

# Certificates that are shown: their name in shown.txt, the page file, and more words.
SHOWN = [
    ("the worked case", APART, certificate(OPEN, 3, CUT_APART)),
    ("the worked case from the other side", APART, certificate(OPEN, 3, CUT_AROUND)),
    ("a cut below a cut", APART, certificate(OPEN, 3, cut([0], 48, CUT_AROUND, overload(15)))),
    ("whole turns", TURNS, certificate(OPEN, 6, overload(7))),
    ("many frames and lengths", MANY, certificate(OPEN, 11, overload(15))),
    ("its root alone", APART, certificate(OPEN, 3, CUT_APART), "--depth", "1"),
    ("its sum alone", APART, certificate(OPEN, 3, CUT_APART), "--depth", "0"),
    ("the sample round", (EXAMPLES / "round.csv").read_text(), certificate(OPEN, 2, overload(*range(16)))),
    ("a full frame", TONES, certificate(OPEN, 2, overload(10, 11))),
    ("two cases", TONES, certificate(OPEN, 2, split(81, 1, overload(11), overload(10, 11)))),
    ("two cases at 2", TONES, certificate(OPEN, 2, split(81, 2, overload(11), overload(10))), "--depth=1"),
    ("one batch", TONES, certificate(OPEN, 1, overload(10, 11))),
    ("a closed end that a page may make", LAST_TONE, certificate(CLOSED, 2, close(overload(15), overload(15)))),
    ("a closed end", LOOP, certificate(CLOSED, 2, close(overload(15)))),
    ("a closed end with tones", TONES, certificate(CLOSED, 2, overload(10, 11))),
    ("an idle last", LOOP, certificate(IDLE, 2, close(overload(15)))),
    ("an idle last with tones", TONES, certificate(IDLE, 2, overload(10, 11))),
]
# Those that are not.
REFUSED = [
    ("another slot", APART, certificate(OPEN, 3, cut([0], 48, overload(0), overload(0)))),
    ("one batch more", APART, certificate(OPEN, 4, overload(15))),
    ("one page alone", LOOP, certificate(OPEN, 2, overload(15))),
    ("a missing way", APART, certificate(OPEN, 3, cut([0, 1], 48, overload(0), overload(15), overload(1)))),
    ("without boundary 0", APART, certificate(OPEN, 3, cut([6], 48, overload(0), overload(15)))),
    ("a class that may stay", APART, certificate(OPEN, 3, cut([0], 0, overload(0), overload(15)))),
    ("a class of no pages", APART, certificate(OPEN, 3, cut([0], 5, overload(0), overload(15)))),
    ("a node too many of the smaller side", APART, certificate(OPEN, 3, cut(AROUND, 48, overload(5), overload(7), overload(8)))),
    ("a split too high", TONES, certificate(OPEN, 2, split(81, 4, overload(11), overload(10)))),
    ("a deep one", TONES, certificate(OPEN, 2, split(81, 1, split(81, 1, overload(11), overload(11)), overload(10, 11)))),
    ("a close of the open end", LOOP, certificate(OPEN, 2, close(overload(15)))),
    ("a close of no batches", LOOP, certificate(CLOSED, 1, close(overload(15)))),
    ("an idle last of no batches", LOOP, certificate(IDLE, 1, close(overload(15)))),
    ("a late tone for an idle end", LOOP, certificate(IDLE, 2, close(overload(15), overload(15)))),
    ("not examined", TONES, certificate(OPEN, 2, UNEXAMINED)),
    ("a cut of no batches", APART, certificate(OPEN, 1, CUT_APART)),
]
TEXTS = dict(re.findall(r"^== (.*)\n((?:(?!==).+\n)*)", pathlib.Path(__file__).with_name("shown.txt").read_text(), re.MULTILINE))


def explained(folder, pages, text, *words):
    (folder / "pages.csv").write_text(pages)
    (folder / "cert.bin").write_bytes(text)
    return run(["explain", folder / "pages.csv", folder / "cert.bin", *words])


def try_sentences(tally, folder):
    for name, pages, text, *words in SHOWN:
        tally.check_done(f"explain: {name}", explained(folder, pages, text, *words), 0, TEXTS[name].encode())
    for name, pages, text in REFUSED:
        for words in ([], ["--depth", "1"], ["--verbose"]):
            tally.check_done(f"explain, refused: {name} {words}", explained(folder, pages, text, *words), 1, TEXTS[name].encode())
    done = explained(folder, TONES, certificate(OPEN, 2, overload(3, 10, 11)))
    checked = run(["check", folder / "pages.csv", folder / "cert.bin"])
    tally.check("explain: slots of more frames", done.returncode == checked.returncode, done)


def kind(frame, length):
    return {"frame": frame, "length_modulo_16": length, "alone": False}


def try_json(tally, folder):
    done = explained(folder, APART, certificate(OPEN, 3, CUT_APART), "--json")
    shares = [{"pages": kind(frame, 0), "count": 1, "least": 1} for frame in (0, 3)]

    def leaf(number, slot):
        fact = {"kind": "overload", "slots": [slot], "least": 2, "room": 1, "shares": shares}
        limits = {"cap": [2 - (at == slot) for at in range(16)], "classes": []}
        return {"node": number, "reached": {"by": "idle", "slot": slot}, "holds": True, "limits": limits, "fact": fact}

    root = {"kind": "cut", "boundaries": [0], "pages": kind(3, 0), "certain": True, "ways": 2, "children": 2}
    wanted = {
        "shown": True, "end": "open", "batches": 3, "pages": 2, "codewords": 32, "room": 32, "nodes": 3, "refused": None,
        "listed": [
            {"node": "1", "reached": {"by": "root"}, "holds": True, "limits": {"cap": [2] * 16, "classes": []}, "fact": root},
            leaf("1.1", 0), leaf("1.2", 15),
        ],
    }
    tally.check("the worked case as JSON", done.returncode == 0 and json.loads(done.stdout) == wanted, done)
    tally.check("JSON is one line", done.stdout.count(b"\n") == 1 and done.stdout.endswith(b"}\n"), done)
    told = json.loads(explained(folder, APART, certificate(OPEN, 3, CUT_AROUND), "--json", "--depth", "1").stdout)
    around = root | {"boundaries": AROUND, "named": [6, 7]}
    tally.check("a cut that is named by its smaller side, as JSON", told["listed"][0]["fact"] == around, told)
    text = certificate(OPEN, 3, cut([0], 48, overload(0), overload(0)))
    told = json.loads(explained(folder, APART, text, "--json", "--depth", "1").stdout)
    names = [node["node"] for node in told["listed"]]
    tally.check("refused, as JSON", (told["shown"], told["refused"], names) == (False, "1.2", ["1"]), told)
    text = certificate(OPEN, 2, split(81, 1, overload(11), overload(10, 11)))
    told = json.loads(explained(folder, TONES, text, "--json").stdout)
    fact = {"kind": "split", "pages": kind(5, 1), "slot": 10, "m": 1, "fewest": 0, "most": 3}
    ways = [node["reached"]["by"] for node in told["listed"]]
    limits = [[{"pages": kind(5, 1), "count": 3, "lo": lo, "hi": hi} for lo, hi in bounds] for bounds in ([], [(0, 0)], [(1, 3)])]
    found = [node["limits"] for node in told["listed"]]
    tally.check("limits of a split as JSON", found == [{"cap": [1] * 16, "classes": it} for it in limits], found)
    tally.check("a split as JSON", told["listed"][0]["fact"] == fact and ways == ["root", "first_case", "second_case"], told)


# Measures of the drawing: the ground of the bars, the height of the highest, the left side of slot 0 and the width of a slot.
GROUND, HIGHEST, LEFT, WIDTH = 98, 80, 80, 28
EVERY = list(range(16))
IN_EACH, TWO_PLACES = [2] * 16, [2] * 16
# Three tones of frame 5: each may start in slot 10 or in slot 11, so that no slot alone must have one.
NO_TONE, ONE_PLACE = [0] * 16, [1] * 16
TONES_LATE = [0] * 11 + [3] + [0] * 4

# Of each node of a certificate that is drawn: what must stand in each slot, the room there, the slots that are marked, and the boundaries.
DRAWN = {
    "the worked case": [(IN_EACH, TWO_PLACES, [], [0]), (IN_EACH, [1] + [2] * 15, [0], []), (IN_EACH, [2] * 15 + [1], [15], [])],
    "the worked case from the other side": [
        (IN_EACH, TWO_PLACES, [], [6, 7]), (IN_EACH, [2] * 5 + [1] + [2] * 10, [5], []), (IN_EACH, [2] * 7 + [1] + [2] * 8, [7], []),
    ],
    "a full frame": [(NO_TONE, ONE_PLACE, [10, 11], [])],
    "two cases": [(NO_TONE, ONE_PLACE, [], []), (TONES_LATE, ONE_PLACE, [11], []), ([0] * 10 + [1] + [0] * 5, ONE_PLACE, [10, 11], [])],
    "one batch": [(NO_TONE, [0] * 16, [10, 11], [])],
    "a closed end": [([1] * 16, ONE_PLACE, [], []), ([1] * 16, [1] * 15 + [0], [15], [])],
}
# The same of certificates that are refused.
DRAWN_REFUSED = [
    ("a refused node", APART, certificate(OPEN, 3, cut([0], 48, overload(0), overload(0))), [
        (IN_EACH, TWO_PLACES, [], [0]), (IN_EACH, [1] + [2] * 15, [0], []), (IN_EACH, [2] * 15 + [1], [0], []),
    ]),
    ("a refused root", APART, certificate(OPEN, 3, cut([0, 1], 48, overload(0), overload(15), overload(1))), [
        (IN_EACH, TWO_PLACES, [], [0, 1]),
    ]),
    ("a refused node below those that are drawn", TONES,
     certificate(OPEN, 2, split(81, 1, overload(11), split(81, 2, overload(9), overload(10)))), [
        (NO_TONE, ONE_PLACE, [], []), (TONES_LATE, ONE_PLACE, [11], []), ([0] * 10 + [1] + [0] * 5, ONE_PLACE, [], []),
    ]),
]  # fmt: skip


# What the sentences of a text begin with.
STARTS = r"\n(?= *(?:node [\d.]+[:,]|limits:|so \d+ batch|\.\. \d|at least \d+ batch))"


def drawn():
    """What is drawn: a name, a page file, its certificate, the status, the heading, the last sentence, and the nodes with their lines."""
    shown = {name: row for name, *row in SHOWN}
    rows = [(name, *shown[name][:2], 0, nodes) for name, nodes in DRAWN.items()]
    for name, pages, text, status, nodes in rows + [(*row[:3], 1, row[3]) for row in DRAWN_REFUSED]:
        heading, *lines = (" ".join(it.split()) for it in re.split(STARTS, TEXTS[name]))
        told = [line for line in lines if line.startswith("node ")]
        last = "" if status else f"{lines[-1]} "
        yield name, pages, text, status, heading, last, [(line, *row) for line, row in zip(told, nodes, strict=True)]


def words_of(nodes):
    return " ".join(node.text for node in nodes)


def due_column(slot, least, room, is_marked, most):
    """What a column has: its title, its bar, the line of the room, its numbers, and the wedge of a slot that is named."""
    x, bar, line = LEFT + WIDTH * slot, HIGHEST * least // most, GROUND - HIGHEST * room // most
    codewords = "codeword" if least == 1 else "codewords"
    rect = ("n" if is_marked else "c", x + 4, GROUND - bar, 20, bar)
    paths = [("w", f"M{x + 9} 4h10l-5 8z")] if is_marked else []
    numbers = [(x + 14, y, str(number)) for y, number in ((112, slot), (126, least), (140, room))]
    return f"slot {slot}: {least} {codewords} at the least, room for {room}", rect, [*paths, ("r", f"M{x} {line}h28")], numbers


def found_column(group):
    rect = group.find(SVG + "rect")
    paths = [(path.get("class"), path.get("d")) for path in group.findall(SVG + "path")]
    numbers = [(int(text.get("x")), int(text.get("y")), text.text) for text in group.findall(SVG + "text")]
    return group.findtext(SVG + "title"), (rect.get("class"), *box(rect)), paths, numbers


def try_drawings(tally, folder):
    for name, pages, text, status, heading, last, nodes in drawn():
        done = explained(folder, pages, text, "--svg")
        tally.check_done(f"drawing: {name}", done, status, Text(lambda out: out.endswith(b"</svg>\n")))
        root = ElementTree.fromstring(done.stdout)
        check_form(tally, f"drawing: {name}", root, done.stdout, "pocsag-why")
        # The texts stand one below the other, and the last of them in the drawing.
        bases, tall = [int(node.get("y")) for node in root.findall(SVG + "text")], int(root.get("height"))
        holds = root.get("viewBox") == f"0 0 540 {tall}" and bases == sorted(set(bases)) and bases[-1] < tall
        tally.check(f"drawing: {name}: size", holds, (root.attrib, bases))
        tally.check(f"drawing: {name}: heading", root.findtext(SVG + "title") == heading, root.findtext(SVG + "title"))
        tally.check_same(f"drawing: {name}: words", words_of(root.findall(SVG + "text")), f"{heading} {last}{root.findtext(SVG + 'desc')}")
        groups = root.findall(SVG + "g")
        tally.check(f"drawing: {name}: nodes", [words_of(g.findall(SVG + "text")) for g in groups] == [n[0] for n in nodes], words_of(groups[0]))
        most = max(1, *(number for node in nodes for number in [*node[1], *node[2]]))
        for group, (line, least, room, marked, boundaries) in zip(groups, nodes):
            number = line.split(":")[0]
            inner = group.find(SVG + "g")
            due = [due_column(slot, least[slot], room[slot], slot in marked, most) for slot in EVERY]
            tally.check_same(f"drawing: {name}: columns of {number}", [found_column(column) for column in inner.findall(SVG + "g")], due)
            lines = [path.get("d") for path in inner.findall(SVG + "path") if path.get("class") == "s"]
            due = [f"M{LEFT + WIDTH * boundary} 6V102" for boundary in boundaries]
            tally.check(f"drawing: {name}: boundaries of {number}", lines == due, lines)


def try_planned(tally, folder):
    """The certificates of `plan`: their verdict is that of `check`, and each accepted one has a bottleneck. And the frames."""
    chance = random.Random(7)
    for number in range(60):
        pages = small_pages(chance)
        text = page_file(chance, pages)
        (folder / "pages.csv").write_bytes(text)
        end = ENDS[chance.choice([*ENDS])]
        names = [folder / name for name in ("pages.csv", "tx.bin", "cert.bin")]
        batches = int(run(["plan", *names, *end, "--always"]).stdout.split()[3])
        judge = lambda: [run([command, names[0], names[2]]) for command in ("check", "explain")]
        checked, done = judge()
        sum_of_it = f"{len(pages)} page{'s' * (len(pages) > 1)}, {sum(n for _, n in pages)} codeword"
        holds = checked.returncode == done.returncode == 0 and sum_of_it.encode() in done.stdout and b"\nnode 1: " in done.stdout
        tally.check(f"planned {number}: explained", holds, (text, done))
        bytes_ = bytearray(names[2].read_bytes())
        bytes_[chance.randrange(9, len(bytes_))] ^= 1 << chance.randrange(8)
        names[2].write_bytes(bytes_)
        checked, done = judge()
        same = (b"not shown" in done.stdout) == (checked.stdout == b"not shown\n")
        tally.check_done(f"planned {number}: the verdict of check", done, checked.returncode, ANY, checked.stderr, same)
        words = ["report", names[0], "--rate", "1200", *end, "--always"]
        plain, framed = run(words), run([*words, "--frames"])
        grid = [line.split()[1:] for line in run(["show", names[1]]).stdout.decode().splitlines()[2:]]
        idles = [sum(row[frame].count(".") for row in grid) for frame in range(8)]
        rows = [
            (idles[frame], frame, f"frame {frame} pages {len(mine)} codewords {sum(mine)} room {idles[frame]}\n")
            for frame in range(8) for mine in [[n for at, n in pages if at == frame]]
        ]
        due = plain.stdout + "".join(row for _, _, row in sorted(rows)).encode()
        tally.check_done(f"planned {number}: frames of {batches} batches", framed, 0, due, ANY)


def try_frames(tally, folder):
    done = run(["report", EXAMPLES / "round.csv", "--rate", "1200", "--frames"])
    # the pages by their addresses, the idles by the letters of `show`
    rows = [(0, 3, 5, 0), (3, 2, 13, 0), (5, 1, 6, 0), (6, 0, 0, 0), (7, 0, 0, 0), (1, 0, 0, 2), (4, 0, 0, 2), (2, 0, 0, 4)]
    wanted = [f"frame {frame} pages {pages} codewords {words} room {room}" for frame, pages, words, room in rows]
    told = done.stdout.decode().splitlines()
    tally.check("the frames of the sample round", done.returncode == 0 and told[7:] == wanted, told)
