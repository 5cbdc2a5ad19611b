"""`plan --at-most` and `--airtime`: the front, the rest, and each option beside them; and `report` of the same."""

import itertools
import os
import random

from codewords import APART, HEADER
from tally import ANY, BAD_LIMIT, BAD_RATE, NAMED_TWICE, PLAN, fault, room_in, run, said, sampled
from worked import LOOP_APART, ONE_FULL

# Three pages: the first alone and the first two take two batches, and all take three. With its idles in front the first has 22
# codewords, the last one 16.
FIRST, TONE, LAST = PAGES = [LOOP_APART, b"8,tone0,\n", ONE_FULL]
FILE = HEADER + b"".join(PAGES)
# A queue: two pages wait for earlier ones of their addresses. The first page of each address: as in FILE.
TONES = [b"3,tone1,\n", b"8,tone2,\n"]
QUEUE = HEADER + b"".join([FIRST, TONE, TONES[0], LAST, TONES[1]])
FILES = {"pages.csv": FILE, "queue.csv": QUEUE, "apart.csv": APART, "bad.csv": FILE + b"9,tone9,\n", "first.csv": HEADER + FIRST + TONE}
NAMES = ("tx.bin", "cert.bin", "rest.csv", "why.bin")
OTHERS = ["--rest", "rest.csv", "--why", "why.bin"]
NO_PAGES, NEEDS_TWO, BAD_KIND, NO_LATER, STOPPED = map(fault, (
    "there are no pages", "page 1 needs 2 batches", "record 4: unknown kind", "record 3: the address is already there",
    "search limit reached: at least 2 batches, 3 would do",
))  # fmt: skip


def counts_of(sent, batches, left, *aside):
    """What `plan` prints of so many pages."""
    lines = zip(("pages", "batches", "left", "oversized"), (sent, batches, left, *aside))
    return "".join(f"{name} {count}\n" for name, count in lines).encode()


def check_front(tally, room, words, told, sent, **left):
    """Whether a plan of a file prints this, sends these pages, and leaves these in the files of these names."""
    file, *options = words
    done = run(["plan", file, "tx.bin", "cert.bin", *options], room)
    tally.check_done(f"front {words}", done, 0, told + b"verified\n" * ("--verify" in options))
    tally.check_same(f"sent of {words}", sorted(run(["decode", "tx.bin"], room).stdout.splitlines(True)), sorted([HEADER, *sent]))
    for name, pages in left.items():
        tally.check_same(f"{name} of {words}", (room / f"{name}.csv").read_bytes(), HEADER + b"".join(pages))


def try_options(tally, folder):
    """Each option of a plan beside each other one, and the files that they leave."""
    flags = (["--always"], ["--verify"], ["--keep"], ["--strict"], ["--expect", "3"], ["--limit", "1000"], ["--end", "open"])
    for number, chosen in sampled(enumerate(itertools.product((False, True), repeat=len(flags)))):
        room = room_in(folder, f"options {number}", FILES)
        words = [word for is_chosen, flag in zip(chosen, flags) if is_chosen for word in flag]
        check_front(tally, room, ["pages.csv", "--at-most", "2", *OTHERS, *words], counts_of(2, 2, 1), [FIRST, TONE], rest=[LAST])
        tally.check(f"files of a front with {words}", {*os.listdir(room)} == {*NAMES, *FILES}, os.listdir(room))
        checked = run(["check", "first.csv", "cert.bin"], room), run(["check", "pages.csv", "why.bin"], room)
        tally.check("both certificates", [c.stdout for c in checked] == [b"at least 2 batches\n", b"at least 3 batches\n"], checked)


def try_limits(tally, folder):
    """From no batch to more than all need; the same by time."""
    room = room_in(folder, "limits", FILES)
    for batches, count in ((0, None), (1, None), (2, 2), (3, 3), (4, 3), (2**32 - 1, 3)):
        for name in NAMES:
            (room / name).write_bytes(b"old")
        done = run([*PLAN, "--at-most", str(batches), *OTHERS], room)
        if count is None:
            # TX and CERT are emptied before the round is judged, and the other two are written behind it.
            holds = said(done) == (1, b"", NEEDS_TWO) and [(room / name).read_bytes() for name in NAMES] == [b"", b"", b"old", b"old"]
        else:
            holds = said(done) == (0, counts_of(count, count, 3 - count), b"") and ((room / "why.bin").read_bytes() == b"") == (count == 3)
        tally.check(f"at most {batches}", holds, done)
    # 576 bits and 544 a batch: two batches are 1664 bits, 1387 ms at 1200 bit/s, 3250 ms at 512 and 694 ms at 2400.
    for rate, least in ((512, 3250), (1200, 1387), (2400, 694)):
        for ms, *due in ((least - 1, 1, b"", NEEDS_TWO), (least, 0, counts_of(2, 2, 1))):
            tally.check_done(f"{ms} ms at {rate}", run([*PLAN, "--airtime", str(ms), "--rate", str(rate)], room), *due)
    tally.check_done("no pages are left", run(["plan", "rest.csv", *PLAN[2:], "--at-most", "9"], room), 1, b"", NO_PAGES)


# Words of a plan that do not go together, beside those of texts/plan.txt.
WRONG = {it: b"error: " for it in ("--later", "--later --at-most 2")}
WRONG_FILE = b"error: --oversized names a file, and goes with --at-most or --airtime\n"
WRONG |= dict.fromkeys(("--oversized o", "--later --rest r --oversized o", "--at-most 2 --oversized -"), WRONG_FILE)


def try_refusals(tally, folder):
    """Words that do not go together, and names of one file."""
    room = room_in(folder, "refusals", FILES)
    for words, told in WRONG.items():
        tally.check_usage(f"wrong words {words}", run([*PLAN, *words.split()], room), told, {*os.listdir(room)} == {*FILES})
    (room / "link").symlink_to("pages.csv")
    places = ("pages.csv", "./pages.csv", "link", "tx.bin", "./tx.bin", "cert.bin", "./cert.bin", "same", "./same")
    for place, option, keep in itertools.product(places, ("--rest", "--why", "--oversized"), ([], ["--keep"])):
        other = "--why" if option == "--rest" else "--rest"
        done = run([*PLAN, "--at-most", "2", option, place, other, "same", *keep], room)
        holds = said(done) == (1, b"", NAMED_TWICE) or keep and place == "link" and done.returncode == 2
        tally.check(f"{option} {place} {keep}", holds and (room / "pages.csv").read_bytes() == FILE, done)
    done = run(["plan", "bad.csv", "t", "c", "--at-most", "1"], room)
    emptied = {path.name for path in room.iterdir() if path.stat().st_size == 0}
    tally.check_done("a bad record behind the front", done, 1, b"", BAD_KIND, emptied >= {"t", "c"})
    done = run(["plan", "-", "-", "c", "--at-most", "2", "--rest", "r"], room, FILE)
    tally.check_done("a front through pipes", done, 0, ANY, counts_of(2, 2, 1))


def try_later(tally, folder):
    """`--later`: the first page of each address is sent, and the others are left in the order of the file."""
    room = room_in(folder, "later", FILES)
    some, every = (counts_of(2, 2, 3), [FIRST, TONE], [TONES[0], LAST, TONES[1]]), (counts_of(3, 3, 2), PAGES, TONES)
    for words, (told, sent, left) in (
        (["--at-most", "2"], some), (["--at-most", "3"], every), ([], every), (["--airtime", "1387", "--rate", "1200"], some),
    ):  # fmt: skip
        for more in ([], ["--verify"], ["--keep", "--verify", "--strict", "--always", "--expect", "5"]):
            check_front(tally, room, ["queue.csv", "--later", *words, *OTHERS, *more], told, sent, rest=left)
            checked, why = run(["check", "pages.csv", "why.bin"], room), (room / "why.bin").read_bytes()
            tally.check(f"why of {words}", why == b"" if left == TONES else checked.stdout == b"at least 3 batches\n", checked)
    for record, told in (
        (b"3,tone9,\n", "record 6: unknown kind"),
        (b"3,tone0\n", "record 6: three fields are wanted"),
        (b"2045056,tone0,\n", "record 6: reserved address"),
        (b"3,tone0,\n" * 19_996, "record 20001: too many pages"),
    ):
        done = run(["plan", "-", "t", "c", "--later", "--at-most", "2", "--rest", "rest.csv"], room, QUEUE + record)
        tally.check_done(f"a later page that is refused {told}", done, 1, b"", fault(told))
    for bad, told in ((HEADER, NO_PAGES), (b"", fault("the header must be address,kind,message"))):
        tally.check_done(f"no queue {bad}", run(["plan", "-", "t", "c", "--later", "--rest", "rest.csv"], room, bad), 1, b"", told)


def try_oversized(tally, folder):
    """`--oversized`: a page that alone needs more batches than are allowed is set aside, unless all do."""
    room = room_in(folder, "oversized", FILES)
    names = ["--rest", "rest.csv", "--oversized", "over.csv"]
    for file, words, sent, left, aside in (
        ("pages.csv", "--at-most 1", [TONE], [LAST], [FIRST]),
        ("pages.csv", "--airtime 2188 --rate 512", [TONE], [LAST], [FIRST]),
        ("pages.csv", "--at-most 1 --end closed", [TONE], [], [FIRST, LAST]),
        ("pages.csv", "--at-most 1 --idle-last", [TONE], [], [FIRST, LAST]),
        ("pages.csv", "--at-most 2", [FIRST, TONE], [LAST], []),
        ("queue.csv", "--at-most 1 --later", [TONE, TONES[0]], [LAST, TONES[1]], [FIRST]),
    ):
        told = counts_of(len(sent), 1 + (FIRST in sent), len(left), len(aside))
        for more in ([], ["--verify"], ["--keep", "--verify", "--always", "--why", "why.bin"]):
            check_front(tally, room, [file, *words.split(), *names, *more], told, sent, rest=left, over=aside)
    for name in ("rest.csv", "over.csv"):
        (room / name).write_bytes(b"old")
    done = run([*PLAN, "--at-most", "0", *names], room)
    tally.check_done("no page fits", done, 1, b"", NEEDS_TWO, {(room / name).read_bytes() for name in ("rest.csv", "over.csv")} == {b"old"})
    noted = run(["plan", "bad.csv", "t", "c", "--at-most", "1", *names, "--verbose"], room)
    tally.check("its line", noted.stderr.endswith(b"\npocsag: page file bad.csv: line 5: 9,tone9,\n"), noted)


def try_runs(tally, folder):
    """Slot by slot each page of a queue is sent once, and the pages of an address in the order of the file."""
    room, chance = room_in(folder, "runs", FILES), random.Random(60)
    records = [b"%d,alpha,%d\n" % (chance.choice((0, 1, 8, 11, 2_000_000)), number) for number in range(60)]
    (room / "queue.csv").write_bytes(HEADER + b"".join(records))
    sent = []
    for _ in range(60):
        done = run(["plan", "queue.csv", "tx.bin", "cert.bin", "--later", "--at-most", "1", "--rest", "rest.csv", "--keep"], room)
        if done.returncode:
            break
        sent += run(["decode", "tx.bin"], room).stdout.splitlines(True)[1:]
        (room / "rest.csv").rename(room / "queue.csv")
    tally.check_done("the queue is empty then", done, 1, b"", NO_PAGES)
    tally.check("each page once", sorted(sent) == sorted(records), (len(sent), len(records)))
    for address in {record.split(b",")[0] for record in records}:
        mine = [[r for r in pages if r.startswith(address + b",")] for pages in (sent, records)]
        tally.check(f"the pages of {address} in their order", mine[0] == mine[1], mine)


# What `report` says of the fronts of FILE, worked by hand. Its pages have 16, 1 and 16 codewords. In file order the first starts in slot 6 and
# ends before slot 6 of the second batch; the tone waits for the third; and the last one ends in slot 0 of the fourth. A batch has 544 bits
# behind a preamble of 576.
ONE = b"pages 1\ncodewords 1\nin_order 1\nbatches 1\nidles 15\nbits 1120\nairtime_ms 934\n"
TWO = b"pages 2\ncodewords 17\nin_order 3\nbatches 2\nidles 15\nbits 1664\nairtime_ms %d\n"
THREE = b"pages 3\ncodewords 33\nin_order 4\nbatches 3\nidles 15\nbits 2208\nairtime_ms 1840\n"
TONES_ONLY = b"pages 2\ncodewords 2\nin_order 1\nbatches 1\nidles 14\nbits 1120\nairtime_ms 934\n"
# What APART needs the first node of the search does not show.
ALL_APART = b"pages 2\ncodewords 32\nin_order 3\nbatches 3\nidles 16\nbits 2208\nairtime_ms 1840\nat least 2 batches\nleft 0\n"
ONE_APART = b"pages 1\ncodewords 16\nin_order 1\nbatches 1\nidles 0\nbits 1120\nairtime_ms 934\nleft 1\nat least 2 batches with one page more\n"
SLOTS = [
    ("pages.csv", "--at-most 2 --rate 1200", TWO % 1387 + b"left 1\n"),
    ("pages.csv", "--at-most 2 --rate 512", TWO % 3250 + b"left 1\n"),
    ("pages.csv", "--at-most 2 --rate 1200 --idle-last --always --strict --expect 3", TWO % 1387 + b"left 1\n"),
    ("pages.csv", "--at-most 3 --rate 1200", THREE + b"left 0\n"),
    ("pages.csv", "--at-most 4294967295 --rate 1200 --end closed", THREE + b"left 0\n"),
    ("pages.csv", "--airtime 1387 --rate 1200", TWO % 1387 + b"left 1\n"),
    ("pages.csv", "--airtime 1839 --rate 1200", TWO % 1387 + b"left 1\n"),
    ("pages.csv", "--airtime 1840 --rate 1200", THREE + b"left 0\n"),
    ("pages.csv", "--airtime 694 --rate 2400", TWO % 694 + b"left 1\n"),
    ("pages.csv", "--at-most 1 --rate 1200 --oversized", ONE + b"left 1\noversized 1\n"),
    ("pages.csv", "--at-most 2 --rate 1200 --oversized", TWO % 1387 + b"left 1\noversized 0\n"),
    ("queue.csv", "--rate 1200 --later", THREE + b"left 2\n"),
    ("queue.csv", "--at-most 2 --rate 1200 --later --expect 5", TWO % 1387 + b"left 3\n"),
    ("queue.csv", "--airtime 934 --rate 1200 --later --oversized", TONES_ONLY + b"left 2\noversized 1\n"),
    ("apart.csv", "--at-most 3 --rate 1200 --always --limit 1", ALL_APART),
    ("apart.csv", "--at-most 2 --rate 1200 --always --limit 1", ONE_APART),
]
# The lines that `report` has and `plan` has not.
COUNTS = (b"codewords ", b"in_order ", b"idles ", b"bits ", b"airtime_ms ")


def planned(file, words):
    """The words of `plan` for the same."""
    words = words.replace("--later", "--later --rest rest.csv").replace("--oversized", "--oversized over.csv").split()
    if "--airtime" not in words:
        at = words.index("--rate")
        del words[at : at + 2]
    return ["plan", file, "tx.bin", "cert.bin", *words]


def try_slots(tally, folder):
    """`report` of a front prints what `plan` would print and what it takes on the air, with the same faults, and writes no file."""
    room, other = room_in(folder, "slots", FILES), room_in(folder, "plans of slots", FILES)
    for file, words, told in SLOTS:
        tally.check_done(f"slot {file} {words}", run(["report", file, *words.split()], room), 0, told)
        lines = b"".join(line for line in told.splitlines(True) if not line.startswith(COUNTS))
        tally.check_done(f"its plan {file} {words}", run(planned(file, words), other), 0, lines)
    faults = [
        ("pages.csv", "--at-most 1 --rate 1200", NEEDS_TWO),
        ("pages.csv", "--at-most 0 --rate 1200 --oversized", NEEDS_TWO),
        ("pages.csv", "--airtime 1386 --rate 1200", NEEDS_TWO),
        ("queue.csv", "--at-most 2 --rate 1200", NO_LATER),
        ("queue.csv", "--at-most 2 --rate 1200 --later --expect 3", fault("pages 5, where 3 were expected")),
        ("apart.csv", "--at-most 3 --rate 1200 --limit 1", STOPPED),
        ("bad.csv", "--at-most 1 --rate 1200", BAD_KIND),
        ("bad.csv", "--at-most 1 --rate 1200 --oversized", BAD_KIND),
        ("bad.csv", "--at-most 1 --rate 1200 --limit 0", BAD_LIMIT),
        ("bad.csv", "--at-most 1 --rate 1200 --limit 0 --oversized", BAD_LIMIT),
        ("bad.csv", "--airtime 9 --rate 600 --limit 0", BAD_RATE),
    ]
    for file, words, told in faults:
        for more in ([], ["--verbose"]):
            done = run(["report", file, *words.split(), *more], room)
            tally.check(f"no slot {file} {words} {more}", (done.returncode, done.stdout) == (1, b"") and done.stderr.startswith(told), done)
            tally.check_done(f"no plan {file} {words} {more}", run([*planned(file, words), *more], other), 1, ANY, done.stderr)
    # The rate bounds nothing here, and is judged last.
    for file, told in (("bad.csv", BAD_KIND), ("pages.csv", BAD_RATE)):
        tally.check_done(f"another rate, {file}", run(["report", file, "--at-most", "2", "--rate", "600"], room), 1, b"", told)
    done = run(["report", "-", "--at-most", "2", "--rate", "1200"], room, FILE)
    tally.check_done("a slot of standard input", done, 0, TWO % 1387 + b"left 1\n")
    for words in ("--later", "--airtime 9", "--rate 512 --frames --airtime 9", "--rate 512 --at-most 2 --oversized=f",
                  "--rate 512 --at-most 2 --rest r"):  # fmt: skip
        tally.check_usage(f"wrong words of a slot {words}", run(["report", "pages.csv", *words.split()], room))
    tally.check("no file is written", {*os.listdir(room)} == {*FILES}, os.listdir(room))
