"""Runs the compiled program on real files as a user would: what it prints, its status, its files."""

import itertools
import os

import doors
import edges
import forms
import fronts
import options
import usage
import verbose
from codewords import HEADER, HEADS, IDLE, ONES as MESSAGE, TONE, ZERO, flipped, transmission
from tally import ANY, BAD_RATE, CANNOT_OPEN, CANNOT_WRITE, ENDS, NAMED_TWICE, PLAN, TOO_LARGE, Text, fault, make_huge, run, sampled
from worked import BOTH_WAYS, EXACT, HARD, LONE_TONE, LONG_ALPHA, LOOP_APART, ONE_FULL, TIGHT, of_ones, shaped

PARTS_OF = (usage, doors, edges, forms, fronts, options, verbose)
# What `check` prints of a certificate for each end.
TOLD = {"open": "", "closed": " with a closed end", "idle": " with an idle last"}


def places(word, slots):
    """The transmissions of one batch with the word in one of the slots, and idles elsewhere."""
    return [transmission([*slot * [IDLE], word]) for slot in slots]


# The rounds of the worked examples: the fewest batches with the open end, with the closed end and with an idle last, those of
# file order, and where they are known the transmissions with the open end that are possible.
EXACT_SENT = [ZERO] + 5 * [MESSAGE] + [ZERO] + 9 * [MESSAGE]
TIGHT_SENT = [ZERO] + 5 * [MESSAGE] + [TONE] + 15 * [MESSAGE] + [ZERO] + 9 * [MESSAGE]
MIXED = of_ones((0, 65)) + b"7,tone0,\n" + of_ones((15, 80))
ROUNDS = {
    "lone-tone": (LONE_TONE, 1, 1, 1, 1, places(TONE, (0, 1))),
    "lone-address-7": (b"2007663,tone0,\n", 1, 1, 1, 1, places(bytes.fromhex("7A89A470"), (14, 15))),
    "five-digits": (b"0,numeric,12345\n", 1, 1, 1, 1, None),
    "three-tones-one-frame": (b"5,tone0,\n13,tone0,\n21,tone0,\n", 2, 2, 2, 2, None),
    "one-full-batch": (ONE_FULL, 1, 2, 2, 1, [transmission([ZERO] + 15 * [MESSAGE])]),
    "loop-apart": (LOOP_APART, 2, 2, 2, 2, None),
    "loops-apart": (ONE_FULL + LOOP_APART, 3, 3, 3, 3, None),
    "two-numeric-exact": (EXACT, 1, 2, 2, 1, [transmission(EXACT_SENT)]),
    "three-pages-tight": (TIGHT, 2, 3, 3, 3, [transmission(TIGHT_SENT)]),
    "two-in-last-frame": (b"7,numeric,12345\n15,numeric,12345\n", 2, None, 3, 2, None),
    "closed-mixed": (MIXED, 2, 2, 3, 2, None),
    "closed-both-ways": (BOTH_WAYS, 2, 3, 3, 2, None),
    "long-numeric": (of_ones((7, 241)), 4, 5, 5, None, None),
    "long-alpha": (LONG_ALPHA, 88, None, 88, None, None),
    "file-order-2000": (b"".join(b"%d,tone0,\n" % k for k in range(2000)), 125, 125, 126, 250, None),
    "round-size": (b"".join(b"%d,tone0,\n" % k for k in range(20000)), 1250, 1250, 1251, 2500, None),
}
# The records of the lone tone, spelled otherwise.
SPELLED = {"crlf": b"8,tone0,\r\n", "empty-lines": b"\n\n8,tone0,\n\n", "quoted-fields": b'"8","tone0",""\n',
           "leading-zeros": b"0000008,tone0,\n", "no-last-line-feed": b"8,tone0,"}  # fmt: skip
ROUNDS |= {name: (records, *ROUNDS["lone-tone"][1:]) for name, records in SPELLED.items()}
# Page files that are refused, with the text; for tests/web and tests/portable.
REFUSED = {f"{why}, {line}": (text, why) for text, why, line in verbose.PAGE_FILES if len(text) < 1_000_000}


def lines_of(name):
    """The records of a round, as a listing has them."""
    return [b"8,tone0,"] if name in SPELLED else ROUNDS[name][0].strip(b"\n").split(b"\n")


def told_of(pages, batches, *more):
    """What `plan` prints of so many pages in so many batches."""
    return "".join(f"{line}\n" for line in (f"pages {pages}", f"batches {batches}", *more)).encode()


def shown_of(batches, end):
    """What `check` prints of a certificate."""
    return f"at least {batches} batches{TOLD[end]}\n".encode()


def check_round(tally, folder, name, end):
    records, *fewest, _, sent = ROUNDS[name]
    batches = dict(zip(ENDS, fewest))[end]
    if batches is None:
        return
    (folder / "pages.csv").write_bytes(HEADER + records)
    lines = lines_of(name)
    tally.check_done(f"plan {name} {end}", run([*PLAN, *ENDS[end], "--verify"], folder), 0, told_of(len(lines), batches, "verified"))
    wrote, certificate = (folder / "tx.bin").read_bytes(), (folder / "cert.bin").read_bytes()
    holds = len(wrote) == 72 + 68 * batches and (end != "open" or sent is None or wrote in sent)
    tally.check(f"transmission of {name} {end}", holds, wrote[:200].hex())
    tally.check(f"last codeword of {name} {end}", {"open": True, "closed": wrote[-4] < 128, "idle": wrote[-4:] == IDLE}[end], wrote[-4:])
    tally.check_done(f"check {name} {end}", run(["check", "pages.csv", "cert.bin"], folder), 0, shown_of(batches, end))
    tally.check(f"certificate of {name} {end}", certificate.startswith(HEADS[end] + batches.to_bytes(4, "big")), certificate[:20])
    listed = Text(lambda out: out.startswith(HEADER) and sorted(out[len(HEADER) :].strip(b"\n").split(b"\n")) == sorted(lines))
    tally.check_done(f"decode {name} {end}", run(["decode", "tx.bin"], folder), 0, listed, ANY)


def try_rounds(tally, folder):
    for name, (records, batches, _, _, in_order, _) in ROUNDS.items():
        for end in ENDS:
            check_round(tally, folder, name, end)
        tally.check_done(f"input {name}", run([], folder, HEADER + records), 0, told_of(len(lines_of(name)), batches))
        done = run([*PLAN, "--always", "--verify"], folder)
        tally.check_done(f"plan {name} --always", done, 0, told_of(len(lines_of(name)), batches, "verified"))
        if in_order:
            counts = Text(lambda out: out.split(b"\n")[2:4] == [b"in_order %d" % in_order, b"batches %d" % batches])
            tally.check_done(f"report {name}", run(["report", "pages.csv", "--rate", "1200"], folder), 0, counts, ANY)


# The reports of the worked examples: words, what is printed or the fault, and the status.
APART_REPORT = b"pages 2\ncodewords 32\nin_order 3\nbatches 3\nidles 16\nbits 2208\nairtime_ms 1840\n"
TIGHT_REPORT = b"pages 3\ncodewords 32\nin_order 3\nbatches 2\nidles 0\nbits 1664\nairtime_ms %d\n"
ALPHA_REPORT = b"pages 1\ncodewords 1401\nin_order 88\nbatches 88\nidles 7\nbits 48448\nairtime_ms 40374\n"
REPORTS = [
    ("loops-apart", "1200", APART_REPORT),
    ("three-pages-tight", "1200", TIGHT_REPORT % 1387),
    ("three-pages-tight", "512", TIGHT_REPORT % 3250),
    ("three-pages-tight", "2400", TIGHT_REPORT % 694),
    ("three-pages-tight", "1201", None),
    ("long-alpha", "1200", ALPHA_REPORT),
]


def try_reports(tally, folder):
    pages = folder / "pages.csv"
    for name, rate, printed in REPORTS:
        pages.write_bytes(HEADER + ROUNDS[name][0])
        done = run(["report", "pages.csv", "--rate", rate], folder)
        tally.check_done(f"report {name} at {rate}", done, *((0, printed) if printed else (1, b"", BAD_RATE)))
    pages.write_bytes(HEADER + BOTH_WAYS)
    done = run(["report", "pages.csv", "--rate", "1200", "--end", "closed"], folder)
    tally.check("report with the closed end", done.stdout.split(b"\n")[2:4] == [b"in_order 2", b"batches 3"], done)


def try_always(tally, folder):
    """`--always`: rounds at which the search reaches its limit are answered."""
    pages, plan = folder / "pages.csv", [*PLAN, "--always", "--verify"]
    for end, (name, shape, batches) in sampled(itertools.product(ENDS, HARD)):
        pages.write_bytes(HEADER + b"".join(shaped(shape)))
        done, stopped = run([*PLAN, *ENDS[end]], folder), Text(lambda err: b"search limit reached" in err)
        tally.check_done(f"{name} refused without --always, {end}", done, 1, b"", stopped)
        tally.check_done(f"{name} answered, {end}", run([*plan, *ENDS[end]], folder), 0, told_of(len(shape), batches, "verified"))
        done = run(["check", "pages.csv", "cert.bin"], folder)
        tally.check_done(f"{name} shown to be the fewest, {end}", done, 0, shown_of(batches, end))


# What is told of files that cannot be opened, cannot be written or are named twice, and the three words.
FILES = {
    CANNOT_OPEN: (
        "none.csv tx.bin cert.bin", "folder tx.bin cert.bin", "pages.csv folder cert.bin", "pages.csv tx.bin folder",
        "pages.csv none/tx.bin cert.bin", "pages.csv tx.bin none/cert.bin",
    ),
    CANNOT_WRITE: ("pages.csv /dev/full cert.bin", "pages.csv tx.bin /dev/full"),
    NAMED_TWICE: (
        "pages.csv pages.csv cert.bin", "none.csv none.csv cert.bin", "pages.csv tx.bin tx.bin", "pages.csv tx.bin pages.csv",
        "pages.csv ./pages.csv cert.bin", "pages.csv tx.bin ./pages.csv", "pages.csv tx.bin ./tx.bin", "pages.csv new.bin ./new.bin",
        "pages.csv {}/pages.csv cert.bin", "pages.csv link.csv cert.bin", "pages.csv tx.bin hard.csv",
    ),
}  # fmt: skip


def try_files(tally, folder):
    """No file is emptied before all are open, and none is read that is too large."""
    pages, tx = folder / "pages.csv", folder / "tx.bin"
    pages.write_bytes(HEADER + LONE_TONE)
    (folder / "folder").mkdir()
    (folder / "link.csv").symlink_to("pages.csv")
    os.link(pages, folder / "hard.csv")
    for told, words in ((told, words) for told, calls in FILES.items() for words in calls):
        tx.write_bytes(b"older")
        done = run(["plan", *words.format(folder).split()], folder)
        # A folder is opened as any page file is, so the outputs are emptied before it cannot be read.
        left = b"" if words.startswith("folder") else b"older"
        holds = pages.read_bytes() == HEADER + LONE_TONE and (told == CANNOT_WRITE or tx.read_bytes() == left)
        tally.check_done(words, done, 1 if told == NAMED_TWICE else 3, b"", told, holds)
    make_huge(folder / "huge.csv")
    for words in ("plan huge.csv tx.bin cert.bin", "decode huge.csv", "decode --capture huge.csv", "wav huge.csv", "open huge.csv"):
        role = "page file" if words[0] in "po" else "transmission"
        note = fault(f"{role} huge.csv: more than 268435456 bytes")
        for more, told in (([], TOO_LARGE), (["--verbose"], TOO_LARGE + note)):
            tally.check_done(f"how large may be: {words} {more}", run([*words.split(), *more], folder), 1, b"", told)
    (folder / "huge.csv").unlink()


def spoiled(sent, *bits):
    """The transmission with these bits of each word behind the preamble changed."""
    return sent[:72] + b"".join(flipped(sent[at : at + 4], *bits) for at in range(72, len(sent), 4))


FIVE = bytes.fromhex("C261572C")  # the message codeword of 12345
TONE_SENT = transmission([TONE])
ACROSS = transmission([*15 * [IDLE], ZERO, FIVE])
FIVE_DIGITS = transmission([ZERO, FIVE])
WRONG_IDLE = transmission([TONE, bytes.fromhex("7A89C194")])
WRONG_SYNC = TONE_SENT[:72] + bytes.fromhex("7CD215D9") + TONE_SENT[76:]
HEARS = [
    ("lone-tone", "8", TONE_SENT, HEADER + b"8,tone0,\n"),
    ("other frame", "9", TONE_SENT, HEADER),
    ("other address", "0", TONE_SENT, HEADER),
    ("page-across-batches", "7", ACROSS, HEADER + b"7,numeric,12345\n"),
    ("page-across-batches, other", "0", ACROSS, HEADER),
    ("wrong-bit-in-idle", "8", WRONG_IDLE, HEADER + b"8,tone0,\n"),
    ("wrong-synchronisation", "8", WRONG_SYNC, HEADER + b"8,tone0,\n"),
    ("damaged-page", "0", spoiled(FIVE_DIGITS, 3, 30), HEADER + b"0,numeric,12345\n"),
    ("damaged-page, low bits", "0", spoiled(FIVE_DIGITS, 0, 1), HEADER + b"0,numeric,12345\n"),
    ("bad address", "2097152", TONE_SENT, "bad address"),
    ("reserved address", "2007664", TONE_SENT, "reserved address"),
    ("no batch", "8", TONE_SENT[:72], "the transmission has no batch"),
    ("cut short", "8", TONE_SENT[:139], "the transmission is cut short"),
    ("short preamble", "8", TONE_SENT[:71], "the preamble is too short"),
]


def try_receivers(tally, folder):
    tx = folder / "tx.bin"
    for name, address, content, told in HEARS:
        tx.write_bytes(content)
        due = (1, b"", fault(told)) if isinstance(told, str) else (0, told)
        tally.check_done(f"hear {name}", run(["hear", address, "tx.bin"], folder), *due)
    for words in (["decode", "none.bin"], ["hear", "8", "none.bin"], ["decode", "folder"]):
        tally.check_done(f"missing file {words}", run(words, folder), 3, b"", CANNOT_OPEN)
