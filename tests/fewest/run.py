"""Plans small random rounds with the built program and compares them with a brute force of its own.

For each round and end, with `--always` and without: the batches are those of the brute force; the transmission's codewords,
read here, are the round's pages, and the last one is what the end asks for; and the certificate is accepted by the program's
checker and by the second one, and by neither for one batch more. So is each certificate of some larger rounds: there the closed
end takes no fewer batches than the open one, the idle end no fewer than the closed one, and at most one more than the open one.
Fronts are compared in the same way.
"""

import itertools
import random
import re
import tempfile
from functools import lru_cache

import checker
from codewords import HEADER, IDLE, codewords_of, rows_of, transmission
from rounds import page_file
from tally import ENDS, MEMORY, run, run_parts, said
from trees import certificate

ROUNDS = 1_500
LARGER_ROUNDS = 1_000
FRONT_ROUNDS = 2_000
TOLD = dict(zip(ENDS, checker.TOLD))

# What is written of a front beside a transmission and its certificate, and what each file holds before. A front that is refused
# empties the transmission and the certificate alone.
FILES = ["--rest", "rest.csv", "--why", "why.bin"]
WRITTEN = ["tx.bin", "cert.bin", "rest.csv", "why.bin"]
EARLIER = b"earlier\n"

# Rounds as (address, number of message codewords), and the fewest batches for each end.
EXAMPLES = [
    ([(address, 0) for address in range(16)], {"open": 1, "closed": 1, "idle": 2}),
    ([(0, 15)], {"open": 1, "closed": 2, "idle": 2}),
    ([(7, 0)], {"open": 1, "closed": 1, "idle": 1}),
]


@lru_cache(maxsize=16)
def fewest(pages, end):
    """The fewest batches of pages (frame, length), by a dynamic program over the pages that are left.

    A page is sent from the first index in its frame that is not before the end of the pages before it: to
    wait longer gains nothing, since idles can always stand behind a page.
    """
    everything = (1 << len(pages)) - 1

    def end_of(page, begun):
        frame, length = pages[page]
        while begun % 16 // 2 != frame:
            begun += 1
        return begun + length

    @lru_cache(maxsize=None)
    def earliest(done):
        if done == 0:
            return 0
        return min(end_of(page, earliest(done ^ 1 << page)) for page in range(len(pages)) if done >> page & 1)

    def batches(page):
        """Where that page comes last; an idle behind it takes a batch more only where it ends with its batch."""
        length = end_of(page, earliest(everything ^ 1 << page))
        wants_idle = end == "idle" or (end == "closed" and pages[page][1] > 1)
        return (length + wants_idle + 15) // 16

    return min(batches(page) for page in range(len(pages)))


def random_round(source):
    """Pages (address, number of message codewords), at most seven, some of them of lengths that just fit."""
    count = source.randrange(1, 8)
    lengths = source.choice([[0, 1, 2, 3], [0, 15, 15, 31], [1, 3, 5, 7, 9, 11, 13, 15], list(range(32))])
    frames = source.choice([list(range(64)), [8 * k + f for k in range(8) for f in (0, 7)], [8 * k + f for k in range(8) for f in (3, 4)]])
    return [(address, source.choice(lengths)) for address in source.sample(frames, count)]


def page_file_of(pages):
    """The page file of pages (address, number of message codewords)."""
    return HEADER + b"".join(b"%d,%s\n" % (address, b"numeric," + b"1" * 5 * items if items else b"tone0,") for address, items in pages)


def framed(pages):
    return tuple((address % 8, 1 + items) for address, items in pages)


def pages_read(sent):
    """The pages (address, number of message codewords) that the bytes of a transmission say, read here."""
    words = codewords_of(sent)
    if len(words) % 16 or transmission(words) != sent:
        return None
    pages, is_open = [], False
    for index, word in enumerate(words):
        number = int.from_bytes(word, "big")
        if number >> 31 and not is_open:
            return None
        if number >> 31:
            pages[-1][1] += 1
        elif word != IDLE:
            pages.append([(number >> 13) * 8 + index % 16 // 2, 0])
        is_open = word != IDLE
    return sorted(map(tuple, pages))


def ends_as(sent, end):
    """Whether the last codeword is what the end asks for: an idle one, or for the closed end no message codeword."""
    return end == "open" or sent[-4:] == IDLE or end == "closed" and sent[-4] >> 7 == 0


def one_more(text):
    end, batches, tree = checker.parse(text)
    return certificate(end, batches + 1, tree)


def try_second_checker(tally, pages, text, end, batches):
    known = checker.parse(text)
    is_of_end = known is not None and TOLD[end] == checker.TOLD[known[0]] and text == certificate(*known)
    tally.check("certificate's version", is_of_end, (end, pages, text.hex()))
    tally.check("second checker", checker.verdict(pages, text) == f"at least {batches} batches{TOLD[end]}", (pages, text.hex()))
    tally.check("second checker, one more", checker.verdict(pages, one_more(text)) == "not shown", (pages, text.hex()))


def try_own_checker(tally, folder, end):
    """The program's own checker on what it wrote last, and on the same for one batch more."""
    text = (folder / "cert.bin").read_bytes()
    checked = run(["check", "pages.csv", "cert.bin"], folder)
    told = re.fullmatch(r"at least \d+ batches(.*)\n", checked.stdout.decode())
    tally.check("checked", checked.returncode == 0 and told and told[1] == TOLD[end], checked)
    (folder / "more.bin").write_bytes(one_more(text))
    tally.check_done("one more is not shown", run(["check", "pages.csv", "more.bin"], folder), 1, b"not shown\n")


def try_round(tally, folder, pages, end, search):
    text = page_file_of(pages)
    (folder / "pages.csv").write_bytes(text)
    due = fewest(framed(pages), end)
    planned = run(["plan", "pages.csv", "tx.bin", "cert.bin", *ENDS[end], *search], folder)
    tally.check_done(" ".join(["fewest", end, "end", *search]), planned, 0, b"pages %d\nbatches %d\n" % (len(pages), due))
    if planned.returncode != 0:
        return
    sent = (folder / "tx.bin").read_bytes()
    tally.check("read as the round", pages_read(sent) == sorted(pages) and len(sent) == 72 + 68 * due, (text, sent.hex()))
    if end != "open":
        tally.check("ends as asked", ends_as(sent, end), (text, end, sent[-4:].hex()))
    try_second_checker(tally, text, (folder / "cert.bin").read_bytes(), end, due)


def try_examples(tally, folder):
    for pages, due in EXAMPLES:
        tally.check("example", {end: fewest(framed(pages), end) for end in ENDS} == due, pages)
        for end in ENDS:
            try_round(tally, folder, pages, end, [])
    words = (folder / "tx.bin").read_bytes()[72:]
    tally.check("the tone in the last frame starts early", words[60:64] != IDLE, words.hex())


def larger_round(source):
    """Frames and lengths of up to sixty pages, most often as many codewords as fill whole batches."""
    lengths = source.choice([[1], [1, 2, 3, 4], [1, 15, 16, 17, 32], [2, 4, 6, 8, 10, 12, 14], list(range(1, 33))])
    frames = source.choice([range(8), range(8), (0, 7), (3, 4, 7)])
    pages = [(source.choice(frames), source.choice(lengths)) for _ in range(source.randrange(8, 60))]
    rest = -sum(length for _, length in pages) % 16
    return pages + [(source.choice(frames), rest)] * (rest > 0 and source.random() < 0.7)


def try_ends(tally, folder, source):
    """Rounds too large for the brute force: their batches for each end beside those for the others."""
    seen = set()
    for _ in range(LARGER_ROUNDS):
        text, batches = page_file(source, larger_round(source)), []
        (folder / "pages.csv").write_bytes(text)
        for end in ENDS:
            planned = run(["plan", "pages.csv", "tx.bin", "cert.bin", "--always", "--verify", *ENDS[end]], folder)
            told = re.fullmatch(rb"pages \d+\nbatches (\d+)\nverified\n", planned.stdout)
            tally.check(f"larger round, {end} end", planned.returncode == 0 and told, (text, planned))
            if planned.returncode != 0 or not told:
                return
            batches.append(int(told[1]))
            sent = (folder / "tx.bin").read_bytes()
            tally.check("as many batches", len(sent) == 72 + 68 * batches[-1] and ends_as(sent, end), (text, end))
            try_second_checker(tally, text, (folder / "cert.bin").read_bytes(), end, batches[-1])
            try_own_checker(tally, folder, end)
        decoded = run(["decode", "tx.bin"], folder).stdout.replace(b" ", b"")  # which fill numeric messages, and are in none
        tally.check("decoded", sorted(rows_of(decoded)) == sorted(rows_of(text)), (text, decoded))
        of_open, of_closed, of_idle = batches
        tally.check("ends", of_open <= of_closed <= of_idle <= of_open + 1, (text, batches))
        seen.add((of_closed - of_open, of_idle - of_open))
    tally.check("the ends differ in every way", seen == {(0, 0), (0, 1), (1, 1)}, seen)


def try_front(tally, folder, pages, end, batches, needs):
    """One front: `needs` has the fewest batches of each number of first pages, from one."""
    count = sum(needed <= batches for needed in needs)
    case = (page_file_of(pages), end, batches)
    for name in WRITTEN:
        (folder / name).write_bytes(EARLIER)
    done = run(["plan", "pages.csv", "tx.bin", "cert.bin", "--at-most", str(batches), *FILES, *ENDS[end]], folder)
    if count == 0:
        due = (1, b"", f"pocsag: page 1 needs {needs[0]} batches\n".encode())
        left = [(folder / name).read_bytes() for name in WRITTEN]
        tally.check("no front", said(done) == due and left == [b"", b"", EARLIER, EARLIER], (case, done, left))
        return
    told = f"pages {count}\nbatches {needs[count - 1]}\nleft {len(pages) - count}\n".encode()
    tally.check("front", said(done) == (0, told, b""), (case, needs, done))
    if done.returncode != 0:
        return
    sent, shown = (folder / "tx.bin").read_bytes(), (folder / "cert.bin").read_bytes()
    tally.check("front's pages", pages_read(sent) == sorted(pages[:count]), (case, sent.hex()))
    tally.check("front's end", ends_as(sent, end), (case, sent[-4:].hex()))
    due = f"at least {needs[count - 1]} batches{TOLD[end]}"
    tally.check("front's certificate", checker.verdict(page_file_of(pages[:count]), shown) == due, (case, shown.hex()))
    tally.check("the rest", rows_of((folder / "rest.csv").read_bytes()) == rows_of(page_file_of(pages[count:])), case)
    why = (folder / "why.bin").read_bytes()
    if count == len(pages):
        tally.check("nothing is left", why == b"", (case, why.hex()))
        return
    judged = checker.verdict(page_file_of(pages[: count + 1]), why)
    bound = int(judged.split()[2]) if judged.startswith("at least ") else 0
    tally.check("one page more needs more", batches < bound <= needs[count], (case, judged, why.hex()))


def try_fronts(tally, folder, source):
    """The longest front of small rounds, for each end and each number of batches."""
    for _ in range(FRONT_ROUNDS):
        pages = random_round(source)
        (folder / "pages.csv").write_bytes(page_file_of(pages))
        for end in ENDS:
            needs = [fewest(framed(pages[:count]), end) for count in range(1, len(pages) + 1)]
            tally.check("fronts are monotone", needs == sorted(needs), (pages, end, needs))
            for batches in range(needs[-1] + 1):
                try_front(tally, folder, pages, end, batches, needs)


def try_rounds(tally, folder, source):
    for _ in range(ROUNDS):
        pages = random_round(source)
        for end, search in itertools.product(ENDS, ([], ["--always"])):
            try_round(tally, folder, pages, end, search)


def try_all(tally, folder):
    source = random.Random(584)
    for part in (try_rounds, try_ends):
        part(tally, folder, source)
    try_examples(tally, folder)
    try_fronts(tally, folder, source)


def main(_words):
    tempfile.tempdir = MEMORY
    return run_parts(try_all)
