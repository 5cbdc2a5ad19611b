"""Each command with each option at the largest size that its limits allow, and at one between: contracts cannot exclude that a
call gives up for want of memory above some size. `tests/calls/largest.txt` says which of these runs is the largest of each call.
All numbers are worked by hand, and transmissions are made by `forms.py`."""

import pathlib
import subprocess
import tempfile

import checker
import sizes
import trees
import worked
from codewords import HEADER, IDLE, LARGEST, PREAMBLE, SYNC, TONE, address_word, codeword, items_of, letters, sent
from edges import SHOWN
from forms import due_of
from tally import ANY, MEMORY, Text, brief, fault, run

PAGES = 20_000
READ_ONLY = ["open", "--journal", "journal", "--read-only"]
# The pages of a round, the letters of each, and the codewords that these take with their address. Each fills batches to the last slot,
# since each frame has an even number of them, as many as the others; and so does each half.
ROUNDS = [(3_200, 400, 141), (PAGES, 4_000, 1_401)]


def tones(first, last):
    """The records of calls without a message for these addresses, the last left out: each batch carries two of each frame."""
    return b"".join(b"%d,tone0,\n" % address for address in range(first, last))


def texts(first, last, letters):
    return b"".join(b"%d,alpha,%s\n" % (address, b"a" * letters) for address in range(first, last))


def try_fronts(tally, folder):
    """Of tones of all frames in turn sixteen fill a batch, and a batch more is needed for the next. A page of 4,000 letters has 1,401
    codewords, an odd number, so an even number of them in each frame fills batches to the last slot."""
    long_batches = PAGES // 2 * 1_401 // 16
    cases = [
        ("tones", tones, 4_000, 125, 2_000, 126),
        ("tones", tones, PAGES, 625, 10_000, 626),
        ("texts", lambda first, last: texts(first, last, 4_000), PAGES, long_batches, 10_000, -(-10_001 * 1_401 // 16)),
    ]
    for kind, records, pages, batches, first, more in cases:
        (folder / "pages.csv").write_bytes(HEADER + records(0, pages))
        plan = ["plan", "pages.csv", "tx.bin", "cert.bin", "--at-most", str(batches)]
        done = run([*plan, "--rest", "rest.csv", "--why", "why.bin", "--verify"], folder)
        due = b"pages %d\nbatches %d\nleft %d\nverified\n" % (first, batches, pages - first)
        tally.check_done(f"a front of {first} of {pages} {kind}", done, 0, due)
        told = run(["report", "pages.csv", "--rate", "2400", "--at-most", str(batches)], folder)
        airtime, lines = -(-(576 + 544 * batches) * 1_000 // 2_400), told.stdout.splitlines()
        due = [b"pages %d" % first, b"batches %d" % batches, b"airtime_ms %d" % airtime, b"left %d" % (pages - first)]
        tally.check(f"a slot of {first} of {pages} {kind}", told.returncode == 0 and lines[:1] + lines[3:4] + lines[6:] == due, brief(told))
        tally.check(f"the other {pages - first} {kind}", (folder / "rest.csv").read_bytes() == HEADER + records(first, pages))
        (folder / "front.csv").write_bytes(HEADER + records(0, first))
        (folder / "more.csv").write_bytes(HEADER + records(0, first + 1))
        for name, cert, least in (("front.csv", "cert.bin", batches), ("more.csv", "why.bin", more)):
            done = run(["check", name, cert, "--verbose"], folder)
            tally.check_done(f"check of {name}, {pages} {kind}", done, 0, b"at least %d batches\n" % least)


def try_queues(tally, folder):
    """A file with each page twice: a page waits for the one before it of its address, and the pages of the last frames do not fit into so
    many batches, with the idles in front of them. The first page leaves no room for another in the batches that it needs."""
    for pages, letters, codewords in ROUNDS:
        batches = -(-codewords // 16)
        records = texts(0, pages // 2, letters).splitlines(True)
        parts = {False: [], True: []}
        for place, record in enumerate(records):
            parts[2 * (place % 8) + codewords <= 16 * batches].append(record)
        aside, fitting = parts.values()
        (folder / "pages.csv").write_bytes(b"".join([HEADER, *records, *records]))
        airtime = -(-(576 + 544 * batches) * 1_000 // 512)
        words = ["--airtime", str(airtime), "--rate", "512", "--later", "--rest", "rest.csv", "--oversized", "over.csv", "--why", "why.bin"]
        words += ["--verify", "--strict", "--keep", "--always", "--verbose", "--expect", str(pages)]
        done = run(["plan", "pages.csv", "tx.bin", "cert.bin", *words], folder)
        left = 2 * len(fitting) - 1
        due = b"pages 1\nbatches %d\nleft %d\noversized %d\nverified\n" % (batches, left, 2 * len(aside))
        tally.check_done(f"a queue of {pages} pages", done, 0, due, b"", len(fitting) > pages // 10)
        slot = [*words[:5], "--oversized", "--strict", "--always", "--verbose", "--expect", str(pages)]
        done = run(["report", "pages.csv", *slot], folder)
        lines = [b"airtime_ms %d" % airtime, b"left %d" % left, b"oversized %d" % (2 * len(aside))]
        tally.check(f"a slot of a queue of {pages} pages", done.returncode == 0 and done.stdout.splitlines()[6:] == lines, (brief(done), lines))
        for name, wanted in (("rest.csv", [*fitting[1:], *fitting]), ("over.csv", [*aside, *aside])):
            tally.check(f"{name} of a queue of {pages} pages", (folder / name).read_bytes() == b"".join([HEADER, *wanted]))


def try_plans(tally, folder):
    """All that is asked of a whole round, and what its report says: with an idle last it takes a batch more than it fills, whose
    other codewords are idle too."""
    for pages, letters, codewords in ROUNDS:
        full = pages * codewords // 16
        (folder / "pages.csv").write_bytes(HEADER + texts(0, pages, letters))
        plan = ["plan", "pages.csv", "tx.bin", "cert.bin"]
        options = ["--strict", "--limit", "1000000", "--verbose", "--expect", str(pages)]
        for words, batches in ((["--idle-last", "--always"], full + 1), (["--end", "open"], full)):
            done = run([*plan, *options, *words, "--verify", *["--keep"] * (batches > full)], folder)
            tally.check_done(f"plan {words[0]} of {pages} pages", done, 0, b"pages %d\nbatches %d\nverified\n" % (pages, batches))
            done = run(["report", "pages.csv", "--rate", "2400", "--frames", *options, *words], folder)
            counts = [f"pages {pages}", f"codewords {pages * codewords}", f"batches {batches}", f"idles {16 * (batches - full)}"]
            frames = [f"frame {it} pages {pages // 8} codewords {pages // 8 * codewords} room {2 * (batches - full)}" for it in range(8)]
            told = done.stdout.decode().splitlines()
            holds = (done.returncode, done.stderr, told[:2] + told[3:5]) == (0, b"", counts) and sorted(told[7:]) == frames
            tally.check(f"report {words[0]} of {pages} pages", holds, brief(done))
        if pages < PAGES:
            tally.check_done(f"{pages} pages where one fewer is expected", run([*plan, "--expect", str(pages - 1)], folder), 1, b"", ANY)
        with open(folder / "pages.csv", "rb") as file:
            done = run([], folder, stdin=file)
        tally.check_done(f"no words, {pages} pages", done, 0, b"pages %d\nbatches %d\n" % (pages, full))


def try_faults(tally, folder):
    """The line of a fault in the last record."""
    for pages, letters, _ in ROUNDS:
        (folder / "bad.csv").write_bytes(HEADER + texts(1, pages, letters) + b"0,alpha,%s\x00\n" % (b"a" * (letters - 1)))
        told = b"pocsag: record %d: bad character at %d\npocsag: page file bad.csv: line %d: " % (pages, letters - 1, pages + 1)
        for words in (["plan", "bad.csv", "tx.bin", "cert.bin"], ["report", "bad.csv", "--rate", "512"]):
            noted = Text(lambda err: err.startswith(told))
            tally.check_done(f"{words[0]} --verbose of a fault in record {pages}", run([*words, "--verbose"], folder), 1, b"", noted)


# Pages for which the tree of the search has more than a million nodes, and pages for which that of the free search has 319: of each its
# frame and its codewords.
HARD = worked.HARD[1][1]
FREE = [(1, 13), (6, 21), (5, 5), (2, 30), (1, 1), (7, 30), (0, 11), (3, 31), (7, 9), (6, 21), (4, 14), (0, 29), (5, 32), (5, 16), (3, 3), (7, 2)]


def filled(shapes, pages):
    """A page file of pages of these shapes. The others fill a batch each, and start where the transmission does, so that they make
    nothing easier."""
    return HEADER + b"".join(worked.shaped([*shapes, *[(0, 16)] * (pages - len(shapes))]))


def try_hard(tally, folder):
    """Rounds whose search goes to the greatest limit: the eight pages need 12 batches at least, and 13 would do. The free search shows
    that the sixteen need 18."""
    for pages in (2_000, PAGES):
        least = pages - len(HARD) + 12
        (folder / "pages.csv").write_bytes(filled(HARD, pages))
        plan = ["plan", "pages.csv", "tx.bin", "cert.bin", "--limit"]
        stopped = fault(f"search limit reached: at least {least} batches, {least + 1} would do")
        tally.check_done(f"a search of {pages} pages to 1,000,000 nodes", run([*plan, "1000000"], folder), 1, b"", stopped)
        due = b"pages %d\nbatches %d\nat least %d batches\n" % (pages, least + 1, least)
        tally.check_done(f"a plan of {pages} pages that is one batch above its bound", run([*plan, "10", "--always"], folder), 0, due)
        done = run(["report", "pages.csv", "--rate", "512", "--limit", "10", "--always"], folder)
        tally.check(f"a report of {pages} pages with their bound", done.stdout.endswith(b"\nat least %d batches\n" % least), brief(done))
        (folder / "pages.csv").write_bytes(filled(FREE, pages))
        done = run([*plan, "1000000", "--always"], folder)
        due, length = b"pages %d\nbatches %d\n" % (pages, pages - len(FREE) + 18), (folder / "cert.bin").stat().st_size
        tally.check_done(f"a free search of {pages} pages", done, 0, due, b"", length > 3 * 319)


def certificates():
    """A page file and certificates of so many nodes: below a closing node the tones of frame 0 are split, and below each of these those
    of frame 1. Each leaf says that the 10,000 tones of frame 0 do not fit into its two slots 4,999 times, whatever else holds."""
    pages = HEADER + b"".join(b"%d,tone0,\n%d,tone0,\n" % (8 * place, 8 * place + 1) for place in range(PAGES // 2))
    leaf = trees.spelled(trees.overload(0b11))
    for outer in (50, 500):
        tree = bytes([checker.CLOSE, 1]) + trees.halved(1, 0, outer - 1, trees.halved(17, 0, 999, leaf))
        yield 2 * 1_000 * outer, pages, b"PCB4" + (5_000).to_bytes(4, "big") + tree


def try_certificates(tally, folder):
    """A certificate of as many nodes as there may be, and one of fewer, judged and explained."""
    for count, pages, certificate in certificates():
        (folder / "pages.csv").write_bytes(pages)
        (folder / "cert.bin").write_bytes(certificate)
        done = run(["check", "pages.csv", "cert.bin", "--verbose"], folder)
        tally.check_done(f"check of {count} nodes", done, 0, b"at least 5000 batches with an idle last\n")
        for words, start, end in (
            ([], b"at least 5000 batches", b"\nso 4999 batches do not suffice with an idle last\n"),
            (["--depth", "300"], b"at least 5000 batches", b"\nso 4999 batches do not suffice with an idle last\n"),
            (["--depth", "300", "--json"], b"{", b"}\n"),
            (["--svg"], b"<svg", b"</svg>\n"),
        ):
            done = run(["explain", "pages.csv", "cert.bin", *words, "--verbose"], folder)
            due = Text(lambda out: out.startswith(start) and out.endswith(end))
            is_long = "--depth" not in words or done.stdout.count(b"{" if "--json" in words else b"\n") > count
            tally.check_done(f"explain {' '.join(words) or 'alone'} of {count} nodes", done, 0, due, b"", is_long)
        tally.check_full(f"explain of {count} nodes to a full device", ["explain", "pages.csv", "cert.bin", "--depth", "300"], folder)


def repeated(pages, size):
    """A transmission of at most so many bytes that sends the pages again and again, and how often."""
    once = sent(pages)
    count = (size - 72) // (len(once) - 72)
    return once[:72] + count * once[72:], count


def try_readings(tally, folder):
    """Transmissions of pages of 4,000 letters, as text and, for function 0, as 7,000 digits: up to 4,000,000 bytes, whose answer is kept
    in memory, and LARGEST, whose answer is written as it is made."""
    items = letters(b"a" * 4_000)
    pages = [(8, 3, items), (8, 0, items)]
    forms = [
        (["decode", "tx.bin", "--repair", "--verbose"], (), False, b"pocsag: transmission tx.bin: corrected bits 0, words 0\n"),
        (["decode", "tx.bin", "--json"], (), True, b""),
        (["decode", "tx.bin", "--text", "0,1,2"], (0, 1, 2), False, b""),
        (["hear", "8", "tx.bin", "--json", "--text", "0,1,2"], (0, 1, 2), True, b""),
    ]
    for size in (4_000_000, LARGEST):
        tx, count = repeated(pages, size)
        (folder / "tx.bin").write_bytes(tx)
        for words, as_text, is_json, noted in forms:
            head, text = (b"" if is_json else HEADER), due_of(pages, as_text, is_json)[0].encode()
            done, option = run(words, folder), next(it for it in words if it.startswith("--"))
            tally.check_done(f"{words[0]} {option} of {size} bytes", done, 0, head + count * text[len(head):], noted)


def long_message(function, codes, width, batches):
    """A transmission of one page whose message fills so many batches, the codes again and again, and how many codes there are."""
    words = [codeword(1 << 20 | it) for it in items_of(codes, width, 0)]

    def batch(number):
        """The batch of this number behind the first."""
        return SYNC + b"".join(words[(15 + 16 * number + place) % len(words)] for place in range(16))

    group = b"".join(map(batch, range(len(words))))
    times, rest = divmod(batches - 1, len(words))
    first = SYNC + address_word(8, function) + b"".join(words[place % len(words)] for place in range(15))
    return PREAMBLE + first + times * group + b"".join(map(batch, range(rest))), 20 * (16 * batches - 1) // width


def try_long_message(tally, folder):
    """One message that fills a transmission."""
    for size in (4_000_000, LARGEST):
        for function, kind, codes, width, calls in ((0, "numeric", [1] * 5, 4, (["decode"], ["hear", "8"])), (3, "alpha", b"a" * 20, 7, (["decode"],))):
            tx, count = long_message(function, codes, width, (size - 72) // 68)
            (folder / "tx.bin").write_bytes(tx)
            due = HEADER + b"8,%s," % kind.encode() + count * (b"1" if width == 4 else b"a") + b"\n"
            for words in calls:
                tally.check_done(f"{words[0]}, {kind}, a message of {size} bytes", run([*words, "tx.bin", "--verbose"], folder), 0, due)


def try_shows(tally, folder):
    """The grid, the places and the drawing of transmissions, of which 89 batches show a page of 1,401 codewords and a tone of frame 1."""
    pages = [(8, 3, letters(b"a" * 4_000)), (9, 1, [])]
    for size in (4_000_000, LARGEST):
        tx, count = repeated(pages, size)
        (folder / "tx.bin").write_bytes(tx)
        batches = len(tx) // 68 - 1
        rows = {b"": batches + 2, b"Aa" + 7 * b" aa": count, b" aa aa" + 6 * b" aa": 86 * count, b"aa aa aa aa a. .. .. ..": count}
        grid = Text(lambda out: rows == {row: out.count(row + b"\n") for row in rows})
        for words in (["--repair", "--verbose"], ["--capture", "--nth", "1"]):
            tally.check_done(f"show {words[0]} of {size} bytes", run(["show", "tx.bin", *words], folder), 0, grid, ANY)
        first = b"batch,frame,slot,codewords,address,kind,message\n1,0,0,1401,8,alpha,%s\n89,1,2,1,9,tone1,\n" % (b"a" * 4_000)
        places = Text(lambda out: out.startswith(first) and out.count(b"\n") == 2 * count + 1)
        tally.check_done(f"show --list of {size} bytes", run(["show", "tx.bin", "--list"], folder), 0, places, ANY)
        drawn = 1_000 if size == LARGEST else batches
        done = run(["show", "tx.bin", "--svg", "--rows", f"{batches - drawn + 1}-{batches}"], folder)
        drawing = Text(lambda out: out.startswith(b"<svg") and out.endswith(b"</svg>\n") and out.count(b"a" * 4_000) >= drawn // 89)
        tally.check_done(f"show --svg --rows of {size} bytes", done, 0, drawing, ANY)


# A batch that begins with a tone of frame 0 and is idle from there on.
TONE_BATCH = SYNC + TONE + 15 * IDLE


def try_captures(tally, folder):
    """Captures of so many bytes, of as many transmissions as fit, each of a batch."""
    call = b"\xaa" * 8 + TONE_BATCH
    for size in (2_000_000, LARGEST):
        count = size // len(call)
        (folder / "capture").write_bytes(b"\xaa" * (size - count * len(call)) + count * call)
        told = ["--verbose"] * (size < LARGEST)  # a line for each transmission
        for words in (["decode"], ["hear", "8"]):
            done, due = run([*words, "--capture", "capture", *told], folder), b"address,kind,message,state\n" + count * b"8,tone0,,whole\n"
            is_told = done.stderr.count(b"\n") == count * len(told)
            tally.check_done(f"{words[0]} --capture of {count} calls", done, 0, due, ANY, is_told)
        done = run(["show", "--list", "--capture", "--nth", str(count), "capture", "--verbose"], folder)
        tally.check_done(f"show --nth of {count} calls", done, 0, SHOWN, ANY)
    (folder / "capture").unlink()


def try_sounds(tally, folder):
    """A sound that is kept in memory, and the longest that a WAV file holds, which goes nowhere; each of a sample a bit: a header of
    44 bytes, and behind the bits 255 ms of silence, which are 612 bits."""
    words = ["wav", "tx.bin", "--rate", "2400", "--samples", "2400", "--invert", "--preamble", "584", "--tail", "255", "--verbose"]
    (folder / "tx.bin").write_bytes(PREAMBLE + 20_000 * TONE_BATCH)
    tally.check_done("wav of 20000 batches", run(words, folder), 0, Text(lambda out: len(out) == 44 + 2 * (584 + 544 * 20_000 + 612)))
    (folder / "tx.bin").write_bytes(PREAMBLE + 3_947_578 * TONE_BATCH)
    tally.check_done("wav of 3947578 batches", run(words, folder, stdout=subprocess.DEVNULL), 0, None)


def read_again(edits, pages):
    """What is said of a journal."""
    return fault(f"{edits} edits read, {pages} pages")


def try_open(tally, folder):
    """An open round of a page file, edited and planned, and what its journal keeps."""
    for pages, letters, codewords in ROUNDS:
        records = texts(0, pages, letters).splitlines(True)
        (folder / "pages.csv").write_bytes(b"".join([HEADER, *records]))
        (folder / "journal").unlink(missing_ok=True)
        half, journal = pages // 2, ["--journal", "journal", "--always", "--keep", "--verbose"]
        batches = half * codewords // 16
        lines = b"plan,tx.bin,cert.bin,idle\ncancel,%d\nadd,%splan,front.bin,front.cert,open,%d\nsent,5\nlist\n" % (pages - 1, records[-1], batches)
        told = b"batches %d\nok %d\nok %d\nbatches %d, sent %d\n" % (2 * batches + 1, pages - 1, pages, batches, half)
        kept, count, again = b"".join([HEADER, *records[half + 5:]]), b"ok %d\n" % (half - 5), read_again(pages + 4, half - 5)
        checked = ["--strict", "--expect", str(pages)]
        for words, name, noted in ((journal, "with", read_again(0, pages)), (checked, "without", b"")):
            done = run(["open", *words, "pages.csv"], folder, lines)
            tally.check_done(f"an open round of {pages} pages {name} a journal", done, 0, told + count + kept + count, noted)
        tally.check_done(f"the journal of {pages} pages, read only", run(READ_ONLY, folder), 0, kept, again)
        size = (folder / "journal").stat().st_size
        done, announced = run(["open", *journal], folder, b"list\nclear\n"), b"reading a journal of %d bytes\n" % size * (size > 4_000_000)
        tally.check_done(f"the journal of {pages} pages", done, 0, kept + count + b"ok 0\n", announced + again)


def try_edits(tally, folder):
    """An open round of tones, added one by one, planned slot by slot, and what its journal keeps; and the longest line. It is in
    memory, if the system has files there: each edit is synchronised before its answer."""
    with tempfile.TemporaryDirectory(dir=MEMORY or folder) as name:
        folder = pathlib.Path(name)
        for pages in (2_000, PAGES):
            (folder / "journal").unlink(missing_ok=True)
            first, then = pages // 32 * 16, pages // 2 - 100
            lines = b"".join(b"add,%d,tone0,\n" % address for address in range(pages))
            lines += b"add,20000,tone0,\n" * (pages == PAGES) + b"plan,tx.bin,cert.bin,open,%d\nsent,%d\n" % (pages // 32, then)
            due = b"".join(b"ok %d\n" % (count + 1) for count in range(pages)) + b"refused: too many pages\n" * (pages == PAGES)
            due += b"batches %d, sent %d\nok %d\n" % (pages // 32, first, pages - first - then)
            for words, name, noted in ((["--journal", "journal"], "with", read_again(0, 0)), ([], "without", b"")):
                tally.check_done(f"{pages} edits {name} a journal", run(["open", *words], folder, lines), 0, due, noted)
            done, told = run(READ_ONLY, folder), read_again(pages + 2, pages - first - then)
            tally.check_done(f"the journal of {pages} edits", done, 0, HEADER + tones(first + then, pages), told)
        quotes, long = b'add,8,alpha,"%s"' % (b'""' * 4_000), b"add,8,alpha,".ljust(65_536, b"a")
        for line, due in ((quotes, b"ok 1\n"), (long, b"refused: the message is too long\n")):
            tally.check_done(f"a line of {len(line)} bytes", run(["open"], folder, line + b"\n"), 0, due)


def try_journals(tally, folder):
    """Journals of so many bytes, of which the greatest is the largest that is read: one page comes and goes again and again."""
    edits = b"add,8,alpha,%s\ncancel,8\n" % (b"a" * 4_000)
    for size in (10_000_000, 1_073_741_824):
        first, last = b"pocsag journal,1\n", b"add,8,tone0,\n"
        count, rest = divmod(size - len(first) - len(last), len(edits))
        letters = rest + len(edits) - 2 * (len(edits) - 4_000)
        others = b"".join(b"add,8,alpha,%s\ncancel,8\n" % (b"b" * it) for it in (letters // 2, letters - letters // 2))
        with open(folder / "journal", "wb") as file:
            file.write(first)
            for _ in range((count - 1) // 1_000):
                file.write(1_000 * edits)
            file.write((count - 1) % 1_000 * edits + others + last)
        is_size, told = (folder / "journal").stat().st_size == size, fault(f"{2 * count + 3} edits read, 1 page")
        tally.check_done(f"a journal of {size} bytes", run(READ_ONLY, folder), 0, HEADER + b"8,tone0,\n", told, is_size)
    (folder / "journal").unlink()


def try_table(tally, _):
    tally.check_none("each run that tests/calls/largest.txt names was made", sizes.runs_of("tests/program/largest.py") - tally.names)
