"""Runs the compiled programs with memory and devices refused, one call at a time. For each Nth growth of memory, each
Nth read and each Nth write, counting upwards until a run ends without a refusal, the answer must be the answer with
ample memory, or the fault of what was refused, and never another."""

import functools
import os
import pathlib
import subprocess

import read_back
import trees
from codewords import APART, HEADER, IDLE, MESSAGE, ZERO, codeword, digits, in_order, transmission
from sessions import edited, listed, listing
from tally import ANY, CANNOT_OPEN, CANNOT_WRITE, ENDS, NAMED_TWICE, PROGRAM, TOP, call, fault

HERE = pathlib.Path(__file__).resolve().parent
TRIAL = TOP / "crates/pocsag_trial/out/pocsag_trial"
MOST = 20_000
LONE_TONE = HEADER + b"8,tone0,\n"
# How each kind of call is told that was refused, and why the system refused it.
TEXTS = {"ALLOC": fault("out of memory"), "READ": CANNOT_OPEN, "WRITE": CANNOT_WRITE}
REASON = f": {os.strerror(5)} (os error 5)\n".encode()
MORE = b"(and more after a write that failed)"


def build(folder):
    """The library that refuses, compiled outside the crates."""
    library = folder / "refuse.so"
    subprocess.run(["cc", "-shared", "-fPIC", "-O1", "-o", str(library), str(HERE / "refuse.c")], check=True)
    return library


def marked(command, library, stdin, mark, **settings):
    """A run by the settings of refuse.c, and the marks that it wrote into the pipe of one of these."""
    reader, writer = os.pipe()
    environment = {**os.environ, "LD_PRELOAD": str(library), mark: str(writer), **settings}
    done = call(*command, input=stdin, env=environment, pass_fds=(writer,))
    os.close(writer)
    with open(reader, "rb") as marks:
        return done, marks.read()


def run(command, library, kind=None, number=0, stdin=b"", **settings):
    """Runs the command with one call refused; returns whether that call was reached. Bytes that are written to a file
    after its write was refused are told behind the output, which then is none that is due."""
    refused = {f"REFUSE_{kind}": str(number)} if kind else {}
    done, told = marked(command, library, stdin, "REFUSE_MARK", **refused, **settings)
    if b"a" in told:
        done.stdout += MORE
    return done, b"x" in told


def each_refusal(command, library, kind, stdin, judge, prepare=lambda: None):
    """Refuses the 1st, the 2nd, .. call of a kind until none is reached, and judges each run."""
    for number in range(1, MOST):
        prepare()
        done, reached = run(command, library, kind, number, stdin)
        if not reached:
            return number - 1
        judge(number, done)
    raise SystemExit(f"{command}: over {MOST} calls of {kind}")


def all_refusals(command, library, stdin, judge, **how):
    """The same of each kind; how many calls of it there are."""
    return {kind: each_refusal(command, library, kind, stdin, functools.partial(judge, kind), **how) for kind in TEXTS}


def is_told(done, kind, printed):
    """Whether a run ended by the fault of what was refused, with a part of what is printed with ample memory. The fault is missing where
    it is standard error that cannot be written."""
    has_text = done.stderr == TEXTS[kind] or kind == "WRITE" and TEXTS[kind].endswith(done.stderr)
    return done.returncode == 3 and has_text and printed.startswith(done.stdout)


# Of the calls of the trial, the one that takes no memory, one that tells two wants of memory apart, and those
# that have one each.
COPY = b"Page::copy of lone-tone"
STREAM = b"first_stream of lone-tone"
READ = b"read_round of lone-tone"
READ_AND_LAID = b"lay_in_order of lone-tone"
LACK, LACK_IN_ROUND = b": out of memory", b": out of memory in the round"


def is_stream(name):
    """Whether the call tells want of memory in the round apart from that behind it."""
    return name.startswith((b"first_stream ", b"plan_stream ", b"plan_stream_always "))


def try_trial(tally, library, folder):
    """Each line is the answer with ample memory, or the want of memory."""
    ample, _ = run([str(TRIAL)], library)
    lines = ample.stdout.splitlines()
    tally.check("trial with ample memory", ample.returncode == 0 and len(lines) > 5, ample.stderr)
    ample_of = {line.split(b": ")[0]: line for line in lines}
    lacks = {name: [] for name in ample_of}

    def judge(number, done):
        told = done.stdout.splitlines()
        holds = done.returncode == 0 and len(told) == len(lines)
        for answer, (name, wanted) in zip(told, ample_of.items()):
            if answer != wanted:
                lacks[name].append(answer)
                holds = holds and (answer == name + LACK or is_stream(name) and answer == name + LACK_IN_ROUND)
        tally.check(f"trial without its growth {number}", holds, done.stdout[-400:])

    count = each_refusal([str(TRIAL)], library, "ALLOC", b"", judge)
    never = {name for name, answers in lacks.items() if not answers}
    tally.check("trial: each call but one lacked memory", never == {COPY}, f"{count}, {never}")
    for name in filter(is_stream, lacks):
        in_round = lacks[name].count(name + LACK_IN_ROUND)
        in_turn = in_round > 0 and {*lacks[name][in_round:]} == {name + LACK}
        tally.check(f"{name.decode()}: the round and then the rest", in_turn, lacks[name])
    in_round, in_layout = len(lacks[READ]), len(lacks[READ_AND_LAID]) - len(lacks[READ])
    due = [STREAM + LACK_IN_ROUND] * in_round + [STREAM + LACK] * in_layout
    tally.check("trial: whose memory was wanting", in_layout > 0 and lacks[STREAM] == due, lacks[STREAM])


class Numbers:
    """What is known of a round of so many pages of 1,400 items, and of as many tones, for the addresses from 0."""

    def __init__(self, count):
        self.count = count
        self.in_order, self.tones_in_order = (in_order((address % 8, it) for address in range(count)) for it in (1_401, 1))
        # Half of each frame starts early: all slots are loaded alike, and the runs lead to every boundary. With the
        # closed end it takes one batch more, since no slot is left behind the last message.
        self.fewest = count * 1_401 // 16
        self.listed = len(HEADER) + sum(len(f"{address},numeric,") + 7_001 for address in range(count))
        self.counts = f"{count} {count * 1_401} {self.in_order}"


def book_told(numbers, last):
    """What is told of an open round of tones, which fill their batches: a plan, two streams with their bytes, and one tone more."""
    batches = numbers.count // 16
    counts = f"{numbers.count} {numbers.count} {numbers.tones_in_order} {batches}"
    stream = f"{batches} {72 + 68 * batches} 12"
    return f"{counts} {stream} {stream} {last}"


def try_large_trial(tally, library, folder):
    """The calls at the largest sizes that their limits allow, and at one between, against numbers from outside."""
    done, _ = run([str(TRIAL)], library, stdin=b"x")
    header = len(HEADER)
    data = [(8, 1_400), (16, 1_401), (24, 1_400), (32, 1_401)]
    data_listed = header + sum(len(f"{address},data1,") + 5 * items + 1 for address, items in data)
    # Two tones to a frame, the last alone: that of slot 2f is for address 8 + f.
    tones_listed = header + sum(len(f"{8 + place % 16 // 2},tone0,\n") for place in range(20_001))
    rounds = [Numbers(count) for count in (2_000, 20_000)]
    few, many = rounds
    wanted = [
        "Page::copy of 1,400 items: 1400",
        "tour, order_of and lay_out of 2,000 and 20,000 tones: 40000 2000 2500 40000 20000 2500",
        # Each tone starts its batch, and the idles behind it lead to the next.
        f"tour of 20,000 tones of one frame: {16 * 20_000}",
        # A transmission of at most 268,435,456 bytes: the preamble, and as many batches of 68 bytes as fit.
        f"feed and finish of 3,947,579 batches: {(268_435_456 - 72) // 68}",
        "write, decode, list and hear_all of 2,000 and 20,000 pages of 1,400 items: "
        + " ".join(f"{72 + 68 * it.in_order} true {it.listed} {it.count - 1} 1400" for it in rounds),
        f"decode, list and hear_all of pages of 1,400 and 1,401 items: 4 {data_listed} 16 1401 48 1401",
        f"hear_all, decode and list of 20,001 tones: {2 * 1_250 + 1} 20001 {tones_listed}",
        f"first_stream of 2,000 and 20,000 tones, and of one more: {few.tones_in_order} {72 + 68 * few.tones_in_order} "
        f"{many.tones_in_order} {72 + 68 * many.tones_in_order} record 20001: too many pages 0",
        f"read_round of 268,435,456 bytes, and with first_stream of one more: 1{2 * ' the file is too large'}",
        "read_certificate of 1,000,000 nodes: 1000000 58",
        "search and search_freely of 2,000 and 20,000 tones: 125 2000 1 true 125 2000 1 true 1250 20000 1 true 1250 20000 1 true",
        "search of eight pages to 1,000,000 nodes: 12 13 1000000 true",
        "plan and bounded_plan of 2,000 and 20,000 pages of 1,400 items: " + " ".join(
            f"{it.counts} {it.fewest + 1} {it.count} {it.fewest} {it.counts} {it.fewest}" for it in rounds),
        "a book of 2,000 and 20,000 tones, and its plans: " + " ".join(map(book_told, rounds, ("added", "too many pages"))),
        f"plan_stream of 20,000 pages of 1,400 items: {many.counts} {many.fewest} {72 + 68 * many.fewest} 12",
    ]
    told = done.stdout.decode().splitlines()
    tally.check("trial: as many large calls", done.returncode == 0 and len(told) == len(wanted), done)
    for answer, due in zip(told, wanted):
        tally.check(due, answer == due, answer)


def try_plan(tally, library, folder, name, page_file, count):
    """`plan` on files: after a refusal TX and then CERT hold a prefix, and the page file is never touched. Returns the number of writes."""
    pages, tx, cert = folder / "pages.csv", folder / "tx.bin", folder / "cert.bin"
    pages.write_bytes(page_file)
    command = [str(PROGRAM), "plan", str(pages), str(tx), str(cert)]
    ample, _ = run(command, library)
    due, shown = tx.read_bytes(), cert.read_bytes()
    holds = ample.returncode == 0 and ample.stdout.startswith(b"pages %d\nbatches " % count) and len(due) > 5000
    tally.check(name, holds and len(shown) > 10, ample)

    def prepare():
        tx.write_bytes(b"an older transmission")
        cert.write_bytes(b"an older certificate")

    def are_left(sent, certified):
        """Nothing was emptied yet, or prefixes stand, the transmission whole before the certificate."""
        if sent == b"an older transmission" or certified == b"an older certificate":
            return sent in (b"an older transmission", b"") and certified == b"an older certificate"
        return due.startswith(sent) and shown.startswith(certified) and (not certified or sent == due)

    def judge(kind, number, done):
        sent, certified = tx.read_bytes(), cert.read_bytes()
        is_ample = kind == "ALLOC" and done.returncode == 0 and (sent, certified) == (due, shown)
        is_refused = is_told(done, kind, ample.stdout) and are_left(sent, certified)
        is_grown = kind == "ALLOC" and is_refused and sent not in (b"an older transmission", b"")
        tally.check(f"{name} without {kind} {number}", (is_refused or is_ample) and pages.read_bytes() == page_file, done)
        tally.check(f"{name} grows nothing after the first byte: {number}", not is_grown, done)

    counts = all_refusals(command, library, b"", judge, prepare=prepare)
    tally.check(f"{name}: growths and reads", counts["ALLOC"] > 3 and counts["READ"] > 0, counts)
    prepare()
    short, _ = run(command, library, REFUSE_SHORT="1")
    tally.check_done(f"{name} one byte at a time", short, 0, ANY, ANY, (tx.read_bytes(), cert.read_bytes()) == (due, shown))
    return counts["WRITE"]


def try_plans(tally, library, folder):
    """Of a short page file the transmission, the certificate and the lines are one write each; one of more than 4 MB, nearly all of it
    empty lines, is sent in pieces of 64 batches, and its certificate in two."""
    short = HEADER + b"".join(b"%d,numeric,%d\n" % (k, 10**9 + k) for k in range(400))
    tally.check("plan: writes", try_plan(tally, library, folder, "plan", short, 400) == 3)
    long = HEADER + 4_000_000 * b"\n" + b"".join(b"%d,alpha,%s\n" % (k, 400 * b"a") for k in range(20))
    writes = try_plan(tally, library, folder, "plan, long", long, 20)
    pieces = -(-(folder / "tx.bin").stat().st_size // (64 * 68))
    tally.check("plan, long: writes", writes == pieces + 3 and pieces > 2, (writes, pieces))


def try_printing(tally, library, folder, words, files, in_pieces=False, stdin=b""):
    """A command that reads and prints: after a refusal a part of its text was printed, which is not all of it; nothing where memory or a
    read was refused, unless the text is written in pieces. Returns how many calls of each kind there are."""
    name = f"{' '.join(words) or 'input'}{', long' * in_pieces}"
    for file, content in files.items():
        (folder / file).write_bytes(content)
    command = [str(PROGRAM)] + [str(folder / word) if word in files else word for word in words]
    ample, _ = run(command, library, stdin=stdin)
    tally.check(name, ample.returncode == 0 and len(ample.stdout) > 5, ample)
    behind = set()

    def judge(kind, number, done):
        is_ample = kind == "ALLOC" and done.returncode == 0 and done.stdout == ample.stdout
        is_part = done.stdout != ample.stdout and (kind == "WRITE" or in_pieces or not done.stdout)
        is_refused = is_told(done, kind, ample.stdout) and is_part
        behind.update({kind} if is_refused and done.stdout else ())
        kept = all((folder / file).read_bytes() == content for file, content in files.items())
        tally.check(f"{name} without {kind} {number}", (is_ample or is_refused) and kept, done)

    counts = all_refusals(command, library, stdin, judge)
    tally.check(f"{name}: calls of each kind", min(counts.values()) > 0, counts)
    tally.check(f"{name}: memory refused behind a part", ("ALLOC" in behind) == in_pieces, behind)
    tally.check_done(f"{name} one byte at a time", run(command, library, stdin=stdin, REFUSE_SHORT="1")[0], 0, ample.stdout, ANY)
    return counts


class Answers:
    """What `open` answers line by line, where one call may be refused: an edit that is refused changes nothing."""

    def __init__(self, lines):
        self.lines, self.pages, self.refused = lines, [], []

    def due(self, line):
        """What a line is answered with ample memory; the pages are those after it."""
        word, count = line.partition(b",")[0], len(self.pages)
        if word == b"list":
            return [*listing(self.pages).splitlines(), b"ok %d" % count]
        if word == b"bogus":
            return [b"refused: unknown edit"]
        if word == b"plan" and count and line.count(b",") == 4:
            self.pages = []
            return [b"batches 1, sent %d" % count]
        if word == b"plan":
            return [b"batches 1" if count else b"refused: there are no pages"]
        answer, self.pages = edited(self.pages, line)
        return [answer]

    def are(self, told, refusal, refusable):
        """Whether these are the answers, where the refusal may stand in place of those to lines of such words."""
        told = list(told)
        for line in self.lines:
            word = line.partition(b",")[0]
            if told[:1] == [refusal] and word in refusable:
                self.refused.append(word)
                told = told[1:]
                continue
            due = self.due(line)
            if told[: len(due)] != due:
                return False
            told = told[len(due) :]
        return not told


def try_open(tally, library, folder):
    """`open` by lines: an edit that meets want of memory is answered so, and the next ones as if it were not made."""
    files = b"%s/open.bin,%s/open.cert" % (bytes(folder), bytes(folder))
    edits = [
        b"add,8,tone0,", b"add,17,numeric,5550199", b'add,26,alpha,"Ward 3, bed 2"', b"list", b"cancel,17", b"cancel,99",
        b"add,8,tone1,", b"add,38,alpha,Gate", b"plan," + files, b"plan," + files + b",closed", b"plan," + files + b",idle", b"bogus", b"list",
        b"plan," + files + b",open,9", b"cancel,38", b"add,38,alpha,Gate", b"clear", b"plan," + files, b"add,7,tone3,", b"list",
    ]
    (folder / "open.csv").write_bytes(HEADER)
    stdin = b"\n".join(edits) + b"\n"
    command = [str(PROGRAM), "open"]
    ample, _ = run(command, library, stdin=stdin)
    answers = ample.stdout.splitlines()
    tally.check("open with ample memory", Answers(edits).are(answers, None, ()) and (ample.returncode, ample.stderr) == (0, b""), ample)
    wanting = []

    def judge(kind, number, done):
        kept, answers = Answers(edits), done.stdout.splitlines()
        if kind == "ALLOC" and done.returncode == 0:
            refusable = (b"add", b"cancel", b"list", b"plan", b"clear", b"bogus")
            holds = kept.are(answers, b"refused: out of memory", refusable) and len(kept.refused) <= 1 and not done.stderr
            wanting.extend(kept.refused)
        elif kind == "WRITE" and done.returncode == 0:
            holds = kept.are(answers, b"refused: cannot write", (b"plan",)) and len(kept.refused) == 1
        else:
            is_part = {"ALLOC": not answers, "READ": done.stdout in (b"", ample.stdout), "WRITE": done.stdout != ample.stdout}
            holds = is_told(done, kind, ample.stdout) and is_part[kind]
        tally.check(f"open without {kind} {number}", holds, done)

    counts = all_refusals(command, library, stdin, judge)
    tally.check("open: calls of each kind", min(counts.values()) > 1, counts)
    tally.check("open: each word that takes memory lacked it", {b"add", b"list", b"plan"} <= set(wanting), wanting)
    tally.check_done("open one byte at a time", run(command, library, stdin=stdin, REFUSE_SHORT="1")[0], 0, ample.stdout, ANY)


def try_open_pages(tally, library, folder):
    """`open PAGES`: want of memory, or a read that fails, before the first line ends it."""
    path = folder / "open.csv"
    path.write_bytes(HEADER + b"8,tone0,\n17,numeric,5550199\n26,alpha,Ward\n")
    command = [str(PROGRAM), "open", str(path)]
    due = path.read_bytes() + b"ok 3\n"
    for kind, least in (("ALLOC", 5), ("READ", 2)):

        def judge(number, done):
            is_lack = is_told(done, kind, due) and done.stdout in (b"", due)
            is_answered = kind == "ALLOC" and done.returncode == 0 and done.stdout in (b"refused: out of memory\n", due)
            tally.check(f"open PAGES without {kind} {number}", is_lack or is_answered, done)

        count = each_refusal(command, library, kind, b"list\n", judge)
        tally.check(f"open PAGES: {kind}", count >= least, count)


def try_late_growths(tally, library, folder):
    """What writes a file or a text takes all its memory before the first byte."""
    pages, sent, cert = folder / "late.csv", folder / "late.bin", folder / "late.cert"
    pages.write_bytes(HEADER + b"".join(b"%d,alpha,%s\n" % (k, b"Ward %d" % k * (1 + k % 7)) for k in range(900)))
    names = [str(path) for path in (pages, sent, cert)]
    plans = [["plan", *names, *end, *more] for end in ENDS.values() for more in ([], ["--always"])]
    others = [["check", names[0], names[2]], ["decode", names[1]], ["hear", "8", names[1]], ["wav", names[1]]]
    others += [[*words, *form] for words in others[1:3] for form in (["--json"], ["--text", "0,1,2"])]
    others += [["show", names[1], *more] for more in ([], ["--svg"], ["--list"])]
    others += [["report", names[0], "--rate", "512", *more] for more in ([], ["--always"], ["--frames"])]
    others += [["explain", names[0], names[2], *more] for more in ([], ["--json"], ["--svg"])]
    for words in [*plans, *others, []]:
        done, late = marked([str(PROGRAM), *words], library, b"" if words else pages.read_bytes(), "REFUSE_LATE")
        tally.check(f"no growth after the first byte: {words[:1]}", done.returncode == 0 and not late, (words, late, done.stderr))


def try_devices(tally, library, folder):
    """Files of one number on different devices are different files."""
    pages, one, other, again = (folder / name for name in ("pages.csv", "one.bin", "other.bin", "again.bin"))
    pages.write_bytes(LONE_TONE)
    for path in (one, other):
        path.write_bytes(b"older")
    plan = lambda *paths: run([str(PROGRAM), "plan", *map(str, paths)], library, REFUSE_SAME="1")[0]
    tally.check_done("files of one number on three devices", plan(pages, one, other), 0, b"pages 1\nbatches 1\n")
    again.hardlink_to(one)
    tally.check_done("one number on one device", plan(pages, one, again), 1, b"", NAMED_TWICE)


# One page across two batches.
ACROSS = transmission([*15 * [IDLE], ZERO, codeword(MESSAGE | digits("12345")[0])])
FILES = {"pages.csv": APART, "cert.bin": bytes.fromhex("5043423200000000030200013000020000010080 00"), "tx.bin": ACROSS}
# 1,200 calls in one frame, and why 599 batches do not carry them, in 1,199 nodes. Of more than 4,096 bytes it is explained in pieces.
# Three pages, of which two are more text than is written at once, in each form. A transmission of 4 MB is written as it is read.
LONG_FILES = {
    "pages.csv": HEADER + b"".join(b"%d,tone0,\n" % (8 * place) for place in range(1_200)),
    "cert.bin": b"PCB2\0" + (600).to_bytes(4, "big") + trees.halved(1, 0, 599, trees.spelled(trees.overload(0b11))),
    "tx.bin": transmission(3 * [ZERO, *400_000 * [codeword(MESSAGE | digits("12345")[0])]]),
}
# Commands that print, with the options of each; and those whose text is written in pieces.
PRINTED = [
    ("check pages.csv cert.bin", [""]),
    ("explain pages.csv cert.bin", ["", "--json", "--svg"]),
    ("report pages.csv --rate 1200", ["", "--frames"]),
    ("decode tx.bin", ["", "--json", "--text 0", "--repair --json", "--repair --text 0", "--capture"]),
    ("hear 7 tx.bin", ["", "--json", "--text 0", "--capture"]),
    ("show tx.bin", ["", "--svg", "--list", "--capture"]),
    ("wav tx.bin", ["--samples 8000"]),
]
IN_PIECES = [
    ("explain pages.csv cert.bin", ["--depth 300"]),
    ("decode tx.bin", ["", "--json", "--text 0", "--capture", "--capture --json"]),
    ("show tx.bin", ["", "--list", "--svg"]),
]


def try_printings(tally, library, folder):
    """All of these, and the program with no words, over standard input."""
    for rows, files, in_pieces in ((PRINTED, FILES, False), (IN_PIECES, LONG_FILES, True)):
        for words, options in rows:
            for option in options:
                try_printing(tally, library, folder, [*words.split(), *option.split()], files, in_pieces)
    counts = try_printing(tally, library, folder, [], {}, stdin=HEADER + b"0,numeric,12345\n9,alpha,Hello\n8,tone1,\n")
    tally.check("input: growths and writes", counts["ALLOC"] > 3 and counts["WRITE"] == 1, counts)


# The edits of a journal, and what is said of the third, which is refused. What standard error refused keeps it not back.
EDITS = [b"add,8,alpha,Ward 3", b"add,16,tone0,", b"add,16,tone0,", b"cancel,8", b"add,24,numeric,55"]
REFUSED = b"pocsag: add,16,tone0,"
# The journal has more than a megabyte once the line of this number is kept, and is written anew.
LONG = [b"add,8,alpha," + b"A" * 4000, b"cancel,8"] * 265
ANEW_AT = 521


def check_kept(tally, path, lines, name, done):
    """Whether the next start lists the edits that were answered ok, or these and one more; gives the answers."""
    told, pages = done.stdout.splitlines(), []
    for line, answer in zip(lines, told):
        if answer.startswith(b"ok "):
            pages = edited(pages, line)[1]
    more = edited(pages, lines[len(told)])[1] if len(told) < len(lines) else pages
    found, _ = listed(path.parent, path)
    tally.check(name, found in (listing(pages), listing(more)), (done, found))
    return told


def names_it(done, path):
    """The fault is told in one line, and in another the journal by its name with the system's reason."""
    first, *notes = [line for line in done.stderr.splitlines(True) if b" edits read, " not in line and line.rstrip() != REFUSED]
    return first.startswith(b"pocsag: cannot ") and notes == [f"pocsag: journal {path}".encode() + REASON]


def try_kept(tally, library, folder):
    """A journal without each growth, read, write, synchronisation and renaming in turn; then without those by which a long one
    is written anew."""
    path = folder / "kept.journal"
    command = [str(PROGRAM), "open", "--journal", str(path), "--verbose"]

    def prepare():
        for left in folder.glob("kept.journal*"):
            left.unlink()

    for kind, least in (("ALLOC", 20), ("READ", 3), ("WRITE", 8), ("SYNC", 6), ("RENAME", 1)):
        named = []

        def judge(number, done):
            told = check_kept(tally, path, EDITS, f"journal without {kind} {number}", done)
            is_fault = done.returncode == 3 and (b"pocsag: " in done.stderr or kind == "WRITE")
            is_told = kind == "ALLOC" and b"refused: out of memory" in told
            is_done = kind in ("ALLOC", "WRITE") and done.returncode == 0 and len(told) - told.count(MORE) == len(EDITS)
            tally.check(f"journal without {kind} {number}: the status", is_fault or is_told or is_done, done)
            named.append(is_fault and names_it(done, path))

        count = each_refusal(command, library, kind, b"\n".join(EDITS) + b"\n", judge, prepare)
        tally.check(f"journal: {kind}", count >= least, count)
        tally.check(f"journal: {kind} named", sum(named) >= {"ALLOC": 0, "SYNC": count, "RENAME": count}.get(kind, 1), named)
    anew = 0
    for kind, numbers in (("RENAME", [2]), ("SYNC", range(ANEW_AT, ANEW_AT + 7)), ("WRITE", range(2 * ANEW_AT, 2 * ANEW_AT + 7))):
        for number in numbers:
            prepare()
            done, reached = run(command, library, kind, number, b"\n".join(LONG) + b"\n")
            told = check_kept(tally, path, LONG, f"a long journal without {kind} {number}: what is kept", done)
            tally.check(f"a long journal without {kind} {number}", reached and done.returncode == 3, done.returncode)
            anew += len(told) == ANEW_AT and names_it(done, path)
    tally.check("a long journal that could not be written anew", anew >= 4, anew)


def noted_commands(folder):
    """Words, standard input, and the roles of what is read and of what is written, with the names of the files."""
    files = (("page file", "noted.csv"), ("transmission", "noted.bin"), ("certificate", "noted.cert"))
    names = {role: str(folder / file) for role, file in files}
    pages, sent, shown = names.values()
    output = {"standard output": None}
    tx, cert, file = ({role: names[role]} for role in ("transmission", "certificate", "page file"))
    return [
        (["plan", pages, sent, shown, "--verify"], b"", {**file, **tx, **cert}, {**tx, **cert, **output}),
        (["plan", pages, sent, shown, "--keep", "--expect", "3"], b"", file, {**tx, **cert, **output}),
        ([], (folder / "noted.csv").read_bytes(), {"page file": "-"}, output),
        (["check", pages, shown], b"", {**file, **cert}, output),
        (["explain", pages, shown], b"", {**file, **cert}, output),
        (["decode", sent], b"", tx, output),
        (["hear", "8", sent], b"", tx, output),
        (["show", sent], b"", tx, output),
        (["report", pages, "--rate", "512"], b"", file, output),
        (["report", pages, "--rate", "512", "--frames"], b"", file, output),
    ]


def try_noted(tally, library, folder):
    """`--verbose` with each call refused in turn: the first line is that of a run without it, and the line behind it names the
    file that the system refused, with its reason."""
    (folder / "noted.csv").write_bytes(HEADER + b"0,numeric,12345\n9,alpha,Hello\n8,tone1,\n")
    for words, stdin, read, written in noted_commands(folder):
        ample, _ = run([str(PROGRAM), *words], library, stdin=stdin)
        noted = [str(PROGRAM), *words, "--verbose"]
        same, _ = run(noted, library, stdin=stdin)
        tally.check(f"noted: {words[:1]}", ample.returncode == 0 and (same.stdout, same.stderr) == (ample.stdout, b""), same)
        for kind, places in (("ALLOC", {}), ("READ", read), ("WRITE", written)):
            due = {f"pocsag: {role}{' ' + name if name else ''}".encode() + REASON for role, name in places.items()}
            met = set()

            def judge(number, done):
                first, *notes = done.stderr.splitlines(True) or [b""]
                holds = (done.returncode, first) == (3, TEXTS[kind])
                if kind == "ALLOC":
                    is_ample = (done.returncode, done.stdout, done.stderr) == (0, ample.stdout, b"")
                    holds = is_ample or holds and all(line.startswith(b"pocsag: ") for line in notes)
                else:
                    holds = holds and len(notes) == 1 and notes[0] in due
                    met.update(notes)
                tally.check(f"noted: {words[:1]} without {kind} {number}", holds, done)

            count = each_refusal(noted, library, kind, stdin, judge)
            tally.check(f"noted: {words[:1]} tells each file, {kind}", count > 0 and met == due, (count, met, due))


def try_all(tally, folder):
    library = build(folder)
    for part in (try_trial, try_large_trial, try_plans, try_open, try_open_pages, try_late_growths, try_devices, read_back.try_lost,
                 read_back.try_read_back, read_back.try_fronts, try_printings, try_kept, try_noted):  # fmt: skip
        part(tally, library, folder)
