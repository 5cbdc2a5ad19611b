"""Calls the C library from C, C++, Python and Rust, beside the built program.

It makes the library, by LLVM and by the compiler that is written in Rattle, and compares the bytes, the listings and
the refusals of its calls with the program's over random rounds and over files that were changed, and those of the two
libraries with each other over some thousand more; runs the examples; refuses each growth of memory; gives buffers one
byte too small with guard pages behind them; calls from eight threads; and runs the same under valgrind and the
sanitizers where they are installed.
"""

import functools
import os
import pathlib
import random
import re
import shutil
import subprocess
import sys

import greatest
import in_c
import in_python
import kit
import make
import pocsag
import version
import workspace
from prover import Room
from answers import TOLD, WORDS, attempt, check_fault, is_same, program
from codewords import HEADER, IDLE, TONE, changed, random_file, rows_of, transmission
from tally import ANY, LIBRARY, TOP, call as run

HERE = pathlib.Path(__file__).resolve().parent
EXAMPLES = TOP / "clib/examples"
ROUND = TOP / "examples/round.csv"
ROUNDS, CHANGED = 1_200, 400
ROUNDS_OF_BOTH, CHANGED_OF_BOTH = 2_000, 8_000
CALLS = {"airtime_batches", "check", "decode", "decode_as", "explain", "hear", "hear_as", "lay_in_order", "plan", "plan_at_most"}
CALLS |= {"frames", "report", "show", "strict", "text_of_status", "text_of_version", "version", "wav", "write_page"}
CALLS = {f"pocsag_{name}" for name in CALLS}


class Library:
    """The library in a folder, loaded, beside files that the program reads."""

    def __init__(self, folder, room):
        self.folder, self.room, self.path = folder, room, folder / make.SONAME
        self.pocsag = pocsag.Pocsag(str(self.path))
        self.pages, self.tx, self.cert = room / "pages.csv", room / "pages.bin", room / "pages.cert"
        self.plans = []  # of random rounds, each a page file with what the library makes of it

    def beside_program(self, pages, end, always, batches=None):
        """Whether a plan, or the front of so many batches, is that of the program, with its files and its text, and its certificate is
        shown; and the plan."""
        self.pages.write_bytes(pages)
        files, call, words = [self.tx, self.cert], self.pocsag.plan, [*WORDS[end], *["--always"] * always]
        if batches is not None:
            files += [self.pages.with_suffix(ending) for ending in (".rest", ".why")]
            call = functools.partial(self.pocsag.plan_at_most, batches=batches)
            words += ["--at-most", batches, "--rest", files[2], "--why", files[3]]
        told = program("plan", self.pages, self.tx, self.cert, *words)
        plan = attempt(call, pages, end=end, always=always)
        if isinstance(plan, pocsag.Fault):
            return is_same(plan, told), None
        text = b"pages %d\nbatches %d\n" % (plan.pages, plan.batches) + b"at least %d batches\n" % plan.bound * (plan.bound < plan.batches)
        if batches is None:
            same = self.pocsag.check(pages, plan.certificate) == (True, end, plan.bound)
        else:
            same = True
            text += b"left %d\n" % plan.left + b"at least %d batches with one page more\n" % plan.beyond * (0 < plan.beyond <= batches)
        return same and told == (0, text) and [*plan[: len(files)]] == [path.read_bytes() for path in files], plan

    def reads_alike(self, pages, tx, cert, address):
        """Whether a check, a listing and what a pager shows are what the program says."""
        self.pages.write_bytes(pages)
        self.tx.write_bytes(tx)
        self.cert.write_bytes(cert)
        shown = attempt(self.pocsag.check, pages, cert)
        if not isinstance(shown, pocsag.Fault):
            shown = (0, b"at least %d batches%s\n" % (shown.batches, TOLD[shown.end])) if shown.is_shown else (1, b"not shown\n")
        answers = [
            (shown, program("check", self.pages, self.cert)),
            self.explanation(pages, cert, pocsag.IN_WORDS, 3),
            (attempt(self.pocsag.decode, tx), program("decode", self.tx)),
            (attempt(self.pocsag.hear, address, tx), program("hear", address, self.tx)),
        ]
        return all(is_same(*pair) for pair in answers)

    def explanation(self, pages, cert, form, depth):
        """What the library and the program tell of a certificate; both files stand where the program reads them."""
        words = ["--depth", depth] + ["--json"] * (form == pocsag.AS_JSON)
        told = attempt(self.pocsag.explain, pages, cert, form, depth)
        if not isinstance(told, pocsag.Fault):
            told = (int(not told.is_shown), told.text)
        return told, program("explain", self.pages, self.cert, *words)


def try_bytes(tally, library):
    source, wrong = random.Random(1), []
    for number in range(ROUNDS):
        pages = random_file(source)
        same, plan = library.beside_program(pages, source.randrange(3), source.randrange(4) == 0)
        library.plans += [(pages, plan)] * (plan is not None)
        wrong += [number] * (not same)
    tally.check(f"{ROUNDS} rounds are planned as the program plans them", not wrong, wrong[:5])


def try_fronts(tally, library):
    """Fronts of random rounds, beside the program; and of the sample round, as its picture in two batches shows them."""
    source, plans = random.Random(4), library.plans[::3]
    wrong, kinds = [], set()
    for number, (pages, plan) in enumerate(plans):
        batches = source.randrange(plan.batches + 2)
        same, front = library.beside_program(pages, source.randrange(3), source.randrange(4) == 0, batches)
        wrong += [number] * (not same)
        kinds.add("none" if front is None else "all" if front.left == 0 else "some")
    tally.check(f"{len(plans)} fronts are planned as the program plans them", not wrong, wrong[:5])
    tally.check("some have no page, some each, and some a part", kinds == {"none", "all", "some"}, kinds)
    # Each tone wants a slot of frame 0, of which a batch has two: five need three batches, and two batches carry four.
    call, tones = library.pocsag.plan_at_most, HEADER + b"".join(b"%d,tone0,\n" % (8 * number) for number in range(1, 6))
    front = call(tones, 2)
    numbers = (front.pages, front.left, front.codewords, front.batches, front.bound, front.beyond)
    tally.check("four of five tones of one frame in two batches", numbers == (4, 1, 4, 2, 2, 3), front)
    tally.check("the fifth is left", front.rest == HEADER + b"40,tone0,\n", front.rest)
    tally.check_same("five need three batches, as is certified", library.pocsag.check(tones, front.why), (True, 0, 3))
    whole = call(tones, 3)
    tally.check("three batches carry all", (whole.pages, whole.left, whole.why, whole.beyond) == (5, 0, b"", 0), whole)
    name, page = "a first page of 19 codewords needs two batches", HEADER + b"8,alpha,%s\n" % (b"a" * 50)
    check_fault(tally, name, pocsag.FirstPage, call, page, 1, told="page 1 needs 2 batches")
    for sizes in ((0, 0, 0, 0), (1, 0, 1, 1), (0, 4_096, 4_096, 0)):
        given = call(tones, 2, sizes=sizes)
        tally.check(f"a front with buffers of {sizes} bytes at first", given[:2] == front[:2] and given.rest in (None, front.rest), given)
    unwanted = call(tones, 2, sizes=(4_096, 4_096, 0, 0))
    tally.check("what is not wanted is not given", (unwanted.pages, unwanted.rest, unwanted.why) == (4, None, None), unwanted)


def try_changed(tally, library):
    source, wrong, refused = random.Random(2), [], 0
    for number in range(CHANGED):
        pages, plan = source.choice(library.plans)
        files, which = [pages, plan.transmission, plan.certificate], source.randrange(3)
        files[which] = changed(source, files[which])
        address = int(pages.split(b"\n")[1].split(b",")[0]) if source.randrange(5) else source.randrange(2_100_000)
        if which == 0:
            same, planned = library.beside_program(files[0], 0, False)
            refused += planned is None
            wrong += [number] * (not same)
        wrong += [number] * (not library.reads_alike(*files, address))
    tally.check(f"{CHANGED} changed files are judged as the program judges them", not wrong, wrong[:5])
    tally.check("some of them are refused", refused > 0)


def refused_calls(call, sample, sent):
    """Calls that are refused: what is wrong, the fault, the call, and what it is given."""
    apart, long = (TOP / "examples/loops-apart.csv").read_bytes(), sent[:72] + sent[72:] * 160_000
    tone, unknown, quoted = (pocsag.HEADER + record for record in (b"8,tone0,\n", b"8,tone9,\n", b'8,alpha,a"b\n'))
    return [
        ("a limit of 0", pocsag.BadLimit, call.plan, (sample,), {"limit": 0}),
        ("a limit above the greatest", pocsag.BadLimit, call.plan, (sample,), {"limit": 1_000_001}),
        ("an end that is none", pocsag.BadEnd, call.plan, (sample,), {"end": 3}),
        ("an address that is none", pocsag.PagerBadAddress, call.hear, (2_097_152, b""), {}),
        ("a form that is none", pocsag.BadForm, call.explain, (sample, call.plan(sample).certificate), {"form": 2}),
        ("a rate that is none", pocsag.BadRate, call.report, (sample, 1201), {}),
        ("frames of no end", pocsag.BadEnd, call.frames, (tone,), {"end": 3, "limit": 0}),
        ("frames of no kind", pocsag.BadKind, call.frames, (unknown,), {"limit": 0}),
        ("frames of no limit", pocsag.BadLimit, call.frames, (tone,), {"limit": 0}),
        ("frames behind the limit", pocsag.SearchLimit, call.frames, (apart,), {"limit": 2, "always": False}),
        ("frames of a quote inside", pocsag.QuoteInside, call.frames, (quoted,), {"strict": True}),
        ("a reading that is none", pocsag.BadReading, call.decode, (sent, 3), {}),
        ("one that a pager has not", pocsag.BadReading, call.hear, (8, sent, 2**32), {}),
        ("a picture that is none", pocsag.BadReading, call.show, (sent, 3, (0, 9)), {}),
        ("batch 0", pocsag.BadRows, call.show, (sent, pocsag.SHOW_LIST, (0, 9)), {}),
        ("batches from the last", pocsag.BadRows, call.show, (sent, pocsag.SHOW_TEXT, (2, 1)), {}),
        ("batches behind the last", pocsag.BadRows, call.show, (sent, pocsag.SHOW_TEXT, (3, 3)), {}),
        ("a drawing of none", pocsag.BadRows, call.show, (sent, pocsag.SHOW_DRAWING, (3, 2**64 - 1)), {}),
        ("a fault before batches behind the last", pocsag.Truncated, call.show, (sent[:-1], pocsag.SHOW_TEXT, (3, 3)), {}),
        ("a capture of a byte too many", pocsag.CaptureTooLarge, call.decode, (bytes(268_435_457), pocsag.CAPTURED), {}),
        ("a sound at no rate", pocsag.BadRate, call.wav, (sent, 1201), {}),
        ("a sound of too many samples", pocsag.BadSamples, call.wav, (sent, 1200, 2**32), {}),
        ("a sound of no preamble", pocsag.BadPreamble, call.wav, (sent, 1200, 48_000, 0), {}),
        ("a sound that is too long", pocsag.TooLongForWav, call.wav, (long, 512, 192_000), {}),
        ("an airtime at no rate", pocsag.BadRate, call.airtime_batches, (934, 1201), {}),
    ]


def try_faults(tally, library):
    call, sample = library.pocsag, ROUND.read_bytes()
    tally.check("the version", call.version() == 5)
    plan = call.plan(sample)
    for name, wanted, refused, words, named in refused_calls(call, sample, plan.transmission):
        check_fault(tally, name, wanted, refused, *words, **named)
    pages = HEADER + b"1,tone0,\n2,tone9,\n"
    check_fault(tally, "the record of a fault", pocsag.BadKind, call.plan, pages, told="record 2: unknown kind")
    fault = attempt(call.plan, b"address,kind,message\n8,numeric,12x4\n")
    told = type(fault), fault.record_number, fault.at, str(fault)
    tally.check("the place of a fault", told == (pocsag.BadCharacter, 1, 2, "record 1: bad character at 2"), vars(fault))
    other = call.check(sample.replace(b"20451", b"2"), plan.certificate)
    tally.check("a certificate of another round may not be shown, and is judged", other.batches == 2, other)


def try_reports(tally, library):
    """The seven numbers of the sample round, as the program prints them."""
    names = pocsag.Report._fields[:-1]
    for rate in (512, 1200, 2400):
        told = library.pocsag.report(ROUND.read_bytes(), rate)
        text = "".join(f"{name} {getattr(told, name)}\n" for name in names).encode()
        tally.check(f"the report at {rate}", (0, text) == program("report", ROUND, "--rate", rate), told)


def try_frames(tally, library):
    """The frames of plans, as the program prints them with the least room first; and those of a round worked by hand."""
    source, call, wrong, plans = random.Random(8), library.pocsag.frames, [], library.plans[::4]
    for number, (pages, plan) in enumerate(plans):
        end, always = source.randrange(3), source.randrange(4) == 0
        library.pages.write_bytes(pages)
        told = program("report", library.pages, "--rate", 1200, "--frames", *WORDS[end], *["--always"] * always)
        given = attempt(call, pages, end=end, always=always)
        if isinstance(given, pocsag.Fault):
            wrong += [number] * (not is_same(given, told))
            continue
        rows = sorted(given.frames, key=lambda frame: frame.room)
        lines = [b"frame %d pages %d codewords %d room %d\n" % frame for frame in rows]
        same = told[0] == 0 and told[1].endswith(b"".join(lines)) and b"\nbatches %d\n" % given.batches in told[1]
        bound = b"at least %d batches\n" % given.bound * (given.bound < given.batches)
        same = same and [frame.frame for frame in given.frames] == list(range(8)) and bound in told[1]
        wrong += [number] * (not same or sum(frame.codewords + frame.room for frame in given.frames) != 16 * given.batches)
    tally.check(f"{len(plans)} plans have the frames that the program prints", not wrong, wrong[:5])
    # Five tones of frame 0 need three batches, in which that frame has six codewords. The numeric page has three codewords: two in
    # frame 7 and one in frame 0, since two of them would be one too many there.
    tones = b"".join(b"%d,tone0,\n" % (8 * number) for number in range(1, 6))
    given = call(pocsag.HEADER + tones + b"15,numeric,5550199\n")
    wanted = [(0, 5, 5, 0), *((frame, 0, 0, 6) for frame in range(1, 7)), (7, 1, 3, 4)]
    tally.check("the frames of a round by hand", (given.frames, given.batches, given.bound) == (wanted, 3, 3), given)
    loose = call((TOP / "examples/loops-apart.csv").read_bytes(), limit=2)
    tally.check("the frames of a plan above its bound", (loose.batches, loose.bound) == (3, 2), loose)


def try_explanations(tally, library):
    """The texts of the program's `explain`, for the certificate of each example and for another round's."""
    call, wrong, number = library.pocsag, [], 0
    files = [path.read_bytes() for path in sorted((TOP / "examples").glob("*.csv"))]
    plans = [(pages, attempt(call.plan, pages, end=end)) for pages in files for end in WORDS]
    pairs = [(pages, plan.certificate) for pages, plan in plans if isinstance(plan, pocsag.Plan)]
    pairs += [(ROUND.read_bytes(), certificate) for _, certificate in pairs]
    for pages, certificate in pairs:
        library.pages.write_bytes(pages)
        library.cert.write_bytes(certificate)
        for form in (pocsag.IN_WORDS, pocsag.AS_JSON):
            for depth in (0, 1, 3, 300, 4_294_967_295):
                number += 1
                answer, told = library.explanation(pages, certificate, form, depth)
                wrong += [(answer, told)] * (not is_same(answer, told))
    tally.check(f"{number} explanations are those of the program", pairs and not wrong, wrong[:2])
    shown = {library.pocsag.explain(*pair).is_shown for pair in pairs}
    tally.check("some of them are of certificates that are not shown", shown == {False, True}, shown)


def without_states(told):
    """What the program lists of a capture, without the states, which the library does not tell."""
    lines = told[1].split(b"\n")
    return told[0], b"\n".join(line.rpartition(b",")[0] if line.endswith((b",state", b",whole", b",cut")) else line for line in lines)


def damaged(source, sent):
    """A transmission with up to two wrong bits in each of some words, or past repair."""
    sent = bytearray(sent)
    for word in range(18, len(sent) // 4):
        for _ in range(source.choice([0, 0, 1, 2, 2]) if source.randrange(40) else 3):
            sent[4 * word + source.randrange(4)] ^= 1 << source.randrange(8)
    return bytes(sent)


def captured(source, sent):
    """A transmission among other bits, at any of them, and in one polarity or the other."""
    bits = (source.getrandbits(64) << 8 * len(sent) | int.from_bytes(sent, "big")) << source.randrange(9)
    whole = bits.to_bytes(len(sent) + 9, "big")
    return bytes(byte ^ 255 for byte in whole) if source.randrange(2) else whole


def try_readings(tally, library):
    """What is read of damaged transmissions and of captures, and what is shown, beside the program."""
    source, call, wrong, faults, plans = random.Random(5), library.pocsag, [], 0, library.plans[::4]
    for number, (pages, plan) in enumerate(plans):
        address, rows = int(pages.split(b"\n")[1].split(b",")[0]), (source.randrange(1, 4), source.randrange(4, 9))
        for reading, words, sent in (
            (pocsag.PLAIN, [], plan.transmission),
            (pocsag.REPAIRED, ["--repair"], damaged(source, plan.transmission)),
            (pocsag.CAPTURED, ["--capture"], captured(source, damaged(source, plan.transmission))),
        ):
            library.tx.write_bytes(sent)
            pairs = [(attempt(call.decode, sent, reading), program("decode", library.tx, *words))]
            if reading != pocsag.REPAIRED:
                pairs.append((attempt(call.hear, address, sent, reading), program("hear", address, library.tx, *words)))
            if reading == pocsag.CAPTURED:
                pairs = [(answer, without_states(told)) for answer, told in pairs]
            else:
                shown = [(pocsag.SHOW_TEXT, []), (pocsag.SHOW_LIST, ["--list"]), (pocsag.SHOW_DRAWING, ["--svg"])]
                pairs += [(attempt(call.show, sent, form, reading=reading), program("show", library.tx, *words, *how)) for form, how in shown]
                part, told = attempt(call.show, sent, pocsag.SHOW_TEXT, rows, reading), program("show", library.tx, *words, "--rows", "%d-%d" % rows)
                if isinstance(part, pocsag.BadRows):  # the program names the rows
                    wrong += [(number, reading, rows)] * (told != (1, b"pocsag: rows %d-%d: the transmission has %d batch%s\n" % (*rows, plan.batches, b"es" * (plan.batches > 1))))
                else:
                    pairs.append((part, told))
            faults += isinstance(pairs[0][0], pocsag.Fault)
            wrong += [(number, reading, k) for k, pair in enumerate(pairs) if not is_same(*pair)]
    tally.check(f"{len(plans)} transmissions are read and shown as the program does", not wrong, wrong[:5])
    tally.check("some are past repair", faults > 0)
    sent = call.plan(ROUND.read_bytes()).transmission
    listing = call.decode(sent)
    for name, given in (("a bit more", bytes([0]) + sent), ("the other polarity", bytes(byte ^ 255 for byte in sent))):
        tally.check(f"a capture with {name}", call.decode(given, pocsag.CAPTURED) == listing)
    tally.check("two transmissions in a capture", call.decode(sent + sent, pocsag.CAPTURED) == listing + listing.split(b"\n", 1)[1])
    tally.check("noise alone has no pages", call.decode(b"", pocsag.CAPTURED) == pocsag.HEADER)
    wrong_bit = sent[:80] + bytes([sent[80] ^ 6]) + sent[81:]
    check_fault(tally, "two wrong bits are a fault", pocsag.BadWord, call.decode, wrong_bit, told="codeword 1: not a codeword")
    tally.check("and are repaired", call.decode(wrong_bit, pocsag.REPAIRED) == listing)
    tally.check("the list has all pages, whatever batches are asked for", call.show(sent, pocsag.SHOW_LIST, (3, 3)) == call.show(sent, pocsag.SHOW_LIST))
    lines = call.show(sent, pocsag.SHOW_TEXT, (2, 2**64 - 1)).splitlines()
    tally.check("the second batch alone", len(lines) == 3 and lines[2].startswith(b"  2"), lines)


def try_sounds(tally, library):
    source, call, wrong, plans = random.Random(7), library.pocsag.wav, [], library.plans[::30]
    for number, (_, plan) in enumerate(plans):
        rate, samples = source.choice([512, 1200, 2400]), source.choice([2_400, 8_000, 48_000, 2_399, 192_001])
        preamble, inverted = source.choice([None, 576, 800, 577, 568]), source.randrange(2) == 0
        words = ["--rate", rate, "--samples", samples, *([] if preamble is None else ["--preamble", preamble]), *["--invert"] * inverted]
        library.tx.write_bytes(plan.transmission)
        given = attempt(call, plan.transmission, rate, samples, preamble, inverted)
        wrong += [(number, words)] * (not is_same(given, program("wav", library.tx, *words)))
    tally.check(f"{len(plans)} sounds are those of the program", not wrong, wrong[:5])


def try_orders(tally, library):
    """Transmissions in the order of the file: one worked by hand, and those of random rounds."""
    call = library.pocsag.lay_in_order
    # Address 9, tone1, starts in frame 1, and address 8, tone0, in frame 0, behind it in the next batch.
    due = transmission([IDLE, IDLE, bytes.fromhex("0000283f"), *[IDLE] * 13, TONE])
    sent = call(pocsag.HEADER + b"9,tone1,\n8,tone0,\n")
    tally.check("two tones in the order of the file", sent == due, sent.hex())
    wrong = []
    for number, (pages, plan) in enumerate(library.plans):
        sent = call(pages)
        wrong += [number] * (len(sent) != 72 + 68 * plan.in_order or library.pocsag.decode(sent) != pages)
    tally.check(f"{len(library.plans)} rounds in the order of the file have its pages", not wrong, wrong[:5])
    check_fault(tally, "the fault of a page file", pocsag.BadKind, call, HEADER + b"8,tone9,\n", told="record 1: unknown kind")


def try_records(tally, library):
    """Records of pages, their quotes, and what `strict` asks of them."""
    call, source = library.pocsag.write_page, random.Random(6)
    for words, wanted in (
        ((0, "numeric", b"5550199"), b"0,numeric,5550199\n"),
        ((2_097_151, "tone3"), b"2097151,tone3,\n"),
        ((11, "alpha", b"Pump 4, hall B"), b'11,alpha,"Pump 4, hall B"\n'),
        ((11, "alpha", b'say "yes", now'), b'11,alpha,"say ""yes"", now"\n'),
        ((11, "alpha", b"two\nlines"), b'11,alpha,"two\nlines"\n'),
    ):
        tally.check_same(f"the record of {words}", attempt(call, *words), wanted)
    for words, wanted, text in (
        ((2_097_152, "tone0"), pocsag.BadAddress, "bad address"),
        ((2**32, "tone0"), pocsag.BadAddress, "bad address"),
        ((2_007_664, "tone0"), pocsag.ReservedAddress, "reserved address"),
        ((8, "tone4"), pocsag.BadKind, "unknown kind"),
        ((8, "tone0", b"a"), pocsag.MessageForTone, "a tone page has no message"),
        ((8, "alpha"), pocsag.EmptyMessage, "the message is empty"),
        ((8, "numeric", b"12x4"), pocsag.BadCharacter, "bad character at 2"),
        ((8, "alpha", b"a" * 4_001), pocsag.TooLong, "the message is too long"),
    ):
        check_fault(tally, f"no record of {words[:2]}", wanted, call, *words, told=text)
    pages, rows = [], {}
    for address in range(1, 2_000):
        message = bytes(source.choices(range(1, 128), k=source.randrange(1, 12)))
        rows[address] = message
        pages.append(call(address, "alpha", message))
        tally.check("a record is no longer than the header says", len(pages[-1]) <= 2 * len(message) + 20, pages[-1])
    file = pocsag.HEADER + b"".join(pages)
    tally.check("records of every character are read", library.pocsag.plan(file).pages == len(rows))
    read = {int(row[0]): row[2].encode() for row in rows_of(file)[1:]}  # by Python's own reader of CSV
    tally.check("another reader of CSV reads them alike", read == rows, [it for it in rows.items() if read.get(it[0]) != it[1]][:3])
    tally.check("each quote stands as it is to", attempt(library.pocsag.strict, file) is None)
    for tail, wanted, place in (
        (b'8,alpha,a"b\n', pocsag.QuoteInside, (1, 2)),
        (b'7,tone0,\n8,alpha,"a"b\n', pocsag.QuoteFollowed, (2, 3)),
        (b'7,tone0,\n\n8,alpha,"a\nb\n', pocsag.QuoteOpen, (2, 4)),
    ):
        fault = attempt(library.pocsag.strict, HEADER + tail)
        tally.check(f"the quote of {tail}", (type(fault), (fault.record_number, fault.at)) == (wanted, place), fault)
        library.pages.write_bytes(HEADER + tail)
        told = program("plan", library.pages, library.tx, library.cert, "--strict")
        tally.check(f"{tail} is told as the program tells it", is_same(fault, told), told)
        check_fault(tally, f"a plan of {tail} may be strict", wanted, library.pocsag.plan, HEADER + tail, strict=True)
    header, told = b'"address,kind,message\n', "record 0: the quote in line 1 is not closed"
    check_fault(tally, "a quote of the header is that of record 0", pocsag.QuoteOpen, library.pocsag.strict, header, told=told)


def try_airtimes(tally, library):
    """A preamble of 576 bits and a batch of 544 take 933.3 ms at 1200 bits a second, and each batch more 453.3."""
    call = library.pocsag.airtime_batches
    wanted = {(933, 1200): 0, (934, 1200): 1, (1_386, 1200): 1, (1_387, 1200): 2, (2_187, 512): 0, (2_188, 512): 1, (467, 2400): 1}
    tally.check_same("the batches of an airtime", {words: call(*words) for words in wanted}, wanted)
    tally.check("the version of the package", library.pocsag.release() == version.VERSION, library.pocsag.release())


def try_symbols(tally, folder):
    for name, words in (("the library", ["-D", "--defined-only", folder / make.SONAME]), ("the archive", ["--extern-only", "--defined-only", folder / "libpocsag.a"])):
        names = {*re.findall(r"^[0-9a-f]+ T ([^@\n]+)", run("nm", *words).stdout.decode(), re.M)}
        tally.check(f"the calls alone are seen in {name}", names == CALLS, names ^ CALLS)
    told = run("readelf", "-d", folder / make.SONAME).stdout
    tally.check("it has its name", make.SONAME.encode() in told and b"TEXTREL" not in told, told)


def try_examples(tally, library):
    folder, room = library.folder, library.room
    wanted = re.search(r"```\n(pages 6\n.*?)```", (TOP / "docs/LIBRARY.md").read_text(), re.DOTALL)[1].encode()
    beside = {**os.environ, "LD_LIBRARY_PATH": str(folder), "PYTHONPATH": str(folder), "PYTHONDONTWRITEBYTECODE": "1"}
    flags = ["-std=c11", "-Wall", "-Wextra", "-Werror", f"-I{folder}"]
    for name, words in (("shared library", [f"-L{folder}", "-lpocsag"]), ("archive", [folder / "libpocsag.a"])):
        built = run("cc", *flags, EXAMPLES / "plan.c", *words, "-o", room / "plan")
        ran = run(room / "plan", ROUND, env=beside)
        tally.check(f"the example in C, with the {name}", ran.stdout == wanted, (built.stderr, ran))
    ran = run(sys.executable, EXAMPLES / "plan.py", ROUND, env={**beside, "LD_LIBRARY_PATH": ""})
    tally.check("the example in Python", ran.stdout == wanted, ran)
    lines = [f"{8 + number},alpha,{number:060}\n" for number in range(20_000)]  # more than a mebibyte
    (room / "large.csv").write_text("".join(["address,kind,message\n", *lines]))
    ran = run(room / "plan", room / "large.csv")
    tally.check("the example in C reads a large file whole", ran.stdout.startswith(b"pages 20000\n"), ran.stdout)
    if shutil.which("c++"):
        flags = ["-Wall", "-Wextra", "-Wold-style-cast", "-Wuseless-cast", "-Wconversion", "-Wno-unknown-warning-option", "-Werror", f"-I{folder}"]
        built = run("c++", *flags, HERE / "header.cc", folder / "libpocsag.a", "-o", room / "plan_cc")
        tally.check("the header in C++", built.returncode == 0 and run(room / "plan_cc").returncode == 0, built.stderr)
    if shutil.which("rustc"):
        built = run("rustc", "--edition", "2021", EXAMPLES / "plan.rs", "-L", folder, "-l", "dylib=pocsag", "-o", room / "plan_rs")
        ran = run(room / "plan_rs", ROUND, env=beside) if built.returncode == 0 else built
        tally.check("the example in Rust", ran.stdout == wanted, (built.stderr, ran))
        calls = ["rustc", "--edition", "2021", TOP / "bench/calls/main.rs", "-L", folder, "-l", "static=pocsag"]
        tally.check_done("the benchmark of the calls is built", run(*calls, "-o", room / "bench_calls"), 0, ANY, ANY)


def try_page(tally, library):
    """The first plans of docs/LIBRARY.md, and those in a pool of processes."""
    folder, room = library.folder, library.room
    (c,), pythons = (re.findall(rf"```{kind}\n(.*?)```", (TOP / "docs/LIBRARY.md").read_text(), re.DOTALL) for kind in ("c", "python"))
    (room / "first.c").write_text(c)
    built = run("cc", "-Wall", "-Werror", room / "first.c", f"-I{folder}", folder / "libpocsag.a", "-o", room / "first")
    ran = run(room / "first") if built.returncode == 0 else built
    tally.check("the first plan in C", ran.stdout == b"status 0, 1 batches, 140 bytes\n", ran)
    for name, text, printed in zip(("first", "pool"), pythons, (b"1 140\naddress,kind,message\n8,tone0,\n\nrecord 1: unknown kind\n", b"[1, 1]\n"), strict=True):
        (room / f"{name}.py").write_text(text.replace("FOLDER", str(folder)))
        ran = run(sys.executable, room / f"{name}.py", env={**os.environ, "PYTHONPATH": str(folder), "PYTHONDONTWRITEBYTECODE": "1"})
        tally.check(f"the {name} plan in Python", ran.stdout == printed, ran)


# How the calls in C are built and run: a name, words of the compiler, and words before the program.
WAYS = [
    ("as it is", ["-O1"], []),
    *[("under valgrind", ["-O1", "-g"], ["valgrind", "-q", "--error-exitcode=9", "--leak-check=no"])] * bool(shutil.which("valgrind")),
    ("with the sanitizer of undefined behaviour", ["-fsanitize=undefined", "-fno-sanitize-recover"], []),
    ("with the sanitizer of addresses", ["-fsanitize=address"], []),
]


def try_calls(tally, library, ways=WAYS):
    """Memory that is refused, buffers that just do and do not, and threads."""
    folder, room = library.folder, library.room
    sources = [HERE / "calls.c", folder / "libpocsag.a", f"-I{folder}", "-pthread", "-Wl,--wrap=malloc,--wrap=realloc,--wrap=free"]
    for name, flags, before in ways:
        built = run("cc", "-std=c11", "-Wall", "-Wextra", *flags, *sources, "-o", room / "calls")
        if built.returncode:
            tally.check(f"calls {name} are built", "sanitize" in str(flags) and b"cannot find" in built.stderr, built.stderr)
            continue
        for end, always in ((0, 0), (1, 0), (2, 0), (0, 1)) if not before else ((0, 0),):
            ran = run(*before, room / "calls", ROUND, end, always)
            tally.check(f"refused memory, small buffers and threads {name}, {end} {always}", ran.returncode == 0, (ran.stdout, ran.stderr[-2000:]))


def all_answers(library, pages, tx, cert, address, end, always):
    """What each call says of these files, faults with their status and place."""
    answers = [
        attempt(library.plan, pages, end=end, always=always),
        attempt(library.check, pages, cert),
        attempt(library.explain, pages, cert, address % 2, address % 8),
        attempt(library.decode, tx),
        attempt(library.hear, address, tx),
        attempt(library.report, pages, 1200, end=end, always=always),
        attempt(library.frames, pages, end=end, always=always),
        attempt(library.plan_at_most, pages, address % 8, end=end, always=always),
        attempt(library.wav, tx, 1200, 2_400 + address % 9_000, inverted=address % 2),
        attempt(library.lay_in_order, pages),
        attempt(library.strict, pages),
        attempt(library.write_page, address, pocsag.KINDS[address % 6], pages[21 : 21 + address % 40]),
        *(attempt(library.decode, tx, reading) for reading in (pocsag.REPAIRED, pocsag.CAPTURED)),
        attempt(library.hear, address, tx, pocsag.CAPTURED),
        *(attempt(library.show, tx, form, reading=address % 3) for form in range(3)),
    ]
    return [(type(it), vars(it)) if isinstance(it, pocsag.Fault) else it for it in answers]


def try_both(tally, one, other):
    """The answers of two libraries, over random rounds and over changed files."""
    source, wrong, files = random.Random(3), [], []
    for number in range(ROUNDS_OF_BOTH + CHANGED_OF_BOTH):
        end, always = source.randrange(3), number % 3 == 0
        if number < ROUNDS_OF_BOTH:
            pages = random_file(source)
            plan = one.plan(pages, end=end, always=always)
            files.append((pages, plan.transmission, plan.certificate))
            given = files[-1]
        else:
            given, which, end = [*source.choice(files)], source.randrange(3), 0
            given[which] = changed(source, given[which])
        address = source.randrange(2_100_000)
        mine, others = (all_answers(it, *given, address, end, always) for it in (one, other))
        wrong += [number] * (mine != others)
    tally.check(f"{ROUNDS_OF_BOTH} rounds and {CHANGED_OF_BOTH} changed files are answered alike by both libraries", not wrong, wrong[:5])


def try_other_compiler(tally, library):
    """The library as the compiler that is written in Rattle makes it from a copy of the crates, since wrong bodies of them may be
    tried meanwhile."""
    *below, crate = workspace.below(workspace.read_crates(), make.CRATE.name).values()
    copy, folder = Room(crate, below, library.room / "copy").folder, library.room / "other"
    words = [sys.executable, kit.__file__, "lib", "1", "--backend", "rattle"]
    built = subprocess.run(words, cwd=copy, stdout=subprocess.PIPE, stderr=subprocess.STDOUT, text=True)
    made = copy / make.MADE.relative_to(make.CRATE)
    is_other = built.returncode == 0 and made.read_bytes() != make.MADE.read_bytes()
    tally.check("the other compiler makes a library", is_other, built.stdout[-2000:])
    if not is_other:
        return
    make.make(folder, made)
    try_symbols(tally, folder)
    other = Library(folder, library.room)
    try_calls(tally, other, [("by the other compiler", ["-O1"], [])])
    try_both(tally, library.pocsag, other.pocsag)


def put_library(folder):
    """The library as it is built, or as it was installed elsewhere."""
    if not LIBRARY:
        return make.make(folder)
    folder.mkdir()
    for name in (f"lib/{make.SONAME}", "lib/libpocsag.a", "include/pocsag.h"):
        shutil.copy(pathlib.Path(LIBRARY) / name, folder)
    shutil.copytree(pathlib.Path(LIBRARY) / "python", folder, dirs_exist_ok=True)
    (folder / "libpocsag.so").symlink_to(make.SONAME)


def try_all(tally, room):
    folder = room / "library"
    put_library(folder)
    library = Library(folder, room)
    try_symbols(tally, folder)
    for part in (try_faults, in_python.try_python, in_c.try_c, try_reports, greatest.try_greatest, try_explanations, try_examples,
                 try_page, try_calls, try_bytes, try_fronts, try_frames, try_readings, try_sounds, try_orders, try_records,
                 try_airtimes, try_changed):  # fmt: skip
        part(tally, library)
    if not LIBRARY:
        try_other_compiler(tally, library)
