"""Each call of the C library at the largest size that its limits allow, and at one between: contracts cannot exclude that a call gives
up for want of memory above some size. `tests/calls/largest.txt` names these runs. The rounds, transmissions and certificates are those
of `tests/program/largest.py`, and all numbers are worked by hand."""

import ctypes

import largest
import pocsag
import sizes
from answers import attempt
from codewords import HEADER, LARGEST, in_order, letters
from forms import due_of
from largest import ROUNDS, TONE_BATCH, repeated, texts


def try_rounds(tally, call):
    """The calls that read page files. A round fills its batches to the last slot, so that it takes one more with an idle last."""
    for pages, letters, codewords in ROUNDS:
        data, full = HEADER + texts(0, pages, letters), pages * codewords // 16
        room = 72 + 68 * (full + 2), 4_096
        plan = attempt(call.plan, data, limit=1_000_000, end=pocsag.IDLE, sizes=room, strict=True)
        numbers = pages, pages * codewords, in_order((page % 8, codewords) for page in range(pages)), full + 1, full + 1
        told = isinstance(plan, pocsag.Plan) and plan[2:] == numbers and len(plan.transmission) == 72 + 68 * (full + 1)
        tally.check(f"plan of {pages} pages", told, str(plan)[:200])
        certificate = plan.certificate if told else b""
        tally.check_same(f"check of {pages} pages", attempt(call.check, data, certificate), (True, pocsag.IDLE, full + 1))
        report = attempt(call.report, data, 2400, limit=1_000_000)
        told = isinstance(report, pocsag.Report) and (*report[:5], report.bound) == (*numbers[:3], full, 0, full)
        tally.check(f"report of {pages} pages", told, report)
        frames = attempt(call.frames, data, limit=1_000_000)
        told = isinstance(frames, pocsag.Frames) and (frames.batches, frames.bound) == (full, full)
        told = told and [sum(frame[column] for frame in frames.frames) for column in (1, 2, 3)] == [pages, pages * codewords, 0]
        tally.check(f"frames of {pages} pages", told, frames)
        front = attempt(call.plan_at_most, data, full // 2, limit=1_000_000, sizes=(*room, len(data), 4_096))
        told = isinstance(front, pocsag.Front) and front.beyond > full // 2
        told = told and (front.pages, front.left, front.batches) == (pages // 2, pages // 2, full // 2)
        tally.check(f"plan_at_most of {pages} pages", told and front.rest == HEADER + texts(pages // 2, pages, letters), str(front)[:200])
        sent = attempt(call.lay_in_order, data)
        tally.check(f"lay_in_order of {pages} pages", isinstance(sent, bytes) and len(sent) == 72 + 68 * numbers[2], str(sent)[:200])
        tally.check(f"strict of {pages} pages", attempt(call.strict, data) is None)
        for kind, character, due in (("alpha", b'"', b'"%s"' % (b'""' * letters)), ("numeric", b"1", b"1" * letters)):
            row = attempt(call.write_page, 8, kind, character * letters)
            tally.check(f"write_page of {letters} characters, {kind}", row == b"8,%s,%s\n" % (kind.encode(), due), str(row)[:200])


def try_files(tally, call):
    """The calls that read page files at the largest size of a file, nearly all of it empty lines."""
    for size in (1_000_000, LARGEST):
        data = HEADER + b"\n" * (size - len(HEADER) - 8) + b"8,tone0,"
        plan = attempt(call.plan, data)
        tally.check(f"plan of {size} bytes", isinstance(plan, pocsag.Plan) and (plan.pages, plan.batches) == (1, 1), str(plan)[:200])
        tally.check(f"strict of {size} bytes", attempt(call.strict, data) is None)


def try_certificates(tally, call):
    """Certificates of as many nodes as there may be, and of fewer."""
    for count, pages, certificate in largest.certificates():
        tally.check_same(f"check of {count} nodes", attempt(call.check, pages, certificate), (True, pocsag.IDLE, 5_000))
        if count < 1_000_000:
            told = attempt(call.explain, pages, certificate, pocsag.AS_JSON, 300)
            holds = isinstance(told, pocsag.Explanation) and told.is_shown and told.text.count(b"{") > count
            tally.check(f"explain of {count} nodes", holds, str(told)[:200])
            continue
        # The length alone, of a text that is made once: with a buffer for it the test would take 3 GB.
        length, info = ctypes.c_size_t(), pocsag.CheckInfo()
        words = [*pocsag.bytes_in(pages), *pocsag.bytes_in(certificate), *map(ctypes.c_uint32, (pocsag.IN_WORDS, 300))]
        status = call.library.pocsag_explain(*words, *pocsag.buffer_of(0), ctypes.byref(length), ctypes.byref(info))
        tally.check(f"explain of {count} nodes", (status, length.value > 100 * count) == (10, True), (status, length.value))


def told_by(call, words, size):
    """What a call puts into a buffer of so many bytes, or its status and the length that it tells."""
    text, place = pocsag.Text(size), pocsag.Place()
    status = call(*words, *text.words, ctypes.byref(place))
    return text.written() if status == 0 else (status, text.length)


def try_readings(tally, call):
    """The calls that read transmissions, whose pages of 4,000 characters are all of one address."""
    pages = [(8, 3, letters(b"a" * 4_000))]
    address, plain, repaired, captured = map(ctypes.c_uint32, (8, pocsag.PLAIN, pocsag.REPAIRED, pocsag.CAPTURED))
    for size in (4_000_000, LARGEST):
        tx, count = repeated(pages, size)
        batches, given, line = len(tx) // 68 - 1, pocsag.bytes_in(tx), due_of(pages, (), False)[0].encode()[len(HEADER):]
        listing = HEADER + count * line
        reading = captured if size == LARGEST else repaired
        for name, words in (("decode", []), ("decode_as", [reading]), ("hear", [address]), ("hear_as", [reading, address])):
            told = told_by(getattr(call.library, f"pocsag_{name}"), [*words, *given], len(listing))
            tally.check(f"{name} of {size} bytes", told == listing, str(told)[:200])
        rows = ctypes.c_uint64(1), ctypes.c_uint64(batches)
        told = told_by(call.library.pocsag_show, [plain, *given, ctypes.c_uint32(pocsag.SHOW_TEXT), *rows], 60 * (batches + 4))
        holds = isinstance(told, bytes) and told.startswith(b"batches ") and told.count(b"\n") == batches + 2
        tally.check(f"show of {size} bytes", holds, str(told)[:200])


def try_sounds(tally, call):
    """Sounds, of which the length alone is told: that of 4 GB, the longest, does not fit into the memory of each machine."""
    for batches in (20_000, 450_000):
        length, place = ctypes.c_size_t(), pocsag.Place()
        words = [*pocsag.bytes_in(b"\xaa" * 72 + batches * TONE_BATCH), *map(ctypes.c_uint32, (2400, 2400, 0, 0))]
        status = call.library.pocsag_wav(*words, *pocsag.buffer_of(0), ctypes.byref(length), ctypes.byref(place))
        due = 44 + 2 * (576 + 544 * (batches + 1))
        tally.check(f"wav of {batches} batches", (status, length.value) == (10, due), (status, length.value, due))


def try_greatest(tally, library):
    """All of these, and whether they are those that the table names."""
    call = library.pocsag
    for part in (try_rounds, try_files, try_certificates, try_readings, try_sounds):
        part(tally, call)
    airtime = 2**32 - 1
    most = (airtime * 2400 // 1000 - 576) // 544
    tally.check("airtime_batches of the longest time", attempt(call.airtime_batches, airtime, 2400) == most, most)
    tally.check_none("each run that tests/calls/largest.txt names was made", sizes.runs_of("tests/library/greatest.py") - tally.names)
