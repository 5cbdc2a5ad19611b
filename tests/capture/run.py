"""Runs `decode`, `hear` and `show` with `--capture` on captures that a keyer of this script made: 2,000 with several
transmissions at any bit and in either polarity, with noise around them and up to two wrong bits in each word; 400 with
words past repair, ends cut off and bits lost, beside a receiver of this script; cases worked by hand; refusals; and the
time that 100 MB of noise takes. Of each page the state is wanted too, and of captures of each kind the other forms."""

import json
import random
import resource

import codewords
from codewords import PREAMBLE, digits, kind_and_message, letters, number_of, rows_of
from tally import ANY, IS_EMULATED, ONE_IN, Text, fault, run

SYNC, IDLE = (int.from_bytes(it, "big") for it in (codewords.SYNC, codewords.IDLE))
ONES = 0xFFFFFFFF
CAPTURES, DAMAGED = 2_000 // ONE_IN, 400 // ONE_IN
NOISE_BYTES, NOISE_SECONDS = 100_000_000, 6.0  # on a busy host; BENCHMARKS.md has the speed
KINDS = {0: "numeric", 3: "alpha"}
ONCE, TWICE = (kind_and_message(0, count * [0x12345])[1] for count in (1, 2))  # messages of cases worked by hand
HEADER = b"address,kind,message,state\n"


def is_codeword(word):
    return number_of(word >> 11) == word


def words_of(pages):
    """The words of a transmission, as numbers, those of synchronisation among them."""
    packed = ((address, function, letters(message) if function else digits(message)) for address, function, message in pages)
    sent = codewords.sent(packed)
    return [int.from_bytes(sent[at : at + 4], "big") for at in range(len(PREAMBLE), len(sent), 4)]


def some_pages(chance, most):
    pages = []
    for _ in range(chance.randint(1, most)):
        # no address codeword of these is idle or synchronisation
        address, kind = chance.randrange(0, 2_000_000), chance.choice(("tone", "numeric", "alpha"))
        if kind == "tone":
            pages.append((address, chance.randrange(4), ""))
        elif kind == "numeric":
            pages.append((address, 0, "".join(chance.choice("0123456789") for _ in range(chance.randint(1, 20)))))
        else:
            pages.append((address, 3, "".join(chr(chance.randint(33, 126)) for _ in range(chance.randint(1, 30)))))
    return pages


def row_of(page):
    address, function, message = page
    return [str(address), KINDS[function] if message else f"tone{function}", message]


def bits_of(words):
    return "".join(f"{word:032b}" for word in words)


def inverted(bits):
    return bits.translate(str.maketrans("01", "10"))


def file_of(bits):
    bits += "0" * (-len(bits) % 8)
    return bytes(int(bits[i : i + 8], 2) for i in range(0, len(bits), 8))


def flipped(chance, word, count):
    for bit in chance.sample(range(32), count):
        word ^= 1 << bit
    return word


def some_noise(chance, count):
    return "".join(chance.choice("01") for _ in range(count))


def syncs(bits):
    """Each place at which a synchronisation codeword begins, with its polarity."""
    found, window = {}, int(bits[:31] or "0", 2)
    for at in range(len(bits) - 31):
        window = (window << 1 | (bits[at + 31] == "1")) & ONES
        wrong = (window ^ SYNC).bit_count()
        if wrong <= 2 or wrong >= 30:
            found[at] = "upright" if wrong <= 2 else "inverted"
    return found


def word_at(bits, at, polarity):
    """The word from a bit on as it was sent, or nothing where the end cuts it off."""
    piece = bits[at : at + 32]
    return int(piece, 2) ^ (ONES if polarity == "inverted" else 0) if len(piece) == 32 else None


def is_like(bits, at, polarity):
    word = word_at(bits, at, polarity)
    return word is not None and (word ^ SYNC).bit_count() <= 7


def runs(bits):
    """Synchronisation codewords in step: the first and the last place of each run, and the polarity."""
    near, first = syncs(bits), 0
    for at, polarity in near.items():
        if at < first:
            continue
        last = at
        while True:
            if near.get(last + 544) == polarity:
                last += 544
            elif near.get(last + 1088) == polarity and not any(last < other < last + 1088 for other in near):
                last += 1088
            else:
                break
        first = last + 1
        yield at, last, polarity


def repaired(word):
    """The only codeword within two bits, or nothing."""
    if is_codeword(word):
        return word
    for i in range(32):
        for j in range(i, 32):
            near = word ^ (1 << i) ^ (1 << j if j > i else 0)
            if is_codeword(near):
                return near
    return None


def mended_at(bits, at, polarity):
    word = word_at(bits, at, polarity)
    return None if word is None else repaired(word)


def words_read(bits, at, polarity, batches):
    """How many words are read: up to two past repair in a row in the last batch."""
    for place in range(17 * (batches - 1) + 1, 17 * batches - 1):
        if all(mended_at(bits, at + 32 * k, polarity) is None for k in (place, place + 1)):
            return place
    return 17 * batches


def exact_at(bits, at, polarity):
    """The word from a bit on, if it is a codeword."""
    word = word_at(bits, at, polarity)
    return word if word is not None and is_codeword(word) else None


def is_beside(bits, at, polarity, aside):
    """Whether the word that is due at a bit is a codeword that many bits beside it, and none there unless it is an idle codeword
    that is beside."""
    word = exact_at(bits, at + aside, polarity)
    return word is not None and (word == IDLE or exact_at(bits, at, polarity) is None)


def read_in_front(bits, first, polarity, held):
    """How many words are read of the batch in front of a synchronisation codeword, behind a held bit: those that have a repair, back
    to one past repair, where they are two or more, have at most one wrong bit in three words, and show no slip."""
    count = wrong = 0
    while count < 16 and held <= first - 32 * (count + 1):
        at = first - 32 * (count + 1)
        mended = mended_at(bits, at, polarity)
        if mended is None:
            break
        count, wrong = count + 1, wrong + (word_at(bits, at, polarity) ^ mended).bit_count()
    if count < 2 or 3 * wrong > count:
        return 0
    whole = [first - 32 * nth for nth in range(1, count + 1) if first >= 32 * (nth + 1)]
    return 0 if any(is_beside(bits, at, polarity, aside) for at in whole for aside in (-1, 1)) else count


def has_slipped(bits, start, polarity, batches):
    """Whether four words of the last batch in a row, or two or three at its end, are codewords one bit beside their places, and
    none in them, unless it is an idle codeword that is beside."""
    end = 17 * batches
    fours = [[start + 32 * place for place in range(first, min(first + 4, end))] for first in range(end - 16, end - 1)]
    return any(all(is_beside(bits, at, polarity, aside) for at in four) for four in fours for aside in (-1, 1))


def read_words(bits, start, polarity, batches, near, front):
    """What is told of a transmission, of which so many words are read in front: corrected bits, lost words and cut pages, and its
    pages."""
    corrected = lost = cut = 0
    behind = start + 544 * batches
    # the last batch is out of step: another synchronisation codeword begins there, and not before an idle codeword in step
    others = [at for at in range(behind - 543, behind + 32) if at in near]
    others = [at for at in others if (at + 14 - start) % 32 or word_at(bits, at + 14, polarity) != IDLE]
    is_out = bool(others) or has_slipped(bits, start, polarity, batches)
    pages, page = [], None  # an open page counts as cut until a codeword ends it
    end = words_read(bits, start, polarity, batches)
    for place in range(-17 if front else 0, 17 * batches):
        word = word_at(bits, start + 32 * place, polarity) if -front <= place < end else None
        if place % 17 == 0:
            wrong = 32 if word is None else (word ^ SYNC).bit_count()
            corrected, lost = (corrected + wrong, lost) if wrong <= 2 else (corrected, lost + 1)
            continue
        mended = None if word is None else repaired(word)
        if mended is None:
            lost, cut, page = lost + 1, cut + (page is not None), None
            continue
        corrected += (word ^ mended).bit_count()
        if mended >> 31:
            if page is not None:
                page[2].append(mended >> 11 & 0xFFFFF)
            continue
        if page is not None and is_out and place > 17 * (batches - 1):
            cut += 1
        elif page is not None:
            page[3] = "whole"
        page = None
        if mended != IDLE:
            page = [8 * (mended >> 13 & 0x3FFFF) + (place % 17 - 1) // 2, mended >> 11 & 3, [], "cut"]
            pages.append(page)
    return corrected, lost, cut + (page is not None), pages


def heard(bits):
    """The transmissions of a capture, each as its bit, polarity, batches, corrected bits, lost words, cut pages and pages."""
    found, held, near = [], 0, syncs(bits)
    for first, last, polarity in runs(bits):
        if first == last:
            few = sum(mended_at(bits, first + 32 * k, polarity) is None for k in range(1, 17)) <= 5
            if not few or held > first + 31:
                continue
        own = (last + 544 - first) // 544
        batches = own + is_like(bits, last + 544, polarity)
        front = read_in_front(bits, first, polarity, held)
        held = first + 32 * min(words_read(bits, first, polarity, batches), 17 * own)
        found.append((first, polarity, batches + (front > 0), *read_words(bits, first, polarity, batches, near, front)))
    return found


def read_row(page, texts=()):
    """The record of a page; the messages of the functions of `texts` are read as alphanumeric text."""
    address, function, items, state = page
    return [str(address), *kind_and_message(function, items, texts), state]


def read_object(page, transmission, texts=()):
    """What the line of JSON of a page has, where its transmission is one of `heard` with a number before it."""
    address, kind, message, state = read_row(page, texts)
    number, bit, polarity = transmission
    told = {"address": int(address), "function": page[1], "kind": kind, "message": message, "state": state}
    return told | {"transmission": number, "inverted": polarity == "inverted", "bit": bit}


def rows_in(listing):
    """The rows of a listing of a capture."""
    return rows_of(listing)[1:] if listing.startswith(HEADER) else listing


def listed(words, folder):
    """The status of a listing of a capture, its rows, and what is told."""
    done = run(words, folder)
    return done.returncode, rows_in(done.stdout), done.stderr


def with_states(some, cut):
    """The rows of the pages of a transmission that was received whole; behind the last page the end may stand."""
    rows = [[*row_of(page), "whole"] for page in some]
    if cut:
        rows[-1][3] = "cut"
    return rows


def told_lines(found, likely=""):
    if not found:
        return fault(f"transmission air.bin: no transmission is in the capture{likely}")
    named = "transmission {}: bit {}, {}, batches {}, corrected bits {}, lost words {}, cut pages {}".format
    return b"".join(fault(named(number, *row)) for number, row in enumerate(found, 1))


def some_capture(chance):
    """A capture, the pages of each transmission, and what is told of each. It is drawn again until no synchronisation codeword
    begins anywhere but in its place, and none of seven wrong bits behind a transmission."""
    while True:
        bits, pages, told, sent, places, ends = "", [], [], [], {}, []
        for _ in range(chance.randint(1, 3)):
            noise = some_noise(chance, chance.randrange(300)) + "10" * chance.randrange(40, 288)
            some = some_pages(chance, 5)
            words = words_of(some)
            damaged = [flipped(chance, word, chance.randrange(3)) for word in words]
            polarity = chance.choice(("upright", "inverted"))
            start = len(bits) + len(noise)
            bits += inverted(noise + bits_of(damaged)) if polarity == "inverted" else noise + bits_of(damaged)
            places.update((start + 544 * k, polarity) for k in range(len(words) // 17))
            ends.append((len(bits), polarity))
            pages.append(some)
            sent.append(words)
            wrong = sum((a ^ b).bit_count() for a, b in zip(words, damaged))
            told.append((start, polarity, len(words) // 17, wrong, 0, int(words[-1] != IDLE)))
        bits += some_noise(chance, chance.randrange(300))
        apart = all(b[0] - a[0] != 544 for a, b in zip(ends, ((bit, None) for bit, *_ in told[1:])))
        if apart and syncs(bits) == places and not any(is_like(bits, *end) for end in ends):
            return bits, pages, told, sent


def try_captures(tally, folder):
    """Each capture lists what was sent, and tells where and how it was received."""
    chance = random.Random(20261126)
    for count in range(CAPTURES):
        bits, pages, told, sent = some_capture(chance)
        (folder / "air.bin").write_bytes(file_of(bits))
        due = [row for some, (*_, cut) in zip(pages, told) for row in with_states(some, cut)]
        tally.check_same(f"capture {count}", listed(["decode", "--capture", "air.bin", "--verbose"], folder), (0, due, told_lines(told)))
        if count % 10 == 0:
            address = chance.choice(due)[0]
            heard_of = listed(["hear", address, "air.bin", "--capture"], folder)
            tally.check_same(f"capture {count} heard", heard_of, (0, [row for row in due if row[0] == address], b""))
            nth = chance.randint(1, len(sent))
            (folder / "tx.bin").write_bytes(PREAMBLE + file_of(bits_of(sent[nth - 1])))
            for view in ([], ["--svg"], ["--list"]):
                done, plain = (run(["show", *words, *view], folder) for words in (["air.bin", "--capture", "--nth", nth], ["tx.bin"]))
                tally.check_done(f"capture {count} shown {view}", done, 0, plain.stdout, ANY, plain.returncode == 0)


def try_damaged(tally, folder):
    """Words past repair, words that no one sent, and ends that are cut off, beside the receiver of this script."""
    chance = random.Random(20261127)
    for count in range(DAMAGED):
        bits = some_noise(chance, chance.randrange(100))
        for _ in range(chance.randint(1, 3)):
            words = words_of(some_pages(chance, 8))
            for place, word in enumerate(words):
                if place % 17:
                    words[place] = chance.choice((word, word, flipped(chance, word, chance.randrange(3, 9)), chance.getrandbits(32)))
                else:
                    words[place] = flipped(chance, word, chance.choice((0, 1, 2, 2, 3, 7, 8)))
            some = bits_of(words)
            gone = chance.randrange(2 * len(some))
            some = some[:gone] + some[gone + 1 :]
            bits += inverted(some) if chance.random() < 0.5 else some
            bits += some_noise(chance, chance.choice((0, chance.randrange(200))))
        bits = bits[: chance.randint(len(bits) // 2, len(bits)) // 8 * 8]
        (folder / "air.bin").write_bytes(file_of(bits))
        found = heard(bits)
        due = 0, [read_row(page) for one in found for page in one[6]], told_lines([one[:6] for one in found])
        tally.check_same(f"damaged capture {count}", listed(["decode", "--capture", "air.bin", "--verbose"], folder), due)
        if count % 4 == 0:
            check_forms(tally, folder, f"damaged capture {count}", found)


def check_forms(tally, folder, name, found):
    """The capture in air.bin, of which this was found, as lines of JSON and with functions as text; of one address too."""
    pages = [(page, (number, one[0], one[1])) for number, one in enumerate(found, 1) for page in one[6]]
    for texts in ((), (0,), (1, 2)):
        option = ["--text", ",".join(map(str, texts))] if texts else []
        for only in [None, *[page[0] for page, _ in pages[:1]]]:
            words = ["decode"] if only is None else ["hear", only]
            kept = [(page, where) for page, where in pages if only in (None, page[0])]
            done = run([*words, "air.bin", "--capture", "--json", *option], folder)
            lines = [json.loads(line) for line in done.stdout.decode("latin-1").split("\n")[:-1]]
            due = [read_object(page, where, texts) for page, where in kept]
            tally.check_done(f"{name} as JSON {texts} of {only}", done, 0, Text(bytes.isascii), b"", lines == due)
            due = 0, [read_row(page, texts) for page, _ in kept], b""
            tally.check_same(f"{name} as text {texts} of {only}", listed([*words, "air.bin", "--capture", *option], folder), due)


# Words and records of the cases that are worked by hand: a call of address 8, in frame 0, a word of a message, and one past repair.
TONE, MORE = number_of(1 << 2), number_of(1 << 20 | 0x12345)
LOST = MORE ^ 0b1011 << 7
BATCH, FOLLOWS, TO_THE_LAST = [SYNC, TONE, MORE, MORE, *[IDLE] * 13], [SYNC, *[IDLE] * 16], [SYNC, *[IDLE] * 14]
ONE, TWO, NINTH = ["8", "numeric", ONCE, "whole"], ["8", "numeric", TWICE, "whole"], ["9", "numeric", ONCE, "whole"]
OVER, BEGUN = ["15", "numeric", TWICE, "whole"], ["15", "numeric", ONCE, "cut"]
CALL, CUT_CALL, LAST_CALL = ["8", "tone0", "", "whole"], ["8", "tone0", "", "cut"], ["15", "tone0", "", "whole"]
BRIDGED = [*TO_THE_LAST, TONE, MORE, SYNC ^ 0xFFFFF, MORE, *[IDLE] * 15, *FOLLOWS]
ENDED = [SYNC, TONE, MORE, IDLE, LOST, LOST, TONE, MORE]
# Its last 14 bits and the first 18 of an idle codeword are the inverted synchronisation codeword.
SEAM, SEEMING = number_of(1 << 20 | 0x2CBC), ["8", "numeric", kind_and_message(0, [0x2CBC])[1], "whole"]
# What is received, behind which idles fill a batch of words, the pages that are listed, and what is told of each transmission.
CASES = [
    ("one batch from the first bit", BATCH, [TWO], [(0, "upright", 1, 0, 0, 0)]),
    ("a word past repair ends the page", [SYNC, TONE, MORE, LOST, MORE], [["8", "numeric", ONCE, "cut"]], [(0, "upright", 1, 0, 1, 1)]),
    ("a word past repair behind the end of the page", [SYNC, TONE, MORE, IDLE, LOST], [ONE], [(0, "upright", 1, 0, 1, 0)]),
    ("an address codeword ends a page, and a word past repair the next", [SYNC, TONE, TONE, LOST, TONE, MORE], [CALL, CUT_CALL, NINTH],
     [(0, "upright", 1, 0, 1, 1)]),
    ("codewords with two wrong bits end pages", [SYNC, TONE, MORE, IDLE ^ 3, TONE ^ 3 << 9], [ONE, ["9", "tone0", "", "whole"]],
     [(0, "upright", 1, 4, 0, 0)]),
    ("a call at the end of the reception", [*TO_THE_LAST, IDLE, TONE], [["15", "tone0", "", "cut"]], [(0, "upright", 1, 0, 0, 1)]),
    ("and with a batch behind it", [*TO_THE_LAST, IDLE, TONE, SYNC], [LAST_CALL], [(0, "upright", 2, 0, 0, 0)]),
    ("an address past repair opens none", [SYNC, TONE ^ 0b1011 << 7, MORE, MORE], [], [(0, "upright", 1, 0, 1, 0)]),
    ("a message codeword without a page", [SYNC, MORE, TONE], [CALL], [(0, "upright", 1, 0, 0, 0)]),
    ("an idle codeword that looks like another synchronisation codeword", [SYNC, TONE, SEAM], [SEEMING], [(0, "upright", 1, 0, 0, 0)]),
    ("the same with two wrong bits", [SYNC, TONE, SEAM ^ 3], [SEEMING], [(0, "upright", 1, 2, 0, 0)]),
    ("the same inverted", inverted(bits_of([SYNC, TONE, SEAM, *[IDLE] * 14])), [SEEMING], [(0, "inverted", 1, 0, 0, 0)]),
    ("with a wrong bit in the idle codeword", [SYNC, TONE, SEAM, IDLE ^ 1], [[*SEEMING[:3], "cut"]], [(0, "upright", 1, 1, 0, 1)]),
    ("a page over two batches", [*TO_THE_LAST, TONE, MORE, SYNC ^ 3, MORE], [OVER], [(0, "upright", 2, 2, 0, 0)]),
    ("a last batch of seven wrong bits", [*TO_THE_LAST, TONE, MORE, SYNC ^ 0x7F, MORE], [OVER], [(0, "upright", 2, 0, 1, 0)]),
    ("none of eight wrong bits", [*TO_THE_LAST, TONE, MORE, SYNC ^ 0xFF, MORE], [BEGUN], [(0, "upright", 1, 0, 0, 1)]),
    ("a synchronisation codeword that cannot be recognised", BRIDGED, [OVER], [(0, "upright", 3, 0, 1, 0)]),
    # The synchronisation codeword of the third batch is there an address codeword: 255632 with function 2, in frame 6.
    ("with another between", [*BRIDGED[:20], SYNC, *BRIDGED[21:]], [BEGUN, ["2045062", "tone2", "", "cut"]],
     [(0, "upright", 1, 0, 0, 1), (640, "upright", 1, 0, 0, 1)]),
    ("two lost words end the last batch", ENDED, [ONE], [(0, "upright", 1, 0, 13, 0)]),
    ("two lost words end the last batch of two", [*FOLLOWS, *ENDED], [ONE], [(0, "upright", 2, 0, 13, 0)]),
    ("three wrong bits", [SYNC ^ 7, *BATCH[1:]], [], []),
    # The batch in front of the first synchronisation codeword that is found.
    ("a first synchronisation codeword with three wrong bits", [SYNC ^ 0b1011 << 9, *BATCH[1:], *FOLLOWS], [TWO], [(544, "upright", 2, 0, 1, 0)]),
    ("a word past repair in front", [SYNC ^ 7, TONE, MORE, LOST, TONE, MORE, *[IDLE] * 11, *FOLLOWS], [NINTH], [(544, "upright", 2, 0, 4, 0)]),
    ("one batch in front of two", [SYNC ^ 7, *BATCH[1:], SYNC ^ 7, TONE, *[IDLE] * 15, *FOLLOWS], [CALL], [(1088, "upright", 2, 0, 1, 0)]),
    ("a page from the batch in front on", [SYNC ^ 7, *[IDLE] * 14, TONE, MORE, SYNC, MORE], [OVER], [(544, "upright", 2, 0, 1, 0)]),
    # Bits that no word ends.
    ("nothing", b"", [], []),
    ("three bytes", b"\x7c\xd2\x15", [], []),
    ("all ones", b"\xff" * 1_000, [], []),
    ("a preamble alone", b"\xaa" * 500, [], []),
    ("whose successor is out of step", bits_of(BRIDGED[:34]) + "0" + bits_of(BRIDGED[34:]), [BEGUN],
     [(0, "upright", 1, 0, 0, 1), (1089, "upright", 1, 0, 0, 0)]),
    ("the polarity changes", bits_of([*TO_THE_LAST, TONE, MORE]) + inverted(bits_of([SYNC, MORE, *[IDLE] * 15])), [BEGUN],
     [(0, "upright", 1, 0, 0, 1), (544, "inverted", 1, 0, 0, 0)]),
    ("inverted, behind a preamble", inverted("10" * 288 + bits_of([SYNC ^ 0b1011 << 9, *BATCH[1:], *FOLLOWS])), [TWO],
     [(1120, "inverted", 2, 0, 1, 0)]),
    ("none in front inside what was read", bits_of([*TO_THE_LAST, *FOLLOWS, *FOLLOWS]), [["2045063", "tone2", "", "cut"]],
     [(0, "upright", 1, 0, 0, 1), (480, "upright", 2, 0, 0, 0)]),
    ("two in front behind what was read", bits_of([SYNC, *[IDLE] * 6, LOST, LOST, TONE, MORE, *FOLLOWS, *FOLLOWS]), [["15", "numeric", ONCE, "whole"]],
     [(0, "upright", 1, 0, 10, 0), (352, "upright", 3, 0, 15, 0)]),
]
# What is no capture, and as what it is known.
UNLIKE = [
    ("one bit in each byte", bytes(map(int, bits_of(BATCH))), ": one bit in each byte, where eight are wanted"),
    ("all zeros", bytes(1_000), ": one bit in each byte, where eight are wanted"),
    ("a digit for each bit", bits_of(BATCH).encode() + b"\n", ": a digit for each bit, where eight bits are wanted in each byte"),
    ("a WAV file", b"RIFF" + bytes(100), ": a WAV file, not its bits"),
]


def whole(words):
    """The words with idles behind them that fill the last batch."""
    return [*words, *[IDLE] * (-len(words) % 17)]


def gaps():
    """Two batches, of which the first is cut, doubled or followed by some bits; the last codeword of one that is cut ends with the first bit
    of the next synchronisation codeword."""
    before, after = bits_of(whole([SYNC, TONE])), bits_of(whole([SYNC, TONE, MORE]))
    yield "another behind it, inverted", before + inverted(after), [CUT_CALL, ONE], None
    yield "a page that is open where a bit is lost", bits_of([*TO_THE_LAST, IDLE, TONE])[:-1] + after, [["15", "tone0", "", "cut"], ONE], None
    for name, gap, state in (
        ("a bit that is lost", before[:543], "cut"),
        ("a bit that is doubled", before + "0", "cut"),
        ("31 bits between two", before + "01" * 15 + "0", "cut"),
        ("32 bits between two", before + "01" * 16, "whole"),
    ):
        counts, pages = (int(len(gap) < 544), 0, int(state == "cut")), [["8", "tone0", "", state], ONE]
        yield name, gap + after, pages, [(0, "upright", 1, *counts), (len(gap), "upright", 1, 0, 0, 0)]
        told = [(0, "upright", 2, *counts), (544 + len(gap), "upright", 1, 0, 0, 0)]
        yield f"{name}, in the second batch", before + gap + after, [CALL, *pages], told
    call = bits_of(whole([*FOLLOWS, SYNC, TONE]))
    yield "a transmission that another cuts off", call[:840] + call, [CUT_CALL, CALL], None


def series():
    """The same from each bit, cut off anywhere, and with more wrong bits and more lost words each time."""
    for offset in range(1, 9):
        bits = "0" * offset + bits_of(BATCH)
        yield f"one batch from bit {offset}", bits, [TWO], [(offset, "upright", 1, 0, 0, 0)]
        yield f"inverted from bit {offset}", inverted(bits), [TWO], [(offset, "inverted", 1, 0, 0, 0)]
    both = bits_of([*BATCH, *FOLLOWS])
    for gone in (1, 32, 63):
        told = [(544 - gone, "upright", 2, 0, 1 + gone // 33, 0)]
        yield f"{gone} bits of the first batch are not there", both[gone:], [TWO] if gone < 33 else [], told
    for left, count in ((31, 0), (32, 0), (63, 0), (64, 2), (95, 2), (96, 3)):
        told = [(left, "upright", 1 + (count > 0), 0, 17 - count if count else 0, 0)]
        yield f"{left} bits of the first batch are there", both[544 - left :], [], told
    for wrong, count in ((1, 3), (2, 0)):
        front = [IDLE, IDLE, IDLE ^ ((1 << wrong) - 1) << 9]
        told = [(96, "upright", 1 + (count > 0), wrong * (count > 0), 14 * (count > 0), 0)]
        yield f"{wrong} bits of three words in front are wrong", bits_of([*front, *FOLLOWS]), [], told
    for count in (5, 6, 11):
        words = [LOST if place < 2 * count - 16 or place % 2 and place < 2 * count else IDLE for place in range(16)]
        yield f"{count} lost words in one batch", [SYNC, *words], [], [(0, "upright", 1, 0, 5, 0)] if count == 5 else []
    for length in range(4, 68):
        told = [(0, "upright", 1, 0, 17 - length // 4, 0)] if length >= 48 else []
        yield f"cut off after {length} bytes", file_of(bits_of(BATCH))[:length], [TWO] if told else [], told
    for wrong in (SYNC ^ 1 << 31, SYNC ^ 0x80000001, SYNC ^ 3 << 15):
        yield f"{wrong:08X}", [wrong, *BATCH[1:]], [TWO], [(0, "upright", 1, (wrong ^ SYNC).bit_count(), 0, 0)]


def try_by_hand(tally, folder):
    assert repaired(LOST) is None
    rows = [(*row, "") for row in (*CASES, *gaps(), *series())] + [(name, given, [], [], likely) for name, given, likely in UNLIKE]
    for name, given, due, told, likely in rows:
        bits = bits_of(whole(given)) if isinstance(given, list) else given
        (folder / "air.bin").write_bytes(bits if isinstance(bits, bytes) else file_of(bits))
        due = 0, due, ANY if told is None else told_lines(told, likely)
        tally.check_same(name, listed(["decode", "--capture", "air.bin", "--verbose"], folder), due)


def try_words(tally, folder):
    """Refusals, standard input, and what stays as it is without --capture."""
    bits = bits_of(words_of([(8, 0, ""), (19, 3, "ab")]))
    (folder / "air.bin").write_bytes(file_of("1" + bits))
    (folder / "tx.bin").write_bytes(PREAMBLE + file_of(bits))
    piped = run(["decode", "--capture", "-"], folder, file_of("1" + bits))
    tally.check_done("standard input", piped, 0, HEADER + b"8,tone0,,whole\n19,alpha,ab,whole\n")
    due = b"".join(b'{"address":%s,"state":"whole","transmission":1,"inverted":false,"bit":1}\n' % page for page in (
        b'8,"function":0,"kind":"tone0","message":""', b'19,"function":3,"kind":"alpha","message":"ab"',
    ))
    tally.check_done("lines of JSON", run(["decode", "--capture", "--json", "air.bin"], folder), 0, due)
    tally.check_done("no line of JSON", run(["decode", "--capture", "--json", "-"], folder), 0)
    tally.check_done("without --capture", run(["decode", "air.bin"], folder), 1, b"", fault("the preamble is too short"))
    none = run(["show", "air.bin", "--capture", "--nth", "2"], folder)
    tally.check_done("no second transmission", none, 1, b"", fault("transmission 2 of 1: the capture has no such transmission"))
    ways = (["air.bin", "--capture"], ["air.bin", "--capture", "--nth", 1], ["tx.bin"])
    first, named, plain = (run(["show", *words], folder).stdout for words in ways)
    tally.check("the first without --nth", first == named == plain, first)
    for name, words in (("counted from 1", ["--nth", "0"]), ("rows behind the last", ["--rows", "9"])):
        tally.check_done(name, run(["show", "air.bin", "--capture", *words], folder), 1, b"", ANY)
    tally.check_done("a bad address", run(["hear", "2097152", "air.bin", "--capture"], folder), 1, b"", fault("bad address"))


def try_speed(tally, folder):
    if IS_EMULATED:
        return
    (folder / "noise.bin").write_bytes(random.Random(1).randbytes(NOISE_BYTES))
    before = resource.getrusage(resource.RUSAGE_CHILDREN)
    done = run(["decode", "--capture", "noise.bin"], folder)
    after = resource.getrusage(resource.RUSAGE_CHILDREN)
    seconds = after.ru_utime + after.ru_stime - before.ru_utime - before.ru_stime
    tally.check(f"{NOISE_BYTES} bytes of noise", done.returncode == 0 and seconds <= NOISE_SECONDS, (done.returncode, seconds))
    (folder / "noise.bin").unlink()
