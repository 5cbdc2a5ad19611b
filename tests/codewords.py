"""Codewords, transmissions and page files, made by the rules of docs/CERTIFICATES.md and by no code of the product. A codeword is
four bytes. A page is its address, its function, and the items of its message, each of twenty bits."""

import csv
import io

HEADER = b"address,kind,message\n"
LARGEST = 268_435_456  # bytes of a page file or a transmission
# Two pages that fill a batch each and need three.
APART = HEADER + b"0,numeric," + b"1" * 75 + b"\n3,numeric," + b"1" * 75 + b"\n"
# How the certificates of each end begin.
HEADS = {"open": b"PCB2\0", "closed": b"PCB2\1", "idle": b"PCB4"}
PREAMBLE = b"\xaa" * 72
SYNC, IDLE = bytes.fromhex("7CD215D8"), bytes.fromhex("7A89C197")
# The address codewords of a tone for 0 and for 8, and the message codeword of the digits 11111.
ZERO, TONE, ONES = bytes.fromhex("00000000"), bytes.fromhex("000026EC"), bytes.fromhex("C44447B9")
MESSAGE = 1 << 20
NUMERIC = "0123456789*U -]["


def number_of(data):
    """The codeword of 21 bits, as a number: ten check bits behind them, which make it a multiple of 0x769, and a bit of even parity."""
    rest = data << 10
    for place in range(30, 9, -1):
        if rest >> place & 1:
            rest ^= 0x769 << place - 10
    word = (data << 10 | rest) << 1
    return word | word.bit_count() & 1


def codeword(data):
    return number_of(data).to_bytes(4, "big")


def address_word(address, function=0):
    return codeword(address // 8 << 2 | function)


def items_of(codes, width, fill):
    """The items of the codes, each code with its lowest bit first."""
    bits = [code >> k & 1 for code in codes for k in range(width)]
    while len(bits) % 20:
        bits += [fill >> k & 1 for k in range(width)] if fill else [0]
    return [int("".join(map(str, bits[k : k + 20])), 2) for k in range(0, len(bits), 20)]


def digits(text):
    return items_of(map(NUMERIC.index, text), 4, 12)


def letters(text):
    """The items of an alphanumeric message, a text or bytes."""
    return items_of(text.encode("latin-1") if isinstance(text, str) else text, 7, 0)


def codes_of(items, width):
    bits = [item >> 19 - k & 1 for item in items for k in range(20)]
    return [sum(bits[k + j] << j for j in range(width)) for k in range(0, len(bits) - width + 1, width)]


def characters(items):
    return "".join(map(chr, codes_of(items, 7))).rstrip("\0")


def kind_and_message(function, items, texts=()):
    """What is told of a page, where the messages of these functions are text."""
    if not items:
        return f"tone{function}", ""
    if function in texts:
        return f"text{function}", characters(items)
    if function == 0:
        return "numeric", "".join(NUMERIC[code] for code in codes_of(items, 4)).rstrip(" ")
    if function == 3:
        return "alpha", characters(items)
    return f"data{function}", "".join(f"{item:05X}" for item in items)


def transmission(words):
    """The bytes of codewords, in batches, the last of which idles fill."""
    words = [*words, *[IDLE] * (-len(words) % 16)]
    return PREAMBLE + b"".join(SYNC + b"".join(words[at : at + 16]) for at in range(0, len(words), 16))


def page_words(address, items, function=0):
    return [address_word(address, function), *(codeword(MESSAGE | item) for item in items)]


def laid(pages):
    """The transmission of pages in this order, each its frame and its codewords, at the next slot of its frame."""
    words = []
    for frame, own in pages:
        while len(words) % 16 // 2 != frame:
            words.append(IDLE)
        words += own
    return transmission(words)


def sent(pages):
    return laid((address % 8, page_words(address, items, function)) for address, function, items in pages)


def in_order(lengths):
    """How many batches pages take in this order, each its frame and its codewords, at the first slot of its frame behind the one before."""
    index = 0
    for frame, length in lengths:
        index += (2 * frame - index) % 16 * (index % 16 // 2 != frame) + length
    return -(-index // 16)


def codewords_of(sent):
    """The codewords of a transmission with the shortest preamble."""
    words = [sent[at : at + 4] for at in range(len(PREAMBLE), len(sent), 4)]
    return [word for place, word in enumerate(words) if place % 17]


def pages_in(words):
    """Each page of codewords as its first index and the index behind it."""
    begins = [at for at, word in enumerate(words) if word != IDLE and word[0] < 128]
    ends = [next((at for at in range(begin + 1, len(words)) if words[at][0] < 128), len(words)) for begin in begins]
    return list(zip(begins, ends))


def random_file(source, most=12):
    """A page file of up to so many pages of every kind."""
    lines = ["address,kind,message"]
    for address in source.sample(range(2_000_000), source.randrange(1, most + 1)):
        kind = source.choice(["numeric", "alpha", "tone0", "tone1", "tone2", "tone3"])
        text = ""
        if kind == "numeric":
            text = "".join(source.choices("0123456789-", k=source.randrange(1, 90)))
        elif kind == "alpha":
            text = "".join(source.choices("abcdefgh XYZ.", k=source.randrange(1, 60))) + "."
        lines.append(f"{address},{kind},{text}")
    return ("\n".join(lines) + "\n").encode()


def changed(source, data):
    """The bytes with some of them changed, dropped or put in twice."""
    data = bytearray(data)
    for _ in range(source.randrange(1, 4)):
        place = source.randrange(len(data) + 1)
        kind = source.randrange(4)
        if kind == 0 and place < len(data):
            data[place] = source.choice([source.randrange(256), data[place] ^ 1 << source.randrange(8)])
        elif kind == 1:
            del data[place : place + source.randrange(1, 9)]
        elif kind == 2:
            data[place:place] = data[place : place + source.randrange(1, 9)]
        else:
            del data[place:]
    return bytes(data)


def flipped(word, *bits):
    """The codeword with these bits changed, of which the last one sent is bit 0."""
    return (int.from_bytes(word, "big") ^ sum(1 << bit for bit in bits)).to_bytes(4, "big")


def address_at(words, begin):
    """The address of the page that begins with this one of the codewords of a transmission."""
    return (int.from_bytes(words[begin], "big") >> 13 & 0x3FFFF) * 8 + begin % 16 // 2


def rows_of(listing):
    """The rows of a listing or a page file."""
    return list(csv.reader(io.StringIO(listing.decode("latin-1"), newline="")))
