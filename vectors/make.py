#!/usr/bin/env python3
"""Writes the files that table.csv names: python3 vectors/make.py [FOLDER]

The page files are kept in pages/. Without FOLDER it writes the certificates and the transmissions of the repository, beside this
script; with it, all files, also the large ones, into FOLDER. Certificates are given by certificates.txt, a transmission by its
codewords.
"""

import pathlib
import re
import sys

HERE = pathlib.Path(__file__).resolve().parent
sys.path += [str(HERE.parent / it) for it in ("tests", "tests/certificates")]
from codewords import HEADER, IDLE, ONES, SYNC, TONE, ZERO, address_word, digits, flipped, letters, page_words as page, transmission
from tally import put
from trees import wide


def certificates():
    """The bytes of each certificate of certificates.txt, by its name."""
    spelled = {}
    for line in (HERE / "certificates.txt").read_text().splitlines():
        name, is_given, text = line.partition(" =")
        if is_given and not name.startswith("#"):
            text = re.sub(r"\$(\w+)", lambda found: spelled[found[1]], text)
            spelled[name] = re.sub(r"(\d+)\*\((.*?)\)", lambda found: int(found[1]) * found[2], text)
    return {name: bytes.fromhex(text) for name, text in spelled.items() if not name.isupper()}


LONE = transmission([TONE])
TRANSMISSIONS = {
    "lone-tone": LONE,
    "lone-tone-late": transmission([IDLE, TONE]),
    "lone-tone-preamble-73": b"\xaa" + LONE,
    "lone-tone-two-batches": transmission([TONE, *[IDLE] * 31]),
    "idles": transmission(16 * [IDLE]),
    "another-address": transmission(page(16, [])),
    "another-frame": transmission([IDLE, IDLE, TONE]),
    "another-function": transmission(page(8, [], 1)),
    "a-message-more": transmission([TONE, ONES]),
    "one-page-twice": transmission([TONE, TONE]),
    "numeric-5": transmission(page(0, digits("12345"))),
    "numeric-2": transmission(page(0, digits("12"))),
    "numeric-2-filled-with-0": transmission(page(0, [0x84000])),
    "alpha-3": transmission(page(0, letters("ABC"), 3)),
    "alpha-3-as-numeric": transmission(page(0, letters("ABC"))),
    "exact": transmission([ZERO, *[ONES] * 5, address_word(3), *[ONES] * 9]),
    "tight": transmission([ZERO, *[ONES] * 5, address_word(11), *[ONES] * 15, address_word(3), *[ONES] * 9]),
    "tight-exchanged": transmission([ZERO, *[ONES] * 15, TONE, *[ONES] * 5, address_word(3), *[ONES] * 9]),
    "last-tone": transmission([*[IDLE] * 15, address_word(7)]),
    "preamble-71": LONE[1:],
    "preamble-alone": LONE[:72],
    "cut-short": LONE[:-1],
    "wrong-sync": LONE.replace(SYNC, flipped(SYNC, 0)),
    "wrong-word": transmission([TONE, flipped(IDLE, 0, 1)]),
    "wrong-parity": transmission([flipped(TONE, 0)]),
    "orphan-first": transmission([ONES, TONE]),
    "orphan-behind-idle": transmission([TONE, IDLE, ONES]),
}


def large():
    """What is too large for the repository."""
    tones = [b"%d,tone0,\n" % address for address in range(20001)]
    yield "large/pages-20000.csv", HEADER + b"".join(tones[:20000])
    yield "large/pages-20001.csv", HEADER + b"".join(tones)
    yield "large/bytes-268435457.csv", (HEADER + tones[8]).ljust(268435457, b"\n")
    yield "large/nodes-1000000.cert", b"PCB2\0\0\0\0\1" + wide(1000000)
    yield "large/nodes-1000001.cert", b"PCB2\0\0\0\0\1" + wide(1000001)


def small():
    """What is in the repository."""
    yield from ((f"pages/{path.name}", path.read_bytes()) for path in sorted((HERE / "pages").iterdir()))
    yield from ((f"certs/{name}.cert", data) for name, data in certificates().items())
    yield from ((f"sent/{name}.tx", data) for name, data in TRANSMISSIONS.items())


if __name__ == "__main__":
    if len(sys.argv) == 2:
        put(pathlib.Path(sys.argv[1]), dict([*small(), *large()]))
    else:
        put(HERE, dict(small()))
