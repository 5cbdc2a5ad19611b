"""`plan --verify` where a file is read back as other bytes than were written."""

import os

from codewords import APART, HEADER, HEADS, IDLE, ONES, SYNC, ZERO, transmission
from tally import ENDS, fault, run

IDLES = SYNC + 16 * IDLE
NOT_THE_PAGES = fault("the transmission does not hold the pages of the page file")
NOT_THE_BOUND = fault("the certificate does not show the batches of the transmission")
NOT_THE_END = fault("the transmission does not end as was asked for")
# The round's pages in three batches, the last message of which goes on to the end.
OPEN_END = transmission([*6 * [IDLE], ZERO, *15 * [ONES], *10 * [IDLE], ZERO, *15 * [ONES]])
TOLD = b"pages 2\nbatches 3\n"


def verify(folder, library, *words, **settings):
    """`plan --verify` by the settings of refuse.c."""
    environment = {**os.environ, "LD_PRELOAD": str(library), **settings}
    return run(["plan", "pages.csv", "tx.bin", "cert.bin", "--verify", *words], folder, env=environment)


def check_read_back(tally, folder, library, name, end, asked, file, given, told, refusal):
    """Whether the round is verified, as is asked, or refused, where one of its files is read back as other bytes."""
    (folder / "given").write_bytes(given)
    done = verify(folder, library, *ENDS[end], *asked, REFUSE_KEPT=file, REFUSE_GIVEN="given")
    wanted = (1, told, refusal) if refusal else (0, told + b"verified\n", b"")
    tally.check_done(f"{name} read back, {end} {asked}", done, *wanted)


def try_lost(tally, library, folder):
    """`--verify` on a device that loses what it takes: the page file is open when TX is opened, and then CERT."""
    (folder / "pages.csv").write_bytes(HEADER + b"8,tone0,\n")
    for name, number, text in (("transmission", 4, "the preamble is too short"), ("certificate", 5, "the certificate is cut short")):
        done = verify(folder, library, REFUSE_LOSE=str(number))
        tally.check_done(f"a lost {name} is not verified", done, 1, b"pages 1\nbatches 1\n", fault(text))


def planned(folder, pages, end):
    """The transmission and the certificate of a page file."""
    (folder / "other.csv").write_bytes(pages)
    run(["plan", "other.csv", "tx.bin", "cert.bin", *ENDS[end]], folder)
    return [(folder / file).read_bytes() for file in ("tx.bin", "cert.bin")]


def certificate(end, batches, tree):
    return HEADS[end] + batches.to_bytes(4, "big") + bytes.fromhex(tree)


def try_read_back(tally, library, folder):
    """`--verify` of other bytes than were written: taken where they show as much, and else refused as they deserve."""
    (folder / "pages.csv").write_bytes(APART)
    cut, overloaded = "02 0001 30 0002 00 0001 00 8000", "00 FFFF"
    no_version = fault("unknown certificate version")
    for end, other in (("open", "closed"), ("closed", "idle"), ("idle", "open")):
        three, two, one = ((end, batches, tree) for batches, tree in ((3, cut), (2, overloaded), (1, overloaded)))
        certificates = [
            ("what was written", certificate(*three), b"", b""),
            ("a certificate for one batch less", certificate(*two), NOT_THE_BOUND, b""),
            ("a certificate for two batches less", certificate(*one), NOT_THE_BOUND, NOT_THE_BOUND),
            ("a certificate for one batch more", certificate(end, 4, cut), NOT_THE_BOUND, NOT_THE_BOUND),
            ("another end", certificate(other, 3, cut), NOT_THE_BOUND, NOT_THE_BOUND),
            ("a tree that is not accepted", certificate(end, 3, overloaded), NOT_THE_BOUND, NOT_THE_BOUND),
            ("an open tree", certificate(end, 3, "03"), NOT_THE_BOUND, NOT_THE_BOUND),
            ("no certificate", b"PCB3", no_version, no_version),
        ]
        for name, given, *refusals in certificates:
            for always, refusal in zip(([], ["--always"]), refusals):
                check_read_back(tally, folder, library, name, end, always, "cert.bin", given, TOLD, refusal)
        try_transmissions(tally, library, folder, end)


def try_transmissions(tally, library, folder, end):
    """Transmissions of other pages in the place of the one that was written."""
    others = [
        ("another digit", APART.replace(b",1", b",2", 1)),
        ("another address", APART.replace(b"3,num", b"11,num")),
        ("a page less", APART[: APART.index(b"3,num")]),
        ("a page more", APART + b"8,tone0,\n"),
        ("another function", HEADER + b"0,alpha,a\n3,numeric," + b"1" * 75 + b"\n"),
    ]
    sent, _ = planned(folder, APART, end)
    cases = [("what was written", sent, b""), ("a preamble more", b"\xaa" * 9 + sent, b"")]
    cases += [("a message at the end", OPEN_END, NOT_THE_END if end != "open" else b"")]
    cases += [("cut short", sent[:-1], fault("the transmission is cut short"))]
    cases += [("a batch more", sent + IDLES, NOT_THE_BOUND)]
    cases += [("two batches more", sent + 2 * IDLES, NOT_THE_BOUND)]
    cases += [(name, planned(folder, text, end)[0], NOT_THE_PAGES) for name, text in others]
    for name, given, refusal in cases:
        for always in ([], ["--always"]):
            is_taken = always and name == "a batch more"
            check_read_back(tally, folder, library, name, end, always, "tx.bin", given, TOLD, b"" if is_taken else refusal)


def try_fronts(tally, library, folder):
    """`--verify` of a front: the first page of two, which has 16 codewords, so only the open end does without a batch more."""
    (folder / "pages.csv").write_bytes(APART)
    first, second = (HEADER + line + b"\n" for line in APART.splitlines()[1:])
    for end in ENDS:
        (of_first, shown), (of_second, _), (of_both, shown_of_both) = (planned(folder, text, end) for text in (first, second, APART))
        cases = [
            ("tx.bin", "what was written", of_first, b""),
            ("tx.bin", "the page that is left", of_second, NOT_THE_PAGES),
            ("tx.bin", "both pages", of_both, NOT_THE_PAGES),
            ("tx.bin", "a batch more", of_first + IDLES, NOT_THE_BOUND),
            ("cert.bin", "what was written", shown, b""),
            ("cert.bin", "the certificate of both pages", shown_of_both, NOT_THE_BOUND),
            ("cert.bin", "a tree that is not accepted", certificate(end, 3, "00 FFFF"), NOT_THE_BOUND),
        ]
        told = b"pages 1\nbatches %d\nleft 1\n" % (1 if end == "open" else 2)
        for file, name, given, refusal in cases:
            check_read_back(tally, folder, library, f"of a front, {name}", end, ["--at-most", "2"], file, given, told, refusal)
