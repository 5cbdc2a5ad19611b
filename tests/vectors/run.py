"""Runs `check`, `explain` and `decode` of the compiled program, and the second checker, over the vectors of vectors/.

What is due stands in vectors/table.csv, worked out by hand.
"""

import csv
import hashlib

import checker
from codewords import IDLE, rows_of
from tally import TOP, put, run as tally_run, sampled
from workspace import module_at

VECTORS = TOP / "vectors"
make = module_at("vectors", VECTORS / "make.py")
FAULT = "pocsag: "
PAGES = "5cd5d2ed96e0127b326424b54562b3d8afaaf337dd0864055bdbb93a28cdd3b6"  # the names and the bytes of vectors/pages
TOLD = ("refused", "no certificate")  # the answers of the second checker where the product prints a fault


def rows():
    with open(VECTORS / "table.csv", newline="") as table:
        return list(csv.DictReader(table))


def run(folder, *words):
    """The status of the program, and its output or the fault that it prints."""
    done = tally_run(words, folder)
    return done.returncode, (done.stdout or done.stderr).decode("latin-1").removesuffix("\n")


def try_files(tally, folder):
    """The files of the repository are those that make.py spells, and the page files those of which the table was worked out; all of
    them are in use, and no row comes twice."""
    spelled, large = dict(make.small()), dict(make.large())
    put(folder, spelled | large)
    for name, data in spelled.items():
        path = VECTORS / name
        tally.check(f"{name} as it is spelled", path.exists() and path.read_bytes() == data)
    pages = b"".join(name[len("pages/") :].encode() + data for name, data in spelled.items() if name.startswith("pages/"))
    tally.check("no page file was changed", hashlib.sha256(pages).hexdigest() == PAGES, hashlib.sha256(pages).hexdigest())
    table = rows()
    used = {row[column] for row in table for column in ("pages", "tx", "cert") if row[column]}
    made = {*spelled, *large}
    here = {f"{part}/{path.name}" for part in ("pages", "certs", "sent") for path in (VECTORS / part).iterdir()}
    tally.check("each file is in use", used == made and here == spelled.keys(), (used ^ made, here ^ spelled.keys()))
    tally.check("each name stands once", len({row["name"] for row in table}) == len(table))


def try_verdicts(tally, folder):
    """Both checkers and `explain` over each row."""
    for row in sampled(rows(), 5):
        due = int(row["status"]), row["line"]
        tally.check_same(f"check: {row['name']}", run(folder, "check", row["pages"], row["cert"]), due)
        status, text = run(folder, "explain", "--depth", "0", row["pages"], row["cert"])
        as_due = text == due[1] if due[1].startswith(FAULT) else text.split("\n")[0].startswith("at least" if due[0] == 0 else "not shown")
        tally.check(f"explain: {row['name']}", status == due[0] and as_due, (status, text))
        answer = checker.verdict((folder / row["pages"]).read_bytes(), (folder / row["cert"]).read_bytes())
        tally.check(f"second checker: {row['name']}", answer in TOLD if due[1].startswith(FAULT) else answer == due[1], answer)


def pages_of(text):
    """The pages of a page file or a listing, in any order. Numeric messages are filled with spaces as they are sent."""
    records = rows_of(text)[1:]
    return sorted((int(address), kind, message.rstrip(" ") if kind == "numeric" else message) for address, kind, message in records)


def is_sent(folder, row, listing):
    """Whether a transmission that can be read is legal for the round and the certificate's end, in its batches."""
    end, batches, _ = checker.parse((folder / row["cert"]).read_bytes())
    sent = (folder / row["tx"]).read_bytes()
    words = sent.lstrip(b"\xaa")
    ends = {checker.OPEN_END: True, checker.CLOSED_END: words[-4] < 0x80, checker.IDLE_END: words[-4:] == IDLE}
    same = pages_of(listing.encode("latin-1")) == pages_of((folder / row["pages"]).read_bytes())
    return same and len(words) == 68 * batches and ends[end]


def try_transmissions(tally, folder):
    """What `decode` prints of each transmission, and the pages that it lists beside those of the page file; `show` and `wav` refuse
    what it refuses."""
    for row in (row for row in rows() if row["tx"]):
        status, text = run(folder, "decode", row["tx"])
        told = ("yes" if is_sent(folder, row, text) else "no") if status == 0 else text
        tally.check(f"decode: {row['name']}", told == row["sent"], (status, told))
        for words in (["show"], ["show", "--svg"], ["show", "--list"], ["wav"]) if status else ():
            tally.check_same(f"{' '.join(words)}: {row['name']}", run(folder, *words, row["tx"]), (1, row["sent"]))


def try_all(tally, folder):
    for part in (try_files, try_verdicts, try_transmissions):
        part(tally, folder)
