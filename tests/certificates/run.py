"""Runs the product's checker and the one in checker.py, which shares nothing with it, over page files and
certificates, and the wrong checkers of wrong.py.

The pairs are those that the program plans for small random rounds, those of pairs.py, among them the vectors, accepted
trees with each kind of node on each of their first four levels and page files of every sort, and some thousands that are
made from them by changing bytes or nodes. The two have to give the same verdict each time, each by its text and its
status, and each wrong checker has to err on some pair of pairs.py.
"""

import pathlib
import random
import re
import sys
import threading
from concurrent.futures import ProcessPoolExecutor, ThreadPoolExecutor

import checker
import wrong
from checker import CLOSE, SPLIT, TOLD
from codewords import changed
from pairs import pairs
from rounds import page_file, small_pages
from tally import ENDS, PROGRAM, call, run, said
from trees import UNEXAMINED, certificate, nodes, overload, replaced

HERE = pathlib.Path(__file__).resolve().parent
CHANGES = 3_000
PLANNED = 60
RUN_AS_A_PROGRAM = 6  # pairs of each answer
# The status, the output and the errors that go together, and the verdict in the words of the second checker, or as it is told.
VERDICTS = [
    (0, r"(at least \d+ batches(?: with a closed end| with an idle last)?)\n", "", None),
    (1, r"not shown\n", "", "not shown"),
    (1, "", r"pocsag: (the header must be address,kind,message|there are no pages|the file is too large|record \d+: ("
     r"three fields are wanted|bad address|reserved address|unknown kind|a tone page has no message|the message is "
     r"empty|bad character at \d+|the message is too long|the address is already there|too many pages))\n", "refused"),
    (1, "", r"pocsag: (not a certificate|unknown certificate version|bytes after the certificate|the certificate ("
     r"is cut short|is malformed|is too deep|has too many nodes))\n", "no certificate"),
]  # fmt: skip


class Product:
    """The program's own checker, on files of a folder, one for each thread."""

    def __init__(self, folder):
        self.top = folder

    @property
    def folder(self):
        folder = self.top / str(threading.get_ident())
        folder.mkdir(exist_ok=True)
        return folder

    def write(self, pages, text=b""):
        folder = self.folder
        (folder / "pages.csv").write_bytes(pages)
        (folder / "cert.bin").write_bytes(text)

    def verdict(self, pages, text):
        """The verdict in the words of the second checker, where status, output and errors go together."""
        self.write(pages, text)
        found, out, err = said(call(PROGRAM, "check", "pages.csv", "cert.bin", cwd=self.folder, text=True))
        for status, told, refusal, answer in VERDICTS:
            if found == status and re.fullmatch(told, out) and re.fullmatch(refusal, err):
                return answer or out.rstrip("\n")
        return f"status {found}: {out} {err}"

    def planned(self, pages, end):
        """The certificate that the program writes for the round."""
        self.write(pages)
        done = run(["plan", "pages.csv", "tx.bin", "cert.bin", *ENDS[end]], self.folder)
        return (self.folder / "cert.bin").read_bytes() if done.returncode == 0 else None

    def second_checker(self, pages, text):
        """What the second checker prints as a program, and its status."""
        self.write(pages, text)
        return said(call(sys.executable, HERE / "checker.py", "pages.csv", "cert.bin", cwd=self.folder, text=True))


def changed_node(source, tree):
    """The tree with another node in the place of one of its nodes."""
    path, node = source.choice([*nodes(tree)])
    tag, members, c, m, children = node
    bit, by = 1 << source.randrange(16), source.choice([-1, 1])
    others = [
        *((tag, other, c, m, children) for other in (members ^ bit, max(0, members + by))),
        *((tag, members, other, m, children) for other in (c ^ bit, max(0, c + by))),
        *((tag, members, c, other, children) for other in (m ^ bit, max(0, m + by))),
        *((tag, members, c, m, other) for other in (tuple(source.sample(children, len(children))), children[1:], children + children[:1])),
        overload(source.choice([0xFFFF, 0x0001, 0x8000, source.randrange(1, 65536)])),
        UNEXAMINED,
        (SPLIT, 0, source.randrange(136), source.randrange(1, 4), (node, node)),
        (CLOSE, 0, 0, 0, (node,) * source.randrange(1, 3)),
    ]
    return replaced(tree, path, source.choice([other for other in others if other != node]))


def other_certificate(source, text):
    """A certificate made from another: some bytes, its batches, its end or a node is another."""
    kind = source.randrange(10)
    if kind < 2:
        return changed(source, text)
    end, batches, tree = checker.parse(text)
    first = text[3:4] == b"1"
    if kind == 2:
        return certificate(end, batches + source.choice([-1, 1]), tree, first)
    if kind == 3 and not first:
        return certificate((end + source.randrange(1, len(TOLD))) % len(TOLD), batches, tree)
    return certificate(end, batches, changed_node(source, tree), first)


class Comparing:
    """Runs both checkers on pairs, and keeps those that a certificate can be made from."""

    def __init__(self, tally, product):
        self.tally, self.product = tally, product
        self.known, self.answers = [], {}

    def compare(self, what, pages, text, due=None, ours=None):
        """The verdict of the second checker, which has to be the product's, and the due one."""
        ours, theirs = ours or self.product.verdict(pages, text), checker.verdict(pages, text)
        holds = ours == theirs and due in (None, ours)
        self.tally.check(what, holds, f"{pages[:200]} {text.hex()[:400]}: {ours} / {theirs} / {due}")
        self.answers.setdefault(" ".join(theirs.split()[:2]), []).append((pages, text, theirs))
        if holds and ours not in ("no certificate", "refused") and len(text) < 1000:
            self.known.append((pages, text))
        return theirs

    def plans(self, source):
        for _ in range(PLANNED):
            pages = page_file(source, small_pages(source))
            for end, told in zip(ENDS, TOLD):
                text = self.product.planned(pages, end)
                certified = text and checker.parse(text)
                self.tally.check("planned", certified, pages)
                if certified:
                    self.compare("planned", pages, text, f"at least {certified[1]} batches{told}")

    def changes(self, source):
        for _ in range(CHANGES):
            pages, text = source.choice(self.known)
            if source.random() < 0.05:
                pages = source.choice(self.known)[0]
            self.compare("changed", pages, other_certificate(source, text))

    def statuses(self, source):
        """The second checker as a program: its text is its answer, and its status says whether that is a yes."""
        for answer, judged in sorted(self.answers.items()):
            self.tally.check(f"{answer} was seen often", len(judged) > 300, len(judged))
            for pages, text, due in source.sample(judged, RUN_AS_A_PROGRAM):
                wanted = (0 if answer == "at least" else 1, due + "\n", "")
                self.tally.check("as a program", self.product.second_checker(pages, text) == wanted, (pages[:200], due))

    def all_pairs(self, source):
        """The pairs of pairs.py, each with the verdict of the second checker."""
        made = pairs(source)
        with ThreadPoolExecutor() as threads:
            answers = list(threads.map(lambda pair: self.product.verdict(*pair[1:]), made))
        both = zip(made, answers)
        return [(pages, text, self.compare(what, pages, text, None, ours)) for (what, pages, text), ours in both]


JUDGED = []  # in each process that runs wrong checkers


def errs(row):
    return wrong.errs(*row[1:], JUDGED)


def check_wrong(tally, judged):
    with ProcessPoolExecutor(initializer=JUDGED.extend, initargs=(judged,)) as processes:
        for row, has_erred in zip(wrong.WRONG, processes.map(errs, wrong.WRONG)):
            tally.check(f"wrong checker: {row[0]}", has_erred, "errs on no pair")


def try_all(tally, folder):
    comparing, source = Comparing(tally, Product(folder)), random.Random(1981)
    comparing.plans(source)
    judged = comparing.all_pairs(random.Random(1981))
    comparing.changes(source)
    comparing.statuses(source)
    check_wrong(tally, judged)
