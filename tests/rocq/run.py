"""Builds the checker of rocq/ and runs it: the vectors, plans of the product and changed ones, page files and certificates
of every sort, a plan in Coq's kernel, and wrong rules, which no longer prove.

Where Coq is not installed it says so and passes.
"""

import csv
import random
import re
import shutil

from checker import CLOSED_END, IDLE_END, OPEN_END, TOLD
from codewords import IDLE, PREAMBLE, SYNC, codewords_of, pages_in, transmission
from pairs import of_bytes, of_files, of_trees
from rounds import HEADER, message_of, page_file, small_pages
from tally import ENDS, PROGRAM, TOP, call, said

PLANS = 500
PAIRS = 1_000
WORDS = dict(zip(ENDS, TOLD))
NUMBERS = dict(zip(ENDS, (OPEN_END, CLOSED_END, IDLE_END)))
ILLEGAL = "pocsag-verify: not a legal transmission of the round\n"
MODULES = "Codewords Readings PageFiles PageFileProofs Trees Soundness Certificates Transmissions Checks".split()
NEEDED = ("coqc", "coqchk", "ocamlfind")


def run(*words, folder=None):
    return said(call(*words, cwd=folder, text=True))


class Copy:
    def __init__(self, folder):
        self.folder = folder / "rocq"
        sources = [it for it in (TOP / "rocq").iterdir() if it.suffix in (".v", ".ml", ".md") or it.name in ("build", "kernel")]
        self.folder.mkdir()
        for it in sources:
            shutil.copy(it, self.folder)
        self.program = self.folder / "pocsag-verify"

    def verify(self, folder, *names):
        return run(self.program, *names, folder=folder)


def build(tally, copy):
    """Coq takes every file, and the program is built."""
    status, _, told = run(copy.folder / "build")
    tally.check("build", status == 0 and copy.program.exists(), told)
    return status == 0


def try_theorems(tally, copy, folder):
    """Both theorems stand on no axiom, and Coq's second checker takes every file."""
    names = ("check_right", "fewest")
    asked = "".join(f"Print Assumptions {name}.\n" for name in names)
    (folder / "asked.v").write_text("From Pocsag Require Import Checks.\n" + asked)
    status, told, error = run("coqc", "-q", "-Q", copy.folder, "Pocsag", folder / "asked.v")
    tally.check("no axiom", (status, told.count("Closed under the global context")) == (0, len(names)), told + error)
    ours = [word for it in MODULES for word in ("-norec", f"Pocsag.{it}")]
    status, told, error = run("coqchk", "-silent", "-o", "-Q", copy.folder, "Pocsag", *ours)
    summary = told + error
    tally.check("coqchk", status == 0 and "Axioms:" in summary and "Pocsag" not in summary, summary)
    text = "".join((copy.folder / f"{it}.v").read_text() for it in MODULES)
    tally.check_none("nothing taken without a proof", re.findall(r"\b(?:Admitted|admit|Axiom|Parameter|Conjecture)\b", text))


def due_of(row):
    """Status, output and errors for a row of the vectors; errors are told in words of the checker's own."""
    refused = "pocsag-verify: not a "
    if row["line"].startswith("pocsag: "):
        return 1, "", refused + ("certificate\n" if "certificate" in row["line"] else "page file\n")
    told, batches = row["line"] + "\n", re.findall(r"at least (\d+)", row["line"])
    if not row["tx"] or not batches:
        return int(row["status"]), told, ""
    if row["sent"] == "yes":
        return 0, f"{told}batches {batches[0]}\n", ""
    return 1, told, ILLEGAL


def try_vectors(tally, copy, folder):
    """Each row of the vectors whose files stand in the repository."""
    vectors = TOP / "vectors"
    for row in csv.DictReader((vectors / "table.csv").open()):
        names = [row[it] for it in ("pages", "tx", "cert") if row[it]]
        if not all((vectors / it).exists() for it in names):
            continue
        status, told, error = copy.verify(vectors, *names)
        if row["name"] == "sent-one-batch-more":  # legal, and not the fewest
            told, error = told.replace("batches 2\n", ""), ILLEGAL
        tally.check(f"vector {row['name']}", (status, told, error) == due_of(row), (status, told, error))


def two_pages_exchanged(source, sent):
    """Two pages of one length in different frames, exchanged; none where there are no such pages."""
    words = codewords_of(sent)
    found = pages_in(words)
    choices = [
        (a, b) for a in found for b in found
        if a < b and a[1] - a[0] == b[1] - b[0] and a[0] % 16 // 2 != b[0] % 16 // 2
        and words[a[0]] != words[b[0]]
    ]
    if not choices:
        return None
    (a, after_a), (b, after_b) = source.choice(choices)
    return transmission(words[:a] + words[b:after_b] + words[after_a:b] + words[a:after_a] + words[after_b:])


def a_page_lost(source, sent):
    """Idles in place of a page."""
    words = codewords_of(sent)
    begin, end = source.choice(pages_in(words))
    return transmission(words[:begin] + [IDLE] * (end - begin) + words[end:])


def a_bit_wrong(source, sent):
    place = source.randrange(len(PREAMBLE), len(sent))
    return sent[:place] + bytes([sent[place] ^ 1 << source.randrange(8)]) + sent[place + 1:]


ONE_MORE = SYNC + 16 * IDLE  # a batch of idles
# Changed transmissions, each made from one that carries its round in the fewest batches.
CHANGES = {
    "two pages exchanged": two_pages_exchanged,
    "one batch more": lambda source, sent: sent + ONE_MORE,
    "a page lost": a_page_lost,
    "a bit wrong": a_bit_wrong,
    "a preamble of 71 bytes": lambda source, sent: sent[1:],
    "a byte less": lambda source, sent: sent[:-1],
}


def try_plans(tally, copy, folder):
    """Plans of the product are shown; changed ones are not."""
    source, judged, refused = random.Random(22), 0, {}
    while judged < PLANS:
        end = source.choice(list(ENDS))
        pages = page_file(source, small_pages(source, NUMBERS[end]))
        (folder / "pages.csv").write_bytes(pages)
        status, told, _ = run(PROGRAM, "plan", "pages.csv", "tx.bin", "cert.bin", *ENDS[end], folder=folder)
        if status:
            continue
        judged += 1
        batches = int(told.split()[-1])
        shown = f"at least {batches} batches{WORDS[end]}\n"
        found = copy.verify(folder, "pages.csv", "tx.bin", "cert.bin")
        tally.check("plan", found == (0, f"{shown}batches {batches}\n", ""), f"{end} {pages}: {found}")
        tally.check("bound", copy.verify(folder, "pages.csv", "cert.bin") == (0, shown, ""), f"{end} {pages}")
        sent = (folder / "tx.bin").read_bytes()
        what = source.choice([*CHANGES, "two pages exchanged", "two pages exchanged"])
        other = CHANGES[what](source, sent)
        if other is None:
            continue
        (folder / "other.bin").write_bytes(other)
        found = copy.verify(folder, "pages.csv", "other.bin", "cert.bin")
        more = (1, f"{shown}batches {batches + 1}\n", "")
        tally.check(what, found == (more if what == "one batch more" else (1, shown, ILLEGAL)), f"{end} {pages} {other.hex()}: {found}")
        refused[what] = refused.get(what, 0) + 1
    tally.check("each change was tried", min(refused.get(it, 0) for it in CHANGES) >= 10, refused)


def verdict_of(done):
    """What a checker said of a page file and a certificate."""
    status, told, error = done
    if (status == 0) != told.startswith("at least ") or (told and error):
        return f"status {status}: {told} {error}"
    if told:
        return told
    return "no certificate" if re.search("certificate", error) else "refused"


def try_pairs(tally, copy, folder):
    """Page files and certificates of every sort: the answer of the product's `check`."""
    source = random.Random(23)
    found = [*of_trees(source), *of_files(source), *of_bytes()]
    for what, pages, text in source.sample(found, PAIRS):
        (folder / "pages.csv").write_bytes(pages)
        (folder / "cert.bin").write_bytes(text)
        ours = verdict_of(run(PROGRAM, "check", "pages.csv", "cert.bin", folder=folder))
        theirs = verdict_of(copy.verify(folder, "pages.csv", "cert.bin"))
        tally.check(what, ours == theirs, f"{pages[:200]} {text[:200].hex()}: {ours} / {theirs}")


def try_large(tally, copy, folder):
    """20,000 mixed pages and their transmission, in one gigabyte of memory and with the usual stack."""
    source = random.Random(24)
    addresses = source.sample(range(2007664), 20000)
    records = (b"%d,%s,%s\n" % (it, *message_of(source, source.randrange(16))) for it in addresses)
    (folder / "pages.csv").write_bytes(HEADER + b"".join(records))
    _, told, _ = run(PROGRAM, "plan", "pages.csv", "tx.bin", "cert.bin", folder=folder)
    fewest = told.splitlines()[-1]
    limited = ("sh", "-c", 'ulimit -v 1048576; exec "$@"', "sh", copy.program)
    done = run(*limited, "pages.csv", "tx.bin", "cert.bin", folder=folder)
    tally.check("20,000 pages", done[0] == 0 and fewest in done[1] and not done[2], (told, done))


def try_words(tally, copy, folder):
    """Words of the call that are none, and files that are not there."""
    tally.check("no words", copy.verify(folder)[0] == 2)
    tally.check("no file", copy.verify(folder, "none.csv", "none.cert")[0] == 3)


def try_kernel(tally, copy, folder):
    """Coq's kernel alone finds a plan right, and one batch more wrong."""
    (folder / "pages.csv").write_bytes((TOP / "examples/loops-apart.csv").read_bytes())
    planned = run(PROGRAM, "plan", "pages.csv", "tx.bin", "cert.bin", folder=folder)
    sent = (folder / "tx.bin").read_bytes()
    (folder / "other.bin").write_bytes(sent + ONE_MORE)
    for name, due in ("tx.bin", 0), ("other.bin", 1):
        status, text, error = run(copy.folder / "kernel", "pages.csv", name, "cert.bin", folder=folder)
        (folder / "plan.v").write_text(text)
        done = run("coqc", "-q", "-Q", copy.folder, "Pocsag", "plan.v", folder=folder)
        told = "Closed under the global context" in done[1] if due == 0 else "Unable to unify" in done[2] or "Error" in done[2]
        tally.check(f"kernel {name}", planned[0] == status == 0 and done[0] == due and told, (planned, error, done))


# Wrong rules of the checker, which no longer prove: for each a file, a part of its text, what stands there instead, and the
# file whose proofs break.
RULES = [
    ("overload: as much as there is room for", "Trees.v", "(loss r) (rows l)) <? weight", "(loss r) (rows l)) <=? weight", "Soundness.v"),
    ("split: one page fewer in the second case", "Trees.v", "[AtMost c (m - 1); AtLeast c m]", "[AtMost c (m - 1); AtLeast c (m + 1)]", "Soundness.v"),
    ("cut: boundary 0 outside the set", "Trees.v", "(1 <=? b) && has r 0 && is_certain", "(1 <=? b) && is_certain", "Soundness.v"),
    ("cut: a class with one end outside", "Trees.v", "early && late || early && (1 <=? lo x)", "early || early && (1 <=? lo x)", "Soundness.v"),
    ("cut: no idle in slot 15", "Trees.v", "(seq 0 16))", "(seq 0 15))", "Soundness.v"),
    ("close: no page may come last", "Trees.v", "Some (IdleIn 15 :: flat_map page_last (rows l))", "Some [IdleIn 15]", "Soundness.v"),
    ("close: for the open end", "Trees.v", "| OpenEnd => None", "| OpenEnd => Some [IdleIn 15]", "Soundness.v"),
    ("open: accepted", "Trees.v", "| Open => None", "| Open => Some []", "Soundness.v"),
    ("an idle takes two places", "Trees.v", "lower k (b - 1) (caps l)", "lower k (b - 2) (caps l)", "Soundness.v"),
    ("a codeword of odd parity", "Codewords.v", " && negb (odd_ones w)", "", "Codewords.v"),
    ("a preamble of 71 bytes", "Transmissions.v", "match after_preamble 72 bytes", "match after_preamble 71 bytes", "Transmissions.v"),
    ("two pages of different functions taken for the same", "Transmissions.v", " && (function p =? function q)", "", "Transmissions.v"),
    ("an address twice", "PageFiles.v", "then false\n      else are_distinct_after", "then true\n      else are_distinct_after", "PageFileProofs.v"),
]  # fmt: skip


def compiled(folder, name):
    """Whether Coq takes a file, and what it says where not."""
    status, told, error = run("timeout", "120", "coqc", "-q", "-Q", ".", "Pocsag", name, folder=folder)
    return status == 0, told + error


def try_rules(tally, copy, top):
    """Each wrong rule in a copy of the folder that was built: its definitions are taken, and a proof is not."""
    for what, name, right, wrong, breaks in RULES:
        text = (copy.folder / name).read_text()
        if text.count(right) != 1:
            tally.check(what, False, f"{right!r} stands {text.count(right)} times in {name}")
            continue
        folder = shutil.copytree(copy.folder, top / "wrong")
        (folder / name).write_text(text.replace(right, wrong))
        taken, told = (True, "") if name == breaks else compiled(folder, name)
        proved, why = compiled(folder, breaks)
        line = re.search(rf'"\./{breaks}", line (\d+)', why)
        at_a_proof = line and "Error:" in why and "Syntax error" not in why
        behind = name != breaks or line and int(line[1]) > text[: text.index(right)].count("\n") + 1
        tally.check(f"wrong rule: {what}", taken and not proved and at_a_proof and behind, told or why or "proved")
        shutil.rmtree(folder)


def try_all(tally, folder):
    missing = [it for it in NEEDED if not shutil.which(it)]
    if missing:
        return tally.skip(f"not installed: {' '.join(missing)} (on Debian: apt-get install coq ocaml-findlib)")
    copy = Copy(folder)
    if build(tally, copy):
        for part in (try_theorems, try_words, try_vectors, try_large, try_plans, try_pairs, try_kernel, try_rules):
            part(tally, copy, folder)
