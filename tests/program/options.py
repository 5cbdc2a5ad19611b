"""Every option of `plan`, `report` and `open` with every other that it can stand beside, on small rounds: what is
told and written has to be what a brute force of tests/fewest and the other commands say of the round and the end."""

import itertools
import random

import tally as shared
from codewords import in_order
from tally import TOP, fault, sampled
from workspace import module_at

# The words for an end, with the end.
ENDS = (([], "open"), (["--end", "open"], "open"), (["--end", "closed"], "closed"), (["--end=closed"], "closed"),
        (["--idle-last"], "idle"), (["--end", "idle"], "idle"))  # fmt: skip
LIMITS = ([], ["--limit", "100000"], ["--limit=1000000"], ["--limit", "1"])
RATES = ("512", "1200", "2400")
VERBOSE = ([], ["--verbose"])


def run(words, folder, stdin=b""):
    """With `--verbose`, what is told without it: behind the first line stand notes alone, and with status 0 none here."""
    done = shared.run(words, folder, stdin)
    lines = done.stderr.splitlines(True)
    if "--verbose" in words and all(line.startswith(b"pocsag: ") for line in lines):
        done.stderr = b"".join(lines[:1])
    return done


FEWEST = module_at("fewest", TOP / "tests/fewest/run.py")  # has the brute force
# Rounds as pages (address, message codewords): where the ends differ, where the least is one below the fewest, where
# no search is needed; and some at random.
ROUNDS = [
    [(0, 15)],
    [(0, 5), (3, 9)],
    [(0, 5), (3, 9), (11, 15)],
    [(0, 13), (7, 0), (15, 2), (1, 13)],
    [(0, 15), (3, 15)],
    [(5, 0), (13, 0), (21, 0)],
    [(7, 1), (15, 1)],
    *(FEWEST.random_round(source) for source in [random.Random(1986)] for _ in range(8)),
]


class Due:
    """What is due of a round for an end."""

    def __init__(self, pages, end):
        self.pages, self.end = pages, end
        self.shapes = tuple((address % 8, 1 + items) for address, items in pages)
        self.fewest = FEWEST.fewest(self.shapes, end)
        self.text = FEWEST.page_file_of(pages)
        self.codewords = sum(length for _, length in self.shapes)

    def shown(self, bound):
        """What `check` prints of a certificate for the bound."""
        return b"at least %d batches%s\n" % (bound, FEWEST.TOLD[self.end].encode())

    def report(self, rate, batches):
        bits = 576 + 544 * batches
        counts = (len(self.pages), self.codewords, in_order(self.shapes), batches, 16 * batches - self.codewords, bits)
        names = (b"pages", b"codewords", b"in_order", b"batches", b"idles", b"bits")
        lines = b"".join(b"%s %d\n" % pair for pair in zip(names, counts))
        return lines + b"airtime_ms %d\n" % -(-1000 * bits // int(rate))

    def are_written(self, folder, batches, bound):
        """Whether both files are those of a plan with so many batches and that bound: read here and by the program."""
        sent = (folder / "tx.bin").read_bytes()
        shown = run(["check", "pages.csv", "cert.bin"], folder)
        return (
            FEWEST.pages_read(sent) == sorted(self.pages)
            and len(sent) == 72 + 68 * batches
            and FEWEST.ends_as(sent, self.end)
            and (shown.returncode, shown.stdout) == (0, self.shown(bound))
        )


def judged(due, done, limit, is_always):
    """The batches and the bound that a call prints; none where it is refused as it may be, and false where the
    answer is wrong. With a limit of one node alone the search may stop."""
    text = done.stdout.splitlines()
    said = dict(line.split(b" ", 1) for line in text if b" " in line)
    if done.returncode == 0:
        batches = int(said.get(b"batches", b"0"))
        bound = next((int(line.split()[2]) for line in text if line.startswith(b"at least ")), batches)  # it stands there only where it is below
        is_fewest = batches == bound == due.fewest
        is_near = is_always and "1" in limit and bound + 1 == batches and bound <= due.fewest <= batches
        return (batches, bound) if is_fewest or is_near else False
    stopped = [fault(f"search limit reached: at least {it} batches, {it + 1} would do") for it in (due.fewest - 1, due.fewest)]
    holds = "1" in limit and not is_always and (done.returncode, done.stdout) == (1, b"")
    return None if holds and done.stderr in stopped else False


def combinations(*lists):
    """One of each list, in each way."""
    return sampled(itertools.product(*lists))


def try_plan_options(tally, folder):
    """`plan` with each end, limit, `--always`, `--verify` and `--verbose`, and `report` of that plan at each rate."""
    for pages, (end, named), limit, always, verbose in combinations(ROUNDS, ENDS, LIMITS, ([], ["--always"]), VERBOSE):
        due, asked = Due(pages, named), " ".join([*end, *limit, *always, *verbose])
        (folder / "pages.csv").write_bytes(due.text)
        for verify in ([], ["--verify"]):
            planned = run(["plan", *end, "pages.csv", "tx.bin", *limit, "cert.bin", *always, *verify, *verbose], folder)
            of_plan = judged(due, planned, limit, bool(always))
            tally.check(f"plan {asked} {verify}", of_plan is not False, (due.text, due.fewest, planned))
            if of_plan:
                batches, bound = of_plan
                at_least = b"at least %d batches\n" % bound if bound < batches else b""
                told = b"pages %d\nbatches %d\n" % (len(pages), batches) + at_least + b"verified\n" * bool(verify)
                tally.check_done(f"plan {asked} {verify}: told", planned, 0, told)
                tally.check(f"plan {asked} {verify}: files", due.are_written(folder, batches, bound), (due.text, of_plan))
        for rate in RATES:
            done = run(["report", *always, "pages.csv", *limit, "--rate", rate, *end, *verbose], folder)
            answer = judged(due, done, limit, bool(always))
            holds = answer is not False and answer == of_plan
            tally.check(f"report {rate} {asked}", holds, (due.text, due.fewest, done, planned))
            if answer and holds:
                tally.check_done(f"report {rate} {asked}: told", done, 0, due.report(rate, batches) + at_least)


def try_open_options(tally, folder):
    """`open` with and without PAGES, `--always` and `--verbose`, and its plans with each end."""
    for pages, *words in combinations(ROUNDS, ([], ["pages.csv"]), ([], ["--always"]), VERBOSE):
        words = sum(words, [])
        text = Due(pages, "open").text
        (folder / "pages.csv").write_bytes(text)
        edits = [] if "pages.csv" in words else [b"add," + record for record in text.splitlines()[1:]]
        counted = [b"ok %d" % (place + 1) for place in range(len(edits))]
        for end in (b"", b",open", b",closed", b",idle"):
            due = Due(pages, end[1:].decode() or "open")
            done = run(["open", *words], folder, b"\n".join([*edits, b"plan,tx.bin,cert.bin" + end]) + b"\n")
            name = f"open {' '.join(words)}: plan{end.decode()}"
            tally.check_done(name, done, 0, b"\n".join([*counted, b"batches %d\n" % due.fewest]))
            tally.check(f"{name}: files", due.are_written(folder, due.fewest, due.fewest), text)


def try_input_options(tally, folder):
    for pages, verbose in combinations(ROUNDS, VERBOSE):
        due = Due(pages, "open")
        tally.check_done(f"no words {verbose}", run(verbose, folder, due.text), 0, b"pages %d\nbatches %d\n" % (len(pages), due.fewest))
