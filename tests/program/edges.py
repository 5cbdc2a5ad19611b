"""The program at the edges of its numbers: places by the thousand, the largest files, the default limit of nodes."""

from codewords import HEADER, IDLE, LARGEST, ONES, PREAMBLE, SYNC, TONE
from tally import ANY, IS_EMULATED, PLAN, TOO_LARGE, Text, fault, run
from worked import shaped

SHOWN = b"batch,frame,slot,codewords,address,kind,message\n1,0,0,1,8,tone0,\n"


def run_on(path):
    """A run without words, on a page file."""
    with open(path, "rb") as pages:
        return run([], stdin=pages)


def try_places_of_faults(tally, folder):
    """Batches and codewords above 255 and above 65,535 in the texts of faults."""
    batch = SYNC + 16 * IDLE
    for last, why in (
        (b"\0" + batch[1:], "batch 5000: no synchronisation codeword"),
        (batch[:12] + b"\1" + batch[13:], "codeword 80002: not a codeword"),
        (batch[:12] + ONES + batch[16:], "codeword 80002: a message without an address"),
    ):
        (folder / "tx.bin").write_bytes(PREAMBLE + 5000 * batch + last)
        for words in (["decode", "tx.bin"], ["show", "tx.bin"]):
            tally.check_done(f"{words[0]}: {why}", run(words, folder), 1, b"", fault(why))


def write_padded(path, size, front, byte, back):
    """A file of so many bytes: a front, one byte again and again, and a back."""
    with open(path, "wb") as file:
        file.write(front)
        left = size - len(front) - len(back)
        while left > 0:
            left -= file.write(byte * min(left, 1 << 24))
        file.write(back)


def try_largest_files(tally, folder):
    """A page file and a transmission of as many bytes as may be, and of one more."""
    path, listing = folder / "largest", HEADER + b"8,tone0,\n"
    plan = ["plan", "largest", "tx.bin", "cert.bin"]
    for size in () if IS_EMULATED else (LARGEST, LARGEST + 1):
        due_of = lambda told: (0, told) if size == LARGEST else (1, b"", TOO_LARGE)
        write_padded(path, size, b"", b"\xaa", SYNC + TONE + 15 * IDLE)
        for words, told in ((["decode", "largest"], listing), (["hear", "8", "largest"], listing), (["show", "--list", "largest"], SHOWN)):
            tally.check_done(f"{words[0]} of {size} bytes", run(words, folder), *due_of(told))
        write_padded(path, size, HEADER, b"\n", b"8,tone0,\n")
        tally.check_done(f"plan of {size} bytes", run(plan, folder), *due_of(b"pages 1\nbatches 1\n"))
        tally.check_done(f"no words, {size} bytes", run_on(path), *due_of(b"pages 1\nbatches 1\n"))
        path.unlink()


# Rounds whose trees have a little less than 100,000 nodes and a little more: the frame and the codewords of each page,
# the nodes, and the fewest batches, all with the open end. None is known that takes 100,000 just.
NEAR_THE_LIMIT = [
    ([(0, 15), (7, 9), (4, 6), (2, 31), (0, 31), (3, 31), (1, 15), (7, 30), (5, 15), (2, 1), (7, 4), (1, 12)], 99_698, 14),
    ([(5, 15), (7, 26), (2, 31), (6, 31), (1, 15), (4, 14), (4, 21), (0, 31), (0, 30), (5, 14), (4, 2)], 100_009, 16),
]


def try_default_limit(tally, folder):
    """A round is refused where it takes more nodes than the limit by one, and answered where it takes no more; where no
    limit is named it is 100,000."""
    for shape, nodes, batches in () if IS_EMULATED else NEAR_THE_LIMIT:
        records, is_default = shaped(shape), nodes <= 100_000
        (folder / "pages.csv").write_bytes(HEADER + b"".join(records))
        told, stopped = b"pages %d\nbatches %d\n" % (len(shape), batches), f"search limit reached: at least {batches - 1} batches, {batches} would do"
        due = {True: (0, told, b""), False: (1, b"", fault(stopped))}
        limits = ([], is_default), (["--limit", str(nodes)], True), (["--limit", str(nodes - 1)], False)
        for words in (PLAN, ["report", "pages.csv", "--rate", "512"]):
            for limit, is_done in limits:
                done = run([*words, *limit], folder)
                status, printed, why = due[is_done]
                tally.check_done(f"{nodes} nodes: {words[0]} {limit}", done, status, ANY if words[0] == "report" else printed, why)
        tally.check_done(f"{nodes} nodes: no words", run_on(folder / "pages.csv"), *due[is_default])
        done = run(["open"], folder, b"".join(b"add," + record for record in records) + b"plan,tx.bin,cert.bin\n")
        answer = f"\nbatches {batches}\n" if is_default else f"\nrefused: {stopped}\n"
        tally.check_done(f"{nodes} nodes: open", done, 0, Text(lambda out: out.endswith(answer.encode())), ANY)
