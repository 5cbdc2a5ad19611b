"""The commands of hosts.txt, which each host of the program carries out as the native program does, and their files."""

import random
import shlex
import shutil

from codewords import APART, HEADER, random_file
from tally import TOP, files_of, room_in, run, said

ROUND = (TOP / "examples/round.csv").read_bytes()
TONES = HEADER + b"".join(b"%d,tone0,\n" % (8 * k) for k in range(1, 8))
# What stands behind `<` is standard input: a file of these, or lines.
LINES = (TOP / "tests/hosts.txt").read_text().splitlines()
EDITS = b'add,8,tone0,\nadd,11,alpha,"Pump 4, hall ""B"""\r\nadd,8,tone0,\nlist\nplan,a.bin,a.cert\n'
EDITS += b"plan,a.bin,a.cert,closed,1\nlist\nsent,1\nclear\nplan,x\nlist"


def air(first, second):
    """A capture: noise, and two transmissions at bits that begin no byte, the second in the other polarity."""
    bits = "".join(f"{byte:08b}" for byte in b"\x35\x9d\xc1" + first + b"\x17")[3:]
    bits += "".join(f"{byte ^ 255:08b}" for byte in second) + "011"
    bits += "0" * (-len(bits) % 8)
    return int(bits, 2).to_bytes(len(bits) // 8, "big")


def native(words, folder, stdin=b""):
    return said(run(words, folder, stdin))


def first_files(room):
    """The files that the commands name, of which the native program makes some in a new folder."""
    mixed = HEADER + b'8,alpha,"a ""b"", c"\r\n16,numeric,12-[ U]*\n24,tone3,\n2007663,alpha,\x01~\x7f\n'
    pages = {"round.csv": ROUND, "apart.csv": APART, "tones.csv": TONES, "bad.csv": HEADER + b"1,tone0,\n2,tone9,\n", "mixed.csv": mixed}
    pages |= {"twice.csv": TONES + b'8,alpha,"a, ""b"""\r\n16,numeric,[12-34]\r\n', "cut.csv": APART[:-1]}
    pages |= {"crlf.csv": ROUND.replace(b"\n", b"\r\n"), "many.csv": random_file(random.Random(64), 300)}
    folder = room_in(room, "first", pages)
    for name in ("round", "apart", "mixed"):
        run(["plan", f"{name}.csv", f"{name}.bin", f"{name}.cert"], folder)
    files = files_of(folder)
    sent = files["mixed.bin"]
    files |= {"worn.bin": sent[:80] + bytes([sent[80] ^ 0x90]) + sent[81:], "cut.bin": sent[:-1], "air.bin": air(files["round.bin"], sent)}
    older = {"old.bin": b"older" * 99, "old.cert": b"older", "rest.csv": b"old rest", "ward/other.csv": TONES}
    return files | older | {"zeros": b"\0" * 5000, "edits": EDITS}


def commands(files, *more):
    """The words of each of the commands, and of more lines, and their standard input."""
    for line in [*LINES, *more]:
        words, _, stdin = (part.strip() for part in line.partition("<"))
        yield shlex.split(words), files.get(stdin, stdin.replace("\\n", "\n").encode())


def check_same(tally, room, other, files, words, stdin=b""):
    """Whether another host does what the native program does, each in a folder with the same files."""
    found = []
    for name, host in (("native", native), ("other", other)):
        shutil.rmtree(room / name, ignore_errors=True)
        folder = room_in(room, name, files)
        found.append((host(words, folder, stdin), files_of(folder)))
    (due, wanted), (told, left) = found
    wrong = [name for name in left.keys() | wanted.keys() if left.get(name) != wanted.get(name)]
    tally.check(f"as the native program: {words} {stdin[:40]}", told == due and not wrong, str((told, due, wrong))[:2000])
