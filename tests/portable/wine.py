"""Runs the program for Windows under Wine: beside the native program with the same words and files, and in cases of its host.

Texts, statuses and the bytes of all files are compared. The program is made over the proofs that stand; without the toolchain
it is that of release/. Where Wine, mingw or wabt is missing it says so.
"""

import itertools
import os
import pathlib
import random
import shutil
import subprocess
import time

import hosts
import packages
import version
from codewords import APART, HEADER
from hosts import ROUND, check_same, native
from tally import CANNOT_OPEN, CANNOT_WRITE, ENDS, LIBRARY, NAMED_TWICE, NO_OWNER, TOP
from tally import fault, files_of, own_disk, put
from workspace import module_at

program = module_at("program_tests", TOP / "tests/program/run.py")
windows = module_at("windows", TOP / "portable/windows.py")
TOOLS = {"wine": "wine", "wineserver": "wine", "wasm2c": "wabt", "wat2wasm": "wabt", windows.COMPILER: "gcc-mingw-w64-x86-64"}  # with Debian's packages
STREAMS = ("stdin", "stdout", "stderr")
PLANNED = (0, b"pages 6\nbatches 2\n", b"")  # what a plan of ROUND prints
# Names of several scripts, and with what shells and paths could take otherwise.
NAMES = ("Zürich.csv", "данные.csv", "頁.csv", "📟 page.csv", "a'b & c.csv", "%TEMP%.csv", "^!.csv", "-.csv")


class Windows:
    """Wine, in a folder and with a server of its own."""

    def __init__(self, room):
        (room / "wine").mkdir()
        hidden = {"WINEDEBUG": "-all", "WINEDLLOVERRIDES": "mscoree,mshtml="}
        self.system = {**os.environ, **hidden, "WINEPREFIX": str(room / "wine"), "LANG": "C.UTF-8"}
        subprocess.run(["wineserver", "-p"], env=self.system, check=True)
        # Services of Wine go on, and would hold a pipe open.
        quiet = dict.fromkeys(STREAMS, subprocess.DEVNULL)
        subprocess.run(["wine", "wineboot", "-i"], env=self.system, check=True, timeout=300, **quiet)
        self.exe = room / windows.PROGRAM
        self.exe.write_bytes(released() if LIBRARY else windows.program().read_bytes())

    def end(self):
        subprocess.run(["wineserver", "-k", "-w"], env=self.system, timeout=60)

    def start(self, words, folder, exe=None, **how):
        streams = dict.fromkeys(STREAMS, subprocess.PIPE) | how
        return subprocess.Popen(["wine", str(exe or self.exe), *words], cwd=folder, env=self.system, **streams)

    def run(self, words, folder, stdin=b"", **how):
        """What the program did. Where Wine itself failed, with a status and no word, which the program never does, it is tried once more."""
        found = ended(self.start(words, folder, **how), stdin)
        if found != (1, b"", b""):
            return found
        print(f"Wine did not run the program: {words}")
        return ended(self.start(words, folder, **how), stdin)


def released():
    name = f"pocsag-{version.VERSION}-windows-x86_64"
    return packages.read(f"{name}.zip", (TOP / f"release/{name}.zip").read_bytes())[f"{name}/{windows.PROGRAM}"].data


def ended(process, stdin=b""):
    """The status of a process, and what it wrote."""
    out, err = process.communicate(stdin, timeout=110)
    return process.returncode, out or b"", err or b""


def begin(folder, files):
    """Makes the folder anew, with these files, and a folder in it; gives it."""
    shutil.rmtree(folder, ignore_errors=True)
    (folder / "folder").mkdir(parents=True)
    return put(folder, files)


# Devices that Wine has from the system, and journals that are not written.
LINES = [
    "plan round.csv /dev/null a.cert",
    "plan /dev/null a.bin a.cert --verbose",
    "open --journal none/new",
    "open --journal old.journal --read-only",
]


def try_beside(tally, room, wine):
    """A sample of the cases of the native program's own tests."""
    files = hosts.first_files(room) | {"old.journal": b"add,8,tone0,\nadd,16,tone1,\n"}
    for words, stdin in hosts.commands(files, *LINES):
        check_same(tally, room, wine.run, files, words, stdin)


def try_rounds(tally, room, wine):
    """Some of the worked rounds, and of the page files that are refused."""
    words = ["plan", "pages.csv", "tx.bin", "cert.bin"]
    for name, end in itertools.islice(itertools.product(program.ROUNDS, ENDS), 0, None, 4):
        check_same(tally, room, wine.run, {"pages.csv": HEADER + program.ROUNDS[name][0]}, [*words, *ENDS[end], "--verify"])
    for name in list(program.REFUSED)[::3]:
        check_same(tally, room, wine.run, {"pages.csv": program.REFUSED[name][0] or b""}, [*words, "--verbose"])


def try_names(tally, room, wine):
    folder = begin(room / "names", dict.fromkeys(NAMES, ROUND))
    for name in NAMES:
        told = wine.run(["plan", "--keep", "--", name, f"{name}.bin", f"{name}.cert"], folder)
        tally.check(f"the name {name}", told == PLANNED and (folder / f"{name}.bin").is_file(), told)
        due = 3, b"", CANNOT_OPEN + fault(f"transmission no {name}: No such file or directory (os error 2)")
        tally.check_same(f"no file of the name {name}", wine.run(["decode", "--verbose", f"no {name}"], folder), due)
    told = wine.run(["open"], folder, "add,8,tone0,\nplan,Äther.bin,folder\\Äther.cert,open\n".encode())
    made = (folder / "Äther.bin").is_file() and (folder / "folder/Äther.cert").is_file()
    tally.check("names in lines", told == (0, b"ok 1\nbatches 1\n", b"") and made, told)
    told = wine.run(["plan", b"\xff.csv", "a.bin", "a.cert"], folder)
    tally.check("a name that is no UTF-8", told[0] in (2, 3) and not (folder / "a.bin").exists(), told)


def drive_path(path):
    """The path as Windows has it: Wine shows the whole system as its drive Z."""
    return "Z:" + str(path).replace("/", "\\")


def try_paths(tally, room, wine):
    """Words with `\\`, from the folder on and from the drive on, in a path of more than 260 characters too."""
    folder = begin(room / "paths", {})
    deep = pathlib.Path(*(["a folder of fifty characters, of which there are six"] * 6))
    (folder / deep).mkdir(parents=True)
    for place in (pathlib.Path("folder"), deep):
        for front in ("", f"{drive_path(folder)}\\", f"\\\\?\\{drive_path(folder)}\\"):
            (folder / place / "pages.csv").write_bytes(ROUND)
            words = [front + str(place / name).replace("/", "\\") for name in ("pages.csv", "tx.bin", "tx.cert")]
            told, left = wine.run(["plan", *words, "--keep"], folder), sorted(files_of(folder / place))
            tally.check(f"plan {words[1][:60]}", told == PLANNED and left == ["pages.csv", "tx.bin", "tx.cert"], (told, left))
            told = wine.run(["check", words[0], words[2].replace("\\", "/")], folder)
            tally.check(f"check {words[2][:60]}", told == (0, b"at least 2 batches\n", b""), told)
    told = wine.run(["plan", "folder\\pages.csv", "NUL", "folder\\a.cert"], folder)
    tally.check("the device NUL", told == PLANNED and not (folder / "NUL").exists(), told)
    words = ["plan", "folder/pages.csv", "folder\\Pages.CSV", "a.cert", "--verbose"]
    due = 1, b"", NAMED_TWICE + fault("page file folder/pages.csv and transmission folder/Pages.CSV are one file")
    tally.check_same("names that differ in case", wine.run(words, folder), due)


def try_journal(tally, room, wine):
    """There are no locks, so no journal is written, and none is made."""
    folder, why = begin(room / "journal", {}), "journal {}: Operation not supported (os error 95)".format
    native(["open", "--journal", "old"], folder, b"add,8,tone0,\n")
    before = files_of(folder)
    for name, told_why in itertools.product(("new", "old"), (False, True)):
        told = wine.run(["open", "--journal", name, *["--verbose"] * told_why], folder, b"add,16,tone0,\n")
        tally.check(f"the journal {name}, told why: {told_why}", told == (3, b"", CANNOT_OPEN + fault(why(name)) * told_why), told)
    tally.check("no journal is made or changed", before and files_of(folder) == before, files_of(folder))
    told = wine.run(["open", "--journal", "old", "--read-only"], folder)
    tally.check("a journal is listed", told == (0, HEADER + b"8,tone0,\n", b"pocsag: 1 edit read, 1 page\n"), told)


def try_kept(tally, room, wine):
    """`--keep` where the transmission cannot be replaced: another program has it open, or it is read-only."""
    folder = begin(room / "kept", {"round.csv": ROUND, "sent.cert": b"older"})
    words = ["plan", "round.csv", "sent.bin", "sent.cert", "--keep"]
    other = wine.start(["plan", "-", "sent.bin", "other.cert"], folder)  # which waits for its pages
    while not (folder / "other.cert").exists() and other.poll() is None:
        time.sleep(0.05)
    before, told = files_of(folder), wine.run([*words, "--verbose"], folder)
    due = CANNOT_WRITE + fault("transmission sent.bin: Permission denied (os error 13)")
    tally.check("a file that is open is not replaced", told == (3, b"", due), told)
    tally.check("both files are back", before.items() <= files_of(folder).items(), sorted(files_of(folder)))
    other.kill()
    other.communicate()
    for _ in range(100):  # Wine keeps each name of a file until nobody has it open.
        time.sleep(0.05)
        if files_of(folder) == before:
            break
    tally.check("nothing is left beside them", files_of(folder) == before, sorted(files_of(folder)))
    native(["plan", "round.csv", "a.bin", "a.cert"], folder)
    told = wine.run(words, folder)
    tally.check("a closed file is replaced", told == PLANNED and (folder / "sent.bin").read_bytes() == (folder / "a.bin").read_bytes(), told)
    (folder / "sent.bin").chmod(0o444)
    before, told = files_of(folder), wine.run(words, folder)
    tally.check("a read-only file", told == (3, b"", NO_OWNER) and files_of(folder) == before, (told, sorted(files_of(folder))))


def try_left(tally, room, wine):
    """What killed runs left keeps no later run from its files, in a folder with ten thousand names; and stays there."""
    left = {f"sent.bin.pocsag.{number}.{ending}": b"left" for number in (4242, 1 << 31) for ending in ("new", "old")}
    others = dict.fromkeys(["sent.bin.pocsag.lock", "sent.cert.pocsag.lock", *(f"name {k}" for k in range(10_000))], b"")
    folder = begin(room / "left", {"round.csv": ROUND, **left, **others})
    start = time.monotonic()
    told = wine.run(["plan", "round.csv", "sent.bin", "sent.cert", "--keep"], folder)
    tally.check("left-overs", told == PLANNED and time.monotonic() - start < 10, told)
    found = {name: data for name, data in files_of(folder).items() if ".pocsag." in name}
    tally.check("left-overs stay", found == left, sorted(found))


def try_killed(tally, room, wine):
    """A run with --keep that is killed leaves each file whole, and no new transmission beside an old certificate."""
    folder, source, due = begin(room / "killed", {"round.csv": ROUND, "apart.csv": APART}), random.Random(80), {}
    places = [folder / name for name in ("sent.bin", "sent.cert")]
    for name in ("round", "apart"):
        native(["plan", f"{name}.csv", "sent.bin", "sent.cert"], folder)
        due[name] = tuple(place.read_bytes() for place in places)
    old, new, seen = "apart", "round", set()
    for _ in range(30):
        process = wine.start(["plan", f"{new}.csv", "sent.bin", "sent.cert", "--keep"], folder)
        time.sleep(source.uniform(0.02, 0.3))
        process.kill()
        process.communicate()
        found = tuple(place.read_bytes() for place in places)
        tally.check("killed", found in (due[old], due[new], (due[old][0], due[new][1])), tuple(map(len, found)))
        seen.add(found == due[new])
        if found == due[new]:
            old, new = new, old
        else:
            for place, data in zip(places, due[old]):
                place.write_bytes(data)
    tally.check("some were killed before the end and some were not", seen == {True, False}, seen)


def try_full(tally, room, wine):
    """A file system without room, where one can be mounted."""
    records = (b"%d,alpha,%s\n" % (8 * k + 1, b"w" * 90) for k in range(2_000))
    folder = begin(room / "full", {"many.csv": HEADER + b"".join(records)})
    with own_disk(folder / "folder", "size=64k") as small:
        if not small:
            print("left out: a full file system, since none can be mounted here")
            return
        (small / "sent.bin").write_bytes(b"older")
        words = ["plan", "many.csv", "folder/sent.bin", "many.cert", "--always", "--verbose"]
        due = CANNOT_WRITE + fault("transmission folder/sent.bin: No space left on device (os error 28)")
        told = wine.run([*words, "--keep"], folder)
        tally.check("a full file system, kept", told == (3, b"", due) and files_of(small) == {"sent.bin": b"older"}, (told, sorted(files_of(small))))
        tally.check_same("a full file system", wine.run(words, folder), (3, b"", due))


def try_streams(tally, room, wine):
    folder, report = begin(room / "streams", {"round.csv": ROUND}), ["report", "round.csv", "--rate", "512"]
    process = wine.start(["open"], folder)
    for line, answers in ((b"add,8,tone0,\n", [b"ok 1\n"]), (b"list\r\n", [HEADER, b"8,tone0,\n", b"ok 1\n"]), (b"plan,a.bin,a.cert,open\n", [b"batches 1\n"])):
        process.stdin.write(line)
        process.stdin.flush()
        tally.check_same(f"each line is answered: {line}", [process.stdout.readline() for _ in answers], answers)
    tally.check("the end of a pipe", ended(process) == (0, b"", b""))
    read, write = os.pipe()
    os.close(read)
    tally.check_same("a pipe that nobody reads", wine.run(report, folder, stdout=write), (3, b"", CANNOT_WRITE))
    os.close(write)
    with open("/dev/full", "wb") as full:
        told = wine.run([*report, "--verbose"], folder, stdout=full)
        tally.check("a full device", told == (3, b"", CANNOT_WRITE + fault("standard output: No space left on device (os error 28)")), told)
        tally.check_same("a full device for faults", wine.run(["plan", "none.csv", "a.bin", "a.cert"], folder, stderr=full), (3, b"", b""))
    for stream, words, due in ((0, [], CANNOT_OPEN), (1, report, CANNOT_WRITE), (2, ["plan", "none.csv", "a.bin", "a.cert"], b"")):
        told = wine.run(words, folder, preexec_fn=lambda stream=stream: os.close(stream))
        tally.check(f"closed stream {stream}", told == (3, b"", due), told)


def try_shell(tally, room, wine):
    """The redirections of `cmd`, and words that name the file behind a stream."""
    folder = begin(room / "shell", {"round.csv": ROUND, "crlf.csv": ROUND.replace(b"\n", b"\r\n")})
    native(["plan", "round.csv", "due.bin", "due.cert"], folder)
    due = (folder / "due.bin").read_bytes()

    def shell(line):
        return ended(wine.start(["/c", line.replace("pocsag", f"..\\{windows.PROGRAM}")], folder, exe="cmd"))

    told = shell("pocsag plan - - a.cert < crlf.csv > a.bin 2> told.txt")
    tally.check("from a file into a file", told[0] == 0 and (folder / "a.bin").read_bytes() == due, told)
    tally.check("lines in a file", (folder / "told.txt").read_bytes() == PLANNED[1], (folder / "told.txt").read_bytes())
    shell("type round.csv | pocsag > piped.txt")
    tally.check("from a pipe", (folder / "piped.txt").read_bytes() == PLANNED[1], files_of(folder).get("piped.txt"))
    for line in ("plan round.csv a.bin b.cert > a.bin 2> why", "plan round.csv b.bin a.bin < a.bin 2> why", "plan round.csv - b.cert > why 2>&1"):
        (folder / "a.bin").write_bytes(due)
        told = shell(f"pocsag {line}")
        tally.check(f"one file twice: {line}", told[0] == 1 and (folder / "why").read_bytes() == NAMED_TWICE, (told, (folder / "why").read_bytes()))
    told = shell("pocsag report round.csv --rate 512 > NUL & pocsag < NUL")
    tally.check("the device NUL as a stream", told == (1, b"", fault("the header must be address,kind,message")), told)


def try_traps(tally, room, wine):
    """A module that reads behind its memory, or calls without end, in place of the program's. Made twice, it has the same bytes."""
    made = []
    for folder in (room / "traps", room / "a folder of another name"):
        begin(folder, {"pocsag.wat": pathlib.Path(__file__).with_name("traps.wat").read_bytes()})
        subprocess.run(["wat2wasm", "pocsag.wat", "-o", "pocsag.wasm"], check=True, cwd=folder)
        subprocess.run(["wasm2c", "-n", "pocsag", "pocsag.wasm", "-o", "pocsag.c"], check=True, cwd=folder)
        (folder / "pocsag.c").write_text((folder / "pocsag.c").read_text().replace(windows.make.ALLOCA, ""))
        windows.compile_in(folder, {path.name: path.read_bytes() for path in (*folder.glob("*.[ch]"), *windows.make.RUNTIME.iterdir())})
        made.append((folder / windows.PROGRAM).read_bytes())
    tally.check("the same bytes in two folders", made[0] == made[1])
    for stdin, why in ((b"1", "Out-of-bounds access in linear memory or a table"), (b"2", "Call stack exhausted")):
        tally.check_same(f"trap {why}", ended(wine.start([], folder, exe=windows.PROGRAM), stdin), (3, b"", fault(why)))


def try_all(tally, room):
    missing = [it for it in TOOLS if not shutil.which(it)]
    if missing:
        packages_of = " ".join(dict.fromkeys(TOOLS[it] for it in missing))
        return tally.skip(f"missing in PATH: {' '.join(missing)}; on Debian: apt-get install {packages_of}")
    wine = Windows(room)
    try:
        for part in (try_beside, try_rounds, try_names, try_paths, try_journal, try_kept, try_left, try_killed, try_full, try_streams,
                     try_shell, try_traps):  # fmt: skip
            part(tally, room, wine)
    finally:
        wine.end()
