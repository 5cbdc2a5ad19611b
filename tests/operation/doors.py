"""Files that the program refuses to write beside its lines, and files that it puts in place of others."""

import itertools
import os
import shutil
import stat

from codewords import APART, HEADER
from tally import ANY, CANNOT_OPEN, CANNOT_WRITE, NAMED_TWICE, NO_OWNER, PLAN, PROGRAM
from tally import Text, as_nobody, call, fault, faulty, files_of, put, room_in, run

TONE, BAD = HEADER + b"8,tone0,\n", HEADER + b"8,tone9,\n"
OLD = (b"an older transmission", b"an older certificate")
OLD_FILES = dict(zip(PLAN[2:], OLD))
NOBODY = (65534, 65534)  # the user and the group of `as_nobody`
RENAMES = "rename,renameat,renameat2"


def fresh(folder, name):
    """A new folder with page files, an older transmission and an older certificate."""
    return room_in(folder, name, {"pages.csv": TONE, "apart.csv": APART, "bad.csv": BAD} | OLD_FILES)


def stand(room):
    return (room / "tx.bin").read_bytes(), (room / "cert.bin").read_bytes()


def names(room):
    return {path.name for path in room.iterdir()}


def shell(line, room, **more):
    """Runs a line of the shell, in which `pocsag` is the program."""
    script = f"pocsag() {{ '{PROGRAM}' \"$@\"; }}\n{line}"
    return call("bash", "-c", script, cwd=room, **more)


# What is refused since the lines or the fault would stand in a file that it names. All files stay as they are.
BEHIND = [
    "plan pages.csv o.bin c > o.bin",
    "plan pages.csv /dev/stdout c > o.bin",
    "plan pages.csv /dev/fd/1 c > o.bin",
    "plan pages.csv - /dev/stdout > o.bin",
    "plan pages.csv /dev/stdout - > o.bin",
    "plan pages.csv t o.bin > o.bin",
    "plan pages.csv - c > o.bin 2>&1",
    "plan pages.csv o.bin c --keep > o.bin",
    "plan pages.csv o.bin c --always --expect 1 > o.bin",
    "plan pages.csv ./o.bin c > o.bin",
    "plan pages.csv /dev/stdout c | cat",
    "plan pages.csv o.bin c 2> o.bin",
    "plan pages.csv t c >> pages.csv",
]


def try_streams(tally, folder):
    """The file or the pipe behind a standard stream, by any name."""
    room = fresh(folder, "streams")
    before = files_of(room)
    for line in BEHIND:
        (room / "o.bin").unlink(missing_ok=True)
        done = shell(f"set -o pipefail; pocsag {line}", room)
        left = files_of(room)
        written, told = left.pop("o.bin", b""), NAMED_TWICE if "2>" in line else b""
        tally.check_done(f"refused: {line}", done, 1, b"", b"" if told else NAMED_TWICE, written == told and left == before)
    done = shell("pocsag plan pages.csv o.bin c --verbose > o.bin", room)
    tally.check("a hint at -", done.stderr.startswith(NAMED_TWICE) and b"'-' in place of TX" in done.stderr, done)
    done = shell("printf 'add,8,tone0,\\nplan,/dev/stdout,c\\nplan,o.bin,c\\n' | pocsag open > o.bin", room)
    told = (room / "o.bin").read_bytes()
    tally.check("a line plan", told == b"ok 1\n" + 2 * b"refused: the same file is named twice\n" and "c" not in names(room), (done, told))
    for line in ("plan pages.csv /dev/null c > /dev/null 2>&1", "plan pages.csv - c > o.bin", "plan pages.csv t c > lines", "plan - t c < pages.csv"):
        tally.check_done(f"taken: {line}", shell(f"pocsag {line}", room), 0, ANY, ANY)


def another_user(folder):
    """The words that run the program as a user without rights in a folder of this one; none where we cannot."""
    return as_nobody(folder) and as_nobody(PROGRAM.parent)


def try_rights(tally, folder):
    """With `--keep` the new files have the owner, the group and the rights of the old ones, or the old ones stay."""
    room, user = fresh(folder, "rights"), another_user(folder)
    if not user:
        return
    for name in ("tx.bin", "cert.bin"):
        os.chown(room / name, *NOBODY)
        (room / name).chmod(0o640)
    done = run([*PLAN, "--keep"], room)
    found = [(it.st_uid, it.st_gid, stat.S_IMODE(it.st_mode)) for it in ((room / name).stat() for name in ("tx.bin", "cert.bin"))]
    holds = done.returncode == 0 and stand(room) != OLD and found == 2 * [(*NOBODY, 0o640)]
    tally.check("the owner, the group and the rights stay", holds, (done, found))
    for name in ("tx.bin", "cert.bin"):
        room = fresh(folder, f"another's {name}")
        os.chown(room, *NOBODY)
        for own in {"tx.bin", "cert.bin"} - {name}:
            os.chown(room / own, *NOBODY)
        before = names(room)
        done = run([*PLAN, "--keep", "--verbose"], room, before=user)
        note = f"{name}: {os.strerror(1)} (os error 1)\n".encode()
        told = Text(lambda err: err.startswith(NO_OWNER) and err.endswith(note))
        tally.check_done(f"another's {name} stays", done, 3, b"", told, stand(room) == OLD and names(room) == before)
    room = fresh(folder, "unread")
    for name in (".", "tx.bin", "cert.bin"):
        os.chown(room / name, *NOBODY)
    room.chmod(0o300)
    done = run([*PLAN, "--keep", "--verify"], room, before=user)
    room.chmod(0o700)
    tally.check_done("a folder that cannot be read", done, 3, b"", CANNOT_OPEN, stand(room) == OLD and not list(room.glob("*.new")))


def try_last_step(tally, folder):
    """Where the last step fails all old files stand, and nothing is told to be done. Ended at a renaming, it leaves those new that
    were renamed before: REST, WHY, CERT and TX, in this order."""
    room = fresh(folder, "a folder for TX")
    (room / "tx.bin").unlink()
    (room / "tx.bin").mkdir()
    before = names(room)
    done = run([*PLAN, "--keep", "--verify"], room)
    tally.check_done("TX is a folder", done, 3, b"", CANNOT_WRITE, names(room) == before and (room / "cert.bin").read_bytes() == OLD[1])
    places = ("rest.csv", "why.bin", "cert.bin", "tx.bin")
    front = ["plan", "apart.csv", "tx.bin", "cert.bin", "--at-most", "2", "--rest", "rest.csv", "--why", "why.bin", "--keep"]
    cases = [*itertools.product((RENAMES,), ("signal=KILL", "error=EPERM"), range(1, 5)), ("link,linkat", "error=EPERM", 1)]
    for has_old, (calls, what, number) in itertools.product((True, False), cases if shutil.which("strace") else ()):
        name, old = f"{what} at {calls[:6]} {number}, {has_old}", dict.fromkeys(places, OLD[0]) if has_old else {}
        room = room_in(folder, name, {"apart.csv": APART, **old})
        done = run(front, room, before=faulty(calls, f"{what}:when={number}"))
        found = {place: text for place, text in files_of(room).items() if place in places}
        new = [place in found and found[place] != OLD[0] for place in places]
        renamed = {"signal=KILL": number - 1, "error=EPERM": 0}[what] if calls == RENAMES else 4
        holds = new == [at < renamed for at in range(4)] and (done.returncode == 0) == (renamed == 4)
        if what == "error=EPERM":
            holds = holds and names(room) == {"apart.csv", *(places if renamed else old)}
            holds = holds and (renamed or (done.returncode, done.stderr) == (3, CANNOT_WRITE))
        tally.check(name, holds, (done, new, names(room)))


def try_file_size(tally, folder):
    """A limit on the size of files, under a signal that is ignored as OPERATION says."""
    room = fresh(folder, "file size")
    (room / "pages.csv").write_bytes(HEADER + b"".join(b"%d,numeric,12345\n" % k for k in range(2000)))
    done = shell("trap '' XFSZ; ulimit -f 1; pocsag plan pages.csv tx.bin cert.bin --always --keep", room)
    tally.check_done("a limit on the size of files", done, 3, ANY, CANNOT_WRITE, stand(room) == OLD)


# Page files with a misplaced quote, and how that is told.
MISPLACED = [
    (HEADER + b'8,alpha,"hello\n9,tone0,\n', "record 1: the quote in line 2 is not closed"),
    (HEADER + b'8,tone0,\n9,alpha,say "hi"\n', "record 2: the quote in line 3 stands inside a field that begins without one"),
    (HEADER + b'8,alpha,"hi" there\n', "record 1: text follows the closing quote in line 2"),
    (HEADER + b'8,alpha,"hello\n9,alpha,"world"\n', "record 1: text follows the closing quote in line 3"),
    (b'"' + TONE, "record 0: the quote in line 1 is not closed"),
    (HEADER + b'8,alpha,"a\nb"\n\n9,alpha,"c\n', "record 2: the quote in line 5 is not closed"),
    (HEADER.replace(b"\n", b"\r") + b'8,tone0,\r9,alpha,"x\r10,tone0,\r', "record 2: the quote in line 1 is not closed"),
    (HEADER.replace(b"\n", b"\r\n") + b'8,tone0,\r\n9,alpha,"x\r\n', "record 2: the quote in line 3 is not closed"),
    (HEADER + b'8,alpha,"a"""\n9,alpha,"b""\n', "record 2: the quote in line 3 is not closed"),
]
WELL_QUOTED = [
    TONE,
    HEADER + b'8,alpha,"say ""hi"", twice\nok"\n',
    b'\xef\xbb\xbf"address","kind","message"\n"8","tone0",""\n',
    HEADER + b'8,tone0,""\r\n\r\n9,alpha,"x"',
]
SWALLOWED = HEADER + b'8,tone0,\n9,alpha,"Pump 4\n16,tone0,\n24,tone0,\n'
REFUSED = [(["--strict"], *row) for row in MISPLACED]
REFUSED += [(["--expect", "4"], SWALLOWED, "pages 2, where 4 were expected"), (["--expect", "1"], BAD, "record 1: unknown kind")]
TAKEN = [*((["--strict"], file) for file in WELL_QUOTED), (["--expect", "2"], SWALLOWED)]


def try_demands(tally, folder):
    """`--strict` and `--expect` refuse a page file with a misplaced quote or with another number of pages, and leave empty files, or with
    `--keep` those that were there."""
    room = fresh(folder, "demands")
    plan, report = ["plan", "round.csv", "tx.bin", "cert.bin"], ["report", "round.csv", "--rate", "512"]
    for demand, file, why in REFUSED:
        (room / "round.csv").write_bytes(file)
        for words in (plan, [*plan, "--always"], [*plan, "--keep", "--always"], ["plan", "-", "-", "cert.bin"], report, []):
            put(room, OLD_FILES)
            done = run([*words, *demand], room, file)
            left = tuple(b"" if name in words and "--keep" not in words else data for name, data in zip(PLAN[2:], OLD))
            due = (1, b"", fault(why)) if words or demand == ["--strict"] else (2, b"", done.stderr)
            tally.check_done(f"{words} {demand}: {why}", done, *due, stand(room) == left and not list(room.glob("*.new")))
        done = run([*plan, "--verbose"], room)
        tally.check(f"--verbose names it: {why}", f": {why}\n".encode() in done.stderr or why.startswith(("record 0", "pages")), done)
    for demand, file in TAKEN:
        (room / "round.csv").write_bytes(file)
        for words in (plan, [*plan, "--keep", "--verify", "--always"], report, *([[]] if demand == ["--strict"] else [])):
            plain, done = run(words, room, file), run([*words, *demand], room, file)
            tally.check_done(f"taken {words} {demand} {file[21:40]}", done, 0, plain.stdout, b"", plain.returncode == 0)
    for words in (["--strict", *PLAN], ["decode", "tx.bin", "--strict"], ["--strict", "decode", "tx.bin"], [*PLAN, "--expect", "x"]):
        tally.check_usage(f"usage: {words}", run(words, room))
