"""Keeps an open round in a journal through kills, cuts, refused calls, a full disk, a full file system, and others who move
it or write to it; lists it without holding it; and reads what `--verbose` tells of it.

Each start must list what the edits that were answered `ok` leave, or these and one more.
"""

import itertools
import os
import random
import re
import resource
import shutil
import subprocess
import time

import sessions
import tally as shared
from codewords import HEADER
from sessions import listing
from tally import ANY, CANNOT_OPEN, CANNOT_WRITE, IS_EMULATED, NO_OWNER, ONE_IN, PROGRAM, as_nobody, fault, faulty
from tally import files_of, own_disk, put, room_in, sampled, with_most_bytes

FIRST_LINE = b"pocsag journal,1\n"
EDITS, KILLS, TURNS = (500, 30, 2_000) if IS_EMULATED else (5_000, 300, 20_000)
SEED = 20261123
LEAST = 1 << 20  # the least size at which a journal is written anew
NAME = "round.journal"
OPEN = ["open", "--journal", NAME]
THREE_EDITS = FIRST_LINE + b"add,8,tone0,\nadd,16,tone0,\ncancel,8\n"


def after(pages, line):
    """The pages after an edit; nothing where it is refused."""
    if line.startswith(b"plan"):
        # The pages are tones of one frame: each batch carries two.
        return pages[2 * int(line.rsplit(b",")[-1]) :] if pages else None
    answer, left = sessions.edited(pages, line)
    return None if answer.startswith(b"refused") else left


def all_after(lines):
    pages = []
    for line in lines:
        pages = after(pages, line)
    return pages


def in_lines(lines):
    return b"".join(line + b"\n" for line in lines)


def random_edit(chooser, pages):
    """An edit, which is refused now and then."""
    draw = chooser.random()
    if draw < 0.02:
        return b"clear"
    if draw < 0.4 and pages:
        return b"cancel,%d" % chooser.choice(pages)[0]
    kind = chooser.choice((b"tone0,", b"numeric,555-1234", b'alpha,"Bed 2, ""now"""', b"alpha,Ward 3"))
    return b"add,%d,%s" % (chooser.randrange(400), kind)


def start(folder, *words):
    return sessions.Session(folder, *OPEN[1:], *words)


def run(folder, lines, *words, **more):
    """A run that is sent all lines at once."""
    return shared.run([*OPEN, *words], folder, in_lines(lines), **more)


def count(number, word):
    """So many of them, as `1 page` and `2 pages`."""
    return b"%d %s%s" % (number, word, b"" if number == 1 else b"s")


def read_line(edits, pages):
    """What a start tells of the journal that it read."""
    return b"pocsag: %s read, %s\n" % (count(edits, b"edit"), count(pages, b"page"))


def torn_line(torn, fate):
    """What it tells of a torn line."""
    return b"pocsag: a torn line of %s is %s\n" % (count(torn, b"byte"), fate)


def is_done(answer):
    return answer.startswith((b"ok ", b"batches "))


def random_tone(chooser, pages):
    """A page of frame 5, or a plan of so many batches that takes its pages out."""
    if chooser.random() < 0.3:
        return b"plan,t,c,open,%d" % chooser.randrange(1, 4)
    return b"add,%d,tone0," % (8 * chooser.randrange(400) + 5)


def listed(folder):
    return sessions.listed(folder, NAME)


def check_listed(tally, name, folder, pages, told):
    """Whether a start lists these pages and tells this."""
    tally.check_same(name, listed(folder), (listing(pages), told))


def one_life(session, chooser, pages, count, edit_of):
    """Sends edits one by one, and then a few without waiting, and kills it; gives the edits that were sent in their
    order, as far as they are accepted, and how many of them were answered ok."""
    sent, burst, answered = [], [], 0
    for number in range(count + chooser.randrange(4)):
        line = edit_of(chooser, pages)
        later = after(pages, line)
        if number < count:
            answer = session.ask(line)
            if answer is None or (later is not None) != is_done(answer):
                return None
            answered += later is not None
        else:
            burst.append(line)
        if later is not None:
            pages = later
            sent.append(line)
    session.send(in_lines(burst))
    time.sleep(chooser.random() * 0.004)
    told = session.kill()
    answered += sum(is_done(answer) for answer in told.splitlines(True) if answer.endswith(b"\n"))
    return sent, answered


def try_kills(tally, folder):
    """Random edits, killed at random moments and started again each time; the same where pages are sent slot by slot."""
    for edit_of, kills, edits_due in ((random_edit, KILLS, EDITS), (random_tone, KILLS // 3, EDITS // 5)):
        place, chooser, pages, edits = room_in(folder, edit_of.__name__), random.Random(SEED), [], 0
        for life in range(kills):
            done = one_life(start(place), chooser, pages, edits_due // kills + 1, edit_of)
            if done is None:
                tally.check(f"kill {life}: an answer", False)
                return
            sent, answered = done
            edits += answered
            found, err = listed(place)
            kept = pages
            for line in sent[:answered]:
                kept = after(kept, line)
            more = after(kept, sent[answered]) if answered < len(sent) else kept
            tally.check(f"kill {life}", found in (listing(kept), listing(more)), (found, err))
            pages = kept if found == listing(kept) else more
        tally.check("kills: edits in all", edits >= edits_due, edits)


SAMPLE = [
    b"add,5,alpha,Ward 3", b"add,13,tone0,", b'add,21,alpha,"Bed 2, ""now"""', b"cancel,13", b"add,29,numeric,555-1234", b"clear",
    b"add,37,alpha,Fire", b"add,45,tone3,", b"sent,1",
]  # fmt: skip


def try_cuts(tally, place):
    """A journal cut at every byte: the edits whose lines are whole are there."""
    path, text = place / NAME, FIRST_LINE + in_lines(SAMPLE)
    for length in sampled(range(len(text) + 1)):
        path.write_bytes(text[:length])
        whole = text[:length].count(b"\n")
        torn = length - (text[:length].rfind(b"\n") + 1)
        pages = all_after(SAMPLE[: max(0, whole - 1)])
        told = torn_line(torn, b"cut off") if torn else b""
        check_listed(tally, f"cut at {length}", place, pages, told + read_line(max(0, whole - 1), len(pages)))
        anew = FIRST_LINE + b"".join(b"add,%d,%s\n" % page for page in pages)
        tally.check(f"cut at {length}, written anew", path.read_bytes() == anew, path.read_bytes())


SECTOR = 512


def try_lost_sectors(tally, place):
    """Of a last line of 4,000 letters, and of the last lines of many, each sector in turn was not written. The start reads the lines
    before it, where nothing stands behind it, or refuses the first line that is lost, and leaves the journal as it is."""
    short = [b"add,%d,alpha,Ward %d" % (8 * number, number) for number in range(300)]
    for lines, lost in ((short, 0), ([*short[:40], b"add,2400,alpha,%s" % (b"w" * 4000)], 40)):
        text = FIRST_LINE + in_lines(lines)
        begin = len(FIRST_LINE + in_lines(lines[:lost]))
        for sector in range((len(text) - 1) // SECTOR + 1)[-9:]:
            low, high = max(begin, sector * SECTOR), min(len(text), (sector + 1) * SECTOR)
            held = text[:low] + bytes(high - low) + text[high:]
            (place / NAME).write_bytes(held)
            whole, name = text[:low].count(b"\n"), f"sector {sector} of {len(lines)} lines lost"
            if high == len(text):
                told = torn_line(len(text) - text[:low].rfind(b"\n") - 1, b"cut off") + read_line(whole - 1, whole - 1)
                check_listed(tally, name, place, all_after(lines[: whole - 1]), told)
            else:
                tally.check_done(name, run(place, [b"list"]), 1, b"", fault(BAD % (whole + 1)), (place / NAME).read_bytes() == held)


def traced(folder, words, lines):
    """A run, the calls by which it brings files to the disk and renames them, in order, and whether it opens the journal to append."""
    place = folder / "calls"
    strace = ["strace", "-f", "-o", str(place), "-e", "trace=fsync,fdatasync,rename,renameat,renameat2,openat"]
    done, text = shared.run(words, folder, lines, before=strace), place.read_text()
    place.unlink()
    calls = re.findall(r"^\d+ +(fsync|fdatasync|rename)", text, re.MULTILINE)
    return done, calls, re.search(rf'"(?:[^"]*/)?{NAME}", [A-Z_|]*O_APPEND', text)


def try_synchronised(tally, place):
    """What is renamed into its place was brought to the disk before, and its name after; an edit is before its answer."""
    if not shutil.which("strace"):
        print("left out: the calls that synchronise, since there is no strace")
        return
    both = ["fsync", "fsync", "rename", "fsync", "rename", "fsync"]  # the folder behind each renaming
    anew, keep = ["fsync", "rename", "fsync"], [*OPEN, "--keep"]
    for words, lines, told, due in (
        (OPEN, b"add,8,tone0,\nadd,8,tone0,\nadd,16,tone0,\n", b"ok 2\n", anew + ["fdatasync"] * 2),
        (keep, b"plan,t,c\n", b"batches 1\n", anew + both),
        (keep, b"plan,t,c,open,1\n", b"batches 1, sent 2\n", anew + both + ["fdatasync"]),
    ):
        done, calls, is_to_append = traced(place, words, lines)
        holds = done.returncode == 0 and done.stdout.endswith(told) and calls == due
        tally.check(f"synchronised: {lines}", holds and is_to_append, (done, calls, is_to_append))
    kept = (place / NAME).read_bytes()
    tally.check("synchronised: a slot is kept", kept.endswith(b"\nsent,2\n"), kept)


BAD_LINES = [
    b"list\n", b"add,5,alpha,\n", b'add,99,alpha,"x"\n', b"cancel,99\n", b"plan,a,b\n", b"plan,a,b,open,1\n", b"sent,9\n", b"sent,01\n", b"\n",
    b"add,099999999,tone0,\n", b"pocsag journal,2\n", b"add,5,alpha,Ward 3\r\n",
]  # fmt: skip


def try_bad_lines(tally, place):
    """A line that is no edit, or none that is accepted, is told by its number, and the file stays as it is."""
    path = place / NAME
    good = [FIRST_LINE] + [line + b"\n" for line in SAMPLE]
    for number in range(len(good)):
        for line in sampled(BAD_LINES):
            text = b"".join(good[:number] + [line] + good[number + 1 :])
            path.write_bytes(text)
            due = BAD % (number + 1)
            if number == 0:
                due = OTHER_VERSION if line.startswith(b"pocsag journal,") else NO_JOURNAL
            tally.check_done(f"bad line {number + 1} {line}", run(place, [b"list"]), 1, b"", fault(due))
            tally.check(f"bad line {number + 1} {line}: the file", path.read_bytes() == text)


NO_JOURNAL = "not a journal"
OTHER_VERSION = "a journal of another version"
# As a certificate begins, without a line feed.
CERTIFICATE = b"PCB2\x00\x00\x00\x00\x01\x00\x00"
OTHERS = [(text, NO_JOURNAL) for text in (
    b"hello world", b"hello\nworld\n", CERTIFICATE, b"\x00", b"x" * 8_000_000, b"pocsag journal;1", b"pocsag journals", b"Pocsag", b"\n",
)]  # fmt: skip
OTHERS += [(b"pocsag journal," + text, OTHER_VERSION) for text in (b"2", b"12", b"2\n", b"2\nadd,8,tone0,\n")]


def try_others(tally, place):
    """A file that is no journal, or one of another version, is refused and stays as it is, with a line feed and without."""
    path = place / NAME
    for text, due in OTHERS:
        for words in ([], ["--read-only"]):
            path.write_bytes(text)
            stood = path.stat()
            tally.check_done(f"another file {text[:20]} {words}", run(place, [b"list"], *words), 1, b"", fault(due))
            stands = path.stat()
            same = (stands.st_ino, stands.st_mtime_ns) == (stood.st_ino, stood.st_mtime_ns) and path.read_bytes() == text
            tally.check(f"another file {text[:20]} {words}: it stays", same and os.listdir(place) == [NAME], os.listdir(place))


MOVED = "the journal was moved, deleted or changed by another program"


def move(path):
    path.rename(path.with_name("moved"))


def append(path, text=b"add,80,tone0,\n"):
    with path.open("ab") as file:
        file.write(text)


HARMS = [
    move,
    lambda path: (move(path), path.write_bytes(FIRST_LINE)),
    append,
    lambda path: path.unlink(),
    lambda path: os.truncate(path, 0),
    lambda path: os.truncate(path, len(FIRST_LINE) + 3),
    lambda path: path.write_bytes(b""),
]


def try_harms(tally, folder):
    """A journal that another program moves, deletes, cuts or writes to while it is held gives no `ok` any more, and what
    stands there stays as it was left."""
    for number, harm in enumerate(HARMS):
        for more in ([], ["--verbose"]):
            place = room_in(folder, f"harm{number}{len(more)}")
            session = start(place, *more)
            tally.check(f"harm {number}: before", session.ask(b"add,8,tone0,") == b"ok 1")
            harm(place / NAME)
            left = files_of(place)
            due = read_line(0, 0) + told(MOVED, [f"journal {NAME}"] if more else [])
            tally.check_same(f"harm {number} {more}", session.close(b"add,16,tone0,\nadd,24,tone0,\n"), (3, b"", due))
            tally.check(f"harm {number} {more}: the files", files_of(place) == left, left)


NOBODY = 65534


def rights(path):
    found = path.stat()
    return found.st_uid, found.st_gid, found.st_mode & 0o7777


def told(text, notes):
    return b"".join(map(fault, [text, *notes]))


def with_notes(*notes):
    """No more words, of which no notes are told, and `--verbose`, of which these are."""
    return ([], []), (["--verbose"], notes)


def try_rights(tally, place):
    """A journal that is written anew keeps its owner, group and mode; where the system refuses that, it stays as it is."""
    path, user = place / NAME, as_nobody(place)
    for owner, mode in itertools.product([(os.geteuid(), os.getegid()), *[(NOBODY, NOBODY)] * bool(user)], (0o600, 0o640, 0o664)):
        path.write_bytes(THREE_EDITS)
        os.chown(path, *owner)
        path.chmod(mode)
        number = path.stat().st_ino
        found, err = listed(place)
        holds = found == HEADER + b"16,tone0,\n" and rights(path) == (*owner, mode) and path.stat().st_ino != number
        tally.check(f"rights of {owner} {mode:o}", holds, (found, err, rights(path)))
        if NOBODY in owner:
            place.chmod(0o777)
            done = run(place, [b"add,24,tone0,"], before=user)
            tally.check(f"rights of another user {mode:o}: the user goes on", (done.stdout, done.returncode) == (b"ok 2\n", 0), done)
            place.chmod(0o755)
    if not user:
        print("left out: journals of another user, since we are not the superuser")
        return
    path.unlink()
    path.write_bytes(FIRST_LINE + b"add,8,tone0,\n")
    path.chmod(0o666)
    place.chmod(0o777)
    stood, number = rights(path), path.stat().st_ino
    for more, notes in with_notes(f"journal {NAME}: {os.strerror(1)} (os error 1)"):
        done = run(place, [b"list"], *more, before=user)
        tally.check_done(f"rights that are refused {more}", done, 3, b"", NO_OWNER + b"".join(map(fault, notes)))
        holds = (rights(path), path.stat().st_ino) == (stood, number) and path.read_bytes() == FIRST_LINE + b"add,8,tone0,\n"
        tally.check(f"rights that are refused {more}: it stays", holds and os.listdir(place) == [NAME], os.listdir(place))


def try_failed_look(tally, place):
    """Where one look of the system at a file fails while the journal is written anew, its mode does not change."""
    if not shutil.which("strace"):
        return
    path, looks = place / NAME, "?statx,?newfstatat,?fstat"  # the program as C looks by others of these calls
    for number in range(1, 100, 1 + ONE_IN // 20):  # an emulator of processors looks at many files of its own
        path.write_bytes(THREE_EDITS)
        path.chmod(0o640)
        done = run(place, [b"add,24,tone0,"], before=faulty(looks, f"error=EIO:when={number}", "trace"))
        tally.check(f"the mode where look {number} fails", rights(path)[2] == 0o640, (done, rights(path)))
        due = HEADER + b"16,tone0,\n" + (b"24,tone0,\n" if b"ok" in done.stdout else b"")
        found = run(place, [], "--read-only").stdout
        tally.check(f"the pages where look {number} fails", found in (due, due + b"24,tone0,\n"), (done, found))
        if "INJECTED" not in (place / "trace").read_text():
            break
    tally.check("looks failed", 4 < number < 99, number)


def try_no_locks(tally, folder):
    """A file system without locks: the journal is refused, and nothing that was made for it is left."""
    if not shutil.which("strace"):
        return
    for call, errors in (("flock", ("ENOLCK", "EOPNOTSUPP", "ENOSYS", "EIO")), ("fcntl", ("EMFILE",)), ("statx", ("EIO",))):
        texts, numbers = (None, FIRST_LINE, FIRST_LINE + b"add,8,tone0,\n", b""), range(1, 9) if call == "statx" else ["1+"]
        for error, text, number in itertools.product(errors, texts, numbers):
            place = room_in(folder, f"{error} {text} {number}", {"pages.csv": HEADER + b"8,tone0,\n"})
            path = place / NAME
            if text is not None:
                path.write_bytes(text)
            before = path.stat().st_ino if text is not None else None
            trace = faulty(call, f"error={error}:when={number}", folder / "trace")
            done = shared.run(["open", *([] if text else ["pages.csv"]), "--journal", NAME], place, b"list\n", before=trace)
            if call == "flock":
                tally.check_done(f"{call} {error} {text}", done, 3, b"", CANNOT_OPEN)
            if done.returncode:
                stays = path.exists() and (path.stat().st_ino, path.read_bytes()) == (before, text) if text is not None else not path.exists()
                holds = stays and set(os.listdir(place)) <= {"pages.csv", path.name}
                tally.check(f"{call} {error} {number} {text}: nothing is left", holds, (done, os.listdir(place)))


def try_read_only(tally, place):
    """`--read-only` lists a journal that another program holds, one with a torn line, and one that may only be read; it
    changes nothing, and reads no line."""
    place.chmod(0o755)
    path, read_only = place / NAME, [*OPEN, "--read-only"]
    session = start(place)
    for number, line in enumerate((b"add,8,alpha,Ward 3", b"add,16,tone0,")):
        tally.check(f"read only: {line}", session.ask(line) == b"ok %d" % (number + 1))
    done = run(place, [b"clear"], "--read-only")
    tally.check_done("read only: a journal that is held", done, 0, HEADER + b"8,alpha,Ward 3\n16,tone0,\n", read_line(2, 2))
    tally.check("read only: the other goes on", session.ask(b"cancel,8") == b"ok 1")
    session.kill()
    append(path, b"add,24,al")
    user = as_nobody(place)
    if user:
        path.chmod(0o444)
    stood = path.stat()
    for words in [[], user] if user else [[]]:
        done, stands = run(place, [], "--read-only", before=words), path.stat()
        same = (stands.st_ino, stands.st_mtime_ns, stands.st_size) == (stood.st_ino, stood.st_mtime_ns, stood.st_size)
        due = torn_line(9, b"passed over") + read_line(3, 1)
        tally.check_done(f"read only: a torn line {words[:1]}", done, 0, HEADER + b"16,tone0,\n", due, same)
    line = f"{PROGRAM} {' '.join(read_only)} 2>/dev/null | {PROGRAM}"
    planned = subprocess.run(line, shell=True, capture_output=True, cwd=place, timeout=60)
    tally.check("read only: as a page file", planned.stdout == b"pages 1\nbatches 1\n", planned)
    path.write_bytes(FIRST_LINE + b"add,8,tone0,\nlist\n")
    tally.check_done("read only: a bad line", run(place, [], "--read-only"), 1, b"", fault(BAD % 3))
    path.unlink()
    for more, notes in with_notes(f"journal {NAME}: {NO_FILE}"):
        done = run(place, [], "--read-only", *more)
        tally.check_done(f"read only: no file {more}", done, 3, b"", told(CANNOT, notes), not os.listdir(place))
    tally.check_usage("read only: PAGES", shared.run([*read_only, "pages.csv"], place), also=not os.listdir(place))


def try_use(tally, place):
    """PAGES; the lines as an input; plans; and a user's dated copies of the journal, which stay."""
    path = place / NAME
    copies = {f"{NAME}.{name}" for name in ("20261128.old", "20261128.new", "1.old", "999999.new", "pocsag.old")}
    for name in copies:
        (place / name).touch()
    (place / "pages.csv").write_bytes(HEADER + b'8,alpha,"Ward 3, now"\n16,numeric,"12   345     "\n24,numeric, \n')
    first = run(place, [b"list"], "pages.csv")
    tally.check("PAGES and a new journal", (first.stderr, first.returncode) == (read_line(0, 3), 0), first)
    again = run(place, [b"list", b"add,32,tone0,"])
    tally.check("the pages of PAGES are kept", again.stdout.startswith(first.stdout) and again.stderr == read_line(3, 3), (first, again))
    held = path.read_bytes()
    fed = shared.run(["open"], place, held + b"list\n")
    tally.check("the journal as input", b"refused" not in fed.stdout and fed.stdout.count(b"ok ") == held.count(b"\n") + 1, fed)
    for pair in ((b"round.journal", b"c"), (b"t", b"round.journal"), (b"t", b"./round.journal")):
        out = run(place, [b"plan,%s,%s" % pair]).stdout
        tally.check(f"a plan to the journal {pair}", out == b"refused: the same file is named twice\n", out)
    tally.check("a plan to the journal: the file", path.read_bytes().count(b"\n") == 5, path.read_bytes())
    out = run(place, [b"plan,t,c", b"clear"], "--always", "--keep").stdout
    tally.check("a plan beside a journal", out == b"batches 2\nok 0\n" or out.startswith(b"batches "), out)
    tally.check("dated copies stay", set(os.listdir(place)) == copies | {NAME, "pages.csv", "t", "c"}, os.listdir(place))


def try_full_disk(tally, place):
    """A file that may not grow further: no ok, status 3, and the next start reads what was answered."""
    lines = [b"add,%d,alpha,Ward %d is full" % (8 * number, number) for number in range(40)]
    for size in range(200, 900, 37):
        (place / NAME).unlink(missing_ok=True)
        done = run(place, lines, **with_most_bytes(size))
        answered = done.stdout.count(b"\n")
        tally.check(f"full at {size}", 0 < answered < 40 and done.returncode == 3 and CANNOT_WRITE in done.stderr, done)
        tally.check(f"full at {size}: answers", all(map(is_done, done.stdout.splitlines())), done)
        found, err = listed(place)
        tally.check(f"full at {size}: the list", found == listing(all_after(lines[:answered])), (found, err))


def fill(room, left):
    """Leaves about so many bytes of a file system free."""
    (room / "rest").unlink(missing_ok=True)
    free = os.statvfs(room)
    (room / "rest").write_bytes(b"x" * max(0, free.f_bavail * free.f_frsize - left))


def try_full_system(tally, folder):
    """A file system with no room left: no ok, status 3, and the next start reads what was answered; where there is no
    room to write it anew the program ends with 3 and leaves it as it is."""
    lines = [b"add,%d,alpha,%s" % (8 * number, b"w" * 900) for number in range(40)]
    with own_disk(folder / "small", "size=64k") as room:
        if not room:
            print("left out: a small file system, since none can be mounted here")
            return
        for left in (8192, 16384, 24576):
            (room / NAME).unlink(missing_ok=True)
            fill(room, left)
            done, name = run(room, lines), f"a file system with {left} bytes left"
            answered = done.stdout.count(b"\n")
            tally.check(name, 0 < answered < 40 and done.returncode == 3 and done.stderr.endswith(CANNOT_WRITE), done)
            held = (room / NAME).read_bytes()
            tally.check_done(f"{name}: no room to write it anew", run(room, [b"list"]), 3, b"", CANNOT_WRITE)
            tally.check(f"{name}: it stays", (room / NAME).read_bytes() == held and not list(room.glob("*.new")), os.listdir(room))
            (room / "rest").unlink()
            found, err = listed(room)
            holds = found in (listing(all_after(lines[:answered])), listing(all_after(lines[: answered + 1])))
            tally.check(f"{name}: the list", holds, (found, err))
        fill(room, 0)
        done = shared.run(["open", "--journal", "new.journal"], room, lines[0] + b"\n")
        tally.check_done("no room at the start", done, 3, b"", CANNOT_WRITE)
        tally.check("no room at the start: no file is left", not list(room.glob("new.journal*")), os.listdir(room))


NO_FILE, IS_FOLDER, NO_RIGHT, BEYOND = (f"{os.strerror(code)} (os error {code})" for code in (2, 21, 13, 27))
BAD = "journal line %d: no edit that the pages before it accept"
BEGUN = "the journal holds edits, so the round cannot begin with PAGES"
HELD = "another program holds the journal"
CANNOT, TWICE = "cannot read or open a file", "the same file is named twice"

# The words behind `open`, the status, what is told without `--verbose`, and the note behind it: the file that was refused.
REFUSED = [
    (["--journal", "none/j"], 3, CANNOT, f"journal none/j: {NO_FILE}"),
    (["--journal", "folder"], 3, CANNOT, f"journal folder: {IS_FOLDER}"),
    (["--journal", "folder", "--read-only"], 3, CANNOT, f"journal folder: {IS_FOLDER}"),
    (["--journal", "link"], 3, CANNOT, "journal link: no regular file"),
    (["--journal", "/dev/full"], 3, CANNOT, "journal /dev/full: no regular file"),
    (["--journal", "fifo"], 3, CANNOT, "journal fifo: no regular file"),
    (["--journal", "a\nb/\x1b[2J"], 3, CANNOT, f"journal a?b/?[2J: {NO_FILE}"),
    (["--journal", "-"], 1, TWICE, "journal -: standard input holds the lines, and standard output takes the answers"),
    (["pages.csv", "--journal", "pages.csv"], 1, TWICE, "page file pages.csv and journal pages.csv are one file"),
    (["pages.csv", "--journal", "./pages.csv"], 1, TWICE, "page file pages.csv and journal ./pages.csv are one file"),
    (["-", "--journal", "new"], 1, TWICE, "page file -: standard input holds the lines"),
    (["none.csv", "--journal", "new"], 3, CANNOT, f"page file none.csv: {NO_FILE}"),
    (["pages.csv", "--journal", "held"], 1, BEGUN, "journal held"),
    (["--journal", "bad"], 1, BAD % 3, "journal bad"),
    (["--journal", "other"], 1, NO_JOURNAL, "journal other"),
    (["--journal", "later"], 1, OTHER_VERSION, "journal later"),
    (["feed.csv", "--journal", "new"], 1, "page 1: no line of a journal holds its message", "page file feed.csv"),
]


def try_verbose(tally, place):
    """What stands in the way is told by the journal's name and the system's reason, behind what is told without."""
    put(place, {"held": FIRST_LINE + b"add,8,tone0,\n", "bad": FIRST_LINE + b"add,8,tone0,\nlist\n"})
    put(place, {"other": b"other\n", "later": b"pocsag journal,2"})
    put(place, {"pages.csv": HEADER + b"8,tone0,\n", "feed.csv": HEADER + b'16,alpha,"two\nlines"\n'})
    (place / "folder").mkdir()
    (place / "link").symlink_to("held")
    os.mkfifo(place / "fifo")
    stood = files_of(place)
    for words, status, text, note in REFUSED:
        for more, notes in with_notes(note):
            done = shared.run(["open", *words, *more], place, b"list\n")
            tally.check_done(f"told of {words} {more}", done, status, b"", told(text, notes))
            tally.check(f"told of {words} {more}: no new file", not (place / "new").exists())
    tally.check("told of each: the files stay", files_of(place) == stood, stood.keys())


def try_verbose_later(tally, place):
    """The same of a journal that is held, that may not grow, and that may not be written anew."""
    place.chmod(0o777)
    session = start(place)
    session.process.stderr.readline()
    for more, notes in with_notes(f"journal {NAME}"):
        tally.check_done(f"told of a journal that is held {more}", run(place, [b"list"], *more), 1, b"", told(HELD, notes))
    session.kill()
    lines = [b"add,%d,tone0," % (8 * number) for number in range(9)]
    for more, notes in with_notes(f"journal {NAME}: {BEYOND}"):
        (place / NAME).unlink(missing_ok=True)
        done = run(place, lines, *more, **with_most_bytes(60))
        found, due = (done.stdout.count(b"ok"), done.stderr, done.returncode), read_line(0, 0) + told("cannot write", notes)
        tally.check(f"told of a journal that may not grow {more}", found == (3, due, 3), done)
    user = as_nobody(place)
    if not user:
        return
    (place / NAME).chmod(0o666)
    place.chmod(0o755)
    for more, notes in with_notes(f"journal {NAME}: {NO_RIGHT}"):
        done = run(place, [b"list"], *more, before=user)
        tally.check_done(f"told of a folder without rights {more}", done, 3, b"", told("cannot write", notes))


def try_announced(tally, place):
    """With `--verbose` it is said that a long journal is being read."""
    for count, more in ((998, 0), (1000, 1)):
        journal = FIRST_LINE + b"".join(b"add,%d,alpha,%s\n" % (number, b"x" * 3987) for number in range(1000, 1000 + count))
        (place / NAME).write_bytes(journal)
        due = b"reading a journal of %d bytes\n" % len(journal) * more
        for words in ([], ["--read-only"]):
            tally.check_done(f"announced {count} {words}", run(place, [], *words, "--verbose"), 0, ANY, due + read_line(count, count))
            tally.check(f"not announced {count} {words}", run(place, [], *words).stderr == read_line(count, count))


def turning_journal(pages, turns):
    """A journal that adds so many pages, and then again and again takes the first one out and puts it behind the others."""
    add = b"add,%d,alpha,Ward %d\n"
    lines = [add % (number, number) for number in range(pages)]
    for turn in range(turns):
        number = turn % pages
        lines += [b"sent,1\n" if turn % 2 else b"cancel,%d\n" % number, add % (number, number)]
    return FIRST_LINE + b"".join(lines)


def seconds_to_read(tally, place, pages, turns):
    """The least processor time of three starts that read such a journal."""
    journal, times = turning_journal(pages, turns), []
    for _ in range(3):
        (place / NAME).write_bytes(journal)
        before = resource.getrusage(resource.RUSAGE_CHILDREN)
        done = run(place, [])
        times.append(resource.getrusage(resource.RUSAGE_CHILDREN).ru_utime - before.ru_utime)
        tally.check_done(f"{pages} pages and {turns} turns are read", done, 0, b"", read_line(pages + 2 * turns, pages))
    return min(times)


def try_long_start(tally, place):
    """What a line of a journal takes to read does not grow with the number of pages: a processor's cache may make it slower."""
    few = seconds_to_read(tally, place, 10, TURNS)
    many = seconds_to_read(tally, place, 19_900, TURNS) - seconds_to_read(tally, place, 19_900, 0)
    tally.check("a long journal: the time of a line", many < 3 * few + 0.1, (many, few))


def try_growth(tally, place):
    """A long day: the journal stays small, and stands for the pages."""
    path, most, session = place / NAME, 0, start(place)
    for _ in range(1000):
        for line in (b"add,8,alpha," + b"x" * 4000, b"cancel,8"):
            session.ask(line)
        most = max(most, path.stat().st_size)
    session.kill()
    tally.check("a long day: the size", LEAST - 8192 < most < LEAST + 8192, most)
    found, err = listed(place)
    tally.check("a long day: the list", found == HEADER, (found, err))
    tally.check("a long day: written anew", path.read_bytes() == FIRST_LINE)
