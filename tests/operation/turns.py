"""Runs with `--keep` at the same places at the same time, and what runs that were ended leave in a folder."""

import contextlib
import fcntl
import os
import pathlib
import resource
import shutil
import signal
import stat
import subprocess
import tempfile
import time

from codewords import HEADER
from doors import NOBODY, RENAMES, another_user
from tally import ANY, CANNOT_OPEN, CANNOT_WRITE, MEMORY, PROGRAM, Text, call, fault, faulty, own_disk, room_in, run

PAIRS = 200
CONTAINERS = 1000
ENDED = 40  # rounds that are ended, each with places of its own
# Two rounds, of which no file of a plan is that of the other.
ROUNDS = [HEADER + b"".join(b"%d,numeric,%d\n" % (8 * k + k % 3, 10**9 + k + n) for k in range(count)) for n, count in ((0, 40), (5000, 90))]
NAMES = ("tx.bin", "cert.bin", "rest.csv", "why.bin")
SILENT = {"stdin": subprocess.PIPE, "stdout": subprocess.DEVNULL, "stderr": subprocess.DEVNULL}


def plan(number, *more, names=NAMES):
    front = ["--at-most", str(4 + 3 * number), "--rest", names[2], "--why", names[3]]
    return ["plan", f"{number}.csv", names[0], names[1], *front, "--keep", *more]


def planned(room, number, names=NAMES, words=None, stdin=b""):
    """What is planned of a round, or by other words."""
    run(words or plan(number, names=names), room, stdin).check_returncode()
    return stand(room, names)


def fresh(folder, name):
    """A folder with both rounds, and what is planned of each."""
    room = room_in(folder, f"turns, {name}", {f"{number}.csv": text for number, text in enumerate(ROUNDS)})
    dues = [planned(room, number) for number in range(2)]
    assert all(one != other for one, other in zip(*dues))
    return room, dues


def stand(room, names=NAMES):
    return [(room / name).read_bytes() for name in names]


def left_in(room):
    return sorted(name for name in os.listdir(room) if ".pocsag" in name)


def check_taken(tally, name, done, room, due):
    """Whether a run put its files there and left none beside them."""
    tally.check(name, done.returncode == 0 and stand(room) == due and not left_in(room), (done, left_in(room)))


def check_pairs(tally, name, place, count, calls, stdins=(b"", b""), before=()):
    """Whether two runs at once, again and again, leave all files of one of them, whether there were older ones or none; the place is a
    folder, the names of the files, and what each run makes of them."""
    room, names, dues = place
    for number in range(count):
        if number % 4 == 0:
            for file in names:
                (room / file).unlink()
        runs = [subprocess.Popen([*before, str(PROGRAM), *words], cwd=room, **SILENT) for words in calls]
        for it, text in zip(runs, stdins):
            with contextlib.suppress(BrokenPipeError):
                it.stdin.write(text)
                it.stdin.close()
        statuses = [it.wait(60) for it in runs]
        found = [it in map(list, zip(*dues)) for it in stand(room, names)]
        tally.check(f"pair {number}{name}", statuses == [0, 0] and stand(room, names) in dues, (statuses, found))


def try_pairs(tally, folder):
    """Two runs at once: all files are those of one round."""
    room, dues = fresh(folder, "pairs")
    check_pairs(tally, "", (room, NAMES, dues), PAIRS, [plan(0), plan(1)])
    tally.check("nothing is left of them", not left_in(room), left_in(room))
    ours, theirs, line = ["open", "1.csv", "--keep"], ["plan", "0.csv", "./tx.bin", str(room / "cert.bin"), "--keep"], b"plan,tx.bin,cert.bin\n"
    dues = [planned(room, 1, NAMES[:2], ours, line), planned(room, 0, NAMES[:2], theirs)]
    check_pairs(tally, " of open and plan", (room, NAMES[:2], dues), PAIRS // 4, [ours, theirs], stdins=(line, b""))
    if MEMORY and os.stat(MEMORY).st_dev != room.stat().st_dev:  # a second file system
        with tempfile.TemporaryDirectory(dir=MEMORY) as second:
            names = ("tx.bin", f"{second}/cert.bin", "rest.csv", f"{second}/why.bin")
            dues, calls = [planned(room, number, names) for number in (0, 1)], [plan(number, names=names) for number in (0, 1)]
            check_pairs(tally, " on two file systems", (room, names, dues), PAIRS // 4, calls)


def try_held(tally, folder):
    """A place whose lock another run holds, and locks that stop no run."""
    room, dues = fresh(folder, "held")
    lock = room / "cert.bin.pocsag.lock"
    with lock.open("w") as held:
        fcntl.flock(held, fcntl.LOCK_EX)
        start, told = time.monotonic(), CANNOT_WRITE + fault("certificate cert.bin: another run is putting its files there")
        done = run(plan(0, "--verbose"), room)
        is_held = lambda: stand(room) == dues[1] and left_in(room) == [lock.name]
        tally.check_done("a lock that is held", done, 3, b"", told, 4 < time.monotonic() - start < 30 and is_held())
        done, refused = run(["open", "0.csv", "--keep"], room, b"plan,tx.bin,cert.bin\nlist\n"), b"refused: cannot write\n"
        tally.check_done("a lock that is held, of a round", done, 0, Text(lambda out: out.startswith(refused)), ANY, is_held())
    for mode in (0o600, 0o444):
        lock.touch()
        lock.chmod(mode)
        check_taken(tally, f"a lock of mode {mode:o} that is left", run(plan(0), room), room, dues[0])
    check_failed_locks(tally, room, dues, lock)
    if not shutil.which("strace"):
        return
    for number in range(1, 5):
        run(plan(number % 2), room, before=faulty(RENAMES, f"signal=KILL:when={number}"))
        left = left_in(room)
        done = run(plan(number % 2), room)
        holds = any(name.endswith(".lock") for name in left) and done.returncode == 0 and stand(room) == dues[number % 2] and not left_in(room)
        tally.check(f"the locks of a run that was killed at renaming {number}", holds, (left, done, left_in(room)))
    run(plan(0), room, before=faulty(RENAMES, "signal=KILL:when=1"), umask=0o077)
    tally.check("whatever the mask, other users can open the locks", modes_of_locks(room) == {0o444}, modes_of_locks(room))
    run(plan(0), room).check_returncode()
    for what in ("error=ENOLCK", "error=ENOSYS"):
        check_taken(tally, f"a file system without locks, {what}", run(plan(0), room, before=faulty("flock", what)), room, dues[0])


def modes_of_locks(room):
    return {stat.S_IMODE((room / name).stat().st_mode) for name in left_in(room) if name.endswith(".lock")}


def check_failed_locks(tally, room, dues, lock):
    """A lock that cannot be had for another reason than a run that holds it: that is told, and at once."""
    told = CANNOT_WRITE + fault("certificate cert.bin: cannot lock cert.bin.pocsag.lock: no regular file")
    for name, make in (
        ("a pipe", lambda: os.mkfifo(lock)),
        ("a dangling link", lambda: lock.symlink_to("nothing")),
        ("a link", lambda: lock.symlink_to("0.csv")),
    ):
        make()
        before, start = stand(room), time.monotonic()
        done = run(plan(1, "--verbose"), room)
        tally.check_done(f"{name} in place of a lock", done, 3, b"", told, stand(room) == before and time.monotonic() - start < 4)
        lock.unlink()
    notes = set()
    for most in range(5, 40):
        start = time.monotonic()
        done = run(plan(1, "--verbose"), room, preexec_fn=lambda: resource.setrlimit(resource.RLIMIT_NOFILE, (most, most)))
        notes.update(done.stderr.splitlines())
        if done.returncode == 0:
            run(plan(0), room).check_returncode()
            break
        tally.check(f"at most {most} open files", stand(room) == dues[0] and not left_in(room) and time.monotonic() - start < 4, (done, left_in(room)))
    of_locks = [note for note in notes if b"cannot lock " in note]
    holds = of_locks and all(note.endswith(b": Too many open files (os error 24)") for note in of_locks)
    tally.check("too many open files for a lock", holds, notes)
    tally.check("no other cause is told", not any(b"another run" in note for note in notes), notes)
    with own_disk(room.parent / "few inodes", "nr_inodes=7") as small:
        if small:
            for name in ("0.csv", "tx.bin", "cert.bin"):
                shutil.copyfile(room / name, small / name)
            done = run(["plan", "0.csv", "tx.bin", "cert.bin", "--keep", "--verbose"], small)
            due = CANNOT_WRITE + fault("transmission tx.bin: cannot lock tx.bin.pocsag.lock: No space left on device (os error 28)")
            holds = stand(small, NAMES[:2]) == stand(room, NAMES[:2]) and not left_in(small)
            tally.check_done("no inode for a lock", done, 3, b"", due, holds)


# Has a command be process 1, as in a container.
ALONE = ["unshare", "--pid", "--fork"]


def try_containers(tally, folder):
    """Runs that have one process number, in two containers that share a folder."""
    if not shutil.which(ALONE[0]) or call(*ALONE, "true").returncode:
        print("left out: containers, since we may not make any")
        return
    room, dues = fresh(folder, "containers")
    check_pairs(tally, " of containers", (room, NAMES, dues), CONTAINERS, [plan(0, "--verify"), plan(1, "--verify")], before=ALONE)
    tally.check("nothing is left of containers", not left_in(room), left_in(room))
    held = room / "tx.bin.pocsag.1.new"
    held.write_bytes(b"of another run")
    with held.open("r") as file:
        fcntl.flock(file, fcntl.LOCK_EX)
        done = run(plan(0), room, before=ALONE)
    holds = done.returncode == 0 and stand(room) == dues[0] and held.read_bytes() == b"of another run" and left_in(room) == [held.name]
    tally.check("a name that another run holds", holds, (done, left_in(room)))
    kept = room / f"tx.bin.pocsag.{gone_number()}.old"
    kept.write_bytes(b"what stood there")
    with (room / "tx.bin.pocsag.lock").open("w") as file:
        fcntl.flock(file, fcntl.LOCK_EX)
        done = run(plan(1), room, before=ALONE)
        holds = done.returncode == 3 and kept.read_bytes() == b"what stood there"
        tally.check("an older file that another run keeps", holds, (done, left_in(room)))
    check_taken(tally, "and that no run keeps", run(plan(1), room, before=ALONE), room, dues[1])


def gone_number():
    """The number of a process that has ended."""
    ended = subprocess.Popen(["true"])
    ended.wait()
    return ended.pid


def try_taken_away(tally, folder):
    """Another program puts a file of its own under the name of one that is to be renamed: it is not put at the place."""
    for name in NAMES if shutil.which("strace") else ():
        room, dues = fresh(folder, f"taken away, {name}")
        words = [*faulty("fsync", "delay_enter=1500000:when=1"), str(PROGRAM), *plan(0, "--verbose")]
        process = subprocess.Popen(words, cwd=room, stdout=subprocess.DEVNULL, stderr=subprocess.PIPE)
        time.sleep(1)
        [made] = room.glob(f"{name}.pocsag.*.new")
        made.unlink()
        made.write_bytes(b"of another program")
        err = process.communicate(timeout=60)[1]
        holds = (process.returncode, stand(room)) == (3, dues[1]) and err.startswith(CANNOT_WRITE)
        holds = holds and f"{name}: another program took away {made.name}".encode() in err and left_in(room) == [made.name]
        tally.check(f"the file beside {name} is taken away", holds, (process.returncode, err, left_in(room)))


def try_failed_look(tally, folder):
    """Where the system does not tell what an older file is, the new one does not get another mode."""
    if not shutil.which("strace"):
        return
    room, dues = fresh(folder, "failed look")
    for number in range(1, 1000):
        for name in NAMES:
            (room / name).chmod(0o600)
        done = run(plan(number % 2), room, before=faulty("statx", f"error=EIO:when={number}", "trace"))
        modes = {stat.S_IMODE((room / name).stat().st_mode) for name in NAMES}
        tally.check(f"modes where look {number} fails", modes == {0o600} and stand(room) in dues, (done, modes))
        if "INJECTED" not in (room / "trace").read_text():
            break
    tally.check("some looks failed", 20 < number < 999, number)


def try_others(tally, folder):
    """Another user: in a folder of theirs with locks of the superuser, and in one that they cannot write to."""
    (room, dues), user = fresh(folder, "others"), another_user(folder)
    if not user:
        return
    for path in (room, *room.iterdir()):
        os.chown(path, *NOBODY)
    for mode in (0o644, 0o444):
        for name in NAMES:
            (room / f"{name}.pocsag.lock").touch()
            (room / f"{name}.pocsag.lock").chmod(mode)
        check_taken(tally, f"locks of the superuser, {mode:o}", run(plan(0), room, before=user), room, dues[0])
    lock = room / "tx.bin.pocsag.lock"
    with lock.open("w") as held:
        lock.chmod(0o444)
        fcntl.flock(held, fcntl.LOCK_EX)
        done = run(plan(0, "--always"), room, before=user)
    tally.check_done("a lock that the superuser holds", done, 3, b"", CANNOT_WRITE, stand(room) == dues[0])
    lock.unlink()
    check_killed_locks(tally, room, dues, user)
    before = stand(room)
    room.chmod(0o555)
    done = run(plan(0), room, before=user)
    room.chmod(0o755)
    tally.check_done("a folder that cannot be written to", done, 3, b"", CANNOT_OPEN, stand(room) == before and not left_in(room))


def check_killed_locks(tally, room, dues, user):
    """The superuser, whose mask leaves nothing to others, is killed at each call of the system that makes a lock; then another user
    plans."""
    if not shutil.which("strace"):
        return
    ends = 0
    for calls in ("fchmod", "link,linkat", "unlink,unlinkat", "flock"):
        for number in range(1, 100):
            if not run(plan(0), room, before=faulty(calls, f"signal=KILL:when={number}"), umask=0o077).returncode:
                break
            ends += 1
            left, modes, done = left_in(room), modes_of_locks(room), run(plan(1), room, before=user)
            holds = modes <= {0o444} and done.returncode == 0 and stand(room) == dues[1]
            tally.check(f"another user, and locks of a run that was killed at {calls} {number}", holds, (left, modes, done, left_in(room)))
    tally.check("runs were killed while they made locks", ends > 12, ends)


def try_left(tally, folder):
    """A run removes the files of ended runs in the folders of its places, also of other places; never those of a living run, and
    nothing that no run made."""
    room, _ = fresh(folder, "left")
    number = gone_number()
    gone = {f"{place}.pocsag.{number}.new" for place in ("tx.bin", "cert.bin", "other.bin", "a.pocsag.b")}
    gone |= {f"tx.bin.pocsag.{number}.old", "other.bin.pocsag.lock", "tx.bin.pocsag.lock"}
    kept = {f"tx.bin.{number}.new", f"tx.bin.{number}.old", "tx.bin.20261128.new", "tx.bin.20261128.old", f"other.bin.{number}.new"}
    kept |= {f"report.{number}.old", f"other.bin.pocsag.{number}.old", f"other.bin.pocsag.{os.getpid()}.new", "held.bin.pocsag.lock"}
    kept |= {"other.bin.pocsag.x.new", "other.bin.pocsag.new", f"other.bin.pocsag.0{number}.new", f"other.bin.pocsag.{number}.newer"}
    kept |= {"other.bin.pocsag.+7.new", f"other.bin.pocsag.{number}"}
    kept |= {f"{place}.pocsag.{number}.new" for place in ("held.bin", "pipe", "link", "folder")}
    make = {"pipe": os.mkfifo, "link": lambda path: path.symlink_to("0.csv"), "folder": os.mkdir}
    for name in gone | kept:
        make.get(name.split(".")[0], pathlib.Path.touch)(room / name)
    before = set(os.listdir(room))
    with contextlib.ExitStack() as files:
        for name in kept:
            if name.startswith("held"):
                fcntl.flock(files.enter_context((room / name).open("w")), fcntl.LOCK_EX)
        done, after = run(plan(0), room), set(os.listdir(room))
        tally.check("what ended runs left", done.returncode == 0 and after == before - gone, (done, sorted(before - gone ^ after)))
    room, _ = fresh(folder, "ended")
    for number in range(ENDED):
        process = subprocess.Popen([str(PROGRAM), "open", "1.csv", "--keep"], cwd=room, **SILENT)
        with contextlib.suppress(BrokenPipeError):
            process.stdin.write(b"".join(b"plan,%d-%d.bin,%d-%d.cert\n" % (number, line, number, line) for line in range(1000)))
            process.stdin.flush()
        time.sleep(0.02 + 0.005 * (number % 7))
        process.send_signal(signal.SIGKILL)
        process.wait(60)
        with contextlib.suppress(BrokenPipeError):
            process.stdin.close()
    left = left_in(room)
    done = run(["open", "--journal", "round.journal"], room)
    tally.check("a round begins in a folder with files of ended rounds", done.returncode == 0 and not left_in(room), (left, done, left_in(room)))
    tally.check("at most those of the last ended round were there", len(left) <= 8, left)
