"""The queue of docs/OPERATION.md: examples/next-slot and examples/enqueue under kills, refused calls, on two file systems
and on full disks. Each page that `enqueue` took must be sent once, in order.

    python3 tests operation/queues          ends a script at each call that changes something outside its process
    python3 tests operation/queues --all    at each system call
    python3 tests operation/queues 10000    sends so many pages while next-slot is ended at random moments, and does nothing else

Where strace is missing, commands are killed before and behind their work, and not at their calls.
"""

import contextlib
import os
import pathlib
import random
import signal
import subprocess
import sys
import tempfile
import threading
import time

from channel import HEADER, KILLS, Channel, calls_of, can_trace, pages_of
from tally import MEMORY, TOP, as_nobody, files_of, own_disk, run_all, run_parts

IS_EACH = sys.argv[1:] == ["--all"]
ASKED = sum(int(word) for word in sys.argv[1:] if word.isdigit())
PAGES = ASKED or 150  # that are sent under random kills
DONE = (0, "", "")  # what a script that went well ends with and prints
SILENT = {"stdout": subprocess.DEVNULL, "stderr": subprocess.DEVNULL}


@contextlib.contextmanager
def second_disk(folder):
    """A file system of its own, or a folder of another one, or none."""
    with own_disk(folder, "size=4m") as mounted, tempfile.TemporaryDirectory(dir=MEMORY) as name:
        other = mounted or pathlib.Path(name)
        yield other if other.stat().st_dev != folder.parent.stat().st_dev else None


def after_fault(tally, channel, name):
    """What must hold once a run of next-slot met a fault: the transmitter takes what is there, a page is added, and the next
    run sends a slot."""
    is_good, added, done = channel.take(), channel.add(), channel.send()
    is_good &= channel.take()
    tally.check(name, is_good and added[0] == 0 and done == DONE and channel.is_balanced(), (is_good, added, done, channel.told()))


def check_told(tally, name, done, status, first, also=True):
    """Whether a script ended with a status and told a fault that begins so, and what else has to hold."""
    tally.check(name, done[:2] == (status, "") and done[2].startswith(first) and also, done)


def turns_of(channel):
    """The turns of the commands of next-slot in a run that sends a slot."""
    channel.fill()
    channel.send(at=0)
    return channel.started()


def kills(commands):
    """Kills before and behind each command, of the command alone or of all: each by a name, with what a run needs for it."""
    for turn, command in enumerate(commands, 1):
        yield from ((f"{how} at {turn} {command}", {"at": turn, "fault": how}) for how in KILLS)


def faults_at(calls):
    """Ends of a script at its system calls, and each call that works on files refused once."""
    for call in calls:
        if IS_EACH or not call.is_idle:
            yield f"signal=KILL at {call}", call.fault("signal=KILL")
    yield from ((f"error=EIO at {call}", call.fault("error=EIO")) for call in calls if call.can_fail)


def check_sending(tally, channel, faults):
    """Runs of next-slot that meet these faults: one that is ended is told."""
    for name, fault in faults:
        channel.fill()
        status = channel.send(**fault)[0]
        tally.check(f"next-slot tells {name}", status != 0 or "EIO" in name, status)
        after_fault(tally, channel, f"next-slot: {name}")


def try_kills(tally, folder):
    """Kills before and behind each command of next-slot. Each slot is kept with its pages and its certificate."""
    channel = Channel(folder / "kills", options="--at-most 1 --idle-last")
    commands = turns_of(channel)
    check_sending(tally, channel, kills(commands))
    tally.check("next-slot starts commands", len(commands) > 10, commands)
    for path in channel.folder.glob("sent.*.cert"):
        done = channel.run_program("check", path.with_suffix(".csv").name, path.name)
        listed = channel.run_program("decode", path.with_suffix(".bin").name)
        holds = done == (0, "at least 1 batches with an idle last\n", "") and listed == (0, path.with_suffix(".csv").read_text(), "")
        tally.check(f"{path.name} is that of its pages", holds, (done, listed))


def try_calls(tally, folder):
    """Faults at the system calls of next-slot, where `outgoing` is elsewhere."""
    if not can_trace():
        return
    with second_disk(folder / "other disk") as other:
        channel = Channel(folder / "calls", outgoing=other)
        channel.fill()
        calls = calls_of(channel, "next-slot")
        channel.take()
        tally.check("next-slot makes calls", len(calls) > 500 and channel.is_balanced(), (len(calls), channel.told()))
        check_sending(tally, channel, faults_at(calls))


def planned(channel, commands):
    """Ends next-slot as soon as a slot is planned, with its first renaming."""
    channel.fill()
    channel.send(at=commands.index("mv") + 1, fault=KILLS[3])


def check_adding(tally, channel, commands, faults):
    """Runs of enqueue that meet these faults while a planned slot waited: the slot is sent, and the page counts or not."""
    for name, fault in faults:
        planned(channel, commands)
        status = channel.add(**fault)[0]
        tally.check(f"enqueue tells {name}", status != 0 or "EIO" in name, status)
        done = channel.send()
        tally.check(f"enqueue: {name}", channel.take() and done == DONE and channel.is_balanced(), (done, channel.told()))


def try_additions(tally, folder):
    """The same of enqueue, while the queue behind a planned slot is in rest.csv."""
    channel = Channel(folder / "additions")
    commands = turns_of(channel)
    channel.take()
    planned(channel, commands)
    channel.add(at=0)
    check_adding(tally, channel, commands, kills(channel.started()))
    if can_trace():
        planned(channel, commands)
        page = channel.next_page()
        calls = calls_of(channel, "enqueue", *page)
        channel.added.append(page)
        check_adding(tally, channel, commands, faults_at(calls))


def transmit(channel, ends, are_good):
    """A transmitter that looks for slots all the time."""
    while not ends.is_set():
        are_good.append(channel.take())


def kill_at_random(channel, chance):
    """Runs next-slot and enqueue at the same time and ends next-slot at random moments, its shell alone or all of it; gives how often it was
    ended."""
    ended, longest = 0, 0.05
    for _ in range(PAGES):
        sending, page = channel.start("next-slot", **SILENT), channel.next_page()
        adding = channel.start("enqueue", *page, **SILENT)
        time.sleep(chance.uniform(0, longest))
        if sending.poll() is None:
            chance.choice([os.kill, os.killpg])(sending.pid, signal.SIGKILL)
        was_ended = sending.wait(60) < 0
        ended += was_ended
        longest = min(longest * (1.1 if was_ended else 0.8), 1.0)
        if adding.wait(60) == 0:
            channel.added.append(page)
    return ended


def try_random(tally, folder):
    """Random kills under a transmitter that never waits and a queue that grows; then the queue is sent to its end."""
    with second_disk(folder / "second disk") as other:
        channel, ends, are_good = Channel(folder / "random", outgoing=other), threading.Event(), []
        transmitter = threading.Thread(target=transmit, args=(channel, ends, are_good))
        transmitter.start()
        ended = kill_at_random(channel, random.Random(7))
        tally.check("each page is taken while next-slot is killed", len(channel.added) == PAGES, len(channel.added))
        for _ in range(PAGES):
            done = channel.send()
            if not channel.waiting():
                break
        ends.set()
        transmitter.join()
        tally.check("a polling transmitter meets whole slots", channel.take() and all(are_good), len(are_good))
        tally.check("each page is sent once, in order", channel.is_balanced() and not channel.waiting(), channel.told())
        tally.check("the last runs say nothing", done == channel.send() == DONE, done)
        tally.check("next-slot was ended at times", PAGES // 4 < ended < PAGES, ended)
        # A process of now may have the number of one that was ended.
        left = [name for name in os.listdir(channel.folder) if ".pocsag" in name and not os.path.exists(f"/proc/{name.split('.')[-2]}")]
        tally.check("no file of an ended run is left", not left, left)


def crowd(folder):
    """Fills the disk of a folder, and gives the file to remove."""
    path = folder / ".crowd"
    with contextlib.suppress(OSError), path.open("wb", buffering=0) as file:
        while file.write(bytes(1 << 12)):
            pass
    return path


def try_full_disks(tally, folder):
    """A full disk under `outgoing`, before a slot is there and before it has its name, and then under the queue."""
    with own_disk(folder / "outgoing disk", "size=128k") as full:
        if full:
            channel = Channel(folder / "full outgoing", outgoing=full)
            commands = turns_of(channel)
            last_copy = len(commands) - commands[::-1].index("cp")
            for fault in ({}, {"at": last_copy + 3, "fault": KILLS[3]}):
                channel.fill()
                channel.send(**fault)
                channel.take()
                channel.fill()
                crowding = crowd(full)
                tally.check_run("a full outgoing is told", channel.send(), 3, "", "next-slot: cannot ")
                crowding.unlink()
                after_fault(tally, channel, f"a full outgoing {fault}")
    with own_disk(folder / "queue disk", "size=128k") as full:
        if full:
            channel = Channel(folder / "full queue", folder=full)
            channel.fill()
            crowding = crowd(full)
            before = (full / "queue.csv").read_bytes()
            done = channel.add(), channel.send()
            holds = (done[0][0], done[1][0]) == (3, 3) and (full / "queue.csv").read_bytes() == before
            tally.check("a full disk of the queue is told", holds, done)
            crowding.unlink()
            after_fault(tally, channel, "a full disk of the queue")


# What stands in the folder, the status and the first line of the fault. A refusal leaves all files as they are.
LONG = "9,alpha," + 999 * "x" + "\n"
REFUSED = [
    ("the queue is refused", {"queue.csv": HEADER + "8,tone9,\n"}, 1, "pocsag: record 1: unknown kind"),
    ("a queue with a quote", {"queue.csv": HEADER + '8,alpha,"a\n'}, 1, "pocsag: record 1: the quote in line 2 is not closed"),
    ("an empty file", {"queue.csv": ""}, 1, "pocsag: the header must be address,kind,message"),
    ("no words of a slot", {"slot.options": "\n"}, 2, "error: "),
    ("wrong words of a slot", {"slot.options": "--at-most x\n"}, 2, "error: "),
    *((f"a last line {line!r}", {"slot.options": f"--at-most 1\n{line}\n"}, 2, "next-slot: slot.options ends with ") for line in (
        "keep slots", "keep 0 slots", "keep 30", "keep 3 days\n--always",
    )),
    ("words that are files", {"slot.options": "*\n"}, 2, "error: "),
    ("each page is too long", {"queue.csv": HEADER + LONG}, 4, "pocsag: page 1 needs 23 batches"),
    ("no queue", {"queue.csv": None}, 3, "pocsag: cannot read or open a file"),
    ("no words", {"slot.options": None}, 3, f"{TOP}/examples/next-slot: "),
    ("no number", {"outgoing/.number": None}, 3, "next-slot: cannot read outgoing/.number"),
    ("a number of something else", {"outgoing/.number": "1e3\n"}, 3, "next-slot: outgoing/.number is not a number"),
    ("an octal number", {"outgoing/.number": "010\n"}, 3, "next-slot: outgoing/.number is not a number"),
    ("a number that is empty", {"outgoing/.number": ""}, 3, "next-slot: cannot read outgoing/.number"),
]


def try_statuses(tally, folder):
    """Each status of next-slot: what it says, and that nothing changes where it refuses."""
    channel = Channel(folder / "statuses")
    tally.check("an empty queue", channel.send() == DONE)
    tally.check("stays empty", files_of(channel.folder)["queue.csv"] == HEADER.encode() and not channel.take() is False and not channel.slots)
    for number, (name, files, status, first) in enumerate(REFUSED):
        channel = Channel(folder / f"refused {number}")
        channel.fill()
        for path, text in files.items():
            (channel.folder / path).unlink()
            if text is not None:
                (channel.folder / path).write_text(text)
        before, done = files_of(channel.folder), channel.send()
        check_told(tally, name, done, status, first, files_of(channel.folder) == before)


def try_outgoing(tally, folder):
    """A transmitter's folder that is away, that comes back, and that has the next name already; and a lock that others hold."""
    channel = Channel(folder / "outgoing")
    commands = turns_of(channel)
    channel.take()
    for turn in range(1, len(commands) + 1):
        channel.fill()
        channel.send(at=turn, fault=KILLS[3])
        channel.take()
        before = files_of(channel.folder)
        channel.outgoing.rename(folder / "away")
        channel.outgoing.mkdir()
        tally.check_same(f"outgoing is away at {turn}", channel.send(), (3, "", "next-slot: cannot read outgoing/.number\n"))
        channel.outgoing.rmdir()
        (folder / "away").rename(channel.outgoing)
        tally.check(f"and all else is as it was at {turn}", files_of(channel.folder) == before, os.listdir(channel.folder))
        after_fault(tally, channel, f"outgoing is back at {turn}")
    number = int((channel.outgoing / ".number").read_text())
    other = channel.outgoing / f"{number + 1:08}.bin"
    other.write_bytes(b"a slot of another")
    channel.fill()
    check_told(tally, "a name that is taken", channel.send(), 3, f"next-slot: outgoing/{other.name} exists")
    tally.check("and stays", other.read_bytes() == b"a slot of another")
    other.unlink()
    after_fault(tally, channel, "a name that is free again")
    channel.fill()
    with subprocess.Popen(["flock", str(channel.folder), "sleep", "0.5"]) as holder:
        time.sleep(0.1)
        start = time.monotonic()
        done = channel.send(), channel.add(), holder.wait()
        tally.check("both wait for the lock", done[0] == DONE and done[1][0] == 0 and time.monotonic() - start > 0.3, done)


MESSAGES = ['say "hi"', '"', '""', "a,b", "two\nlines\n", "back\\slash \\n $HOME `ls` '", " spaces", "\rreturn", "*", "-n", "%s"]
# What enqueue refuses, its status and the first line of the fault.
NOT_ADDED = [(words, 2, "usage: enqueue [--first] ADDRESS KIND MESSAGE") for words in (
    (), ("8", "tone0"), ("--first", "8", "tone0"), ("--last", "8", "tone0", ""), ("8", "tone0", "", ""), ("--first", "8", "tone0", "", ""), ("--help", ""),
)]  # fmt: skip
NOT_ADDED += [((address, kind, message), 1, f"pocsag: {fault}") for address, kind, message, fault in (
    ("9", "tone9", "", "record 1: unknown kind"), ("9", "numeric", "x", "record 1: "), ("2007664", "tone0", "", "record 1: "),
    ("9", "alpha", "\u00fc", "record 1: "), ("9", "alpha", 999 * "x", "page 1 needs 23 batches"), ("9", "alpha", 4001 * "x", "record 1: "),
    ("", "", "", "record 1: "), ("9,tone0,\n10", "tone0", "", "pages 2, where 1 were expected"),
    ("9,alpha,x\n10", "alpha", "y", "pages 2, where 1 were expected"), ('9,alpha,"', "x", "y", "record 1: "), ('"9', "alpha", "y", "record 1: "),
)]  # fmt: skip
NOT_ADDED += [(("--first", "9", "tone9", ""), 1, "pocsag: record 1: unknown kind")]


def try_enqueue(tally, folder):
    """Which pages enqueue takes, that they are sent as they were given, and what it says of others."""
    channel = Channel(folder / "enqueue", options="--at-most 9")
    for number, message in enumerate(MESSAGES):
        tally.check_same(f"enqueue {message!r}", channel.run("enqueue", str(number), "alpha", message), DONE)
    tally.check("they are sent", channel.send() == DONE and channel.take())
    sent = {number: message for number, _, message in channel.slots[0]}
    tally.check("as they were given", sent == {str(number): message for number, message in enumerate(MESSAGES)}, sent)
    queue = channel.folder / "queue.csv"
    queue.write_text(HEADER + "7,tone0,\n8,tone0,")
    queue.chmod(0o640)
    for words, status, first in NOT_ADDED:
        done = channel.run("enqueue", *words)
        holds = queue.read_text() == HEADER + "7,tone0,\n8,tone0," and not (channel.folder / "queue.new").exists()
        check_told(tally, f"enqueue {words} is refused", done, status, first, holds)
    done = channel.run("enqueue", "9", "tone1", "")
    holds = done == DONE and queue.read_text() == HEADER + '7,tone0,\n8,tone0,\n9,tone1,""\n' and queue.stat().st_mode & 0o777 == 0o640
    tally.check("behind a last line without its end", holds, (done, queue.read_text()))
    for name, rows, first in (
        ("a queue with a wrong record", "8,tone9,\n", "pocsag: record 1: unknown kind"),
        ("20,000 pages wait", "".join(f"{8 * number},tone0,\n" for number in range(20000)), "pocsag: record 20001: too many pages"),
    ):
        queue.write_text(HEADER + rows)
        check_told(tally, name, channel.run("enqueue", "9", "tone1", ""), 4, first)
    queue.unlink()
    done = channel.run("enqueue", "9", "tone1", "")
    tally.check("there is no queue", done[0] == 3 and not queue.exists(), done)


def try_words(tally, folder):
    """`--help` sends nothing, and neither does any other word."""
    channel = Channel(folder / "words")
    channel.fill()
    before = files_of(channel.folder)
    for words, status in ((["--help"], 0), (["x"], 2), ([""], 2), (["--help", "x"], 2), (["-h"], 2)):
        for script in ("next-slot", "enqueue"):
            done = channel.run(script, *words)
            usage, other = (done[1], done[2]) if status == 0 else (done[2], done[1])
            holds = done[0] == status and usage.startswith(f"usage: {script}") and other == ""
            tally.check(f"{script} {words}", holds and files_of(channel.folder) == before, done)


def try_first(tally, folder):
    """`enqueue --first` adds a page before all others, whatever the end of the header's line."""
    channel = Channel(folder / "first", options="--at-most 9")
    queue = channel.folder / "queue.csv"
    two = "7,tone0,\n8,tone0,"
    for before, after in ((HEADER, ""), (HEADER.strip(), ""), (HEADER + two, two), (HEADER[:-1] + "\r\n7,tone0,\r\n", "7,tone0,\r\n")):
        queue.write_bytes(before.encode())
        queue.chmod(0o640)
        done = channel.run("enqueue", "--first", "9", "alpha", 'a "b"\nc')
        head = before.partition("\n")[0] + "\n"
        holds = done == DONE and queue.read_bytes() == (head + '9,alpha,"a ""b""\nc"\n' + after).encode()
        tally.check(f"first in {before!r}", holds and queue.stat().st_mode & 0o777 == 0o640, (done, queue.read_bytes()))
    for before in ("", "\n" + HEADER, HEADER.replace("\n", "\r") + "7,tone0,\r", "7,tone0,\n"):
        queue.write_bytes(before.encode())
        done = channel.run("enqueue", "--first", "9", "tone1", "")
        check_told(tally, f"no first line in {before!r}", done, 4, "enqueue: the first line of queue.csv", queue.read_bytes() == before.encode())
    channel = Channel(folder / "urgent")
    channel.fill()
    queued = channel.added
    urgent = ("8", "numeric", "112")
    done = channel.run("enqueue", "--first", *urgent)
    channel.send()
    tally.check("an urgent page is sent first", channel.take() and done == DONE and urgent in channel.slots[0], channel.told())
    count, pages = len(channel.slots[0]), [urgent, *queued]
    channel.added = [*sorted(pages[:count], key=lambda it: int(it[0])), *pages[count:]]
    tally.check("and the others then", channel.is_balanced(), channel.told())


def try_quotes(tally, folder):
    """Where `next-slot` will refuse the queue for a quote, `enqueue` does not say that a page was added."""
    for number, record in enumerate(('8,alpha,"open\n', '8,alpha,say "hi"\n', '8,alpha,"a" b\n')):
        for first in ((), ("--first",)):
            channel = Channel(folder / f"quotes {number} {first}")
            (channel.folder / "queue.csv").write_text(HEADER + record)
            before = files_of(channel.folder)
            check_told(tally, f"enqueue behind {record!r}", channel.run("enqueue", *first, "9", "tone0", ""), 4, "pocsag: record ")
            sent = channel.send()
            tally.check(f"next-slot at {record!r}", sent[0] == 1 and files_of(channel.folder) == before, sent)


def try_link(tally, folder):
    """A link at queue.csv is refused and stays a link."""
    for name, is_there in (("link", True), ("dangling link", False)):
        channel = Channel(folder / name)
        channel.fill()
        queue, other = channel.folder / "queue.csv", folder / f"{name}.csv"
        queue.rename(other)
        queue.symlink_to(other)
        text = other.read_bytes()
        if not is_there:
            other.unlink()
        for script, words in (("next-slot", ()), ("enqueue", ("9", "tone0", "")), ("enqueue", ("--first", "9", "tone0", ""))):
            done = channel.run(script, *words)
            check_told(tally, f"{script} at a {name}", done, 3, f"{script}: queue.csv is a link", queue.is_symlink() and other.exists() == is_there)
        tally.check(f"a {name} leaves the queue", not is_there or other.read_bytes() == text, name)


def try_kept(tally, folder):
    """Each slot is kept as long as slot.options says."""
    own = ["sent.1.2.bin", "sent.x1.bin", "sent. 1.bin", "sent.01.bin", "sent.1.bin.old", "other.1.bin", "sent.bin"]
    for limit, days, due in (("keep 3 slots", 0, 3), ("keep 1 slots", 0, 1), ("keep 2 days", 1, 4), ("keep 2 days", 3, 1), ("", 99, 4)):
        channel = Channel(folder / f"kept {limit} {days}", options=f"--at-most 1\r\n{limit}\r")
        for name in own:
            (channel.folder / name).touch()
            os.utime(channel.folder / name, (0, 0))
        for number in range(4):
            for path in channel.folder.glob("sent.[1-9].*"):
                os.utime(path, (time.time() - 86400 * days - 9,) * 2)
            channel.fill()
            done = channel.send()
            channel.take()
        kept = {name for name in os.listdir(channel.folder) if name.startswith("sent.") and name not in own}
        wanted = {f"sent.{number}.{ending}" for number in range(5 - due, 5) for ending in ("bin", "cert", "csv")}
        tally.check(f"{limit} after {days} days", done == DONE and kept == wanted, (done, kept))
        tally.check(f"{limit}: no other file goes", {*own} <= {*os.listdir(channel.folder)}, os.listdir(channel.folder))


def try_new_number(tally, folder):
    """Where the disk of outgoing was lost and numbers begin again, nothing that was set aside or kept is overwritten."""
    channel = Channel(folder / "new number")
    queue = channel.folder / "queue.csv"
    texts = ["a", "b", "c"]
    for text in texts:
        (channel.outgoing / ".number").write_text("0\n")
        channel.last = ""
        queue.write_text(HEADER + LONG.replace("x", text) + f"8,alpha,{text}\n")
        done = channel.send()
        tally.check(f"a slot after a new number, {text}", channel.take() and done[0] == 0, done)
    aside = [pages_of((channel.folder / f"oversized.{number}.csv").read_bytes())[0][2][0] for number in (1, 2, 3)]
    tally.check("all pages that were set aside are there", aside == texts, os.listdir(channel.folder))
    tally.check("and all that was kept", [slot[0][2] for slot in channel.kept()] == texts, os.listdir(channel.folder))


def try_other_owner(tally, folder):
    """What the superuser left who ran a script once, or whose run was killed, does not block the channel of another user."""
    others = as_nobody(folder) and as_nobody(TOP)  # where the scripts are
    if not others:
        print("left out: the channel of another user, which wants the superuser, and a repository that all can enter")
        return
    room = folder / "other owner"
    commands = turns_of(Channel(room / "turns"))
    for turn in range(len(commands) + 1):
        channel = Channel(room / str(turn))
        channel.fill()
        for path in (channel.room, *channel.room.rglob("*")):
            os.chown(path, 65534, 65534, follow_symlinks=False)
        channel.add(at=turn, fault=KILLS[3])
        channel.send(at=turn, fault=KILLS[3])
        for path in ("slot.cert", "queue.rest", "plan.bin", "queue.new"):
            (channel.folder / path).touch()
        is_good = channel.take()
        added = channel.add(trace=others)
        sent = [channel.send(trace=others) for _ in range(2)]
        holds = is_good and channel.take() and added == DONE and sent == 2 * [DONE] and channel.is_balanced()
        tally.check(f"another user after the superuser's run, ended at {turn}", holds, (added, sent, channel.told()))


def try_again(tally, folder):
    """A pager is called several times: its pages go out in the order of the queue, one in each slot."""
    channel = Channel(folder / "again", options="--at-most 9")
    pages = [("8", "alpha", "one"), ("16", "tone1", ""), ("8", "alpha", "two"), ("8", "tone2", ""), ("16", "numeric", "3")]
    for page in pages:
        tally.check_same(f"enqueue {page}", channel.run("enqueue", *page), DONE)
    for due in ([pages[0], pages[1]], [pages[2], pages[4]], [pages[3]]):
        done = channel.send()
        is_good = channel.take()
        tally.check(f"a slot of {due}", is_good and done == DONE and sorted(channel.slots[-1]) == sorted(due), (done, channel.slots[-1:]))
    tally.check("the queue is empty", not channel.waiting() and channel.send() == DONE, channel.told())


def try_oversized(tally, folder):
    """A page that no slot carries stops nothing: it is in one file of its own, however often next-slot is ended."""
    page = LONG.strip().split(",")
    for number, how in enumerate(("", *KILLS)):
        channel = Channel(folder / f"oversized {number}")
        commands = turns_of(channel)
        for turn in range(1, len(commands) + 4) if how else [0]:
            channel.take()
            channel.fill()
            queue = channel.folder / "queue.csv"
            header, first, *others = queue.read_text().splitlines(True)
            queue.write_text(header + LONG + first + "".join(others) if turn % 2 else header + first + LONG + "".join(others))
            done = channel.send(at=turn, fault=how) if how else channel.send()
            if not how:
                due = "next-slot: pages that no slot carries are in oversized.2.csv\n"
                tally.check("an oversized page is told", done == (0, "", due), done)
            is_good = channel.take()
            last = channel.send()
            is_good &= channel.take()
            files = list(channel.folder.glob("oversized.*.csv"))
            set_aside = [row for file in files for row in pages_of(file.read_bytes())]
            holds = is_good and last[0] == 0 and set_aside == [tuple(page)] and channel.is_balanced()
            tally.check(f"an oversized page: {how} at {turn}", holds, (last, files, channel.told()))
            for file in files:
                file.unlink()


def main(_words):
    return run_parts(try_random) if ASKED else run_all(sys.modules[__name__])
