"""Runs the compiled program as an operator does: `--keep` under kills and refused calls, pipes, terminals, and each
command of docs/OPERATION.md. The scripts of its queue have a test of their own, queues.py.

Where `strace` is missing, the kills at single system calls are left out.
"""

import os
import random
import re
import shutil
import signal
import socket
import stat
import subprocess
import sys
import time

import doors
import turns
from codewords import APART, HEADER
from doors import OLD, TONE, fresh, names, stand
from tally import ANY, CANNOT_OPEN, CANNOT_WRITE, NAMED_TWICE, PLAN, PROGRAM, TOP
from tally import at_terminal, call, fault, faulty, put, put_script, room_in, run
from workspace import module_at

PARTS_OF = (doors, turns)
KILLS = 200
papers = module_at("papers", TOP / "tests/papers/run.py")


def planned(folder, file, name):
    """What `plan` writes of a page file, in two files of their own."""
    room = room_in(folder, name, {"pages.csv": file})
    assert run(PLAN, room).returncode == 0
    return stand(room)


def try_keep(tally, folder):
    """`--keep` where nothing fails, and where something is refused."""
    room, due = fresh(folder, "keep"), planned(folder, TONE, "due")
    (room / "tx.bin").chmod(0o640)
    before = names(room)
    for file, *more in (["bad.csv"], ["apart.csv", "--limit", "1"], ["none.csv"]):
        done = run(["plan", file, "tx.bin", "cert.bin", "--keep", *more], room)
        holds = done.returncode in (1, 3) and stand(room) == OLD and names(room) == before
        tally.check(f"--keep keeps the old files: {file} {more}", holds, (done, names(room)))
    done = run(["plan", "pages.csv", "tx.bin", "none/cert.bin", "--keep"], room)
    tally.check_done("--keep with a certificate in no folder", done, 3, b"", CANNOT_OPEN, stand(room) == OLD and names(room) == before)
    done = run([*PLAN, "--keep", "--verify"], room)
    holds = stand(room) == due and names(room) == before
    tally.check_done("--keep puts both in place", done, 0, b"pages 1\nbatches 1\nverified\n", b"", holds)
    tally.check_same("--keep keeps the rights", stat.S_IMODE((room / "tx.bin").stat().st_mode), 0o640)
    done = run(["plan", "pages.csv", "new.bin", "new.cert", "--keep"], room)
    made = (room / "new.bin").read_bytes(), (room / "new.cert").read_bytes()
    tally.check_done("--keep makes new files", done, 0, ANY, ANY, made == due)
    (room / "link.bin").symlink_to("tx.bin")
    os.mkfifo(room / "fifo")
    for place in ("link.bin", "fifo", "/dev/null", "-"):
        for words in (["pages.csv", place, "cert.bin"], ["pages.csv", "tx.bin", place]):
            tally.check_usage(f"--keep wants a regular file: {words}", run(["plan", *words, "--keep"], room), b"error: --keep ", stand(room) == due)
    for words in (["pages.csv", "pages.csv", "c"], ["pages.csv", "./pages.csv", "c"], ["pages.csv", "a", "./a"], ["pages.csv", "a", "a"]):
        done, is_kept = run(["plan", *words, "--keep"], room), (room / "pages.csv").read_bytes() == TONE
        tally.check_done(f"--keep and one file twice: {words}", done, 1, ANY, NAMED_TWICE, is_kept and not list(room.glob("*.new")))


def try_keep_open(tally, folder):
    """`open --keep`: a plan line that is refused leaves the old files, one that is answered replaces both."""
    room, due = fresh(folder, "keep open"), planned(folder, TONE, "due open")
    (room / "link.bin").symlink_to("tx.bin")
    os.mkfifo(room / "fifo")
    before = names(room)
    lines = b"plan,tx.bin,cert.bin\nadd,8,tone0,\nplan,tx.bin,none/cert.bin\nplan,none/tx.bin,cert.bin\nplan,link.bin,cert.bin\n"
    lines += b"plan,tx.bin,fifo\nplan,tx.bin,tx.bin\nplan,a,./a\nplan,-,cert.bin\n"
    told = b"refused: there are no pages\nok 1\n" + 4 * b"refused: cannot read or open a file\n"
    told += 3 * b"refused: the same file is named twice\n"
    done = run(["open", "--keep"], room, lines)
    tally.check_done("open --keep, refused", done, 0, told, b"", stand(room) == OLD and names(room) == before)
    done = run(["open", "--keep", "pages.csv"], room, 2 * b"plan,tx.bin,cert.bin\n")
    holds = stand(room) == due and not list(room.glob("*.new"))
    tally.check_done("open --keep puts both in place", done, 0, 2 * b"batches 1\n", b"", holds)
    for number in (1, 2) if shutil.which("strace") else ():
        room = fresh(folder, f"keep open {number}")
        done = run(["open", "--keep", "pages.csv"], room, b"plan,tx.bin,cert.bin\n", faulty("rename", f"error=EIO:when={number}"))
        holds = is_one_of(stand(room), OLD, due) and not list(room.glob("*.new"))
        tally.check_done(f"open --keep where renaming {number} fails", done, ANY, b"refused: cannot write\n", ANY, holds)


def is_one_of(now, before, due):
    """Both files are old or new, each whole, and a new transmission never stands beside an old certificate."""
    sent, shown = now
    return sent in (before[0], due[0]) and shown in (before[1], due[1]) and (sent != due[0] or shown == due[1])


def try_kills(tally, folder):
    """The program is ended at random moments, while it puts now one plan and now another in place; the same of the plan
    lines of an open round."""
    kill_often(tally, folder / "kills", [str(PROGRAM), *PLAN, "--keep"], b"", KILLS)
    kill_often(tally, folder / "kills of open", [str(PROGRAM), "open", "pages.csv", "--keep"], b"plan,tx.bin,cert.bin\n", KILLS // 4)


def kill_often(tally, room, words, lines, kills):
    """Ends the command at random moments, its page file now this one and now that one. What is waited for at most follows
    how long the command takes, which depends on what else runs on this machine. A command that reads `lines` runs on."""
    room.mkdir()
    files = [HEADER + b"".join(b"%d,numeric,%d\n" % (k, 10**9 + k + n) for k in range(4000)) for n in (0, 5000)]
    dues = [planned(room, file, f"due {n}") for n, file in enumerate(files)]
    (room / "pages.csv").write_bytes(files[0])
    start = time.monotonic()
    call(*words, cwd=room, input=lines, check=True)
    longest, chance, ended = 1.3 * (time.monotonic() - start), random.Random(28), 0
    for number in range(kills):
        before, due = stand(room), dues[number % 2]
        (room / "pages.csv").write_bytes(files[number % 2])
        how = {"cwd": room, "stdin": subprocess.PIPE, "stdout": subprocess.DEVNULL, "stderr": subprocess.DEVNULL}
        # It is to end on SIGINT also where a shell started all of this in the background, which has that ignored.
        process = subprocess.Popen(words, preexec_fn=lambda: signal.signal(signal.SIGINT, signal.SIG_DFL), **how)
        process.stdin.write(lines)
        process.stdin.flush()
        time.sleep(chance.uniform(0, longest))
        process.send_signal(chance.choice([signal.SIGKILL, signal.SIGINT, signal.SIGTERM]))
        is_ended = process.wait(60) != 0
        ended += is_ended
        longest *= 1 if lines else 1.2 if is_ended else 0.7
        process.stdin.close()
        tally.check(f"ended at a random moment, {words[1]} {number}", is_one_of(stand(room), before, due))
    tally.check(f"some of {words[1]} were ended", 0 < ended and (ended < kills or lines), ended)
    call(*words, cwd=room, input=lines, check=True)
    tally.check(f"what they left is gone behind the next run of {words[1]}", not list(room.glob("*.pocsag.*")), names(room))


def try_single_calls(tally, folder):
    """It is ended at each call that makes, synchronises or renames a file, and each of them fails once."""
    if not shutil.which("strace"):
        return
    due = planned(folder, APART, "due apart")
    for call in ("openat", "fchmod", "fsync", "rename,renameat,renameat2", "write", "unlink,unlinkat"):
        for what in ("signal=KILL", "error=EIO"):
            for number in range(1, 30):
                room = fresh(folder, f"{call[:6]} {what} {number}")
                words = ["plan", "apart.csv", "tx.bin", "cert.bin", "--keep"]
                done = run(words, room, before=faulty(call, f"{what}:when={number}", "trace"))
                reached = "INJECTED" in (room / "trace").read_text() or done.returncode < 0 or done.returncode == 137
                now = stand(room)
                tally.check(f"{what} at {call} {number}", is_one_of(now, OLD, due), (done, now))
                tally.check(f"its status at {what}, {call} {number}", done.returncode or now == due, done)
                shutil.rmtree(room)
                if not reached:
                    break


def try_order(tally, folder):
    """Each new name is brought to the disk before the next file is renamed, in each of four folders."""
    if not shutil.which("strace"):
        return
    places = ["rest/rest.csv", "why/why.bin", "cert/cert.bin", "tx/tx.bin"]
    for number, has_old in enumerate((False, True)):
        room = fresh(folder, f"order {number}")
        for place in places:
            (room / place).parent.mkdir()
            if has_old:
                (room / place).write_bytes(b"older")
        trace = ["strace", "-y", "-qq", "-o", "trace", "-e", "trace=rename,renameat,renameat2,fsync"]
        words = ["plan", "apart.csv", places[3], places[2], "--at-most", "2", "--rest", places[0], "--why", places[1], "--keep"]
        done = run(words, room, before=trace)
        steps = []
        for line in (room / "trace").read_text().splitlines():
            if line.startswith("rename"):
                steps.append(("renamed", re.findall(r'"([^"]*)"', line)[-1]))
            else:
                steps.append(("synchronised", os.path.relpath(re.search(r"<([^>]*)>", line)[1], os.path.realpath(room))))
        files = [name.rsplit(".pocsag.", 1)[0] for _, name in steps[:4]]
        tally.check(f"first the files {has_old}", done.returncode == 0 and files == places, (done, steps))
        due = [step for place in places for step in (("renamed", place), ("synchronised", os.path.dirname(place)))]
        tally.check(f"then name by name {has_old}", steps[4:] == due, steps)


def try_verify(tally, folder):
    """`--verify` says at once that a pipe or a device cannot be read again."""
    room = fresh(folder, "verify")
    os.mkfifo(room / "fifo")
    for words in (["fifo", "tx.bin", "cert.bin"], ["pages.csv", "fifo", "cert.bin"], ["pages.csv", "tx.bin", "fifo"],
                  ["/dev/stdin", "tx.bin", "cert.bin"], ["pages.csv", "/dev/stdout", "cert.bin"], ["pages.csv", "/dev/null", "c"],
                  ["-", "tx.bin", "cert.bin"], ["pages.csv", "-", "cert.bin"], ["pages.csv", "tx.bin", "-"]):
        done = run(["plan", *words, "--verify"], room, TONE)
        tally.check_usage(f"--verify wants regular files: {words}", done, b"error: --verify ", stand(room) == OLD)
    tally.check_done("--verify of no file", run(["plan", "none.csv", "tx.bin", "cert.bin", "--verify"], room), 3, b"", CANNOT_OPEN)


def try_pipes(tally, folder):
    """`-` is standard input or standard output."""
    room = fresh(folder, "pipes")
    due, due_cert = planned(folder, APART, "due pipes")
    counts = b"pages 2\nbatches 3\n"
    cases = [
        (["plan", "-", "-", "c.bin"], APART, 0, due, counts),
        (["plan", "apart.csv", "-", "c.bin"], b"", 0, due, counts),
        (["plan", "-", "t.bin", "-"], APART, 0, due_cert, counts),
        (["plan", "-", "t.bin", "c.bin"], APART, 0, counts, b""),
        (["plan", "-", "-", "c.bin", "--always"], APART, 0, due, counts),
    ]
    for words, given, *told in cases:
        tally.check_done(f"pipes {words}", run(words, room, given), *told)
    tally.check("nothing is called -", not (room / "-").exists() and (room / "c.bin").read_bytes() == due_cert)
    (room / "tx.bin").write_bytes(due)
    files = {due: "tx.bin", APART: "apart.csv", due_cert: "c.bin"}
    for words, given in (
        ("decode -", due), ("hear 3 -", due), ("show -", due), ("show --list -", due), ("wav -", due), ("report --rate 512 -", APART),
        ("explain - c.bin", APART), ("explain apart.csv -", due_cert), ("check - c.bin", APART), ("check apart.csv -", due_cert),
    ):  # fmt: skip
        wanted = run([files[given] if it == "-" else it for it in words.split()], room)
        tally.check_done(words, run(words.split(), room, given), 0, wanted.stdout, b"", wanted.returncode == 0)
    ours, theirs = socket.socketpair()
    process = subprocess.Popen([str(PROGRAM), "plan", "-", "-", "s.bin"], cwd=room, stdin=theirs, stdout=theirs, stderr=subprocess.PIPE)
    theirs.close()
    ours.sendall(APART)
    ours.shutdown(socket.SHUT_WR)
    got = b""
    while piece := ours.recv(65536):
        got += piece
    tally.check("over one socket", got == due and process.wait(60) == 0 and process.stderr.read() == counts, got)
    script = f"'{PROGRAM}' plan - - d.bin < apart.csv 2>lines | '{PROGRAM}' decode - > listed && '{PROGRAM}' check - d.bin < listed"
    done = call("sh", "-c", script, cwd=room)
    tally.check("a pipeline", done.stdout == b"at least 3 batches\n" and (room / "lines").read_bytes() == counts, done)
    (room / "-").write_bytes(TONE)
    tally.check_done("a file called -", run(["plan", "./-", "t.bin", "c.bin"], room), 0, b"pages 1\nbatches 1\n")


def try_terminal(tally, folder):
    """With no words at a terminal it says what it waits for."""
    try:
        status, out, err = at_terminal([str(PROGRAM)], folder, TONE)
    except OSError as why:
        print(f"skipped: a bare pocsag at a terminal, since there is no pseudo terminal: {why}")
        return
    holds = (status, out) == (0, b"pages 1\nbatches 1\n") and err.startswith(b"reading a page file from standard input; ")
    tally.check("a bare pocsag at a terminal", holds and err.count(b"\n") == 1, (out, err))
    tally.check_done("and none at a pipe", run([], folder, TONE), 0, b"pages 1\nbatches 1\n")


# For the commands of the page that want other machines: `ssh` runs its command here, and `parallel` runs the command of
# each line in turn. `./install` is the one of the repository.
STAND_INS = {
    "bin/ssh": '#!/bin/sh\nshift\nexec "$@"\n',
    "bin/parallel": """#!/bin/sh
while [ "${1#--}" != "$1" ]; do shift 2; done
while read -r line; do
    (for word; do shift; set -- "$@" "$(echo "$word" | sed "s|{}|$line|; s|{\\.}|${line%.*}|")"; done; "$@") || exit
done
""",
    "install": f'#!/bin/sh\nexec {TOP}/install "$@"\n',
}


def room_of_the_page(folder, name):
    """A folder with what the page's commands are given, and the program in PATH."""
    room, environment = papers.fresh(folder, name)
    put(room, dict.fromkeys(("round.csv", *(f"channels/{number}.csv" for number in range(3))), APART))
    for path, text in STAND_INS.items():
        put_script(room / path, text)
    return room, environment | {"PATH": f"{room}/bin:{room}/usr/bin:{os.environ['PATH']}"}


def try_page(tally, folder):
    """Each command of docs/OPERATION.md runs, and prints what the page says."""
    room, environment = room_of_the_page(folder, "page")
    shells, pythons, inis, crontabs, parts = (papers.blocks(TOP / "docs/OPERATION.md", it) for it in ("bash", "python", "ini", "crontab", "sh"))
    tally.check("the page has commands", len(shells) > 4 and len(pythons) == 1, (len(shells), len(pythons)))
    for kind, words, texts in (("bash", papers.BASH, shells), ("python", [sys.executable, "-c"], pythons)):
        for text in texts:
            text = text.replace("/usr/local", str(room / "usr")).replace("/srv/paging", str(room))
            papers.check_block(tally, kind, words, text, room, environment)
    tally.check("./install of the page", (room / "usr/bin/pocsag").read_bytes() == PROGRAM.read_bytes(), os.listdir(room))
    due, due_cert = planned(folder, APART, "due ssh")
    holds = (room / "sent.bin").read_bytes() == due and (room / "c.bin").read_bytes() == due_cert
    tally.check("the line with ssh writes both", holds, os.listdir(room))
    sent = {(room / f"channels/{number}.bin").read_bytes() for number in range(3)}
    tally.check("the line with parallel plans each channel", {len(it) for it in sent} == {len(due)}, os.listdir(room / "channels"))
    for text in inis + crontabs:
        for line in re.findall(r"^(?:ExecStart=|(?:\S+ ){5})(.*)$", text, re.M):
            line = line.replace("/srv/paging", str(room)).replace("/usr/local", str(room / "usr"))
            tally.check_done(f"unit: {line}", call("sh", "-c", line, cwd=room, env=environment), 0, ANY, ANY)
    for text in parts:
        tally.check("the part of next-slot that the page shows", text in (TOP / "examples/next-slot").read_text(), text)


def try_recipe(tally, folder):
    """README's recipe for many channels, as it stands there, over a hundred of which one is bad and the
    transmission of another cannot be put in place: both are named, and all others are planned."""
    room, environment = room_of_the_page(folder, "recipe")
    recipe = [text for text in papers.blocks(TOP / "README.md", "bash") if "xargs" in text]
    tally.check("README has one recipe", len(recipe) == 1, recipe)
    for number in range(100):
        (room / f"channels/{number}.csv").write_bytes(APART)
    (room / "channels/57.csv").write_bytes(HEADER + b"8,tone0,\n9,alfa,Fire\n")
    (room / "channels/58.bin").mkdir()
    done = call("bash", "-c", recipe[0], cwd=room, env=environment)
    wanted = CANNOT_WRITE + fault("page file channels/57.csv: line 3: 9,alfa,Fire") + fault("record 2: unknown kind")
    wanted += fault("transmission channels/58.bin: Is a directory (os error 21)")
    lines = sorted(done.stderr.splitlines(True))
    tally.check("the recipe names the bad ones", done.returncode != 0 and lines == wanted.splitlines(True), done.stderr)
    made = [path for path in (room / "channels").glob("*.cert") if path.name != "58.cert"]
    due, _ = planned(folder, APART, "due recipe")
    tally.check("and plans the others", [path.with_suffix(".bin").read_bytes() for path in made] == 98 * [due], made)
