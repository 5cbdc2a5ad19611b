"""A folder with a queue, its transmitter, and faults in the commands that `next-slot` and `enqueue` start."""

import collections
import os
import re
import shutil
import subprocess

from codewords import rows_of
from tally import PROGRAM, TOP, call, put_script, run, said

COMMANDS = ("cp", "find", "flock", "head", "ls", "mv", "rm", "sync", "tail", "tr", "wc", "xargs")
HEADER = "address,kind,message\n"
# Stands in PATH for each command. It lists the commands that a script starts, and gives the one whose turn it is the fault.
STAND_IN = """#!/bin/sh
real=$ROOM/real/${0##*/}
echo "${0##*/}" >> "$ROOM/started"
read -r turn < "$ROOM/turn"
turn=$((turn + 1))
echo "$turn" > "$ROOM/turn"
[ "$AT" = "$turn" ] || [ "$AT" = each ] || exec "$real" "$@"
eval "$FAULT"
"""
# Kills without strace: of the command, or of all that the script started; before the command, or behind it.
KILLS = ("kill -9 $$", '"$real" "$@"; kill -9 $$', "kill -9 0", '"$real" "$@"; kill -9 0')
TRACE = ["strace", "-qq", "-o"]
# Calls that change nothing outside their process: a kill there leaves what a kill at the next other call leaves.
IDLE = """access arch_prctl brk capget close dup dup2 dup3 faccessat faccessat2 fadvise64 fcntl fstat fstatfs futex getcwd getdents64
getegid geteuid getgid getpid getppid getrandom getuid ioctl lseek mmap mprotect munmap newfstatat pipe pipe2 poll pread64 prlimit64
read readlink rseq rt_sigaction rt_sigprocmask rt_sigreturn sched_getaffinity set_robust_list set_tid_address sigaltstack statfs statx
sysinfo umask uname""".split()
# Calls that the system may refuse: of the commands those for files, of the shell those that start commands.
OF_FILES = "copy_file_range fsync ftruncate getdents64 link rename renameat renameat2 unlink unlinkat write".split()
OF_SHELL = "clone clone3 fork vfork".split()


class Call:
    """A system call of a script: the call of that name with that number, of the command whose turn it is, or of the shell (turn 0)."""

    def __init__(self, turn, name, number, words):
        self.turn, self.name, self.number = turn, name, number
        opens = name == "openat"
        self.is_idle = name in IDLE or opens and not re.search("O_WRONLY|O_RDWR|O_CREAT", words)
        self.can_fail = opens and re.match('AT_FDCWD, "[^/]', words) or name in (OF_FILES if turn else OF_SHELL)

    def __str__(self):
        return f"turn {self.turn} {self.name} {self.number}"

    def fault(self, what):
        """What `run` needs to give it a fault, such as signal=KILL."""
        words = [*TRACE, "/dev/null", "-e", f"trace={self.name}", "-e", f"inject={self.name}:{what}:when={self.number}"]
        return {"at": self.turn, "fault": f'exec {" ".join(words)} "$real" "$@"'} if self.turn else {"trace": words}


class Channel:
    """The queue, the pages that were added to it, and what the transmitter took, slot by slot."""

    def __init__(self, room, folder=None, outgoing=None, options="--at-most 1"):
        self.room, self.folder = room, folder or room / "paging"
        self.outgoing = outgoing or self.folder / "outgoing"
        for part in (room / "bin", room / "real", self.folder, self.outgoing):
            part.mkdir(parents=True, exist_ok=True)
        if outgoing:
            (self.folder / "outgoing").symlink_to(outgoing)
        for command in (*COMMANDS, "pocsag"):
            (room / "real" / command).symlink_to(PROGRAM if command == "pocsag" else shutil.which(command))
            put_script(room / "bin" / command, STAND_IN)
        (self.outgoing / ".number").write_text("0\n")
        (self.folder / "slot.options").write_text(f"{options}\n")
        (self.folder / "queue.csv").write_text(HEADER)
        self.added, self.slots, self.last = [], [], ""

    def start(self, script, *words, at=None, fault="", trace=(), **more):
        """Starts a script in a session of its own; where `at` is given, over the stand-ins."""
        if at is not None:
            (self.room / "turn").write_text("0\n")
            (self.room / "started").write_text("")
        commands = self.room / ("real" if at is None else "bin")
        path = f"{commands}:{os.environ['PATH']}"
        environment = dict(os.environ, PATH=path, LC_ALL="C", ROOM=str(self.room), AT=str(at), FAULT=fault)
        how = {"cwd": self.folder, "env": environment, "stdout": subprocess.PIPE, "stderr": subprocess.PIPE, "text": True, "start_new_session": True}
        return subprocess.Popen([*trace, str(TOP / "examples" / script), *words], **(how | more))

    def run(self, script, *words, **more):
        """The status of a script, and what it and all that it started print."""
        process = self.start(script, *words, **more)
        out, err = process.communicate(timeout=120)
        return process.returncode, out, err

    def run_program(self, *words):
        """The status of the program, and what it prints."""
        return said(run(words, self.folder, subprocess.DEVNULL, text=True))

    def send(self, **more):
        return self.run("next-slot", **more)

    def started(self):
        """The commands that the last script started over the stand-ins."""
        return (self.room / "started").read_text().split()

    def next_page(self):
        number = len(self.added)
        return str(8 * number + number % 5), "numeric", str(10**9 + number)

    def add(self, **more):
        """Adds a page, which counts as added if the script says so or the queue has it."""
        page = self.next_page()
        done = self.run("enqueue", *page, **more)
        if done[0] == 0 or page in self.waiting():
            self.added.append(page)
        return done

    def fill(self):
        """Has some pages wait, where no slot is under way."""
        with (self.folder / "queue.csv").open("a") as queue:
            for _ in range(4 - len(self.waiting())):
                self.added.append(self.next_page())
                queue.write(",".join(self.added[-1]) + "\n")

    def waiting(self):
        """The pages that wait behind what was sent and what is planned."""
        is_planned = (self.folder / "slot.bin").exists() and (self.folder / "rest.csv").exists()
        return pages_of((self.folder / ("rest.csv" if is_planned else "queue.csv")).read_bytes())

    def take(self):
        """Takes all that a transmitter would, and gives whether each file is a transmission with a number above the last one."""
        are_good = True
        for path in sorted(self.outgoing.glob("[!.]*")):
            listed = run(["decode", path])
            self.slots.append(pages_of(listed.stdout))
            is_named = re.fullmatch(r"\d{8}\.bin", path.name) and path.name > self.last
            are_good &= listed.returncode == 0 and bool(is_named)
            self.last = path.name
            path.unlink()
        return are_good

    def is_balanced(self):
        """Whether no slot is under way, and each page that was added was sent once or waits once, in order."""
        sent = [page for slot in self.slots for page in sorted(slot, key=lambda it: int(it[0]))]
        under_way = {"slot.bin", "slot.sent", "rest.csv", "over.csv"} & {*os.listdir(self.folder)}
        return not under_way and sent + self.waiting() == self.added and self.kept() == self.slots

    def kept(self):
        """The pages of each slot that `next-slot` kept, in the order of their numbers. Each has all three files."""
        numbers = sorted(int(path.suffixes[0][1:]) for path in self.folder.glob("sent.*.bin"))
        files = {f"sent.{number}.{ending}" for number in numbers for ending in ("bin", "cert", "csv")}
        assert files == {name for name in os.listdir(self.folder) if name.startswith("sent.")}, os.listdir(self.folder)
        return [pages_of((self.folder / f"sent.{number}.csv").read_bytes()) for number in numbers]

    def told(self):
        return self.slots[-3:], self.waiting()[:3], len(self.added), os.listdir(self.folder), os.listdir(self.outgoing)


def pages_of(file):
    """The pages of a page file."""
    return [tuple(row) for row in rows_of(file)[1:]]


def can_trace():
    """Whether strace is installed, and may trace."""
    return bool(shutil.which("strace")) and call(*TRACE, "/dev/null", "true").returncode == 0


def calls_of(channel, script, *words):
    """The system calls of a run of the script: those of its shell, and those of each command that it starts."""
    fault = f'exec {" ".join(TRACE)} "$ROOM/trace.$turn" "$real" "$@"'
    channel.run(script, *words, at="each", fault=fault, trace=[*TRACE, str(channel.room / "trace.0")])
    found = []
    for path in sorted(channel.room.glob("trace.*")):
        counts = collections.Counter()
        for name, rest in re.findall(r"^(\w+)\((.*)", path.read_text(), re.M):
            counts[name] += 1
            if (name, counts[name]) != ("execve", 1):  # that one is strace's own
                found.append(Call(int(path.suffix[1:]), name, counts[name], rest))
        path.unlink()
    return found
