"""What the tests of the repository share."""

import contextlib
import itertools
import os
import pathlib
import re
import resource
import shutil
import subprocess
import tempfile

TOP = pathlib.Path(__file__).resolve().parents[1]
# The program as the gate left it, or another one, and where the C library is taken from, where it is not built.
PROGRAM = pathlib.Path(os.environ.get("POCSAG_PROGRAM") or TOP / "crates/pocsag_app/out/pocsag_app")
LIBRARY = os.environ.get("POCSAG_LIBRARY")
# Where the system has files in memory, or None: there a small file that is written again and again waits for no disk.
MEMORY = "/dev/shm" if os.access("/dev/shm", os.W_OK) else None
# Whether an emulator runs the program: then one of so many cases is tried, and no file is of the largest size.
ONE_IN = int(os.environ.get("POCSAG_ONE_IN") or 1)
IS_EMULATED = ONE_IN > 1
# The words that ask `plan` and `report` for each end.
ENDS = {"open": ["--end", "open"], "closed": ["--end", "closed"], "idle": ["--idle-last"]}


def run(words, folder=None, stdin=b"", before=(), **more):
    """A run of the program with these words in a folder, with bytes or a file as its input; behind other words, which start it."""
    given = {"input" if isinstance(stdin, bytes) else "stdin": stdin}
    how = {"stdout": subprocess.PIPE, "stderr": subprocess.PIPE, "cwd": folder, "capture_output": False, "timeout": 300}
    return call(*before, PROGRAM, *words, **(given | how | more))


def said(done):
    """What a run ended with and printed."""
    return done.returncode, done.stdout, done.stderr


def brief(done):
    """What is shown of a run that failed."""
    return done.args, done.returncode, *((text or b"")[:2000] for text in (done.stdout, done.stderr))


def fault(text):
    """How the program tells a fault."""
    return f"pocsag: {text}\n".encode()


class Text:
    """Is equal to each text for which this holds: what `check_done` is given where a text is not due to the letter."""

    def __init__(self, holds):
        self.holds = holds

    def __eq__(self, text):
        return bool(self.holds(text))


ANY = Text(lambda _: True)
# Faults that each command may tell.
CANNOT_OPEN, CANNOT_WRITE, NAMED_TWICE = map(fault, ("cannot read or open a file", "cannot write", "the same file is named twice"))
BAD_LIMIT, BAD_RATE = map(fault, ("the limit must be 1 to 1000000", "the rate must be 512, 1200 or 2400"))
TOO_LARGE = fault("the file is too large")
NO_OWNER = fault("the new file cannot be given the owner, group and mode of the old one")
# The words of a plan.
PLAN = ["plan", "pages.csv", "tx.bin", "cert.bin"]


def faulty(calls, what, trace="/dev/null"):
    """The words that start a program of whose calls of the system some meet a fault, as `error=EIO:when=2`."""
    return ["strace", "-f", "-qq", "-o", str(trace), "-e", f"trace={calls}", "-e", f"inject={calls}:{what}"]


def room_in(folder, name, files=None):
    """A new folder in this one, with these files."""
    room = folder / name
    room.mkdir()
    return put(room, files or {})


def files_of(folder):
    """What the files of a folder and of those in it hold, by their paths."""
    return {str(path.relative_to(folder)): path.read_bytes() for path in folder.rglob("*") if path.is_file()}


def make_huge(path, front=b""):
    """A file of 300 MB that begins so, which is more than any file may have."""
    path.write_bytes(front)
    os.truncate(path, 300_000_000)


def sampled(cases, one_in=ONE_IN):
    """The cases, or in an emulator one of so many."""
    return itertools.islice(cases, 0, None, one_in if IS_EMULATED else 1)


class Tally:
    """Counts what passed and what failed, and shows what failed."""

    def __init__(self):
        self.passed = 0
        self.failed = 0
        self.names = set()

    def check(self, name, holds, told=""):
        self.names.add(name)
        if holds:
            self.passed += 1
        else:
            self.failed += 1
            print(f"FAILED {name}: {told}")

    def check_same(self, name, found, due):
        """Whether what was found is what is due."""
        self.check(name, found == due, (found, due))

    def check_none(self, name, found):
        """Whether nothing was found."""
        self.check(name, not found, found)

    def check_done(self, name, done, status=0, out=b"", err=b"", also=True):
        """Whether a run ended with this status and printed this alone, and what else has to hold."""
        self.check(name, said(done) == (status, out, err) and also, (brief(done), also))

    def check_usage(self, name, done, told=b"error: ", also=True):
        """Whether words were refused as usage, by an error that begins so and by nothing else, and what else has to hold."""
        self.check(name, (done.returncode, done.stdout) == (2, b"") and done.stderr.startswith(told) and also, (brief(done), also))

    def check_full(self, name, words, folder):
        """Whether a run tells that its standard output is a full device."""
        with open("/dev/full", "wb") as full:
            done = run(words, folder, stdout=full)
        self.check_done(name, done, 3, None, CANNOT_WRITE)

    def check_run(self, name, done, status, out, *said):
        """Whether a run, as (status, output, errors), ended with this status and output, and its errors say all of this."""
        self.check(name, done[:2] == (status, out) and all(it in done[2] for it in said), done)

    def skip(self, why):
        """Says why nothing is tried, which counts as one thing that passed."""
        print(f"skipped: {why}")
        self.passed += 1

    def end(self):
        """The last line, and the exit status."""
        print(f"{self.passed} passed, {self.failed} failed")
        return 0 if self.failed == 0 else 1


def run_parts(*parts):
    """Runs each part with a tally and an empty folder, which other users can enter; gives the exit status."""
    tally = Tally()
    for part in parts:
        with tempfile.TemporaryDirectory() as name:
            folder = pathlib.Path(name).resolve()
            folder.chmod(0o755)
            part(tally, folder)
    return tally.end()


def run_all(script):
    """The same of each function of a script, and of the modules in its PARTS_OF, whose name begins with `try_`, in their order; or of
    its `try_all` alone, which calls the others."""
    if hasattr(script, "try_all"):
        return run_parts(script.try_all)
    named = [(module, name, it) for module in (script, *getattr(script, "PARTS_OF", ())) for name, it in vars(module).items()]
    return run_parts(*(it for module, name, it in named if name.startswith("try_") and it.__module__ == module.__name__))


def as_nobody(folder):
    """The words that run a command as a user without rights, where we are the superuser and such a user can enter the folder."""
    words = ["setpriv", "--reuid=65534", "--regid=65534", "--clear-groups"]
    if os.geteuid() or not shutil.which(words[0]):
        return []
    words[0] = shutil.which(words[0])
    can_enter = subprocess.run([*words, "test", "-x", str(folder)], stdout=subprocess.DEVNULL, stderr=subprocess.DEVNULL).returncode == 0
    return words if can_enter else []


@contextlib.contextmanager
def own_disk(folder, options):
    """A folder with a file system of its own in memory, for which `mount` is given these options; nothing where none can be mounted."""
    folder.mkdir(exist_ok=True)
    words = ["mount", "-t", "tmpfs", "-o", options, "pocsag", str(folder)]
    is_mounted = bool(shutil.which(words[0])) and subprocess.run(words, capture_output=True).returncode == 0
    try:
        yield folder if is_mounted else None
    finally:
        if is_mounted:
            subprocess.run(["umount", "-l", str(folder)], check=True)


def with_most_bytes(size):
    """How a program is started that may make no file longer than this."""
    return {"preexec_fn": lambda: resource.setrlimit(resource.RLIMIT_FSIZE, (size, size)), "restore_signals": False}


def at_terminal(command, folder, text):
    """What a command does and prints whose standard input is a terminal that gives this text and then ends it."""
    ours, theirs = os.openpty()
    os.write(ours, text + b"\x04")
    done = subprocess.run(command, cwd=folder, stdin=theirs, capture_output=True, timeout=60)
    os.close(ours), os.close(theirs)
    return said(done)


def put(folder, files):
    """Writes files, texts or bytes, by their paths in a folder; gives the folder."""
    for path, data in files.items():
        (folder / path).parent.mkdir(parents=True, exist_ok=True)
        (folder / path).write_bytes(data if isinstance(data, bytes) else data.encode())
    return folder


def put_script(path, text):
    """Writes a program that anybody may run; gives its path."""
    path.write_text(text)
    path.chmod(0o755)
    return path


def samples(file):
    """The texts of a file of samples by their paths, each of which stands behind `====` in a line of its own."""
    parts = re.split(r"^==== (.*)\n", file.read_text(), flags=re.MULTILINE)
    return dict(zip(parts[1::2], parts[2::2]))


def call(*words, **how):
    """A run of a command by words, paths and numbers, with what it printed."""
    words = [str(word) if isinstance(word, int) else word for word in words]
    return subprocess.run(words, **({"capture_output": True, "timeout": 600} | how))
