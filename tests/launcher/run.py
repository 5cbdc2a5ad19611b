"""Runs the script `pocsag` at the top of the repository with a stand-in for the toolchain's `rt`.

The stand-in writes down how it was called and makes a small program in place of the proved one, so that each way in
which a build can go is tried in a moment.
"""

import os
import re
import shutil
import signal
import subprocess
import sys
import time

from tally import TOP, as_nobody, call, put_script, room_in

CRATES = "low:\nmiddle: low csv\npocsag_app: clap middle low\npocsag_beside: middle\npocsag_trial: low\n"
NAMES = ("low", "middle", "pocsag_app", "pocsag_beside", "pocsag_trial")
COMMANDS = "bash basename cat chmod dirname find mkdir mv pwd readlink rm sh sleep touch".split()

# What each stand-in does when it is called as `rt run .. -- --help` in a program's folder.
MAKES = """mkdir -p out
made=out/$(basename "$(pwd)")
rm -f "$made"
cat > "$made" <<'PROGRAM'
#!/bin/sh
echo "$(basename "$0"): $*"
echo "folder: $(pwd)"
cat
exit 7
PROGRAM
chmod +x "$made"
"""
EDITS = "echo later > ../middle/src/lib.rt\n"
STAND_INS = {
    "makes": MAKES,
    "fails": "echo 'goal left open'\nexit 5\n",
    "leaves nothing": "exit 0\n",
    "edits meanwhile": EDITS + MAKES,
    "is slow": "sleep 1\n" + MAKES,
    "never ends": "sleep 30\n",
}


class Clone:
    """A small clone of the repository, with a folder of commands and one for temporary files."""

    def __init__(self, folder, stand_in):
        self.top, self.commands, self.temporary = (room_in(folder, it) for it in ("clone", "commands", "temporary"))
        self.calls, self.compiler = folder / "calls", folder / "compiler"
        shutil.copy(TOP / "pocsag", self.top / "pocsag")
        shutil.copytree(TOP / "tools", self.top / "tools")
        (self.top / "crates.txt").write_text(CRATES)
        for crate in NAMES:
            source = self.top / "crates" / crate / "src"
            source.mkdir(parents=True)
            (source / ("main.rt" if crate == "pocsag_app" else "lib.rt")).write_text("first\n")
        for command in COMMANDS:
            (self.commands / command).symlink_to(shutil.which(command))
        python = shutil.which("python3", path="/usr/bin:/bin") or sys.executable  # one that any user can run
        (self.commands / "python3").symlink_to(os.path.realpath(python))
        if stand_in is not None:
            self.stand_in(stand_in)

    def stand_in(self, name):
        told = f'echo "$(basename "$(pwd)") $*" >> {self.calls}\necho "${{RT_BACKEND:-llvm}}" > {self.compiler}\n'
        self.made = f'#!/bin/bash\n{told}[ "$1" = run ] || exit 0\n{STAND_INS[name]}'
        put_script(self.commands / "rt", self.made)

    def change(self, old, new):
        """Has the stand-in do this in place of what it did at first."""
        (self.commands / "rt").write_text(self.made.replace(old, new, 1))

    def environment(self, **more):
        return {"PATH": str(self.commands), "TMPDIR": str(self.temporary), **more}

    def start(self, words=("w",), folder=None, script=None, before=(), **more):
        command, pipes = [*before, str(script or self.top / "pocsag"), *words], dict.fromkeys(("stdin", "stdout", "stderr"), subprocess.PIPE)
        return subprocess.Popen(command, **pipes, cwd=folder or self.top, env=self.environment(**more), text=True, start_new_session=True)

    def run(self, words=("w",), folder=None, script=None, stdin="", before=(), **more):
        process = self.start(words, folder, script, before, **more)
        out, err = process.communicate(stdin, timeout=60)
        return process.returncode, out, err

    def builds(self):
        """How often the program was built, and the list of all calls without their jobs."""
        calls = self.calls.read_text().splitlines() if self.calls.exists() else []
        calls = [call.partition(" --jobs")[0] for call in calls]
        return calls.count("pocsag_app run"), calls

    def check_builds(self, tally, name, count):
        """Runs the program, which is built for the time of this number."""
        status = self.run()[0]
        tally.check(name, status == 7 and self.builds()[0] == count, (status, self.builds()))

    def check_no_log(self, tally, name):
        tally.check(f"no log is left: {name}", not list(self.temporary.iterdir()), list(self.temporary.iterdir()))

    def build(self, *words, **how):
        """Runs the script that builds."""
        return call(self.commands / "python3", self.top / "tools/build.py", *words, cwd=self.top, env=self.environment(), text=True, **how)

    def source(self, crate):
        return self.top / "crates" / crate / "src/lib.rt"


def try_success(tally, clone):
    done = clone.run(["decode", "a b", ""], stdin="input\n")
    begun = [f"proving {name} ({place} of 3)" for place, name in enumerate(("low", "middle", "pocsag_app"), 1)]
    ended = [f"{name} proved in 0:0" for name in ("low", "middle", "pocsag_app")]
    due = f"pocsag_app: decode a b \nfolder: {clone.top}\ninput\n"
    tally.check_run("arguments, folder, input, status, and each crate as it begins and ends", done, 7, due, *begun, *ended)
    tally.check_run("what it takes is told", done, 7, due, "memory", "disk")
    tally.check_same("each crate once, lowest first", clone.builds()[1], ["low lib", "middle lib", "pocsag_app run"])
    clone.check_no_log(tally, "a build")
    for words in ([], ["plan"], ["--help"]):
        status, out, err = clone.run(words)
        tally.check(f"built once, {words}", (status, err, clone.builds()[0]) == (7, "", 1), (status, err))
    for crate in ("pocsag_beside", "pocsag_trial"):
        clone.source(crate).write_text("edited\n")
        clone.check_builds(tally, f"an edit in {crate} builds nothing", 1)
    clone.source("middle").write_text("edited\n")
    clone.check_builds(tally, "an edit builds anew", 2)
    (clone.top / "crates/low/proofs").mkdir()
    (clone.top / "crates/low/proofs/Lib.antt").write_text("new\n")
    clone.check_builds(tally, "a new folder of proofs builds anew", 3)
    elsewhere = room_in(clone.top.parent, "elsewhere")
    (elsewhere / "planner").symlink_to(clone.top / "pocsag")
    due = 7, f"pocsag_app: y\nfolder: {elsewhere}\n", ""
    for name, script in (("a symbolic link", elsewhere / "planner"), ("a path", "../clone/pocsag")):
        tally.check_same(f"{name} from another folder", clone.run(["y"], folder=elsewhere, script=script), due)


def put_old(path, text):
    """Writes a file, and gives it and its folder a time of long ago."""
    path.parent.mkdir(exist_ok=True)
    path.write_text(text)
    os.utime(path, (10**9, 10**9))
    os.utime(path.parent, (10**9, 10**9))


def try_old_times(tally, clone):
    """Edits that leave no newer file behind."""
    room, low, middle, specs = clone.top.parent, clone.source("low"), clone.source("middle").parent, clone.top / "crates/middle/specs"
    put_old(room / "other/old.rt", "third\n")
    put_old(room / "older/lib.rt", "as it was\n")
    for name, count, edit in [
        ("a first build", 1, lambda: None),
        ("another time alone builds nothing", 1, lambda: put_old(low, "first\n")),
        ("an edit with an old time", 2, lambda: put_old(low, "other\n")),
        ("a file put there with its old time", 3, lambda: shutil.copy2(room / "other/old.rt", low)),
        ("a new folder", 4, lambda: put_old(specs / "Lib.antt", "words\n")),
        ("a folder taken away", 5, lambda: shutil.rmtree(specs)),
        ("a folder replaced by an older one", 6, lambda: (middle.rename(room / "away"), (room / "older").rename(middle))),
        ("a file renamed", 7, lambda: low.rename(low.with_name("renamed.rt"))),
    ]:
        edit()
        clone.check_builds(tally, name, count)


def try_lists(tally, clone):
    """Lists of crates that cannot be read."""
    (clone.top / "crates.txt").write_text("low: middle\nmiddle: low\npocsag_app: low\n")
    tally.check_run("a ring of crates", clone.run(), 3, "", "uses itself")
    (clone.top / "crates.txt").write_text("low:\n! middle\n")
    tally.check_run("a line that is none", clone.run(), 3, "", "! middle")


def try_options(tally, clone):
    for option in ("noclobber", "errexit", "nounset", "noglob"):
        clone.source("low").write_text(option)
        clone.run(SHELLOPTS=option)
        tally.check_same(f"{option} handed down", clone.run(SHELLOPTS=option), (7, f"pocsag_app: w\nfolder: {clone.top}\n", ""))


def open_to_all(clone):
    """Lets another user read the clone."""
    for path in [clone.top.parent, *clone.top.parent.glob("**/*")]:
        if not path.is_symlink():
            path.chmod(path.stat().st_mode | (0o555 if path.is_dir() else 0o444))
    return clone


def try_unwritable(tally, clone):
    """A checkout that may only be read."""
    before = as_nobody(open_to_all(clone).top)
    if os.geteuid() == 0 and not before:
        return
    if not before:
        clone.top.chmod(0o555)
    clone.temporary.chmod(0o777)
    status, out, err = open_to_all(clone).run(before=before)
    tally.check("nothing can be built", status == 3 and "cannot write" in err and "nothing can be built" in err and "line" not in err, (status, err))
    clone.top.chmod(0o755)
    clone.run()
    clone.calls.chmod(0o666)
    status, out, err = open_to_all(clone).run(["v"], before=before)
    tally.check("what is built is run", (status, err) == (7, ""), (status, err))
    clone.source("low").write_text("edited\n")
    if not before:
        (clone.top / "out").chmod(0o555)
        (clone.top / "out/lock").chmod(0o444)
    status, out, err = clone.run(before=before)
    tally.check("another user's lock", status == 3 and "cannot write" in err and "line" not in err, (status, err))


def try_failure(tally, clone):
    tally.check_run("a build that fails", clone.run(["decode"]), 3, "", "goal left open", "pocsag_app failed")
    clone.check_no_log(tally, "a build that fails")
    clone.stand_in("makes")
    tally.check("and is tried again", clone.run(["z"])[0] == 7)
    clone.source("low").write_text("edited\n")
    clone.stand_in("fails")
    tally.check_run("an older program is not run", clone.run(), 3, "")


def try_missing(tally, clone):
    tally.check_run("no rt", clone.run(), 3, "", "rt", "PATH")
    clone.stand_in("makes")
    clone.run()
    (clone.commands / "rt").unlink()
    os.utime(clone.source("low"))
    due = f"pocsag_app: u\nfolder: {clone.top}\n"
    tally.check("another time, and no rt", clone.run(["u"]) == (7, due, ""), clone.run(["u"]))
    clone.source("low").write_text("edited\n")
    tally.check_run("an edit, and no rt", clone.run(["u"]), 7, due, "may be old")
    (clone.commands / "python3").unlink()
    tally.check_run("an edit, and no python3", clone.run(["u"]), 7, due, "may be old")
    shutil.rmtree(clone.top / "crates/pocsag_app/out")
    tally.check_run("no program, and no python3", clone.run(["u"]), 3, "", "python3")


def try_edit_meanwhile(tally, clone):
    clone.check_builds(tally, "an edit during the build", 1)
    clone.stand_in("makes")
    clone.check_builds(tally, "is built at the next call", 2)


def try_two_at_once(tally, clone):
    calls = [clone.start(["a"]) for _ in range(3)]
    ends = [(call.communicate("", timeout=60), call.returncode) for call in calls]
    tally.check("three at once", all(status == 7 for _, status in ends), ends)
    tally.check("build once", clone.builds()[0] == 1, clone.builds())
    tally.check("and two wait", sum("waiting" in told[1] for told, _ in ends) == 2, ends)


def try_side_by_side(tally, clone):
    """Crates that do not wait for each other, each a second long."""
    (clone.top / "crates.txt").write_text("low:\nmiddle:\npocsag_beside:\npocsag_app: low middle pocsag_beside\n")
    clone.change("exit 0\n", "{ sleep 1; exit 0; }\n")
    for jobs in (3, 1):
        status, _, err = clone.run(RT_JOBS=str(jobs))
        begun = re.findall(r"\(\d of \d\)", err.partition(" proved in ")[0])  # before the first of them was proved
        tally.check(f"crates side by side: {jobs}", status == 7 and len(begun) == jobs, (status, err))
        clone.source("low").write_text("edited\n")


def try_interrupt(tally, clone):
    """A build that a signal ends leaves nothing behind."""
    for number in (signal.SIGINT, signal.SIGTERM, signal.SIGKILL):
        call = clone.start()
        time.sleep(0.7)
        if number == signal.SIGINT:
            os.killpg(call.pid, number)
        else:
            call.send_signal(number)
            subprocess.run(["pkill", f"-{number}", "-s", str(call.pid)], check=False)
        call.communicate(timeout=60)
        tally.check(f"signal {number} ends it", call.returncode != 0, call.returncode)
        clone.check_no_log(tally, f"signal {number}")
    clone.stand_in("makes")
    tally.check("and the next call builds", clone.run()[0] == 7)


def try_multiples(tally, clone):
    """How many times the lowest crate a build takes is told where that crate is proved from nothing too."""
    (clone.top / "crates.txt").write_text("pocsag_words:\npocsag_app: pocsag_words\n")
    source = clone.top / "crates/pocsag_words/src/lib.rt"
    source.parent.mkdir(parents=True)
    times = r"proved in 0:0\d"
    for name, does, wanted in [
        ("from nothing", "true", times + r", \d+\.\d times pocsag_words"),
        ("over what another copy kept", "echo 'rt: pocsag_words: begins with what a check kept in x'; mkdir -p out/incremental", times),
        ("over what was kept", "true", times),
    ]:
        clone.change("exit 0\n", f"{{ {does}; exit 0; }}\n")
        source.write_text(name)
        _, _, err = clone.run()
        tally.check(f"the multiples {name}", re.search(rf"^pocsag: {wanted}$", err, re.M), err)


def try_unit(tally, clone):
    """The lowest crate is proved in a copy: it is told whether that passed, and how long processors were busy with it."""
    (clone.top / "crates.txt").write_text("pocsag_words:\n")
    clone.source("pocsag_words").parent.mkdir(parents=True)
    clone.source("pocsag_words").write_text("first\n")
    for status in (0, 1):
        clone.change("exit 0\n", f"{{ cat src/lib.rt; touch src/proved; exit {status}; }}\n")
        printed, told = f"first\n{1 - status} passed, {status} failed\n", "pocsag: spent 0 s on pocsag_words\n"
        tally.check_done(f"the lowest crate, status {status}", clone.build("unit"), status, printed, told)
    tally.check("it was proved in a copy", [it.name for it in clone.source("pocsag_words").parent.iterdir()] == ["lib.rt"])
    clone.check_no_log(tally, "nor a copy")


def try_compilers(tally, clone):
    """LLVM makes what is installed or built for the first time; the toolchain's own compiler makes the program after an edit."""
    for name, edit, is_installed, wanted, count in [
        ("a first build", None, False, "llvm", 1),
        ("an edit", "edited", False, "rattle", 2),
        ("another time", None, False, "rattle", 2),
        ("an installation", None, True, "llvm", 3),
        ("nothing after it", None, False, "llvm", 3),
        ("an edit before an installation", "again", True, "llvm", 4),
    ]:
        if edit:
            clone.source("low").write_text(edit)
        os.utime(clone.source("middle"))
        if is_installed:
            clone.build("program", check=True)
        tally.check(f"{name}: the program runs", clone.run(["w"])[0] == 7)
        tally.check_same(f"{name}: its compiler", (clone.compiler.read_text().strip(), clone.builds()[0]), (wanted, count))


def try_gate(tally, clone):
    """The program that `rt ci` leaves is taken as it is, and only where it passed."""
    for status, calls in ((1, ["low lib", "middle lib", "pocsag_app run"]), (0, [])):
        clone.change('[ "$1" = run ]', f"""[ "$1" = ci ] && {{ cd crates/pocsag_app; {MAKES} exit {status}; }}\n[ "$1" = run ]""")
        clone.source("low").write_text(f"before status {status}\n")
        tally.check_same(f"its status {status}", clone.build("ci").returncode, status)
        before = len(clone.builds()[1])
        clone.run(["plan"])
        tally.check(f"what is built after status {status}", clone.builds()[1][before:] == calls, clone.builds()[1][before:])


TRIALS = {
    "makes": (try_success, try_multiples, try_unit, try_compilers, try_gate, try_old_times, try_lists, try_options, try_unwritable, try_side_by_side),
    "fails": (try_failure,),
    None: (try_missing,),
    "leaves nothing": (lambda tally, clone: tally.check_run("no program left", clone.run(), 3, "", "left no program"),),
    "edits meanwhile": (try_edit_meanwhile,),
    "is slow": (try_two_at_once,),
    "never ends": (try_interrupt,),
}


def try_all(tally, folder):
    for number, (stand_in, trial) in enumerate((it, trial) for it, trials in TRIALS.items() for trial in trials):
        trial(tally, Clone(room_in(folder, str(number)), stand_in))
