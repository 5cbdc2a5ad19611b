"""Tries how `./test` counts its parts, with stand-ins for them."""

import io
import os
import re
import subprocess
import sys
import time

import kit
import lanes
from gate import Gate
from lanes import Lanes, Task
from spent import watched
from tally import TOP, call, put, put_script

os.environ["RT_JOBS"] = "3"  # so many parts run side by side

# What a part prints, its status, and what the gate counts of it.
PARTS = [
    ("a part that passes", "echo '3 passed, 0 failed'", 0, (3, 0)),
    ("more lines before the count", "echo first; echo '2 passed, 0 failed'", 0, (2, 0)),
    ("the last count counts", "echo '9 passed, 0 failed'; echo '2 passed, 0 failed'", 0, (2, 0)),
    ("a count with a leading zero", "echo '010 passed, 0 failed'", 0, (10, 0)),
    ("a part with failures", "echo '3 passed, 2 failed'; exit 1", 1, (3, 2)),
    ("failures with status 0", "echo '3 passed, 2 failed'", 1, (3, 2)),
    ("a status without failures", "echo '3 passed, 0 failed'; exit 4", 1, (3, 1)),
    ("nothing tried", "echo '0 passed, 0 failed'", 1, (0, 1)),
    ("no count", "echo done", 1, (0, 1)),
    ("killed before its count", "kill -9 $$; echo '3 passed, 0 failed'", 1, (0, 1)),
    ("killed after a count", "echo '3 passed, 0 failed'; kill -9 $$", 1, (3, 1)),
    ("a count inside a line", "echo 'so 3 passed, 0 failed'", 1, (0, 1)),
    ("a failure told on the other stream", "echo '1 passed, 1 failed' >&2", 1, (1, 1)),
]


def try_parts(tally, _):
    for name, script, status, counts in PARTS:
        gate = Gate(TOP, io.StringIO())
        found = gate.part("part", "sh", "-c", script), (gate.passed, gate.failed), gate.end(), gate.out.getvalue().splitlines()[-1]
        tally.check(name, found == (status == 0, counts, status, f"{counts[0]} passed, {counts[1]} failed"), found)


def try_others(tally, _):
    gate = Gate(TOP, io.StringIO())
    gate.part("missing", "/nowhere/no-such-command")
    tally.check("a command that is not there fails", (gate.passed, gate.failed) == (0, 1))
    gate = Gate(TOP, io.StringIO())
    tally.check("no part at all fails", gate.end() == 1)
    tally.check("a step that fails is told", not gate.step("step", "sh", "-c", "exit 2") and gate.failed == 1)
    tally.check("a step that passes counts once", gate.step("step", "true") and gate.passed == 1)
    tally.check("one failure fails the whole", gate.end() == 1)


def try_notes(tally, _):
    """What a part says of the release is told again at the end, and what was left out is counted."""
    gate = Gate(TOP, io.StringIO())
    gate.part("part", "sh", "-c", "echo 'release 1.0.0 is of other sources'; echo 'the release 1'; echo '1 passed, 0 failed'")
    for name in ("proofs", "wrong bodies"):
        gate.skip(name)
    tally.check("what is left out fails nothing", gate.end() == 0)
    told = gate.out.getvalue().splitlines()
    said, left = "release 1.0.0 is of other sources", "skipped, since they need the toolchain's command rt: proofs, wrong bodies"
    tally.check("what is said of the release", told.count(said) == 2 and told.index(left) + 1 == len(told) - 1 - told[::-1].index(said), told)
    tally.check("what is left out is named and counted", told[-1] == "1 passed, 0 failed, 2 skipped", told)


def try_beside(tally, _):
    """The same parts side by side: the same counts, and what each prints stays together."""
    gate = Gate(TOP, io.StringIO())
    gate.beside([(name, "sh", "-c", script) for name, script, _, _ in PARTS])
    passed, failed = (sum(row[3][at] for row in PARTS) for at in (0, 1))
    tally.check("side by side: the counts", (gate.passed, gate.failed) == (passed, failed), (gate.passed, gate.failed))
    tally.check("side by side: what failed", sorted(gate.bad) == sorted(name for name, _, status, _ in PARTS if status), gate.bad)
    tally.check("side by side: the status", gate.end() == 1)
    gate = Gate(TOP, io.StringIO())
    gate.beside([("missing", "/nowhere/no-such-command"), ("there", "echo", "1 passed, 0 failed")])
    tally.check("side by side: a command that is not there fails", (gate.passed, gate.failed) == (1, 1))
    gate = Gate(TOP, io.StringIO())
    script = "echo {0} begins; sleep 0.5; echo {0} ends; echo '1 passed, 0 failed'"
    began = time.monotonic()
    gate.beside([(it, "sh", "-c", script.format(it)) for it in "abc"])
    took, told = time.monotonic() - began, gate.out.getvalue()
    tally.check("side by side: all of them pass", gate.end() == 0 and gate.passed == 3, told)
    for it in "abc":
        tally.check(f"side by side: {it} is told whole", f"== {it}\n{it} begins\n{it} ends\n1 passed, 0 failed\n-- " in told, told)
    tally.check("side by side: no part waits for another", took < 1.4, took)


def try_last(tally, _):
    """The last parts begin once the first has passed, and not at all where it did not."""
    for status, wanted in ((0, ["first", "last"]), (1, ["first"])):
        gate = Gate(TOP, io.StringIO())
        script = f"sleep 0.3; echo '1 passed, {status} failed'; exit {status}"
        gate.beside([("first", "sh", "-c", script)], [("last", "echo", "1 passed, 0 failed")])
        found = [line[3:] for line in gate.out.getvalue().splitlines() if line.startswith("== ")]
        tally.check(f"the last parts after status {status}", found == wanted, gate.out.getvalue())


def try_bill(tally, _):
    """What processors were busy with, by kinds of parts and as multiples of the lowest crate."""
    gate = Gate(TOP, io.StringIO())
    busy = f"{sys.executable} -c 'import time\nwhile time.process_time() < {{}}: pass'; echo '1 passed, 0 failed'".format
    gate.part("proofs", "sh", "-c", f"{busy(1)}; echo 'pocsag: spent 1 s on tests'; echo 'pocsag: spent 1 s on pocsag_words'")
    gate.part("the proof of the lowest crate", "echo", "pocsag: spent 3 s on pocsag_words\n1 passed, 0 failed")
    gate.beside([("wrong bodies of a", "sh", "-c", busy(1.2) + "; echo 'a: tried 3 of 9 wrong bodies in 1 rounds'"),
                 ("wrong bodies of b", "sh", "-c", busy(1.2) + "; echo 'b: tried 0 of 4 wrong bodies in 0 rounds'"), ("a script", "sh", "-c", busy(0.1))])
    gate.end()
    unit = "w is 2.0 s, the mean of 1 and 3 s of processors for pocsag_words"
    tally.check("the unit is the mean of its proofs", unit in gate.out.getvalue().splitlines(), gate.out.getvalue())
    told = [line for line in gate.out.getvalue().splitlines() if line.startswith("spent ")]
    for name, wanted in [("tests", r"0:01 minutes of processors, 0\.5 w, on tests"), ("proofs", r"0:00 minutes of processors, 0\.\d w, on proofs"),
                         ("wrong bodies", r"0:02 minutes of processors, 1\.\d w, on wrong bodies \(3 of 13 tried\)"),
                         ("scripts", r"0:00 minutes of processors, 0\.\d w, on scripts"), ("all", r"0:0\d minutes of processors, \d\.\d w, on all")]:
        tally.check(f"the bill has {name}", any(re.fullmatch(f"spent {wanted}", line) for line in told), told)
    gate = Gate(TOP, io.StringIO())
    gate.part("proofs", "echo", "1 passed, 0 failed")
    gate.end()
    tally.check("no multiple without the lowest crate", " w," not in gate.out.getvalue(), gate.out.getvalue())


def try_spent(tally, _):
    """The seconds of processes below another, by what they are for; a process counts for those below it."""
    busy = "import os, sys, time\nif len(sys.argv) > 3: os.fork()\nwhile time.process_time() < 1.5: pass\nif len(sys.argv) > 3: time.sleep(2.5)"
    words = [f"{sys.executable} -c '{busy}' {more} &" for more in ("--crate-name low", "--crate-name low fork", "--crate-name low --test", "beside")]
    spent = watched(subprocess.Popen(["sh", "-c", "\n".join([*words, "wait"])]))
    tally.check("the kinds of processes", spent.keys() == {"low", "tests"}, spent)
    for name, wanted in (("low", 4.5), ("tests", 3)):
        tally.check(f"the time of {name}", wanted - 1.4 < spent.get(name, 0) < wanted + 0.6, spent)


def try_lanes(tally, _):
    """The order in which tasks begin, how many jobs each gets, and what is left out."""
    echo = lambda jobs: ["echo", str(jobs)]
    tasks = [Task("low", echo, TOP, (), 5), Task("beside", echo, TOP, (), 9), Task("high", echo, TOP, ("low", "no task"), 9)]
    tasks += [Task("bad", ["false"], TOP, ("high",)), Task("behind", ["true"], TOP, ("bad",))]
    begun = []
    ended = {it.name: it for it in Lanes(tasks, begun.append).run()}
    tally.check("the longest chain first", begun[:2] == ["low", "beside"], begun)
    for name, jobs in (("low", "2"), ("beside", "1"), ("high", "23")):  # the longest chain, what is beside it, and what is alone
        tally.check(f"jobs of {name}", ended[name].text.strip() in jobs, ended[name])
    tally.check("what waits for a failure is left out", "behind" not in ended and ended["bad"].status == 1, [*ended])
    began = time.monotonic()
    for it in Lanes([Task("quick", ["false"], TOP), Task("slow", ["sleep", "30"], TOP)]).run():
        break
    tally.check("what still runs is ended", it.name == "quick" and time.monotonic() - began < 5, it)


def try_width(tally, _):
    """How many tasks the gate runs side by side."""
    given, found = os.environ.pop("RT_JOBS"), lanes.width()
    tally.check("one processor of four is idle", lanes.width_of_gate() == found - found // 4 >= 1, (found, lanes.width_of_gate()))
    for jobs in ("1", "4"):
        os.environ["RT_JOBS"] = jobs
        tally.check(f"the gate takes the {jobs} jobs that are given", lanes.width_of_gate() == int(jobs), lanes.width_of_gate())
    os.environ["RT_JOBS"] = given


# What stands in for a toolchain whose `rt` is not the script that tools/kit.py knows.
UNKNOWN = """#!/bin/sh
echo "$*" >> "$CALLS"
"""
STEPS = """
import sys
sys.path.insert(0, "tools")
import kit
print(kit.check_words("."), kit.cross_words(".", "made", "arm"), type(kit.lock(["."])).__name__, kit.is_laid_out("."), kit.prove_anew("."))
"""


def try_unknown(tally, folder):
    """Each step of the toolchain by its command alone, where `rt` is not the script that is known."""
    put_script(folder / "rt", UNKNOWN)
    settings = {**os.environ, "PATH": f"{folder}:{os.environ['PATH']}", "CALLS": str(folder / "calls")}
    run = lambda *words: call(sys.executable, *words, cwd=TOP, env=settings, text=True)
    done = [run("tools/kit.py", "lib", "2"), run("tools/kit.py", "run", "1", "--help"), run("-c", STEPS)]
    tally.check("the commands for an unknown toolchain", [it.returncode for it in done] == [0, 0, 0], done)
    told = (folder / "calls").read_text().splitlines()
    tally.check("what they call", told == ["lib --jobs 2", "run --jobs 1 -- --help", "lib --jobs 1"], told)
    tally.check("what else is known of it", done[2].stdout == "['rt', 'check', '--jobs', '1'] None ExitStack True 0\n", done[2].stdout)


def try_layout(tally, folder):
    """A crate with a file that `rt fmt` would change; without the toolchain all pass."""
    for text, is_laid_out in ("pub fn one() -> u32 {\n    1\n}\n", True), ("pub fn one() -> u32 { 1 }\n", kit.script() is None):
        put(folder, {"src/lib.rt": text})
        tally.check("the layout of a crate", kit.is_laid_out(folder) == is_laid_out, text)
