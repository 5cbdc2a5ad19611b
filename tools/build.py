#!/usr/bin/env python3
"""Proves and builds crates of this repository, as many at once as there are processors and memory for.

    build.py program          builds the program with LLVM and prints its path
    build.py program --quick  the same, but after an edit with the toolchain's own compiler, in less time than LLVM; `./pocsag`
                              calls it where a source has changed
    build.py proofs [CRATE..] proves and builds these crates, or all, with what they stand on
    build.py tests CRATE..    runs the tests of these crates, where what they stand on is built, and counts them
    build.py ci               runs `rt ci` and takes the program that it built; it says how long processors were busy with what
    build.py library          builds the library for C over what `rt ci` left, with one job, as one thing to pass
    build.py unit             proves the lowest crate in a copy, as one thing to pass, and says how long processors were busy with it

What an earlier call proved is not proved again. Exit status 0 where all of it stands, 3 where something does not.
"""

import contextlib
import fcntl
import os
import pathlib
import shutil
import subprocess
import sys
import tempfile
import time

sys.dont_write_bytecode = True
import kit
import lanes
import workspace
from gate import BASE, busy_children
from spent import watched
from workspace import PROGRAM, TOP

STATE = TOP / "out"  # never committed
TEST_SECONDS = 3_600  # for each test: compiled with checks one of the greatest sizes takes minutes
FUNCTIONS_FOR_JOBS = 20  # in a crate with fewer a second job gains nothing
LLVM, QUICK = "llvm", "rattle"  # the compilers by the names that `rt` has for them; the second is the toolchain's own
TAKEN = "begins with what a check kept"  # the toolchain says so where another copy of the repository has proved a crate
WAIT = "proving and building, once: 19 to 30 minutes on four processors, with 2 GB of memory for each of them and 8.4 GB of disk"


def say(text):
    print(f"pocsag: {text}", file=sys.stderr, flush=True)


class Refused(Exception):
    """There can be no build, and why."""


def listing(paths):
    """The files below the paths with their sizes and times, as `tools/listing.sh` has them."""
    words = ["bash", "-c", '. tools/listing.sh; listing "$@"', "listing", *paths]
    return subprocess.run(words, cwd=TOP, stdout=subprocess.PIPE, text=True).stdout


class Product:
    """What is built of a crate, and what it is made from as that is now. The record of it is written when it is built."""

    def __init__(self, crates, name):
        self.crates = workspace.below(crates, name)
        self.path = crates[name].folder / "out" / (name if crates[name].is_program else f"lib{name}.a")
        self.record = STATE / f"{name}.built"
        self.sources = ["crates.txt", *workspace.sources(self.crates.values())]
        self.listing, self.sum = listing(self.sources), workspace.digest(self.sources)

    def made_by(self):
        """The compiler that made what stands of the sources as they are, or None."""
        try:
            total, _, compiler = self.record.read_text().split("\n")[1].partition(" ")
        except (OSError, IndexError):
            return None
        return compiler if self.path.is_file() and total == self.sum else None

    def write_record(self, compiler=LLVM):
        """Writes down what it was built from and by which compiler; where that cannot be written, the next call looks again."""
        fresh = self.record.with_suffix(f".{os.getpid()}")
        try:
            fresh.write_text("\n".join([" ".join(self.sources), f"{self.sum} {compiler}", self.listing]))
            fresh.replace(self.record)
        except OSError:
            pass


@contextlib.contextmanager
def alone():
    """Lets one call build at a time, and the others wait for it. The lock ends with the call."""
    try:
        STATE.mkdir(exist_ok=True)
        held = open(STATE / "lock", "a")
    except OSError as error:
        raise Refused(f"cannot write {error.filename} ({error.strerror}), so nothing can be built here") from None
    with held:
        try:
            fcntl.flock(held, fcntl.LOCK_EX | fcntl.LOCK_NB)
        except BlockingIOError:
            say("another call is building; waiting for it")
            fcntl.flock(held, fcntl.LOCK_EX)
        yield


def proof(crates, crate):
    """The proof of a library, or the proof, build and first run of a program. A second job would load what stands below once more,
    which costs more than a small crate gains by it; a program has one function, `main`."""
    verb, arguments = "run" if crate.is_program else "lib", ["--help"] if crate.name == PROGRAM else []
    words = lambda jobs: [sys.executable, kit.__file__, verb, str(jobs), *arguments]
    words = words if crate.functions >= FUNCTIONS_FOR_JOBS else words(1)
    return lanes.Task(crate.name, words, crate.folder, crate.uses, workspace.weight(crates, crate.name))


def tests(crate):
    """The run of a crate's tests, compiled with checks. They are proved by `rt ci` alone."""
    words = ["rt", "try", "--test", "--seconds", str(TEST_SECONDS)]
    return lanes.Task(f"the tests of {crate.name}", words, crate.folder)


def prove(crates, names):
    """Proves and builds these of the crates, and shows what one that failed printed. At the end it prints how long that took and,
    where all was proved from nothing, how many times as long processors were busy as with the lowest crate."""
    if not shutil.which("rt"):
        raise Refused("the command rt of the toolchain is missing: put the folder bin of its kit into PATH (README, Build it)")
    start, busy, begun = time.monotonic(), {}, []
    now = lambda: lanes.minutes(time.monotonic() - start)
    wanted = [crates[name] for name in names]
    is_new = BASE in names and not any((it.folder / "out/incremental").exists() for it in wanted)

    def tell_begun(name):
        begun.append(name)
        say(f"{now()} proving {name} ({len(begun)} of {len(wanted)})")

    with kit.lock([it.folder for it in wanted]), contextlib.closing(lanes.Lanes([proof(crates, it) for it in wanted], tell_begun).run()) as ended:
        for it in ended:
            if it.status:
                print(it.text, end="", file=sys.stderr)
                raise Refused(f"{it.name} failed, as shown above")
            busy[it.name] = it.busy
            is_new = is_new and TAKEN not in it.text
            say(f"{now()} {it.name} proved in {lanes.minutes(it.took)}, {lanes.minutes(it.busy)} of processors")
    say(f"proved in {now()}" + (f", {sum(busy.values()) / busy[BASE]:.1f} times {BASE}" if is_new and busy[BASE] else ""))


def build_program(crates, option=None):
    """Builds the program where its sources are not those that it was built from, or by a compiler that will not do; gives its path.
    Where the option is given the quick compiler will do too, and makes it where a program stands."""
    compilers = (LLVM, QUICK) if option == "--quick" else (LLVM,)
    program = Product(crates, PROGRAM)
    if program.made_by() in compilers:
        program.write_record(program.made_by())
        return program.path
    if os.access(program.path, os.X_OK) and not shutil.which("rt"):
        say("the sources are not those that the program was built from, and the command rt is missing: the program may be old")
        return program.path
    with alone():
        if program.made_by() in compilers:
            return program.path
        compiler = compilers[-1] if program.path.exists() else LLVM
        if compiler != LLVM:
            os.environ["RT_BACKEND"] = compiler
        say(WAIT)
        prove(crates, program.crates)
        if not os.access(program.path, os.X_OK):
            raise Refused(f"'rt run' left no program in {program.path.parent.relative_to(TOP)}")
        program.write_record(compiler)
    return program.path


def build(crates, names):
    """Proves crates with what they stand on, where each is in the layout. A program or a library for C that stands as its sources are
    is left as it is."""
    products = {name: Product(crates, name) for name in names if crates[name].is_product}
    wanted = workspace.below(crates, *(name for name in names if name not in products or products[name].made_by() != LLVM))
    others = [name for name in wanted if not kit.is_laid_out(crates[name].folder)]
    if others:
        raise Refused(f"run `rt fmt` in the folder of {', '.join(others)}")
    if wanted:
        with alone():
            prove(crates, wanted)
            for name in products.keys() & wanted.keys():
                products[name].write_record()


def run_tests(crates, *names):
    """Runs the tests of crates, as one thing to pass each."""
    failed = 0
    for it in lanes.Lanes([tests(crates[name]) for name in names]).run():
        print(it.text, end="")
        failed += bool(it.status)
    print(f"{len(names) - failed} passed, {failed} failed")
    return 1 if failed else 0


def gate_of_toolchain(crates):
    """Runs `rt ci`, which proves all crates from nothing and builds the programs, and writes down what these were built from. Each proof
    gets one job, since another would load what stands below once more: that takes less of the processors, and more of the clock where
    the longest chain runs alone."""
    with alone():
        products = {name: Product(crates, name) for name, crate in crates.items() if crate.is_program}
        settings = {**os.environ, "RT_JOBS": str(lanes.width())}
        process = subprocess.Popen(["rt", "ci"], cwd=TOP, stdin=subprocess.DEVNULL, env=settings, preexec_fn=lanes.end_with_parent)
        spent = watched(process)
        if not process.returncode:
            for it in products.values():
                it.write_record()
    for name in ("tests", BASE):
        say(f"spent {spent.get(name, 0):.0f} s on {name}")
    return process.returncode


def build_library(crates):
    """Builds the library for C. `rt ci` proves it too and leaves nothing of a library for C, so it is proved here once more."""
    name = next(it.name for it in crates.values() if it.is_product and not it.is_program)
    os.environ["RT_JOBS"] = "1"
    with alone():
        product = Product(crates, name)
        prove(crates, [name])
        product.write_record()
    print("1 passed, 0 failed")


def measure_unit(crates):
    """Proves the lowest crate in a copy, from nothing as `rt ci` does, and prints how long processors were busy with it. Hosts get faster
    and slower from minute to minute, so the bill takes the mean of several such proofs."""
    with tempfile.TemporaryDirectory() as room:
        folder = pathlib.Path(room, "crates", crates[BASE].path)
        shutil.copytree(crates[BASE].folder, folder, ignore=shutil.ignore_patterns("out"))
        pathlib.Path(room, "crates.txt").write_text(f"{crates[BASE].line}\n")
        before, status = busy_children(), kit.prove_anew(folder)
    say(f"spent {busy_children() - before:.0f} s on {BASE}")
    print(f"{int(not status)} passed, {int(bool(status))} failed")
    return status


VERBS = {
    "program": lambda crates, *option: print(build_program(crates, *option)),
    "proofs": lambda crates, *names: build(crates, names or [*crates]),
    "tests": run_tests,
    "ci": gate_of_toolchain,
    "library": build_library,
    "unit": measure_unit,
}


def main(words):
    lanes.end_on_signals()
    try:
        if words and words[0] in VERBS:
            return VERBS[words[0]](workspace.read_crates(), *words[1:]) or 0
        raise Refused(__doc__)
    except (Refused, workspace.BadList) as why:
        say(why)
        return 3


if __name__ == "__main__":
    sys.exit(main(sys.argv[1:]))
