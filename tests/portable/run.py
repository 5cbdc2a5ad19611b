"""Runs the program as C beside the native one: by cases for its host, and by the scripts that run the program.

    python3 tests portable/run             by this machine's compiler
    python3 tests portable/run --others    with musl, and for 32-bit ARM and RISC-V under emulators

It is made over the proofs that stand; without the toolchain it is the one of release/. What is compiled is kept in
out/portable, which release/make takes it from too. Where a tool is missing, that part is left out and says so.
"""

import os
import pathlib
import re
import shutil
import subprocess
import sys

import arm64
import packages
import products
import version
from tally import ANY, LIBRARY, PROGRAM, TOP, Text, as_nobody, call, put, put_script, said, samples

HERE = pathlib.Path(__file__).resolve().parent
# The scripts that run the program, and of how many of their cases one is tried here: the host is not another in each. Those of
# tests/faults are not among them: they refuse single calls for memory, and the program as C grows its memory by many pages at once.
SCRIPTS = {"program/run": 13, "program/open": 1, "journal/run": 7, "sound/run": 13, "capture/run": 13, "explain/run": 13, "pictures/run": 13,
           "operation/queues": 1}
ON_ARM = {"program/run": 101, "program/open": 101, "journal/run": 101}
# How the Makefile has the runtime of wasm2c, and what it has where each address is checked.
RUNTIME = ["-DWASM_RT_SKIP_SIGNAL_RECOVERY=1", "-DWASM_RT_USE_STACK_DEPTH_COUNT=0"]
CHECKS = {"by the system": [], "one by one": ["-DWASM_RT_MEMCHECK_SIGNAL_HANDLER=0"]}
OUT_OF_RANGE, END_OF_STACK, OUT_OF_MEMORY = (
    (3, "", f"pocsag: {text}\n") for text in ("Out-of-bounds access in linear memory or a table", "Call stack exhausted", "out of memory")
)
PRELUDE = """
pocsag() { "$PROGRAM" "$@"; }
as_other() { $AS_OTHER "$PROGRAM" "$@"; }
traced() {
    which=$2 fault=$4
    shift 4
    strace -qq -o /dev/null -e "$which" -e "$fault" "$PROGRAM" "$@"
}
"""


def what_is_missing():
    """Why the program is not compiled as C here, or nothing."""
    missing = [it for it in ("cc", "make") if not shutil.which(it)]
    try:
        return f"{missing[0]} is missing" if missing else "" if LIBRARY else products.portable.tools() and ""
    except products.Missing as why:
        return str(why)


def released(name):
    """The files of a package of the release."""
    return packages.read(name, (TOP / "release" / name).read_bytes())


def compiled(room, name, *settings):
    """A folder with the package in C, compiled."""
    files = released(f"pocsag-{version.VERSION}-c.tar.xz") if LIBRARY else products.in_c()
    files, folder = {it: file.data for it, file in files.items()}, room / name
    shutil.copytree(products.portable.program(name, *settings, of=files).parents[1], folder)
    return put(folder, {it: data for it, data in files.items() if not (folder / it).exists()})


def prepared(room, name):
    """A folder as each case begins in."""
    folder = room / name
    shutil.rmtree(folder, ignore_errors=True)
    folder.mkdir()
    folder.chmod(0o777)
    (folder / "p.csv").write_text("address,kind,message\n8,tone0,\n")
    call(PROGRAM, "plan", "p.csv", "t.bin", "c.cert", cwd=folder, check=True)
    return folder


def ran(script, program, folder):
    """What a script prints with a program, without the numbers of processes."""
    other = as_nobody(folder)
    environment = {**os.environ, "PROGRAM": str(program), "AS_OTHER": " ".join(other), "LC_ALL": "C", "TZ": "UTC"}
    done = call("sh", "-c", PRELUDE + script, cwd=folder, env=environment, stdin=subprocess.DEVNULL)
    told = done.stdout + done.stderr
    return re.sub(rb"\.pocsag\.\d+", b".pocsag.N", told).decode("latin-1"), done.returncode


def try_cases(tally, room, program):
    """Each case has the native program's texts, statuses and files."""
    has_strace = bool(shutil.which("strace"))
    for name, text in samples(HERE / "cases.txt").items():
        script, _, wanted = text.removesuffix("\n").partition("---- prints\n")
        if "traced" in script and not has_strace or "as_other" in script and not as_nobody(room):
            print(f"left out: {name}, since there is no strace, or no other user")
            continue
        due, found = (ran(script, it, prepared(room, "case")) for it in (PROGRAM, program))
        tally.check(f"{name}: as the native program", due == found, (due, found))
        tally.check(f"{name}: what is told", wanted in found[0], found)


def limited(limit, program, *words):
    """What a run within a limit of the shell ends with and prints."""
    return said(call("sh", "-c", f'ulimit {limit}; exec "$@"', "sh", program, *words, text=True))


def try_memory(tally, room, program):
    """Under each limit of memory the answer is that with ample memory, or that there is none; also where there are too few addresses."""
    pages = room / "many.csv"
    pages.write_text("address,kind,message\n" + "".join(f"{k},alpha,{'x' * 500}\n" for k in range(16_000)))
    limits = (*range(12_000, 50_000, 2_000), 1_000_000)
    found = [limited(f"-d {limit}", program, "report", "--rate", "1200", pages) for limit in limits]
    number = found.index(found[-1])
    tally.check_same("too few addresses", limited("-v 1000000", program, "--version"), OUT_OF_MEMORY)
    tally.check("what ample memory gives", found[-1][0] == 0 and found[-1][1].startswith("pages 16000\n"), found[-1])
    tally.check("enough is enough", found[number:] == [found[-1]] * (len(found) - number), found)
    tally.check("and less is told", number > 5 and found[:number] == [OUT_OF_MEMORY] * number, found)


def try_stack(tally, room, program):
    """The deepest certificate within little stack, and what is printed where that does not suffice."""
    folder = prepared(room, "case")
    (folder / "deep").write_bytes(bytes.fromhex("504342310000000" + "1" + 299 * "01000001" + 300 * "03"))
    refused = 0
    for size in (48, 64, 96, 128, 192, 256, 512, 1024, 2048, 8192):
        told = limited(f"-s {size}", program, "check", folder / "p.csv", folder / "deep")
        tally.check(f"{size} KiB of stack", told == (1, "not shown\n", "") or size < 2048 and told == END_OF_STACK, told)
        refused += told == END_OF_STACK
    tally.check("the stack ended", refused > 0)


def try_out_of_range(tally, room, folder):
    """A module that is not the program's: what it asks for ends the run, and nothing is removed."""
    stand_in = room / "stand_in"
    files = [HERE / "stand_in.c", folder / "host_posix.c", folder / "wasm-rt-impl.c"]
    for checked, settings in CHECKS.items():
        call("cc", "-O1", *RUNTIME, *settings, f"-I{folder}", "-o", stand_in, *files, check=True)
        for word in ("read", "write", "length", "path", "status", "folder", "time", "word", "stack", *(() if settings else ("load", "far"))):
            due = END_OF_STACK if word == "stack" else OUT_OF_RANGE
            tally.check_done(f"out of range, seen {checked}: {word}", call(stand_in, word, text=True, stdin=subprocess.DEVNULL), *due)


def try_check(tally, folder, name, emulator=""):
    done = call("make", "-s", f"EMULATOR={emulator}", "check", cwd=folder)
    tally.check_done(f"make check: {name}", done, 0, Text(lambda out: out.endswith(b" passed, 0 failed\n")), ANY)


def try_package(tally, folder):
    """`make check` and `make install` of the package, whose compiler warns of nothing in the host."""
    words = ["cc", "-std=c99", "-pedantic", "-Wall", "-Wextra", "-Wno-unused-parameter", "-Werror", "-fsyntax-only", *RUNTIME]
    for settings in CHECKS.values():
        done = call(*words, *settings, "host_posix.c", cwd=folder)
        tally.check_done(f"the host is C99 without a warning {settings}", done, 0, ANY, ANY)
    done = call("cc", "-fsyntax-only", "host_posix.c", cwd=folder)
    tally.check("compiled otherwise it is refused", b"compile it as the Makefile does" in done.stderr, done.stderr)
    try_check(tally, folder, "native")
    done = call("make", "-s", "PREFIX=/usr", f"DESTDIR={folder}/there", "install", cwd=folder)
    brought = [folder / "there/usr" / it for it in ("bin/pocsag", "share/man/man1/pocsag.1", "share/pocsag/examples/enqueue")]
    tally.check_done("make install", done, 0, ANY, ANY, all(it.is_file() for it in brought))
    wrong = put_script(folder / "wrong", '#!/bin/sh\n"$REAL" "$@" | sed "s/2/3/"\n')
    done = call("sh", "check.sh", cwd=folder, env={**os.environ, "PROGRAM": str(wrong), "REAL": f"{folder}/bin/pocsag"})
    tally.check_done("which finds a wrong program", done, 1, Text(lambda out: b"FAILED loops apart" in out), ANY)


def try_armhf(tally, room):
    """The program for 32-bit ARM, under an emulator."""
    native, why_not = room / "native armhf", arm64.why_not(products.ARMHF)
    if why_not:
        print(f"left out: {why_not}")
        return
    native.write_bytes(released(f"pocsag_{version.DEBIAN}_armhf.deb")["usr/bin/pocsag"].data if LIBRARY else products.armhf_program().read_bytes())
    native.chmod(0o755)
    program = arm64.emulated(room, "armhf", native, products.ARMHF)
    arm64.try_beside(tally, room, program)
    arm64.try_scripts(tally, program, ON_ARM)


# Other systems: a name, the compiler, how it optimises, and the emulator. Without that a function is too long for a jump of RISC-V.
OTHERS = [("musl", "musl-gcc", "-O0", ""), ("riscv", "riscv64-linux-gnu-gcc", "-O1", "qemu-riscv64")]


def try_others(tally, room):
    """`make check` on other systems, as static programs that are compiled in a short time."""
    for name, compiler, level, emulator in OTHERS:
        if not all(map(shutil.which, filter(None, (compiler, emulator)))):
            print(f"left out: {name}, since {compiler} or {emulator} is missing")
            continue
        try_check(tally, compiled(room, name, f"CC={compiler}", f"CFLAGS={level}", "LDFLAGS=-static"), name, emulator)


def try_native(tally, room):
    folder = compiled(room, "native", "CFLAGS=-O1")
    program = shutil.copy(folder / "bin/pocsag", room / "pocsag")
    for part in (try_cases, try_memory, try_stack):
        part(tally, room, program)
    try_out_of_range(tally, room, folder)
    try_package(tally, folder)
    arm64.try_scripts(tally, program, SCRIPTS)


def try_all(tally, room):
    if what_is_missing():
        return tally.skip(what_is_missing())
    for part in (try_others, try_armhf) if sys.argv[1:] == ["--others"] else (try_native,):
        part(tally, room)
