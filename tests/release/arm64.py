"""Runs the program and the C library for ARM64 under qemu-user, beside those for x86-64 and by the scripts of this repository.

Where the cross compiler of Debian or qemu-user is missing, it is left out.
"""

import re
import shutil
import sys

import hosts
import lanes
import make
import products
from tally import TOP, call, put_script, said

EMULATORS = {products.ARM: "qemu-aarch64", products.ARMHF: "qemu-arm"}
SCRIPTS = ("program/run", "program/open", "journal/run", "sound/run", "vectors/run")


def why_not(processor=products.ARM):
    """What is missing for a processor, or nothing."""
    if not shutil.which(EMULATORS[processor]):
        return f"{EMULATORS[processor]} is missing; on Debian: apt-get install qemu-user"
    try:
        products.linker_of(processor)
    except products.Missing as why:
        return str(why)
    return ""


def emulated(folder, name, program, processor=products.ARM):
    """A script that runs a program for a processor."""
    return put_script(folder / name, f'#!/bin/sh\nexec {EMULATORS[processor]} -L /usr/{processor.triple} "{program}" "$@"\n')


def try_beside(tally, folder, program):
    """The commands of each host, beside the native program."""
    run = lambda words, room, stdin: said(call(program, *words, cwd=room, input=stdin))
    files = hosts.first_files(folder)
    for words, stdin in hosts.commands(files):
        hosts.check_same(tally, folder, run, files, words, stdin)


def try_library(tally, folder, archive, memory):
    """The example in C, with either library."""
    made = folder / "library"
    make.make(made, archive, memory, products.ARM.tools)
    wanted = re.search(r"```\n(pages 6\n.*?)```", (TOP / "docs/LIBRARY.md").read_text(), re.DOTALL)[1]
    for name, words in (("archive", [made / "libpocsag.a"]), ("shared library", [f"-L{made}", "-lpocsag", f"-Wl,-rpath,{made}"])):
        words = [products.ARM.compiler, "-Wall", "-Werror", TOP / "clib/examples/plan.c", f"-I{made}", *words, "-o", folder / name]
        built = call(*words, text=True)
        ran = call(emulated(folder, "example", folder / name), TOP / "examples/round.csv", text=True)
        tally.check(f"the example in C with the {name}", ran.stdout == wanted, (built.stderr, ran))


def try_scripts(tally, program, scripts):
    """The scripts that run the program, with this one, each with one in so many of its cases."""
    words = lambda script, one_in: ["env", f"POCSAG_PROGRAM={program}", f"POCSAG_ONE_IN={one_in}", sys.executable, "tests", script]
    for it in lanes.Lanes([lanes.Task(script, words(script, one_in), TOP) for script, one_in in scripts.items()]).run():
        counts = re.findall(r"^(\d+) passed, (\d+) failed$", it.text, re.M)
        passed, failed = map(int, counts[-1]) if counts else (0, 1)
        tally.passed += passed
        tally.failed += failed
        print(it.text if failed or it.status else f"{it.name}: {passed} passed, {lanes.minutes(it.took)}", flush=True)
        tally.check(f"{it.name} ended well", not it.status)


def try_all(tally, folder):
    if why_not():
        return tally.skip(why_not())
    linked, archive, memory = products.built_for_arm(folder)
    program = emulated(folder, "pocsag", linked)
    try_beside(tally, folder, program)
    try_library(tally, folder, archive, memory)
    try_scripts(tally, program, dict.fromkeys(SCRIPTS, 101))
