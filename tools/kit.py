#!/usr/bin/env python3
"""Proves and builds the crate of this folder by the steps of the toolchain's command `rt`: kit.py lib|run JOBS [WORD..]

`rt lib` locks the folders of all crates that it reads, so of two crates that stand on a third one waits for the other.
`rt all` locks all folders once and takes the same steps side by side, but for every crate, and each with one job. So
`tools/build.py` locks the folders by the toolchain's own call, and this takes the steps for one crate. Where `rt` is not
the script that this knows, the command itself is called, which locks and waits (tests/gate tries both). Other files of this
repository reach the toolchain's script through this one alone.
"""

import contextlib
import functools
import os
import pathlib
import shutil
import subprocess
import sys
import types

sys.dont_write_bytecode = True
from workspace import module_at

STEPS = ("Crate", "lock", "root_above", "stop_on_links")


@functools.cache
def script():
    """The toolchain's `rt` as a module, or None where it is not the script that this knows."""
    path = pathlib.Path(shutil.which("rt") or "/nowhere").resolve()
    if not (path.parent / "rtlib.py").is_file():
        return None
    made = module_at("rt", path)
    return made if all(hasattr(made.rtlib, it) for it in STEPS) else None


def crate_in(folder):
    """The toolchain's view of the crate in a folder."""
    rtlib = script().rtlib
    return rtlib.Crate(str(folder), rtlib.root_above(str(folder)) or str(folder), {})


def lock(folders):
    """Keeps other commands of the toolchain out of these crates' folders until what this gives, a context, is closed."""
    held = contextlib.ExitStack()
    for it in script().rtlib.lock([types.SimpleNamespace(folder=str(it)) for it in folders]) if script() else []:
        held.callback(os.close, it)
    return held


def is_laid_out(folder):
    """Whether `rt fmt` would leave the files of the crate in a folder as they are; it names the others. `rt ci` refuses them."""
    return script() is None or script().rtlib.fmt(str(folder), "--check", sys.stderr, diff=subprocess.DEVNULL) == 0


def cross_words(folder, made, target):
    """The command that compiles the proved crate in a folder for another processor, or None where `rt` is not known to do it."""
    if script() is None:
        return None
    rtlib = script().rtlib
    words = [rtlib.RATTLE, "build", *crate_in(folder).words(["--jobs", "2"]), "--target", target]
    return [*words, "--toolchain", f"{rtlib.KIT}/toolchain", "--backend", "llvm", *rtlib.KEPT, "-o", str(made)]


def check_words(folder, kept="out/incremental"):
    """The command that checks the crate in a folder with one job over what an earlier check kept. `rt check` also reads the texts
    of all crates below it, to refuse words that no verdict rests on here."""
    if script() is None:
        return ["rt", "check", "--jobs", "1"]
    return [script().rtlib.RATTLE, "check", *crate_in(folder).words(["--jobs", "1"]), "--incremental", kept, "--progress"]


def prove_anew(folder):
    """Proves the library in a folder from nothing with one job, as `rt ci` does; gives the exit status."""
    if script() is None:
        return subprocess.run(["rt", "lib", "--jobs", "1"], cwd=folder).returncode
    script().rtlib.guarded()  # its first call sets a signal's handler, which only the main thread may
    crate = crate_in(folder)
    crate.cuts_libraries = True
    return crate.build_rlib(["--jobs", "1"], anew=True)


def main(verb, jobs, *words):
    flags = ["--jobs", jobs]
    if script() is None:
        os.execvp("rt", ["rt", verb, *flags, *(["--", *words] if words else [])])
    if hasattr(script(), "share_work"):  # a kit that hands on what another copy of the repository has proved
        script().share_work(True)
    crate = crate_in(os.getcwd())
    crate.held = []  # no lock is to be let go before a program is run
    script().rtlib.stop_on_links(crate.folder)
    os.makedirs("out", exist_ok=True)
    if crate.is_program:
        return crate.run(flags, list(words))
    return crate.build_static([*flags, *words]) if crate.is_static else crate.build_rlib(flags, anew=False)


if __name__ == "__main__":
    sys.exit(main(*sys.argv[1:]))
