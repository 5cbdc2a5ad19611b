#!/usr/bin/env python3
"""Makes the C library from the proved crate pocsag_c.

    clib/make.py FOLDER    puts libpocsag.a, libpocsag.so.1, libpocsag.so, pocsag.h, pocsag.pc and Python's pocsag into FOLDER

It needs `rt`, by which the crate is proved and built with what it stands on, where that is not done yet, `cc`, `ld`,
`objcopy` and `ar`.
Exit status: 0 done, 1 not done, 2 usage.
"""

import os
import pathlib
import re
import shutil
import subprocess
import sys
import tempfile

sys.dont_write_bytecode = True
sys.path.insert(0, str(pathlib.Path(os.path.realpath(__file__)).parents[1] / "tools"))
import version

HERE = pathlib.Path(os.path.realpath(__file__)).parent
TOP = HERE.parent
CRATE = TOP / "crates/pocsag_c"
MADE = CRATE / "out/libpocsag_c.a"
SONAME = "libpocsag.so.1"
MODULE = ("pocsag/__init__.py", "pocsag/py.typed")  # the package of Python


def run(*words, **how):
    return subprocess.run([str(word) for word in words], check=True, **how)


def memory_calls():
    """The toolchain's few lines that call malloc, realloc and free."""
    for place in os.environ.get("PATH", "").split(os.pathsep):
        for folder in pathlib.Path(os.path.realpath(pathlib.Path(place) / "rt")).parents:
            found = folder / "c/liblibc_c.a"
            if found.is_file():
                return found
    raise SystemExit("make.py: liblibc_c.a of the toolchain is not found beside the command rt")


def join(archive, parts, tools):
    """One archive of all the parts' objects, as one object that shows the calls alone."""
    joined = archive.with_suffix(".o")
    run(f"{tools}ld", "-r", "-o", joined, "--whole-archive", *parts)
    run(f"{tools}objcopy", "--wildcard", "--keep-global-symbol=pocsag_*", joined)
    run(f"{tools}ar", "rcsD", archive, joined)


def interface():
    """The number of the interface, as the header has it."""
    return re.search(r"#define POCSAG_VERSION (\d+)u", (HERE / "pocsag.h").read_text())[1]


def package_file(prefix, libdir, includedir):
    """The file by which pkg-config finds the library, with paths relative to its own."""
    text = (HERE / "pocsag.pc.in").read_text()
    values = {"PREFIX": prefix, "LIBDIR": libdir, "INCLUDEDIR": includedir, "INTERFACE": interface(), "VERSION": version.VERSION}
    for name, value in values.items():
        text = text.replace(f"@{name}@", value)
    return text


def make(folder, made=MADE, memory=None, tools=""):
    """Makes the library of the built crate. For another processor, `memory` has the calls for memory, and the names of the
    tools begin with `tools`."""
    folder.mkdir(parents=True, exist_ok=True)
    with tempfile.TemporaryDirectory() as room:
        joined = pathlib.Path(room) / "libpocsag.a"
        join(joined, [made, memory or memory_calls()], tools)
        shared = pathlib.Path(room) / SONAME
        run(f"{tools}gcc" if tools else "cc", "-shared", "-o", shared, f"-Wl,-soname,{SONAME}", f"-Wl,--version-script={HERE / 'pocsag.map'}",
            "-Wl,--whole-archive", joined, "-Wl,--no-whole-archive", "-Wl,--no-undefined", "-Wl,-z,relro,-z,now", "-lc")
        for file in (joined, shared, HERE / "pocsag.h"):
            shutil.copy(file, folder / file.name)
    (folder / "pocsag").mkdir(exist_ok=True)
    for name in MODULE:
        shutil.copy(HERE / name, folder / name)
    link = folder / "libpocsag.so"
    link.unlink(missing_ok=True)
    link.symlink_to(SONAME)
    (folder / "pocsag.pc").write_text(package_file("${pcfiledir}", "${prefix}", "${prefix}"))


def main(words):
    if len(words) != 1 or words[0].startswith("-"):
        print(__doc__, file=sys.stderr)
        return 2
    built = subprocess.run([sys.executable, TOP / "tools/build.py", "proofs", CRATE.name])
    if built.returncode or not MADE.is_file():
        return 1
    make(pathlib.Path(words[0]))
    return 0


if __name__ == "__main__":
    sys.exit(main(sys.argv[1:]))
