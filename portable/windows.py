#!/usr/bin/env python3
"""Makes the program for Windows on x86-64 of the C files of portable/make.py, by Debian's mingw.

    portable/windows.py FOLDER    puts pocsag.exe into FOLDER, and what is packed beside it

It needs what portable/make.py needs. The same sources give the same bytes in every folder. What was made of the same sources
before is taken from out/portable.
Exit status: 0 done, 1 not done, 2 usage.
"""

import os
import pathlib
import subprocess
import sys

sys.dont_write_bytecode = True
HERE = pathlib.Path(os.path.realpath(__file__)).parent
TOP = HERE.parent
sys.path[:0] = [str(HERE)]
import make

COMPILER, PROGRAM = "x86_64-w64-mingw32-gcc", "pocsag.exe"
# The C files, and the warnings that are faults: only the host is written by hand.
COMPILED = {"pocsag": (), "wasm-rt-impl": (), "host_windows": ("-Wall", "-Werror")}
# How deep calls may go, where wasm2c allows 500 on Windows, and the bytes of the stack that so many need.
DEPTH, STACK = 10_000, 64 << 20
# The host's function for what the module cannot do, which a file of wasm2c's calls.
TRAP_HEADER = '#include "wasm-rt.h"\nvoid host_trap(wasm_rt_trap_t why);\n#define WASM_RT_TRAP_HANDLER host_trap\n'
FLAGS = ("-O2", f"-DWASM_RT_MAX_CALL_STACK_DEPTH={DEPTH}", "-include", "trap.h")
LINKED = ("-static", "-s", "-Wl,--no-insert-timestamp", f"-Wl,--stack,{STACK}")
BESIDE = {"README.txt": HERE / "README.windows", "round.csv": TOP / "examples/round.csv"}
BESIDE |= {name: TOP / name for name in ("LICENSE-APACHE", "LICENSE-MIT")}


def compiler():
    """What makes the program of the C files, as it names itself."""
    return make.version_of(COMPILER, "gcc-mingw-w64-x86-64").splitlines()[0]


def compile_in(room, files):
    """Compiles the program of C files, of which there is each by its name, in an empty folder."""
    host = HERE / "host_windows.c"
    for name, data in {**files, host.name: host.read_bytes(), "trap.h": TRAP_HEADER.encode()}.items():
        (room / name).write_bytes(data)
    for name, warnings in COMPILED.items():
        subprocess.run([COMPILER, *FLAGS, *warnings, "-c", f"{name}.c"], check=True, cwd=room)
    subprocess.run([COMPILER, *LINKED, *(f"{name}.o" for name in COMPILED), "-o", PROGRAM], check=True, cwd=room)


def program():
    files = {name: data for name, data in make.sources().items() if name.endswith((".c", ".h"))}
    parts = [pathlib.Path(__file__), HERE / "host_windows.c"]
    with make.made_once("windows", make.sum_of(parts, sorted(files.items()), compiler())) as (folder, is_made):
        if not is_made:
            compile_in(folder, files)
        return folder / PROGRAM


def packed():
    """The files that are packed for Windows, by their names."""
    return {PROGRAM: program().read_bytes(), **{name: path.read_bytes() for name, path in BESIDE.items()}}


if __name__ == "__main__":
    sys.exit(make.main(sys.argv[1:], packed, __doc__))
