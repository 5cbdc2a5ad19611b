#!/usr/bin/env python3
"""Makes the program as C, which any compiler for C99 builds on a system with POSIX.

    portable/make.py FOLDER    puts pocsag.c and its header, the host, wabt's three files beside them, the Makefile, check.sh,
                               README and the licences into FOLDER

It needs what web/make.py needs, and `wasm2c` of wabt. The same sources give the same bytes in every folder. What was made of
the same sources before is taken from out/portable.
Exit status: 0 done, 1 not done, 2 usage.
"""

import contextlib
import fcntl
import hashlib
import os
import pathlib
import shutil
import subprocess
import sys

sys.dont_write_bytecode = True
HERE = pathlib.Path(os.path.realpath(__file__)).parent
TOP = HERE.parent
sys.path[:0] = [str(TOP / "tools")]
from workspace import module_at

STATE = TOP / "out/portable"
WEB = TOP / "web/make.py"
RUNTIME = pathlib.Path("/usr/src/wasm2c")  # where Debian's wabt has it
OF_WABT = ("wasm-rt.h", "wasm-rt-impl.c", "wasm-rt-impl.h")
COPIED = [*(HERE / name for name in ("host_posix.c", "Makefile", "check.sh", "README")), *(TOP / name for name in ("LICENSE-APACHE", "LICENSE-MIT"))]
# wasm2c names a header that not every system has, for a feature that the module does without.
ALLOCA = "#if defined(_MSC_VER)\n#include <intrin.h>\n#include <malloc.h>\n#define alloca _alloca\n#else\n#include <alloca.h>\n#endif\n"


class Missing(Exception):
    """A tool that is needed is not there, and which."""


def version_of(command, package):
    """What a tool prints of its version."""
    if not shutil.which(command):
        raise Missing(f"{command} is missing; on Debian: apt-get install {package}")
    return subprocess.run([command, "--version"], check=True, capture_output=True, text=True).stdout


def tools():
    """What makes the C of the module, as it names itself."""
    return ", ".join(f"{it} {version_of(it, package).split()[-1]}" for it, package in (("wasm-opt", "binaryen"), ("wasm2c", "wabt")))


def sum_of(paths, *words):
    """The sum of the files and of some words."""
    total = hashlib.sha256(repr(words).encode())
    for path in paths:
        total.update(path.read_bytes())
    return total.hexdigest()


@contextlib.contextmanager
def made_once(name, total):
    """A folder of out/portable, and whether what it holds is of this sum. If it is not, it is empty, and is of that sum if no exception
    ends what the caller does with it. One caller at a time has it."""
    folder, record = STATE / name, STATE / f"{name}.sum"
    STATE.mkdir(parents=True, exist_ok=True)
    with open(STATE / f"{name}.lock", "a") as held:
        fcntl.flock(held, fcntl.LOCK_EX)
        is_made = record.is_file() and record.read_text() == total
        if not is_made:
            record.unlink(missing_ok=True)
            shutil.rmtree(folder, ignore_errors=True)
            folder.mkdir()
        yield folder, is_made
        record.write_text(total)


def c_of_module(room):
    """Makes the C of the program's module in a folder."""
    module, maker = room / "pocsag.wasm", module_at("web_make", WEB)
    maker.make_module(maker.PROGRAM, module)
    subprocess.run(["wasm2c", module.name, "-n", "pocsag", "-o", "pocsag.c"], check=True, cwd=room)
    module.unlink()
    text = (room / "pocsag.c").read_text()
    if text.count(ALLOCA) != 1:
        raise SystemExit("make.py: wasm2c writes another C file than this knows")
    (room / "pocsag.c").write_text(text.replace(ALLOCA, ""))
    for name in OF_WABT:
        shutil.copyfile(RUNTIME / name, room / name)


def sources():
    """The files of the program as C, by their names."""
    subprocess.run([sys.executable, str(TOP / "tools/build.py"), "program"], check=True, stdout=subprocess.DEVNULL)
    parts = [TOP / "crates/pocsag_app/out/pocsag_app", pathlib.Path(__file__), WEB, *sorted((TOP / "web").glob("*.c"))]
    with made_once("c", sum_of(parts, tools())) as (folder, is_made):
        if not is_made:
            c_of_module(folder)
        return {it.name: it.read_bytes() for it in [*folder.iterdir(), *COPIED]}


def program(name, *settings, of=None):
    """The program as a compiler makes it of the sources or these files, by settings of the Makefile, below a name of out/portable."""
    files = {file: data for file, data in (of or sources()).items() if file.endswith((".c", ".h", "Makefile"))}
    compiler = next((it.removeprefix("CC=") for it in settings if it.startswith("CC=")), "cc")
    version = subprocess.run([compiler, "--version"], check=True, capture_output=True, text=True).stdout
    with made_once(name, sum_of([], sorted(files.items()), settings, version)) as (folder, is_made):
        if not is_made:
            for file, data in files.items():
                (folder / file).write_bytes(data)
            subprocess.run(["make", "-s", *settings, "bin/pocsag"], check=True, cwd=folder)
        return folder / "bin/pocsag"


def main(words, made=sources, usage=__doc__):
    """Puts the files that a function gives into the folder that the words name."""
    if len(words) != 1 or words[0].startswith("-"):
        print(usage, file=sys.stderr)
        return 2
    try:
        files = made()
    except (Missing, subprocess.CalledProcessError) as why:
        print(f"{pathlib.Path(sys.argv[0]).name}: {why}", file=sys.stderr)
        return 1
    folder = pathlib.Path(words[0])
    folder.mkdir(parents=True, exist_ok=True)
    for name, data in files.items():
        (folder / name).write_bytes(data)
    return 0


if __name__ == "__main__":
    sys.exit(main(sys.argv[1:]))
