#!/usr/bin/env python3
"""Makes the WebAssembly modules of the library and the program, from the proved crates pocsag_c and pocsag_app, and the page.

    web/make.py FOLDER    puts pocsag.wasm and program.wasm, what is over them with its types, and pocsag.html into FOLDER

It needs `rt`, by which the crates are proved and built with what they stand on, where that is not done yet, and `wasm-opt` of
Binaryen. The same sources give the same bytes in every folder.
Exit status: 0 done, 1 not done, 2 usage.
"""

import base64
import hashlib
import json
import os
import pathlib
import re
import shutil
import stat
import subprocess
import sys
import tempfile
import typing
import zlib

sys.dont_write_bytecode = True
HERE = pathlib.Path(os.path.realpath(__file__)).parent
TOP = HERE.parent
sys.path[:0] = [str(TOP / "tools")]
import kit

COPIED = ("pocsag.mjs", "pocsag.d.mts", "package.json", "program.mjs", "program.d.mts", "system.mjs", "cli.mjs")
WORKER = ("pocsag.mjs", "system.mjs", "program.mjs", "page/worker.js")
PAGE = ("page/library.js", "page/rows.js", "page/cells.js", "page/reading.js", "page/files.js", "page/command.js", "page/page.js")
AS_MODULE = "/* == From here on as an ES module"  # what stands behind it loads the module of a file
EXAMPLES = {"a hospital's round": "round.csv", "loops apart": "loops-apart.csv"}
# The calls of the system that a host of the program carries out.
SYSTEM = ("rattle_arg", "rattle_errno", "rattle_set_errno", "rattle_open_dir_at", "host_open", "host_fcntl", "close", "read", "write", "statx",
          "getdents64", "isatty", "ftruncate", "fchmod", "fchown", "fsync", "fdatasync", "flock", "link", "rename", "unlink", "getpid", "nanosleep")  # fmt: skip
# Of WebAssembly what each engine has since 2021; no vectors, which Binaryen 108 cannot lower and which gained nothing.
TARGET = ["--target=wasm64-unknown-unknown", "-mcpu=mvp", "-mbulk-memory", "-msign-ext", "-mmutable-globals", "-mnontrapping-fptoint"]
FEATURES = ["--mvp-features", "--enable-bulk-memory", "--enable-sign-ext", "--enable-mutable-globals", "--enable-nontrapping-float-to-int"]
LAYOUT = "e-m:e-p:64:64-p10:8:8-p20:8:8-i64:64-i128:128-n32:64-S128-ni:1:10:20"
# The compiler of the toolchain, as it builds the library: it leaves a copy of the code that it is handed.
COPYING = """#!/bin/sh
for word; do
    case $word in *.bc) cp -- "$word" "{copy}" ;; esac
done
exec "{clang}" "$@"
"""


class Module(typing.NamedTuple):
    """What a module is made of."""

    crate: pathlib.Path
    built: str  # what the toolchain builds of the crate, in its folder `out`
    c_files: tuple
    level: str  # of optimisation: the program is to be small, since it is compiled again at each start
    stack: int  # bytes
    exports: tuple
    imports: tuple


def calls():
    """The names of the library's calls."""
    files = sorted((TOP / "crates/pocsag_c/src").glob("*.rt"))
    return re.findall(r"pub extern \"C\" fn (pocsag_\w+)", "\n".join(path.read_text() for path in files))


# The library, with the stack that its header names and two calls for buffers; the program, with the stack that a process has.
LIBRARY = Module(TOP / "crates/pocsag_c", "libpocsag_c.a", ("heap.c", "wide.c"), "-O3", 1 << 20, (*calls(), "pocsag_take", "pocsag_give"), ())
PROGRAM = Module(TOP / "crates/pocsag_app", "pocsag_app", ("heap.c", "wide.c", "system.c"), "-O2", 8 << 20, ("main",), SYSTEM)


def run(*words, **how):
    return subprocess.run([str(word) for word in words], check=True, **how)


def toolchain():
    """The folder of the kit's compiler."""
    return pathlib.Path(kit.script().rtlib.KIT) / "toolchain"


def copying_toolchain(room, copy):
    """The kit's toolchain as a folder in which the compiler copies what it compiles."""
    made = room / "toolchain"
    (made / "bin").mkdir(parents=True)
    (made / "lib").symlink_to(toolchain() / "lib")
    for file in (toolchain() / "bin").iterdir():
        if file.name != "clang":
            (made / "bin" / file.name).symlink_to(file)
    clang = made / "bin/clang"
    clang.write_text(COPYING.format(copy=copy, clang=toolchain() / "bin/clang"))
    clang.chmod(clang.stat().st_mode | stat.S_IXUSR)
    return made


def linked(made):
    """The program of an object, as the toolchain links it."""
    of_kit, program = toolchain().parent, made.with_suffix(".linked")
    words = ["--target", "x86_64-unknown-linux-gnu", "--toolchain", toolchain(), "-o", program, made, *(of_kit / f"c/lib{it}_c.a" for it in ("os", "libc"))]
    run(of_kit / "bin/rattle-link", *words, stdout=subprocess.DEVNULL)
    return program


def proved_code(module):
    """The code of a proved crate, as LLVM's bitcode. The toolchain writes it where it builds the crate once more, over the proofs that
    stand; what comes of it must be what stands. It is kept until that is another."""
    crate = module.crate
    built, kept = crate / "out" / module.built, crate / "out" / f"{crate.name}.bc"
    record, total = kept.with_suffix(".bc.of"), hashlib.sha256(built.read_bytes()).hexdigest()
    with tempfile.TemporaryDirectory() as name, kit.lock([crate]):
        if kept.is_file() and record.is_file() and record.read_text() == total:
            return kept
        room = pathlib.Path(name)
        words = kit.crate_in(str(crate)).words(["--jobs", "1"])
        made, copy = room / built.name, room / kept.name
        run(kit.script().rtlib.RATTLE, "build", *words, "--toolchain", copying_toolchain(room, copy), "--backend", "llvm",
            "--incremental", "out/incremental", "-o", made, cwd=crate, stdout=subprocess.DEVNULL)
        if (linked(made) if module is PROGRAM else made).read_bytes() != built.read_bytes():
            raise SystemExit(f"make.py: {built} is not what its sources give")
        record.unlink(missing_ok=True)
        shutil.copyfile(copy, kept)
        record.write_text(total)
    return kept


def for_wasm(text):
    """The code as text, for another processor: the two lines that name it, and what attributes say of it."""
    text = re.sub(r'(?m)^target datalayout = ".*"$', f'target datalayout = "{LAYOUT}"', text)
    text = re.sub(r'(?m)^target triple = ".*"$', 'target triple = "wasm64-unknown-unknown"', text)
    return re.sub(r' "(target-cpu|probe-stack|stack-probe-size)"="[^"]*"', "", text)


def sections(data):
    """Each section of a module: its number, and where its content begins and ends."""
    at = 8
    while at < len(data):
        number, size, shift, at = data[at], 0, 0, at + 1
        while True:
            byte, at = data[at], at + 1
            size, shift = size | (byte & 127) << shift, shift + 7
            if byte < 128:
                break
        yield number, at, at + size
        at += size


def with_narrow_table(data):
    """The module with a table of calls whose places are numbers of 32 bits. The linker writes a table that no call goes through, and
    Binaryen 108 reads none of 64 bits; with a call through it the module would be refused there."""
    for number, start, end in sections(data):
        if number == 4:
            return data[: start + 2] + bytes([data[start + 2] & ~4]) + data[start + 3 :]
    return data


def make_module(module, to):
    """Makes a module, in whose memory an address has 32 bits."""
    clang = toolchain() / "bin/clang"
    with tempfile.TemporaryDirectory() as name:
        room = pathlib.Path(name)
        run(clang, "-S", "-emit-llvm", "-x", "ir", proved_code(module).resolve(), "-o", "code.ll", cwd=room)
        (room / "code.ll").write_text(for_wasm((room / "code.ll").read_text()))
        run(clang, *TARGET, module.level, "-Wno-override-module", "-c", "code.ll", "-o", "code.o", cwd=room)
        for file in module.c_files:
            shutil.copyfile(HERE / file, room / file)
            run(clang, *TARGET, "-O2", "-ffreestanding", "-Wall", "-Wextra", "-Werror", "-c", file, "-o", f"{file}.o", cwd=room)
        objects = ["code.o", *(f"{file}.o" for file in module.c_files)]
        (room / "imports").write_text("\n".join(module.imports))
        run("wasm-ld", "-mwasm64", "--no-entry", "--gc-sections", "--strip-all", "--stack-first", "-z", f"stack-size={module.stack}",
            "--allow-undefined-file=imports", *(f"--export={it}" for it in module.exports), *objects, "-o", "wide.wasm", cwd=room, executable=clang)
        (room / "wide.wasm").write_bytes(with_narrow_table((room / "wide.wasm").read_bytes()))
        run("wasm-opt", *FEATURES, "--enable-memory64", "--memory64-lowering", "-O2", "--strip-producers", "--strip-target-features",
            "wide.wasm", "-o", "narrow.wasm", cwd=room)
        shutil.copyfile(room / "narrow.wasm", to)


def hues():
    """The hues of pages, for light and for dark, as the pictures of `pocsag show` have them."""
    text = (TOP / "crates/pocsag_show/src/style.rt").read_text()
    found = re.findall(r"\.p(\d+) rect\{fill:(#\w+)\}\.pocsag \.p\d+ rect\.k\{fill:(#\w+)\}", text)
    rule = "{head}.h{hue} {{ --tint: {tint}; --key: {key}; }}"
    return "\n".join(rule.format(head=".dark " * (k >= 12), hue=hue, tint=tint, key=key) for k, (hue, tint, key) in enumerate(found))


def script(*names):
    """These files as one script, without what makes modules of them."""
    text = "\n".join((HERE / name).read_text().partition(AS_MODULE)[0] for name in names)
    return re.sub(r"(?m)^export ", "", re.sub(r"(?m)^import .*\n", "", text))


def packed(file):
    """The file as the page has it."""
    shrink = zlib.compressobj(9, zlib.DEFLATED, -15)
    return base64.b64encode(shrink.compress(file.read_bytes()) + shrink.flush()).decode()


def page(folder):
    """The page, with all that it needs within it: also the modules in a folder."""
    examples = {name: (TOP / "examples" / file).read_text() for name, file in EXAMPLES.items()}
    parts = {
        "STYLE": (HERE / "page/page.css").read_text().replace("/*HUES*/", hues()),
        "WORKER": script(*WORKER),
        "MODULE": packed(folder / "pocsag.wasm"),
        "PROGRAM": packed(folder / "program.wasm"),
        "PAGE": script(*PAGE).replace("{} /*EXAMPLES*/", json.dumps(examples)),
    }
    if any("</script" in part or "<!--" in part for part in parts.values()):
        raise SystemExit("make.py: a part of the page would end its script")
    return re.sub(r"/\*(\w+)\*/", lambda found: parts[found[1]], (HERE / "page/page.html").read_text())


def main(words):
    if len(words) != 1 or words[0].startswith("-"):
        print(__doc__, file=sys.stderr)
        return 2
    if not shutil.which("wasm-opt"):
        print("make.py: wasm-opt is missing in PATH: install binaryen", file=sys.stderr)
        return 1
    built = subprocess.run([sys.executable, TOP / "tools/build.py", "proofs", LIBRARY.crate.name, PROGRAM.crate.name])
    if built.returncode:
        return 1
    folder = pathlib.Path(words[0])
    folder.mkdir(parents=True, exist_ok=True)
    make_module(LIBRARY, folder / "pocsag.wasm")
    make_module(PROGRAM, folder / "program.wasm")
    (folder / "pocsag.html").write_text(page(folder))
    for name in COPIED:
        shutil.copyfile(HERE / name, folder / name)
    return 0


if __name__ == "__main__":
    sys.exit(main(sys.argv[1:]))
