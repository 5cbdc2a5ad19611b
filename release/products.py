"""What is packed for each processor: the program and the C library as the toolchain builds them of what is proved, or the
program as C, and the files beside them."""

import contextlib
import dataclasses
import functools
import os
import pathlib
import shutil
import subprocess
import sys
import tempfile

HERE = pathlib.Path(os.path.realpath(__file__)).parent
TOP = HERE.parent
sys.path[:0] = [str(TOP / "tools"), str(TOP / "clib")]
import build
import kit
import lanes
import make
import workspace
from packages import File
from workspace import PROGRAM

LIBRARY = make.CRATE.name
CROSS = TOP / "out/aarch64"  # what the toolchain compiles for ARM64
MINGW = "x86_64-w64-mingw32-gcc"
C_FLAGS = ("-O2", "-fPIC", "-ffunction-sections", "-Wall", "-Wextra", "-Werror")


@dataclasses.dataclass(frozen=True)
class Processor:
    """A processor, as the system names it, and as Debian does; the triple that Debian's folders are named by; how the names of its
    compiler and linker begin, and Debian's packages that have them."""

    name: str
    debian: str
    triple: str
    tools: str
    package: str

    @property
    def compiler(self):
        return f"{self.tools}gcc" if self.tools else "cc"


portable = workspace.module_at("portable_make", TOP / "portable/make.py")  # whose name others have too
Missing = portable.Missing
NATIVE = Processor("x86_64", "amd64", "x86_64-linux-gnu", "", "gcc libc6-dev")
ARM = Processor("aarch64", "arm64", "aarch64-linux-gnu", "aarch64-linux-gnu-", "gcc-aarch64-linux-gnu libc6-dev-arm64-cross")
ARMHF = Processor("armv7", "armhf", "arm-linux-gnueabihf", "arm-linux-gnueabihf-", "gcc-arm-linux-gnueabihf libc6-dev-armhf-cross")
PROCESSORS = (NATIVE, ARM)


@functools.cache
def toolchain():
    """The line of the toolchain that is in PATH, or none."""
    with contextlib.suppress(OSError, subprocess.SubprocessError):
        return subprocess.run(["rt", "version"], check=True, capture_output=True, text=True, timeout=60).stdout.strip()
    return ""


@functools.cache
def linker_of(processor):
    """The compiler and the linker that make the library, as they name themselves."""
    if processor is ARM and kit.script() is None:
        raise Missing("the toolchain's command rt is none that is known to build for ARM64")
    lines = [portable.version_of(it, processor.package).splitlines()[0] for it in (processor.compiler, f"{processor.tools}ld")]
    if subprocess.run([processor.compiler, "-E", "c/memory.c"], cwd=HERE, capture_output=True).returncode:
        raise Missing(f"{processor.compiler} finds no C library; on Debian: apt-get install {processor.package}")
    return ", ".join(lines)


def compiler_of_armhf():
    """What makes the program for 32-bit ARM of the module, as it names itself."""
    if not shutil.which("make"):
        raise Missing("make is missing; on Debian: apt-get install make")
    return f"{portable.tools()}, {linker_of(ARMHF)}"


def compiler_of_windows():
    """What makes the program for Windows of the module, as it names itself."""
    told = portable.version_of(MINGW, "gcc-mingw-w64-x86-64")
    return f"{portable.tools()}, {told.splitlines()[0]}"


class Cross:
    """What the toolchain compiles for ARM64 of a proved crate, over what its check kept, and the sum of what it was made from."""

    def __init__(self, crates, name):
        crate = crates[name]
        self.path = CROSS / (f"{name}.o" if crate.is_program else f"lib{name}.a")
        self.record, self.sum = self.path.with_suffix(".sum"), f"{build.Product(crates, name).sum} {toolchain()}"
        self.task = lanes.Task(name, kit.cross_words(crate.folder, self.path, "aarch64-unknown-linux-gnu"), crate.folder)

    def is_old(self):
        return not self.path.is_file() or not self.record.is_file() or self.record.read_text() != self.sum


def cross_compiled():
    """The object of the program and the archive of the library for ARM64, made anew where their sources have changed."""
    crates = workspace.read_crates()
    build.build(crates, [PROGRAM, LIBRARY])
    CROSS.mkdir(parents=True, exist_ok=True)
    made = {name: Cross(crates, name) for name in (PROGRAM, LIBRARY)}
    with kit.lock([crates[name].folder for name in made] if any(it.is_old() for it in made.values()) else []):
        for ended in lanes.Lanes([it.task for it in made.values() if it.is_old()]).run():
            if ended.status:
                raise build.Refused(f"{ended.name} is not built for ARM64:\n{ended.text}")
            made[ended.name].record.write_text(made[ended.name].sum)
    return made[PROGRAM].path, made[LIBRARY].path


def compiled(processor, name, room):
    """The object of a C file that the toolchain has for its own processor."""
    made = room / f"{name}.o"
    subprocess.run([processor.compiler, *C_FLAGS, "-c", f"c/{name}.c", "-o", str(made)], check=True, cwd=HERE)
    return made


def built_for_arm(room):
    """The program for ARM64, the archive of the library, and the calls for memory that it needs."""
    linker_of(ARM)
    program, archive = cross_compiled()
    memory, system = (compiled(ARM, name, room) for name in ("memory", "system"))
    linked = room / PROGRAM
    words = [ARM.compiler, "-pie", "-Wl,--gc-sections,-z,relro,-z,now", "-o", linked, program, memory, system]
    subprocess.run([str(word) for word in words], check=True)
    return linked, archive, memory


def built(processor, room):
    if processor is ARM:
        return built_for_arm(room)
    crates = workspace.read_crates()
    build.build(crates, [PROGRAM, LIBRARY])
    return build.Product(crates, PROGRAM).path, build.Product(crates, LIBRARY).path, None


def text(path, rights=0o644):
    """A file of the repository as it is packed."""
    return File((TOP / path).read_bytes(), rights)


def beside(*names):
    """The files beside a program, as they lie below a prefix, and these of the repository."""
    return {
        "share/bash-completion/completions/pocsag": text("completions/pocsag.bash"),
        "share/fish/vendor_completions.d/pocsag.fish": text("completions/pocsag.fish"),
        "share/zsh/site-functions/_pocsag": text("completions/pocsag.zsh"),
        **{f"share/pocsag/examples/{it}": text(f"examples/{it}", 0o755) for it in ("enqueue", "next-slot")},
        "share/man/man1/pocsag.1": text("docs/pocsag.1"),
        **{pathlib.Path(it).name: text(it) for it in names},
    }


def in_c():
    """The files of the program as C, which any machine can compile."""
    return {name: File(data) for name, data in portable.sources().items()} | beside()


def armhf_program():
    """The program for 32-bit ARM, made of that as C. Beyond -O1 the compiler takes twice as long."""
    return portable.program("armhf", f"CC={ARMHF.compiler}", "CFLAGS=-O1", "LDFLAGS=-s")


def tree(processor):
    """The files that are packed for a processor, as they lie below a prefix."""
    with tempfile.TemporaryDirectory() as name:
        room = pathlib.Path(name)
        program, archive, memory = built(processor, room)
        made = room / "library"
        make.make(made, archive, memory, processor.tools)
        shared = (made / make.SONAME).read_bytes()
        return {
            "bin/pocsag": File(program.read_bytes(), 0o755),
            "include/pocsag.h": text("clib/pocsag.h"),
            "lib/libpocsag.a": File((made / "libpocsag.a").read_bytes()),
            "lib/libpocsag.so": File(shared, 0o777, make.SONAME),
            f"lib/{make.SONAME}": File(shared),
            "lib/pkgconfig/pocsag.pc": File(make.package_file("${pcfiledir}/../..", "${prefix}/lib", "${prefix}/include").encode()),
            **{f"python/{it}": text(f"clib/{it}") for it in make.MODULE},
            **{f"share/pocsag/examples/{it}": text(f"clib/examples/{it}") for it in ("plan.c", "plan.py")},
            "share/doc/pocsag/LIBRARY.md": text("docs/LIBRARY.md"),
            **beside("LICENSE-APACHE", "LICENSE-MIT", "release/README"),
        }
