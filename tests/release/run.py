"""Packs what is built here, forges and spoils the packages, and has them used by those who have no toolchain.

Without the toolchain it takes the release that is there. Where `lintian`, `dpkg-deb` or `pip` is missing, that part is
left out.
"""

import dataclasses
import email
import hashlib
import lzma
import os
import re
import shutil
import subprocess
import sys
import time

import packages
import version
from copies import Copy, User
from packages import File
from tally import ANY, LIBRARY, TOP, call, put_script
from workspace import module_at

ENDINGS = (".tar.xz", ".deb", ".whl")
WORDS = ("plan", "examples/round.csv", "round.bin", "round.cert")
# A Python that runs in a PATH of its own, and what reads packages.
PYTHON = ("python3", "uname")
READERS = [it for it in ("xz", "dpkg-deb", "python3") if shutil.which(it)]
READER = READERS[0]
PLANNED = "pages 6\nbatches 2\n"
COMMANDS = [
    (WORDS, PLANNED),
    (("check", "examples/round.csv", "round.cert"), "at least 2 batches\n"),
    (("hear", "11", "round.bin"), 'address,kind,message\n11,alpha,"Pump 4, hall B: pressure low"\n'),
    (("show", "round.bin"), "batches 2, codewords 24, idles 8"),
    (("explain", "examples/loops-apart.csv", "examples/loops-apart.cert"), "at least 3 batches, open end"),
    (("wav", "round.bin"), "RIFF"),
]


def try_versions(tally, _):
    """Each place that names the version names the one of VERSION, as its kind spells it."""
    python = version.VERSION.replace("-rc.", "rc")
    places = [
        ("crates/pocsag_shell/src/tables.rt", f'const VERSION: &str = "{version.VERSION}, proved by '),
        ("docs/pocsag.1", f'.TH POCSAG 1 "{version.DATE}" "pocsag {version.VERSION}"'),
        ("clib/pocsag.h", f'#define POCSAG_RELEASE "{version.VERSION}"\n'),
        ("clib/pocsag/__init__.py", f'__version__ = "{python}"\n'),
        ("web/package.json", f'"version": "{version.VERSION}"'),
        ("CHANGELOG.md", version.VERSION),
        ("README.md", f"release/pocsag-{version.VERSION}-linux-x86_64.tar.xz"),
        ("README.md", f"release/pocsag_{version.DEBIAN}_amd64.deb"),
        ("README.md", f"release/pocsag-{version.VERSION}-c.tar.xz"),
        ("README.md", f"release/pocsag-{version.VERSION}-windows-x86_64.zip"),
        ("docs/OPERATION.md", f"release/pocsag_{version.DEBIAN}_armhf.deb"),
        ("README.md", f"release/pocsag-{python}-py3-none-manylinux_2_17_x86_64.whl"),
    ]
    for path, text in places:
        tally.check(f"{path} has the version", text in (TOP / path).read_text(), text)
    tally.check_same("how packages spell it", (version.DEBIAN, version.PYTHON), (version.VERSION.replace("-rc.", "~rc"), python))
    section = re.search(r"^## 1\.0\.0.*?(?=^## )", (TOP / "CHANGELOG.md").read_text(), re.M | re.S)
    tally.check("CHANGELOG's first section is short", section and section[0].count("\n") <= 41)


def try_kinds(tally, _):
    """Each kind of package holds what was put into it, and has the same bytes in whatever order that was."""
    files = {"usr/a": File(b"a", 0o755), "usr/share/b": File(bytes(range(256)) * 40), "usr/z": File(b"a", 0o777, "a")}
    plain = {name: file for name, file in files.items() if not file.link}
    for name, held in (("x.tar.xz", files), ("x.tgz", files), ("x.deb", {**files, "DEBIAN/control": File(b"Package: x\n")}), ("x.whl", plain)):
        made = packages.write(name, held, version.SECONDS)
        tally.check(f"{name} holds what was put into it", packages.read(name, made) == held)
        tally.check(f"{name} in another order", made == packages.write(name, dict(reversed(held.items())), version.SECONDS))
    tally.check("a wheel lists its files", packages.record(plain, "RECORD").data.count(b"sha256=") == 2)
    tally.check("a compressed file is its content", packages.plain("b.gz", File(packages.zipped(b"text"))).data == b"text")


def renew_sums(copy):
    """MANIFEST and SHA256SUMS as they would be of the packages that are there now."""
    module = module_at("forger", copy.top / "release/make")
    folder = copy.top / "release"
    there = {it.name: it.read_bytes() for it in folder.iterdir() if it.name.endswith(ENDINGS)}
    kept = [line for line in (folder / "MANIFEST").read_text().splitlines(True) if "  " not in line]
    text = "".join(kept + [line for name, data in sorted(there.items()) for line in module.lines_of(name, packages.read(name, data))])
    (folder / "MANIFEST").write_text(text)
    sums = {**there, "MANIFEST": text.encode()}
    (folder / "SHA256SUMS").write_text("".join(f"{hashlib.sha256(data).hexdigest()}  {name}\n" for name, data in sorted(sums.items())))


def spoiled(data):
    """The bytes with one bit in their middle changed."""
    place = len(data) // 2
    return data[:place] + bytes([data[place] ^ 1]) + data[place + 1 :]


def flipped(files, name):
    """The files, of which one is spoiled."""
    return {**files, name: dataclasses.replace(files[name], data=spoiled(files[name].data))}


def forge(copy, ending, change):
    """Changes the files of a package."""
    path = copy.package(ending)
    path.write_bytes(packages.write(path.name, change(packages.read(path.name, path.read_bytes())), version.SECONDS))


# Each forgery with sums to match, and the file that gives it away.
FORGERIES = [
    ("a bit of the program", ".tar.xz", lambda it: flipped(it, "bin/pocsag"), "bin/pocsag is what"),
    ("a bit of the header", ".tar.xz", lambda it: flipped(it, "include/pocsag.h"), "include/pocsag.h is what"),
    ("rights of the program", ".tar.xz", lambda it: {**it, "bin/pocsag": File(it["bin/pocsag"].data, 0o4755)}, "bin/pocsag is what"),
    ("one file more", ".tar.xz", lambda it: {**it, "bin/more": File(b"")}, "holds the files"),
    ("one file less", ".tar.xz", lambda it: {name: file for name, file in it.items() if name != "README"}, "holds the files"),
    ("a link elsewhere", ".tar.xz", lambda it: {**it, "lib/libpocsag.so": File(it["lib/libpocsag.so"].data, 0o777, "./libpocsag.so.1")}, "libpocsag.so is what"),
    ("a bit of the program of Debian", ".deb", lambda it: flipped(it, "usr/bin/pocsag"), "usr/bin/pocsag is what"),
    ("a bit of the library of Python", ".whl", lambda it: flipped(it, "pocsag/libpocsag.so.1"), "libpocsag.so.1 is what"),
]


def kept(copy):
    """The files of the release, to be put back."""
    return {it: it.read_bytes() for it in (copy.top / "release").iterdir() if it.is_file()}


def put_back(copy, files):
    for it in (copy.top / "release").iterdir():
        if it.is_file() and it not in files:
            it.unlink()
    for path, data in files.items():
        path.write_bytes(data)


def check_make(tally, name, copy, status, *told, **environment):
    """Whether `release/make --check` ends with this status, and says all of this."""
    found, out = copy.make("--check", **environment)
    tally.check(name, found == status and all(it in out for it in told) and "Traceback" not in out, out)


def try_packed(tally, folder):
    """The same sources give the same packages, in whatever folder, time zone and umask."""
    copy = Copy(folder)
    if LIBRARY:
        return copy
    status, out = copy.make()
    tally.check("it is packed", status == 0 and len(out.splitlines()) == 3, out)
    other = Copy(folder, "another copy")
    before = os.umask(0o077)
    other.make(TZ="Asia/Tokyo", LC_ALL="C", TMPDIR=str(folder), PYTHONHASHSEED="7")
    os.umask(before)
    tally.check("the same sums in another folder", other.sums() == copy.sums(), (other.sums(), copy.sums()))
    shutil.rmtree(other.top)
    return copy


def try_forged(tally, copy):
    """`--check` passes what the sources give, however compressed, and refuses anything else, whatever the sums say."""
    check_make(tally, "it is what the sources give", copy, 0, "is what the sources give")
    files = kept(copy)
    for name, ending, change, told in FORGERIES:
        forge(copy, ending, change)
        renew_sums(copy)
        status, out = copy.make("--check")
        tally.check(f"forged: {name}", status == 1 and told in out and "is what the sources give\n" not in out.replace(told, ""), out)
        put_back(copy, files)
    path = copy.package(".tar.xz")
    path.write_bytes(lzma.compress(lzma.decompress(path.read_bytes()), preset=1))
    renew_sums(copy)
    check_make(tally, "compressed anew it passes", copy, 0, "is what the sources give")
    put_back(copy, files)


def try_spoiled(tally, copy):
    """What does not even fit its sums, whatever the sources are."""
    files = kept(copy)
    for ending in ENDINGS:
        path = copy.package(ending)
        path.write_bytes(spoiled(path.read_bytes()))
        check_make(tally, f"a spoiled {ending}", copy, 1)
        path.write_bytes(b"no package at all")
        check_make(tally, f"no {ending} at all", copy, 1)
        path.unlink()
        check_make(tally, f"a missing {ending}", copy, 1)
        put_back(copy, files)
    (copy.top / "release/more.deb").write_bytes(b"")
    check_make(tally, "a package that nobody listed", copy, 1)
    put_back(copy, files)


def try_other_sources(tally, copy):
    """Of other sources, or without the toolchain, the sums alone are compared, and that is said."""
    files = kept(copy)
    for part in ("crates/pocsag_words/src/lib.rt", "crates/pocsag_c/src/lib.rt", "clib/pocsag.h", "docs/pocsag.1"):
        undo = edited(copy, part)
        check_make(tally, f"an edit of {part}", copy, 0, f"release {version.VERSION} is of other sources\n")
        undo()
    copy.package(".deb").write_bytes(b"spoiled")
    (copy.top / "clib/more").write_text("")
    check_make(tally, "spoiled, and of other sources", copy, 1)
    (copy.top / "clib/more").unlink()
    put_back(copy, files)
    check_make(tally, "without the toolchain", copy, 0, *[] if LIBRARY else ["here is no toolchain"], PATH="/usr/bin:/bin")
    packed = ("MANIFEST", "SHA256SUMS", ".zip", ".tgz", ".html", *ENDINGS)
    put_back(copy, {path: data for path, data in files.items() if not path.name.endswith(packed)})
    check_make(tally, "no release", copy, 0, "is not packed")
    put_back(copy, files)


def try_first_call(tally, copy):
    """A fresh clone, and no toolchain, no Python and no xz: each command runs at once."""
    copy.drop_built()
    for commands in (*((it,) for it in READERS), (READER, "rt", *PYTHON)):
        user = User(copy, *commands)
        for words, printed in COMMANDS:
            start = time.monotonic()
            status, out, err = user.run(*words)
            took = time.monotonic() - start
            tally.check(f"{words[0]} with {commands}", (status, out[: len(printed)], err) == (0, printed, "") and took < 10, (status, out[:200], err, took))
        tally.check("nothing is built", not user.calls.exists() and not list(copy.top.glob("crates/*/out")), user.calls)
        shutil.rmtree(copy.top / "out")
    tally.check_run("nothing that reads packages", User(copy).run(*WORDS), 3, "", "xz is missing", "python3 is missing")
    tally.check("and nothing half unpacked", not list((copy.top / "out").glob("release/*")), list((copy.top / "out").glob("**/*")))


def try_later_calls(tally, copy):
    """It is unpacked once, and runs from each folder."""
    user = User(copy, READER)
    user.run(*WORDS)
    program = copy.top / "out/release/current/bin/pocsag"
    inode = program.stat().st_ino
    path = copy.package(".tar.xz")
    path.rename(path.with_suffix(".away"))
    tally.check("once unpacked, it needs no package", user.run(*WORDS) == (0, PLANNED, "") and program.stat().st_ino == inode)
    path.with_suffix(".away").rename(path)
    os.utime(copy.top / "crates/pocsag_words/src/lib.rt")
    tally.check("another time of a source changes nothing", user.run(*WORDS) == (0, PLANNED, "") and program.stat().st_ino == inode)
    due = f"pocsag {version.VERSION}, proved by "
    for option in ("--version", "-V"):
        status, out, err = user.run(option)
        tally.check(f"{option} says that it is the release", (status, err) == (0, "") and out.startswith(due) and out.endswith(", from release/\n"), (status, out, err))
    tally.check("its status is the program's", user.run("decode", "none")[0] == 3 and user.run("nothing")[0] == 2)
    shutil.rmtree(copy.top / "out")


def edited(copy, part="crates/pocsag_words/src/lib.rt"):
    """Edits a source; gives what puts it back."""
    path = copy.top / part
    before = path.read_bytes()
    path.write_bytes(before + b"\n")
    return lambda: path.write_bytes(before)


def try_edit(tally, copy):
    """After an edit what changed is built where it can be, and else the release runs and says so."""
    undo = edited(copy)
    for commands in ((READER,), (READER, "rt"), (READER, "python3")):
        user = User(copy, *commands)
        status, out, err = user.run(*WORDS)
        tally.check(f"an edit, with {commands}", (status, out) == (0, PLANNED) and f"release {version.VERSION} is of other sources" in err and err.count("\n") == 1, (status, out, err))
        status, out, err = user.run("--version")
        tally.check("and its version", out.endswith(", from release/, of other sources\n"), out)
    user = User(copy, READER, "rt", *PYTHON)
    status, out, err = user.run("decode")
    tally.check("an edit, with the toolchain", (status, out) == (0, "built decode\n") and "run --jobs" in user.calls.read_text(), (status, out, err))
    tally.check("and its version", user.run("--version")[1] == "built --version, built here\n", user.run("--version"))
    undo()
    tally.check("the edit undone, it is the release's turn", user.run("--version")[1].endswith(", from release/\n"), user.run("--version"))
    copy.drop_built()


def try_refused(tally, copy):
    """A spoiled package, another processor, or POCSAG_RELEASE=no: the release is not used."""
    bare, builder = User(copy, READER), User(copy, READER, "rt", *PYTHON)
    tally.check_run("POCSAG_RELEASE=no", bare.run(*WORDS, POCSAG_RELEASE="no"), 3, "", "nothing can be built")
    tally.check("POCSAG_RELEASE=no unpacks nothing", not (copy.top / "out").exists())
    tally.check("with the toolchain it builds", builder.run("decode", POCSAG_RELEASE="no")[:2] == (0, "built decode\n"))
    copy.drop_built()
    tally.check_run("another processor", bare.run(*WORDS, HOSTTYPE="riscv64"), 3, "", "nothing can be built")
    files = kept(copy)
    for name in ("spoiled", "forged"):
        for ending, program in ((".tar.xz", "bin/pocsag"), (".deb", "usr/bin/pocsag")):
            path = copy.package(ending)
            if name == "spoiled":
                path.write_bytes(spoiled(path.read_bytes()))
            else:
                forge(copy, ending, lambda it, program=program: flipped(it, program))
        tally.check_run(f"a {name} package", bare.run(*WORDS), 3, "", "is not used")
        tally.check_run(f"a {name} package, with the toolchain", builder.run("decode"), 0, "built decode\n")
        tally.check("nothing of it is kept", not (copy.top / "out/release/current").exists(), list((copy.top / "out").glob("release/*")))
        copy.drop_built()
        put_back(copy, files)


def try_at_once(tally, copy):
    user = User(copy, READER)
    command, environment = [str(copy.top / "pocsag"), "check", "examples/round.csv", "round.cert"], {"PATH": str(user.commands)}
    calls = [subprocess.Popen(command, cwd=copy.top, env=environment, stdout=subprocess.PIPE, stderr=subprocess.PIPE, text=True) for _ in range(6)]
    ends = [(*call.communicate(timeout=60), call.returncode) for call in calls]
    tally.check("six first calls at once", all(it == ("at least 2 batches\n", "", 0) for it in ends), ends)
    tally.check("nothing half unpacked is left", not list((copy.top / "out/release").glob("unpacking*")))
    copy.drop_built()
    # Another call unpacks it while this one does: what it put there stays.
    first, link = copy.top.parent / "first", shutil.which("ln")
    for name in ("mv", "rm"):
        other = f'[ -n "$OTHER" ] || {{ OTHER=1 ./pocsag {" ".join(command[1:])}; {link} out/release/current/bin/pocsag "{first}"; }} > /dev/null 2>&1'
        real = (user.commands / name).readlink()
        (user.commands / name).unlink()
        put_script(user.commands / name, f'#!/bin/sh\n{other}\nexec {real} "$@"\n')
    tally.check("a call that another overtakes", user.run(*command[1:]) == (0, "at least 2 batches\n", ""))
    tally.check("the other's program stays", first.samefile(copy.top / "out/release/current/bin/pocsag"))
    tally.check("nothing else is left", len(list((copy.top / "out/release").iterdir())) == 2)
    first.unlink()
    copy.drop_built()


def installed(copy, *words, **environment):
    """A run of ./install without the toolchain."""
    command = [sys.executable, str(copy.top / "install"), *map(str, words)]
    return call(*command, env={"PATH": "/usr/bin:/bin", **environment}, text=True)


def try_installed(tally, copy):
    """./install copies from the release, also where the program alone was unpacked before, and what it brings runs."""
    if "dpkg-deb" in READERS:
        User(copy, "dpkg-deb").run(*WORDS)
        tally.check("the program alone", not (copy.top / "out/release/current/lib").exists())
    prefix = copy.top.parent / "prefix"
    done = installed(copy, prefix)
    path = copy.package(".tar.xz")
    files = packages.read(path.name, path.read_bytes())
    tally.check("./install takes the release", done.returncode == 0 and "release of release/" in done.stderr, done)
    for name in ("bin/pocsag", "lib/libpocsag.a", "lib/libpocsag.so.1", "include/pocsag.h", "share/man/man1/pocsag.1", "lib/pkgconfig/pocsag.pc"):
        tally.check(f"{name} is the packed one", (prefix / name).read_bytes() == files[name].data)
    undo = edited(copy)
    done = installed(copy, "--program", prefix)
    tally.check("an edit, and no toolchain", done.returncode == 0 and "is of other sources" in done.stderr, done)
    undo()
    copy.drop_built()


# It stands in for the program as C, which takes minutes to compile.
MAKEFILE = b"bin/pocsag: program\n\tmkdir -p bin\n\tcp program bin/pocsag\n"
ELSEWHERE = ({"HOSTTYPE": "riscv64"}, {"HOSTTYPE": "arm", "OSTYPE": "linux-gnueabihf"}, {"OSTYPE": "linux-musl"})


def try_in_c(tally, copy):
    """Where the release has no package for a machine, the one in C is compiled once, if there is a compiler."""
    if not shutil.which("make"):
        print("left out: the package in C, since there is no make")
        return
    files, native = kept(copy), copy.package(".tar.xz")
    program = packages.read(native.name, native.read_bytes())
    held = {name: file for name, file in program.items() if name.startswith("share/")}
    held |= {"Makefile": File(MAKEFILE), "program": program["bin/pocsag"]}
    path = copy.top / f"release/pocsag-{version.VERSION}-c.tar.xz"
    path.write_bytes(packages.write(path.name, held, version.SECONDS))
    renew_sums(copy)
    user, bare = User(copy, READER, "cc", "make", "cp"), User(copy, READER, "make", "cp")
    tally.check("the machine's own package comes first", user.run(*WORDS) == (0, PLANNED, ""))
    copy.drop_built()
    for machine in ELSEWHERE:
        tally.check_run(f"{machine}, without a compiler", bare.run(*WORDS, **machine), 3, "", "nothing can be built")
        status, out, err = user.run(*WORDS, **machine)
        told = f"compiling {path.name}, once: one to four minutes"
        tally.check(f"{machine}: compiled", (status, out) == (0, PLANNED) and told in err and err.count("\n") == 1, (status, out, err))
        tally.check(f"{machine}: once", user.run(*WORDS, **machine) == (0, PLANNED, ""))
        tally.check(f"{machine}: its version", user.run("--version", **machine)[1].endswith(", from release/\n"))
        prefix = copy.top.parent / "prefix in C"
        done = installed(copy, prefix, **machine)
        tally.check(f"{machine}: installed", done.returncode == 0 and "has no C library for this machine" in done.stderr, done)
        brought = sorted(it.name for it in prefix.glob("**/*") if it.is_file())
        tally.check(f"{machine}: without the library", brought == ["_pocsag", "enqueue", "made", "next-slot", "pocsag", "pocsag", "pocsag.1", "pocsag.fish"], brought)
        shutil.rmtree(prefix)
        copy.drop_built()
    path.write_bytes(spoiled(path.read_bytes()))
    status, out, err = user.run(*WORDS, **ELSEWHERE[0])
    tally.check("a spoiled package in C", (status, out) == (3, "") and "is not used" in err and "compiling" not in err, (status, out, err))
    copy.drop_built()
    put_back(copy, files)


def try_wheel(tally, copy, folder):
    """Python installs the wheel and plans by it."""
    path, target = copy.package(".whl"), folder / "python"
    has_pip = call(sys.executable, "-m", "pip", "--version").returncode == 0
    if has_pip:
        words = [sys.executable, "-m", "pip", "install", "--quiet", "--no-index", "--no-deps", "--target", str(target), str(path)]
        tally.check_done("pip installs the wheel", call(*words, text=True), 0, ANY, ANY)
    else:
        shutil.unpack_archive(str(path), str(target), "zip")
    try_python(tally, copy, target, target / "pocsag/libpocsag.so.1")
    files = packages.read(path.name, path.read_bytes())
    (about,) = (email.message_from_bytes(file.data) for name, file in files.items() if name.endswith(".dist-info/METADATA"))
    wanted = {"Name": "pocsag", "Version": version.PYTHON, "License-Expression": "Apache-2.0 OR MIT", "Requires-Python": ">=3.8"}
    tally.check("what it says of itself", {name: about[name] for name in wanted} == wanted and "Pocsag().plan(" in about.get_payload(), about)
    tally.check("its classes and its place", "Typing :: Typed" in about.get_all("Classifier") and about["Summary"] and about["Project-URL"] and "pocsag/py.typed" in files, about)
    licences = {name.rpartition("/")[2] for name in files if ".dist-info/licenses/" in name}
    tally.check("its licences", licences == {*about.get_all("License-File")}, licences)


def try_python(tally, copy, path, library):
    """Python plans by the package in a folder, and finds this library."""
    script = "import pocsag; p = pocsag.Pocsag(); print(p.plan(open('examples/round.csv', 'rb').read()).batches, pocsag.__version__, p.library._name)"
    done = call(sys.executable, "-c", script, cwd=copy.top, env={"PATH": "/usr/bin:/bin", "PYTHONPATH": str(path)}, text=True)
    tally.check("it plans by the library in it", done.stdout == f"2 {version.PYTHON} {library.resolve()}\n", done)


def try_tar(tally, copy, folder):
    """The line of README of the package: Python finds the library beside its own folder."""
    shutil.unpack_archive(str(copy.package(".tar.xz")), str(folder / "unpacked"), "xztar")
    (top,) = (folder / "unpacked").iterdir()
    line = re.search(r"export PYTHONPATH=FOLDER/(\w+)$", (top / "README").read_text(), re.M)
    try_python(tally, copy, top / line[1], top / "lib/libpocsag.so.1")


def needs_of(path):
    """The greatest version of glibc that a program or a library asks for."""
    told = call("readelf", "-V", path, text=True).stdout
    return max((tuple(map(int, it.split("."))) for it in re.findall(r"GLIBC_([\d.]+)", told)), default=(0,))


def try_debian(tally, copy, folder):
    """Debian's own commands read the package, and find no error in it."""
    path = copy.package(".deb")
    files = packages.read(path.name, path.read_bytes())
    documents = ("README.md", "LIBRARY.md", "examples/plan.c", "examples/plan.py", *["pocsag.html"] * bool(LIBRARY))  # what is packed here has no page
    tally.check_none("it has the papers, the page and the examples", [it for it in documents if f"usr/share/doc/pocsag/{it}" not in files])
    tally.check("its description has the three completions", "completions for bash, zsh and fish" in " ".join(files["DEBIAN/control"].data.decode().split()))
    if shutil.which("dpkg-deb"):
        told = call("dpkg-deb", "--field", path, text=True).stdout
        tally.check("dpkg-deb reads it", f"Version: {version.DEBIAN}\n" in told and "Depends: libc6 (>= 2.34)\n" in told, told)
        subprocess.run(["dpkg-deb", "-R", str(path), str(folder / "deb")], check=True)
        tally.check_done("its sums are right", call("md5sum", "-c", "--quiet", "DEBIAN/md5sums", cwd=folder / "deb"), 0, ANY, ANY)
        done = call(folder / "deb/usr/bin/pocsag", "check", "examples/round.csv", "round.cert", cwd=copy.top)
        tally.check("its program runs", done.stdout == b"at least 2 batches\n", done)
        if shutil.which("readelf"):
            (library,) = (folder / "deb/usr/lib").glob("*/libpocsag.so.1")
            tally.check("the C library that the program needs", needs_of(folder / "deb/usr/bin/pocsag") <= (2, 34))
            tally.check("and the library", needs_of(library) <= (2, 17), needs_of(library))
    if shutil.which("lintian"):
        told = call("lintian", "--allow-root", "--fail-on", "none", path, text=True).stdout
        tally.check("lintian finds no error", not re.search("^[EW]: ", told, re.M), told)


def try_release(tally, folder):
    copy = try_packed(tally, folder)
    if "is of other sources" in copy.make("--check")[1]:
        print("skipped: the release is of other sources")
        return
    if not LIBRARY:
        try_forged(tally, copy)
    for part in (try_spoiled, try_other_sources, try_first_call, try_later_calls, try_edit, try_refused, try_at_once, try_installed, try_in_c):
        part(tally, copy)
    for part in (try_wheel, try_tar, try_debian):
        part(tally, copy, folder)


def try_all(tally, folder):
    for part in (try_versions, try_kinds, try_release):
        part(tally, folder)
