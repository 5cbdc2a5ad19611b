"""Installs the built program into a folder and runs it from there, as another user and without the toolchain."""

import os
import pathlib
import re
import shutil

import version
from tally import ANY, PROGRAM, TOP, Text, as_nobody, call, put_script, said

PLACES = ["bin/pocsag", "share/man/man1/pocsag.1", "share/bash-completion/completions/pocsag", "share/zsh/site-functions/_pocsag",
          "share/fish/vendor_completions.d/pocsag.fish", "share/pocsag/examples/next-slot", "share/pocsag/examples/enqueue"]
# The Python that runs `install` has the module in its own folder.
PYTHON = shutil.which("python3")
SITE = "lib/python{}.{}/site-packages".format(*call(PYTHON, "-c", "import sys; print(*sys.version_info)", text=True).stdout.split())
MODULE = f"{SITE}/pocsag/__init__.py"
PACKAGE = "lib/pkgconfig/pocsag.pc"
DOCUMENTS = ["share/doc/pocsag/LIBRARY.md", "share/pocsag/examples/plan.c", "share/pocsag/examples/plan.py"]
LIBRARY = ["lib/libpocsag.a", "lib/libpocsag.so.1", "include/pocsag.h", MODULE, MODULE.replace("__init__.py", "py.typed"), PACKAGE, *DOCUMENTS, "lib/libpocsag.so"]


def install(*words, **how):
    return said(call(TOP / "install", *words, text=True, **how))


def files_below(folder):
    return sorted(str(path.relative_to(folder)) for path in folder.glob("**/*"))


def run_as_nobody(words, folder):
    """Runs a command as a user with no rights here, with the system's own commands alone in PATH."""
    return call(*as_nobody(folder), *words, cwd=folder, env={"PATH": "/usr/bin:/bin", "HOME": str(folder)})


def try_installed(tally, folder):
    prefix, room = folder / "prefix", folder / "room"
    prefix.mkdir()
    room.mkdir()
    room.chmod(0o777)
    status, out, err = install(prefix)
    tally.check("install", status == 0, (status, err))
    tally.check("what it brings is told", out.split() == [str(prefix / it) for it in PLACES + LIBRARY], out)
    tally.check("all of it is there", all((prefix / it).is_file() for it in PLACES + LIBRARY), files_below(prefix))
    tally.check("the program is the built one", (prefix / "bin/pocsag").read_bytes() == PROGRAM.read_bytes())
    program = prefix / "bin/pocsag"
    shutil.copy(TOP / "examples/round.csv", room / "round.csv")
    (room / "round.csv").chmod(0o644)
    ran = run_as_nobody([program, "plan", "round.csv", "round.bin", "round.cert"], room)
    tally.check("another user plans", (ran.returncode, ran.stdout) == (0, b"pages 6\nbatches 2\n"), ran)
    tally.check_done("and checks", run_as_nobody([program, "check", "round.csv", "round.cert"], room), 0, b"at least 2 batches\n", ANY)
    for number in range(40):
        shutil.copy(room / "round.csv", room / f"{number}.csv")
    script = "ls [0-9]*.csv | sed 's/\\.csv$//' | xargs -P 4 -I {} " + f"'{program}' plan {{}}.csv {{}}.bin {{}}.cert"
    ran = run_as_nobody(["sh", "-c", script], room)
    sent = {path.read_bytes() for path in room.glob("*.bin")}
    tally.check("a process a channel", ran.returncode == 0 and len(list(room.glob("*.bin"))) == 41 and len(sent) == 1, ran)


def try_library(tally, folder):
    """Compiles and runs an example over the installed library alone."""
    prefix = folder / "prefix"
    words = ["cc", "-o", folder / "plan", TOP / "clib/examples/plan.c", f"-I{prefix}/include", f"-L{prefix}/lib", "-lpocsag"]
    tally.check_done("an example is compiled over it", call(*words), 0, ANY, ANY)
    ran = call(folder / "plan", TOP / "examples/round.csv", env={"PATH": "/usr/bin:/bin", "LD_LIBRARY_PATH": f"{prefix}/lib"})
    tally.check_done("and runs", ran, 0, Text(lambda out: out.startswith(b"pages 6\nbatches 2\n")), ANY)
    try_moved(tally, folder)


def python(folder, prefix):
    """What a Python that anybody may run prints of a plan by the installed module, as a user with no rights here."""
    command = "/usr/bin/python3" if pathlib.Path("/usr/bin/python3").exists() else PYTHON
    script = "import pocsag; plan = pocsag.Pocsag().plan(bytearray(open('room/round.csv', 'rb').read())); print(plan.batches)"
    environment = {"PATH": "/usr/bin:/bin", "PYTHONPATH": str(prefix / SITE), "PYTHONDONTWRITEBYTECODE": "1"}
    return call(*as_nobody(folder), command, "-c", script, text=True, cwd=folder, env=environment)


def try_moved(tally, folder):
    """What is installed still finds itself where its folder is moved as a whole."""
    prefix, moved = folder / "prefix", folder / "moved"
    tally.check_done("Python plans by the installed module", python(folder, prefix), 0, "2\n", "")
    shutil.copytree(prefix, moved, symlinks=True)
    tally.check_done("and so from another folder", python(folder, moved), 0, "2\n", "")
    text = (moved / PACKAGE).read_text()
    number = re.search(r"#define POCSAG_VERSION (\d+)u", (moved / "include/pocsag.h").read_text())[1]
    tally.check("the package has the version and the number of the interface", f"interface={number}\n" in text and f"Version: {version.VERSION}\n" in text, text)
    tally.check("and no folder of this machine", "prefix=${pcfiledir}/../..\n" in text and str(prefix) not in text, text)
    if shutil.which("pkg-config"):
        environment = {"PATH": "/usr/bin:/bin", "PKG_CONFIG_PATH": str((moved / PACKAGE).parent)}
        told = call("pkg-config", "--cflags", "--libs", "pocsag", text=True, env=environment)
        folders = [pathlib.Path(word[2:]).resolve() for word in told.stdout.split()[:2]]
        tally.check("pkg-config finds the moved folder", folders == [moved / "include", moved / "lib"], told)
    shutil.rmtree(moved)


def try_loader(tally, folder):
    """The loader is told of a library where that may be, and else the line that is needed is printed."""
    prefix, told, fake = folder / "prefix", folder / "told", folder / "commands"
    fake.mkdir()
    put_script(fake / "ldconfig", f"#!/bin/sh\necho \"$@\" >> '{told}'\n")
    environment = {**os.environ, "PATH": f"{fake}:{os.environ['PATH']}"}
    lines = [f"export {name}={prefix / path}" for name, path in (("LD_LIBRARY_PATH", "lib"), ("PYTHONPATH", SITE), ("PKG_CONFIG_PATH", "lib/pkgconfig"))]
    tally.check_run("the lines that are needed are printed", install(prefix, env=environment), 0, ANY, *lines)
    tally.check("the loader's list of another folder is left", "\n\n" not in f"\n{told.read_text()}" if told.exists() else True, told)
    script = "import importlib.machinery as m, pathlib, sys; i = m.SourceFileLoader('i', sys.argv[1]).load_module(); [i.list_for_loader(pathlib.Path(p)) for p in sys.argv[2:]]"
    told.unlink(missing_ok=True)
    ran = call(PYTHON, "-W", "ignore", "-c", script, TOP / "install", "/usr/local", prefix, text=True, env=environment)
    calls = told.read_text().split("\n") if told.exists() else [""]
    tally.check("and the loader is asked once below /usr/local by root alone", ran.returncode == 0 and len(calls) - 1 == (os.geteuid() == 0), (ran, calls))


def try_again(tally, folder):
    prefix = folder / "prefix"
    inode = (prefix / "bin/pocsag").stat().st_ino
    status, _, err = install(prefix)
    tally.check("once more over the first", status == 0 and (prefix / "bin/pocsag").stat().st_ino != inode, err)
    tally.check("nothing half written is left", not [it for it in files_below(prefix) if "/." in it], files_below(prefix))
    (prefix / "bin/other").write_text("other\n")
    status, out, err = install("--uninstall", prefix)
    tally.check("uninstall leaves what others brought", status == 0 and files_below(prefix) == ["bin", "bin/other"], files_below(prefix))
    tally.check("twice does no harm", install("--uninstall", prefix) == (0, "", ""))
    made = folder / "made"
    status, out, _ = install("--program", made)
    tally.check("the program alone", out.split() == [str(made / it) for it in PLACES], out)
    tally.check("a folder that is not there", status == 0 and (made / "bin/pocsag").is_file())
    install("--uninstall", made)
    tally.check("goes again with what it held", not made.exists())


def try_refused(tally, folder):
    for words in ([folder / "a", folder / "b"], [""], ["--program", ""], ["--uninstall", ""]):
        tally.check_run(f"no folder or two are usage: {words}", install(*words), 2, "", "PREFIX")
    tally.check_run("an unknown option is usage", install("--wrong"), 2, "")
    status, out, err = install("--help")
    tally.check("help", status == 0 and "PREFIX" in out and not err, (status, out, err))
    for script in ("install", "test"):
        ran = call("/bin/sh", TOP / script, env={"PATH": f"{folder}/none"}, text=True)
        told = f"{script}: python3 is missing; on Debian: apt-get install python3\n"
        tally.check_done(f"./{script} where Python is missing", ran, 1, ANY, told)
    (folder / "file").write_text("")
    (folder / "closed").mkdir()
    (folder / "closed/bin").symlink_to("/proc")
    for name, words, told in (
        ("a file in the place of a folder", [folder / "file/below"], "install: "),
        ("a folder that takes no file", ["--program", folder / "closed"], f"install: {folder}/closed/bin/pocsag: "),
    ):
        status, out, err = install(*words)
        lines = [line for line in err.splitlines() if not line.startswith("pocsag: ")]
        tally.check(name, status == 1 and len(lines) == 1 and lines[0].startswith(told), (status, out, err))


def try_all(tally, folder):
    for part in (try_installed, try_library, try_loader, try_again, try_refused):
        part(tally, folder)
