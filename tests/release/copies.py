"""A copy of the repository with a release of its sources, for this processor alone, and those who run it."""

import os
import re
import shutil
import subprocess
import sys

import workspace
from tally import LIBRARY, TOP, put_script

PARTS = ("VERSION", "LICENSE-APACHE", "LICENSE-MIT", "clib", "completions", "README.md", "crates.txt", "docs/LIBRARY.md", "docs/pocsag.1",
         "examples", "install", "pocsag", "portable", "release", "tests/tally.py", "tools", "web")
BUILT = ("crates/pocsag_app/out/pocsag_app", "crates/pocsag_c/out/libpocsag_c.a", "out/pocsag_app.built", "out/pocsag_c.built")
# Runs release/make for the processor of this machine alone.
NATIVE_ALONE = """
import sys
sys.dont_write_bytecode = True
sys.path.insert(0, "tools")
from workspace import module_at
module = module_at("release_make", "release/make")
module.contents.page = lambda: None
module.contents.groups = lambda page=None, groups=module.contents.groups: [it for it in groups(page) if it[0] == module.products.NATIVE.name]
sys.exit(module.main(sys.argv[1:]))
"""
# What a machine has where nothing is installed. Which of the last three read packages differs.
BARE = "basename bash cat chmod cut dirname find grep ln mkdir mv readlink rm sed sha256sum sort tar xargs dpkg".split()
# It stands in for the toolchain: where it is to run a program, it makes one that prints its words.
RT = """#!/bin/bash
echo "$*" >> "{calls}"
[ "$1" = run ] || exit 0
mkdir -p out && cd out && printf '#!/bin/sh\\necho built "$@"\\n' > "$(basename "$(dirname "$PWD")")" && chmod +x *
"""


class Copy:
    """A copy of the sources, with what is built of them or the release of them."""

    def __init__(self, folder, name="copy"):
        self.top = folder / name
        self.top.mkdir(parents=True)
        sources = [it for crate in workspace.read_crates().values() for it in workspace.sources([crate])]
        for part in (*PARTS, *sources, *(() if LIBRARY else BUILT)):
            self.put(part)

    def put(self, part):
        target = self.top / part
        target.parent.mkdir(parents=True, exist_ok=True)
        if (TOP / part).is_dir():
            ignored = shutil.ignore_patterns("__pycache__", *(() if LIBRARY else ("*.tar.xz", "*.deb", "*.whl", "*.tgz", "*.zip", "*.html", "MANIFEST", "SHA256SUMS")))
            shutil.copytree(TOP / part, target, ignore=ignored)
        elif (TOP / part).is_file():
            shutil.copy2(TOP / part, target)

    def make(self, *words, **environment):
        """Runs release/make; gives its status and all that it printed."""
        command = [sys.executable, "-c", NATIVE_ALONE, *words]
        done = subprocess.run(command, cwd=self.top, env={**os.environ, **environment}, stdout=subprocess.PIPE, stderr=subprocess.STDOUT, text=True)
        return done.returncode, done.stdout

    def sums(self):
        return (self.top / "release/SHA256SUMS").read_text()

    def package(self, ending):
        """The package of a kind for this machine."""
        (found,) = (it for it in (self.top / "release").iterdir() if it.name.endswith(ending) and re.search("x86_64|amd64", it.name))
        return found

    def drop_built(self):
        """As a fresh clone is."""
        for path in (self.top / "out", *self.top.glob("crates/*/out")):
            shutil.rmtree(path, ignore_errors=True)


class User:
    """Whoever has the copy and some commands in PATH."""

    def __init__(self, copy, *commands):
        self.copy, self.commands = copy, copy.top.parent / f"commands {len(list(copy.top.parent.glob('commands *')))}"
        self.commands.mkdir()
        self.calls = self.commands / "calls"
        for name in (*BARE, *commands):
            if name == "rt":
                put_script(self.commands / name, RT.format(calls=self.calls))
            elif shutil.which(name):
                (self.commands / name).symlink_to(os.path.realpath(shutil.which(name)))

    def run(self, *words, **environment):
        """Runs ./pocsag; gives its status and what it printed on both streams."""
        command = [str(self.copy.top / "pocsag"), *map(str, words)]
        how = {"cwd": self.copy.top, "env": {"PATH": str(self.commands), **environment}, "capture_output": True, "timeout": 60}
        done = subprocess.run(command, stdin=subprocess.DEVNULL, **how)
        return done.returncode, done.stdout.decode("latin-1"), done.stderr.decode("latin-1")
