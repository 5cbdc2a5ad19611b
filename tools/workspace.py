"""The crates of this repository, by the list that the prover reads, `crates.txt`."""

import dataclasses
import hashlib
import importlib.machinery
import importlib.util
import pathlib
import re

TOP = pathlib.Path(__file__).resolve().parents[1]
PARTS = ("src", "specs", "proofs")
PROGRAM = "pocsag_app"  # the crate of the program
LINE = re.compile(r"([\w-]+)((?: +[\w=+.-]+)*):([\w\s-]*)")  # a name, what kind of crate it is, its libraries
TEST = re.compile(r"^\s*#\s*\[[^]]*\btest\b", re.M)
FUNCTION = re.compile(r"\bfn \w")


def module_at(name, path):
    """A script as a module."""
    loader = importlib.machinery.SourceFileLoader(name, str(path))
    made = importlib.util.module_from_spec(importlib.util.spec_from_loader(name, loader))
    loader.exec_module(made)
    return made


class BadList(Exception):
    """The list of crates cannot be read."""


@dataclasses.dataclass(frozen=True)
class Crate:
    """A crate: its folder, its line of the list, and the crates of this repository that it uses."""

    name: str
    path: str  # its folder below crates/, which is its name
    folder: pathlib.Path
    line: str
    uses: tuple

    @property
    def is_program(self):
        return (self.folder / "src/main.rt").is_file()

    @property
    def is_product(self):
        """Whether it is built to be used without the crates, as a program or for C."""
        return self.is_program or " staticlib" in self.line.partition(":")[0]

    def code(self):
        """The text of its source files."""
        return "\n".join(path.read_text(errors="replace") for path in sorted(self.folder.glob("src/**/*.rt")))

    @property
    def functions(self):
        return len(FUNCTION.findall(self.code()))

    @property
    def has_tests(self):
        return bool(TEST.search(self.code()))

    def edits(self, top=TOP):
        """The files of its wrong bodies."""
        folders = self.folder / "must-fail", top / "tests/wrong_bodies" / self.name
        return sorted(file for folder in folders for file in folder.glob("*.edit"))


def read_crates(top=TOP):
    """Each crate of the list by its name, a crate after those that it uses."""
    rows = {}
    for line in (top / "crates.txt").read_text().splitlines():
        line = line.partition("#")[0].strip()
        found = LINE.fullmatch(line)
        if line and not found:
            raise BadList(f"crates.txt: NAME: LIBRARY .. is wanted, and not {line}")
        if line:
            rows[found[1]] = line, found[3].split()
    ordered = {}

    def visit(name, above=()):
        if name in above:
            raise BadList(f"crates.txt: {name} uses itself")
        if name not in ordered:
            line, words = rows[name]
            uses = tuple(it for it in words if it in rows)
            for used in uses:
                visit(used, (*above, name))
            ordered[name] = Crate(name, name, top / "crates" / name, line, uses)

    for name in rows:
        visit(name)
    return ordered


def below(crates, *names):
    """These crates and all that they stand on, a crate after those that it uses."""
    wanted, left = set(), list(names)
    while left:
        name = left.pop()
        if name not in crates:
            raise BadList(f"crates.txt has no crate {name}")
        if name not in wanted:
            wanted.add(name)
            left += crates[name].uses
    return {name: crate for name, crate in crates.items() if name in wanted}


def sources(crates):
    """What the crates are made from, relative to the top, also where it is not there (yet)."""
    return [f"crates/{crate.name}/{part}" for crate in crates for part in PARTS]


def digest(paths, top=TOP):
    """A sum of the names and contents of the files below the paths."""
    total = hashlib.sha256()
    for path in map(top.joinpath, paths):
        for file in sorted([path] if path.is_file() else filter(pathlib.Path.is_file, path.glob("**/*"))):
            total.update(repr((str(file.relative_to(top)), file.read_bytes())).encode())
    return total.hexdigest()


def above(crates, name):
    """The crates that stand on the crate, directly or not."""
    return [other for other in crates if other != name and name in below(crates, other)]


def weight(crates, name):
    """About how many processor seconds a crate's proof takes: some two for each function, and three for each crate that
    it loads."""
    return 2 * crates[name].functions + 3 * len(below(crates, name))
