"""A copy of a crate in which edits are planted, and what the prover says of it."""

import os
import pathlib
import re
import shutil
import subprocess

import kit
from sources import OF_FUNCTIONS, function_at, functions_of, homes_of
from workspace import PARTS

MINUTES = 40  # the longest that one check may take
CHECKED = re.compile(r"checked \w+?::(\S+), \d+ of \d+")
STATUS = re.compile(r"fn \w+?::(\S+): (.*)")
PLACE = re.compile(r"(?:note: )?(?:\./)?((?:src|specs|proofs)/\S+?):(\d+):\d+: (.*)")
PROVED = re.compile(r"proved|no holes|depends on a hole in .*")  # the latter two where a check may meet holes
OWN = re.compile(r"not proved|no proof: (?!it calls|it passes|a call of)")
SEARCHED = re.compile(r"`search` did not prove (`.*)")
CLAUSE = re.compile(r"`(?:\w+-)?returns")  # the name of a goal that a clause asks for; in a cycle behind a function's
# A proof file that names something which the edit took away, and what cites that proof.
UNFITTING = re.compile(r"has no field|is not in scope|has no `|was not admitted|which was rejected|expected a declaration")
UNOFFERED = "`unoffered`"  # the line that was planted in a proof file and fits nothing
UNREADABLE = re.compile(r"is not in scope|has no field|is no name|operand is missing|expected the end|cannot continue")


class Said:
    """What a check printed."""

    def __init__(self, text):
        self.lines = text.rstrip("\n").split("\n")
        self.statuses = {it[1]: it[2] for it in map(STATUS.fullmatch, self.lines) if it}
        self.checked = {it[1] for it in map(CHECKED.fullmatch, self.lines) if it}  # and not taken as it was kept
        self.has_verdict = any(it.startswith(("logic=", "only=")) for it in self.lines)
        self.places = []  # of each goal that is open and each error: path, line from 0, what is said
        for number, line in enumerate(self.lines):
            found = PLACE.match(line)
            if found and (found[3].startswith("error") or "it is not proved that" in found[3]):
                more = [it.strip() for it in self.lines[number + 1:number + 2] if it.startswith("  ")]
                self.places.append((found[1], int(found[2]) - 1, " ".join([found[3], *more])))

    def unreadable(self):
        """The places at which a text of the sources could not be read at all."""
        for path, line, told in self.places:
            found = re.match(r"error: (?:(`[^`]*`): )?(.*)", told)
            if found and path.startswith(("src/", "specs/")):
                if not found[1] or UNREADABLE.search(re.sub(r"`[^`]*`", "", found[2])):
                    yield path, line


class Planted:
    """A check of planted texts, and what it says of each function."""

    def __init__(self, texts, said):
        self.said, homes = said, homes_of(texts)
        self.functions = {path: functions_of(path, text, homes) for path, text in texts.items()
                          if path.startswith("src/")}

    def at(self, path, line):
        """The function at a line of the planted texts."""
        return function_at(self.functions.get(path, []), line)

    def by_name(self, name):
        """The function that the prover names so; a closure stands for the function around it."""
        outer = re.sub(r"(^|::)fn::(\w+)::.*", r"\1\2", name)
        return next((it for some in self.functions.values() for it in some if it.name == outer), None)

    def refused_units(self):
        """The units with a goal of their own that was not proved."""
        return {it.unit for name, status in self.said.statuses.items() if OWN.match(status) for it in [self.by_name(name)] if it}

    def goals(self, unit):
        """What is said of the unit's own open goals: at its lines, in its proof files, by its status."""
        for path, line, told in self.said.places:
            function = self.at(path, line) if path.startswith("src/") else None
            inside = re.sub(r"(^|/)fn/(\w+)/.*", r"\1\2/", path.removeprefix("proofs/"))
            if function and function.unit == unit or inside.startswith(unit.replace("::", "/") + "/"):
                yield f"{path}:{line + 1}: {told}"
        for name, status in self.said.statuses.items():
            searched = SEARCHED.search(status)
            function = searched and self.by_name(name)
            if function and function.unit == unit:
                yield f"{name}: {searched[1]}"

    def lemmas(self):
        """What is said of lemmas, which stand in no function's proof files."""
        for path, line, told in self.said.places:
            if path.startswith("proofs/") and os.path.basename(path) not in OF_FUNCTIONS:
                yield f"{path}:{line + 1}: {told}"

    def judge(self, unit, may_be_lemma=False):
        """Whether the unit is refused at a goal of its own, and that goal, or why it does not count. What changes no
        function's body (a constant) may be refused at a lemma that the unit's proof cites."""
        if unit not in self.refused_units():
            return False, "NOT REFUSED"
        goals = list(self.goals(unit)) + list(self.lemmas() if may_be_lemma else ())
        if goals and all(UNOFFERED in it for it in goals):
            return False, "NOT REFUSED"
        goals = [it for it in goals if UNOFFERED not in it]
        real = [it for it in goals if not (it.startswith("proofs/") and UNFITTING.search(it))]
        if real:
            # a clause before an invariant, and both before what a call asks for
            return True, min(real, key=lambda it: 2 * (not CLAUSE.search(it)) + ("loop-" not in it))[:240]
        if goals:
            return False, f"BAD EDIT: only a proof file no longer fits, so no contract was tried: {goals[0][:160]}"
        return False, "BAD EDIT: it is refused at no goal of its own"


def link_or_copy(source, target):
    """Makes a hard link, or a copy where the two places are on different file systems."""
    try:
        os.link(source, target)
    except OSError:
        shutil.copy2(source, target)


class Room:
    """A folder with a copy of the crate and of what stands below it, with the libraries that the proofs of those left."""

    def __init__(self, crate, below, top):
        self.crate, self.folder = crate.name, pathlib.Path(top) / "crates" / crate.path
        (self.folder / "out").mkdir(parents=True)
        (pathlib.Path(top) / "crates.txt").write_text("".join(f"{it.line}\n" for it in [*below, crate]))
        for it in below:
            for part in (*PARTS, "out/rlib"):
                if (it.folder / part).is_dir():
                    shutil.copytree(it.folder / part, pathlib.Path(top) / "crates" / it.path / part, copy_function=link_or_copy)
        for part in PARTS:
            if (crate.folder / part).is_dir():
                shutil.copytree(crate.folder / part, self.folder / part)
        self.words = kit.check_words(self.folder)

    def check(self, texts, only=()):
        """Checks the copy with these texts of its sources, over what the last check of the copy left: the whole crate, or these functions
        and what they call, which may have holes for proofs."""
        for part in PARTS:
            shutil.rmtree(self.folder / part, ignore_errors=True)
        for path, text in texts.items():
            (self.folder / path).parent.mkdir(parents=True, exist_ok=True)
            (self.folder / path).write_text(text)
        words = [*self.words, *(["--allow-holes"] if only else []), *(word for name in only for word in ("--only", name))]
        how = {"cwd": self.folder, "stdin": subprocess.DEVNULL, "stdout": subprocess.PIPE, "stderr": subprocess.STDOUT}
        try:
            said = subprocess.run(words, timeout=60 * MINUTES, encoding="utf-8", errors="replace", **how).stdout
        except subprocess.TimeoutExpired:
            said = f"the check did not end within {MINUTES} minutes"
        return Planted(texts, Said(said))
