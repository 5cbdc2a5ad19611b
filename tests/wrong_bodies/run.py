#!/usr/bin/env python3
"""Tries wrong bodies: the prover must refuse each function in which one is planted.

  run.py CRATE..          tries those of these crates that have no line in the crate's file of verdicts, and writes it: for
                          `./test --mutations`. What stands below the crates must be built as it is
  run.py --gate CRATE..   tries these and one in ten of the others, and writes nothing: for `./test --from-nothing`
  run.py --all CRATE..    tries all, and writes nothing
  run.py --files          tries none, and wants each line of these files to be one that a run with these sources wrote

A wrong body is a file `.edit` in crates/CRATE/must-fail or tests/wrong_bodies/CRATE: a line `file: src/x.rt`, then
pairs of lines `old: TEXT` and `new: TEXT`, where each old text stands once in the file. The function that must be
refused is the one around the text; a line `function: MODULE::NAME` (as the prover prints it, less the crate) names
another, and a line `clause: NAME` the clause that it is tried against first; what that does not refuse is tried against
the whole contract.

The verdict on a function rests on its own body and on the contracts of what it calls (basis.py). So nearly all wrong
bodies of a crate are tried in one check of a copy of the crate, a round, each in a copy of its function beside the right
one, where all other functions have an empty body and a hole for a proof. A method of a trait is changed in its place, and
holds one in a round. What others may see, and no named function is refused for, has a round of its own. A wrong body counts
as refused where a goal of its own function stays open, and not because a proof file no longer fits. What is not refused in
its round is tried alone, at last in the crate as it is. A round also holds a change that is right, which must be proved.

The last line is 'N passed, M failed'; the status is 0 where M is 0.
"""

import functools
import hashlib
import inspect
import itertools
import pathlib
import re
import subprocess
import sys
import tempfile
import typing

sys.dont_write_bytecode = True
HERE = pathlib.Path(__file__).resolve().parent
sys.path[:0] = [str(HERE), str(HERE.parent), str(HERE.parents[1] / "tools")]
import kit
import lanes
import workspace
from basis import Basis
from edits import given, narrowed, read_edits, rounds_of, unoffered
from prover import PROVED, Room
from sources import texts_of
from tally import TOP, Tally

FILE = "refused.txt"
SCRIPTS = [f"tests/wrong_bodies/{it}.py" for it in ("basis", "edits", "prover", "run", "source")] + ["tools/sources.py"]
OPTIONS = ("--all", "--files", "--gate")
GOAL = re.compile(r"\(`([^`\s]+)`\)|error: `([^`\s]+)`:|: `([^`\s]+)")

class Verdict(typing.NamedTuple):
    """Whether an edit did as it must, what to say of it, and the units that were refused beside its own."""

    holds: bool
    told: str
    elsewhere: set = frozenset()


class Verdicts:
    """What refused the wrong bodies of a crate, as the file of its verdicts has it: a line for each, with its name, a sum of all that
    the verdict rests on, and the goal that was not proved, or `-` where that is of no clause of this repository."""

    def __init__(self, crate, basis, files, chosen=()):
        """Reads a crate's edits and its file of verdicts. Those whose names are chosen are tried whatever the file says."""
        self.crate, self.file, self.chosen = crate, TOP / "tests/wrong_bodies" / crate.name / FILE, chosen
        self.texts = texts_of(crate)
        self.good, self.bad = read_edits(files, self.texts)
        self.rests = {it.name: basis.texts(crate, it, self.texts) for it in self.good}
        self.sums = {name: hashlib.sha256(repr((toolchain(), rests)).encode()).hexdigest()[:16] for name, rests in self.rests.items()}
        self.lines = self.file.read_text().splitlines() if self.file.is_file() else []
        self.known = {line.split()[0]: line for line in self.lines if not self.why_not(line)}

    def why_not(self, line):
        """Why a line is none that a run with these sources would have written; nothing where it is one."""
        name, total, goal = (line.split(" ") + ["", ""])[:3]
        if name not in self.sums or line != f"{name} {total} {goal}":
            return "no wrong body has this name"
        if total != self.sums[name]:
            return "what its verdict rests on has changed since"
        clause = re.search(r"-clause-(\w+)$", goal)
        wanted = rf"(?:ensures|requires) {clause[1]} \{{" if clause else "ensures " if goal.startswith("returns") else ""
        return "" if any(re.search(wanted, it) for it in self.rests[name]) else "its clause does not exist"

    def add(self, edit, told):
        """Adds what a run said of a wrong body that was refused."""
        found = GOAL.search(told)
        line = f"{edit.name} {self.sums[edit.name]} " + (re.sub(r"_copy_\d+", "", next(filter(None, found.groups()))) if found else "-")
        self.known[edit.name] = f"{edit.name} {self.sums[edit.name]} -" if self.why_not(line) else line

    def write(self):
        lines = [self.known[name] for name in sorted(self.known)]
        if lines != self.lines:
            self.file.write_text("".join(f"{it}\n" for it in lines))
            self.lines = lines

    def wrong(self):
        """The lines that no run with these sources would have written, each with why."""
        names = [it.partition(" ")[0] for it in self.lines]
        return [f"{name}: {self.why_not(line) or 'it has two lines'}" for at, (name, line) in enumerate(zip(names, self.lines))
                if self.why_not(line) or name in names[:at]]


def printed(command):
    """What a command prints; nothing where it is missing."""
    return subprocess.run(["sh", "-c", f"{command} 2> /dev/null"], cwd=TOP, stdout=subprocess.PIPE, text=True).stdout.strip()


@functools.cache
def toolchain():
    """What each verdict rests on beside sources: the toolchain's logic, which several of its versions share, and these scripts."""
    return printed("rt version | sed 's/.* logic/logic/'"), workspace.digest(SCRIPTS), inspect.getsource(kit.check_words)


def turn():
    """Which tenth of the wrong bodies a landing tries again. The number of commits says so, since ten that follow each other then try
    all; where the history is cut off, the name of the last one does. None where there is no history: then all are tried."""
    git = lambda words: printed(f"git -c safe.directory='*' {words}")
    if git("rev-parse --is-shallow-repository") == "false":
        return int(git("rev-list --count --first-parent HEAD") or 0) % 10
    name = git("rev-parse HEAD")
    return int(name, 16) % 10 if name else None


def tenths(crates):
    """The number of the tenth that each wrong body is in, by its crate and its name. A tenth is of few crates, since most of the time of a
    check goes into what stands below its crate."""
    costs = {(crate.name, it.stem): 5 + len(workspace.below(crates, crate.name)) for crate in crates.values() for it in crate.edits()}
    return {it: 10 * (total - 1) // sum(costs.values()) for it, total in zip(costs, itertools.accumulate(costs.values()))}


def judged(seen, edit, is_alone):
    """The verdict on an edit after a check in which it was planted."""
    if edit.is_right:
        name = edit.functions[0].name
        status = seen.said.statuses.get(name, "not there") if name in seen.said.checked else "not checked anew"
        return Verdict(bool(PROVED.fullmatch(status)), f"{name}: {status}")
    named = seen.by_name(edit.function) if edit.function else None
    if edit.function and not named:
        return Verdict(False, f"BAD EDIT: no function is named {edit.function}")
    own = {named.unit} if named else {it.unit for it in edit.functions}
    if {function.unit for function in (seen.at(*it) for it in seen.said.unreadable()) if function} & own:
        return Verdict(False, "BAD EDIT: the prover cannot read the edited text, so no contract was tried")
    elsewhere = seen.refused_units() - own
    told = ["NOT REFUSED"]
    for unit in sorted(own) + (sorted(elsewhere) if is_alone and not named else []):
        holds, said = seen.judge(unit, may_be_lemma=not edit.functions)
        if holds:
            return Verdict(True, f"refused in {unit}: {said}", elsewhere)
        told.append(said)
    return Verdict(False, max(told, key=lambda it: it.startswith("BAD")), elsewhere)


def tried(room, edits, texts, is_whole=False):
    """The verdict on each of these edits, planted together; where they do not compile, on those that do. Checked are
    the functions that must be refused, by the clause alone that their edit names, unless the whole crate is to be."""
    planted = texts
    for edit in edits:
        planted = edit.planted(planted)[0]
    names = [] if is_whole or not all(edit.names() for edit in edits) else [name for edit in edits for name in edit.names()]
    if names:
        planted = given(unoffered(narrowed(planted, edits), edits), room.crate, edits)
    seen = room.check(planted, names)
    if seen.said.has_verdict:
        return {it: judged(seen, it, len(edits) == 1) for it in edits}
    if names:
        return tried(room, edits, texts, is_whole=True)
    if len(edits) == 1:
        places = [f"{path}:{line + 1}: {told}" for path, line, told in seen.said.places]
        told = places[0] if places else "; ".join(seen.said.lines[:4])
        return {edits[0]: Verdict(False, f"BAD EDIT: it does not reach the prover: {told[:300]}")}
    at_errors = {it.unit for it in (seen.at(path, line) for path, line, _ in seen.said.places) if it}
    wrong = [it for it in edits if at_errors & {function.unit for function in it.functions}]
    others, half = [it for it in edits if it not in wrong], len(edits) // 2
    parts = [*([it] for it in wrong), others] if wrong and others else [edits[:half], edits[half:]]
    return {edit: verdict for part in parts for edit, verdict in tried(room, part, texts).items()}


def verdicts(room, edits, texts):
    """The verdict on each edit of a round. What did not do as it must is tried alone, against the whole contract and then by a check of
    the whole crate; and what another edit's function may have been refused for is tried again without it."""
    found, reached = tried(room, edits, texts), set()
    for is_whole in (False, True):
        for edit in [it for it in edits if not found[it].holds and (is_whole or it.clause)]:
            edit.clause = None
            found.update(tried(room, [edit], texts, is_whole))
            reached |= found[edit].elsewhere
    again = [it for it in edits if found[it].holds and reached & {function.unit for function in it.functions}]
    if again:
        found.update(tried(room, again, texts))
    return found


def try_crate(known, below, writes=False):
    """Tries a crate's edits. Yields a name, whether it holds and what to say, for each of them and for the change that is right."""
    yield from ((name, False, f"BAD EDIT: {why}") for name, why in known.bad.items())
    left = [it for it in known.good if it.name not in known.known or it.name in known.chosen]
    yield from ((it.name, True, "was refused before") for it in known.good if it not in left)
    plan = rounds_of(left, known.texts)
    if plan and not any(it.is_right for edits in plan for it in edits) and any(not edits[0].is_alone for edits in plan):
        yield "a change that is right", False, "no function was found to make it in"
    with tempfile.TemporaryDirectory(prefix="wrong-bodies-") as folder:
        room = Room(known.crate, below, folder) if plan else None
        for edits in [*plan, []]:
            for edit, it in (verdicts(room, edits, known.texts) if edits else {}).items():
                yield edit.name, it.holds, it.told
                if it.holds and not edit.is_right:
                    known.add(edit, it.told)
            if writes:
                known.write()
    print(f"{known.crate.name}: tried {len(left)} of {len(known.good)} wrong bodies in {len(plan)} rounds")


def main(words):
    lanes.end_on_signals()  # so that the copies go
    crates, tally = workspace.read_crates(), Tally()
    option, names = (words[0], words[1:]) if words and words[0] in OPTIONS else ("", words)
    if not crates.keys() >= {*names} or bool(names) == (option == "--files"):
        print(__doc__, file=sys.stderr)
        return 2
    number, turns = (turn(), tenths(crates)) if option == "--gate" else (None, {})
    every = Basis(crates) if option == "--files" else None
    for crate in crates.values() if every else []:
        wrong = Verdicts(crate, every, crate.edits()).wrong()
        told = f"lines that no run with these sources wrote: {len(wrong)} ({'; '.join(wrong[:3])}). Run ./test --mutations {crate.name}"
        tally.check(f"tests/wrong_bodies/{crate.name}/{FILE}", not wrong, told)
    for crate in map(crates.get, names):
        below = workspace.below(crates, crate.name)
        chosen = [it.stem for it in crate.edits() if option and number in (None, turns.get((crate.name, it.stem)))]
        known = Verdicts(crate, Basis(below), crate.edits(), chosen)
        for edit, holds, told in try_crate(known, [it for it in below.values() if it is not crate], not option):
            tally.check(f"wrong body {crate.name}/{edit}", holds, told)
            if holds and told.startswith("refused"):
                print(f"wrong body {crate.name}/{edit}: {told}", flush=True)
    return tally.end()


if __name__ == "__main__":
    sys.exit(main(sys.argv[1:]))
