"""Wrong bodies: the files `.edit`, and the rounds in which as many as fit are planted side by side."""

import re

from source import REQUIRES, hollow, outside_its_cycle, with_one_clause
from sources import CYCLE, all_functions, block_of, constant_at, function_at, functions_of, homes_of, joined, module_of, own_name, type_of

UNOFFERED = "\npub unoffered : Unoffered\nunoffered = Unoffered\n"  # fits nothing
HOLE = "pub anything {ℓ} : {A : Type ℓ} → A\nanything = ?\n"  # stands for each proof that a check takes as given


def proof_folder(unit):
    """The folder of the proof files of a function or a cycle."""
    return f"proofs/{unit.replace('::', '/')}"


class Unfit(Exception):
    """Says why an edit cannot be planted in these sources."""


class Edit:
    """A wrong body: pairs of texts by file, and where the edit names them the function that the prover must refuse, and the clause
    that it is tried against first."""

    def __init__(self, name, text):
        self.name, self.text = name, text
        self.pairs, self.function, self.clause, self.functions = [], None, None, []
        self.added = {}  # texts of files by their paths
        self.is_alone, self.is_right, self.is_copied = False, False, False
        path = old = None
        for line in text.split("\n"):
            word, _, rest = line.partition(":")
            rest = rest.removeprefix(" ")
            if word == "file":
                path = rest.strip()
            elif word in ("function", "clause"):
                setattr(self, word, rest.strip())
            elif word == "old":
                old = rest
            elif word == "new" and path and old:
                self.pairs.append((path, old, rest))
                old = None

    def planted(self, texts):
        """The texts with this edit, and the place of each pair as (path, line, whole text); raises Unfit."""
        texts, places = {**texts, **self.added}, []
        for path, old, new in self.pairs:
            if path not in texts:
                raise Unfit(f"there is no file {path}")
            if texts[path].count(old) != 1:
                raise Unfit(f"an 'old:' text is in {path} {texts[path].count(old)} times, and not once")
            line = texts[path].partition(old)[0].count("\n")
            texts[path] = texts[path].replace(old, new)
            places.append((path, line, texts[path]))
        if not places:
            raise Unfit("it has no 'file:', 'old:' and 'new:'")
        return texts, places

    def look(self, texts):
        """Finds the functions that the edit changes, and whether it has to be tried with no other beside it; gives the edit."""
        homes, found = homes_of(texts), {}
        for (path, line, text), (_, old, _) in zip(self.planted(texts)[1], self.pairs):
            function = function_at(functions_of(path, text, homes), line)
            if function:
                found[function.unit] = function
            if not function and not old.startswith("use "):
                self.is_alone = True  # others may see what it changes
        self.functions = list(found.values())
        self.judged = {it.name for it in self.functions} | {*filter(None, [self.function])}
        self.places = [(texts[path], texts[path].partition(old)[0].count("\n")) for path, old, _ in self.pairs if old in texts[path]]
        if self.function and self.function not in [it.name for it in self.functions]:
            self.is_alone = True
        return self

    def copied(self, texts, mark):
        """Plants the edit in a copy of its function, under a name with this mark, so that any number of edits of one function can be
        tried side by side; one of a constant in a copy of the constant, for a copy of the function that must be refused. A copy of a
        function in a cycle of calls is in none, since it calls the right ones. The edit stays in its place where a copy would not do: in
        a trait's method, in a function with a `Proof.antt`, where it changes several functions, or where none names the constant."""
        if len(self.functions) == 1 and not self.is_alone and self.function in (None, self.functions[0].name):
            self.copy(texts, mark, self.pairs[0][0], self.functions[0], [(old, new) for _, old, new in self.pairs])
        elif len(self.pairs) == 1 and not self.functions:
            path, old, new = self.pairs[0]
            name, item = constant_at(texts[path], texts[path].partition(old)[0].count("\n")) 
            place, function = all_functions(texts).get(self.function, (None, None))
            if name and function and old in item:
                other = f"{name}_COPY_{mark}"
                copy = re.sub(rf"\b{name}\b", other, item.replace(old, new), count=1)
                named = other if place == path else joined("crate", module_of(path), other)
                self.copy(texts, mark, place, function, [(name, named)], [(path, item, f"{item}\n\n{copy}")])

    def copy(self, texts, mark, path, function, pairs, beside=()):
        """Plants a copy of a function in which each first text of these pairs has become the second, and other pairs beside it, where a
        copy can be made."""
        own, body = own_name(function.name), "\n".join(texts[path].split("\n")[function.first:function.last + 1])
        folders = function.proof_folders()
        if function.is_of_trait or any(f"{it}/Proof.antt" in texts for it in folders) or any(old not in body for old, _ in pairs):
            return
        copy, copied = CYCLE.sub("", body), function.named(f"{own}_copy_{mark}")
        for old, new in pairs:
            copy = copy.replace(old, new)
        copy = re.sub(rf"\bfn {own}\b", f"fn {own_name(copied.name)}", copy, count=1)
        self.pairs, self.functions = [*beside, (path, body, f"{body}\n\n{copy}")], [copied]
        self.function, self.is_alone, self.is_copied = None, False, True
        members = {own_name(name): REQUIRES.findall("\n".join(texts[place].split("\n")[it.first:it.last]))
                   for name, (place, it) in all_functions(texts).items() if it.unit == function.unit}
        for folder, to in ((it, proof_folder(copied.unit)) for it in folders):
            for file in [it for it in texts if it.startswith(f"{folder}/")]:
                mine = texts[file].replace(f"{folder}/".replace("/", "."), f"{to}/".replace("/", "."))
                mine = outside_its_cycle(mine, own, members) if "/+" in folder else mine
                self.added[to + file.removeprefix(folder)] = mine

    def names(self):
        """The functions that have to be checked, or none where those are that rest on what is changed."""
        return [self.function] if self.function else [] if self.is_alone else [it.name for it in self.functions]


def narrowed(texts, edits):
    """The planted texts in which the contract of each copy, and of a function that is checked alone, keeps of the clauses with a
    name the one that its edit names."""
    for edit in edits:
        names = edit.names()
        if edit.clause and len(names) == 1 and (edit.is_copied or edit.is_alone):
            texts = with_one_clause(texts, names[0], edit.clause) or texts
    return texts


def unoffered(texts, edits):
    """The planted texts in which the proof file of each function that must be refused has a line that fits nothing:
    the prover then prints its open goals without looking for what to write for them, which costs as much again."""
    texts, functions = dict(texts), {name: it for name, (_, it) in all_functions(texts).items()}
    named = {name for edit in edits if not edit.is_right for name in edit.names()}
    for unit in {functions[name].unit for name in named & functions.keys()}:
        folder = proof_folder(unit)
        if f"{folder}/Proof.antt" not in texts:
            texts[f"{folder}/Answers.antt"] = texts.get(f"{folder}/Answers.antt", "") + UNOFFERED
    return texts


def given(texts, crate, edits):
    """The planted texts in which each function that need not be refused has an empty body and a hole for a proof: the verdict on a
    function rests on the contracts of what it calls, and whether those are met is another check's matter."""
    functions, behind = all_functions(texts), {}
    tried = {functions[name][1].unit for edit in edits for name in edit.names() if name in functions}
    root, proofs = "proofs/Lib.antt", f"Rattle.{crate}.proofs."
    texts = {**texts, "proofs/Anything.antt": HOLE, root: texts.get(root, "") + "\npub mod Anything\n"}
    for name, (path, function) in reversed(functions.items()):
        is_apart = function.last < behind.get(path, function.last + 1)  # an edit may put a function on the line of another
        behind[path] = function.first
        if is_apart and function.unit not in tried:
            texts[path], own = hollow(texts[path], function), own_name(name)
            for folder in function.proof_folders():
                for file in ("Answers", "Invariants"):
                    texts.pop(f"{folder}/{file}.antt", None)
            texts[f"{proof_folder(name)}/Proof.antt"] = (
                f"use {proofs}{name.replace('::', '.')}.Statement.{{statement}}\nuse {proofs}Anything.{{anything}}\n\n"
                f"pub {own}_spec : {{M : Type 1}} → statement M\n{own}_spec = anything\n")
    return texts


class Round:
    """Edits that are planted side by side: at most one in each function or cycle of functions."""

    def __init__(self, texts):
        self.edits, self.texts, self.units = [], texts, set()

    def take(self, edit):
        """Plants the edit if it fits, and says whether it did."""
        units = {it.unit for it in edit.functions}
        if self.edits and (edit.is_alone or self.edits[0].is_alone) or units & self.units:
            return False
        try:
            self.texts = edit.planted(self.texts)[0]
        except Unfit:
            return False
        self.edits.append(edit)
        self.units |= units
        return True


def rounds_of(edits, texts):
    """The edits in as few rounds as the first that fits gives, with a change that is right in the first that has room for it."""
    rounds = []
    for edit in sorted(edits, key=lambda it: it.is_alone):
        if not any(it.take(edit) for it in rounds):
            rounds.append(Round(texts))
            rounds[-1].take(edit)
    for it in rounds:
        right = not it.edits[0].is_alone and right_change(texts, it)
        if right:
            right.copied(texts, "right")
            it.take(right)
            break
    return [it.edits for it in rounds]


def read_edits(files, texts):
    """The edits of these files that can be planted, and by its name why each other cannot."""
    good, bad = [], {}
    for file in files:
        edit = Edit(file.stem, file.read_text())
        try:
            edit.look(texts).copied(texts, len(good))
            good.append(edit)
        except Unfit as why:
            bad[edit.name] = str(why)
    return good, bad


def right_change(texts, beside):
    """An edit for a round that leaves a function right: a statement more in one that the round leaves as it is, that calls no other of the
    crate and names no type of which the round changes a method in its place. So nothing but its own goals can be refused."""
    functions = all_functions(texts)
    in_place = [(texts[it.pairs[0][0]].split("\n"), it.functions) for it in beside.edits if not it.is_copied]
    changed = {type_of(block_of(lines, it)) for lines, functions in in_place for it in functions}
    answered = sorted(functions.items(), key=lambda it: f"{proof_folder(it[1][1].unit)}/Answers.antt" not in texts)
    # first of those with a contract, whose body begins on a line of its own
    for opening in (r"\s*\{", r".*(?:\) |-> .* )\{"):
        for name, (path, function) in answered:
            lines = texts[path].split("\n")[function.first:function.last + 1]
            opens = next((at for at, line in enumerate(lines) if re.fullmatch(opening, line)), None)
            if opens is None or function.unit in beside.units or name.startswith("tests::") or changed & {*re.findall(r"\w+", "\n".join(lines))}:
                continue
            old = "\n".join(lines[:opens + 1])
            if {*map(own_name, functions)} & {*re.findall(r"\w+(?=\()", "\n".join(lines[opens + 1:]))} or texts[path].count(old) > 1:
                continue
            edit = Edit("a change that is right", "")
            edit.pairs = [(path, old, old + "\n    let _right = 0_u8;")]
            edit.functions, edit.is_right = [function], True
            return edit
