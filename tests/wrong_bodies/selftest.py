"""Tries the script that tries wrong bodies.

  selftest             without the prover: each wrong body can be planted; a body that spoils its round is found; what was refused
                       is kept until what its verdict rests on changes; contracts are narrowed, and other bodies emptied
  selftest --prover    with the prover: among wrong bodies of pocsag_text stand a body that is right, one that does not
                       compile and one that only no longer fits its proof file, and are reported by name
"""

import pathlib
import re

import run
from basis import Basis
from edits import Edit, given, narrowed, read_edits
from prover import Planted, Said
from source import CLAUSE
from sources import all_functions, functions_of, texts_of
from tally import put, run_parts, samples
from workspace import below, read_crates

HERE = pathlib.Path(__file__).resolve().parent
CRATE = "pocsag_text"
RENAMED = [("let mut len = text.len();", "let mut left = text.len();"), ("while len > 0 {", "while left > 0 {"),
           ("text[len - 1] != unwanted", "text[left - 1] != unwanted"), ("return len;", "return left;"),
           ("len -= 1;", "left -= 1;")]
# What is no wrong body: its file, its pairs, and what is said of it.
PLANTED = {
    "a-body-that-is-right": ("src/pack.rt", [("count > CHARACTER_LIMIT", "CHARACTER_LIMIT < count")], "NOT REFUSED"),
    "a-body-that-does-not-compile": ("src/character.rt", [("CODES[byte as usize]", "CODES[letter as usize]")],
                                     "BAD EDIT: it does not reach the prover"),
    "a-body-that-its-proof-does-not-fit": ("src/unpack.rt", RENAMED, "BAD EDIT: only a proof file no longer fits"),
}


def test_rounds(tally, folder):
    """The prover refuses the wrong bodies, and what is no wrong body is named."""
    *lower, crate = below(read_crates(), CRATE).values()
    for name, (path, pairs, _) in PLANTED.items():
        text = "".join(f"old: {old}\nnew: {new}\n" for old, new in pairs)
        (folder / f"{name}.edit").write_text(f"file: {path}\n{text}")
    wrong = crate.edits()[::4]
    edits = [*wrong, *folder.glob("*.edit")]
    verdicts = run.Verdicts(crate, Basis(below(read_crates(), CRATE)), edits, {it.stem for it in edits})
    found = {name: (holds, told) for name, holds, told in run.try_crate(verdicts, lower)}
    for name in ("a change that is right", *(it.stem for it in wrong)):
        tally.check(name, found.get(name, (False,))[0], found.get(name))
    for name, (_, _, wanted) in PLANTED.items():
        holds, told = found.get(name, (None, "not tried"))
        tally.check(f"{name} is reported", holds is False and told.startswith(wanted), told)


def test_fit(tally, _):
    """Each wrong body is one of a crate, and can be planted in its sources."""
    crates = read_crates()
    for folder in sorted({it.parent for name in ("*.edit", run.FILE) for it in HERE.glob(f"*/{name}")}):
        tally.check(f"wrong bodies of {folder.name}", folder.name in crates, "crates.txt has no such crate, so they are not tried")
    for crate in crates.values():
        _, bad = read_edits(crate.edits(), texts_of(crate))
        tally.check(f"wrong bodies of {crate.name} can be planted", not bad, bad)


def unfitting(edit, texts):
    """The clauses beside the one that an edit names which a proof of all of them at once gives: that proof does not fit a contract of one."""
    name, planted = edit.names()[0], edit.planted(texts)[0]
    path, function = all_functions(planted)[name]
    clauses = {it[1] for it in map(CLAUSE.match, planted[path].split("\n")[function.first:function.last]) if it} - {edit.clause}
    answers = re.split(r"(?m)^pub ", planted.get(f"proofs/{name.replace('::', '/')}/Answers.antt", ""))
    whole = " ".join(it for it in answers if it.startswith("returns") and "-clause-" not in it.split()[0])
    return {it for it in clauses if re.search(rf"\b{it} = ", whole)}


def test_clauses(tally, _):
    """No wrong body names a clause whose function is proved by one record of all its clauses, as that would be refused whatever it does."""
    for crate in read_crates().values():
        texts = texts_of(crate)
        for it in read_edits(crate.edits(), texts)[0]:
            if it.clause and len(it.names()) == 1 and (it.is_copied or it.is_alone):
                tally.check(f"{crate.name}/{it.name}", not unfitting(it, texts), unfitting(it, texts))


class Played:
    """A prover that is played: it refuses each body with `wrong` in it, and ends in silence at one with `broken`."""

    checks, crate = 0, "played"

    def __init__(self, *_):
        pass

    def check(self, texts, _):
        Played.checks += 1
        text = texts["src/lib.rt"]
        lines = ["error: internal"] if "broken" in text else ["logic=not-proved"]
        for it in functions_of("src/lib.rt", text, {}):
            is_wrong = "wrong" in "\n".join(text.split("\n")[it.first:it.last + 1])
            if is_wrong:
                lines.insert(0, f"note: src/lib.rt:{it.first + 1}:1: it is not proved that it holds (`returns`)")
            lines += [f"fn played::{it.name}: {'not proved' if is_wrong else 'proved'}", f"checked played::{it.name}, 1 of 9"]
        return Planted(texts, Said("\n".join(lines)))


def test_halving(tally, _):
    """A body that spoils the check is found, and the others are judged."""
    texts = {"src/lib.rt": "\n\n".join(f"fn f{number}() {{ right{number} }}" for number in range(8)) + "\n"}
    edits = [Edit(f"edit{number}", f"file: src/lib.rt\nold: right{number}\nnew: {body}").look(texts)
             for number, body in enumerate(["wrong"] * 5 + ["broken", "fine", "wrong"])]
    found = {edit.name: it for edit, it in run.tried(Played(), edits, texts).items()}
    for number in (0, 1, 2, 3, 4, 7):
        tally.check(f"played edit{number}", found[f"edit{number}"].holds, found[f"edit{number}"])
    tally.check("played, broken", found["edit5"].told.startswith("BAD EDIT: it does not reach"), found["edit5"])
    tally.check("played, fine", found["edit6"].told == "NOT REFUSED", found["edit6"])


def verdicts_of(top, name, **more):
    crates = below(read_crates(top), name)
    return crates, run.Verdicts(crates[name], Basis(crates), crates[name].edits(top), **more)


def test_sums(tally, top):
    """The sum of a verdict changes with each thing that it rests on, and with no other."""
    put(top, samples(HERE / "selftest/two_crates.txt"))
    before = verdicts_of(top, "high")[1].sums
    for row in (HERE / "selftest/changes.txt").read_text().splitlines()[1:]:
        wanted, name, path, old, new = row.replace("\\n", "\n").split(" | ")
        text = (top / path).read_text()
        (top / path).write_text(text.replace(old, new, 1))
        found = "lacks it" if old not in text else "changes" if verdicts_of(top, "high")[1].sums != before else "stays"
        tally.check(f"the sum with {name} {wanted}", found == wanted, found)
        (top / path).write_text(text)
    tally.check("the sum with nothing", verdicts_of(top, "high")[1].sums == before)
    made, run.toolchain = run.toolchain, lambda: "another"
    tally.check("the sum with another toolchain", verdicts_of(top, "high")[1].sums != before)
    run.toolchain = made
    missing = {f"tests/wrong_bodies/{it.name}" for it in HERE.glob("*.py")}.difference(run.SCRIPTS)
    tally.check("the scripts that it covers", missing == {"tests/wrong_bodies/selftest.py"}, missing)


def test_kept(tally, folder):
    """What was refused is not tried again until what its verdict rests on changes, or it is chosen; what was not is. A line that
    no run wrote is told."""
    top = folder / "kept"
    run.TOP, run.Room, run.print = top, Played, lambda *_: None
    source = "\n".join(f"fn f{it}()\n    ensures {{ a }}\n{{\n    right_{it}\n}}\n" for it in "abc")
    put(top, {"crates/low/src/lib.rt": source, "crates/high/src/lib.rt": source, "crates.txt": "low:\nhigh: low\n", "tests/wrong_bodies/high/none.txt": ""})
    edits, edit = top / "tests/wrong_bodies/high", "file: src/lib.rt\nold: {}\nnew: {}\n".format

    def tried(name, checks, passed, is_kept=True, **more):
        crates, verdicts = verdicts_of(top, "high", **more)
        before = Played.checks
        results = {it: (holds, said) for it, holds, said in run.try_crate(verdicts, [crates["low"]], is_kept)}
        tally.check(name, (Played.checks - before > 0, sum(holds for holds, _ in results.values())) == (checks, passed), (Played.checks - before, results))

    for name, path, text, checks, passed in [
        ("a wrong body is tried, beside a change that is right", edits / "one.edit", edit("right_a", "wrong"), True, 2),
        ("and not again", None, "", False, 1),
        ("one more is tried", edits / "two.edit", edit("right_b", "fine"), True, 2),
        ("what is not refused is tried again", None, "", True, 2),
        ("it is with another text, and refused", edits / "two.edit", edit("right_b", "wrong"), True, 3),
        ("another body is not", top / "crates/high/src/lib.rt", source.replace("right_c", "right_d"), False, 2),
        ("its own contract is", top / "crates/high/src/lib.rt", source.replace("{ a }", "{ b }", 1), True, 3),
        ("one with another text is", edits / "one.edit", edit("right_a", "very_wrong"), True, 3),
        ("and all are kept", None, "", False, 2),
    ]:
        if path:
            path.write_text(text)
        tried(name, checks, passed)
    tried("one that is chosen is tried", True, 3, chosen=["one"])
    file, lines = edits / run.FILE, (edits / run.FILE).read_text()
    told = lambda: verdicts_of(top, "high")[1].wrong()
    tally.check("the file is of these sources", not told() and lines.count("\n") == 2, lines)
    for name, old, new in [
        ("the sum of other sources", lines.split()[1], "0" * 16),
        ("a wrong body that is none", "one ", "three "),
        ("a clause that is none", "returns", "returns-clause-none"),
        ("a word more", "returns", "returns b"),
        ("a line less than it has", lines.split("\n")[0], lines.split("\n")[0].partition(" ")[0]),
    ]:
        file.write_text(lines.replace(old, new, 1))
        tally.check(f"{name} is told", len(told()) == 1, told())
        tried("and not taken", True, 3, is_kept=False)
    tally.check("a gate writes nothing", file.read_text() != lines)
    tried("a run writes it anew", True, 3)
    tally.check("as it was", file.read_text() == lines, file.read_text())
    (edits / "one.edit").unlink()
    tried("one that is gone", False, 1)
    tally.check("has no line", file.read_text().count("\n") == 1, file.read_text())
    tally.check("all are chosen where there is no history", run.turn() is None)
    found, edits = run.tenths(read_crates()), {(crate.name, it.stem) for crate in read_crates().values() for it in crate.edits()}
    parts = [[crate for (crate, _), number in found.items() if number == wanted] for wanted in range(10)]
    tally.check("ten tenths are all, each of few crates", found.keys() == edits and all(1 <= len({*it}) < 9 for it in parts), parts)


SMALL = samples(HERE / "selftest/small.txt")
OUTSIDE = [SMALL.pop(f"proofs/again_copy_7/{it}.antt") for it in ("Answers", "Invariants")]  # as proof files outside their cycle must be


def test_narrowing(tally, _):
    """An edit is planted in a copy of its function, whose contract keeps the clause that the edit names beside one that says nothing.
    A copy of a function in a cycle is outside it. The method of a trait is changed in its place."""
    every = {"top": ["small", "whole", "last"], "beside": ["whole"]} | {it: ["small", "whole"] for it in ("low", "again", "other")}
    for name, old, clause, kept in [
        ("top", "low(a)\n", "whole", {"top_copy_7": ["whole", "says_nothing"]}),
        ("low", "    a +", "small", {"low_copy_7": ["small", "says_nothing"]}),
        ("low", "    a +", "unknown", {"low_copy_7": ["small", "whole"]}),
        ("again", "{ again(a) }", "whole", {"again_copy_7": ["whole", "says_nothing"]}),
        ("other", "*self", "whole", {}),
    ]:
        edit = Edit(name, f"clause: {clause}\nfile: src/lib.rt\n")
        edit.pairs = [("src/lib.rt", old, f"!{old}")]
        edit.look(SMALL).copied(SMALL, 7)
        texts = narrowed(edit.planted(SMALL)[0], [edit])
        parts = re.split(r"fn (\w+)", texts["src/lib.rt"])
        found = {it: re.findall(r"ensures (\w+)", text) for it, text in zip(parts[1::2], parts[2::2])}
        tally.check(f"{name} narrowed to {clause}", found == every | kept, found)
        if name == "top":
            answers = texts["proofs/top_copy_7/Answers.antt"]
            left = re.findall(r"^(?:pub )?(returns\S*)", answers, re.M)
            tally.check("answers for the clause alone", left == ["returns-then-clause-whole"] * 2, left)
            tally.check("answers of the copy", ".proofs.top_copy_7.Goals" in answers and "proofs.top.Goals" in texts["proofs/top/Answers.antt"], answers)
        if name == "again":
            tally.check("a copy outside its cycle", texts["src/lib.rt"].count("#[cycle(again)]") == 2, texts["src/lib.rt"])
            files = [texts[f"proofs/again_copy_7/{it}.antt"] for it in ("Answers", "Invariants")]
            tally.check("and its proof files", files == OUTSIDE, files)


def test_copies(tally, _):
    """An edit of a constant is planted in a copy of it, for a copy of the function that it names. All other functions are emptied, and have
    a hole for a proof."""
    edit = Edit("more", "function: low\nfile: src/lib.rt\nold:     0;\nnew:     1;\n")
    edit.look(SMALL).copied(SMALL, 7)
    texts = given(edit.planted(SMALL)[0], "small", [edit])
    text, holes = texts["src/lib.rt"], sorted(it for it in texts if it.endswith("/Proof.antt"))
    tally.check("a copy of the constant", "0;\n\npub const MORE_COPY_7: u8 =\n    1;\n" in text, text)
    tally.check("which a copy of the function names", text.count("    a + MORE_COPY_7\n") == 1 and "a + MORE\n" not in text, text)
    tally.check("the others are empty", text.count("{\n    loop {}\n}") == 4 and text.count("    {\n        loop {}\n    }") == 1, text)
    tally.check("and call nothing", "again(" not in text.replace("fn again(", "") and "#[cycle" not in text, text)
    tally.check("a hole for each", holes == [f"proofs/{it}/Proof.antt" for it in ("again", "beside", "low", "top", "u8Other/other")], holes)
    tally.check("and no answers", "proofs/top/Answers.antt" not in texts, [*texts])


def main(words):
    parts = [test_rounds] if words == ["--prover"] else [test_fit, test_clauses, test_narrowing, test_copies, test_halving, test_sums, test_kept]
    return run_parts(*parts)
