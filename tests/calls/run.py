"""Reads from the sources that the calls by name are the calls that run: each `run_NAME` of a group is called by the group itself
and not by tests alone, `plan` of the program and of the C library call `plan_stream` and `plan_stream_always`, and the C library
stands on no group of commands; and that each call that may return want of memory has a run at its largest size, and one between,
in the table `largest.txt`. What reads this table is tried on a small tree."""

import pathlib
import re
import shutil

import sizes
import workspace
from tally import put, samples

GROUPS = ("pocsag_centre", "pocsag_receiver", "pocsag_sound", "pocsag_open")
COMMANDS = {  # of the specification, with the group of each
    "run_input": "pocsag_centre", "run_plan": "pocsag_centre", "run_check": "pocsag_centre", "run_report": "pocsag_centre",
    "run_decode": "pocsag_receiver", "run_hear": "pocsag_receiver",
}
SELFTEST = pathlib.Path(__file__).resolve().parent / "selftest"
STREAMS = ("plan_stream", "plan_stream_always")
ABOVE = {"pocsag_shell", *GROUPS}  # what a library for C has no use for; with them goes `clap`


def code_of(crate):
    """The sources of a crate without comments, imports and lists of what it passes on."""
    text = "\n".join(file.read_text() for file in sorted((crate.folder / "src").rglob("*.rt")))
    return re.sub(r"//.*|^(?:pub |ghost )?use [^;]*;", "", text, flags=re.MULTILINE)


def try_sources(tally, _):
    crates = workspace.read_crates()
    for group in GROUPS:
        code = code_of(crates[group])
        named = re.findall(r"\bpub fn (run_\w+)", code)
        tally.check(f"{group} has commands", named)
        for name in named:
            tally.check(f"{group} runs {name}", re.search(rf"(?<!fn )\b{name}\(", code), "only tests call it")
    for name, group in COMMANDS.items():
        tally.check(f"{name} of {group}", re.search(rf"\bpub fn {name}<[^{{]*?\) -> u8\b", code_of(crates[group]), re.DOTALL), "it is not there, or does not return the status")
    for crate in ("pocsag_centre", "pocsag_c"):
        for name in STREAMS:
            tally.check(f"{crate} plans by {name}", re.search(rf"\b{name}\(", code_of(crates[crate])))
    tally.check_none("the C library stands on no commands", ABOVE & {*workspace.below(crates, "pocsag_c")})
    wrong = sizes.problems(sizes.TOP)
    tally.check("each call that may lack memory has its largest run", not wrong, "\n".join(wrong))


def try_changes(tally, folder):
    """Nothing is wrong with a small tree, and what each change makes wrong is told, and no more. In a cell of a row, between bars that
    stand by themselves, a bar is written `\\|`."""
    top, small = folder / "small", samples(SELFTEST / "small.txt")
    for number, row in enumerate((SELFTEST / "changes.txt").read_text().splitlines()[1:], 2):
        due, *changes = (it.replace("\\|", "|").replace("\\n", "\n") for it in re.split(r" (?<!\\)\| ", row))
        shutil.rmtree(top, ignore_errors=True)
        before = sizes.problems(put(top, small))
        for path, old, new in zip(changes[::3], changes[1::3], changes[2::3]):
            text = (top / path).read_text() if (top / path).exists() else ""
            tally.check(f"line {number}: there is what is changed", old in text, old)
            (top / path).write_text(text.replace(old, new, 1))
        found = sizes.problems(top)
        tally.check(f"line {number}: {due or 'nothing'} is told", not before and "; ".join(found) == due, (before, found))
