#!/usr/bin/env python3
"""Prints what words of specs/ mean, and where they stand: definitions.py WORD.. | CRATE..

Of a word it prints the comment above its definition, of a crate those of all words that a public clause cites or that a comment
names between asterisks. A reader who believes these definitions needs to believe nothing else of this repository but the
toolchain that checked the proofs. "A rule" is a rule of Recommendation ITU-R M.584-2, Annex 1 (Radio Paging Code No. 1),
restated; all else is this project's own.
"""

import pathlib
import re
import sys
import typing

sys.dont_write_bytecode = True
sys.path[:0] = [str(pathlib.Path(__file__).resolve().parents[1] / folder) for folder in ("tools", "tests", "tests/words", "tests/calls")]
import workspace

WIDTH = 120
GIVEN = re.compile(r"(?:(?:pub|record|data|abbrev|unfoldable) )+([^\s:{(]+)")
TERM = re.compile(r"\*[A-Z][^*]*\*")  # what a comment defines, by its name in the field


class Definition(typing.NamedTuple):
    """A word of a file of specs/, and the comment above it, which is that of the word before where it has none of its own."""

    name: str
    comment: str


def read_file(file):
    """The comment at the head of a file of specs/, and its definitions in order."""
    head, comment, found, block, is_head = [], [], [], "", True
    for line in file.read_text().split("\n"):
        text, in_block = line.strip(), block.endswith("mutual")
        if text.startswith("--") and (line == text or in_block):
            (head if is_head else comment).append(text.lstrip("-").strip())
            continue
        is_head = is_head and not text
        block = line if line[:1].strip() else block
        given = GIVEN.match(line if block == line else text if in_block else "")
        if given and given[1] not in ("mod", "use", "mutual"):
            found.append(Definition(given[1], " ".join(comment) or (found[-1].comment if found else "")))
            comment = []
    return " ".join(head), found


def passed_on(file):
    """The words that a file of specs/ has from another one, with the crate and the file of each."""
    for crate, name, words in re.findall(r"^pub use Rattle\.(\w+)\.specs\.(\w+)\.\{([^}]*)\}", file.read_text(), re.MULTILINE):
        yield from (((crate, name, word), word) for word in re.split(r", *", words))


def given_at(word):
    """Where a word is given that a clause cites, as (crate, file, name)."""
    crate, name, cited = word
    file = workspace.TOP / f"crates/{crate}/specs/{name}.antt"
    return next((place for place, passed in passed_on(file) if passed == cited), word) if file.exists() else word


def filled(first, later, text):
    """The text in lines that end before the width, the first behind one margin and the others behind another."""
    lines, line = [], first
    for word in text.split():
        if len(line) + len(word) + 1 > WIDTH and line.strip():
            lines.append(line.rstrip())
            line = later
        line += word + " "
    return "\n".join([*lines, line.rstrip()]) + "\n"


def section(crate, cited):
    """The section of a crate: of each of its files the words that are cited or are terms."""
    parts = []
    for file in sorted((crate.folder / "specs").glob("*.antt")):
        head, found = read_file(file)
        groups = {}
        for it in found:
            if (crate.name, file.stem, it.name) in cited or TERM.match(it.comment):
                groups.setdefault(it.comment, []).append(f"`{it.name}`")
        rows = [filled("- ", "  ", f"{', '.join(names)}: {comment}") for comment, names in groups.items()]
        parts += ["\n".join([filled("", "", f"**`{file.name}`** {head}"), "".join(rows)])] if rows else []
    return "\n".join([f"## `{crate.name}`\n", *parts]) if parts else ""


def words_of_specs():
    """Each word of specs/, with its crate and its file."""
    for crate in workspace.read_crates().values():
        for file in sorted((crate.folder / "specs").glob("*.antt")):
            yield from ((crate.name, file, it) for it in read_file(file)[1])


def told():
    """Each word of specs/ that has a comment, as (crate, file, name)."""
    return ((crate, file.stem, it.name) for crate, file, it in words_of_specs() if it.comment)


def places(word):
    """The sentence of each word of specs/ that has this name, with its file."""
    found = ((file.relative_to(workspace.TOP), it) for _, file, it in words_of_specs() if it.name == word)
    return (filled("", "  ", f"{it.name} ({file}): {it.comment}") for file, it in found)


def main(words):
    import run

    crates, status = workspace.read_crates(), 0 if words else 2
    if not words:
        print(__doc__, end="", file=sys.stderr)
    for word in words:
        text = section(crates[word], set(map(given_at, run.wanted_words()))) if word in crates else "".join(places(word))
        print(text or f"definitions.py: {word} is no word of specs/ and no crate", end="" if text else "\n", file=sys.stdout if text else sys.stderr)
        status = status if text else 1
    return status


if __name__ == "__main__":
    sys.exit(main(sys.argv[1:]))
