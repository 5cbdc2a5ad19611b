#!/usr/bin/env python3
"""Counts what the crates of the repository hold: bench/proof/sizes.py [COMMIT]

A line for each crate, and one for all, of the sources as they stand or as a commit has them: functions with a body, clauses
(`requires` and `ensures`), lines of `src`, `specs` and `proofs`, the lines of `specs` and `proofs` that import, and
`impl From`. The tests' crates are left out of the line for all.
"""

import collections
import io
import pathlib
import re
import subprocess
import sys
import tarfile

TOP = pathlib.Path(__file__).resolve().parents[2]
OF_TESTS = {f"pocsag_{of}" for of in ("command_cases", "core_cases", "trial")}
OF_TESTS |= {"pocsag_bench", "pocsag_cases"}  # in earlier commits alone
COLUMNS = ("functions", "clauses", "src", "specs", "proofs", "imports", "From")
HEAD = re.compile(r"^\s*(?:pub(?:\([^)]*\))? )?(?:const )?(?:unsafe )?(?:extern \"C\" )?fn (\w+)", re.MULTILINE)
CLAUSE = re.compile(r"^\s*(?:requires|ensures)\b", re.MULTILINE)
IMPORT = re.compile(r"^(?:pub )?use ", re.MULTILINE)
FROM = re.compile(r"^impl\b.* From<", re.MULTILINE)


def sources_at(commit):
    """The text of each source of the crates, by its path from the top; of a commit, or as the files stand."""
    if commit:
        packed = subprocess.run(["git", "archive", commit, "crates"], cwd=TOP, check=True, stdout=subprocess.PIPE).stdout
        with tarfile.open(fileobj=io.BytesIO(packed)) as files:
            return {item.name: files.extractfile(item).read().decode() for item in files if item.isfile()}
    listed = subprocess.run(["git", "ls-files", "crates"], cwd=TOP, check=True, stdout=subprocess.PIPE, text=True).stdout.split("\n")
    return {name: (TOP / name).read_text() for name in listed if name and (TOP / name).exists()}


def has_body(text, start):
    """Whether the function whose name ends at `start` has a body, and is not a trait's promise alone."""
    behind = re.compile(r"^\s*\{(?:\}|$)|;$", re.MULTILINE).search(text, start)
    opened = re.compile(r"\) (?:-> .*)?\{$", re.MULTILINE).search(text, start)
    if opened and (not behind or opened.start() < behind.start()):
        return True
    return bool(behind) and not behind[0].endswith(";")


def count(sources):
    """The counts of each crate by column."""
    counts = collections.defaultdict(collections.Counter)
    for name, text in sources.items():
        parts = pathlib.PurePath(name).parts
        if len(parts) < 4 or parts[2] not in ("src", "specs", "proofs") or not name.endswith((".rt", ".antt")):
            continue
        crate = counts[parts[1]]
        crate[parts[2]] += text.count("\n")
        if parts[2] != "src":
            crate["imports"] += len(IMPORT.findall(text))
            continue
        crate["clauses"] += len(CLAUSE.findall(text))
        crate["From"] += len(FROM.findall(text))
        crate["functions"] += sum(has_body(text, head.end()) for head in HEAD.finditer(text))
    return counts


def main(words):
    counts = count(sources_at(words[0] if words else ""))
    total = collections.Counter()
    print(f"| Crate | {' | '.join(COLUMNS)} |\n|{'---|' * (len(COLUMNS) + 1)}")
    for crate, found in sorted(counts.items()):
        print(f"| `{crate}` | {' | '.join(str(found[column]) for column in COLUMNS)} |")
        if crate not in OF_TESTS:
            total.update(found)
    print(f"| all but the tests' | {' | '.join(str(total[column]) for column in COLUMNS)} |")


if __name__ == "__main__":
    main(sys.argv[1:])
