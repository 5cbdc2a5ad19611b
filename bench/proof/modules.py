#!/usr/bin/env python3
"""Tells where the time of a crate's proof goes: bench/proof/modules.py CRATE [ROWS [FUNCTION..]]

Checks the crate, or these functions and what they call, from nothing with one job, over the libraries that the build left,
and prints the seconds of each kind of file that the check keeps, and of the functions that took longest. A check keeps each
file when it is done with it, so a file took the time since the one before; the first of a crate has the loading of what
stands below. Nothing else should run meanwhile. `Lts` is the table that grows with statements and locals, `Proof` the
search for the goals without an answer.
"""

import collections
import pathlib
import re
import subprocess
import sys
import tempfile

TOP = pathlib.Path(__file__).resolve().parents[2]
sys.dont_write_bytecode = True
sys.path.insert(0, str(TOP / "tools"))
import kit

KINDS = {"Answers", "Code", "Given", "Goals", "Invariants", "Key", "Kinds", "Layout", "Lts", "Met", "Mir", "Named", "Proof",
         "Reads", "Statement", "Symbol", "TheLink", "Tie", "View"}
FILE = re.compile(r"Rattle-\w+-(specs|proofs)\.(.+?)(?:\.decls)?\.oantt")


def kept_files(crate, folder, functions):
    """The seconds, the megabytes and the name of each file that a check of the crate keeps, in their order."""
    if kit.script() is None:
        sys.exit("the toolchain's rt is not the script that tools/kit.py knows")
    words = [*kit.check_words(TOP / "crates" / crate, folder), *(f"--only={it}" for it in functions)]
    ran = subprocess.run(words, cwd=TOP / "crates" / crate, stdout=subprocess.PIPE, stderr=subprocess.STDOUT, text=True)
    if ran.returncode:
        sys.exit(ran.stdout)
    states = sorted((it.stat().st_mtime, it.stat().st_size, it.name) for it in pathlib.Path(folder).rglob("*.oantt"))
    before = [states[0][0], *(time for time, _, _ in states)]
    return [(time - last, size / 1e6, name) for last, (time, size, name) in zip(before, states)]


def owner(name):
    """The function that a file is of, and the file's kind; a file of lemmas or definitions is its own owner."""
    found = FILE.fullmatch(name)
    if not found:
        return name, "others"
    parts, kinds = found[2].split("."), []
    while parts and (parts[-1] in KINDS or parts[-1].startswith("Lts-")):
        kinds.append(parts.pop())
    kind = kinds[-1].partition("-")[0] if kinds else "others"
    return ".".join(parts), kind if found[1] == "proofs" else "clauses, types and definitions"


def main(words):
    crate, rows = words[0], int(words[1]) if len(words) > 1 else 20
    kinds, owners = collections.defaultdict(lambda: [0, 0]), collections.defaultdict(collections.Counter)
    with tempfile.TemporaryDirectory() as folder:
        for seconds, size, name in kept_files(crate, folder, words[2:]):
            of, kind = owner(name)
            kinds[kind][0] += seconds
            kinds[kind][1] += size
            owners[of][kind] += seconds
    print("| Kind | Seconds | MB |\n|---|---|---|")
    for kind, (seconds, size) in sorted(kinds.items(), key=lambda it: -it[1][0]):
        print(f"| {kind} | {seconds:.1f} | {size:.1f} |")
    print("\n| Function | Seconds | of which |\n|---|---|---|")
    for of, spent in sorted(owners.items(), key=lambda it: -sum(it[1].values()))[:rows]:
        print(f"| `{of}` | {sum(spent.values()):.1f} | {', '.join(f'{kind} {it:.1f}' for kind, it in spent.most_common(3))} |")


if __name__ == "__main__":
    if len(sys.argv) < 2:
        sys.exit(__doc__)
    main(sys.argv[1:])
