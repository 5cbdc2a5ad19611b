"""Lists each word of specs/ that a public clause cites, and wants a comment above its definition, which tools/definitions.py
prints; and wants each word of specs/ to have one meaning: no name is given in two modules. Of the code it wants that no two
crates give a name to two things, a module aside, but for the names of twice.txt, which says of each why; that each line of
a clause ends at column 120; that `thiserror` derives each fault, and a table of tests
has its text; and that a crate uses the libraries that crates.txt gives it.

A clause is public where it stands on a function that its crate passes on, or on a method of a type or trait that it passes
on.
"""

import pathlib
import re

import definitions
import workspace
from sizes import Source
from sources import texts_of
from tally import TOP, Text, call

IMPORT = re.compile(r"ghost use Rattle\.(pocsag_\w+)\.specs\.(?!declared)([\w.]+)\.\{([^}]*)\};")
MODULE_IMPORT = re.compile(r"ghost use Rattle\.(pocsag_\w+)\.specs\.(?!declared)([\w.]+) as (\w+);")
CITED = re.compile(r"[A-Za-z_][\w']*(?:-\w+)*(?:\.[A-Za-z_][\w']*(?:-\w+)*)*")
IGNORED_CRATES = {f"pocsag_{of}" for of in ("command_cases", "core_cases", "trial")}
ITEM = re.compile(r"^(?:pub(?:\([^)]*\))? )?(?:const )?(?:unsafe )?(?:extern \"C\" )?(?:fn|struct|enum|trait|const|static|type) (\w+)")
TWICE = {"IsInRange"}  # of the fields of a codeword, and of those of a certificate: until one of them gets another name
LAST_COLUMN = 120
FAULT = re.compile(r"((?:^#\[[^\n]*\]\n)*)^pub(?:\([^)]*\))? (?:enum|struct) (\w*Fault)\b", re.MULTILINE)
TOLD = re.compile(r"^#\[derive\([^)]*\bError\b[^)]*\)\]\n(?:#\[[^\n]*\]\n)*pub (enum|struct) (\w+)(;|.*?^\})", re.MULTILINE | re.DOTALL)
LIBRARIES = {"arrayvec", "clap", "csv", "indexmap", "thiserror"}


def imports(text):
    """Each word of specs/ that the file may cite, by the name that it has there: `name`, or `module.name` where
    the module is imported under a name of its own."""
    words = {}
    for crate, module, listed in IMPORT.findall(text):
        for name, _, alias in (item.strip().partition(" as ") for item in listed.split(",")):
            if name:
                words[alias or name] = (crate, module, name)
    for crate, module, alias in MODULE_IMPORT.findall(text):
        for name in re.findall(rf"(?<![\w.]){alias}\.(\w[\w'-]*)", text):
            words[f"{alias}.{name}"] = (crate, module, name)
    return words


def try_meanings(tally, _):
    """Wants each name that is given in specs/ to be given in one module alone."""
    givers = {}
    for file in sorted(TOP.glob("crates/*/specs/*.antt")):
        for name in {it.name for it in definitions.read_file(file)[1]}:
            givers.setdefault(name, []).append(f"{file.parts[-3]}.specs.{file.stem}")
    for name, modules in sorted(givers.items()):
        tally.check(f"one meaning of {name}", "◌" in name or name in TWICE or len(modules) == 1, f"given in {', '.join(modules)}")


def sources():
    """Each file of code of the crates that are not for tests alone, by its crate."""
    for crate in sorted(TOP.glob("crates/*")):
        if crate.name not in IGNORED_CRATES:
            for file in sorted((crate / "src").rglob("*.rt")):
                yield crate.name, file


def try_items(tally, _):
    """Wants each name that the code of two crates gives to an item to stand in twice.txt, and no other to stand there."""
    givers = {}
    for crate, file in sources():
        for line in file.read_text().split("\n"):
            item = ITEM.match(line)
            if item and item[1] != "_":
                givers.setdefault(item[1], set()).add(crate)
    lines = (pathlib.Path(__file__).parent / "twice.txt").read_text().split("\n")
    told = {line.partition(":")[0] for line in lines if line and not line.startswith("#")}
    for name, crates in sorted(givers.items()):
        tally.check(f"one meaning of {name} in the code", len(crates) == 1 or name in told, f"given in {', '.join(sorted(crates))}")
    for name in sorted(told):
        if len(givers.get(name, ())) < 2:
            print(f"{name} of twice.txt is given once: its line may go")


def try_files(tally, _):
    """Wants `thiserror` to derive each type whose name ends in `Fault`, and none of them to be told by hand; each fault and each
    of its variants to have a row in a table of texts, a `fault_texts.rt` of the tests; and each line of a clause to end at the
    last column."""
    tables = "".join(table.read_text() for table in TOP.glob("crates/*/src/fault_texts.rt"))
    rows = re.sub(r"^use [^;]*;", "", tables, flags=re.MULTILINE)
    for crate, file in sources():
        text = file.read_text()
        for attributes, name in FAULT.findall(text):
            derived = set(re.findall(r"\w+", "".join(re.findall(r"derive\(([^)]*)\)", attributes))))
            by_hand = re.search(rf"impl (?:[\w:]+::)?(?:Display|Debug|Error) for {name}\b", text)
            is_derived = {"Debug", "Error"} <= derived and "use thiserror::Error;" in text
            tally.check(f"derived text of {crate} {name}", is_derived and not by_hand, f"derives {sorted(derived)}")
        for kind, name, body in TOLD.findall(text):
            variants = re.findall(r"^    (\w+)", body, re.MULTILINE)
            for told in [f"{name}::{variant}" for variant in variants] if kind == "enum" else [name]:
                tally.check(f"text of {crate} {told}", re.search(rf"(?<!::)\b{told}\b", rows), "no row of a fault_texts.rt has it")
        lines = text.split("\n")
        long = [place for place, line in enumerate(lines) if len(line) > LAST_COLUMN and not line.strip().startswith(("ghost use", "//"))]
        there = [place + 1 for place in long if in_clause(lines, place)]
        tally.check(f"clauses of {crate} {file.name}", not there, f"end behind column {LAST_COLUMN} at the lines {there}")


def try_libraries(tally, _):
    """Wants each library that was chosen for the product in crates.txt, and each crate that has it there to use it."""
    rows = [line.partition(":") for line in (TOP / "crates.txt").read_text().split("\n")]
    for library in sorted(LIBRARIES):
        crates = [crate.split()[0] for crate, _, needed in rows if library in needed.split()]
        tally.check(f"library {library}", crates, "no crate has it")
        for crate in crates:
            used = any(re.search(rf"\b{library}::|ghost use Rattle\.{library}\.", file.read_text()) for file in (TOP / "crates" / crate / "src").rglob("*.rt"))
            tally.check(f"{library} in {crate}", used, "stands in crates.txt alone")


def try_reader(tally, _):
    """Wants `csv::Reader` to read what `pocsag_pages` reads."""
    of_pages = "".join(file.read_text() for crate, file in sources() if crate == "pocsag_pages")
    reads = re.search(r"^use csv::\{[^}]*\bReader\b", of_pages, re.MULTILINE) and ".read_byte_record(" in of_pages
    tally.check("reader of pocsag_pages", reads, "no `csv::Reader` reads records there")


def in_clause(lines, place):
    """Whether the line belongs to a clause: one begins there or above, and the body has not begun since."""
    while place >= 0 and not re.match(r"\s*\{\}?;?$", lines[place]):
        if re.match(r"\s*(requires|ensures)\b", lines[place]):
            return True
        place -= 1
    return False


def wanted_words():
    """Each word of specs/ that a public clause cites, as (crate, module, name), with a function that cites it."""
    wanted = {}
    for crate in workspace.read_crates().values():
        texts = texts_of(crate)
        for call in () if crate.name in IGNORED_CRATES else Source(crate.name, texts).calls:
            words = imports(texts[call.path])
            for cited in CITED.findall(call.text):
                for word in {cited, cited.partition(".")[0]} & set(words):
                    wanted.setdefault(words[word], f"{crate.name}::{call.name}")
    return wanted


def try_comments(tally, _):
    """Wants a comment above each word that a public clause cites, which tools/definitions.py prints."""
    wanted, told = wanted_words(), set(definitions.told())
    for word, cited in sorted(wanted.items()):
        tally.check(".specs.".join(word[:2]) + f".{word[2]}", definitions.given_at(word) in told, f"cited by {cited}: its definition has no comment")
    crates, given = workspace.read_crates(), set(map(definitions.given_at, wanted))
    for crate in sorted({word[0] for word in given}):
        text = definitions.section(crates[crate], given)
        tally.check(f"what tools/definitions.py prints of {crate}", all(f"`{name}`" in text for place, _, name in given if place == crate), text)
    told = Text(lambda out: b"\n## `pocsag_words`\n" in out)
    tally.check_done("tools/definitions.py as a program", call(TOP / "tools/definitions.py", "IsTour", "pocsag_words"), 0, told)
