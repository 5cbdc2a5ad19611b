"""Which public calls may return want of memory, as the sources say, and at which sizes each is run, as `largest.txt` says.

Contracts cannot exclude want of memory: a body that gives up above some size is proved. So each such call is run at the largest
size that its limits allow, and at one between. The table has a section for the runs, each with its size, the script that makes it
and the name of a check there; a section for each crate of the library, with the calls; and one for the program, with each command,
its options and the lines of `open`. A call and its two runs stand in a line."""

import ast
import functools
import re
import typing

from sources import CODE, RUST, TYPE, File, all_functions, called_in, cleaned, own_name, texts_of
from workspace import TOP, below, read_crates

TABLE, TEXTS = "tests/calls/largest.txt", "tests/program/texts"
RUNS, COMMANDS, LIBRARY, PROGRAM = "runs", "commands", "pocsag_c", "pocsag"
PRODUCTS = {"tests/program": "pocsag_app", "tests/library": LIBRARY, "tests/faults": "pocsag_trial"}  # what the scripts there run
NOT_LIBRARY = re.compile(r"_(?:cases|trial|laws|app)$")  # crates of tests, of laws, and of the program
# The types of the language and of its libraries that say that memory was refused, and the crates' own; `Error` is that of `clap`.
WANTS = {"AllocError", "AllocFailed", "Error", "OutOfMemory"}
# What says it as another fault.
ALSO = {("pocsag_words", "GrowingSink::write")}
NAME = re.compile(r"\b[A-Z]\w*")
EXPORT = re.compile(r"^pub use ([\w:]+?)(?:::\{([^}]*)\})?;", re.MULTILINE)
CLAUSES = re.compile(r"^ *(?:ensures|requires|where)\b", re.MULTILINE)
OPTION = re.compile(r"^ +(?:-\w, )?--([\w-]+)", re.MULTILINE)
LINE = re.compile(r"^  ([a-z]+)(?:,\S+)?  +\S", re.MULTILINE)
STRING = re.compile(r'"((?:\\.|[^"\\])*)"')
# In the place of the run between: of a call without a size, and where the one run makes both sizes.
NONE, SAME = "-", "same"


class Call(typing.NamedTuple):
    """A function of a crate: its name behind that of its type, if it has one, its text without the body, and its file."""

    crate: str
    name: str
    text: str
    path: str

    def told(self):
        """The types that it may return, those of what it may change among them, and those in its contract."""
        head, *clauses = CLAUSES.split(self.text, 1)
        parameters, result = parted(head[head.index("fn "):])
        changed = re.findall(r"&mut [^,]*", parameters)
        return {*NAME.findall(" ".join([result, *changed]))} | {it for it in NAME.findall("".join(clauses)) if it == "OutOfMemory"}

    def has_size(self):
        """Whether it takes memory or what may be longer and shorter."""
        return re.search(r"\bGlobal\b|&(?:mut )?\[|\bself\b|<", parted(CLAUSES.split(self.text, 1)[0])[0])


def parted(head):
    """The parameters of a function, and its result."""
    depth = 0
    for place, letter in enumerate(head):
        depth += (letter in "([{") - (letter in ")]}")
        if depth == 0 and head.startswith("->", place):
            return head[:place], head[place:]
    return head, ""


class Source:
    """The types of a crate, each with its text, and its public functions."""

    def __init__(self, name, texts):
        self.name, self.types, self.calls = name, {}, []
        self.exported = {it for found in EXPORT.finditer(cleaned(texts.get("src/lib.rt", ""), RUST)) for it in exported(found)}
        for path, text in texts.items():
            for names, text, kind in File(path, text).found if path.startswith("src/") else ():
                if kind == CODE:
                    self.read_function(names[-1], text, path)
                elif TYPE.search(text):
                    self.types[names[0]] = text

    def read_function(self, name, text, path):
        """A function, which in a block has the block's head above it. That of a conversion returns the fault that it is given."""
        owner, is_in_block, _ = name.rpartition("::")
        head, _, text = text.partition("{\n") if is_in_block else ("", "", text)
        is_public = re.search(r"^pub ", text, re.MULTILINE)
        if is_in_block:
            is_known = owner in self.exported and (is_public or re.search(r" for |^(?:pub )?trait ", head, re.MULTILINE))
        else:
            is_known = name in self.exported or path == "src/lib.rt" and is_public
        if is_known and not re.search(r"\bFrom<.*> for ", head, re.DOTALL):
            self.calls.append(Call(self.name, name, text, path))


def exported(found):
    """The names that a line `pub use` gives."""
    listed = found[2].split(",") if found[2] is not None else [found[1].rpartition("::")[2]]
    return [it.split()[-1] for it in listed if it.strip()]


def wanting(sources):
    """The types that may say that memory was refused: those of the language, and each fault that has one of them in it."""
    found = set(WANTS)
    while True:
        more = {name for it in sources for name, text in it.types.items() if may_want(name, text, found)} - found
        if not more:
            return found
        found |= more


def may_want(name, text, found):
    """Whether a type is a fault with one of these in it. A structure is where it has a field for a fault."""
    body = text[re.search(rf"\b{name}\b", text).end():]
    return bool(found & {*NAME.findall(body)}) and ("enum " in text.partition("{")[0] or re.search(r"\bfault:", body))


def calls_of(sources):
    """The public calls that may return want of memory, and each of the library for C; by crate and name."""
    wants = wanting(sources)
    calls = [it for source in sources for it in source.calls]
    return {it[:2]: it for it in calls if it.crate == LIBRARY or it[:2] in ALSO or it.told() & wants}


def commands_of(top):
    """Each command, with each option and line that its help names, as it is compared with the program's."""
    found = []
    for file in sorted((top / TEXTS).glob("*.txt")):
        text = file.read_text().partition("\n\n$ ")[0]
        found += [PROGRAM] if file.stem == PROGRAM else [file.stem, *(f"{file.stem} --{it}" for it in OPTION.findall(text) if it != "help")]
        found += [f"{file.stem} {it}" for it in LINE.findall(text.partition("Options:")[2].partition("\n\n")[2])]
    return found


class Table(typing.NamedTuple):
    """The runs by name, each with its size, its script and its check; and the calls by crate and name, each with two runs."""

    runs: dict
    calls: dict
    wrong: list


def read_table(text):
    table, section = Table({}, {}, []), ""
    for number, line in enumerate(text.splitlines(), 1):
        if not line or line.startswith("#"):
            continue
        if line.startswith("[") and line.endswith("]"):
            section = line[1:-1]
            continue
        name, *row = (it.strip() for it in line.split(" | "))
        rows, key = (table.runs, name) if section == RUNS else (table.calls, (section, name))
        if len(row) != (3 if section == RUNS else 2) or not all(row):
            table.wrong.append(f"line {number}: it has other columns than its section")
        elif key in rows:
            table.wrong.append(f"line {number}: {name} stands there twice")
        else:
            rows[key] = row
    return table


@functools.lru_cache(100)
def names_in(text, is_python):
    """The texts of a script that may be names of checks, as expressions; of a source of Rattle those of strings, and functions."""
    if not is_python:
        return [re.escape(it) for it in STRING.findall(text)] + re.findall(r"\bfn (\w+)", text)
    found = []
    for node in ast.walk(ast.parse(text)):
        if isinstance(node, ast.Constant) and isinstance(node.value, str):
            found.append(re.escape(node.value))
        elif isinstance(node, ast.JoinedStr):
            found.append("".join(re.escape(it.value) if isinstance(it, ast.Constant) else ".+" for it in node.values))
    return [it for it in found if re.search(r"[a-z]{3}", it)]


def missing_runs(top, table):
    """What is wrong with the runs of a table."""
    used = {it for row in table.calls.values() for it in row}
    for name, (_, script, check) in table.runs.items():
        file = top / script
        names = names_in(file.read_text(), script.endswith(".py")) if file.is_file() else []
        if not file.is_file():
            yield f"run {name}: there is no {script}"
        elif not any(re.fullmatch(f"{it}(?:: .*)?", check, re.DOTALL) or it.startswith(re.escape(check) + ":") for it in names):
            yield f"run {name}: {script} has no check '{check}'"
        if name not in used:
            yield f"run {name}: no call names it"


def wrong_calls(table, calls, commands):
    """What is wrong with the calls of a table, beside those of the sources and of the program."""
    due = {**calls, **{(COMMANDS, name): None for name in commands}}
    for crate, name in due.keys() - table.calls.keys():
        yield f"{crate} {name}: it is not in the table"
    for (crate, name), row in table.calls.items():
        if (crate, name) not in due:
            yield f"{crate} {name}: there is no such call that may return want of memory"
            continue
        missing = {*row} - table.runs.keys() - {NONE, SAME}
        yield from (f"{crate} {name}: there is no run {it}" for it in missing)
        if not missing and not has_two(table, row, due[crate, name]):
            yield f"{crate} {name}: it wants two runs"


def has_two(table, row, call):
    """Whether a row names two runs, or one that makes both sizes, or one of a call without a size."""
    first, second = row
    if first not in table.runs or first == second:
        return False
    return second in table.runs or second == SAME and " and " in table.runs[first][0] or second == NONE and call and not call.has_size()


def product_of(script):
    """The crate that a script runs, or that a file of tests in Rattle belongs to."""
    return PRODUCTS.get(script.rpartition("/")[0]) or re.sub(r"^crates/(\w+)/.*", r"\1", script)


def reached(crates, product):
    """The names of all functions that those of a crate call, and what these call. (A name stands for each function that has it.)"""
    calls = {}
    for crate in below(crates, product).values():
        texts = texts_of(crate)
        for name, (path, it) in all_functions(texts).items():
            body = "\n".join(texts[path].split("\n")[it.first : it.last + 1])
            calls.setdefault(own_name(name), set()).update(name for _, name in called_in(body))
    seen, left = set(), [own_name(it) for it in all_functions(texts_of(crates[product]))]
    while left:
        name = left.pop()
        if name not in seen:
            seen.add(name)
            left += calls.get(name, ())
    return seen


def unreached(top, table):
    """The calls for which the table names a run of a product that never makes them."""
    crates = read_crates(top)
    names = {it: reached(crates, it) for it in {product_of(script) for _, script, _ in table.runs.values()} if it in crates}
    for (crate, name), row in table.calls.items():
        for run in row:
            product = product_of(table.runs[run][1]) if run in table.runs else None
            if product in names and crate in crates and own_name(name) not in names[product]:
                yield f"{crate} {name}: {product} does not call it, which run {run} runs"


def problems(top):
    """What is wrong with the table of a tree."""
    table = read_table((top / TABLE).read_text())
    sources = [Source(it.name, texts_of(it)) for it in read_crates(top).values() if not NOT_LIBRARY.search(it.name)]
    wrong = wrong_calls(table, calls_of(sources), commands_of(top))
    return [*table.wrong, *missing_runs(top, table), *sorted(wrong), *unreached(top, table)]


def runs_of(script, top=TOP):
    """The checks that the table names of a script."""
    return {check for _, path, check in read_table((top / TABLE).read_text()).runs.values() if path == script}
