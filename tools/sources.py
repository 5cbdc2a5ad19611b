"""What stands in the sources of a crate, in the layout of `rt fmt`: the functions of its code by their places and as the prover names
them; and what has a name in code, `specs/` and `proofs/`, with its statement."""

import functools
import re
import typing

import workspace

HEAD = re.compile(r"( *)(?:pub(?:\([^)]*\))? )?(?:const |unsafe |extern \"C\" )*fn (\w+)")
CONSTANT = re.compile(r"(?:pub(?:\([^)]*\))? )?const (\w+):")
TYPE = re.compile(r"^(?:pub(?:\([^)]*\))? )?(?:struct|enum) (\w+)", re.MULTILINE)
CALLED = re.compile(r"(?:(\w+)::)?(\w+)(?=\s*(?:\(|::<))|(\w+)::(\w+)|(?<=[(,])()\s*(\w+)(?=\s*[,)])")
CYCLE = re.compile(r"#\[cycle\((\w+)\)\]")
OF_FUNCTIONS = ("Answers.antt", "Invariants.antt", "Proof.antt")
# A comment, which goes, or what stands in quotation marks; each may hold what looks like the other.
RUST = re.compile(r'//[^\n]*|r(#+)".*?"\1|"(?:\\.|[^"\\])*"|\'(?:\\.[^\']*|[^\'\\\n])\'', re.DOTALL)
ANTT = re.compile(r'--[^\n]*|"(?:\\.|[^"\\])*"', re.DOTALL)
ITEM = re.compile(r"(#\[)|#!\[|(?:pub(?:\([^)]*\))? )?(?:(?:const|unsafe|extern \"C\") )*"
                  r"(fn|const|static|struct|enum|trait|impl|ghost use|use|mod|type|macro_rules!|ghost)(?!\w) *(\w*)")
DEFINITION = re.compile(r"(?:(?:pub|abbrev|unfoldable|record|data|mutual|module|use|infix\w*)\b|[^\s(){}]+ :(?= |$))")
GIVEN = re.compile(r"^(?:  )?(?:(?:pub|abbrev|unfoldable|record|data) )*((?!let |use |module )[^\W\d][\w'-]*|[^\s(){}]*◌[^\s(){}]*)"
                   r"(?: [^:=\n]*)? :(?= |$)", re.MULTILINE)
IS_DEFINED = re.compile(r"(?:pub )?(?:abbrev|unfoldable|record|data|mutual|module)\b")
CODE, LEMMA, MEANING = "code", "lemma", "meaning"
PLAIN = re.compile(r"[a-z][a-z0-9]*")


class Function(typing.NamedTuple):
    """A function of a source file: its name as the prover prints it, less the crate's; its unit, which is the
    cycle of calls that it is proved with, or else itself; and its first and last line, from 0."""

    name: str
    unit: str
    first: int
    last: int
    is_of_trait: bool
    is_recursive: bool  # it stands in a cycle of calls, or calls something of its own name

    def named(self, name):
        """The function under another name of its own, which nothing calls."""
        full = joined(self.name.rpartition("::")[0], name)
        return self._replace(name=full, unit=full, is_recursive=False)

    def proof_folders(self):
        """Where the proof files of the function or of its cycle may stand; a function that calls itself alone is a cycle."""
        alone = joined(self.name.rpartition("::")[0], f"+{own_name(self.name)}")
        return [f"proofs/{it.replace('::', '/')}" for it in dict.fromkeys((self.unit, alone))]


def module_of(path):
    """The module that a source file holds, as `a::b`; empty for the crate's root."""
    module = path.removeprefix("src/").removesuffix(".rt").replace("/", "::")
    return "" if module in ("lib", "main") else module


def joined(*names):
    return "::".join(filter(None, names))


def own_name(name):
    """The name of a function without its module and type."""
    return name.rpartition("::")[2]


def homes_of(texts):
    """The module of each type that the files (texts by path) declare."""
    return {name: module_of(path) for path, text in texts.items() if path.startswith("src/") for name in TYPE.findall(text)}


def without_arguments(words):
    """A type without what stands in its angle brackets, as `Vec` for `Vec<Option<u8>>`."""
    while re.search(r"<[^<>]*>", words):
        words = re.sub(r"<[^<>]*>", "", words)
    return words.strip()


def owner_of(header, module, homes):
    """What the prover puts before the names of an `impl` block's functions."""
    header = re.sub(r"'\w+,? ?", "", header).partition(" where ")[0]
    header = re.sub(r"^impl(<>)? ?", "", header)
    if header.startswith("<"):
        header = header[re.match(r"<(?:[^<>]|<[^<>]*>)*>", header).end():].strip()
    of_trait, is_for, of_type = header.rpartition(" for ")
    name = own_name(without_arguments(of_type))
    if not is_for:
        return joined(homes.get(name, module), name)
    trait, _, arguments = of_trait.partition("<")
    inner = [without_arguments(it) for it in re.split(r",(?![^<]*>)", arguments.rstrip().removesuffix(">"))]
    return joined(module, name + trait.strip() + "".join(inner))


def start_of(lines, head):
    """The line at which the notes and attributes above a function's head begin."""
    while head > 0 and lines[head - 1].strip() and not lines[head - 1].rstrip().endswith(("{", "}", ";")):
        head -= 1
    return head


def end_of(lines, head, indent):
    """The line of the bracket that closes a function's body, or None where the function has no body."""
    for place in range(head, len(lines)):
        if lines[place] == indent + "}" or place == head and lines[place].endswith("}"):
            return place
        if lines[place].endswith(";") and not lines[place].startswith(indent + "    "):
            return None
    return None


def functions_of(path, text, homes):
    """The functions of a file of the crate in the order of their places, by the homes of the crate's types."""
    return functions_in(path, text, tuple(homes.items()))


@functools.lru_cache(1_000)
def functions_in(path, text, homes):
    homes = dict(homes)
    module, lines, found, owner, of_trait = module_of(path), text.split("\n"), [], "", False
    for number, line in enumerate(lines):
        if line.startswith("impl"):
            header = " ".join(lines[number:number + 6]).partition("{")[0]
            owner, of_trait = owner_of(header, module, homes), " for " in header
        elif line == "}":
            owner, of_trait = "", False
        head = HEAD.match(line)
        last = head and end_of(lines, number, head[1])
        if last is None:
            continue
        first = start_of(lines, number)
        name = joined(owner or module, head[2])
        cycle = CYCLE.search("\n".join(lines[first:number]))
        unit = joined(module, "+" + cycle[1]) if cycle else name
        opens = next((it for it in range(number, last) if lines[it].strip() == "{"), number)
        calls_itself = cycle or head[2] in {it for _, it in called_in("\n".join(lines[opens + 1:last]))}
        found.append(Function(name, unit, first, last, of_trait, bool(calls_itself)))
    return found


def function_at(functions, line):
    """The function at a line, from 0, or None."""
    return next((it for it in functions if it.first <= line <= it.last), None)


def constant_at(text, line):
    """The name and the text of the constant at a line of a file, from 0; None and nothing where there is none."""
    lines = text.split("\n")
    first = next((it for it in range(line, -1, -1) if not lines[it].startswith((" ", "}"))), line)
    last = next((it for it in range(first, len(lines)) if lines[it].endswith(";")), -1)
    found = CONSTANT.match(lines[first])
    return (found[1], "\n".join(lines[first:last + 1])) if found and line <= last else (None, "")


def all_functions(texts):
    """The functions of a crate's sources by their names, each with its path."""
    homes = homes_of(texts)
    return {it.name: (path, it) for path, text in texts.items() if path.startswith("src/")
            for it in functions_of(path, text, homes)}


def called_in(text):
    """The names that a function's text may call, each with the type or module before it, or with nothing: what stands before a bracket,
    at the end of a path or alone as an argument. (A variable of the same name counts too.)"""
    found = (it.groups() for it in CALLED.finditer(re.sub(r"//.*|\bfn \w+", "", text)))
    return {(of or of_path or "", name or end or passed) for of, name, of_path, end, _, passed in found}


def texts_of(crate):
    """The texts of the crate's files by their paths."""
    files = [it for part in workspace.PARTS for it in sorted((crate.folder / part).rglob("*")) if it.is_file()]
    return {str(it.relative_to(crate.folder)): it.read_text() for it in files}


def cleaned(text, form):
    """A text without comments and empty lines, in which all between two quotation marks stands in one line."""
    text = form.sub(lambda it: "" if it[0].startswith(("//", "--")) else it[0].replace("\n", "\\n"), text)
    return "\n".join(line.rstrip() for line in text.split("\n") if line.strip())


def words_in(text):
    """The words of a text, but for the names of clauses."""
    text = re.sub(r"(?m)^( *(?:ensures|requires)) \w+ \{", r"\1 {", text)
    return {*re.findall(r"\w+", text), *re.findall(r'[^\s(){}\[\],;.`"]+', text)}


def parts_of(lines, form):
    """The lines in parts, each of which begins where the form fits, with the attributes above it."""
    parts, is_open = [], False
    for line in lines:
        found = form.match(line)
        if found and not is_open or not parts:
            parts.append([])
        is_open = bool(found and form is ITEM and found[1]) or is_open and not found
        parts[-1].append(line)
    return parts


def pieces(name):
    """What a text has of a name, such as `+` of `◌+◌`."""
    return [it for it in name.split("◌") if it]


def imported(text):
    """The names that each part of a `use` brings, what it says, and the words of that."""
    path, _, listed = text.rstrip(";").partition("{")
    listed = listed.rstrip().removesuffix("}")
    types = {it for it in words_in(path) if not PLAIN.fullmatch(it)} if "::" in path or "declared" in path else set()
    for entry in [listed] if "{" in listed else listed.split(",") if listed else [path]:
        names = re.findall(r"[^\s:.,{}]+", entry)
        if names:
            names = names if "{" in entry else names[-1:]
            yield {part for it in names for part in pieces(it)}, path * bool(listed) + entry.strip(), types | words_in(entry)


def statement(lines):
    """A function without its body."""
    head = next((at for at, line in enumerate(lines) if HEAD.match(line)), None)
    if head is None or lines[-1].endswith(";"):
        return "\n".join(lines)
    opens = [at for at in range(head, len(lines)) if lines[at] in ("{", "{}")] \
        or [at for at in range(head, len(lines)) if lines[at].endswith(("{", "}"))]
    return "\n".join([*lines[:opens[0]], lines[opens[0]].partition("{")[0]])


def block_of(lines, function):
    """The head of the `impl` block that a function stands in; nothing for one that stands in none."""
    starts = [at for at in range(function.first) if lines[at].startswith("impl")] if lines[function.last].startswith(" ") else []
    ends = [at for at in range(starts[-1], function.first) if lines[at].endswith("{")] if starts else []
    return "\n".join(lines[starts[-1]:ends[0] + 1]) if ends else ""


def type_of(header):
    """The type of an `impl` block."""
    of_type = re.sub(r"'\w+,? ?", "", header.partition(" where")[0]).rpartition(" for ")[2]
    return own_name(re.sub(r"^impl(?:<(?:[^<>]|<[^<>]*>)*>)? ", "", without_arguments(of_type)).strip(" {}&"))


class Item(typing.NamedTuple):
    """What has a name: its statement, the words in it, and whether it is a function, a lemma or what others may mean."""

    text: str
    words: frozenset
    kind: str


class File:
    """The items of a file."""

    def __init__(self, path, text):
        self.uses, self.found, self.inner = [], [], ""
        if path.endswith(".rt"):
            self.read_code(parts_of(cleaned(text, RUST).split("\n"), ITEM))
        else:
            self.read_definitions(parts_of(cleaned(text, ANTT).split("\n"), DEFINITION), path.startswith("specs/"))
        self.given = {name for names, _, _ in self.found for name in names}

    def read_use(self, lines):
        """A `use`; what it passes on has a name here too."""
        text = " ".join(it.strip() for it in lines)
        head, _, rest = text.partition("use ")
        self.uses += imported(rest if "use " in text else text)
        if head.strip() not in ("", "ghost"):
            self.found += [(names, f"{head}{of}", MEANING) for names, of, _ in imported(rest)]

    def read_code(self, parts):
        for lines in parts:
            head = next((it for it in map(ITEM.match, lines) if it and not it[1]), None)
            kind, name = (head[2], head[3]) if head else (None, "")
            if kind in ("use", "ghost use"):
                self.read_use(lines)
            elif kind in ("impl", "trait"):
                self.read_block(lines, name if kind == "trait" else "")
            elif kind == "fn":
                self.found.append(([name], statement(lines), CODE))
            elif kind is None:
                self.inner += "\n".join(lines)
            elif kind != "mod":
                self.found.append(([name], "\n".join(lines), MEANING))

    def read_block(self, lines, trait):
        """A trait, or an `impl`: what a type implements belongs to the type; its other functions have names of their own."""
        opens = next(at for at, line in enumerate(lines) if line.endswith(("{", "{}")))
        header = "\n".join(lines[:opens + 1])
        name, stated = trait or type_of(header), [header]
        for part in parts_of([it[4:] for it in lines[opens + 1:-1]], ITEM):
            head = next((it for it in map(HEAD.match, part) if it), None)
            if head:
                self.found.append(([head[2], f"{name}::{head[2]}"], f"{header}\n{statement(part)}", CODE))
            if not head or trait or " for " in header:
                stated.append(statement(part))
        self.found.append(([name], "\n".join(stated), MEANING))

    def read_definitions(self, parts, is_spec):
        for lines in parts:
            if re.match(r"(?:\w+ )*use |infix", lines[0]):
                self.read_use(lines)
            elif not lines[0].startswith(("mod ", "pub mod ")):
                is_defined = is_spec or IS_DEFINED.match(lines[0])
                block = re.match(r"(?:\w+ )*(?:mutual|module|data)\b", lines[0])
                names = [name for it in GIVEN.findall("\n".join(lines if block else lines[:1])) for name in pieces(it)]
                behind = next((at for at in range(1, len(lines)) if not lines[at].startswith(" ")), len(lines))
                self.found.append((names, "\n".join(lines if is_defined else lines[:behind]), MEANING if is_defined else LEMMA))

    def scoped(self, text):
        """A text with what it names of what the file imports, and the names in it."""
        words = words_in(text)
        brought = [it for it in self.uses if "*" in it[0] or it[0] & words]
        names = self.given.union(*(names for names, _, _ in brought))
        names |= {word for of, word in re.findall(r"(\w+)\.(\w+)", text) if of in names} | {*re.findall(r"(?<=::)\w+|\w+(?=!)", text)}
        words = {it for it in words if it in names or not PLAIN.fullmatch(it)}
        return "\n".join([text, *sorted(of for _, of, _ in brought)]), words.union(*(more for _, _, more in brought))

    def items(self):
        for names, text, kind in self.found:
            text, words = self.scoped(text)
            for name in names:
                yield name, Item(text, frozenset(words), kind)
