"""Wants each lemma to stand once: compares the statements of all lemmas of the crates' proofs.

Two statements are the same where they differ in nothing but the names of their variables, in whether a premise has
a name or is written in braces, and in how names are imported. A parameter of a module is a premise of its lemmas.
What std has is std's: no lemma is one of std's at some types. What answers a goal of the prover is no lemma.
"""

import pathlib
import re
import subprocess

from tally import TOP

IMPORT = re.compile(r"^use ([\w.-]+)\.\{([^}]*)\}", re.MULTILINE)
OPENING = re.compile(r"(?:pub )?(?:abbrev )?(?:pub )?([^\s(){}:]+) : (.*)")
BLOCK = re.compile(r"(?:pub )?(module|mutual)\b")
TOKEN = re.compile(r'"(?:\\.|[^"\\])*"|[(){},;]|[^\s(){},;]+')
NAME = re.compile(r"[^\W\d][\w'-]*")


def depth_of(line):
    """How many spaces the line begins with."""
    return len(line) - len(line.lstrip(" "))


def item_at(lines, start):
    """The line there with the deeper lines below it, and the place behind them."""
    place = start + 1
    while place < len(lines) and depth_of(lines[place]) > depth_of(lines[start]):
        place += 1
    return " ".join(line.strip() for line in lines[start:place]), place


def statements(text):
    """The name and the statement of each lemma of a file. A lemma inside a module has the module's parameters
    before its own premises; between a statement and its proof there may stand a line `unfolding`, or others' lines."""
    lines = [line.rstrip() for line in re.sub(r"--.*", "", text).split("\n")]
    lines = [line for line in lines if line]
    proved = {(depth_of(line), line.split()[0]) for line in lines if " : " not in line.split("=")[0] or "=" in line}
    outer, place = [], 0  # of each module or block around the place: its depth and its parameters
    while place < len(lines):
        depth = depth_of(lines[place])
        while outer and outer[-1][0] >= depth:
            outer.pop()
        block = BLOCK.match(lines[place].strip())
        if block:
            head, place = head_at(lines, place)
            outer.append((depth, " ".join(re.findall(r"^(?:pub )?module \S+ (.*) where$", head))))
            continue
        item, place = item_at(lines, place)
        opened = OPENING.fullmatch(item)
        if opened and (depth, opened[1]) in proved:
            yield opened[1], " ".join([*(parameters for _, parameters in outer), opened[2]]).strip()


def head_at(lines, start):
    """The head of the module or block there, to its `where`, and the place behind it."""
    place = start
    while BLOCK.match(lines[start].strip())[1] == "module" and not lines[place].endswith("where"):
        place += 1
    return " ".join(line.strip() for line in lines[start:place + 1]), place + 1


def aliases(text):
    """The names that the file gives to what it imports, with the names that stand for them elsewhere."""
    given = {}
    for _, listed in IMPORT.findall(text):
        for item in listed.split(","):
            name, _, alias = item.strip().partition(" as ")
            if alias:
                given[alias.strip()] = name.strip()
    return given


def grouped(text):
    """The words of a statement, each part in brackets as a list of its own."""
    groups = [[]]
    for token in TOKEN.findall(text):
        if token in "({":
            groups.append([])
        elif token in ")}":
            groups[-2].append(groups.pop())
        else:
            groups[-1].append(token)
    return groups[0]


def binder(item):
    """The names and the type of a binder `(x y : T)` or `{x : T}`; none where it is no binder."""
    place = item.index(":") if isinstance(item, list) and ":" in item else 0
    names = item[:place]
    return (names, item[place + 1:]) if place and all(isinstance(it, str) and NAME.fullmatch(it) for it in names) else None


class Form:
    """Writes a statement with numbers for its variables."""

    def __init__(self, given):
        self.given = given
        self.bound = 0

    def of(self, items, known):
        """The form of a type, where `known` maps the variables in scope to their numbers."""
        written, place = [], 0
        while place < len(items):
            item, found, place = items[place], binder(items[place]), place + 1
            if found:
                known = self.bind(*found, known, written)
                place += items[place:place + 1] == ["→"]
            elif item == "λ" and "." in str(items[place:]):
                place, known = self.through_lambda(items, place, known, written)
            elif isinstance(item, list):
                written += ["(", *self.of(item, known), ")"]
            else:
                written.append(self.word(item, known))
        return written

    def bind(self, names, kind, known, written):
        """Writes a premise for each name, and adds the names to those in scope."""
        sort = "T" if kind[:1] == ["Type"] else "#"
        for name in names:
            written += ["(", *self.of(kind, known), ")", "→"]
            known = {**known, name: f"{sort}{self.bound}"}
            self.bound += 1
        return known

    def through_lambda(self, items, place, known, written):
        """Writes the names that a λ binds, up to its point."""
        written.append("λ")
        is_last = False
        while place < len(items) and not is_last:
            item, place = items[place], place + 1
            names, _ = binder(item) or ([item.rstrip(".")], None)
            for name in names:
                known = {**known, name: f"#{self.bound}"}
                self.bound += 1
            has_point = items[place:place + 1] == ["."]
            is_last, place = has_point or item[-1:] == ".", place + has_point
        return place, known

    def word(self, token, known):
        """A word as it is known: a variable by its number, also before a field; another by its own name."""
        name, dot, field = token.partition(".")
        if name in known:
            return known[name] + dot + field
        return self.given.get(token, token)


def lemmas(file):
    """The name, the statement and the form of each lemma of a file, but of what answers a goal of the prover."""
    text = file.read_text()
    given = aliases(text)
    for name, statement in statements(text):
        # A premise is written the same whether it stood in brackets of its own or not.
        form = re.sub(r"\( ([^()]*) \) →", r"\1 →", " ".join(Form(given).of(grouped(statement), {})))
        # It says something of values: the type of a function or of a definition does not.
        speaks = re.search(r"#\d|[≡≤<≢⊎\[]|(?<!\S)[a-z_]", form) and not form.endswith("Type 0")
        if speaks and not statement.startswith("goal."):
            yield name, statement, form


def words_of(form):
    """The words and relations of a form that name no variable: an instance of the form has them too."""
    return tuple(re.findall(r"(?<!\S)[a-z_][\w-]*|[≡≤<≢⊎]", form.replace("Type", "")))


def pattern_of(form):
    """A pattern of the form in which each variable of types may be any type."""
    kinds, met, parts = {int(number) for number in re.findall(r"\bT(\d+)", form)}, set(), []
    for token in re.sub(r"(\( )?Type 0( \))? → ", "", form).split():
        variable = re.fullmatch(r"([T#])(\d+)(.*)", token)
        if not variable:
            parts.append(re.escape(token))
        elif variable[1] == "#":  # the variables of types have no number in an instance
            number = int(variable[2])
            parts.append(re.escape(f"#{number - sum(kind < number for kind in kinds)}{variable[3]}"))
        else:
            name = f"type{variable[2]}"
            parts.append(f"(?P={name})" if name in met else rf"(?P<{name}>[^()→]+|\( [^()]* \))")
            met.add(name)
    return re.compile(" ".join(parts))


def lemmas_of_std():
    """The patterns of the lemmas that std gives to all, by their words, each with its place; none without a kit."""
    try:
        page = subprocess.run(["rt", "doc"], capture_output=True, text=True, timeout=60).stdout.strip()
    except OSError:
        page = ""
    kit = pathlib.Path(page).parent / "rattle"
    folder = kit / "std/proofs/lemmas"
    found = {}
    for file in sorted(folder.rglob("*.antt")) if page else []:
        text = file.read_text()
        given = [(name, form) for name, _, form in lemmas(file) if re.search(rf"^ *pub {re.escape(name)} :", text, re.MULTILINE)]
        for name, form in [*given, *passed_on(kit, text)]:
            found.setdefault(words_of(form), []).append((pattern_of(form), f"std: {file.relative_to(folder)}: {name}"))
    return found


def passed_on(kit, text):
    """The lemmas of the kit's other libraries that the file passes on as its own, by the names that it gives them."""
    for module, listed in re.findall(r"^pub use Rattle\.([\w.-]+)\.\{([^}]*)\}", text, re.MULTILINE):
        file = kit / f"{module.replace('.', '/')}.antt"
        forms = {name: form for name, _, form in lemmas(file)} if file.exists() else {}
        for item in listed.split(","):
            name, _, alias = item.strip().partition(" as ")
            if name in forms:
                yield (alias or name).strip(), forms[name]


def try_lemmas(tally, _folder):
    seen, given = {}, lemmas_of_std()
    if not given:
        print("no kit was found by `rt doc`: the lemmas are not compared with those of std")
    for file in sorted(TOP.glob("crates/*/proofs/**/*.antt")):
        for name, statement, form in lemmas(file):
            place = f"{file.relative_to(TOP / 'crates')}: {name}"
            twins = [twin for pattern, twin in given.get(words_of(form), []) if pattern.fullmatch(form)]
            twins += [seen[form]] if form in seen else []
            tally.check(place, not twins, f"is the lemma {', '.join(twins)}: {statement}")
            seen.setdefault(form, place)
