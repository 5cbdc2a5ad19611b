"""The texts of a crate as wrong bodies need them: functions without bodies, contracts with one clause, and proof files that fit."""

import re

from sources import CYCLE, HEAD, all_functions

CLAUSE = re.compile(r" *ensures (\w+) \{")
REQUIRES = re.compile(r"^ *requires(?: (\w+))? \{", re.MULTILINE)
NOTHING = "    ensures says_nothing { Unit {0} }"


def hollow(text, function):
    """A file's text in which the function's body does nothing, and calls nothing."""
    lines = text.split("\n")
    head = next(it for it in range(function.first, function.last + 1) if HEAD.match(lines[it]))
    indent = HEAD.match(lines[head])[1]
    notes = [it for it in lines[function.first:head] if not CYCLE.search(it)]
    opening = [it for it in range(head, function.last) if lines[it] == indent + "{"] \
        or [it for it in range(head, function.last + 1) if lines[it].endswith(("{", "}"))]
    top, bracket, _ = lines[opening[0]].rpartition("{")
    lines[function.first:function.last + 1] = [*notes, *lines[head:opening[0]], top + bracket, f"{indent}    loop {{}}", indent + "}"]
    return "\n".join(lines)


def with_one_clause(texts, name, clause):
    """The texts in which the function's contract keeps, of the clauses with a name that it ensures, this one, beside one
    that says nothing, and its proof file what does not answer for the others; None where it has no such clause, or no
    other. A clause that stands alone would give its goals other names, and no answer would fit."""
    path, function = all_functions(texts).get(name, (None, None))
    if not function or function.is_of_trait or function.is_recursive:
        return None
    lines, kept, removed, depth = texts[path].split("\n"), [], set(), 0
    opens = next((it for it in range(function.first, function.last) if lines[it].strip() == "{"), function.first)
    clauses = {found[1] for found in map(CLAUSE.match, lines[function.first:opens]) if found}
    for line in lines[function.first:opens]:
        found = CLAUSE.match(line)
        if depth or found and found[1] != clause:
            removed |= {found[1]} if found and not depth else set()
            depth += line.count("{") - line.count("}")
        else:
            kept.append(line)
    if clause not in clauses or not removed:
        return None
    lines[function.first:opens] = [*kept, NOTHING]
    texts = {**texts, path: "\n".join(lines)}
    answers = f"proofs/{name.replace('::', '/')}/Answers.antt"
    if answers in texts:
        texts[answers] = with_items(texts[answers], lambda goal: "-clause-" not in goal or goal.rpartition("-clause-")[2] not in removed)
    return texts


def with_items(text, is_kept):
    """A proof file with the items alone whose names pass."""
    kept, is_in = [], True
    for line in text.split("\n"):
        found = re.match(r"(?!unfolding )(?:abbrev )?(?:pub )?([^\W\d][^\s:]*)(?: |$)", line)
        if found:
            is_in = is_kept(found[1])
        if is_in:
            kept.append(line)
    return "\n".join(kept)


def outside_its_cycle(text, own, members):
    """What a proof file of a cycle says of one of its functions, as a proof file of a function that is in no cycle: the names of its
    goals then begin with no function, and an answer is not given the cycle's theorem. What a call in the cycle requires is another
    goal, of which nothing is asked. The members are the names of the cycle's functions, each with those of its `requires`."""
    asked = []

    def is_kept(name):
        kind, _, goal = name.partition("-")
        owner, _, goal = goal.partition("-") if kind in ("decreases", "invariant") else (kind, "", goal)
        call = re.fullmatch(rf"({'|'.join(members)})-requires(.*)", goal)
        if call and owner == own:
            asked.extend(dict.fromkeys(f"{goal}-clause-{it}" if it else goal for it in members[call[1]]))
        return owner not in members or owner == own and bool(goal) and not call

    text = re.sub(rf"(?m)^({own}-\S+(?: g)?) t c\b", r"\1 c", with_items(text, is_kept))
    text = re.sub(rf"(?m)(^|(?<=pub )|(?<=goal\.))(decreases-|invariant-)?{own}-", r"\2", text)
    answers = [f"\npub {it} : goal.{it}\n{it} c = anything\n" for it in dict.fromkeys(asked)]
    start = re.search(r"use (Rattle\.\w+\.proofs\.)", text)
    return f"use {start[1]}Anything.{{anything}}\n{text}{''.join(answers)}" if answers else text
