"""The completions of three shells, beside the help of the program: the same words for each, and what each shell offers where it
is installed. With --write it first writes these words into completions/, as the help has them."""

import functools
import re
import shlex
import shutil

import helped
from tally import TOP, call, run_parts

FILES = {shell: TOP / f"completions/pocsag.{shell}" for shell in ("bash", "zsh", "fish")}
# What prints the words that a shell offers for the last word of a line; the files among them are those of the folder.
SCRIPTS = {
    "bash": """. "$1"; compopt() { named=; }; named=named.csv; COMP_WORDS=($2); [ "${2% }" = "$2" ] || COMP_WORDS+=(""); COMP_CWORD=$((${#COMP_WORDS[@]} - 1))
        _pocsag; printf '%s\\n' "${COMPREPLY[@]:-$named}" """,
    "zsh": """compadd() { shift; print -l -- "$@" }; _files() { print named.csv }; words=(${=2}); [[ $2 == *' ' ]] && words+=(''); CURRENT=$#words; . $1""",
    "fish": """source $argv[1]; complete -C "$argv[2]" | string replace -r "\\t.*" "" """,
}
NO_CONFIGURATION = {"bash": ["--norc"], "zsh": ["-f"], "fish": ["--no-config"]}
# What is offered for a value, by its name in the help; for any other value nothing.
OFFERED = {"END": {"open", "closed", "idle"}, "R": {"512", "1200", "2400"}, **dict.fromkeys(("REST", "FILE", "F"), {"named.csv"})}

commands = functools.cache(helped.commands)


@functools.cache
def due():
    """The options of each command; those of the program itself as those of pocsag. The command help has none of its own."""
    texts = {name: helped.help_of(*([] if name == "pocsag" else [name])) for name in ("pocsag", *commands()) if name != "help"}
    return {name: helped.options_of(text) for name, text in texts.items()}


def values():
    """Each option with a value, a command that has it, and what is offered for the value."""
    return [(option, name, OFFERED.get(value, set())) for name, options in due().items() for option, value in options.items() if value]


def written(text):
    """A file of completions with the words of the help: the options of each command, the commands, and the options whose values
    are offered as nothing or as files."""
    for name, options in due().items():
        text = re.sub(rf"^( +\[?{name}\]?)='[^']*'", rf"\1='{' '.join(options)}'", text, flags=re.M)
    text = re.sub(r"((?:commands|named)[= ]'?)plan [\w ]*", rf"\1{' '.join(commands())}", text)
    for first, wanted in ("--limit", set()), ("--rest", {"named.csv"}):
        listed = dict.fromkeys(option for option, _, offered in values() if offered == wanted)
        for before, between, sign in ("    ", r" \|", " | "), ("case ", "", " "):
            text = re.sub(rf"({before}){first}(?:{between} --[-\w]+)+", rf"\1{sign.join(listed)}", text)
    return text


def try_words(tally, _folder):
    """Each option of each help stands in each file, and no other."""
    for shell, path in FILES.items():
        text = path.read_text()
        tally.check(f"{shell}: the words of the help", text == written(text), "run python3 tests operation/completions --write")
        found = {name: set(options.split()) for name, options in re.findall(r"^ +\[?(\w+)\]?='([^']*)'", text, re.M) if options}
        for name, options in due().items():
            tally.check(f"{shell}: the options of {name}", found.get(name) == set(options), (found.get(name), options))
        listed = re.search(r"(?:commands|named)[= ]'?(plan [\w ]*)", text)[1]
        tally.check(f"{shell}: the commands", listed.split() == commands(), listed)


def offered(shell, line, folder):
    """What a shell offers for the last word of a line, as far as the word goes."""
    words = [shell, *NO_CONFIGURATION[shell], "-c", SCRIPTS[shell], *([shell] if shell != "fish" else []), str(FILES[shell]), line]
    done = call(*words, cwd=folder, text=True)
    begun = line.rsplit(" ", 1)[-1]
    return {word for word in done.stdout.split() if word.startswith(begun)}, done.stderr


def try_shells(tally, folder):
    (folder / "named.csv").write_text("")
    for shell in FILES:
        if not shutil.which(shell):
            continue
        rows = [("pocsag ", {*commands()}), ("pocsag re", {"report"}), ("pocsag help ", {*commands()}), ("pocsag plan --end c", {"closed"})]
        rows += [(f"pocsag {'' if name == 'pocsag' else name + ' '}-", set(options)) for name, options in due().items()]
        rows += [(f"pocsag {name} ", {"named.csv"}) for name in due() if name != "pocsag"]
        rows += [(f"pocsag {name} {option} ", offered_for) for option, name, offered_for in values()]
        for line, wanted in rows:
            found = offered(shell, line, folder)
            tally.check(f"{shell}: {shlex.quote(line)}", found == (wanted, ""), (found, wanted))


def main(words):
    for file in FILES.values() if words == ["--write"] else ():
        file.write_text(written(file.read_text()))
    return run_parts(try_words, try_shells)
