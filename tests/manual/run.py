"""Compares the manual page with the help of the compiled program, and has it read by `man` and `mandoc`.

Where `man` or `mandoc` is missing, that part is left out.
"""

import re
import shutil

from helped import commands, help_of, options_of
from tally import ANY, TOP, call

MANUAL = TOP / "docs/pocsag.1"
EVERYWHERE = {"-h", "--help", "-V", "--version"}


def plain(text):
    """The manual's text without its font changes."""
    return re.sub(r"\\f.", "", text).replace("\\-", "-").replace("\\ ", " ").replace("\\&", "")


def section(text, name):
    found = re.search(rf"^\.SH \"?{name}\"?\n(.*?)(?=^\.SH |\Z)", text, re.M | re.S)
    return found[1] if found else ""


def terms(text):
    """The paragraphs' tags of a section, their macros and quotes taken away."""
    tags = re.findall(r"^\.TP\n\.(?:BR|BI|B)\s+(.*)$", text, re.M)
    return [re.sub(r"\s+", " ", tag.replace('"', "")).strip() for tag in tags]


def synopses(text):
    """The words of each command in the synopsis, as one line."""
    found = {}
    for piece in section(text, "SYNOPSIS").split(".br\n"):
        line = " ".join(re.sub(r"^\.\w+ ", "", word) for word in piece.splitlines())
        words = re.sub(r"[\[\]|]", " ", line).split()
        if len(words) > 1 and not words[1].startswith("-"):
            found[words[1]] = words[2:]
    return found


def compare(tally, text):
    told = {*terms(section(text, "COMMANDS"))}
    tally.check("the manual's commands", told == {*commands()}, (told, commands()))
    lines = synopses(text)
    tally.check("a synopsis for each command", set(lines) == told - {"help"}, set(lines))
    tagged = {}
    for tag in terms(section(text, "OPTIONS")):
        names = re.findall(r"(?<!\w)--?[\w-]+", tag)
        for name in names:
            tagged[name] = re.sub(r"(?<!\w)--?[\w-]+,?", "", tag).replace(",", "").strip()
    asked = dict.fromkeys(EVERYWHERE, "")
    for name in sorted(told - {"help"}):
        own = {word: value for word, value in options_of(help_of(name)).items() if word not in EVERYWHERE}
        # A word may have a value in one command alone.
        asked.update({word: value or asked.get(word, "") for word, value in own.items()})
        written = {word for word in lines.get(name, []) if word.startswith("--")}
        tally.check(f"the options of {name}", written == set(own), (written, own))
        usage = re.search(r"^Usage: (.*)$", help_of(name), re.M)[1]
        positional = re.findall(r"[<\[]([A-Z]+)[>\]]", re.sub(r"--\w+ <[\w-]+>|\[OPTIONS\]", "", usage))
        tail = [word for word in lines.get(name, []) if word.isupper()]
        values = [value for word, value in own.items() if value]
        tally.check(f"the words of {name}", sorted(tail) == sorted(positional + values), (tail, positional, values))
    tally.check("the manual's options", tagged == asked, (tagged, asked))
    for words in ([], *([name] for name in sorted(told - {"help"}))):
        tally.check_none(f"help within 80 columns: {words}", [line for line in help_of(*words).splitlines() if len(line) > 80])


def try_manual(tally, _folder):
    text = plain(MANUAL.read_text())
    compare(tally, text)
    tally.check_same("exit statuses", terms(section(text, "EXIT STATUS")), ["0", "1", "2", "3"])
    if shutil.which("man"):
        tally.check_done("man finds nothing", call("man", "--warnings", "-E", "UTF-8", "-l", "-Tutf8", "-Z", MANUAL), 0, ANY)
    if shutil.which("mandoc"):
        done = call("mandoc", "-T", "lint", MANUAL)
        tally.check("mandoc finds nothing", done.returncode == 0 and done.stdout + done.stderr == b"", done)
