"""What `clap` prints, whole: the version, help, and each kind of fault in the words.

A file of texts/ shows one command. Each text stands behind the lines `$ pocsag WORDS` that print it, with an empty line
between two of them. A text that begins with `error: ` is told on standard error with status 2, and any other on standard output.
"""

import os
import pathlib
import re
import shlex
import shutil

import helped
from tally import TOP, call, room_in, run, sampled

TEXTS = pathlib.Path(__file__).resolve().parent / "texts"
VERSION = (TOP / "VERSION").read_text().split()[0]
TOOLCHAIN = re.compile(r"rattle-kit-\w+ logic [0-9a-f]{16}")


def shown(path):
    """The words of each call of a file, and the text that they print."""
    parts = re.split(r"^((?:\$ pocsag .*\n)+)", path.read_text(), flags=re.MULTILINE)
    for calls, text in zip(parts[1::2], parts[2::2]):
        for call in calls.splitlines():
            yield shlex.split(call)[2:], text.rstrip("\n") + "\n"


def due_of(text, told):
    """The status and the two texts that are due. Which toolchain proved the program, the program alone knows."""
    proved = TOOLCHAIN.search(told)
    text = text.replace("{version}", VERSION).replace("{toolchain}", proved[0] if proved else "a toolchain")
    return (2, "", text) if text.startswith("error: ") else (0, text, "")


def try_texts(tally, folder):
    room = room_in(folder, "usage")
    for path in sorted(TEXTS.glob("*.txt")):
        for words, text in sampled(shown(path)):
            done = run(words, room)
            told = done.returncode, done.stdout.decode(), done.stderr.decode()
            due = due_of(text, told[1])
            tally.check(f"text of {words}", told == due and not os.listdir(room), (told, due))


def try_commands(tally, _folder):
    """Each command has its texts: its help first, and then a fault."""
    commands = {*helped.commands()} - {"help"}
    files = {path.stem: list(shown(path)) for path in TEXTS.glob("*.txt")}
    tally.check("a file of texts for each command", files.keys() == commands | {"pocsag"}, (commands, files.keys()))
    for name in commands & files.keys():
        holds = [name, "--help"] == files[name][0][0] and all(name in words for words, _ in files[name])
        tally.check(f"the texts of {name}", holds and "cannot be used multiple times" in str(files[name]), files[name][0])


def try_logic(tally, _folder):
    """What was proved is proved in a logic, whichever kit of it is in PATH."""
    if not shutil.which("rt"):
        return
    toolchain = call("rt", "version", text=True).stdout
    told = run(["--version"]).stdout.decode()
    _, logic, number = toolchain.partition(" logic ")
    tally.check("the version names the logic", number.strip() and told.endswith(logic + number), (told, toolchain))
