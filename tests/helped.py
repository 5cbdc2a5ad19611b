"""What the help of the program lists."""

import re
import subprocess

from tally import PROGRAM


def help_of(*words):
    return subprocess.run([str(PROGRAM), *words, "--help"], capture_output=True, text=True, timeout=60).stdout


def part(text, heading):
    """The lines under a heading of a help text."""
    found = re.search(rf"^{heading}:\n((?:  .*\n)+)", text, re.M)
    return found[1].splitlines() if found else []


def commands():
    """The commands, in the order of the help."""
    return [line.split()[0] for line in part(help_of(), "Commands")]


def options_of(text):
    """Each option of a help text, with the name of its value or none."""
    spelled = [re.split(r"  +", line.strip())[0] for line in part(text, "Options") if line.lstrip().startswith("-")]
    return dict(re.findall(r"(?<![\w<])(--?[\w-]+)(?: <([\w-]+)>)?", " ".join(spelled)))
