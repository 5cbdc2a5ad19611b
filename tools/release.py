"""The release for this machine, as tools/release.sh unpacks it."""

import pathlib
import shutil
import subprocess

TOP = pathlib.Path(__file__).resolve().parents[1]


def taken(function):
    """The folder that a function of tools/release.sh prints, or none."""
    words = ["bash", "-c", f". tools/listing.sh; . tools/release.sh; {function}"]
    found = subprocess.run(words, cwd=TOP, stdout=subprocess.PIPE, text=True).stdout.strip()
    return TOP / found if found else None


def folder():
    """The folder of the release where it is of these sources, or where nothing can be built."""
    return taken("take_packages") or (None if shutil.which("rt") else taken("take_old lib/libpocsag.a"))
