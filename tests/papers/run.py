"""Runs each command of the papers, README and docs/*.md, as a reader would, and compares what is printed with what the
paper says ('# prints: ..' below a command). docs/OPERATION.md and docs/LIBRARY.md have tests of their own; the example in C
of the latter is also built here, with the library that `./install` brings.

Where `cc` or `pkg-config` is missing, the example in C is left out.
"""

import os
import re
import shutil

from tally import ANY, PROGRAM, TOP, call, put_script

ELSEWHERE = {"OPERATION.md", "LIBRARY.md"}
PAPERS = [TOP / "README.md"] + sorted(path for path in (TOP / "docs").glob("*.md") if path.name not in ELSEWHERE)
EXAMPLE = TOP / "crates/pocsag_core_cases/src/readme.rt"  # README's example in Rattle, which is proved and run as a test
HEADER = "address,kind,message\n"
BASH = ["bash", "-euo", "pipefail", "-c"]


def blocks(paper, kind):
    """The fenced blocks of a kind, in order."""
    return re.findall(rf"^```{kind}\n(.*?)^```", paper.read_text(), re.M | re.S)


def fresh(folder, name):
    """An empty folder with what a reader has: the examples, three channels, `./pocsag`, `pocsag` in PATH and `./install`."""
    room = folder / name
    (room / "channels").mkdir(parents=True)
    for number in range(3):
        (room / f"channels/{number}.csv").write_text(HEADER + f"{number},numeric,{number}\n")
    shutil.copytree(TOP / "examples", room / "examples")
    (room / "bin").mkdir()
    for place in (room / "pocsag", room / "bin/pocsag"):
        place.symlink_to(PROGRAM)
    put_script(room / "install", f'#!/bin/sh\nexec {TOP}/install "$@" "{room}/usr"\n')
    return room, dict(os.environ, PATH=f"{room}/bin:{os.environ['PATH']}", PKG_CONFIG_PATH=f"{room}/usr/lib/pkgconfig")


def run(words, room, environment):
    return call(*words, cwd=room, env=environment, text=True)


def check_block(tally, name, words, text, room, environment):
    """Whether a block of a paper prints what stands there, or, where the paper leaves that out, succeeds alone."""
    done, wanted = run([*words, text], room, environment), re.findall(r"^ *# prints: (.*)$", text, re.M)
    holds = done.returncode == 0 and (not wanted or done.stdout.splitlines() == [line for line in wanted if line])
    tally.check(f"{name}: {text.splitlines()[0]}", holds, done)


def try_commands(tally, folder):
    """Each block of commands of each paper, those of a paper one after the other in one folder."""
    count = 0
    for paper in PAPERS:
        room, environment = fresh(folder, paper.name)
        for text in blocks(paper, "bash"):
            check_block(tally, paper.name, BASH, text, room, environment)
            count += 1
    tally.check("the papers have commands", count >= 3, count)


def try_examples(tally, folder):
    """README's example in Rattle, and LIBRARY's in C with the installed library."""
    library = TOP / "docs/LIBRARY.md"
    (rattle,), (c,) = blocks(TOP / "README.md", "rust"), blocks(library, "c")
    tally.check("the example in Rattle is the one that is proved", rattle.strip() in EXAMPLE.read_text(), rattle)
    if not shutil.which("cc") or not shutil.which("pkg-config"):
        return
    room, environment = fresh(folder, "example")
    (room / "first.c").write_text(c)
    command, printed = re.search(r"`(cc first\.c .*)`\s+makes\s+a\s+program\s+that\s+prints\s+`(.*)`", library.read_text()).groups()
    tally.check_done("the example in C is compiled", run(["sh", "-c", f"./install && {command}"], room, environment), 0, ANY, ANY)
    done = run(["./a.out"], room, dict(environment, LD_LIBRARY_PATH=f"{room}/usr/lib"))
    tally.check("the example in C", done.stdout.strip() == printed, done)


def try_links(tally, _folder):
    """Each link of a paper leads to a file that is there."""
    for paper in [*PAPERS, *(TOP / "docs" / name for name in sorted(ELSEWHERE))]:
        for link in re.findall(r"\]\(([^)#:]+)\)", paper.read_text()):
            tally.check(f"{paper.name} links {link}", (paper.parent / link).exists())
