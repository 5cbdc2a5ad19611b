"""What carries out the program's calls of the system, in Node and in memory: beside the native program, and what Node does otherwise."""

import base64
import json
import os
import re
import shutil
import subprocess
import time

import arm64
import hosts
from codewords import HEADER
from hosts import native
from tally import CANNOT_OPEN, CANNOT_WRITE, NO_OWNER, PLAN, PROGRAM, TOO_LARGE, TOP, call
from tally import as_nobody, at_terminal, fault, faulty, files_of, put, put_script, said

TONE = HEADER + b"8,tone0,\n"
OLD = {"pages.csv": TONE, "tx.bin": b"older", "cert.bin": b"older too"}
# Scripts of the program that run over Node, with one of so many of their cases.
SCRIPTS = {"program/run": 41, "capture/run": 41}
# Places where Wine tells another fault, and journals, of which Node has none.
LINES = [
    "plan round.csv a.bin '' --keep --verbose",
    "plan round.csv/ a.bin a.cert --verbose",
    r"open --journal new round.csv < add,16,tone0,\ndrop,3\nlist\n",
    r"open --journal journal --verbose < add,24,tone0,\nplan,a.bin,a.cert\n",
    "open --journal round.csv",
    "open --journal ward",
]


def outcome(command, folder, stdin=b"", **how):
    return said(call(*command, cwd=folder, input=stdin, **how))


class Node:
    """The program in Node, as a command of its own."""

    def __init__(self, room, made, node):
        self.made, self.node = made, node
        self.path = put_script(room / "pocsag", f'#!/bin/sh\nexec "{node}" $FLAGS_OF_NODE "{made}/cli.mjs" "$@"\n')

    def run(self, words, folder, stdin=b"", before=(), **how):
        return outcome([*before, str(self.path), *words], folder, stdin, **how)


def in_memory(node, runs, files):
    """Status, output and errors of each run over these files, and the files that it leaves."""
    packed, unpacked = lambda data: base64.b64encode(data).decode(), base64.b64decode
    given = {name: packed(it) for name, it in files.items()}
    lines = "".join(json.dumps({"words": words, "files": given, "input": packed(stdin)}) + "\n" for words, stdin in runs)
    for line in outcome([node.node, str(TOP / "tests/web/memory.mjs"), str(node.made)], TOP, lines.encode())[1].splitlines():
        told = json.loads(line)
        yield (told["status"], unpacked(told["out"]), unpacked(told["err"])), {name: unpacked(it) for name, it in told["files"].items()}


def try_beside(tally, room, node):
    """Both hosts do what the native program does."""
    files = hosts.first_files(room)
    native(["open", "--journal", "journal", "round.csv"], room / "first", b"add,32,tone0,\n")
    files["journal"] = (room / "first/journal").read_bytes()
    runs = [*hosts.commands(files, *LINES)]
    found = list(in_memory(node, runs, files))
    for k, (words, stdin) in enumerate(runs):
        folder = put(room / f"native {k}", files)
        due = native(words, folder, stdin), files_of(folder)
        tally.check(f"in memory {words}", found[k : k + 1] == [due], (found[k : k + 1], due))
        if "--journal" not in words:
            hosts.check_same(tally, room, node.run, files, words, stdin)


def try_locks(tally, room, node):
    """Node has no locks: a journal is refused, `--keep` goes on, and nothing is removed that a killed run may have left."""
    folder = put(room / "locks", {**OLD, "old": b"kept"})
    before = files_of(folder)
    for journal in ("new", "old"):
        told = node.run(["open", "--journal", journal, "pages.csv", "--verbose"], folder)
        due = 3, b"", CANNOT_OPEN + fault(f"journal {journal}: Operation not supported (os error 95)")
        tally.check(f"a journal is refused: {journal}", told == due and files_of(folder) == before, told)
    put(room / "locks", {"tx.bin.pocsag.4194305.new": b"left", os.fsdecode(b"a\xff"): b"", **{str(k): b"" for k in range(10_000)}})
    before, start = files_of(folder), time.monotonic()
    told = node.run([*PLAN, "--keep", "--verify"], folder)
    native(["plan", "pages.csv", "../tx", "../cert"], folder)
    due = before | {"tx.bin": (room / "tx").read_bytes(), "cert.bin": (room / "cert").read_bytes()}
    holds = told == (0, b"pages 1\nbatches 1\nverified\n", b"") and files_of(folder) == due and time.monotonic() - start < 20
    tally.check("--keep without a lock, beside 10,000 files and what a killed run left", holds, told)


def try_way_back(tally, room, node):
    """Where a call fails that puts files in place the old files stand whole, also for a user who may not do it."""
    failing = [("rename", 1), ("rename", 2), ("fsync", 1), ("fchmod", 1)] if shutil.which("strace") else []
    for call, number in failing:
        folder = put(room / f"{call} {number}", OLD)
        told = node.run([*PLAN, "--keep", "--verbose"], folder, before=faulty(call, f"error=EIO:when={number}"))
        holds = told[:2] == (3, b"") and told[2].endswith(b": Input/output error (os error 5)\n") and files_of(folder) == OLD
        tally.check(f"the way back where {call} {number} fails", holds, (told, files_of(folder)))
    folder, user = put(room / "another user", {**OLD, "shut.csv": TONE}), as_nobody(room)
    folder.chmod(0o777)
    (folder / "shut.csv").chmod(0)
    for words, why in (
        (["plan", "shut.csv", "a", "b"], CANNOT_OPEN + fault("page file shut.csv: Permission denied (os error 13)")),
        ([*PLAN, "--keep"], NO_OWNER + fault("certificate cert.bin: Operation not permitted (os error 1)")),
    ):
        told = node.run([*words, "--verbose"], folder, before=user) if user else (3, b"", why)
        tally.check(f"another user: {words}", told == (3, b"", why), told)


def unready(node, words, folder, stdin):
    """The status and the output where both pipes are set not to wait, and the other ends take their time."""
    (source, ours), (theirs, sink) = os.pipe(), os.pipe()
    for end in (source, sink):
        os.set_blocking(end, False)
    process = subprocess.Popen([str(node.path), *words], cwd=folder, stdin=source, stdout=sink)
    os.close(source), os.close(sink)
    for part in (stdin[:100], stdin[100:]):
        time.sleep(0.5)
        os.write(ours, part)
    os.close(ours)
    with open(theirs, "rb") as output:
        time.sleep(0.5)
        return process.poll(), output.read(), process.wait(60)


def try_streams(tally, room, node):
    """Pipes that are not ready, a terminal, and streams that are closed, which Node opens as /dev/null."""
    folder = put(room / "streams", {"pages.csv": TONE})
    native(PLAN, folder)
    sound, told = native(["wav", "tx.bin"], folder)[1], unready(node, ["wav", "-"], folder, (folder / "tx.bin").read_bytes())
    tally.check("pipes that are not ready", told == (None, sound, 0) and len(sound) > 1 << 16, told[::2])
    try:
        told, due = (at_terminal(command, folder, TONE) for command in ([str(node.path)], [str(PROGRAM)]))
        tally.check("no words at a terminal", told == due and told[1] == b"pages 1\nbatches 1\n", (told, due))
    except OSError as why:
        print(f"skipped: no words at a terminal, since there is no pseudo terminal: {why}")
    for words, closed, due in (
        ("", "<&-", (1, b"", fault("the header must be address,kind,message"))),
        ("check pages.csv cert.bin", ">&-", (0, b"", b"")),
        ("check none.csv cert.bin", "2>&-", (3, b"", b"")),
        ("plan pages.csv a b", "<&- >&- 2>&-", (0, b"", b"")),
        ("decode tx.bin", ">/dev/full", (3, b"", CANNOT_WRITE)),
        ("plan pages.csv /dev/full b", "", (3, b"", CANNOT_WRITE)),
    ):
        tally.check_same(f"{words} {closed}", outcome(["sh", "-c", f'"$0" {words} {closed}', str(node.path)], folder), due)
    tally.check("a plan beside closed streams", (folder / "a").read_bytes() == (folder / "tx.bin").read_bytes())


def try_limits(tally, room, node):
    """Words that are no UTF-8, a module that is none, memory that is refused, and the largest files."""
    folder = put(room / "limits", {"tones.csv": HEADER + b"".join(b"%d,tone0,\n" % k for k in range(20_000))})
    for words in ([b"a\xff"], [b"check", b"\xc3", b"x"], [b"decode", b"\xed\xa0\x80", ""]):
        told = node.run(words, folder)
        tally.check(f"no UTF-8 {words}", told == native(words, folder) and told[0] == 2, told)
    whole = (node.made / "program.wasm").read_bytes()
    for module in ({}, *({"program.wasm": data} for data in (b"", whole[:8], whole[:-1000]))):
        other = put(room / "other", {**module, **{it: (node.made / it).read_bytes() for it in ("cli.mjs", "system.mjs")}})
        told = Node(other, other, node.node).run(["--version"], folder)
        tally.check(f"no module {module.values()}"[:60], told[:2] == (3, b"") and re.fullmatch(rb"pocsag: [^\n]+\n", told[2]), told)
    for pages, due in ((150, (3, b"", fault("out of memory"))), (2_000, (0, b"pages 20000\nbatches 1250\n", b""))):
        told = node.run(["plan", "tones.csv", "a", "b"], folder, env={**os.environ, "FLAGS_OF_NODE": f"--wasm-max-mem-pages={pages}"})
        tally.check(f"{pages} pages of memory", told == due, told)
    for size, due in ((2**28, (0, b"pages 1\nbatches 1\nverified\n", b"")), (2**28 + 1, (1, b"", TOO_LARGE))):
        (folder / "large.csv").write_bytes(HEADER + b"\n" * (size - len(TONE)) + b"8,tone0,\n")
        tally.check_same(f"a page file of {size} bytes", node.run(["plan", "large.csv", "a", "b", "--verify"], folder), due)


def try_hosts(tally, room, made, path):
    room.mkdir()
    node = Node(room, made, path)
    for part in (try_beside, try_locks, try_way_back, try_streams, try_limits):
        part(tally, room, node)
    arm64.try_scripts(tally, node.path, SCRIPTS)
