"""Tries the WebAssembly modules, the ES modules over them, the program in Node, and the page in Chromium and in Firefox.

It makes them twice, in two folders; makes the same calls of the module and of the native library, with random rounds, changed
files and buffers that are too small; runs the published vectors and the worked examples; refuses memory; runs the program by
its hosts in Node and in memory; and uses the page as a user does. Where the C library is that of the release, it tries the
release's files. Where Node, the toolchain, Binaryen or a browser is missing it says so and tries the rest.
"""

import ctypes
import hashlib
import json
import os
import pathlib
import random
import re
import shutil
import sys
import tarfile

import host
import package
from codewords import HEADER, changed, random_file
from tally import ANY, LIBRARY, PROGRAM, TOP, call as run
from workspace import module_at

HERE = pathlib.Path(__file__).resolve().parent
ROUNDS, PER_BATCH = 2_000, 500
NODE, CHROMIUM, FIREFOX = shutil.which("node"), shutil.which("chromium"), shutil.which("firefox-esr") or shutil.which("firefox")
SIZES = {"plan": 48, "front": 56, "check": 32, "report": 72, "frames": 224, "place": 24, "number": 4}


def info(kind):
    return ["info", SIZES[kind]]


def number(value):
    return ["number", value]


def wide(value):
    return ["wide", str(value)]  # JSON's numbers end below 2 ** 64


def hexed(data):
    return ["bytes", data.hex()]


def rooms(source, *sizes):
    """Buffers, of which some are too small and some of no byte."""
    return [["room", size if source.randrange(8) else source.choice([0, 1, 100, 139, 207])] for size in sizes]


def searched(source):
    """A limit, an end and what `always` is, among which some are not allowed."""
    limit = source.choice([1, 2, 3, 50, 2_000, 100_000]) if source.randrange(20) else source.choice([0, 1_000_001, 2**32 - 1])
    return [number(limit), number(source.randrange(3) if source.randrange(30) else source.choice([3, 2**32 - 1])), number(source.randrange(2))]


def planning_calls(source, pages):
    """The calls that plan a page file."""
    return [
        ["pocsag_plan", hexed(pages), *rooms(source, 4_096, 4_096), *searched(source), info("plan")],
        ["pocsag_plan_at_most", hexed(pages), number(source.randrange(6)), *rooms(source, 4_096, 4_096, 4_096, 4_096), *searched(source), info("front")],
        ["pocsag_report", hexed(pages), number(source.choice([512, 1200, 2400, 1201])), *searched(source), info("report")],
        ["pocsag_frames", hexed(pages), *searched(source), info("frames")],
        ["pocsag_lay_in_order", hexed(pages), *rooms(source, 4_096), info("place")],
        ["pocsag_strict", hexed(source.choice([pages, pages.replace(b",", b'"', 3), pages + b'8,alpha,"x"y', pages + b'8,alpha,"'])), info("place")],
    ]


def small_calls(source):
    """The calls that read no file."""
    address = source.randrange(2_100_000) if source.randrange(8) else source.choice([2_007_664, 2_097_152, 2**32 - 1])
    message = bytes(source.choices(b'0123456789 -Uab",\n\r\x7f\x00\xff', k=source.choice([0, 1, 5, 6, 40])))
    return [
        ["pocsag_write_page", number(address), number(source.randrange(7)), hexed(message), *rooms(source, 256), info("place")],
        ["pocsag_airtime_batches", number(source.choice([0, 1, 934, 10_000, 2**32 - 1])), number(source.choice([512, 1200, 2400, 0])), info("number")],
        ["pocsag_text_of_status", number(source.randrange(80)), *rooms(source, 256)],
        ["pocsag_text_of_version", *rooms(source, 256)],
    ]


def reading_calls(source, pages, tx, cert, address):
    """The calls that read a page file with a certificate, and a transmission."""
    depth, form = source.choice([0, 1, 2, 3, 300]), source.choice([0, 1, 1, 0, 2])
    reading, given = source.randrange(3) if source.randrange(9) else 3, tx
    if reading == 2:  # bits before the transmission, the last of them within a byte, and each bit as the other
        shifted = (source.getrandbits(40) << 8 * len(tx) | int.from_bytes(tx, "big")) << source.randrange(8)
        given = (shifted ^ (1 << 8 * len(tx) + 48) - 1).to_bytes(len(tx) + 6, "big")
    rows = [wide(source.choice([1, 1, 1, 2, 0])), wide(source.choice([2**64 - 1, 2, 1]))]
    return [
        ["pocsag_check", hexed(pages), hexed(cert), info("check")],
        ["pocsag_explain", hexed(pages), hexed(cert), number(form), number(depth), *rooms(source, 8_192), info("check")],
        ["pocsag_decode", hexed(tx), *rooms(source, 4_096), info("place")],
        ["pocsag_hear", number(address), hexed(tx), *rooms(source, 4_096), info("place")],
        ["pocsag_decode_as", number(reading), hexed(given), *rooms(source, 4_096), info("place")],
        ["pocsag_hear_as", number(reading), number(address), hexed(given), *rooms(source, 4_096), info("place")],
        ["pocsag_wav", hexed(tx), number(source.choice([512, 1200, 2400, 300])), number(source.choice([2_400, 8_000, 2_399, 192_001])),
         number(source.choice([0, 0, 576, 584, 577])), number(source.randrange(3)), *rooms(source, 1 << 16), info("place")],
        ["pocsag_show", number(reading), hexed(given), number(source.randrange(4)), *rows, *rooms(source, 16_384), info("place")],
    ]


class Native:
    """The C library, called as C calls it with the words of a line that calls.mjs reads too."""

    def __init__(self, library):
        self.library = ctypes.CDLL(str(library))

    def call(self, name, *words):
        given, outs = [], []
        for kind, value in words:
            if kind == "number":
                given.append(ctypes.c_uint32(value))
            elif kind == "wide":
                given.append(ctypes.c_uint64(int(value)))
            elif kind == "info":
                info = (ctypes.c_uint8 * value)(*b"\x5a" * value)
                given.append(info)
                outs.append(lambda info=info: bytes(info).hex())
            elif kind == "room":
                room, told = (ctypes.c_uint8 * max(value, 1))(), ctypes.c_size_t()
                ctypes.memset(room, 0x5A, value)
                given += [room, ctypes.c_size_t(value), ctypes.byref(told)]
                outs.append(lambda room=room, told=told, size=value: [str(told.value), hashlib.sha256(bytes(room)[:size]).hexdigest()])
            else:
                data = bytes.fromhex(value) if kind == "bytes" else pathlib.Path(value).read_bytes()
                given += [ctypes.c_char_p(data), ctypes.c_size_t(len(data))]
        return [getattr(self.library, name)(*given) & 0xFFFFFFFF, *(out() for out in outs)]


class Made:
    """What the tests share: the native library and the module, made in folders of their own, and the scripts of other tests."""

    def __init__(self, room):
        self.library = module_at("library_tests", TOP / "tests/library/run.py")
        self.web = module_at("web_make", TOP / "web/make.py")
        self.program = module_at("program_tests", TOP / "tests/program/run.py")
        (room / "native").mkdir()
        if LIBRARY:
            shutil.copytree(pathlib.Path(LIBRARY) / "lib", room / "native", dirs_exist_ok=True)
        else:
            self.library.make.make(room / "native")
        self.native = Native(room / "native/libpocsag.so.1")
        self.python = self.library.pocsag.Pocsag(str(room / "native/libpocsag.so.1"))
        self.folder, self.room = room / "web", room

    def compare(self, tally, name, calls):
        """Whether the module answers as the native library does; the statuses that were seen."""
        lines = "".join(json.dumps(it) + "\n" for it in calls)
        ran = run(NODE, HERE / "calls.mjs", self.folder / "pocsag.wasm", input=lines.encode(), timeout=1200)
        if ran.returncode:
            raise SystemExit(f"calls.mjs: {ran.stderr.decode()[-2000:]}")
        answers = [json.loads(line) for line in ran.stdout.splitlines()]
        wanted = [self.native.call(*it) for it in calls]
        wrong = [(call[0], want, got) for call, want, got in zip(calls, wanted, answers) if want != got]
        tally.check(f"{name}: {len(calls)} calls", not wrong and len(answers) == len(calls), (len(wrong), str(wrong[:2])[:1000]))
        return {answer[0] for answer in answers}


def try_made(tally, made):
    """Two builds in two folders give the same files."""
    other = made.room / "a folder of another name"
    for folder in (made.folder, other):
        tally.check_done(f"made in {folder.name}", run(sys.executable, TOP / "web/make.py", folder), 0, ANY, ANY)
    names = sorted(path.name for path in made.folder.iterdir())
    tally.check("the files that are made", names == sorted(["pocsag.wasm", "program.wasm", "pocsag.html", *made.web.COPIED]), names)
    for name in names:
        tally.check(f"{name} is the same in two folders", (made.folder / name).read_bytes() == (other / name).read_bytes())
    for words, status in (([], 2), (["--help"], 2), (["a", "b"], 2)):
        tally.check(f"make.py {words}", run(sys.executable, TOP / "web/make.py", *words).returncode == status)


def take_released(tally, made):
    """Takes the files of the release, which are tried beside its C library."""
    with tarfile.open(next((TOP / "release").glob("pocsag-*.tgz"))) as archive:
        files = {pathlib.Path(it.name).name: archive.extractfile(it).read() for it in archive if it.isfile()}
    made.folder.mkdir()
    for name, data in files.items():
        (made.folder / name).write_bytes(data)
    shutil.copyfile(TOP / "release/pocsag.html", made.folder / "pocsag.html")
    tally.check("the module of the release", "pocsag.wasm" in files, sorted(files))


def try_rounds(tally, made):
    """Random rounds and changed files, beside the native library."""
    source, statuses, count = random.Random(66), set(), 0
    for _ in range(ROUNDS // PER_BATCH):
        calls = []
        for _ in range(PER_BATCH):
            pages = random_file(source)
            if source.randrange(4) == 0:
                pages = changed(source, pages)
            calls += planning_calls(source, pages) + small_calls(source)
            try:
                plan = made.python.plan(pages, limit=2_000, end=source.randrange(3), always=True)
            except made.library.pocsag.Fault:
                continue
            files = [pages, plan.transmission, plan.certificate]
            for which in (None, source.randrange(3), source.randrange(3)):
                now = [changed(source, it) if k == which else it for k, it in enumerate(files)]
                address = int(pages.split(b"\n")[1].split(b",")[0][-7:] or b"0") if source.randrange(5) else source.randrange(2_100_000)
                calls += reading_calls(source, *now, address)
        count += len(calls)
        statuses |= made.compare(tally, "random rounds", calls)
    tally.check("more than 20,000 calls", count > 20_000, count)
    tally.check("most statuses were seen", len(statuses) >= 22, sorted(statuses))


def try_large(tally, made):
    """Many pages, pages of every character, deep certificates, and files of 268 MB."""
    source, calls = random.Random(7), []
    tones = HEADER + b"".join(b"%d,tone0,\n" % k for k in range(20_000))
    mixed = HEADER + b"".join(b"%d,alpha,%s\n" % (11 * k, b"abcdefghij " * source.randrange(1, 30)) for k in range(3_000))
    whole = HEADER + b'8,alpha,"%s"\n' % bytes(range(1, 128)).replace(b'"', b'""')
    for pages in (tones, mixed, whole):
        calls.append(["pocsag_plan", hexed(pages), ["room", 2**22], ["room", 2**16], number(100_000), number(2), number(1), info("plan")])
        plan = made.python.plan(pages, end=2, always=True)
        calls.append(["pocsag_check", hexed(pages), hexed(plan.certificate), info("check")])
        calls.append(["pocsag_decode", hexed(plan.transmission), ["room", 2**21], info("place")])
        calls.append(["pocsag_plan_at_most", hexed(pages), number(40), *[["room", 2**21]] * 4, number(1_000), number(0), number(1), info("front")])
    for _, _, pages, certificate in made.library.in_c.deep_certificates():
        calls.append(["pocsag_check", hexed(pages), hexed(certificate), info("check")])
        calls += [["pocsag_explain", hexed(pages), hexed(certificate), number(form), number(300), ["room", 2**23], info("check")] for form in (0, 1)]
    made.compare(tally, "large rounds and deep certificates", calls)
    # The greatest page file, and one byte more, in empty lines before the first page.
    tail, rows = b"8,tone0,\n", []
    for size in (2**28, 2**28 + 1):
        path = made.room / f"{size}.csv"
        path.write_bytes(HEADER + b"\n" * (size - len(HEADER) - len(tail)) + tail)
        rows.append(["pocsag_plan", ["file", str(path)], ["room", 4_096], ["room", 4_096], number(100), number(0), number(1), info("plan")])
        rows.append(["pocsag_decode", ["file", str(path)], ["room", 4_096], info("place")])
    statuses = made.compare(tally, "268 MB of input", rows)
    tally.check("one of them is too large, and one is planned", {0, 17} <= statuses, statuses)


def try_node(tally, made):
    """The ES module, by what stands in module.mjs, with the files of the vectors and the worked examples."""
    program = made.program
    rounds = {name: [(HEADER + row[0]).decode(), *row[1:5]] for name, row in program.ROUNDS.items()}
    refused = {name: [(text or b"").decode("latin-1"), fault] for name, (text, fault) in program.REFUSED.items()}
    (made.room / "examples.json").write_text(json.dumps({"rounds": rounds, "refused": refused}))
    done = run(NODE, HERE / "module.mjs", made.folder, made.room / "examples.json", TOP / "vectors")
    print(done.stdout.decode(), end="")
    last = re.search(r"(\d+) passed, (\d+) failed\n$", done.stdout.decode())
    tally.check("the ES module in Node", done.returncode == 0 and last and int(last[1]) > 300, done.stderr.decode()[-2000:])


def try_page(tally, made, name, browser, least):
    """The page in a browser, by the script of its name, with the files that the program makes."""
    folder = made.room / name
    folder.mkdir()
    shutil.copyfile(TOP / "examples/round.csv", folder / "round.csv")
    done = run(PROGRAM, "plan", "round.csv", "round.bin", "round.cert", cwd=folder)
    (folder / "round.wav").write_bytes(run(PROGRAM, "wav", "round.bin", cwd=folder).stdout)
    tally.check("the program's files", done.returncode == 0)
    done = run(NODE, HERE / f"{name}.mjs", browser, made.folder / "pocsag.html", folder)
    print(done.stdout.decode(), end="")
    last = re.search(r"(\d+) passed, (\d+) failed\n$", done.stdout.decode())
    tally.check(f"the page in {browser}", done.returncode == 0 and last and int(last[1]) > least, (done.returncode, done.stderr.decode()[-2000:]))


def billed(part, *given):
    """Runs a part, and says how long processors were busy with it."""
    before = os.times()
    part(*given)
    print(f"{part.__name__}: {sum(os.times()[:4]) - sum(before[:4]):.0f} s of processors", flush=True)


def try_all(tally, room):
    makers = [] if LIBRARY else [(name, shutil.which(name)) for name in ("rt", "wasm-opt")]
    has_node = NODE and int(re.match(rb"v(\d+)", run(NODE, "--version").stdout)[1]) >= 20
    missing = [name for name, found in [("node 20", has_node), *makers] if not found]
    if missing:
        return tally.skip(f"{' and '.join(missing)} missing in PATH")
    made = Made(room)
    for part in (take_released if LIBRARY else try_made, try_rounds, try_large, try_node):
        billed(part, tally, made)
    billed(package.try_package, tally, made.folder, room)
    billed(host.try_hosts, tally, room / "hosts", made.folder, NODE)
    for name, what, browser, least in (("page", "chromium", CHROMIUM, 60), ("firefox", "firefox", FIREFOX, 10)):
        if browser:
            billed(try_page, tally, made, name, browser, least)
        else:
            print(f"skipped: the page, since {what} is missing in PATH")
