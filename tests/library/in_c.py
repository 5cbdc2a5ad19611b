"""What the header says beside its calls: texts of statuses, what a compiler warns of, sizes that suffice, and the stack."""

import pathlib
import re

import pocsag
import trees
from answers import WORDS, attempt
from tally import ANY, PROGRAM, TOP, call as run

HERE = pathlib.Path(__file__).resolve().parent
ROUND = TOP / "examples/round.csv"


def try_header(tally, library):
    """What stands in the header alone: the texts of statuses, sizes that suffice, and what a compiler warns of."""
    folder, room = library.folder, library.room
    sized = room / "sized"
    built = run("cc", "-std=c11", "-Wall", "-Wextra", "-Werror", HERE / "header.c", f"-I{folder}", "-o", sized)
    tally.check("the header's own functions are compiled", built.returncode == 0, built.stderr)
    told = run(sized, "texts").stdout.decode().splitlines()
    places = r"^(record|batch|codeword) \{\w+\}: | at \{at\}$| in line \{at\}|: at least .*$"
    wanted = {number: re.sub(places, "", text).replace("{found}", "more") for number, (_, text) in pocsag.NAMES.items()}
    texts = dict(line.split(" ", 1) for line in told)
    wrong = [(number, text) for number, text in wanted.items() if texts.get(str(number)) != text]
    tally.check("a status has the package's text", not wrong and len(texts) == 100, wrong)
    exported = {number: library.pocsag.status_text(int(number)) for number in texts}
    tally.check("the library tells the header's texts", exported == texts, {it for it in texts.items() if exported[it[0]] != it[1]})
    unknown = {number for number, text in texts.items() if text == "unknown status"}
    tally.check("each status of a fault has one", not {str(number) for number in pocsag.NAMES} & unknown, unknown)
    for name, line, flag in (("a status that is dropped", "pocsag_decode(b, 1, b, 1, &n, &p);", "unused-result"),
                             ("a null pointer", "return (int)pocsag_decode(NULL, 0, b, 1, &n, &p);", "nonnull")):
        (room / "warned.c").write_text(f'#include "pocsag.h"\nint main(void) {{ uint8_t b[1] = {{0}}; size_t n; struct pocsag_place p; {line} return 0; }}\n')
        built = run("cc", "-Wall", f"-Werror={flag}", "-c", room / "warned.c", f"-I{folder}", "-o", room / "warned.o")
        tally.check(f"the compiler warns of {name}", built.returncode and flag.encode() in built.stderr, built.stderr)


def crowded_files():
    """Page files whose plans are long for their bytes."""
    frame = [8 * number for number in range(1, 20_001)]
    lines = [f"{address},tone{number % 4}," for number, address in enumerate(frame)]
    yield from (lines[:count] for count in (1, 2, 3, 100, 2_500, 20_000))
    yield from ([f"{address},alpha,{'a' * length}" for address in frame[:count]] for length in (1, 3, 6, 57, 4_000) for count in (1, 40))
    yield from ([f"{address},numeric,{'1' * length}" for address in frame[:count]] for length in (1, 6, 4_000) for count in (1, 40))
    yield [f"{address},tone0," for address in range(1, 8)]


def try_bound(tally, library):
    """No plan is longer than the header says of so many bytes, nor has its certificate more than the limit allows."""
    call, sized, wrong, number = library.pocsag, library.room / "sized", [], 0
    for lines in crowded_files():
        for ending in ("", "\n"):
            data = ("\n".join(["address,kind,message", *lines]) + ending).encode()
            for end in WORDS:
                *sizes, _ = [int(word) for word in run(sized, len(data), 1_000).stdout.split()]
                plan = attempt(call.plan, data, limit=1_000, end=end, always=True, sizes=sizes)
                number += 1
                fits = isinstance(plan, pocsag.Plan) and len(plan.transmission) <= sizes[0] and len(plan.certificate) <= sizes[1]
                in_order = isinstance(plan, pocsag.Plan) and 72 + 68 * (plan.in_order + 2) <= sizes[0]
                wrong += [(len(data), lines[0][:20], sizes)] * (not (fits and in_order))
    tally.check(f"{number} plans fit where the header says so", not wrong, wrong[:4])
    # The pages that are left grow as they are written: quotes that stood alone, and fields that went on behind their quotes.
    for message in ('a"b', "x" + '"' * 900, '"a"b"c', '"a,b"', "a" * 40):
        data = "\n".join(["address,kind,message", "8,tone0,", *(f"{number},alpha,{message}" for number in range(9, 99))]).encode()
        tx, cert, rest = [int(word) for word in run(sized, len(data), 1_000).stdout.split()]
        front = attempt(call.plan_at_most, data, 1, limit=1_000, sizes=(tx, cert, rest, cert))
        fits = isinstance(front, pocsag.Front) and front.left > 80 and len(front.rest) <= rest and len(front.why) <= cert
        tally.check(f"a front of pages of {message[:9]} fits", fits, (rest, str(front)[:200]))


def deep_certificates():
    """Certificates of 300 levels for a round of many tones, by the kind of the nodes: accepted ones, and others."""
    pages = "".join(["address,kind,message\n", *(f"{8 * number + 1},tone0,\n" for number in range(1, 401))]).encode()
    held, loose = trees.overload(0b1100), trees.overload(1)
    for kind in ("splits", "cuts", "closes", "late splits"):
        for leaf in (held, loose):
            tree = leaf
            for level in range(299, 0, -1):
                if kind == "splits":
                    tree = trees.SPLIT, 0, 17, level, (held, tree)
                elif kind == "late splits":
                    tree = trees.SPLIT, 0, 17, 401 - level, (tree, held)
                elif kind == "cuts":
                    tree = trees.CUT, 1, 17, 0, (held, tree)
                else:
                    tree = trees.CLOSE, 0, 0, 0, (tree,)
            yield kind, leaf is held, pages, trees.certificate(trees.IDLE_END if kind == "closes" else 0, 12, tree)


def try_memory(tally, library):
    """No call holds more memory than the header says, also of the smallest files, nor gives more text than it says suffices."""
    call, room, pages, other = library.pocsag, library.room, library.room / "held.csv", library.room / "held.bin"
    text = re.sub(r"\s*\n \*\s*", " ", (library.folder / "pocsag.h").read_text())
    words = re.search(r"at most ([\d,]+) bytes, for a drawing or an explanation ([\d,]+), for a page file of (\d+) pages or more ([\d,]+) more, and beside them (\d+) for .*? a picture (\d+) and a drawing (\d+), for a sound three times its", text)
    fixed, large, many, marks, byte, picture, drawing = (int(it.replace(",", "")) for it in words.groups())
    wrong = []
    for number, lines in enumerate([*crowded_files(), *([f"{address},tone0," for address in range(count)] for count in (1, 2, 5, 16, 30, 32, 1_000, 20_000))]):
        data = "\n".join(["address,kind,message", *lines, ""]).encode()
        pages.write_bytes(data)
        sent = call.plan(data, limit=1).transmission
        other.write_bytes(sent)
        of_pages = byte * len(data) + (marks if len(lines) >= many else 0)
        suffices = dict(zip(("decode", "text", "list", "drawing", "sound"), map(int, run(room / "sized", len(sent), 2400, 2400, 0).stdout.split())))
        most = dict.fromkeys(("order", "strict"), of_pages) | dict.fromkeys(("decode", "hear", "repaired"), byte * len(sent))
        most |= dict.fromkeys(("text", "list"), picture * len(sent)) | {"sound": 3 * suffices["sound"]}
        most["drawing"] = large - fixed + drawing * len(sent)
        if len(lines) < 100:
            most |= dict.fromkeys(("plan", "front", "report", "frames"), byte * len(data) + 40 * call.plan(data).pages)
        for name, held in most.items():
            wrong += held_too_much(room, (pages, other), name, fixed + held, suffices.get(name, 1 << 62))
        other.write_bytes(call.plan(data, limit=1).certificate)
        wrong += held_too_much(room, (pages, other), "check", fixed + of_pages, 1 << 62)
    tally.check(f"the memory and the texts of {number + 1} files are within the header's figures", not wrong, wrong[:9])


def held_too_much(room, files, name, most, suffices):
    """What is wrong of a call that may hold so much memory and give so long a text. Two batches may not carry the first page (12)."""
    told = run(room / "stack", name, 1 << 20, *files).stdout.split()
    is_well = len(told) == 4 and told[0] in (b"0", b"12") and int(told[2]) <= most and int(told[3]) <= suffices
    return [] if is_well else [(files[0].stat().st_size, files[1].stat().st_size, name, most, suffices, told)]


def try_stack(tally, library):
    """Each call does with the stack that the header names, also for certificates as deep as there are."""
    text, room = (library.folder / "pocsag.h").read_text(), library.room
    rows = re.findall(r"#define POCSAG_(\w+)_STACK (\d+)u +/\*.*?measured: ([\d,]+) \*/", text)
    named, figures = {name: int(size) for name, size, _ in rows}, {name: int(figure.replace(",", "")) for name, _, figure in rows}
    tally.check("the header names four sizes of the stack", len(named) == 4, named)
    used = dict.fromkeys(named, 0)
    pages, cert = room / "deep.csv", room / "deep.cert"

    def on_stack(call, size, wanted, what):
        ran = run(room / "stack", call, named[size], pages, cert)
        told = ran.stdout.split()
        tally.check(f"{call} of {what} within {named[size]} bytes of stack", len(told) == 4 and int(told[0]) in wanted, (ran.returncode, told))
        used[size] = max(used[size], int(told[1]) if len(told) == 4 else 0)

    for kind, is_held, data, certificate in deep_certificates():
        pages.write_bytes(data)
        cert.write_bytes(certificate)
        what = f"{'accepted' if is_held else 'refused'} {kind}"
        for call, size in (("check", "CHECK"), ("words", "EXPLAIN"), ("json", "EXPLAIN")):
            on_stack(call, size, {int(not is_held)}, what)
        told = run("bash", "-c", 'ulimit -s 2048; exec "$@"', "bash", PROGRAM, "explain", pages, cert)
        tally.check(f"the program explains {what} with 2 MiB of stack", told.returncode == int(not is_held), (told.returncode, told.stderr))
    for name, data in (("a sample", ROUND.read_bytes()), ("many tones", data)):
        pages.write_bytes(data)
        cert.write_bytes(library.pocsag.plan(data).transmission)
        for call in ("plan", "front", "report", "frames"):
            on_stack(call, "PLAN", {0}, name)
        for call in ("decode", "hear", "repaired", "captured", "heard", "text", "list", "drawing", "sound", "order", "strict", "row"):
            on_stack(call, "LISTING", {0}, name)
    print("stack used:", used)
    for name, figure in figures.items():  # C libraries differ in the part of a thread that is their own
        tally.check(f"the header's figure for {name}", abs(figure - used[name]) <= 1_024, (figure, used[name]))


def try_c(tally, library):
    """All of these, of a library in a folder."""
    folder, room = library.folder, library.room
    try_header(tally, library)
    try_bound(tally, library)
    words = ["-Wall", "-Wextra", HERE / "stack.c", folder / "libpocsag.a", f"-I{folder}", "-pthread", "-Wl,--wrap=malloc,--wrap=realloc,--wrap=free"]
    tally.check_done("the calls on a stack of their own are built", run("cc", "-std=c11", "-O1", *words, "-o", room / "stack"), 0, ANY, ANY)
    try_memory(tally, library)
    try_stack(tally, library)
