"""The program at its doors: words that are no text, standard streams that cannot be used, and in which order files are
opened, emptied and judged."""

import os

from codewords import APART, HEADER
from tally import ANY, BAD_LIMIT, BAD_RATE, CANNOT_OPEN, CANNOT_WRITE, IS_EMULATED, NAMED_TWICE, PLAN, PROGRAM, TOO_LARGE
from tally import Text, call, fault, make_huge, room_in, run, sampled

TONE = HEADER + b"8,tone0,\n"
BAD = HEADER + b"8,tone0,\n9,tone9,\n"
FILES = {"pages.csv": TONE, "apart.csv": APART, "bad.csv": BAD, "journal": b"pocsag journal,1\n"}
OLD = b"older"
NOT_TEXT = b"""error: invalid UTF-8 was detected in one or more arguments

Usage: pocsag [OPTIONS] [COMMAND]

For more information, try '--help'.
"""
BAD_RECORD, STOPPED = map(fault, ("record 2: unknown kind", "search limit reached: at least 2 batches, 3 would do"))
TOLD = b"pages 1\nbatches 1\n"


def fresh(folder, name):
    """A folder with a page file, a bad one, and what `plan` writes of the first; gives these two as well."""
    room = room_in(folder, f"doors, {name}", FILES)
    run(PLAN, room)
    return room, stand(room)


def stand(room):
    """What TX and CERT hold; nothing where they are not there."""
    return [path.read_bytes() if path.exists() else None for path in (room / "tx.bin", room / "cert.bin")]


def put(room, content, names=("tx.bin", "cert.bin")):
    """Has TX and CERT, or other files, hold this; without content they are not there."""
    for name in names:
        (room / name).unlink(missing_ok=True)
        if content is not None:
            (room / name).write_bytes(content)


def try_words_of_bytes(tally, folder):
    """A word that is no UTF-8 text is usage, wherever it stands, and no file is touched."""
    room, made = fresh(folder, "bytes")
    before = sorted(os.listdir(room))
    calls = [
        b"@", b"\xc3", b"--@", b"--verbose @", b"help @", b"plan pages.csv @ cert.bin", b"plan pages.csv tx.bin cert.bin --limit @",
        b"plan pages.csv tx.bin cert.bin --end=@", b"check @ cert.bin", b"report @ --rate 512", b"decode @", b"hear @ tx.bin",
        b"show tx.bin --rows @", b"wav @", b"open @", b"explain pages.csv @", b"--help @",
    ]  # fmt: skip
    for words in (call.replace(b"@", b"a\xff").split() for call in calls):
        tally.check_done(f"no text {words}", run(words, room), 2, b"", NOT_TEXT, stand(room) == made and sorted(os.listdir(room)) == before)


# Calls of each command that print, and what standard input holds where it is read.
PRINTING = [
    "", "--help", "help plan", "--version", "plan pages.csv tx.bin cert.bin", "plan pages.csv tx.bin cert.bin --always --verify",
    "plan pages.csv tx.bin cert.bin --keep", "plan pages.csv - cert.bin", "check pages.csv cert.bin", "check apart.csv cert.bin",
    "report pages.csv --rate 512", "report pages.csv --rate 512 --frames", "decode tx.bin", "decode tx.bin --repair", "decode tx.bin --capture",
    "hear 8 tx.bin", "hear 8 tx.bin --capture", "show tx.bin", "show tx.bin --svg", "show tx.bin --list", "show tx.bin --capture", "wav tx.bin",
    "open", "open pages.csv", "explain pages.csv cert.bin", "explain apart.csv cert.bin", "explain pages.csv cert.bin --json",
    "explain pages.csv cert.bin --svg", "open --journal journal --read-only",
]  # fmt: skip
STDIN = {"": TONE, "open": b"add,9,tone0,\n", "open pages.csv": b"list\n"}


def unheard(words, room, stdin, output):
    """Runs the program with a standard output that takes nothing: closed, a pipe that nobody reads, or a full device."""
    before = ["sh", "-c", 'exec "$@" >&-', "sh"] if output == "closed" else []
    ours, theirs = os.pipe()
    os.close(ours)
    with open("/dev/full", "wb") as full:
        done = run(words, room, stdin, before, stdout=full if output == "full" else theirs)
    os.close(theirs)
    return done


def try_unheard(tally, folder):
    """Each command says that it cannot write, and `plan` has made its files whole."""
    room, made = fresh(folder, "unheard")
    for call in sampled(PRINTING, 5):
        # An emulator opens files of its own, which may take the numbers of closed streams.
        for output in ("unread", "full") if IS_EMULATED else ("closed", "unread", "full"):
            for more in ([],) if "help" in call or "--version" in call else ([], ["--verbose"]):
                put(room, OLD) if call.startswith("plan") else run(PLAN, room)
                done = unheard([*call.split(), *more], room, STDIN.get(call, b""), output)
                told = Text(lambda err: err.splitlines(True)[:1] == [CANNOT_WRITE]) if more else CANNOT_WRITE
                tally.check_done(f"{output} output: {call} {more}", done, 3, ANY, told, stand(room) == made or " - " in call)


# Words, closed streams, the status, what is told on the other streams, and what TX and CERT are then: as they were, emptied, or
# those of the plan.
CLOSED = [
    ("", "<&-", 3, b"", CANNOT_OPEN, "old"),
    ("decode -", "<&-", 3, b"", CANNOT_OPEN, "old"),
    ("hear 8 -", "<&-", 3, b"", CANNOT_OPEN, "old"),
    ("check pages.csv -", "<&-", 3, b"", CANNOT_OPEN, "old"),
    ("report - --rate 512", "<&-", 3, b"", CANNOT_OPEN, "old"),
    ("plan - tx.bin cert.bin", "<&-", 3, b"", CANNOT_OPEN, "empty"),
    ("plan pages.csv tx.bin cert.bin", "<&-", 0, TOLD, b"", "made"),
    ("plan pages.csv tx.bin cert.bin", "2>&-", 0, TOLD, b"", "made"),
    ("plan pages.csv tx.bin cert.bin", "<&- 2>&-", 0, TOLD, b"", "made"),
    ("plan pages.csv tx.bin cert.bin", "<&- >&-", 3, b"", CANNOT_WRITE, "made"),
    ("plan pages.csv tx.bin cert.bin", "<&- >&- 2>&-", 3, b"", b"", "made"),
    ("plan bad.csv tx.bin cert.bin", "2>&-", 1, b"", b"", "empty"),
    ("plan bad.csv tx.bin cert.bin", "<&- >&- 2>&-", 1, b"", b"", "empty"),
    ("check bad.csv cert.bin", "2>&-", 1, b"", b"", "old"),
    ("bogus", "2>&-", 2, b"", b"", "old"),
]


def try_closed(tally, folder):
    """No file that the program opens takes the place of a closed stream, and a closed standard error changes no status."""
    room, made = fresh(folder, "closed")
    found = {"old": [OLD, OLD], "empty": [b"", b""], "made": made}
    for words, closed, status, out, err, left in [] if IS_EMULATED else CLOSED:
        put(room, OLD)
        done = call("sh", "-c", f'"$0" {words} {closed}', PROGRAM, cwd=room, input=b"")
        tally.check_done(f"{words} {closed}", done, status, out, err, stand(room) == found[left])


def try_limits(tally, folder):
    """`plan` opens PAGES, and empties TX and CERT, before it refuses a limit; the limit comes before the round."""
    room, _ = fresh(folder, "limits")
    cases = [
        (["pages.csv", "tx.bin", "cert.bin"], b"", 1, BAD_LIMIT, b""),
        (["bad.csv", "tx.bin", "cert.bin"], b"", 1, BAD_LIMIT, b""),
        (["-", "tx.bin", "cert.bin"], TONE, 1, BAD_LIMIT, b""),
        ([".", "tx.bin", "cert.bin"], b"", 1, BAD_LIMIT, b""),
        (["none.csv", "tx.bin", "cert.bin"], b"", 3, CANNOT_OPEN, OLD),
        (["pages.csv", "none/tx.bin", "cert.bin"], b"", 3, CANNOT_OPEN, OLD),
        (["pages.csv", "tx.bin", "none/cert.bin"], b"", 3, CANNOT_OPEN, OLD),
        (["pages.csv", "tx.bin", "./tx.bin"], b"", 1, NAMED_TWICE, OLD),
        (["pages.csv", "pages.csv", "cert.bin"], b"", 1, NAMED_TWICE, OLD),
    ]
    for files, stdin, status, told, left in cases:
        for limit in ("0", "1000001", "4294967295"):
            for more in ([], ["--always"], ["--idle-last"], ["--end", "closed", "--always"]):
                put(room, OLD)
                done = run(["plan", *files, "--limit", limit, *more], room, stdin)
                holds = stand(room) == [left, left] and (room / "pages.csv").read_bytes() == TONE
                tally.check_done(f"plan {files} --limit {limit} {more}", done, status, b"", told, holds)
    done = run(["plan", "apart.csv", "tx.bin", "cert.bin", "--limit", "3"], room)
    tally.check_done("a limit that the round does not reach", done, 0, b"pages 2\nbatches 3\n")
    put(room, None)
    tally.check_done("TX and CERT are there and empty", run([*PLAN, "--limit", "0"], room), 1, b"", BAD_LIMIT, stand(room) == [b"", b""])


def try_reports(tally, folder):
    """`report` judges the page file, then the limit, then the search, and the rate last."""
    room, _ = fresh(folder, "reports")
    cases = [
        ("none.csv", "9", "0", 3, CANNOT_OPEN),
        ("bad.csv", "9", "0", 1, BAD_RECORD),
        ("bad.csv", "512", "0", 1, BAD_RECORD),
        ("bad.csv", "9", "1", 1, BAD_RECORD),
        ("pages.csv", "9", "0", 1, BAD_LIMIT),
        *(("pages.csv", "512", limit, 1, BAD_LIMIT) for limit in ("0", "1000001", "4294967295")),
        ("apart.csv", "9", "1", 1, STOPPED),
        ("apart.csv", "512", "2", 1, STOPPED),
        *(("apart.csv", rate, "3", 1, BAD_RATE) for rate in ("9", "0", "511", "1201", "4294967295")),
    ]
    for pages, rate, limit, status, told in cases:
        for more in ([], ["--frames"], ["--end", "closed"], ["--idle-last", "--frames"]):
            done = run(["report", pages, "--rate", rate, "--limit", limit, *more], room)
            tally.check_done(f"report {pages} at {rate} to {limit} {more}", done, status, b"", told)


def try_refused(tally, folder):
    """Whatever refuses the round, TX and CERT are there and empty behind it."""
    room, _ = fresh(folder, "refused")
    make_huge(room / "large.csv", TONE)
    cases = [
        (["bad.csv"], 1, BAD_RECORD),
        (["/dev/null"], 1, fault("the header must be address,kind,message")),
        (["large.csv"], 1, TOO_LARGE),
        (["/proc/self/mem"], 3, CANNOT_OPEN),
        (["apart.csv", "--limit", "2"], 1, STOPPED),
    ]
    for (pages, *more), status, told in cases:
        for content in (OLD, None):
            for verify in ([], ["--verify"]) if pages[0] != "/" else ([],):
                put(room, content)
                done = run(["plan", pages, "tx.bin", "cert.bin", *more, *verify], room)
                tally.check_done(f"refused {pages} {more} {verify} over {content}", done, status, b"", told, stand(room) == [b"", b""])
    (room / "large.csv").unlink()


def try_fronts(tally, folder):
    """Where a file of a front cannot be opened, REST and WHY stay as they were: all files are opened before one is changed."""
    room, _ = fresh(folder, "fronts")
    both = ["--rest", "rest.csv", "--why", "why.bin"]
    names = ("tx.bin", "cert.bin", "rest.csv", "why.bin")
    for files, others in (
        (["none.csv", "tx.bin", "cert.bin"], both),
        (["apart.csv", "none/tx.bin", "cert.bin"], both),
        (["apart.csv", "tx.bin", "none/cert.bin"], both),
        (["apart.csv", "tx.bin", "cert.bin"], ["--rest", "none/rest.csv", "--why", "why.bin"]),
        (["apart.csv", "tx.bin", "cert.bin"], ["--rest", "rest.csv", "--why", "none/why.bin"]),
    ):
        put(room, OLD, names)
        done = run(["plan", *files, "--at-most", "2", *others], room)
        left = [(room / name).read_bytes() for name in names]
        tally.check_done(f"a front with {files} {others}", done, 3, b"", CANNOT_OPEN, left == 4 * [OLD])


def try_input(tally, folder):
    """The file behind standard input is no place to write to."""
    room, _ = fresh(folder, "input")
    queue = (room / "apart.csv").read_bytes()
    calls = [
        ["plan", "-", "apart.csv", "cert.bin"],
        ["plan", "-", "tx.bin", "./apart.csv"],
        ["plan", "-", "tx.bin", "cert.bin", "--at-most", "2", "--rest", "apart.csv"],
        ["plan", "-", "tx.bin", "cert.bin", "--at-most", "2", "--why", "apart.csv"],
    ]
    for call in calls:
        for keep in ([], ["--keep"]):
            put(room, OLD)
            with open(room / "apart.csv", "rb") as stdin:
                done = run([*call, *keep], room, stdin)
            holds = (room / "apart.csv").read_bytes() == queue and stand(room) == [OLD, OLD]
            tally.check_done(f"the file behind standard input: {call} {keep}", done, 1, b"", NAMED_TWICE, holds)


def try_certificates(tally, folder):
    """`check` and `explain` open both files, judge PAGES first, and read no more of CERT than a certificate can have."""
    room, made = fresh(folder, "certificates")
    make_huge(room / "long.bin", made[1])
    cases = [
        ("pages.csv", "/dev/zero", 1, fault("not a certificate")),
        ("pages.csv", "pages.csv", 1, fault("not a certificate")),
        ("pages.csv", "/dev/null", 1, fault("the certificate is cut short")),
        ("pages.csv", "long.bin", 1, fault("bytes after the certificate")),
        ("pages.csv", "/proc/self/mem", 3, CANNOT_OPEN),
        ("pages.csv", ".", 3, CANNOT_OPEN),
        ("bad.csv", ".", 1, BAD_RECORD),
        ("bad.csv", "/dev/zero", 1, BAD_RECORD),
        ("bad.csv", "pages.csv", 1, BAD_RECORD),
        ("bad.csv", "none.bin", 3, CANNOT_OPEN),
        ("none.csv", "pages.csv", 3, CANNOT_OPEN),
    ]
    for pages, cert, status, told in cases:
        for command in (["check"], ["explain"], ["explain", "--json"]):
            tally.check_done(f"{command} {pages} {cert}", run([*command, pages, cert], room), status, b"", told)
    (room / "long.bin").unlink()
