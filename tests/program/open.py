"""Drives `pocsag open` over pipes as a paging centre's script does: each answer is awaited before the next
line is sent, and edits by the thousand are compared with a list that is kept here."""

import collections
import os
import random
import re

from codewords import HEADER
from sessions import Session, edited, listing
from tally import TOP, fault, room_in, run
from worked import HARD, shaped

PAGE = TOP / "docs/OPEN_ROUND.md"
EDITS = 5000
LISTED = 250  # a list is compared after so many edits
SEED = 20261122
UNKNOWN, TWICE, NO_PAGES = b"refused: unknown edit", b"refused: the same file is named twice", b"refused: there are no pages"
NO_FILE, NO_WRITE, NO_PAGE = b"refused: cannot read or open a file", b"refused: cannot write", b"refused: no such page"


def ask_all(tally, session, rows):
    for line, due in rows:
        tally.check_same(f"{line[:40]!r} is answered {due!r}", session.ask(line), due)


def check_list(tally, name, session, *records):
    tally.check_same(name, session.lines(b"list"), [HEADER.strip(), *records, b"ok %d" % len(records)])


def check_end(tally, name, session, status=0, err=b""):
    """Whether the session, whose input ends, ends so, and says no more."""
    tally.check_same(name, session.close(), (status, b"", err))


def edits_of(chance, count):
    """Random edits, among few addresses, so that many are refused."""
    kinds = (b"tone0", b"tone1", b"tone2", b"tone3", b"numeric", b"alpha", b"fax")
    messages = (b"", b"12345", b"17 U", b"7x", b"*[]-", b'"Bed 2, ""now"""')
    for _ in range(count):
        address = chance.choice([chance.randrange(400), chance.randrange(400), 2097152, 2007670, 2045056])
        draw = chance.random()
        if draw < 0.55:
            yield b"add,%d,%s,%s" % (address, chance.choice(kinds), chance.choice(messages))
        else:
            yield b"cancel,%d" % address if draw < 0.998 else b"clear"


def try_many_edits(tally, folder):
    pages, session = [], Session(folder)
    wrong, lists, words = [], [], collections.Counter()
    for number, line in enumerate(edits_of(random.Random(SEED), EDITS), 1):
        due, pages = edited(pages, line)
        found = session.ask(line)
        words[line[:3], due[:2]] += 1
        if found != due:
            wrong.append((number, line, due, found))
        if number % LISTED == 0:
            lists.append(session.lines(b"list") == [*listing(pages).splitlines(), b"ok %d" % len(pages)])
    tally.check(f"{EDITS} edits are answered as a list answers them", not wrong, wrong[:3])
    tally.check("each kind of edit was taken, and each but `clear` refused", len(words) == 5 and min(words.values()) > 3, words)
    tally.check(f"the {len(lists)} lists in between are that list, in its order", all(lists) and len(lists) >= 10, lists)
    records = listing(pages).splitlines()[1:]
    for end, told in ((b"open", b""), (b"closed", b" with a closed end"), (b"idle", b" with an idle last")):
        answer, found = session.ask(b"plan,many.bin,many.cert," + end), sent_by(folder, "many.bin")
        tally.check(f"a plan with the {end.decode()} end sends the pages of the list", found == sorted(records), found[:3])
        shown, due = shown_by(folder, "many.cert", records), b"at least " + answer[len("batches ") :] + b" batches" + told + b"\n"
        tally.check("its certificate shows its batches for the list", shown == due, (answer, shown))
    check_end(tally, "the end of the input ends it with status 0", session)


def sent_by(folder, name):
    """The records of the pages of a transmission, in the order of their bytes."""
    return sorted(run(["decode", name], folder).stdout.splitlines()[1:])


def shown_by(folder, name, records):
    """What `check` prints of a certificate for the page file of these records."""
    (folder / "shown.csv").write_bytes(HEADER + b"".join(record + b"\n" for record in records))
    return run(["check", "shown.csv", name], folder).stdout


# Lines as long as may be, and one byte longer: the end of the first tells what is answered.
LONGEST = b"add,8,numeric," + b"1" * (65536 - len(b"add,8,numeric,") - 1) + b"x"
BAD_AT_ITS_END = b"refused: bad character at %d" % (len(LONGEST) - len(b"add,8,numeric,") - 1)

# The worked example `open-round` and the words of refusals.
WORDS = [
    (b"add,8,tone0,", b"ok 1"),
    (b"add,16,tone0,", b"ok 2"),
    (b"add,8,tone0,", b"refused: the address is already there"),
    (b"cancel,8", b"ok 1"),
    (b"cancel,8", NO_PAGE),
    (b"cancel,+16", NO_PAGE),
    (b"plan,tx.bin,cert.bin", b"batches 1"),
    (b"plan,tx.bin,cert.bin,closed", b"batches 1"),
    (b"plan,tx.bin,cert.bin,idle", b"batches 1"),
    (b"plan,tx.bin,cert.bin,open", b"batches 1"),
    (b"plan,tx.bin,tx.bin", TWICE),
    (b"plan,no/such/tx.bin,cert.bin", NO_FILE),
    (b"cancel,16", b"ok 0"),
    (b"plan,tx.bin,cert.bin", NO_PAGES),
    (b"add,8,numeric," + b"1" * 4001, b"refused: the message is too long"),
    (b'add,8,alpha,"Ward 3, bed 2"', b"ok 1"),
    (b"cancel,8\r", b"ok 0"),
    (LONGEST, BAD_AT_ITS_END),
    (b"clear\r", b"ok 0"),
    (b"add,7,tone3,", b"ok 1"),
    *((word, UNKNOWN) for word in (
        b"c,7", b"can,7", b"cancels,7", b"Cancel,7", b"cancel", b"cancel,7,", b" cancel,7", b"cl", b"c", b"clears", b"Clear",
        b"clear,", b"a,9,tone0,", b"ad,9,tone0,", b"adds,9,tone0,", b"Add,9,tone0,", b"add,9,tone0", b"add", b"l", b"lists",
        b"p,tx.bin,cert.bin", b"plans,tx.bin,cert.bin", b"Plan,tx.bin,cert.bin", b"plan,tx.bin", b"plan",
        b"plan,tx.bin,cert.bin,o", b"plan,tx.bin,cert.bin,opened", b"plan,tx.bin,cert.bin,c", b"plan,tx.bin,cert.bin,Closed",
        b"plan,tx.bin,cert.bin,closed,", b"plan,tx.bin,cert.bin,", b"cancel,7\rclear", b"cancel;7", b"\xff,7",
        b"plan,tx.bin,cert.bin,Idle", b"plan,tx.bin,cert.bin,soon", b"", b"add,8,tone0", b"add,8,tone0,,", b"List", b"list,", b"list\rlist",
        b"x" * 65536, b"x" * 65537, b"list," + b"x" * 1000000, b"x" * 65536 + b"clear", b"x" * 65537 + b"add,9,tone0,",
        b"x" * 131072 + b"add,9,tone0,", b"add,8,tone0," + b" " * 65536, b"clear" + b"\r" * 65531, b"clear" + b"\r" * 65532,
        LONGEST + b"1", LONGEST + b"\r", b"1" + LONGEST[:-1],
    )),
    (b'add,8,alpha,"Fire, hall B', b"refused: the line ends inside quotes"),
    (b'evacuate ward 3"', b"refused: a quote is out of place"),
    (b'add,8,alpha,"Pump 4', b"refused: the line ends inside quotes"),
    (b'"cancel', b"refused: the line ends inside quotes"),
    (b'add,8,alpha,5" pipe', b"refused: a quote is out of place"),
    (b'add,8,alpha,"Ward" 3', b"refused: a quote is out of place"),
    (b"cancel,8", NO_PAGE),
    (b"add,15,tone3,", b"ok 2"),
    (b"clear", b"ok 0"),
]


def try_answers(tally, folder):
    session = Session(folder)
    ask_all(tally, session, WORDS)
    check_end(tally, "refusals end nothing", session)


# Devices that lose what they take, that take nothing, and paths at which nothing can be made.
DEVICES = [
    (b"plan,/dev/null,/dev/zero", NO_PAGES),
    (b"add,5,tone0,", b"ok 1"),
    (b"plan,/dev/null,/dev/zero", b"batches 1"),
    (b"plan,/dev/null,/dev/zero,open", b"batches 1"),
    (b"add,13,tone0,", b"ok 2"),
    (b"add,21,tone0,", b"ok 3"),
    (b"plan,/dev/null,/dev/zero,closed", b"batches 2"),
    (b"plan,/dev/null,/dev/null", TWICE),
    (b"plan,/dev/null,/dev/../dev/null", TWICE),
    (b"plan,/dev/null/tx.bin,/dev/zero", NO_FILE),
    (b"plan,/dev/null,/dev", NO_FILE),
    (b"plan,/dev/full,/dev/zero", NO_WRITE),
    (b"plan,/dev/null,/dev/full", NO_WRITE),
    # An empty path names no file, and no page file was named.
    (b"plan,,/dev/null", NO_FILE),
    (b"plan,/dev/null,", NO_FILE),
    (b"plan,,", TWICE),
]


def try_devices(tally, folder):
    session = Session(folder)
    ask_all(tally, session, DEVICES)
    check_list(tally, "no plan changes the round", session, b"5,tone0,", b"13,tone0,", b"21,tone0,")
    check_end(tally, "no device ends it", session)


HARD_PAGES = [record.strip() for record in shaped(HARD[0][1])]  # nine batches are the fewest
STOPPED = b"refused: search limit reached: at least 8 batches, 9 would do"


def try_hard_plans(tally, folder):
    """A round that the search gives up at is planned with `--always`, whether its pages come by lines or from PAGES, and so is a front."""
    (folder / "hard.csv").write_bytes(HEADER + b"\n".join(HARD_PAGES) + b"\n")
    for words in ((), ("--always",), ("hard.csv",), ("hard.csv", "--always"), ("--always", "hard.csv")):
        session = Session(folder, *words)
        if "hard.csv" not in words:
            tally.check("its pages are added", [session.ask(b"add," + page) for page in HARD_PAGES][-1] == b"ok 8")
        for end in (b"", b",open", b",closed"):
            found = session.ask(b"plan,hard.bin,hard.cert" + end)
            tally.check(f"a hard round with {words}{end.decode()}", found == (b"batches 9" if "--always" in words else STOPPED), found)
        found = session.ask(b"plan,h.bin,h.cert,open,8")
        tally.check(f"a hard front with {words}", found == (b"batches 8, sent 7" if "--always" in words else STOPPED), found)
        check_list(tally, f"the pages that stay with {words}", session, *(HARD_PAGES[-1:] if "--always" in words else HARD_PAGES))
        session.close()


# Three pages: the first alone and the first two take two batches, and the last alone takes one.
LONG = b"1" * 75
SLOTS = [b"3,numeric," + LONG, b"8,tone0,", b"0,numeric," + LONG]

# Lines that ask for no front, since the number of batches is none.
NO_BATCHES = [b"0", b"", b"02", b"+2", b"-2", b"2.", b"2x", b" 2", b"4294967296", b"two", b"2,"]


def try_slots_of_a_day(tally, folder):
    """A front is sent, and its pages are taken out; a refused one takes nothing out."""
    session = Session(folder)
    for page in SLOTS:
        session.ask(b"add," + page)
    ask_all(tally, session, ((b"plan,f.bin,f.cert,open," + batches, UNKNOWN) for batches in NO_BATCHES))
    ask_all(tally, session, [
        (b"plan,f.bin,f.cert,open,1", b"refused: page 1 needs 2 batches"), (b"plan,f.bin,f.cert,soon,2", UNKNOWN),
        (b"plan,f.bin,f.cert,,2", UNKNOWN), (b"plan,f.bin,f.bin,open,2", TWICE), (b"plan,no/such/f.bin,f.cert,open,2", NO_FILE),
        (b"plan,/dev/full,/dev/zero,open,2", NO_WRITE), (b"plan,/dev/null,/dev/full,open,2", NO_WRITE), (b"sent,4", NO_PAGE),
        (b"sent,0", NO_PAGE), (b"sent,01", NO_PAGE), (b"sent,-1", NO_PAGE), (b"sent,4294967296", NO_PAGE), (b"sent", UNKNOWN),
        (b"sent,1,", UNKNOWN), (b"Sent,1", UNKNOWN),
    ])  # fmt: skip
    check_list(tally, "what is refused takes nothing out", session, *SLOTS)
    tally.check("two batches carry two pages", session.ask(b"plan,f.bin,f.cert,open,2") == b"batches 2, sent 2")
    sent, shown = sent_by(folder, "f.bin"), shown_by(folder, "f.cert", SLOTS[:2])
    tally.check("they are sent", sent == sorted(SLOTS[:2]), sent)
    tally.check("the certificate is for them", shown == b"at least 2 batches\n", shown)
    check_list(tally, "they are out of the round", session, SLOTS[2])
    tally.check("a page comes behind the others", session.ask(b"add,16,tone0,") == b"ok 2")
    tally.check("the first page is told as sent", session.ask(b"sent,1") == b"ok 1")
    check_list(tally, "the other stays", session, b"16,tone0,")
    tally.check_same("all pages are sent", session.ask(b"plan,f.bin,f.cert,idle,4294967295"), b"batches 1, sent 1")
    tally.check_same("no page is left", session.ask(b"plan,f.bin,f.cert,open,1"), NO_PAGES)
    check_end(tally, "slots end nothing", session)


def try_pages(tally, folder):
    path = folder / "pages.csv"
    path.write_bytes(HEADER + b"8,tone0,\n16,numeric,12\n")
    session = Session(folder, "pages.csv")
    tally.check("the pages of PAGES are open", session.ask(b"cancel,16") == b"ok 1")
    for spelling in (b"pages.csv", b"./pages.csv"):
        for line in (b"plan,%s,cert.bin", b"plan,tx.bin,%s"):
            tally.check_same("PAGES is never emptied", session.ask(line % spelling), TWICE)
    session.close()
    tally.check("PAGES is as it was", path.read_bytes() == HEADER + b"8,tone0,\n16,numeric,12\n")
    path.write_bytes(HEADER + b"8,tone0,\n8,tone0,\n")
    check_end(tally, "a refused page file opens no round", Session(folder, "pages.csv"), 1, fault("record 2: the address is already there"))


def try_last_line(tally, folder):
    done = run(["open"], folder, b"add,8,tone0,\nlist")
    tally.check_done("a last line without its line feed is an edit", done, 0, b"ok 1\n" + HEADER + b"8,tone0,\nok 1\n")
    for line, due in ((LONGEST, BAD_AT_ITS_END), (LONGEST + b"1", UNKNOWN)):
        tally.check_done(f"so is one of {len(line)} bytes, answered {due!r}", run(["open"], folder, line), 0, due + b"\n")


def try_worked_session(tally, folder):
    """The session of the page is answered as the page says. Its commands for a shell are run with those of the other papers."""
    text = PAGE.read_text().split("## A day at a small centre")[1]
    rows = [re.match(r"\| (?:`([^`]*)`)? ?\| `([^`]*)` \|", line) for line in text.split("\n")]
    rows = [(found[1], found[2].encode()) for found in rows if found]
    session = Session(folder)
    found = [session.ask(line.encode()) if line else session.line() for line, _ in rows]
    tally.check("the page shows a session", len(rows) > 10, rows)
    tally.check("its lines are answered as it says", found == [due for _, due in rows], (found, rows))
    check_end(tally, "it has no more lines", session)


# Page files, options, the fault and the line behind it.
DEMANDS = [
    (b'8,tone0,\n9,alpha,"Ward 3\n', ["--strict"], "record 2: the quote in line 3 is not closed", "page file pages.csv"),
    (b'8,tone0,\n9,alpha,"Ward 3\n', ["--expect", "3"], "pages 2, where 3 were expected", "page file pages.csv"),
    (b'8,tone0,\n9,alpha,"Ward 3\n', ["--expect", "3", "--strict"], "record 2: the quote in line 3 is not closed", "page file pages.csv"),
    (b"8,tone0,\n9,tone0,\n", ["--expect", "0"], "pages 2, where 0 were expected", "page file pages.csv"),
    (b"8,tone0,\n9,tone0,\n", ["--expect", "4294967295"], "pages 2, where 4294967295 were expected", "page file pages.csv"),
    (b"8,tone0,\n8,tone0,\n", ["--expect", "2", "--strict"], "record 2: the address is already there", "page file pages.csv: line 3: 8,tone0,"),
    (b"", ["--expect", "0"], "there are no pages", "page file pages.csv"),
    (b"8,tone9,\n", [], "record 1: unknown kind", "page file pages.csv: line 2: 8,tone9,"),
]


def try_demands(tally, folder):
    """`--strict` and `--expect` judge PAGES before a line is read, with and without a journal, and change no round that meets them."""
    room = room_in(folder, "demands")
    for journal in ([], ["--journal", "round.journal"]):
        for text, words, why, note in DEMANDS:
            (room / "pages.csv").write_bytes(HEADER + text)
            for more in ([], ["--verbose"]):
                done = run(["open", "pages.csv", *words, *journal, *more], room, b"list\n")
                told = fault(why) + (fault(note) if more else b"")
                tally.check_done(f"{words} {journal} {more} {text}", done, 1, b"", told, os.listdir(room) == ["pages.csv"])
        (room / "pages.csv").write_bytes(HEADER + b'8,tone0,\n9,alpha,"Ward 3, bed 2"\n')
        for more in ([], ["--verbose"]):
            done = run(["open", "pages.csv", "--strict", "--expect", "2", *journal, *more], room, b"list\ncancel,8\n")
            told = fault("0 edits read, 2 pages") if journal else b""
            due = (room / "pages.csv").read_bytes() + b"ok 2\nok 1\n"
            tally.check_done(f"a round that meets what is asked {journal} {more}", done, 0, due, told)
            (room / "round.journal").unlink(missing_ok=True)
    for words in (["--strict"], ["--expect", "2"], ["--journal", "j", "--strict"], ["--journal", "j", "--read-only", "--expect", "2"]):
        tally.check_usage(f"no PAGES {words}", run(["open", *words], room), also=os.listdir(room) == ["pages.csv"])
