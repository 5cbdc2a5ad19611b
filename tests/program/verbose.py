"""`--verbose`: what is told without it stays as it is, and at most one line is added, which names the file and why the
system refused it, or the line and the text of the record that is refused."""

import os

from codewords import APART, HEADER, IDLE, PREAMBLE
from tally import ANY, fault as told_of, run, sampled
from worked import LOOP_APART

LATE = HEADER + LOOP_APART
PLAN = ["plan", "p.csv", "tx.bin", "cert.bin"]

NO_HEADER, TWICE = "the header must be address,kind,message", "the same file is named twice"
# Page files that are refused: what stands in them, the fault, and the line and the text of the record behind it.
PAGE_FILES = [
    (b"", NO_HEADER, None),
    (bytes(4096), NO_HEADER, "line 1: " + 80 * "?" + ": UTF-16 or UTF-32, not ASCII"),
    (b"address;kind;message\n8;tone0;\n", NO_HEADER, "line 1: address;kind;message: semicolons in place of commas"),
    (b"\n\naddress\tkind\tmessage\n8\ttone0\t\n", NO_HEADER, "line 3: address?kind?message: tabs in place of commas"),
    (b"\xef\xbb\xbfAddress,Kind,Message\n8,tone0,\n", NO_HEADER, "line 1: ???Address,Kind,Message: capitals"),
    ("\ufeffaddress,kind".encode("utf-16-le"), NO_HEADER, "line 1: ??a?d?d?r?e?s?s?,?k?i?n?d?: UTF-16, not ASCII"),
    ("\ufeffaddress".encode("utf-16-be"), NO_HEADER, "line 1: ???a?d?d?r?e?s?s: UTF-16, not ASCII"),
    ("address".encode("utf-16-le"), NO_HEADER, "line 1: a?d?d?r?e?s?s?: UTF-16 or UTF-32, not ASCII"),
    ("\ufeffaddress".encode("utf-32-be"), NO_HEADER, "line 1: ???????a???d???d???r???e???s???s: UTF-16 or UTF-32, not ASCII"),
    (b"\x84\x31\x95\x33" + HEADER, NO_HEADER, "line 1: ?1?3address,kind,message: a byte order mark of another code, not of UTF-8"),
    (b"8,tone0,\n", NO_HEADER, "line 1: 8,tone0,: a page, and no header before it"),
    (b"address,kind\n8,tone0,\n", NO_HEADER, "line 1: address,kind"),
    (HEADER, "there are no pages", None),
    (HEADER + b"\n8,tone0\n", "record 1: three fields are wanted", "line 3: 8,tone0"),
    (HEADER + b"8\n", "record 1: three fields are wanted", "line 2: 8"),
    (HEADER + b"8,tone0,\n9,alpha,Pump 4, hall B\n", "record 2: three fields are wanted", "line 3: 9,alpha,Pump 4, hall B"),
    # Many commas: 80 bytes of the record are shown; of a long file a front is read.
    (HEADER + b"8,tone0,\n\n9,alpha," + b"," * 200000 + b"\n16,tone0,\n", "record 2: three fields are wanted", "line 4: 9,alpha," + "," * 72),
    (HEADER + b"8,tone0,\n\n9,alpha," + b"," * 5_000_000 + b"\n16,tone0,\n", "record 2: three fields are wanted", "line 4: 9,alpha," + "," * 72),
    (HEADER + b'8,alpha,"' + b"x" * 5_000_000 + b'"\n9,tone0\n', "record 1: the message is too long", 'line 2: 8,alpha,"' + "x" * 71),
    (HEADER + b'8,alpha,"Pump 4,\n' + b"," * 200000 + b'",hall\r\n', "record 1: three fields are wanted", 'line 2: 8,alpha,"Pump 4,'),
    (HEADER + b'8,alpha,Pump 4,"hall B\n' + b"9,tone0,,,\n" * 50000, "record 1: three fields are wanted", 'line 2: 8,alpha,Pump 4,"hall B'),
    (HEADER + b"12x,tone0,\n", "record 1: bad address", "line 2: 12x,tone0,"),
    (HEADER + b"8,tone0,\n2045063,tone0,\n", "record 2: reserved address", "line 3: 2045063,tone0,"),
    (HEADER.replace(b"\n", b"\r\n") + b"8,tone0,\r\n\r\n7,Tone0,\r\n", "record 2: unknown kind", "line 4: 7,Tone0,"),
    (b"\xef\xbb\xbf" + HEADER + b'\n8,alpha,"one\ntwo\n"\n9,tone0\n10', "record 2: three fields are wanted", "line 6: 9,tone0"),
    # A carriage return ends a record and begins no line.
    (HEADER.replace(b"\n", b"\r") + b"8,tone0,\r\r9,tone0\r10", "record 2: three fields are wanted", "line 1: 9,tone0"),
    (HEADER + b"7,tone1,x\n", "record 1: a tone page has no message", "line 2: 7,tone1,x"),
    (HEADER + b"7,alpha,\n", "record 1: the message is empty", "line 2: 7,alpha,"),
    (HEADER + b"7,numeric,12a\n", "record 1: bad character at 2", "line 2: 7,numeric,12a: byte 0x61"),
    (HEADER + b"7,numeric,u\n", "record 1: bad character at 0", "line 2: 7,numeric,u: byte 0x75"),
    (HEADER + b"7,alpha," + b"a" * 4001 + b"\x00\n", "record 1: bad character at 4001", "line 2: 7,alpha," + "a" * 72 + ": byte 0x00"),
    # No byte of the record moves the cursor of a terminal.
    (HEADER + b"7,alpha,a\xc3\xa4\x1b\n", "record 1: bad character at 1", "line 2: 7,alpha,a???: byte 0xC3, not ASCII"),
    (HEADER + b'7,alpha,"a\nb""\x00"\n', "record 1: bad character at 4", 'line 2: 7,alpha,"a: byte 0x00'),
    (HEADER + b"7,alpha," + b"a" * 4001 + b"\n", "record 1: the message is too long", "line 2: 7,alpha," + "a" * 72),
    (HEADER + b"8,tone0,\n9,tone0,\n0000008,tone1,\n", "record 3: the address is already there", "line 4: 0000008,tone1,"),
    (HEADER + b'8,numeric,"1\n2\n3\n\n', "record 1: bad character at 1", 'line 2: 8,numeric,"1: byte 0x0A'),
    (HEADER + b"".join(b"%d,tone0,\n" % k for k in range(20001)), "record 20001: too many pages", "line 20002: 20000,tone0,"),
]

# A batch of idles whose synchronisation codeword has a wrong bit, and whose last word has two or three.
TWICE_DAMAGED, BEYOND_REPAIR = (PREAMBLE + bytes.fromhex("7CD215D9") + 15 * IDLE + bytes.fromhex(last) for last in ("7A89C194", "7A89C190"))

# Files, words, standard input, status, what is told on standard output, the fault, and the notes.
ANYWHERE = "transmission p.csv: for bits off the air that begin anywhere, give --capture"
COMMA = "ADDRESS, KIND and MESSAGE are wanted, and quotes around a message that holds a comma"
EDITS = "the edits are add, cancel, sent and clear"
REFUSED_EDITS = (b"add,8,tone0,\nadd,5,alpha,Ward 3, bed 2\nadd,5,tone0\nadd,2097152,tone0,\nadd,8,tone1,\ncancel,9\nsent,2\n"
                 b'add,5,alpha,"a\nadd,5,alpha,a"b\nclear\nclear\n')
NO_FILE, IS_FOLDER, NO_SPACE = (f"{os.strerror(code)} (os error {code})" for code in (2, 21, 28))
# Words that name no file, and how the file is named.
MISSING = [
    ("plan none.csv tx.bin cert.bin", "page file none.csv"), ("plan p.csv none/tx.bin cert.bin", "transmission none/tx.bin"),
    ("plan p.csv tx.bin none/c", "certificate none/c"), ("plan p.csv none/tx.bin cert.bin --keep", "transmission none/tx.bin"),
    ("report none.csv --rate 512", "page file none.csv"), ("check p.csv none", "certificate none"),
    ("explain p.csv none", "certificate none"), ("decode none", "transmission none"), ("decode none --repair", "transmission none"),
    ("show none --svg", "transmission none"), ("wav none", "transmission none"), ("open none.csv", "page file none.csv"),
]  # fmt: skip
# Words that name a file twice, and how that is told.
ONE_FILE = [
    ("plan p.csv p.csv cert.bin", "page file p.csv and transmission p.csv are one file"),
    ("plan p.csv t ././t", "transmission t and certificate ././t are one file"),
    ("plan p.csv t ./p.csv --keep", "page file p.csv and certificate ./p.csv are one file"),
    ("plan p.csv t c --at-most 2 --rest r --why ./p.csv", "page file p.csv and certificate of one page more ./p.csv are one file"),
    ("plan p.csv t c --at-most 2 --rest r --oversized r", "page file of the rest r and page file of the oversized r are one file"),
    ("plan p.csv - -", "transmission - and certificate - are one file"), ("open -", "page file -: standard input holds the lines"),
    ("check - -", "page file - and certificate - are one file"), ("explain - -", "page file - and certificate - are one file"),
]  # fmt: skip
CASES = [
    (APART, ["plan", "p.csv", "/dev/full", "cert.bin"], b"", 3, "", "cannot write", [f"transmission /dev/full: {NO_SPACE}"]),
    (APART, ["plan", "p.csv", "tx.bin", "/dev/full"], b"", 3, "", "cannot write", [f"certificate /dev/full: {NO_SPACE}"]),
    (APART, ["plan", "p.csv", "a\nb/\x1b[2J", "cert.bin"], b"", 3, "", "cannot read or open a file", [f"transmission a?b/?[2J: {NO_FILE}"]),
    (APART, ["plan", "-", "-", "cert.bin"], b"", 1, "", NO_HEADER, ["page file -"]),
    (APART, ["plan", "-", "tx.bin", "-"], b"", 1, "", NO_HEADER, ["page file -"]),
    (APART, [*PLAN, "--limit", "1"], b"", 1, "", "search limit reached: at least 2 batches, 3 would do", ["page file p.csv: --always plans every round"]),
    (APART, [*PLAN, "--limit", "0"], b"", 1, "", "the limit must be 1 to 1000000", []),
    (APART, [*PLAN, "--expect", "3"], b"", 1, "", "pages 2, where 3 were expected", ["page file p.csv"]),
    (HEADER + b'8,alpha,"x\n', [*PLAN, "--strict"], b"", 1, "", "record 1: the quote in line 2 is not closed", ["page file p.csv"]),
    (b"\n" + LATE, [*PLAN, "--at-most", "1"], b"", 1, "", "page 1 needs 2 batches", ["page file p.csv: line 3: address 3 needs 2 batches, allowed are 1"]),
    (LATE, [*PLAN, "--airtime", "1000", "--rate", "1200", "--rest", "r", "--later", "--oversized", "o"], b"", 1, "", "page 1 needs 2 batches",
     ["page file p.csv: line 2: address 3 needs 2 batches, allowed are 1 in 1000 ms at 1200 bit/s"]),
    (APART, ["plan", "-", "tx.bin", "cert.bin", "--at-most", "0"], APART, 1, "", "page 1 needs 1 batches",
     ["page file -: line 2: address 0 needs 1 batch, allowed are 0"]),
    (HEADER + b"7,alpha,\n", [*PLAN, "--expect", "3"], b"", 1, "", "record 1: the message is empty", ["page file p.csv: line 2: 7,alpha,"]),
    (HEADER + b'8,tone0,\n\n9,alpha,"Pump 4\n16,tone0,\n', [*PLAN, "--verify"], b"", 0, "pages 2\nbatches 1\nverified\n", None,
     ["page file p.csv: record 2: the quote in line 4 is not closed"]),
    (APART, [*PLAN], b"", 0, "pages 2\nbatches 3\n", None, []),
    (APART, [], APART, 0, "pages 2\nbatches 3\n", None, []),
    (APART, [], HEADER + b"8,tone9,\n", 1, "", "record 1: unknown kind", ["page file -: line 2: 8,tone9,"]),
    (APART, ["plan", "-", "tx.bin", "cert.bin"], HEADER + b"8,tone9,\n", 1, "", "record 1: unknown kind", ["page file -: line 2: 8,tone9,"]),
    (APART, ["report", "p.csv", "--rate", "9"], b"", 1, "", "the rate must be 512, 1200 or 2400", []),
    (APART, ["check", "p.csv", "other.csv"], b"", 1, "", "not a certificate", ["certificate other.csv"]),
    (APART, ["explain", "p.csv", "other.csv"], b"", 1, "", "not a certificate", ["certificate other.csv"]),
    (APART, ["check", "p.csv", "p.csv"], b"", 1, "", "not a certificate", ["page file p.csv and certificate p.csv are one file"]),
    (APART, ["check", "p.csv", "other.cert"], b"", 1, "not shown\n", None, []),
    (HEADER + b"8,tone9,\n", ["check", "p.csv", "other.cert"], b"", 1, "", "record 1: unknown kind", ["page file p.csv: line 2: 8,tone9,"]),
    (HEADER + b"8,tone9,\n", ["explain", "p.csv", "other.cert"], b"", 1, "", "record 1: unknown kind", ["page file p.csv: line 2: 8,tone9,"]),
    (APART, ["decode", "p.csv"], b"", 1, "", "the preamble is too short", ["transmission p.csv"]),
    (APART, ["decode", "-", "--repair"], TWICE_DAMAGED, 0, HEADER.decode(), None, ["transmission -: corrected bits 3, words 2"]),
    (APART, ["show", "-", "--repair", "--list"], TWICE_DAMAGED, 0, "batch,frame,slot,codewords,address,kind,message\n", None,
     ["transmission -: corrected bits 3, words 2"]),
    (APART, ["show", "-", "--repair"], BEYOND_REPAIR, 1, "", "codeword 15: not a codeword", ["transmission -"]),
    (APART, ["decode", "p.csv", "--repair"], b"", 1, "", "the preamble is too short", [ANYWHERE]),
    (APART, ["show", "p.csv", "--repair"], b"", 1, "", "the preamble is too short", ["transmission p.csv"]),
    (APART, ["wav", "none", "--rate", "9"], b"", 1, "", "the rate must be 512, 1200 or 2400", []),
    (APART, ["wav", "p.csv"], b"", 1, "", "the preamble is too short", ["transmission p.csv"]),
    (APART, ["hear", "2097152", "p.csv"], b"", 1, "", "bad address", []),
    (APART, ["hear", "8", "p.csv"], b"", 1, "", "the preamble is too short", [ANYWHERE]),
    (APART, ["open", "p.csv", "--keep"], b"plan,./p.csv,c\nplan,t,./p.csv\nplan,t,t\nplan,-,c\nplan,/dev/null,c\n", 0,
     4 * f"refused: {TWICE}\n" + "refused: cannot read or open a file\n", None,
     ["transmission ./p.csv", "certificate ./p.csv", "transmission t and certificate t are one file", "-: standard output takes the answers",
      "transmission /dev/null: no regular file"]),
    (APART, ["open"], b"plan\nplan,t\nplan,t,\xff\nplan,t,c,Open\nplan,t,c,,1\nplan,t,c,open,01\nplan,t,c,idle,4294967296\nplan,t,c,open,1,\nplam,t,c\n", 0,
     9 * "refused: unknown edit\n", None,
     2 * ["plan: TX and CERT are wanted"] + ["plan: TX and CERT must be UTF-8"] + 2 * ["plan: END must be open, closed or idle"]
     + 2 * ["plan: B must be a number from 1 to 4294967295, without a sign or leading zeros"] + ["plan: nothing follows TX, CERT, END and B"]
     + [f"plam,t,c: {EDITS}"]),
    (APART, ["open"], REFUSED_EDITS, 0, "ok 1\nrefused: unknown edit\nrefused: unknown edit\nrefused: bad address\nrefused: the address is already there\n"
     "refused: no such page\nrefused: no such page\nrefused: the line ends inside quotes\nrefused: a quote is out of place\nok 0\nok 0\n", None,
     [f"add,5,alpha,Ward 3, bed 2: {COMMA}", f"add,5,tone0: {COMMA}", "add,2097152,tone0,", "add,8,tone1,", "cancel,9", "sent,2", 'add,5,alpha,"a', 'add,5,alpha,a"b']),
    (APART, ["open"], b"add,8,tone0,\nplan,none/tx.bin,cert.bin\nplan,tx.bin,none/c\nadd,9,tone0,\nplan,/dev/full,cert.bin\n", 0,
     "ok 1\nrefused: cannot read or open a file\nrefused: cannot read or open a file\nok 2\nrefused: cannot write\n", None,
     [f"transmission none/tx.bin: {NO_FILE}", f"certificate none/c: {NO_FILE}", f"transmission /dev/full: {NO_SPACE}"]),
]
CASES += [(APART, words.split(), b"", 3, "", "cannot read or open a file", [f"{name}: {NO_FILE}"]) for words, name in MISSING]
CASES += [(APART, words.split(), b"", 3, "", "cannot read or open a file", [f"page file .: {IS_FOLDER}"]) for words in (
    "plan . tx.bin cert.bin", "check . other.cert", "report . --rate 512", "open .", "explain . other.cert",
)]  # fmt: skip
CASES += [(APART, words.split(), b"", 1, "", TWICE, [told]) for words, told in ONE_FILE]


def check_case(tally, folder, case, left=None):
    """The same status, output and first line with `--verbose` as without it, and behind that line the notes. What TX and CERT hold
    then is told where it is `left`."""
    file, words, stdin, status, out, fault, notes = case
    first = told_of(fault) if fault else b""
    for more, told in (([], first), (["--verbose"], first + b"".join(map(told_of, notes)))):
        for name in PLAN[2:]:
            (folder / name).unlink(missing_ok=True)
        (folder / "p.csv").write_bytes(file)
        done = run([*words, *more], folder, stdin)
        holds = left is None or {(folder / name).read_bytes() for name in PLAN[2:]} == {left}
        tally.check_done(f"verbose {words} {file[21:50]} {more}", done, status, out.encode(), told, holds)


def try_verbose(tally, folder):
    # A certificate for another page file: five batches.
    (folder / "other.csv").write_bytes(HEADER + b"".join(b"%d,tone0,\n" % (8 * k) for k in range(9)))
    run(["plan", "other.csv", "other.bin", "other.cert"], folder)
    for file, fault, record in sampled(PAGE_FILES):
        named, unnamed = ([f"page file {name}: {record}" if record else f"page file {name}"] for name in ("p.csv", "-"))
        for words in (PLAN, [*PLAN, "--always"]):
            check_case(tally, folder, (file, words, b"", 1, "", fault, named), b"")
        for words in ([], ["report", "-", "--rate", "512", "--always"]):
            check_case(tally, folder, (APART, words, file, 1, "", fault, unnamed))
    for case in sampled(CASES):
        check_case(tally, folder, case)
    (folder / "p.csv").write_bytes(APART)
    link = folder / "link"
    link.symlink_to("tx.bin")
    for words, note in ((["link", "cert.bin"], "transmission link"), (["tx.bin", "/dev/null"], "certificate /dev/null")):
        plain, more = (run(["plan", "p.csv", *words, "--keep", *it], folder) for it in ([], ["--verbose"]))
        tally.check_done(f"--keep names {note}", more, 2, ANY, plain.stderr + told_of(f"{note}: no regular file"), plain.returncode == 2)
    link.unlink()
    behind = run(["plan", "none.csv", "t", "c", "--verbose"], folder)
    tally.check_done("--verbose before the command", run(["--verbose", "plan", "none.csv", "t", "c"], folder), 3, ANY, behind.stderr)
