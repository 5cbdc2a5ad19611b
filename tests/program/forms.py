"""`--json`, `--text` and `--repair` of `decode`, `hear` and `show` with every other option that they can stand beside, most of it
on transmissions that this script encodes by itself: Python's `json` and `jq` read what is written, and each line is what Python
would write."""

import itertools
import json
import os
import random
import shutil
import subprocess
import tty

import codewords
from codewords import IDLE, SYNC, flipped, items_of, kind_and_message, random_file, sent
from tally import ANY, PROGRAM, call, fault, run, said, sampled

HEADER = codewords.HEADER.decode()
FRONT, WORD = 72, 4  # bytes of the preamble and of a codeword
VIEWS = ([], ["--rows", "1"], ["--rows", "2-"], ["--svg"], ["--svg", "--rows", "1-2"], ["--list"])
# The words for functions, in any order and number, and the functions that they name.
TEXTS = {None: (), "0": (0,), "1": (1,), "2": (2,), "0,1": (0, 1), "2,0": (0, 2), "1,1,1": (1,), "2,1,0": (0, 1, 2)}
REFUSED = ("", "3", "0,", ",1", "0,,1", "0 1", "0,4", "a", "+1", "00")
BAD_TEXT = b"""\
error: invalid value for '--text LIST': the functions are 0, 1 and 2, with commas
between them, as in 0,1,2 or 1

"""


def random_pages(source):
    """Pages of all functions: without a message, of texts, of numbers, and of any items."""
    pages = []
    for _ in range(source.randint(1, 25)):
        items = source.choice([
            [],
            items_of([source.randint(1, 127) for _ in range(source.randint(1, 40))], 7, 0),
            items_of([source.randint(0, 15) for _ in range(source.randint(1, 30))], 4, 12),
            [source.getrandbits(20) for _ in range(source.randint(1, 8))],
        ])
        pages.append((source.choice([11, 24, source.randrange(2000000)]), source.randrange(4), items))
    return pages


def field(text):
    return '"' + text.replace('"', '""') + '"' if any(c in text for c in ',"\r\n') else text


def due_of(pages, texts, is_json):
    """The text of the pages, by Python's `json` or as CSV, and the objects."""
    objects = []
    for address, function, items in pages:
        kind, message = kind_and_message(function, items, texts)
        objects.append({"address": address, "function": function, "kind": kind, "message": message})
    if is_json:
        return "".join(json.dumps(it, ensure_ascii=False, separators=(",", ":")) + "\n" for it in objects), objects
    return HEADER + "".join(f"{it['address']},{field(it['kind'])},{field(it['message'])}\n" for it in objects), objects


def damaged(sent, source):
    """The bytes with up to two wrong bits in each word, and how many words and bits are wrong."""
    out, words, bits = [sent[:FRONT]], 0, 0
    for place in range(FRONT, len(sent), WORD):
        wrong = source.sample(range(32), source.choice([0, 0, 0, 1, 2]))
        out.append(flipped(sent[place : place + WORD], *wrong))
        words, bits = words + bool(wrong), bits + len(wrong)
    return b"".join(out), words, bits


def check_pages(tally, folder, source, pages, reads):
    tx = sent(pages)
    rx, words, bits = damaged(tx, source)
    (folder / "tx.bin").write_bytes(tx)
    (folder / "rx.bin").write_bytes(rx)
    heard = [page for page in pages if page[0] == 11]
    count = f"pocsag: transmission rx.bin: corrected bits {bits}, words {words}\n"
    for (word, texts), is_json in sampled(itertools.product(TEXTS.items(), (False, True)), 5):
        asked = (["--text", word] if word else []) + (["--json"] if is_json else [])
        due, objects = due_of(pages, texts, is_json)
        for given, stdin, told in (
            (["decode", "tx.bin", *asked], b"", ""),
            (["decode", *asked, "-"], tx, ""),
            (["decode", "rx.bin", "--repair", *asked], b"", ""),
            (["decode", "--verbose", *asked, "rx.bin", "--repair"], b"", count),
            (["decode", "tx.bin", "--verbose", *asked], b"", ""),
        ):
            done = run(given, folder, stdin)
            tally.check_done(f"{given} of {len(pages)} pages", done, 0, due.encode(), told.encode())
        if is_json:
            tally.check(f"json reads {asked}", [json.loads(line) for line in done.stdout.decode().splitlines()] == objects)
            if reads:
                read = call("jq", "-c", "[.address,.function,.kind,.message]", input=done.stdout)
                tally.check(f"jq reads {asked}", [json.loads(line) for line in read.stdout.splitlines()] == [[*it.values()] for it in objects], read)
        due, _ = due_of(heard, texts, is_json)
        for name, more in (("tx.bin", []), ("rx.bin", []), ("rx.bin", ["--verbose"])):
            tally.check_done(f"hear {asked} {more}", run(["hear", "11", name, *asked, *more], folder), 0, due.encode())


def try_forms(tally, folder):
    source, reads = random.Random(8259), shutil.which("jq")
    if not reads:
        print("left out: lines of JSON that jq reads, since there is no jq")
    every = items_of(range(1, 128), 7, 0)
    for pages in sampled(([(11, function, every) for function in range(4)], [(11, function, [0, 0]) for function in range(4)], [])):
        check_pages(tally, folder, source, pages or [(12, 0, [])], reads)
    for _ in sampled(range(6)):
        check_pages(tally, folder, source, random_pages(source), reads)


def try_long(tally, folder):
    """What is longer than is kept in memory: the same pages many times."""
    tx = sent(random_pages(random.Random(4)) + [(0, 3, items_of(b'a "b" \\ \x1f', 7, 0))])
    times = 4_200_000 // (len(tx) - 72) + 1
    (folder / "once.bin").write_bytes(tx)
    (folder / "long.bin").write_bytes(tx[:72] + times * tx[72:])
    for words in (["--json"], ["--text", "0,1,2"], ["--json", "--text", "1"]):
        once, done = (run(["decode", name, *words], folder) for name in ("once.bin", "long.bin"))
        head = b"" if "--json" in words else HEADER.encode()
        tally.check_done(f"decode {words} of a long one", done, 0, head + times * once.stdout[len(head) :], ANY)
        tally.check_full(f"decode {words} on a full disk", ["decode", "long.bin", *words], folder)


def at_terminal(words, folder):
    """The status of a command, and what it prints on a terminal, which hands each byte on as it is."""
    there, here = os.openpty()
    tty.setraw(here)
    process = subprocess.Popen([PROGRAM, *words], cwd=folder, stdin=subprocess.DEVNULL, stdout=here)
    os.close(here)
    out = b""
    try:
        while piece := os.read(there, 1 << 16):
            out += piece
    except OSError:  # the program has ended
        pass
    os.close(there)
    return process.wait(), out


def try_terminal(tally, folder):
    """On a terminal each control character of a text but the line feed is a question mark: of what is kept, and of what is written as it
    is read. Elsewhere it is itself."""
    once = sent([(11, 3, items_of(bytes(range(1, 128)) * 1_000, 7, 0))])
    plain = bytes(ord("?") if place < 32 and place != 10 or place == 127 else place for place in range(256))
    for count in (1, 24):
        (folder / "tx.bin").write_bytes(once[:72] + count * once[72:])
        for words in (["decode"], ["decode", "--json"], ["decode", "--capture"], ["hear", "11"], ["hear", "11", "--capture"], ["show", "--list"]):
            elsewhere, shown = run([*words, "tx.bin"], folder), at_terminal([*words, "tx.bin"], folder)
            holds = elsewhere.returncode == 0 and (b"\x1b" in elsewhere.stdout) == ("--json" not in words)
            tally.check(f"{words} of {count} pages at a terminal", holds and shown == (0, elsewhere.stdout.translate(plain)), (shown[0], shown[1][:80]))


def try_words(tally, folder):
    """Words that are refused, and bytes that are: nothing is listed."""
    (folder / "tx.bin").write_bytes(sent([(11, 1, [5])]))
    (folder / "short.bin").write_bytes(codewords.PREAMBLE[1:] + SYNC + 16 * IDLE)
    for command in (["decode"], ["hear", "11"]):
        for word in REFUSED:
            for more in ([], ["--json"]):
                tally.check_usage(f"{command} --text '{word}'", run([*command, "tx.bin", "--text", word, *more], folder), BAD_TEXT)
        for option in (["--json"], ["--text", "0"]):
            for more in ([], ["--repair"])[: 1 + (command == ["decode"])]:
                words = [*command, "short.bin", *option, *more]
                hint = ": for bits off the air that begin anywhere, give --capture" if more or command != ["decode"] else ""
                for verbose, note in (([], b""), (["--verbose"], fault(f"transmission short.bin{hint}"))):
                    told = fault("the preamble is too short") + note
                    tally.check_done(f"{words} {verbose}", run([*words, *verbose], folder), 1, b"", told)


def check_repair(tally, folder, source):
    """`--repair` of a random transmission with at most two wrong bits in each word, and with three in one of them."""
    (folder / "p.csv").write_bytes(random_file(source, 30))
    run(["plan", "p.csv", "tx.bin", "cert.bin", "--always"], folder)
    sent = (folder / "tx.bin").read_bytes()
    received, words, bits = damaged(sent, source)
    (folder / "rx.bin").write_bytes(received)
    count = fault(f"transmission rx.bin: corrected bits {bits}, words {words}")
    for command, views in (("decode", ([],)), ("show", VIEWS)):
        for view in views:
            due = run([command, "tx.bin", *view], folder)
            tally.check_done(f"{command} {view} of what was sent", run([command, "tx.bin", *view, "--repair"], folder), *said(due))
            for more in ([], ["--verbose"]):
                done = run([command, "rx.bin", *view, "--repair", *more], folder)
                told = count if more and due.returncode == 0 else ANY
                tally.check_done(f"{command} {view} {more} of what was received", done, due.returncode, due.stdout, told)
            refused = 1 if words else due.returncode
            tally.check_done(f"{command} {view} refuses it without repair", run([command, "rx.bin", *view], folder), refused, ANY, ANY)
    place = source.randrange((len(sent) - FRONT) // WORD)
    at = FRONT + WORD * place
    wrong = flipped(sent[at : at + WORD], *source.sample(range(32), 3))
    (folder / "rx.bin").write_bytes(sent[:at] + wrong + sent[at + WORD :])
    batch, word = divmod(place, 17)
    why = f"batch {batch}: no synchronisation codeword" if word == 0 else f"codeword {16 * batch + word - 1}: not a codeword"
    for command in ("decode", "show"):
        tally.check_done(f"{command} of three wrong bits", run([command, "rx.bin", "--repair"], folder), 1, b"", fault(why))


def try_repair(tally, folder):
    """All is told that is told of the transmission itself, and a word with three wrong bits stays a fault."""
    source = random.Random(584)
    for _ in sampled(range(12)):
        check_repair(tally, folder, source)
    tally.check_done("hear of the same", run(["hear", "8", "rx.bin"], folder), 0, ANY, ANY)
