"""`pocsag open` over pipes: each answer is awaited before the next line is sent; and the pages of an open round as
docs/OPEN_ROUND.md has them."""

import csv
import os
import select
import subprocess

from codewords import HEADER, NUMERIC
from tally import PROGRAM, run


class Session:
    def __init__(self, folder, *words):
        pipes = dict.fromkeys(("stdin", "stdout", "stderr"), subprocess.PIPE)
        self.process, self.kept = subprocess.Popen([str(PROGRAM), "open", *words], cwd=folder, **pipes), b""

    def send(self, text):
        self.process.stdin.write(text)
        self.process.stdin.flush()

    def line(self):
        """The next line of its output, without its line feed; nothing where none comes in time."""
        while b"\n" not in self.kept:
            ready, _, _ = select.select([self.process.stdout], [], [], 60)
            piece = os.read(self.process.stdout.fileno(), 65536) if ready else b""
            if not piece:
                return None
            self.kept += piece
        line, self.kept = self.kept.split(b"\n", 1)
        return line

    def ask(self, line):
        """Sends one line, and waits for the line that answers it."""
        self.send(line + b"\n")
        return self.line()

    def lines(self, line):
        """Sends one line, and waits for all lines up to the one that begins with `ok`."""
        answers = [self.ask(line)]
        while answers[-1] is not None and not answers[-1].startswith(b"ok "):
            answers.append(self.line())
        return answers

    def close(self, text=b""):
        """Sends this, ends its input, and gives its status and what it still wrote to its output and to standard error."""
        rest, err = self.process.communicate(text, timeout=60)
        return self.process.returncode, self.kept + rest, err

    def kill(self):
        """Kills it, and gives what it still wrote to its output."""
        self.process.kill()
        return self.kept + self.process.communicate(timeout=60)[0]


def refusal(pages, address, kind, message):
    """Why a page is not added to these pages; nothing where it is."""
    if address > 2097151:
        return b"bad address"
    if 2007664 <= address <= 2007671 or 2045056 <= address <= 2045063:
        return b"reserved address"
    if kind not in ("tone0", "tone1", "tone2", "tone3", "numeric", "alpha"):
        return b"unknown kind"
    if kind.startswith("tone") and message:
        return b"a tone page has no message"
    if not kind.startswith("tone") and not message:
        return b"the message is empty"
    wrong = [place for place, character in enumerate(message) if kind == "numeric" and character not in NUMERIC]
    if wrong:
        return b"bad character at %d" % wrong[0]
    return b"the address is already there" if any(address == other for other, _ in pages) else b""


def edited(pages, line):
    """The answer to an edit, and the pages behind it. A page is its address and the rest of its record."""
    word, *fields = next(csv.reader([line.decode()]))
    left, why = [], b""
    if word == "add":
        why = refusal(pages, int(fields[0]), *fields[1:])
        left = [*pages, (int(fields[0]), line.split(b",", 2)[2])]
    elif word == "cancel":
        left = [page for page in pages if page[0] != int(fields[0])]
    elif word == "sent":
        left = pages[int(fields[0]) :]
    if word == "cancel" and left == pages or word == "sent" and int(fields[0]) > len(pages):
        why = b"no such page"
    return (b"refused: " + why, pages) if why else (b"ok %d" % len(left), left)


def listing(pages):
    """A page file of these pages."""
    return HEADER + b"".join(b"%d,%s\n" % page for page in pages)


def listed(folder, journal):
    """What a start of a journal lists, without the line that ends it, and what it tells; nothing is listed where it does not start."""
    done = run(["open", "--journal", journal], folder, b"list\n")
    return done.stdout[: done.stdout.rfind(b"ok ")] if done.returncode == 0 else None, done.stderr
