"""The parts of `./test`: each is a command whose last line is 'N passed, M failed', and the sum of these is told."""

import re
import resource
import subprocess
import sys
import time

import lanes

COUNT = re.compile(r"^(\d+) passed, (\d+) failed$", re.M)
NOTE = re.compile(r"^release \d.*", re.M)  # what a part says of the release, which the end repeats
SPENT = re.compile(r"^pocsag: spent (\d+) s on (\w+)$", re.M)  # what a part says of its own time
TRIED = re.compile(r": tried (\d+) of (\d+) wrong bodies", re.M)
BASE = "pocsag_words"  # the crate whose proof is the unit `w` of the bill
KINDS = {"wrong bodies": "wrong bodies", "tests of": "tests", "proof": "proofs", "the proof": "proofs", "the library for C": "proofs"}


def busy_children():
    """The seconds that processors were busy with what this process started and has ended."""
    used = resource.getrusage(resource.RUSAGE_CHILDREN)
    return used.ru_utime + used.ru_stime


class Gate:
    """Runs parts, shows what they print, and adds their counts."""

    def __init__(self, folder, out=sys.stdout):
        self.folder, self.out, self.start = folder, out, time.monotonic()
        self.passed, self.failed, self.bad = 0, 0, []
        self.notes, self.skipped = [], []
        self.spent, self.tried = dict.fromkeys([*dict.fromkeys(KINDS.values()), "scripts"], 0), [0, 0]
        self.units = []  # how long processors were busy with each proof of the lowest crate

    def say(self, text):
        print(text, file=self.out, flush=True)

    def fail(self, name, why):
        self.failed += 1
        self.bad.append(name)
        self.say(f"FAILED {name}: {why}")

    def shown(self, name, words):
        """Runs a command and shows what it prints as it goes; gives its status and its text."""
        self.say(f"== {name}")
        lines, before = [], busy_children()
        how = {"cwd": self.folder, "stdin": subprocess.DEVNULL, "stdout": subprocess.PIPE, "stderr": subprocess.STDOUT}
        try:
            with subprocess.Popen(words, text=True, errors="replace", preexec_fn=lanes.end_with_parent, **how) as process:
                for line in process.stdout:
                    lines.append(line)
                    self.say(line.rstrip("\n"))
        except OSError as error:
            return 127, f"{error}\n"
        self.charge(name, busy_children() - before, "".join(lines))
        return process.returncode, "".join(lines)

    def charge(self, name, busy, text):
        """Adds to the bill how long processors were busy with a part."""
        told = {what: int(seconds) for seconds, what in SPENT.findall(text)}
        self.units += filter(None, [told.pop(BASE, 0)])
        for what, seconds in told.items():
            self.spent[what] += seconds
        self.spent[next((it for start, it in KINDS.items() if name.startswith(start)), "scripts")] += busy - sum(told.values())
        self.tried = [one + sum(int(it[at]) for it in TRIED.findall(text)) for at, one in enumerate(self.tried)]

    def bill(self):
        """How long processors were busy with what, also as multiples of the proof of the lowest crate."""
        tried = " ({} of {} tried)".format(*self.tried)
        parts = {what + tried * (what == "wrong bodies"): seconds for what, seconds in self.spent.items()}
        parts["all"] = sum(self.spent.values())
        unit = sum(self.units) / max(len(self.units), 1)
        if unit:
            self.say(f"w is {unit:.1f} s, the mean of {' and '.join(map(str, self.units))} s of processors for {BASE}")
        for what, seconds in parts.items():
            multiple = f" minutes of processors, {seconds / unit:.1f} w," if unit else " minutes of processors"
            self.say(f"spent {lanes.minutes(seconds)}{multiple} on {what}")

    def step(self, name, *words):
        """Runs a command that counts nothing as one thing to pass, and says whether it did."""
        status, _ = self.shown(name, words)
        if status:
            self.fail(name, f"it ended with status {status}")
        else:
            self.passed += 1
        return not status

    def part(self, name, *words):
        """Runs a part, and says whether all of it passed."""
        return self.count(name, *self.shown(name, words))

    def beside(self, parts, last=()):
        """Runs parts side by side, each a name and the words of a command that takes one processor, first those that stand
        first, and the last ones once the first has passed. What each printed is shown when it ends, as if it had run alone."""
        tasks = [lanes.Task(name, words, self.folder) for name, *words in parts]
        tasks += [lanes.Task(name, words, self.folder, (parts[0][0],)) for name, *words in last]
        for it in lanes.Lanes(tasks).run():
            self.say(f"== {it.name}\n{it.text}".removesuffix("\n"))
            self.count(it.name, it.status, it.text)
            self.charge(it.name, it.busy, it.text)
            self.say(f"-- {lanes.minutes(it.took)}, {lanes.minutes(it.busy)} of processors")

    def skip(self, name):
        """Leaves a part out, and has the end say so."""
        self.skipped.append(name)

    def count(self, name, status, text):
        """Adds what a part counted. One that fails, prints no count, or counts nothing fails the whole."""
        self.notes += NOTE.findall(text)
        counts = [tuple(map(int, it)) for it in COUNT.findall(text)]
        passed, failed = counts[-1] if counts else (0, 0)
        self.passed += passed
        if failed:
            self.failed += failed
            self.bad.append(name)
        elif not counts:
            self.fail(name, f"it ended with status {status} and told no count")
        elif status or not passed:
            self.fail(name, f"it ended with status {status}" if status else "it tried nothing")
        return not (failed or status or not passed)

    def end(self):
        """Tells the sum; gives the exit status."""
        if self.bad:
            self.say(f"what failed: {', '.join(self.bad)}")
        if self.skipped:
            self.say(f"skipped, since they need the toolchain's command rt: {', '.join(self.skipped)}")
        for it in self.notes:
            self.say(it)
        self.bill()
        self.say(f"after {lanes.minutes(time.monotonic() - self.start)} minutes, {lanes.minutes(busy_children())} of processors")
        self.say(f"{self.passed} passed, {self.failed} failed" + (f", {len(self.skipped)} skipped" if self.skipped else ""))
        return 0 if self.passed and not self.failed else 1
