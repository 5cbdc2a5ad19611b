"""How long processors are busy with each proof that a command of the toolchain makes, as /proc has it while that runs."""

import os
import time

TICKS = os.sysconf("SC_CLK_TCK")


def processes():
    """Each process: its parent, and the seconds that processors were busy with it and with those of its children that ended."""
    found = {}
    for name in filter(str.isdigit, os.listdir("/proc")):
        try:
            with open(f"/proc/{name}/stat", encoding="utf-8", errors="replace") as stat:
                words = stat.read().rpartition(")")[2].split()
        except OSError:
            continue  # it has ended
        found[int(name)] = int(words[1]), sum(map(int, words[11:15])) / TICKS
    return found


def words_of(process):
    try:
        with open(f"/proc/{process}/cmdline", encoding="utf-8", errors="replace") as line:
            return line.read().split("\0")
    except OSError:
        return []


def kind_of(words):
    """What a process is for: tests, the proof of a crate, or nothing that is counted apart."""
    if "--test" in words or any(it.endswith("_tests") for it in words):
        return "tests"
    return words[words.index("--crate-name") + 1] if "--crate-name" in words[:-1] else None


def watched(process):
    """Waits for a process to end; gives the seconds by what the processes below it were for."""
    kinds, most = {}, {}
    while process.poll() is None:
        found = processes()
        now = dict.fromkeys(found, 0)
        for one, (_, seconds) in found.items():
            above, chain = one, []
            while above in found and above != process.pid:
                chain.append(above)
                above = found[above][0]
            for it in reversed(chain if above == process.pid else []):
                kinds[it] = kinds.get(it) or kind_of(words_of(it))
                if kinds[it]:
                    now[it] += seconds  # the highest of a chain counts for those below it
                    break
        most.update({it: max(seconds, most.get(it, 0)) for it, seconds in now.items() if seconds})
        time.sleep(1)
    spent = {}
    for it, seconds in most.items():
        spent[kinds[it]] = spent.get(kinds[it], 0) + seconds
    return spent
