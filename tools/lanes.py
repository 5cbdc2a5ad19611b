"""Runs commands side by side: as many as there are processors and memory for, those with the longest chain behind them first."""

import ctypes
import dataclasses
import os
import signal
import subprocess
import sys
import tempfile
import time

MEMORY = 2_000_000_000  # the bytes that a proof of a crate takes
MOST_JOBS = 3  # of one proof: each job loads what stands below anew, so that four end it no sooner (docs/BENCHMARKS.md)


@dataclasses.dataclass
class Task:
    """A command in a folder, the names of the tasks that it waits for, and about how long it takes beside the others. The
    command is a list of words, or gives them for a number of jobs."""

    name: str
    words: object
    folder: object
    waits: tuple = ()
    weight: int = 1


@dataclasses.dataclass
class Ended:
    """A task that has ended: its exit status, what it printed, how long it took, and how long processors were busy with it."""

    name: str
    status: int
    text: str
    took: float
    busy: float


def free_memory():
    """The memory that is free, in bytes, and under the control group's limit where there is one."""
    found = []
    with open("/proc/meminfo", encoding="ascii") as rows:
        found += [1024 * int(row.split()[1]) for row in rows if row.startswith("MemAvailable:")]
    try:
        with open("/sys/fs/cgroup/memory.max", encoding="ascii") as limit, open("/sys/fs/cgroup/memory.current", encoding="ascii") as held:
            found.append(int(limit.read()) - int(held.read()))
    except (OSError, ValueError):
        pass
    return min(found)


def width():
    """How many tasks may run side by side: as RT_JOBS says, or as processors and memory allow."""
    return int(os.environ.get("RT_JOBS") or 0) or max(1, min(len(os.sched_getaffinity(0)), free_memory() // MEMORY))


def width_of_gate():
    """The same for the gate. Where none is given, one processor of four stays idle: a fourth proof slows each of the other three by a
    seventh, and the longest chain of crates, for which the clock waits, with them."""
    return width() - width() // 4 * (not os.environ.get("RT_JOBS"))


def minutes(seconds):
    return f"{int(seconds) // 60}:{int(seconds) % 60:02}"


def end_with_parent():
    """Has the system end this process when the one that started it ends, however it ends."""
    ctypes.CDLL(None).prctl(1, signal.SIGKILL)


class Lanes:
    """Tasks that run side by side. What waits for a task that failed is not begun."""

    def __init__(self, tasks, begun=lambda name: None):
        self.left = {task.name: task for task in tasks}
        self.names, self.begun, self.width = set(self.left), begun, width()
        self.passed, self.running = set(), {}
        self.behind = {task.name: task.weight for task in tasks}  # the weight of the longest chain that begins with it
        for task in reversed(tasks):
            for waited in self.names.intersection(task.waits):
                self.behind[waited] = max(self.behind[waited], self.left[waited].weight + self.behind[task.name])

    def begin(self, task, lanes, jobs):
        """Begins a task with so many jobs; returns what says that it cannot be run."""
        words = task.words(min(jobs, MOST_JOBS, self.width)) if callable(task.words) else task.words
        log = tempfile.TemporaryFile("w+", errors="replace")
        how = {"cwd": task.folder, "stdin": subprocess.DEVNULL, "stdout": log, "stderr": subprocess.STDOUT}
        try:
            process = subprocess.Popen(words, start_new_session=True, preexec_fn=end_with_parent, **how)
        except OSError as error:
            log.close()
            return [Ended(task.name, 127, f"{error}\n", 0, 0)]
        self.running[process.pid] = (task, process, log, lanes, time.monotonic())
        self.begun(task.name)
        return []

    def begin_all(self):
        """Begins what waits for nothing more, as long as a lane is idle; gives what could not be run. A task gets one lane. A proof
        with the longest chain behind it gets the idle lanes but one for each of the others, and two jobs at least."""
        ready = [task for task in self.left.values() if self.passed.issuperset(self.names.intersection(task.waits))]
        ready.sort(key=lambda task: -self.behind[task.name])
        longest, lost = max((self.behind[it] for it in self.names - self.passed), default=0), []
        for others, task in zip(reversed(range(len(ready))), ready):
            idle = self.width - sum(lanes for _, _, _, lanes, _ in self.running.values())
            if idle > 0:
                is_longest = self.behind[task.name] == longest
                lanes = max(1, idle - others) if is_longest and callable(task.words) else 1
                del self.left[task.name]
                lost += self.begin(task, min(lanes, MOST_JOBS), max(lanes, 1 + is_longest))
        return lost

    def wait(self):
        """Waits until a task ends, and takes it out."""
        pid, status, used = os.wait3(0)
        task, process, log, _, began = self.running.pop(pid)
        process.returncode = os.waitstatus_to_exitcode(status)
        log.seek(0)
        with log:
            return Ended(task.name, process.returncode, log.read(), time.monotonic() - began, used.ru_utime + used.ru_stime)

    def stop(self):
        """Ends what still runs."""
        for pid in self.running:
            os.killpg(pid, signal.SIGTERM)
        for _, process, log, _, _ in self.running.values():
            process.wait()
            log.close()

    def run(self):
        """Runs the tasks; yields each as it ends. Where the caller looks no further, what still runs is ended."""
        try:
            while True:
                yield from self.begin_all()
                if not self.running:
                    return
                ended = self.wait()
                if not ended.status:
                    self.passed.add(ended.name)
                yield ended
        finally:
            self.stop()


def end_on_signals():
    """Has the signals that end a program raise SystemExit, so that what it started ends with it."""

    def end(number, _frame):
        sys.exit(128 + number)

    for number in (signal.SIGINT, signal.SIGTERM, signal.SIGHUP):
        signal.signal(number, end)
