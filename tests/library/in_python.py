"""What a Python programmer expects of the package: its types, its faults in `pickle` and in pools of processes, and wrong values."""

import copy
import ctypes
import functools
import inspect
import os
import pathlib
import pickle
import pydoc
import re
import shutil
import subprocess
import sys

import pocsag
from answers import check_fault
from tally import ANY, call

HERE = pathlib.Path(__file__).resolve().parent
CLIB = HERE.parents[1] / "clib"
HEADER = "address,kind,message\n"
# The types of the header, but for pointers to structures and to bytes.
TYPES = {"uint32_t": ctypes.c_uint32, "uint64_t": ctypes.c_uint64, "size_t": ctypes.c_size_t}
STRUCTURES = {"place": pocsag.Place, "plan_info": pocsag.PlanInfo, "front_info": pocsag.FrontInfo, "check_info": pocsag.CheckInfo}
STRUCTURES |= {"report_info": pocsag.ReportInfo, "frames_info": pocsag.FramesInfo, "frame": pocsag.FrameInfo}
# Three channels of which one is refused, by a pool and by an executor: what `map` and a future give, and that both end.
POOLS = """
import concurrent.futures, multiprocessing, sys
import pocsag
def planned(pages):
    return pocsag.Pocsag(sys.argv[1]).plan(pages).batches
if __name__ == "__main__":
    files = [pocsag.HEADER + b"8,tone0,\\n", pocsag.HEADER + b"8,tone9,\\n", pocsag.HEADER + b"8,tone0,\\n16,tone0,\\n24,tone0,\\n"]
    with multiprocessing.get_context(sys.argv[2]).Pool(2) as pool:
        print(pool.map(planned, files[::2]), pool.map(pocsag.Pocsag(sys.argv[1]).plan, files[:1])[0].batches)
        try:
            pool.map(planned, files)
        except pocsag.Fault as fault:
            print(type(fault).__name__, fault.status, fault.record_number, fault)
    with concurrent.futures.ProcessPoolExecutor(2, multiprocessing.get_context(sys.argv[2])) as executor:
        futures = [executor.submit(planned, it) for it in files]
        print(futures[0].result(), repr(futures[1].exception()), futures[2].result())
"""
POOLED = "[1, 2] 1\nBadKind 22 1 record 1: unknown kind\n1 BadKind('record 1: unknown kind') 2\n"
# Uses that a checker of types refuses.
REFUSED = ("p.plan(5)", "p.plan(b'', end='shut')", "p.plan_at_most(b'', 1, sizes=(1, 2))", "p.show(b'', batches=(1,))", "p.decode('')", "p.plan(b'').batch")

run = functools.partial(call, text=True, env={**os.environ, "PYTHONPATH": str(CLIB), "PYTHONDONTWRITEBYTECODE": "1"})


def of_c(declared):
    """The type of ctypes for a parameter of the header."""
    name = re.fullmatch(r"(?:const )?(?:struct pocsag_)?(\w+) (\*?)\w+", declared.strip()).groups()
    if name == ("uint8_t", "*"):
        return ctypes.c_char_p if declared.strip().startswith("const ") else ctypes.POINTER(ctypes.c_uint8)
    made = TYPES.get(name[0]) or STRUCTURES[name[0]]
    return ctypes.POINTER(made) if name[1] else made


def try_declared(tally, header):
    """Each call has the types of the header, and each structure its size."""
    calls = dict(re.findall(r"POCSAG_CALL uint32_t (\w+)\(([^)]*)\);", header))
    calls["pocsag_version"] = calls.get("pocsag_version", "void")
    wanted = {name: [] if words == "void" else [of_c(it) for it in words.split(",")] for name, words in calls.items()}
    declared = {name: [*types] for name, types in pocsag.CALLS.items()}
    tally.check("the types of each call", declared == wanted, {it for it in wanted if wanted[it] != declared.get(it)} ^ (wanted.keys() ^ declared.keys()))
    for name, made in STRUCTURES.items():
        fields = re.search(rf"struct pocsag_{name} \{{(.*?)\n\}};", header, re.S)[1]
        names = re.findall(r"^ +(?:uint\d+_t|struct \w+) (\w+)", fields, re.M)
        tally.check(f"the fields of {name}", [it[0] for it in made._fields_] == names, names)


def try_copies(tally, call):
    """Each fault and each result is equal to what `pickle` and `copy` make of it."""
    faults = [fault(status, pocsag.Place(3, 1, 2, 7)) for status, fault in pocsag.FAULTS.items()] + [pocsag.Fault(99, pocsag.Place())]
    plan, front = call.plan(HEADER + "8,tone0,\n"), call.plan_at_most(HEADER + "8,tone0,\n16,tone0,\n24,tone0,\n", 1)
    results = [plan, front, call.report(HEADER + "8,tone0,\n", 512), call.frames(HEADER + "8,tone0,\n"), call.check(HEADER + "8,tone0,\n", plan.certificate)]
    results.append(call.explain(HEADER + "8,tone0,\n", plan.certificate))
    for it in faults + results:
        made = [pickle.loads(pickle.dumps(it, protocol)) for protocol in range(pickle.HIGHEST_PROTOCOL + 1)] + [copy.copy(it), copy.deepcopy(it)]
        alike = all(type(other) is type(it) and other == it and str(other) == str(it) and vars(other) == vars(it) for other in made if isinstance(it, pocsag.Fault))
        tally.check(f"copies of {it!r}"[:60], alike and all(other == it for other in made), made)
    tally.check("no two faults are equal", len({*faults}) == len(faults) and faults[0] != pocsag.BadEnd(2, pocsag.Place(4)))
    again = pickle.loads(pickle.dumps(call))
    tally.check("the calls are pickled by their path", again.path == call.path and again.plan(HEADER + "8,tone0,\n") == plan)


def try_names(tally, call):
    """Names of ends, readings and forms, texts, and what stands in the module."""
    pages = HEADER + "8,tone0,\n16,alpha,a\n"
    plans = [call.plan(pages, end=it) for it in ("open", "closed", "idle")]
    tally.check("an end by its name", plans == [call.plan(pages.encode(), end=it) for it in range(3)] and len({*plans}) == 3, plans)
    sent = plans[0].transmission
    alike = [call.decode(sent, it) for it in pocsag.READINGS] == [call.decode(sent, it) for it in range(3)]
    alike = alike and [call.show(sent, it) for it in pocsag.PICTURES] == [call.show(sent, it) for it in range(3)]
    forms = [call.explain(pages, plans[0].certificate, it).text for it in (0, 1, "words", "json")]
    tally.check("readings, pictures and forms by their names", alike and forms[:2] == forms[2:], forms)
    tally.check("a message as a text", call.write_page(8, "alpha", "a,b") == b'8,alpha,"a,b"\n')
    for name, wanted, words in (
        ("end", pocsag.BadEnd, (call.plan, pages, 9, "shut")),
        ("reading", pocsag.BadReading, (call.decode, sent, "aloud")),
        ("picture", pocsag.BadReading, (call.show, sent, "film")),
        ("form", pocsag.BadForm, (call.explain, pages, plans[0].certificate, "verse")),
    ):
        check_fault(tally, f"no name of a {name}", wanted, *words)
    tally.check("memory that is refused is a MemoryError", isinstance(pocsag.raised(3, pocsag.Place()), (pocsag.OutOfMemory, MemoryError)))
    faults = {it.__name__ for it in pocsag.FAULTS.values()}
    classes = {name for name, it in vars(pocsag).items() if inspect.isclass(it) and issubclass(it, pocsag.Fault)}
    tally.check("each fault is a class of the module", faults | {"Fault"} == classes and classes < {*pocsag.__all__}, faults ^ classes)
    tally.check("what __all__ names is there", all(hasattr(pocsag, it) for it in pocsag.__all__) and len(pocsag.__all__) == len({*pocsag.__all__}))
    told = pydoc.plain(pydoc.render_doc(pocsag))
    tally.check("help() shows the faults", all(f"class {it}(" in told for it in faults) and "record {record_number}: bad address" in told)


def raises(kind, call, *words, **named):
    try:
        call(*words, **named)
    except kind:
        return True
    return False


def try_numbers(tally, call):
    """Numbers that C does not take are told, none is taken for another; and what else holds bytes is read."""
    sample = (HERE.parents[1] / "examples/round.csv").read_bytes()
    plan = call.plan(sample)
    for number in (2**32 + 8, 2**64 + 8, -(2**32) + 8, -1):
        check_fault(tally, f"the pager {number}", pocsag.PagerBadAddress, call.hear, number, plan.transmission)
    for name, wanted, words, given in (
        ("limit", pocsag.BadLimit, (call.plan, sample), dict(limit=2**32 + 1)),
        ("end", pocsag.BadEnd, (call.plan, sample), dict(end=2**32)),
        ("limit of a report", pocsag.BadLimit, (call.report, sample, 1200), dict(limit=-1)),
        ("rate", pocsag.BadRate, (call.report, sample, 2**32 + 512), {}),
        ("form", pocsag.BadForm, (call.explain, sample, plan.certificate), dict(form=2**32)),
    ):
        check_fault(tally, f"no {name} is taken for another", wanted, *words, **given)
    tally.check("any number is for always", call.plan(sample, always=2**32).batches == plan.batches)
    tally.check("no number at all", raises(TypeError, call.plan, sample, limit="9") and raises(TypeError, call.hear, 1.5, b""))
    for kind in (bytearray, memoryview, lambda data: memoryview(data)[:]):
        alike = call.plan(kind(sample)) == plan and call.check(kind(sample), kind(plan.certificate)).is_shown
        tally.check("other bytes are read alike", alike and call.decode(kind(plan.transmission)) == call.decode(plan.transmission), kind)
    tally.check("no bytes", raises(TypeError, call.plan, 5) and raises(TypeError, call.decode, sample.decode()))
    for batches in ((-1, 2), (1, 2**64), (0, 1)):
        check_fault(tally, f"there are no batches {batches}", pocsag.BadRows, call.show, plan.transmission, batches=batches)
    wrong = [(ValueError, (call.explain, sample, plan.certificate), {"depth": -1}), (ValueError, (call.plan, sample), {"sizes": (-1, 9)})]
    wrong += [((ValueError, TypeError), (call.plan_at_most, sample, 1), {"sizes": it}) for it in ((65_536, 65_536), (9,), [9] * 5, 9)]
    wrong += [(TypeError, (call.wav, plan.transmission, 1200), {"preamble": it}) for it in (0.0, "", [])]
    wrong += [((ValueError, TypeError), (call.show, plan.transmission), {"batches": it}) for it in ((1,), (1, 2, 3), 1)]
    for kinds, words, given in wrong:
        tally.check(f"{words[0].__name__} with {given}", raises(kinds, *words, **given))


class Own(pocsag.Pocsag):
    """Calls with other parameters, whose buffers are too small at first."""

    def plan(self, pages):
        return super().plan(pages, sizes=(0, 0), strict=True)

    def plan_at_most(self, pages):
        return super().plan_at_most(pages, 1, sizes=(0, 0, 1, 1), strict=True)

    def explain(self, pages):
        return super().explain(pages, self.plan(pages).certificate, size=0)

    def strict(self):
        raise NotImplementedError


def try_own(tally, call):
    """A class of a user, whose calls have parameters of their own."""
    own, pages = Own(call.path), HEADER + "8,tone0,\n16,tone0,\n24,tone0,\n"
    plan = call.plan(pages)
    given = own.plan(pages), own.plan_at_most(pages), own.explain(pages)
    tally.check("a class over the calls", given == (plan, call.plan_at_most(pages, 1), call.explain(pages, plan.certificate)), given)


def try_pools(tally, library, room):
    """A refused round ends a pool of processes by its fault, and both kinds of pools end."""
    (room / "pools.py").write_text(POOLS)
    for method in ("fork", "spawn"):
        try:
            ran = run(sys.executable, room / "pools.py", library, method)
        except subprocess.TimeoutExpired as late:
            ran = late
        tally.check(f"pools of processes, by {method}", ran.stdout == POOLED, ran)


def try_types(tally, room):
    """The package and the example are typed, and wrong uses are refused."""
    if not shutil.which("mypy"):
        print("skipped: mypy is missing; on Debian: apt-get install mypy")
        return
    words = ["mypy", "--strict", "--no-incremental", f"--cache-dir={os.devnull}"]
    tally.check_done("mypy --strict", run(*words, CLIB / "pocsag", CLIB / "examples/plan.py", cwd=CLIB), 0, ANY, ANY)
    for number, text in enumerate(REFUSED):
        (room / f"refused{number}.py").write_text(f"from pocsag import Pocsag\n\np = Pocsag()\n{text}\n")
        ran = run(*words, room / f"refused{number}.py")
        tally.check(f"mypy refuses {text}", ran.returncode == 1 and ran.stdout.count(": error: ") == 1 and ":4: error" in ran.stdout, ran.stdout)


def try_python(tally, library):
    """All of these."""
    try_declared(tally, (library.folder / "pocsag.h").read_text())
    for part in (try_copies, try_names, try_numbers, try_own):
        part(tally, library.pocsag)
    try_pools(tally, library.path, library.room)
    try_types(tally, library.room)
    ran = run(sys.executable, HERE / "values.py", library.path, 20_000)
    tally.check("wrong values end in exceptions alone", ran.returncode == 0 and re.fullmatch(r"\d{4,} done, \d{3,} refused, \d{4,} in vain\n", ran.stdout), ran)
