#!/usr/bin/env python3
"""Calls of the Python package with wrong values:  values.py LIBRARY CALLS.  Each method gets some of its arguments as they should be and
others of wrong types, ranges and counts. It prints how many calls were done, refused and in vain; what is no exception of these kinds it
prints and ends with status 1, and a call that ends the interpreter leaves its own status to whoever started this."""

import array
import inspect
import random
import resource
import sys

import pocsag

KINDS = (pocsag.Fault, TypeError, ValueError, MemoryError)


class Index:
    """A number of another type, or none at all."""

    def __init__(self, number):
        self.number = number

    def __index__(self):
        return self.number


PAGES = b'address,kind,message\n8,tone0,\n9,numeric,12\n10,alpha,"a""b"\n'
WRONG = [None, True, -1, 0, 1, 2, 3, 7, 512, 65_536, 2**31, 2**32 - 1, 2**32, 2**64 - 1, 2**64, -(2**70), 10**40, 1.5, float("nan"), 1j]
WRONG += ["", "8", "closed", "shut", "\ud800", "8\0", b"", b"\0", PAGES, bytearray(3), memoryview(b"abc")[::-1], memoryview(b"abcdefgh").cast("I")]
WRONG += [array.array("d", [1.0]), (), (1,), (1, 2), (2, 1), (1, 2, 3), (0, 0, 0, 0), [5] * 9, (None, None), ("a", "b", "c", "d"), (2**40, 2**40)]
WRONG += [{}, {1: 2}, set(), object(), range(3), Index(1), Index(2**33), Index("8"), int, len, pocsag.Fault, pocsag.Place(), NotImplemented]


def right_values(call):
    """For each parameter what it should be."""
    plan = call.plan(PAGES)
    return {
        "pages": [PAGES, PAGES.decode()], "transmission": [plan.transmission], "certificate": [plan.certificate], "limit": [1, 100_000],
        "end": [0, 1, 2, "idle"], "always": [True, False], "sizes": [(65_536, 65_536), (0, 0), (9, 9, 9, 9)], "strict": [True, False],
        "batches": [1, 2, (1, 2)], "rate": [512, 2400], "form": [0, 1, "json"], "depth": [3], "size": [0, 99], "address": [8, 9], "status": [20],
        "reading": [0, 1, 2, "captured"], "samples": [2_400, 8_000], "preamble": [None, 576], "inverted": [False], "kind": ["alpha"], "message": [b"a", "a"],
        "airtime_ms": [1_000],
    }  # fmt: skip


def main(library, calls):
    resource.setrlimit(resource.RLIMIT_AS, (2**30, 2**30))
    call, source = pocsag.Pocsag(library), random.Random(86)
    right = right_values(call)
    methods = [(name, it) for name, it in inspect.getmembers(call, inspect.ismethod) if not name.startswith("_")]
    counts = {"done": 0, "refused": 0, "in vain": 0}
    for _ in range(int(calls)):
        name, method = source.choice(methods)
        names = list(inspect.signature(method).parameters)
        given = {it: source.choice(right[it] if source.randrange(3) else WRONG) for it in names if source.randrange(4)}
        words = [given.pop(it) for it in names if it in given][: source.randrange(3)] if source.randrange(4) == 0 else []
        words += [source.choice(WRONG)] * (source.randrange(40) == 0)
        try:
            method(*words, **given)
            counts["done"] += 1
        except KINDS as why:
            counts["refused" if isinstance(why, pocsag.Fault) else "in vain"] += 1
        except BaseException as why:
            print(f"wrong: {name} {words} {given}: {why!r}")
            return 1
    print(*(f"{count} {name}" for name, count in counts.items()), sep=", ")
    return 0


if __name__ == "__main__":
    sys.exit(main(*sys.argv[1:]))
