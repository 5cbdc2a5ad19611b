"""Runs a script of the tests: python3 tests FOLDER/NAME [WORD..]

`python3 tests program/run` runs tests/program/run.py. Its `main` takes the words; where it has none, its parts are run, as `run_all`
of tally.py says. The last line is 'N passed, M failed', and the status is 0 where M is 0.
"""

import importlib
import pathlib
import sys

sys.dont_write_bytecode = True
from tally import run_all

TESTS = pathlib.Path(__file__).resolve().parent
# Where a script finds what it shares with others, behind its own folder.
SHARED = (".", "calls", "certificates", "library", "program", "release", "wrong_bodies", "../release", "../clib", "../tools")


def main():
    path = TESTS / f"{sys.argv.pop(1) if sys.argv[1:] else ''}.py"
    if not path.is_file():
        print(__doc__, file=sys.stderr)
        return 2
    sys.path[:1] = [str(path.parent), *(str(TESTS / it) for it in SHARED)]
    script = importlib.import_module(path.stem)
    return script.main(sys.argv[1:]) if hasattr(script, "main") else run_all(script)


if __name__ == "__main__":
    sys.exit(main())
