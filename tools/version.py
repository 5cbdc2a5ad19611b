"""The version of this repository and its date, by the file VERSION. A package spells the version as its kind does."""

import datetime
import pathlib

TOP = pathlib.Path(__file__).resolve().parents[1]
VERSION, DATE = (TOP / "VERSION").read_text().split()
NUMBER, _, CANDIDATE = VERSION.partition("-rc.")
DEBIAN = NUMBER + f"~rc{CANDIDATE}" * bool(CANDIDATE)
PYTHON = NUMBER + f"rc{CANDIDATE}" * bool(CANDIDATE)
DAY = datetime.datetime.fromisoformat(f"{DATE}T00:00:00+00:00")
SECONDS = int(DAY.timestamp())  # the time of each packed file
