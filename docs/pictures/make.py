#!/usr/bin/env python3
"""Makes the pictures of this folder by the compiled program, from examples/round.csv and examples/loops-apart.csv.
`tests/pictures/run.py` makes them again and compares."""

import math
import pathlib
import subprocess
import sys
import tempfile

TOP = pathlib.Path(__file__).resolve().parents[2]
sys.path.append(str(TOP / "tests"))
from codewords import address_at, codewords_of, laid, pages_in, rows_of
from tally import PROGRAM, put

HERE = pathlib.Path(__file__).resolve().parent
ROUND = TOP / "examples/round.csv"
APART = [TOP / "examples" / name for name in ("loops-apart.csv", "loops-apart.cert")]


def run(*words):
    return subprocess.run([str(PROGRAM), *map(str, words)], capture_output=True, check=True, timeout=110).stdout


def point(turn, radius):
    angle = 2 * math.pi * turn - math.pi / 2
    return f"{240 + radius * math.cos(angle):.1f} {240 + radius * math.sin(angle):.1f}"


def spiral(start, end):
    """The way from one codeword to another, sixteen to a turn, outwards from turn to turn."""
    return "M" + "L".join(point(at / 64, 80 + 40 * at / 64) for at in range(4 * start, 4 * end + 1))


def tour(found, total):
    """The tour of a transmission on the sixteen boundaries of slots, and below it what each band is."""
    height = 500 + 20 * len(found)
    lines = [
        f'<svg xmlns="http://www.w3.org/2000/svg" version="1.1" width="480" height="{height}" viewBox="0 0 480 {height}"'
        ' role="img" aria-labelledby="title desc">',
        '<title id="title">The tour of the sample round</title>',
        f'<desc id="desc">Sixteen boundaries stand around. The tour begins at boundary 0, goes round once for each of'
        f" {total // 16} batches and comes back to boundary 0; each page is an arc from the boundary where its"
        " address codeword begins to that where its last codeword ends.</desc>",
        '<style type="text/css">',
        "svg{background:#fff;font-family:sans-serif;font-size:11px}",
        "text{fill:#222;text-anchor:middle}",
        ".n{text-anchor:start}",
        ".b{stroke:#ccc}",
        ".i{fill:none;stroke:#ddd;stroke-width:14}",
        ".p{fill:none;stroke-width:14}",
        "@media (prefers-color-scheme:dark){svg{background:#16181c}text{fill:#eee}.b{stroke:#444}.i{stroke:#2b2e34}}",
        "</style>",
    ]
    for boundary in range(16):
        inner, outer = point(boundary / 16, 60), point(boundary / 16, 205)
        x, y = point(boundary / 16, 220).split()
        lines.append(f'<path class="b" d="M{inner}L{outer}"/><text x="{x}" y="{float(y) + 4:.1f}">{boundary}</text>')
    at, legend = 0, []  # what each band is, below the tour
    for number, (start, end, address) in enumerate(found):
        if at < start:
            lines.append(f'<path class="i" d="{spiral(at, start)}"/>')
        at, band = end, f'class="p" style="stroke:hsl({137 * (number % 26) % 360},60%,55%)"'
        told = f"address {address}, from boundary {start % 16} to boundary {end % 16}, {end - start} codeword{'s' * (end - start > 1)}"
        lines.append(f'<path {band} d="{spiral(start, at)}"><title>{told}</title></path>')
        legend.append((band, told))
    if at < total:
        lines.append(f'<path class="i" d="{spiral(at, total)}"/>')
    for y, (band, told) in enumerate([*legend, ('class="i"', "idle codewords")]):
        lines.append(f'<path {band} d="M80 {490 + 20 * y}h28"/><text class="n" x="116" y="{494 + 20 * y}">{told}</text>')
    return "\n".join([*lines, "</svg>", ""]).encode()


def pictures():
    """Each picture by its name."""
    with tempfile.TemporaryDirectory() as folder:
        sent, cert, ordered = (pathlib.Path(folder) / name for name in ("sent", "cert", "ordered"))
        run("plan", ROUND, sent, cert)
        words = codewords_of(sent.read_bytes())
        found = [(start, end, address_at(words, start)) for start, end in pages_in(words)]
        pages = {address: words[start:end] for start, end, address in found}
        addresses = [int(row[0]) for row in rows_of(ROUND.read_bytes())[1:]]
        ordered.write_bytes(laid((address % 8, pages[address]) for address in addresses))
        return {
            "loops-apart.svg": run("explain", *APART, "--svg"),
            "round-in-file-order.svg": run("show", ordered, "--svg"),
            "round-in-fewest-batches.svg": run("show", sent, "--svg"),
            "round-tour.svg": tour(found, len(words)),
        }


if __name__ == "__main__":
    put(HERE, pictures())
