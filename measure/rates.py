#!/usr/bin/env python3
"""Measures how many checks, verdicts, and verdicts with certificates C, Python and JavaScript make
per second of processor time.

The pictures are noise of 20 by 20 cells in three colours, the same each time, and all have one
solution. A rate is the best of three rounds. A busy machine still lowers the rates, so the load is
printed.

Usage: measure/rates.py [PICTURES], by default 500. It uses what c/build left, and WASM, or else the
module of web/out. It leaves out C without cc, and JavaScript without node or module, and says so.
"""

import os
import random
import shutil
import struct
import subprocess
import sys
import tempfile
import time
from pathlib import Path

ROOT = Path(__file__).resolve().parent.parent
sys.path.insert(0, str(ROOT / "python" / "src"))

import nonobench  # noqa: E402

ROUNDS = 3
SIDE, COLOURS = 20, 3


def noise(rng):
    """A P3 text in which, of a hundred cells, 90 are no background."""
    cells = [rng.randrange(1, COLOURS) if rng.random() < 0.9 else 0 for _ in range(SIDE * SIDE)]
    return f"P3\n{SIDE} {SIDE}\n255\n" + "".join(
        f"{k * 16} {255 - k * 16} 0\n" if k else "255 255 255\n" for k in cells
    )


def pairs_of(count):
    """So many pictures that have one solution, each with its certificate, and how many had
    several."""
    source, pairs, others = random.Random(20), [], 0
    while len(pairs) < count:
        picture = noise(source).encode()
        certificate = nonobench.audit(picture, allowance=1000).certificate
        if certificate:
            pairs.append((picture, certificate))
        else:
            others += 1
    return pairs, others


def write(pairs, file):
    """Puts pairs into a file, as the programs for C and JavaScript read them."""
    file.write_bytes(
        b"".join(struct.pack("<II", *map(len, pair)) + b"".join(pair) for pair in pairs)
    )


def rate(pairs, ask):
    """How many a second are asked, in the best round."""
    best = 0.0
    for _ in range(ROUNDS):
        begun = time.process_time()
        for pair in pairs:
            ask(*pair)
        best = max(best, len(pairs) / (time.process_time() - begun))
    return best


def of_python(pairs):
    """The rates of the package."""
    return [
        rate(pairs, nonobench.check),
        rate(pairs, lambda picture, _: nonobench.verdict(picture)),
        rate(pairs, lambda picture, _: nonobench.audit(picture)),
    ]


def of_c(folder):
    """The rates of the library for C; None where it can't be compiled."""
    if shutil.which("cc") is None:
        return None
    library = ROOT / "c" / "out" / "libnonobench.a"
    words = [
        "cc",
        "-std=c11",
        "-O2",
        f"-I{ROOT / 'c'}",
        str(ROOT / "measure" / "rates.c"),
        str(library),
        "-o",
        str(folder / "rates"),
    ]
    subprocess.run(words, check=True)
    return rates_of([str(folder / "rates"), str(folder / "pairs"), str(ROUNDS)])


def of_javascript(folder):
    """The rates of the module; None where there is none, or no node."""
    module = os.environ.get("WASM", str(ROOT / "web" / "out" / "nonobench.wasm"))
    if shutil.which("node") is None or not Path(module).is_file():
        return None
    return rates_of(
        ["node", str(ROOT / "measure" / "rates.mjs"), module, str(folder / "pairs"), str(ROUNDS)]
    )


def rates_of(words):
    """The rates that a program prints."""
    return [
        float(word)
        for word in subprocess.run(words, check=True, capture_output=True, text=True).stdout.split()
    ]


def main():
    pairs, others = pairs_of(int(sys.argv[1]) if len(sys.argv) > 1 else 500)
    print(
        f"{len(pairs)} pictures of {SIDE} by {SIDE} in {COLOURS} colours ({others} more have"
        f" several solutions); load {os.getloadavg()[0]:.1f}; a second of processor time:"
    )
    print(f"{'':12}{'checks':>10}{'verdicts':>10}{'with certificates':>19}")
    with tempfile.TemporaryDirectory() as name:
        folder = Path(name)
        write(pairs, folder / "pairs")
        for name, rates in (
            ("C", of_c(folder)),
            ("Python", of_python(pairs)),
            ("JavaScript", of_javascript(folder)),
        ):
            if rates is None:
                print(f"{name:12} left out, since a tool or the module is missing")
            else:
                print(
                    f"{name:12}"
                    + "".join(f"{value:{width}.0f}" for value, width in zip(rates, (10, 10, 19)))
                )


if __name__ == "__main__":
    main()
