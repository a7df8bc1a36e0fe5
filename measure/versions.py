#!/usr/bin/env python3
"""Compares the instructions of two programs: measure/versions.py OLD NEW PICTURE.ppm ..

OLD and NEW are programs `nonobench`. For each picture it counts, by callgrind, what each takes to
show the clues, to answer a session of strokes with `map` after each, one `verdict` and one
`certify`, to `prove`, and to `check` OLD's certificate. It prints a row for each picture with
NEW's instructions divided by OLD's, and the median and the largest of each column; `-` stands for
what took longer than SECONDS, or was not made.
"""
import re
import statistics
import subprocess
import sys
import tempfile
from pathlib import Path

SECONDS = 300
STROKES = ''.join(f'paint {n} {n} a\nmap\npaint {n} {n} .\nmap\n' for n in range(1, 11))
COUNTED = ('valgrind', '--tool=callgrind', '--callgrind-out-file=/dev/null')


def ended(words, said=b''):
    """A run that has ended, or None if it takes too long."""
    try:
        return subprocess.run(words, input=said, capture_output=True, timeout=SECONDS)
    except subprocess.TimeoutExpired:
        return None


def instructions(words, said):
    """The instructions of a run, or None if it takes too long or is refused."""
    run = ended([*COUNTED, *words], said)
    collected = run and re.search(rb'Collected : (\d+)', run.stderr)
    return int(collected[1]) if collected and run.returncode in (0, 1) else None


def calls(program, picture, certificate):
    """The words and the input of each call, by its name."""
    made = {
        'clues': ([program], picture.read_bytes()),
        'strokes': ([program, 'work', picture], STROKES.encode()),
        'verdict': ([program, 'work', picture], b'verdict\n'),
        'certify': ([program, 'work', picture], b'certify\n'),
        'prove': ([program, 'prove', picture], b''),
    }
    if certificate:
        made['check'] = ([program, 'check', picture, certificate], b'')
    return made


def row_of(old, new, picture, folder):
    """By call, NEW's instructions divided by OLD's."""
    run = ended([old, 'prove', picture])
    certificate = folder / 'certificate'
    if run and run.returncode == 0:
        certificate.write_bytes(run.stdout)
    else:
        certificate = None
    ratios = {}
    theirs, ours = (calls(program, picture, certificate) for program in (old, new))
    for name, call in theirs.items():
        counts = instructions(*call), instructions(*ours[name])
        if all(counts):
            ratios[name] = counts[1] / counts[0]
    return ratios


def main():
    old, new, *pictures = sys.argv[1:]
    names = ('clues', 'strokes', 'verdict', 'certify', 'prove', 'check')
    rows = []
    print(f'{"picture":32}', *(f'{name:>8}' for name in names))
    with tempfile.TemporaryDirectory() as folder:
        for picture in map(Path, pictures):
            rows.append(row_of(old, new, picture, Path(folder)))
            shown = (f'{rows[-1][name]:8.3f}' if name in rows[-1] else '       -' for name in names)
            print(f'{picture.stem:32}', *shown, flush=True)
    for what, of in (('median', statistics.median), ('largest', max)):
        columns = ([row[name] for row in rows if name in row] for name in names)
        print(f'{what:32}', *(f'{of(column):8.3f}' if column else '       -' for column in columns))


if __name__ == '__main__':
    main()
