#!/usr/bin/env python3
"""Counts instructions, compared with a native program: measure/native.py NATIVE [FIGURE ..]

NATIVE is a folder with the sources `nonoref.cpp` and `treecert.cpp`, P3 files in `pictures/` and
`hard/`, and sessions in `sessions/`, each named after one of these pictures, as
`NUMBER-KIND_PICTURE.txt`. The sources are built in a folder that is deleted at the end. They
settle, judge and write trees in the same way, with words of 64 bits for pictures of at most 63
cells a side. It needs g++, valgrind, and the programs `nonobench` and `tables` that bash .ci/run
leaves. A FIGURE is one of these; without any, all are measured:

line      an evaluation and leaving out by `tables`, in instructions; lines that are open and half
settled strokes   sessions with `map` after each edit instead of their questions, without opening
and start verdict   a session of one `verdict`, without the start certify   a session of one
`certify` on `hard/`, compared with treecert, without the starts

A start is what a picture of one cell takes. It prints a row for each picture or session, and the
median and the largest of each figure. A picture for which the native program takes more than
SECONDS is left out.
"""
import re
import statistics
import subprocess
import sys
import tempfile
from pathlib import Path

sys.dont_write_bytecode = True
ROOT = Path(__file__).resolve().parent.parent
OURS = ROOT / 'crates/nonobench/out/nonobench'
TABLES = ROOT / 'crates/tables/out/tables'
SECONDS = 60
CELL = 'P3\n1 1\n255\n0 0 0\n'
FIGURES = ('line', 'strokes', 'verdict', 'certify')


def ended(words, said='', seconds=SECONDS):
    """A run that has ended, or None where it takes too long."""
    try:
        return subprocess.run(
            [str(word) for word in words],
            input=said,
            capture_output=True,
            text=True,
            timeout=seconds,
        )
    except subprocess.TimeoutExpired:
        return None


def collected(words, said=''):
    """The instructions of a run, and what it printed. None where it takes too long."""
    run = ended(
        ['valgrind', '--tool=callgrind', '--callgrind-out-file=/dev/null', *words],
        said,
        50 * SECONDS,
    )
    collected = run and re.search(r'Collected : (\d+)', run.stderr)
    return (int(collected[1]) if collected else None), run.stdout if run else ''


def less(cost, start):
    """What a run takes beyond a start, if both came to their end."""
    return cost - start if cost and start else None


class Table:
    """Rows of a figure, and at the end what most of them are."""

    def __init__(self, figure, *heads):
        self.figure, self.ratios = figure, []
        print(f'\n{figure}\n' + ' '.join(f'{head:>28}' for head in heads), flush=True)

    def row(self, name, ours, native):
        if not ours or not native or min(ours, native) < 0:
            print(f'{name:>28} {"-":>28}', flush=True)
            return
        self.ratios.append(ours / native)
        print(f'{name:>28} {ours:>28} {native:>28} {ours / native:>28.2f}', flush=True)

    def end(self):
        if self.ratios:
            print(
                f'{self.figure}: median {statistics.median(self.ratios):.2f}, largest'
                f' {max(self.ratios):.2f}, of {len(self.ratios)}'
            )


def line(native, folder, start):
    print(
        f'\nline\n{"cells":>8} {"blocks":>8} {"settled":>8} {"evaluation":>12} {"leave_out":>12} {"times":>8}'  # noqa: E501
    )
    swept, rounds = [], 200
    for cells in (120, 65, 64, 63, 62, 30, 15):
        for blocks in (1, 5, 15):
            if 2 * blocks > cells + 1:
                continue
            for settled in ('open', 'half'):
                cost = []
                for engine in ('mask', 'sweep'):
                    few, many = (
                        collected([TABLES, 'line', engine, cells, blocks, settled, n])[0]
                        for n in (1, rounds + 1)
                    )
                    cost.append((many - few) / rounds)
                swept.append(cost[1] / cost[0])
                print(
                    (
                        f'{cells:>8} {blocks:>8} {settled:>8} {cost[0]:>12.0f} {cost[1]:>12.0f} {cost[1] / cost[0]:>8.2f}'  # noqa: E501
                    ),
                    flush=True,
                )
    print(f'leave_out: median {statistics.median(swept):.2f} evaluations, largest {max(swept):.2f}')


def picture_of(session, folder):
    name = session.stem.split('_', 1)[1]
    return next(
        (
            p
            for p in (folder / 'pictures' / f'{name}.ppm', folder / 'hard' / f'{name}.ppm')
            if p.exists()
        ),
        None,
    )


def strokes(native, folder, start):
    table = Table('strokes', 'session', 'nonobench', 'native', 'times')
    for session in sorted((folder / 'sessions').glob('*.txt')):
        picture = picture_of(session, folder)
        if picture is None:
            print(f'{session.stem:>28} its picture is not there')
            continue
        asked = session.read_text().replace('verdict\n', 'map\n')
        edits = [collected([program, 'work', picture], asked) for program in (OURS, native)]
        if edits[0][1] != edits[1][1]:
            print(f'{session.stem}: the maps differ', flush=True)
        opened = [collected([program, 'work', picture])[0] for program in (OURS, native)]
        table.row(session.stem, less(edits[0][0], opened[0]), less(edits[1][0], opened[1]))
    table.end()


def compared(table, pictures, asked, theirs, starts):
    """A row for each picture: a session of one command, and a native program on it, both without
    their starts."""
    for picture in sorted(pictures.glob('*.ppm')):
        runs = ([OURS, 'work', picture], asked), theirs(picture)
        costs = (
            [collected(*run)[0] for run in runs]
            if all(ended(*run) for run in runs)
            else (None, None)
        )
        table.row(picture.stem, *map(less, costs, starts))
    table.end()


def verdict(native, folder, start):
    table = Table('verdict', 'picture', 'nonobench', 'native', 'times')
    compared(
        table,
        folder / 'pictures',
        'verdict\n',
        lambda picture: ([native, 'work', picture], 'verdict\n'),
        start,
    )


def certify(native, folder, start):
    table = Table('certify', 'picture', 'nonobench', 'treecert', 'times')
    writer = native.with_name('treecert')
    build(folder / 'treecert.cpp', writer)
    begun = collected([writer, native.with_name('cell.ppm')])[0]
    compared(
        table, folder / 'hard', 'certify\n', lambda picture: ([writer, picture],), (start[0], begun)
    )


def build(source, program):
    """Compiles a native program. It is not linked statically: at its first exception a static one
    sorts the unwinder's tables, in five million instructions that are no search. All symbols are
    found at the start, which is taken off.
    """
    subprocess.run(
        ['g++', '-std=c++17', '-O3', '-march=x86-64-v3', '-Wl,-z,now', '-w', '-o', program, source],
        check=True,
    )


def main():
    words = sys.argv[1:]
    if not words or any(word not in FIGURES for word in words[1:]):
        sys.exit(__doc__)
    for program in (OURS, TABLES):
        if not program.exists():
            sys.exit(f'this needs {program}, which bash .ci/run leaves')
    folder = Path(words[0])
    with tempfile.TemporaryDirectory() as work:
        native, cell = Path(work) / 'nonoref', Path(work) / 'cell.ppm'
        cell.write_text(CELL)
        build(folder / 'nonoref.cpp', native)
        start = [collected([program, 'work', cell])[0] for program in (OURS, native)]
        print(f'start: {start[0]} and {start[1]} instructions')
        for figure in words[1:] or FIGURES:
            globals()[figure](native, folder, start)


if __name__ == '__main__':
    main()
