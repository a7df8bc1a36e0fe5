#!/usr/bin/env python3
"""Opens puzzles of which only the clues are known: measure/from_clues.py PROGRAM [FOLDER ..]

PROGRAM is `nonobench`. It opens .non texts without a goal, so it has to find a picture first. The
puzzles are made here, always the same ones: blobs, lines, icons (symmetric), caves (a cellular
automaton), rings and noise of 20 to 40 cells a side, noise of several densities, rings upon rings,
chequers and stripes. Of each P3 picture in the folders that has one colour besides white, the clues
are a puzzle too. Each may take 10 seconds of processor time. It prints a row for each with its
seconds, and at the end how many are open.
"""
import math
import random
import resource
import subprocess
import sys
import tempfile
from pathlib import Path

sys.dont_write_bytecode = True
ROOT = Path(__file__).resolve().parent.parent
sys.path.insert(0, str(ROOT / 'tests/references'))
from reference.non import write_non  # noqa: E402
from reference.pictures import read_ppm  # noqa: E402

SECONDS = 10
NOISE = (
    (20, 50),
    (25, 50),
    (30, 40),
    (30, 50),
    (30, 60),
    (40, 30),
    (40, 50),
    (40, 60),
    (50, 50),
    (60, 30),
    (60, 50),
    (60, 70),
)
RINGS = ((3.1, 3.4, 48), (4, 4.5, 48), (2.5, 2.7, 40), (5, 5.5, 60), (3, 3.3, 32), (2.2, 2.4, 60))
CHEQUERS = ((20, 2), (30, 2), (40, 2), (60, 2), (30, 3), (60, 3), (60, 5))
STRIPES = ((30, 4), (60, 4), (60, 7), (60, 10), (40, 5))


def disc(cells, centre, radii, colour, hollow=0.0):
    """Paints the cells within an ellipse, or its ring where it is hollow."""
    (row, col), (high, wide) = centre, radii
    for r in range(len(cells)):
        for c in range(len(cells[0])):
            d = ((r - row) / high) ** 2 + ((c - col) / wide) ** 2
            if hollow <= d <= 1:
                cells[r][c] = colour


def blobs(rng, h, w, k):
    cells = [[0] * w for _ in range(h)]
    for _ in range(rng.randrange(4, 4 + (h + w) // 3)):
        centre = rng.randrange(h), rng.randrange(w)
        radii = rng.uniform(1, h / 5), rng.uniform(1, w / 5)
        disc(cells, centre, radii, rng.randrange(k))
    return cells


def rings(rng, h, w, k):
    cells = [[0] * w for _ in range(h)]
    for _ in range(rng.randrange(4, 4 + (h + w) // 5)):
        high, wide = rng.uniform(2, h / 3), rng.uniform(2, w / 3)
        centre = rng.randrange(h), rng.randrange(w)
        hollow = max(0.0, 1 - 3.2 / min(high, wide))
        disc(cells, centre, (high, wide), rng.randrange(1, k), hollow)
    return cells


def lines(rng, h, w, k):
    cells = [[0] * w for _ in range(h)]
    for _ in range(rng.randrange(5, 5 + (h + w) // 4)):
        r, c, colour, thick = (
            rng.randrange(h),
            rng.randrange(w),
            rng.randrange(1, k),
            rng.choice((1, 1, 2)),
        )
        angle, length = rng.uniform(0, 2 * math.pi), rng.uniform(4, max(h, w))
        for step in range(int(2 * length)):
            y, x = r + math.sin(angle) * step / 2, c + math.cos(angle) * step / 2
            for dy in range(thick):
                if 0 <= int(y) + dy < h and 0 <= int(x) < w:
                    cells[int(y) + dy][int(x)] = colour
    return cells


def smooth(cells, rng, rounds):
    h, w = len(cells), len(cells[0])
    for _ in range(rounds):
        new = [[0] * w for _ in range(h)]
        for r in range(h):
            for c in range(w):
                near = [
                    cells[y][x]
                    for y in range(max(0, r - 1), min(h, r + 2))
                    for x in range(max(0, c - 1), min(w, c + 2))
                ]
                full = [x for x in near if x]
                new[r][c] = (
                    max(set(full), key=lambda x: (full.count(x), -x))
                    if 2 * len(full) > len(near)
                    else 0
                )
        cells = new
    return cells


def icons(rng, h, w, k):
    half = (w + 1) // 2
    cells = [
        [rng.randrange(1, k) if rng.random() < 0.52 else 0 for _ in range(half)] for _ in range(h)
    ]
    cells = smooth(cells, rng, rng.choice((1, 2)))
    return [row + row[: w - half][::-1] for row in cells]


def caves(rng, h, w, k):
    return smooth(
        [[rng.randrange(1, k) if rng.random() < 0.5 else 0 for _ in range(w)] for _ in range(h)],
        rng,
        2,
    )


def noise(rng, h, w, k):
    density = rng.uniform(0.15, 0.85)
    return [
        [rng.randrange(1, k) if rng.random() < density else 0 for _ in range(w)] for _ in range(h)
    ]


def square(side, is_filled):
    """A square picture of what is filled."""
    return [[int(is_filled(row, col)) for col in range(side)] for row in range(side)]


def of_kinds():
    """Pictures of six kinds, in one colour."""
    for kind in (blobs, lines, icons, caves, rings, noise):
        rng = random.Random(f'{kind.__name__}7')
        for number in range(6):
            height, width = rng.randrange(20, 41), rng.randrange(20, 41)
            yield f'{kind.__name__}-{number}', [
                [int(colour > 0) for colour in row] for row in kind(rng, height, width, 2)
            ]


def periodic():
    """Pictures with regular patterns, and noise."""
    for side, percent in NOISE:
        rng = random.Random(side * 100 + percent)
        yield f'noise-{side}-d{percent}', square(
            side, lambda row, col: rng.random() < percent / 100
        )
    for number, (one, other, side) in enumerate(RINGS):

        def ring(row, col, wide, part):
            return math.floor(math.hypot(row - side * part, col - side * part) / wide)

        yield f'moire-{number}', square(
            side, lambda row, col: (ring(row, col, one, 0.3) + ring(row, col, other, 0.7)) % 2
        )
        yield f'square-{number}', square(
            side,
            lambda row, col: math.floor(((row - side / 2) ** 2 + (col - side / 2) ** 2) / (one * 6))
            % 2,
        )
    for side, wide in CHEQUERS:
        yield f'chequers-{side}-t{wide}', square(
            side, lambda row, col: (row // wide + col // wide) % 2
        )
    for side, period in STRIPES:
        yield f'stripes-{side}-p{period}', square(
            side, lambda row, col: (row + col) % period < period // 2
        )


def of_folder(folder):
    """The pictures of a folder that have one colour besides white."""
    for path in sorted(Path(folder).glob('*.ppm')):
        rows = read_ppm(path.read_bytes()).rows
        if max(max(row) for row in rows) <= 1:
            yield path.stem, rows


def seconds_to_open(program, puzzle):
    """The processor time that opening takes, or None if it takes too long."""
    before = resource.getrusage(resource.RUSAGE_CHILDREN)
    run = subprocess.run(
        [
            'bash',
            '-c',
            f'ulimit -t {SECONDS}; exec "$@"',
            'limited',
            program,
            'work',
            puzzle,
            '--format',
            'non',
        ],
        stdin=subprocess.DEVNULL,
        capture_output=True,
        check=False,
    )
    after = resource.getrusage(resource.RUSAGE_CHILDREN)
    if run.returncode > 0:
        sys.exit(run.stderr.decode())
    took = after.ru_utime + after.ru_stime - before.ru_utime - before.ru_stime
    return took if run.returncode == 0 else None


def main():
    if len(sys.argv) < 2:
        sys.exit(__doc__)
    pictures = [*of_kinds(), *periodic()]
    for folder in sys.argv[2:]:
        pictures += of_folder(folder)
    left = []
    with tempfile.TemporaryDirectory() as work:
        puzzle = Path(work) / 'puzzle.non'
        for name, rows in pictures:
            text = write_non(rows).decode().splitlines()
            puzzle.write_text(''.join(f'{line}\n' for line in text if not line.startswith('goal')))
            took = seconds_to_open(sys.argv[1], puzzle)
            left += [name] if took is None else []
            print(f'{name:<28} {"open" if took is None else f"{took:.2f}"}', flush=True)
    print(f'{len(left)} of {len(pictures)} are open after {SECONDS} s: {", ".join(left)}')


if __name__ == '__main__':
    main()
