#!/usr/bin/env python3
"""Tries built programs on all small pictures and puzzles: tests/references/small_pictures.py
PROGRAM ..

Brute force over all pictures of a size says what each answer must be, and
tests/references/reference answers each session again. Strokes: from every picture of a size, each
cell is painted in each colour, and the stroke undone; verdict, other picture, clues and map are
compared after each. Givens: every set of given cells, with its verdict and its certificate.
Puzzles: every list of clues of a size, without a goal, which opens as a picture if there is one.
One session goes through many pictures; what a second program prints is compared again only where it
differs from what the first one printed.
"""
import itertools
import subprocess
import sys
import tempfile
from pathlib import Path

sys.dont_write_bytecode = True
ROOT = Path(__file__).resolve().parent.parent.parent
sys.path.insert(0, str(ROOT / 'tests/references'))
import plain_forms  # noqa: E402
from plain_forms import Fault  # noqa: E402
from reference.lines import clues_of, map_rows, settled  # noqa: E402
from reference.runs import Run, work_run  # noqa: E402
from reference.sessions import Disagreement, Output, agree, clue_lines, picture_rows  # noqa: E402

PATIENCE = 1800  # seconds after which a run counts as one that does not end
STROKES = (
    (1, 1, 2),
    (1, 4, 2),
    (4, 1, 2),
    (2, 2, 3),
    (2, 3, 2),
    (3, 2, 2),
    (3, 3, 2),
)  # height, width, colours
GIVENS = ((1, 3, 2), (2, 2, 2), (2, 3, 2), (2, 2, 3))
PUZZLES = (
    (1, 1, 1),
    (1, 3, 1),
    (3, 1, 1),
    (2, 2, 1),
    (2, 3, 7),
    (3, 3, 211),
)  # height, width, and each so manieth is tried
TRIPLES = ('255 255 255', '0 0 0', '255 0 0')


class Listing:
    """All pictures of a size, by their clues."""

    def __init__(self, height, width, colours):
        self.pictures = [
            [list(cells[row * width : (row + 1) * width]) for row in range(height)]
            for cells in itertools.product(range(colours), repeat=height * width)
        ]
        self.by_clues = {}
        for rows in self.pictures:
            self.by_clues.setdefault(key_of(clues_of(rows)), []).append(rows)

    def others(self, rows, givens):
        """The other pictures with the clues, and with the colours in the givens."""
        return [
            other
            for other in self.by_clues[key_of(clues_of(rows))]
            if other != rows and all(other[row][col] == rows[row][col] for row, col in givens)
        ]


def key_of(clues):
    """Clues as a key."""
    return tuple(clues.items())


def blank_ppm(height, width):
    """A white picture as a P3 text."""
    return f'P3\n{width} {height}\n255\n{(TRIPLES[0] + " ") * height * width}\n'.encode()


class Talk:
    """A session that is prepared: its lines, and what judges the answer to each."""

    def __init__(self, height, width, colours):
        self.listing = Listing(height, width, colours)
        self.text = blank_ppm(height, width)
        self.rows = [[0] * width for _ in range(height)]
        self.givens = set()
        self.asked = []
        for triple in TRIPLES[1:colours]:
            self.ask(f'colour add {triple}', lambda output: output.must_lines('ok'))

    def ask(self, line, judge):
        """One line more."""
        self.asked.append((line, judge))

    def edit(self, line):
        """An edit that is accepted."""
        self.ask(line, lambda output: output.must_lines('ok'))

    def paint(self, row, col, colour):
        """A stroke, and its command."""
        self.rows[row][col] = colour
        self.edit(f'paint {row + 1} {col + 1} {".ab"[colour]}')

    def verdict(self):
        """The verdict on what is now the picture."""
        rows = [list(row) for row in self.rows]
        others = self.listing.others(rows, self.givens)

        def judge(output):
            said = output.line()
            agree(
                said == (b'ambiguous' if others else b'unique'),
                f'{said!r} of {rows}, and the others are {others}',
            )
            if others:
                shown = [output.line().decode() for _ in rows]
                agree(
                    shown in [picture_rows(other) for other in others],
                    f'the other picture of {rows} is {shown}',
                )

        self.ask('verdict', judge)

    def show(self):
        """Clues and map of what is now the picture."""
        clues, shown = clue_lines(clues_of(self.rows)), map_rows(
            settled(self.rows, sorted(self.givens))
        )
        self.ask('clues', lambda output: output.must_lines(*clues))
        self.ask('map', lambda output: output.must_lines(*shown))

    def certify(self):
        """A certificate exactly where there is no other picture, with exactly the givens, and a
        proof for the plain checker."""
        rows = [list(row) for row in self.rows]
        givens = sorted(self.givens)
        others = self.listing.others(rows, givens)

        def judge(output):
            if others:
                output.must_lines('ambiguous')
                return
            cert = certificate_of(output)
            _, named, _, _ = plain_forms.read_certificate(cert)
            agree(
                named == [(row + 1, col + 1) for row, col in givens],
                f'the givens of {rows} with {givens} are {named}',
            )
            plain_forms.check(plain_forms.Puzzle(ordered(rows)), cert)

        self.ask('certify', judge)

    def run(self, programs, folder):
        """Runs it and judges each answer, by the listing and by the reference."""
        lines = ''.join(line + '\n' for line, _ in self.asked).encode()
        for run in runs_of(programs, folder, self.text, lines, []):
            agree(
                (run.status, run.said) == (0, b''),
                f'a session ends with {run.status} and says {run.said}',
            )
            output = Output(run.wrote)
            for _, judge in self.asked:
                judge(output)
            output.end()
            work_run(run, self.text, lines)


def certificate_of(output):
    """A printed certificate: the lines up to one that is no line of it."""
    lines = [output.line()]
    while output.at < len(output.text):
        end = output.text.find(b'\n', output.at)
        line = output.text[output.at : end]
        if line.split(b' ')[0] not in (b'given', b'line', b'split', b'dead', b'done'):
            break
        lines.append(output.line())
    return b'\n'.join(lines) + b'\n'


def ordered(rows):
    """A picture with its colours numbered by first appearance, as `write ppm` writes it."""
    numbers = {0: 0}
    for colour in itertools.chain(*rows):
        numbers.setdefault(colour, len(numbers))
    return [[numbers[colour] for colour in row] for row in rows]


def runs_of(programs, folder, text, lines, words):
    """The runs of a session on a file, by each program; those that end and print alike are one."""
    (Path(folder) / 'picture').write_bytes(text)
    runs = {}
    for program in programs:
        ended = subprocess.run(
            [program, 'work', 'picture', *words],
            cwd=folder,
            input=lines,
            capture_output=True,
            timeout=PATIENCE,
            check=False,
        )
        runs[ended.returncode, ended.stdout, ended.stderr] = Run(
            ended.returncode, ended.stdout, ended.stderr
        )
    return runs.values()


def steps_through(radix, digits):
    """A way through all numbers of so many digits, each step in one digit: the digit and its new
    value."""
    at, rise = [0] * digits, [1] * digits
    while True:
        for digit in range(digits):
            if 0 <= at[digit] + rise[digit] < radix:
                at[digit] += rise[digit]
                yield digit, at[digit]
                break
            rise[digit] = -rise[digit]
        else:
            return


def all_strokes(programs, folder, height, width, colours):
    """Each paint of each cell from each picture; how many strokes."""
    talk = Talk(height, width, colours)
    steps = [None, *steps_through(colours, height * width)]
    agree(len(steps) == len(talk.listing.pictures), 'not every picture is reached')
    count = 0
    for step in steps:
        if step is not None:
            talk.paint(step[0] // width, step[0] % width, step[1])
        talk.verdict()
        talk.show()
        for row, col, colour in itertools.product(range(height), range(width), range(colours)):
            before = talk.rows[row][col]
            if colour != before:
                talk.paint(row, col, colour)
                talk.verdict()
                talk.show()
                talk.rows[row][col] = before
                talk.edit('undo')
                count += 1
    talk.verdict()
    talk.run(programs, folder)
    return count


def all_givens(programs, folder, height, width, colours):
    """Each set of given cells of each picture; how many sets."""
    talk = Talk(height, width, colours)
    count = 0
    for step in [None, *steps_through(colours, height * width)]:
        if step is not None:
            talk.paint(step[0] // width, step[0] % width, step[1])
        for change in [None, *steps_through(2, height * width)]:
            if change is not None:
                cell = change[0] // width, change[0] % width
                talk.edit(
                    f'{"unpin" if cell in talk.givens else "pin"} {cell[0] + 1} {cell[1] + 1}'
                )
                talk.givens ^= {cell}
            talk.verdict()
            talk.certify()
            count += 1
    talk.run(programs, folder)
    return count


def line_clues(length):
    """All clues in black of a line."""
    return sorted(
        {clue for rows in Listing(1, length, 2).pictures for clue in [clues_of(rows)['r', 0]]}
    )


def judge_puzzle(run, text, pictures, goal_line):
    """A puzzle is opened exactly where it has a picture, as one of its pictures, and unique where
    it has one alone."""
    agree(
        (run.status == 0) == bool(pictures),
        f'{text!r} ends with {run.status}, and the pictures are {pictures}',
    )
    if pictures:
        goal, word = run.wrote.decode().splitlines()[goal_line : goal_line + 2]
        flat = [f'goal "{"".join(str(cell) for row in one for cell in row)}"' for one in pictures]
        agree(goal in flat, f'{text!r} is opened as {goal}')
        agree(word == ('unique' if len(pictures) == 1 else 'ambiguous'), f'{text!r} is {word}')


def all_puzzles(programs, folder, height, width, each):
    """Puzzles by all lists of clues, each so manieth of them; how many."""
    listing = Listing(height, width, 2)
    rows, columns = line_clues(width), line_clues(height)
    count = opened = 0
    for clues in itertools.islice(
        itertools.product(*[rows] * height, *[columns] * width), 0, None, each
    ):
        named = dict(
            zip([('r', i) for i in range(height)] + [('c', i) for i in range(width)], clues)
        )
        texts = [','.join(str(length) for length, _ in clue) or '0' for clue in clues]
        text = '\n'.join(
            [
                f'width {width}',
                f'height {height}',
                'rows',
                *texts[:height],
                'columns',
                *texts[height:],
                '',
            ]
        )
        lines = b'write non\nverdict\n'
        pictures = listing.by_clues.get(key_of(named), [])
        opened += bool(pictures)
        for run in runs_of(programs, folder, text.encode(), lines, ['--format', 'non']):
            judge_puzzle(run, text, pictures, height + width + 4)
            work_run(run, text.encode(), lines, is_non=True)
        count += 1
    agree(height * width == 1 or 0 < opened < count, f'{opened} of {count} puzzles have a picture')
    return count


def main(programs):
    """All of it, and how much."""
    programs = [str(Path(program).resolve()) for program in programs]
    with tempfile.TemporaryDirectory() as folder:
        try:
            strokes = sum(all_strokes(programs, folder, *size) for size in STROKES)
            givens = sum(all_givens(programs, folder, *size) for size in GIVENS)
            puzzles = sum(all_puzzles(programs, folder, *size) for size in PUZZLES)
        except (Disagreement, Fault, subprocess.TimeoutExpired) as wrong:
            print(wrong, file=sys.stderr)
            return 1
    print(
        f'{strokes} strokes, {givens} sets of givens and {puzzles} puzzles without a goal as a'
        ' listing says'
    )
    return 0


if __name__ == '__main__':
    sys.exit(main(sys.argv[1:]))
