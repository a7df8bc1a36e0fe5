#!/usr/bin/env python3
"""Tries the ladder of searches on all small pictures, within bounds so small that each search
answers: tests/references/small_bounds.py PROGRAM ..

The programs are builds of the crate `search_tables`, which are asked by its call `within`. All
pictures of three by three and of two by four cells in two colours, and a sample of those in three,
are judged and certified, with and without givens, within several bounds. Brute force over all
pictures says what each answer must be; the checker of plain_forms.py must accept each certificate.
"""
import functools
import itertools
import random
import re
import subprocess
import sys
from pathlib import Path

sys.dont_write_bytecode = True
ROOT = Path(__file__).resolve().parent.parent.parent
sys.path.insert(0, str(ROOT / 'tests/references'))
import plain_forms  # noqa: E402
from reference.sessions import Disagreement, agree  # noqa: E402
from small_pictures import PATIENCE, Listing  # noqa: E402

SAMPLES = (
    (3, 3, 2, 1),
    (2, 4, 2, 1),
    (3, 3, 3, 41),
)  # height, width, colours, and each so manieth picture is tried
# Splits of the fixed order, and when it is begun anew, splits in a window, conflicts of a search
# with lemmas, evaluations of a tree at first. Those of the program; windows first; lemmas first;
# trees alone, with a bound that each keeps; one that grows; one that cannot grow, so that the last
# tree is written without a bound.
PROGRAMS, WINDOWS, LEMMAS = (
    (100, 500, 64, 100000, 10000),
    (0, 0, 64, 0, 10000),
    (0, 0, 0, 1000, 10000),
)
TREES, GROWING, LAST = (0, 0, 0, 0, 10000), (0, 0, 0, 0, 1), (0, 0, 0, 0, 0)
BOUNDS = (PROGRAMS, WINDOWS, LEMMAS, TREES, GROWING, LAST, (1, 5, 1, 1, 7))
SAID = re.compile(
    r'(unique|ambiguous), (\d+) searched, (\d+) splits, (\d+) evaluations(?:: (\S+))?'
)


def frozen(rows):
    """A picture as a key."""
    return tuple(map(tuple, rows))


def text_of(rows, givens):
    """A picture in the words of a table."""
    return '/'.join(
        ''.join((',AB' if (r, c) in givens else '.ab')[colour] for c, colour in enumerate(row))
        for r, row in enumerate(rows)
    )


def rows_of(text):
    """A picture without givens from the words of a table."""
    return tuple(tuple('.ab'.index(letter) for letter in row) for row in text.split('/'))


def cases():
    """Pictures, givens, and what else has the clues and the colours in the givens."""
    chance = random.Random(20261126)
    for height, width, colours, step in SAMPLES:
        listing = Listing(height, width, colours)
        cells = list(itertools.product(range(height), range(width)))
        for rows in listing.pictures[::step]:
            for givens in ([], [cell for cell in cells if chance.random() < 0.2]):
                yield frozen(rows), givens, [
                    frozen(other) for other in listing.others(rows, givens)
                ]


@functools.lru_cache(maxsize=None)
def accept(rows, givens, text):
    """A certificate must have exactly the givens, and be accepted."""
    cert = text.replace('|', '\n').encode()
    form, named, _, _ = plain_forms.read_certificate(cert)
    agree(form == f'nonocert {2 if givens else 1}', f'the form is {form}')
    agree(named == [(row + 1, col + 1) for row, col in givens], f'the givens are {named}')
    try:
        plain_forms.check(plain_forms.Puzzle(rows), cert)
    except plain_forms.Fault as fault:
        raise Disagreement(f'the certificate is refused: {fault}') from fault


def compare(bounds, case, said, cert):
    """What is said of a picture within bounds; its splits and evaluations, or None where no part is
    open."""
    rows, givens, others = case
    found = SAID.fullmatch(said)
    agree(found is not None, f'{said} was answered')
    word, searched, splits, evaluations, other = found.groups()
    agree(
        (word == 'ambiguous') == bool(others),
        f'{word} was answered, and there are {len(others)} others',
    )
    agree(other is None or rows_of(other) in others, f'{other} was shown')
    agree(int(splits) <= bounds[0] * int(searched), f'{splits} splits')
    agree((cert == 'none') == bool(others), f'{cert} was answered as the certificate')
    if not others:
        accept(rows, tuple(givens), cert)
    return (int(splits), int(evaluations)) if int(searched) else None


class Work:
    """What was searched within each of the bounds: how many pictures, with how many splits and
    evaluations."""

    def __init__(self):
        self.by_kind = {}

    def add(self, bounds, is_unique, done):
        """Counts a picture with open parts."""
        count, splits, evaluations = self.by_kind.get((bounds, is_unique), (0, 0, 0))
        self.by_kind[bounds, is_unique] = count + 1, splits + done[0], evaluations + done[1]

    def must_reach_all(self):
        """Each way has answered, both where there is another picture and where there is none."""
        for is_unique in (False, True):
            done = {bounds: self.by_kind[bounds, is_unique] for bounds in BOUNDS}
            agree(done[PROGRAMS][1] > 0, 'the fixed order split nothing')
            agree(
                all(done[bounds][1] == 0 for bounds in BOUNDS[1:6]),
                'the fixed order was gone on with',
            )
            agree(done[LEMMAS][2] != done[TREES][2], 'lemmas answered nothing')
            spent = [done[bounds][2] for bounds in (PROGRAMS, WINDOWS, TREES, GROWING, LAST)]
            # A tree that is broken off stops at its bound, so those before the last one may cost
            # less than one that suffices.
            agree(len(set(spent)) == len(spent), f'evaluations within the bounds: {spent}')


def compare_all(program):
    """Asks a program; how many answers."""
    asked = [(bounds, case) for case in cases() for bounds in BOUNDS]
    lines = ''.join(
        'within %d %d %d %d %d %s\n' % (*bounds, text_of(*case[:2])) for bounds, case in asked
    )
    run = subprocess.run(
        [program], input=lines.encode(), capture_output=True, timeout=PATIENCE, check=False
    )
    agree(
        (run.returncode, run.stderr) == (0, b''),
        f'the program ends with {run.returncode} and says {run.stderr}',
    )
    answers = run.stdout.decode().splitlines()
    agree(len(answers) == 2 * len(asked), f'{len(answers)} lines answer {len(asked)} calls')
    work = Work()
    for (bounds, case), said, cert in zip(asked, answers[::2], answers[1::2]):
        try:
            done = compare(bounds, case, said, cert)
        except (Disagreement, plain_forms.Fault) as wrong:
            raise Disagreement(f'{text_of(*case[:2])} within {bounds}: {wrong}') from wrong
        if done is not None:
            work.add(bounds, not case[2], done)
    work.must_reach_all()
    return len(answers)


def main(programs):
    """All of it, and how many answers."""
    for program in programs:
        try:
            count = compare_all(str(Path(program).resolve()))
        except (Disagreement, subprocess.TimeoutExpired) as wrong:
            print(f'{program}: {wrong}', file=sys.stderr)
            return 1
        print(f'{program}: {count} answers within small bounds as a listing says')
    return 0


if __name__ == '__main__':
    sys.exit(main(sys.argv[1:]))
