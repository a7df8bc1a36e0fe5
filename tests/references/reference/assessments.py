"""Whether a puzzle is fit to be published: the path of line logic, the grade, the flaws, and the
text that says all this.

A verdict is handed in as a call: for a set of givens it answers 'unique', 'ambiguous' or
'undecided'.
"""
import re
from functools import lru_cache

import plain_forms

from .lines import base_of, clue_of, clues_of, close, letter, narrow
from .search import open_cells, pictures_with

TEXT = re.compile(
    r"""(unique|undecided|ambiguous)
(?P<other>([.a-o]+\n)*)size N N
colours N
givens N
open N
(grade (unknown N N N|(easy|medium|hard|very-hard|expert) N N N (?P<splits>N) (?P<depth>N))
)?(flaw blank
)?(flaw background
)?(flaw given N N
)?(flaw alike [.a-o] [.a-o]
)*(fit|unfit)
""".replace(
        'N', '(?:0|[1-9][0-9]*)'
    ).encode()
)


def read_assessment(text, at=0):
    """The assessment at a place of a text, or None: the rows of the other picture, the splits and
    the depth are named."""
    return TEXT.match(text, at)


class Solving:
    """Line logic on a picture with givens, look by look: the figures, the path, and in the end the
    colours left."""

    def __init__(self, rows, givens):
        height, self.width = len(rows), len(rows[0])
        occur = 1
        for row in rows:
            for colour in row:
                occur |= 1 << colour
        self.left = [
            1 << colour if (r, c) in givens else occur
            for r, row in enumerate(rows)
            for c, colour in enumerate(row)
        ]
        self.lines = lines_of(height, self.width)
        self.clues = clues_of(rows)
        self.due = {line for line, _ in self.lines}
        self.rounds = self.looks = self.wait = self.since = 0
        self.path = []
        self.go()

    def go(self):
        """Rounds through all lines, until one looks at none."""
        number, before = 1, -1
        while self.looks != before:
            before = self.looks
            for line, cells in self.lines:
                if line in self.due:
                    masks = tuple([self.left[cell] for cell in cells])
                    if any(mask & (mask - 1) for mask in masks):
                        self.look(line, cells, masks, number)
            number += 1

    def look(self, line, cells, masks, number):
        """One look at a line, in a round."""
        self.looks += 1
        self.since += 1
        self.due.discard(line)
        after = narrow(self.clues[line], masks)
        if after == masks:
            return
        excluded, falls = 0, []
        for at, cell in enumerate(cells):
            gone = masks[at] & ~after[at]
            if gone:
                excluded += gone.bit_count()
                self.left[cell] = after[at]
                self.due.add(
                    ('c', cell % self.width) if line[0] == 'r' else ('r', cell // self.width)
                )
                if not after[at] & (after[at] - 1):
                    falls.append(f' {at + 1}={letter(after[at].bit_length() - 1)}')
        self.rounds = number
        stands = ' stands' if stand(self.clues[line], masks) else ''
        text = f'{line[0]} {line[1] + 1} {number} {excluded}{"".join(falls)}{stands}'
        self.path.append((text, line, masks, after))
        if falls:
            self.wait = max(self.wait, self.since)
            self.since = 0

    def open(self):
        """How many cells are open in the end."""
        return sum(1 for mask in self.left if mask & (mask - 1))


def stand(clue, masks):
    """Whether all blocks of a line stand: its settled cells have its clue, with background in the
    open ones."""
    return clue == clue_of([0 if mask & (mask - 1) else mask.bit_length() - 1 for mask in masks])


@lru_cache
def lines_of(height, width):
    """The names of all lines, rows first, each with the numbers of its cells."""
    return [(('r', r), [r * width + c for c in range(width)]) for r in range(height)] + [
        (('c', c), [r * width + c for r in range(height)]) for c in range(width)
    ]


def word_of(rounds, wait, opened, splits, depth):
    """The word of a grade."""
    if opened:
        return 'very-hard' if splits <= 3 and depth <= 2 else 'expert'
    if rounds <= 2 and wait <= 8:
        return 'easy'
    return 'medium' if rounds <= 4 and wait <= 15 else 'hard'


@lru_cache(maxsize=4096)
def shown(triple, maxval):
    """A colour's samples from 0 to 255, halves rounded up."""
    return tuple((2 * 255 * sample + maxval) // (2 * maxval) for sample in triple)


@lru_cache(maxsize=4096)
def are_too_similar(one, other, maxval):
    """Whether two colours are too similar."""
    (r, g, b), (red, green, blue) = shown(one, maxval), shown(other, maxval)
    s = r + red
    return (1024 + s) * (r - red) ** 2 + 2048 * (g - green) ** 2 + (1534 - s) * (
        b - blue
    ) ** 2 < 2_097_152


def alike(document):
    """The pairs of colours that are too similar, of those that cells have and the background."""
    seen = sorted({0}.union(*document.rows))
    return [
        (one, other)
        for one in seen
        for other in seen
        if one < other
        and are_too_similar(document.colours[one], document.colours[other], document.maxval)
    ]


def by_listing(rows):
    """The verdict on a picture by a listing of all pictures with its clues that its map leaves."""
    clues, height, width = clues_of(rows), len(rows), len(rows[0])

    def verdict(givens):
        left = close(clues, base_of(rows, givens))
        return 'unique' if len(pictures_with(clues, height, width, left, 2)) == 1 else 'ambiguous'

    return verdict


class Assessment:
    """What is said of a document. With a certificate, which the checker must accept with the givens
    as published, `verdict` is not called."""

    def __init__(self, document, verdict, certificate=None):
        self.document = document
        self.solving = Solving(document.rows, document.givens)
        self.open = self.solving.open()
        self.seen = set().union(*document.rows)
        if certificate is None:
            self.word = verdict(document.givens)
        else:
            guesses_of(document, certificate)  # raises what is wrong with it
            self.word = 'unique'

    def lines(self, other=(), guesses=None):
        """All lines. `other` are the rows of another picture, and `guesses` the splits and the
        depth of the tree from which the grade is taken, if one is found; each counts only where it
        is asked for."""
        return [
            self.word,
            *(other if self.word == 'ambiguous' else ()),
            *self.sizes(),
            *self.grade(guesses),
            *self.end(),
        ]

    def end(self):
        """The lines behind the grade."""
        flaws = self.flaws()
        return [*flaws, 'fit' if self.word == 'unique' and not flaws else 'unfit']

    def sizes(self):
        """The lines of numbers."""
        rows = self.document.rows
        return [
            f'size {len(rows)} {len(rows[0])}',
            f'colours {len(self.seen)}',
            f'givens {len(self.document.givens)}',
            f'open {self.open}',
        ]

    def grade(self, guesses):
        """The line of the grade, if there is one solution."""
        if self.word != 'unique':
            return []
        solving = self.solving
        guesses = guesses if self.open else (0, 0)
        figures = f'{solving.rounds} {solving.looks} {solving.wait}'
        if guesses is None:
            return [f'grade unknown {figures}']
        return [
            'grade %s %s %d %d'
            % (word_of(solving.rounds, solving.wait, self.open, *guesses), figures, *guesses)
        ]

    def flaws(self):
        """The lines of flaws."""
        lines = ['flaw blank'] if self.seen == {0} else []
        if 0 not in self.seen:
            lines.append('flaw background')
        if self.word == 'unique':
            lines += self.given()
        return lines + [
            f'flaw alike {letter(one)} {letter(other)}' for one, other in alike(self.document)
        ]

    def given(self):
        """The first given without which there is still one solution, and line logic leaves the same
        cells open."""
        rows, givens = self.document.rows, self.document.givens
        clues, size = clues_of(rows), (len(rows), len(rows[0]))
        before = open_cells(close(clues, base_of(rows, givens)))
        for row, col in sorted(givens):
            left = close(clues, base_of(rows, givens - {(row, col)}))
            if open_cells(left) == before and len(pictures_with(clues, *size, left, 2)) == 1:
                return [f'flaw given {row + 1} {col + 1}']
        return []


def guesses_of(document, certificate):
    """The splits and the depth of a tree that proves a document with its givens, and None of
    another such certificate; or raises the certificate's fault."""
    published = {(row + 1, col + 1) for row, col in document.givens}
    return plain_forms.check(plain_forms.Puzzle(document.ordered().rows), certificate, published)[1]
