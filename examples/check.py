#!/usr/bin/env python3
"""A checker of certificates that one can read: whether a nonogram has no other solution.

    python3 check.py PICTURE CERTIFICATE [GIVENS]

PICTURE is a plain PPM text (P3) on white, CERTIFICATE a certificate of any form, and GIVENS the
file of the cells that are published with the puzzle; without it there are none. It prints
`accepted`, or `refused` and the reason, with status 1. docs/FILE-FORMATS.md is all that this was
written from: it shares no code with nonobench, searches nothing, and needs nothing but Python.

Why it can be believed: *facts* say which colours each cell can still have. Whatever a step takes
away no solution has, or it is put aside and dealt with later. So if all that is left in the end is
the picture itself, there is no other solution.
"""

import re
import sys

MOST_COLOURS = 16
MOST_SIDE = 120
ALL = (1 << MOST_COLOURS) - 1
LETTERS = '.abcdefghijklmno'
MOST_LITERALS, MOST_LITERALS_IN_ALL = 1024, 65536
MOST_WORDS = 1000


class Refused(Exception):
    """Why a file is refused."""


# ---- pictures


def read_picture(text):
    """The rows of a P3 text, each cell's colour as a number: 0 is white, the others come by first
    appearance."""
    if not re.match(rb'P3(?=[ \t-\r#]|$)', text):
        raise Refused('the picture is no P3 text')
    tokens = re.sub(rb'#[^\r\n]*', b' ', text[2:]).split()
    if len(tokens) < 3 or not all(re.fullmatch(rb'0*[0-9]{1,5}', token) for token in tokens):
        raise Refused('the picture has a bad number')
    columns, rows, maxval, *samples = map(int, tokens)
    if not (0 < columns <= MOST_SIDE and 0 < rows <= MOST_SIDE and 0 < maxval < 65536):
        raise Refused('the picture has a bad size or maxval')
    if len(samples) != 3 * rows * columns or max(samples) > maxval:
        raise Refused('the picture has bad samples')
    numbers = {(maxval,) * 3: 0}
    cells = []
    for at in range(0, len(samples), 3):
        cells.append(numbers.setdefault(tuple(samples[at : at + 3]), len(numbers)))
    if len(numbers) > MOST_COLOURS:
        raise Refused('the picture has too many colours')
    return [cells[at : at + columns] for at in range(0, len(cells), columns)]


# ---- lines


def clue_of(line):
    """The blocks of a line, as pairs of length and colour; the background makes no block."""
    blocks = []
    before = 0
    for colour in line:
        if colour and colour == before:
            blocks[-1][0] += 1
        elif colour:
            blocks.append([1, colour])
        before = colour
    return blocks


class Line:
    """A line with its clue: which colours its cells can have.

    A filling of the line is read from its first cell to its last. Where one is in the clue is a
    *state*: in a gap, or in a cell of a block. They are numbered in the order gap, cells of the
    first block, gap, cells of the second block, and so on. So the next cell is in the next state,
    in the same gap, or two states on, if one block follows another of a different colour without a
    gap. A set of states is a number with a bit for each.
    """

    def __init__(self, clue):
        colours, self.skips = [0], 0
        for number, (length, colour) in enumerate(clue):
            colours += [colour] * length + [0]
            if number + 1 < len(clue) and clue[number + 1][1] != colour:
                self.skips |= 1 << (len(colours) - 2)
        self.states = [0] * MOST_COLOURS
        for state, colour in enumerate(colours):
            self.states[colour] |= 1 << state
        self.first = 0b11 if clue else 0b1
        self.last = 0b11 << (len(colours) - 2) if clue else 0b1

    def after(self, states):
        gaps = states & self.states[0]
        return states << 1 | gaps | (states & self.skips) << 2

    def before(self, states):
        gaps = states & self.states[0]
        return states >> 1 | gaps | states >> 2 & self.skips

    def left(self, cells):
        """Which colours the fillings leave, that have in each cell one that it can still have."""
        allowed = [
            sum(self.states[c] for c in range(MOST_COLOURS) if cell >> c & 1) for cell in cells
        ]
        reached, states = [], self.first
        for allow in allowed:
            reached.append(states & allow)
            states = self.after(reached[-1])
        states = self.last
        for at in reversed(range(len(cells))):
            reached[at] &= states
            states = self.before(reached[at])
        return [sum(1 << c for c in range(MOST_COLOURS) if self.states[c] & now) for now in reached]


# ---- the texts of certificates and givens


def lines_of(text):
    """The lines of a text; only the last line feed may be missing."""
    try:
        lines = text.decode('ascii').split('\n')
    except UnicodeDecodeError:
        raise Refused('it is no text in ASCII') from None
    return lines[:-1] if lines[-1] == '' else lines


def place(word):
    """A place, from 0: words count from 1. -1 is none."""
    if not re.fullmatch(r'0|[1-9][0-9]{0,2}', word):
        raise Refused(f'{word!r} is no place')
    return int(word) - 1


def given_of(line):
    words = line.split(' ')
    if len(words) != 3 or words[0] != 'given':
        raise Refused(f'{line!r} is no given')
    return place(words[1]), place(words[2])


def lemma_number(word):
    if not re.fullmatch(r'0|[1-9][0-9]{0,4}', word) or int(word) > 65535:
        raise Refused(f'{word!r} is no number of a lemma')
    return int(word)


def mask_of(letters):
    """A set of colours, as their letters in order."""
    if not letters or ''.join(sorted(set(letters), key=LETTERS.find)) != letters:
        raise Refused(f'{letters!r} are no colours')
    if not set(letters) <= set(LETTERS):
        raise Refused(f'{letters!r} are no colours')
    return sum(1 << LETTERS.index(letter) for letter in letters)


def read_certificate(text):
    """The givens of a certificate, whether it is a tree, and its steps."""
    head, *lines = lines_of(text) or ['']
    if head not in ('nonocert 1', 'nonocert 2', 'nonolemma 1', 'nonolemma 2'):
        raise Refused('it is no certificate')
    givens = []
    while lines and lines[0].startswith('given ') and head != 'nonocert 1':
        givens.append(given_of(lines.pop(0)))
    if givens != sorted(set(givens)):
        raise Refused('the givens are not in order')
    return givens, [step for line in lines for step in steps_of(line.split(' '), head)]


def steps_of(words, head):
    """The steps of a line: a name with what follows it."""
    name, *rest = words
    is_tree, is_packed = head.startswith('nonocert'), head == 'nonolemma 2'
    if words in (['done'], ['lemma']) and (name == 'done' or not is_tree):
        return [(name,)]
    if is_packed and name in ('line', 'use', 'drop') and 1 <= len(rest) <= MOST_WORDS:
        return [step_of(name, [word[:1], word[1:]] if name == 'line' else [word]) for word in rest]
    if is_tree and name == 'split' and len(rest) == 2:
        return [(name, place(rest[0]), place(rest[1]))]
    if name == 'dead' or name == 'line' and not is_packed:
        return [step_of(name, rest, has_lemmas=not is_tree and name == 'dead')]
    if not is_tree and not is_packed and name in ('use', 'drop'):
        return [step_of(name, rest)]
    if not is_tree and name in ('part', 'deny') and len(rest) == 3:
        return [(name, place(rest[0]), place(rest[1]), mask_of(rest[2]))]
    raise Refused(f'{" ".join(words)!r} is no step')


def step_of(name, rest, has_lemmas=False):
    """A step about a line, `r` or `c` with its place, or about a lemma."""
    if name in ('use', 'drop') and len(rest) == 1:
        return name, lemma_number(rest[0])
    if len(rest) == 2 and rest[0] in ('r', 'c'):
        return name, rest[0], place(rest[1])
    if len(rest) == 2 and rest[0] == 'l' and has_lemmas:
        return name, 'l', lemma_number(rest[1])
    raise Refused(f'{name} {" ".join(rest)!r} is no step')


def read_givens(text):
    """The cells of a file of givens; a carriage return may come before each line feed."""
    givens = [given_of(line.removesuffix('\r')) for line in lines_of(text)]
    if len(set(givens)) < len(givens):
        raise Refused('a published cell occurs twice')
    return set(givens)


# ---- the check


class Check:
    """The facts at hand, those that wait, and the lemmas that are kept."""

    def __init__(self, picture):
        self.picture = picture
        self.height, self.width = len(picture), len(picture[0])
        self.lines = {('r', at): Line(clue_of(row)) for at, row in enumerate(picture)}
        self.lines |= {('c', at): Line(clue_of(col)) for at, col in enumerate(zip(*picture))}
        self.facts = [[ALL] * self.width for _ in picture]
        self.waiting = []
        self.lemmas, self.begun, self.newest, self.may_deny = {}, 0, None, False
        self.is_complete = False

    def has_cell(self, row, column):
        return 0 <= row < self.height and 0 <= column < self.width

    def need_cell(self, row, column):
        if not self.has_cell(row, column):
            raise Refused('a cell is outside of the picture')

    def give(self, row, column):
        self.need_cell(row, column)
        self.facts[row][column] = 1 << self.picture[row][column]

    def take(self, step):
        """Takes a step, or says why not."""
        if self.is_complete:
            raise Refused('a step comes after the end')
        name, *rest = step
        could_deny, self.may_deny = self.may_deny, name in ('lemma', 'deny')
        if name == 'deny' and not could_deny:
            raise Refused('a deny is in a wrong place')
        if name in ('lemma', 'drop') and self.waiting:
            raise Refused(f'a {name} comes while something waits')
        getattr(self, f'take_{name}')(*rest)

    def cells_of(self, axis, at):
        if (axis, at) not in self.lines:
            raise Refused('a line is outside of the picture')
        return self.facts[at] if axis == 'r' else [row[at] for row in self.facts]

    def lemma(self, number):
        if number not in self.lemmas:
            raise Refused('there is no such lemma')
        return self.lemmas[number]

    # Steps that take colours away.

    def take_line(self, axis, at):
        cells = self.cells_of(axis, at)
        for other, mask in enumerate(self.lines[axis, at].left(cells)):
            row, column = (at, other) if axis == 'r' else (other, at)
            self.facts[row][column] = mask

    def take_use(self, number):
        """If one literal is left of a lemma, it holds."""
        live = [it for it in self.lemma(number) if self.facts[it[0]][it[1]] & it[2]]
        if len(live) == 1:
            [(row, column, mask)] = live
            self.facts[row][column] &= mask

    # Steps that put facts aside.

    def with_cell(self, row, column, mask):
        """A copy of the facts in which a cell has only these of its colours."""
        facts = [list(line) for line in self.facts]
        facts[row][column] &= mask
        return facts

    def take_split(self, row, column):
        self.need_cell(row, column)
        left = self.facts[row][column]
        colours = [1 << c for c in range(MOST_COLOURS) if left >> c & 1]
        self.waiting += [self.with_cell(row, column, mask) for mask in reversed(colours)]
        self.end_branch()

    def take_part(self, row, column, mask):
        self.need_cell(row, column)
        self.waiting.append(self.with_cell(row, column, mask))
        self.facts[row][column] &= ~mask

    def take_lemma(self):
        self.waiting.append([list(line) for line in self.facts])
        self.begun += 1
        self.newest = []

    def take_deny(self, row, column, mask):
        self.need_cell(row, column)
        in_all = sum(map(len, self.lemmas.values())) + len(self.newest)
        if len(self.newest) >= MOST_LITERALS or in_all >= MOST_LITERALS_IN_ALL:
            raise Refused('lemmas have too many literals')
        self.newest.append((row, column, mask))
        self.facts[row][column] &= ~mask

    def take_drop(self, number):
        self.lemma(number)
        del self.lemmas[number]

    # Steps that end a branch.

    def end_branch(self):
        """What began to wait last is at hand; a lemma is kept once nothing waits."""
        if not self.waiting:
            self.is_complete = True
            return
        self.facts = self.waiting.pop()
        if not self.waiting and self.newest is not None:
            self.lemmas[self.begun] = self.newest
            self.newest = None

    def take_dead(self, kind, at):
        if kind == 'l':
            is_dead = not any(
                self.facts[row][column] & mask for row, column, mask in self.lemma(at)
            )
        else:
            cells = self.cells_of(kind, at)
            is_dead = not all(self.lines[kind, at].left(cells))
        if not is_dead:
            raise Refused('a line or a lemma is not dead')
        self.end_branch()

    def take_done(self):
        for row, colours in zip(self.facts, self.picture):
            if any(mask & ~(1 << colour) for mask, colour in zip(row, colours)):
                raise Refused('a cell has another colour left')
        self.end_branch()


def check(picture, certificate, published=b''):
    """Returns the givens of a certificate that is accepted, or raises Refused."""
    checking = Check(read_picture(picture))
    cells = read_givens(published)
    if not all(checking.has_cell(*cell) for cell in cells):
        raise Refused('a published cell is outside of the picture')
    givens, steps = read_certificate(certificate)
    for cell in givens:
        checking.give(*cell)
    for step in steps:
        checking.take(step)
    if not checking.is_complete:
        raise Refused('it ends too early')
    if not set(givens) <= cells:
        raise Refused('a given is not published')
    return givens


def main(names):
    if not 2 <= len(names) <= 3:
        sys.exit('usage: check.py PICTURE CERTIFICATE [GIVENS]')
    files = []
    for name in names:
        with open(name, 'rb') as file:
            files.append(file.read())
    try:
        givens = check(*files)
    except Refused as why:
        print(f'refused: {why}')
        return 1
    print(f'accepted, givens {len(givens)}' if givens else 'accepted')
    return 0


if __name__ == '__main__':
    sys.exit(main(sys.argv[1:]))
