#!/usr/bin/env python3
"""A checker of certificates in all four forms, written from docs/FILE-FORMATS.md alone, and so
independent of tests/references/reference/.

Usage: plain_forms.py PROGRAM [SEED [COUNT]]: compares it with a built `cert_tables` on seeded
texts, and ends with status 1 at the first difference.
"""

import functools
import itertools
import random
import re
import resource
import subprocess
import sys
import tempfile
from pathlib import Path

ALL = 0xFFFF
LETTERS = '.abcdefghijklmno'
MOST_MEMORY = 512 << 20  # of the program, for the longest texts
FORMS = ('nonocert 1', 'nonocert 2', 'nonolemma 1', 'nonolemma 2')


class Fault(Exception):
    """The name of an error, and its line or byte if it has one."""

    def __init__(self, name, place=None):
        super().__init__(name, place)
        self.name, self.place = name, place


# Pictures: a list of rows of colour numbers.


def read_p3(data):  # noqa: C901, each error at its place
    """The picture of a P3 text whose background is white."""
    if not re.match(rb'P3(\s|#|\Z)', data):
        raise Fault('NotP3', 0)
    tokens = [t for t in re.finditer(rb'#[^\r\n]*|[^\s#]+', data[2:]) if t[0][:1] != b'#']
    tokens = iter([(t[0], t.start() + 2) for t in tokens])

    def number():
        word, at = next(tokens, (None, len(data)))
        if word is None:
            raise Fault('Truncated', at)
        if not re.fullmatch(rb'[0-9]+', word):
            raise Fault('BadNumber', at)
        digits = word.lstrip(b'0')
        return (int(digits or b'0') if len(digits) < 9 else 10**9), at

    def side():
        value, at = number()
        if not value:
            raise Fault('EmptySize', at)
        if value > 120:
            raise Fault('TooLarge', at)
        return value

    width, height = side(), side()
    maxval, at = number()
    if not 1 <= maxval <= 65535:
        raise Fault('BadMaxval', at)
    colours = {(maxval,) * 3: 0}
    cells = []
    for _ in range(width * height):
        triple = []
        for _ in range(3):
            value, at = number()
            if value > maxval:
                raise Fault('SampleOver', at)
            triple.append((value, at))
        key = tuple(value for value, _ in triple)
        if key not in colours and len(colours) == 16:
            raise Fault('TooManyColours', triple[0][1])
        cells.append(colours.setdefault(key, len(colours)))
    for _, at in tokens:
        raise Fault('TrailingToken', at)
    return [cells[i * width : (i + 1) * width] for i in range(height)]


def clue_of(line):
    """Its maximal runs of one colour other than the background."""
    blocks = []
    for before, colour in zip([0, *line], line):
        if colour and colour == before:
            blocks[-1][0] += 1
        elif colour:
            blocks.append([1, colour])
    return tuple(map(tuple, blocks))


@functools.cache
def forces(clue, left):
    """The colours of each cell in the lists that have the clue and keep to the colours left; None
    if there is no such list.

    A list walks through `path`: background, the cells of a block, background, and so on. It may
    stay on background, and step over it where two blocks may touch.
    """
    path = [0]
    for length, colour in clue:
        path += [colour] * length + [0]
    last = len(path) - 1

    def after(s):
        if not path[s]:
            yield s
        if s < last:
            yield s + 1
        if path[s] and s + 1 < last and not path[s + 1] and path[s + 2] != path[s]:
            yield s + 2

    reached = [{0, 1} if clue else {0}]
    for mask in left:
        here = {s for s in reached[-1] if mask >> path[s] & 1}
        reached[-1] = here
        reached.append({t for s in here for t in after(s)})
    reached.pop()
    alive, found = {last, last - 1} if clue else {last}, []
    for here in reversed(reached):
        here = (
            {s for s in here if s in alive}
            if not found
            else {s for s in here if any(t in alive for t in after(s))}
        )
        if not here:
            return None
        alive = here
        found.append(sum(1 << c for c in {path[s] for s in here}))
    return found[::-1]


class Puzzle:
    """A picture with its clues; a place of a certificate is a list of masks, the colours left in
    each cell."""

    def __init__(self, picture):
        self.rows, self.columns = len(picture), len(picture[0])
        self.goal = [1 << colour for row in picture for colour in row]
        self.lines = {}
        for i, row in enumerate(picture):
            self.lines['r', i + 1] = clue_of(row), [
                i * self.columns + j for j in range(self.columns)
            ]
        for j, column in enumerate(zip(*picture)):
            self.lines['c', j + 1] = clue_of(column), [
                i * self.columns + j for i in range(self.rows)
            ]

    def cell(self, r, c):
        return (
            (r - 1) * self.columns + c - 1
            if 1 <= r <= self.rows and 1 <= c <= self.columns
            else None
        )

    def forced(self, facts, line):
        clue, cells = self.lines[line]
        found = forces(clue, tuple(facts[x] for x in cells))
        facts = list(facts)
        for k, x in enumerate(cells):
            facts[x] = found[k] if found else 0
        return facts

    def is_dead(self, facts, line):
        clue, cells = self.lines[line]
        return forces(clue, tuple(facts[x] for x in cells)) is None

    def is_done(self, facts):
        return not any(mask & ~goal for mask, goal in zip(facts, self.goal))


# Reading.

NUMBER, LEMMA, COLOURS = (
    '(0|[1-9][0-9]{0,2})',
    '(0|[1-9][0-9]{0,4})',
    '(?=.)([.]?' + '?'.join(LETTERS[1:]) + '?)',
)
GIVEN = re.compile(f'given {NUMBER} {NUMBER}')
BOTH = {'line': f' ([rc]) {NUMBER}', 'dead': f' ([rc]) {NUMBER}', 'done': ''}
TREE = {**BOTH, 'split': f' {NUMBER} {NUMBER}'}
LEMMAS = {
    **BOTH,
    'dead': f' (?:([rc]) {NUMBER}|(l) {LEMMA})',
    'use': f' {LEMMA}',
    'drop': f' {LEMMA}',
    'lemma': '',
}
LEMMAS |= dict.fromkeys(('part', 'deny'), f' {NUMBER} {NUMBER} {COLOURS}')


def lines_of(data):
    lines = data.decode('latin-1').split('\n')
    return lines if lines[-1] else lines[:-1]


def read_line(line, form):
    """The steps of one line, or None."""
    name, *words = line.split(' ')
    if form == 'nonolemma 2' and name in ('line', 'use', 'drop'):
        if not 1 <= len(words) <= 1000:
            return None
        steps = [
            read_line(f'line {w[:1]} {w[1:]}' if name == 'line' else f'{name} {w}', 'nonolemma 1')
            for w in words
        ]
        return None if None in steps else [step for one in steps for step in one]
    pattern = (TREE if form.startswith('nonocert') else LEMMAS).get(name)
    match = None if pattern is None else re.fullmatch(name + pattern, line)
    if not match:
        return None
    words = [int(word) if word.isdigit() else word for word in match.groups() if word]
    too_large = (name in ('use', 'drop') or words[:1] == ['l']) and words[-1] > 65535
    return None if too_large else [(name, *words)]


def read_certificate(data):
    """The form, the givens, and the steps, each with its line."""
    lines = lines_of(data)
    if not lines or lines[0] not in FORMS:
        raise Fault('NotCert', 1)
    form, givens, steps = lines[0], [], []
    for at, line in enumerate(lines[1:], 2):
        if form != 'nonocert 1' and not steps and (match := GIVEN.fullmatch(line)):
            given = int(match[1]), int(match[2])
            if givens and given <= givens[-1]:
                raise Fault('BadLine', at)
            givens.append(given)
            continue
        found = read_line(line, form)
        if found is None:
            raise Fault('BadLine', at)
        steps += [(at, step) for step in found]
    return form, givens, steps, len(lines)


# Checking.


class Tree:
    """Where a `nonocert` is: `places` are the branches that have not ended, the open one last;
    `nests` says in how many splits each of them stands."""

    def __init__(self, puzzle, facts):
        self.puzzle, self.places, self.nests = puzzle, [facts], [0]
        self.splits, self.depth = 0, 0

    def end(self):
        """Ends the branch at hand."""
        self.places.pop()
        self.nests.pop()

    def step(self, name, *words):
        """The name of the error, or None."""
        if not self.places:
            return 'Trailing'
        puzzle, facts = self.puzzle, self.places[-1]
        if name == 'split':
            if (x := puzzle.cell(*words)) is None:
                return 'Place'
            nest = self.nests[-1] + 1
            self.end()
            branches = [
                [*facts[:x], 1 << k, *facts[x + 1 :]]
                for k in range(15, -1, -1)
                if facts[x] >> k & 1
            ]
            self.places += branches
            self.nests += [nest] * len(branches)
            self.splits, self.depth = self.splits + 1, max(self.depth, nest)
        elif name == 'done':
            if not puzzle.is_done(facts):
                return 'NotDone'
            self.end()
        elif words not in puzzle.lines:
            return 'Place'
        elif name == 'line':
            self.places[-1] = puzzle.forced(facts, words)
        elif not puzzle.is_dead(facts, words):
            return 'NotDead'
        else:
            self.end()
        return None


class Lemmas(Tree):
    """Where a `nonolemma` is: at a place with the lemma that is kept when it is at hand again, if
    there is one."""

    def __init__(self, puzzle, facts):
        super().__init__(puzzle, facts)
        self.kept, self.begun, self.literals, self.total, self.may_deny = {}, 0, None, 0, False

    def end(self):
        self.places.pop()

    def step(self, name, *words):  # noqa: C901, a case for each form of a line
        may_deny, self.may_deny = self.may_deny, name in ('lemma', 'deny')
        if not self.places:
            return 'Trailing'
        waits = len(self.places) > 1
        if (name in ('lemma', 'drop') and waits) or (name == 'deny' and not may_deny):
            return 'Misplaced'
        facts = self.places[-1]
        x = None
        if name in ('part', 'deny'):
            if (x := self.puzzle.cell(*words[:2])) is None:
                return 'Place'
            mask = sum(1 << LETTERS.index(c) for c in words[2])
        if name in ('use', 'drop') or words[:1] == ('l',):
            lemma = self.kept.get(words[-1])
            if lemma is None:
                return 'NoLemma'
            live = [(y, m) for y, m in lemma if facts[y] & m]
        if name == 'lemma':
            self.begun += 1
            self.literals = []
            self.places.append(facts)
        elif name == 'deny':
            if len(self.literals) == 1024 or self.total == 65536:
                return 'Full'
            self.total += 1
            self.literals.append((x, mask))
            self.places[-1] = [*facts[:x], facts[x] & ~mask, *facts[x + 1 :]]
        elif name == 'part':
            self.places[-1] = [*facts[:x], facts[x] & mask, *facts[x + 1 :]]
            self.places.append([*facts[:x], facts[x] & ~mask, *facts[x + 1 :]])
        elif name == 'use':
            if len(live) == 1:
                y, m = live[0]
                self.places[-1] = [*facts[:y], facts[y] & m, *facts[y + 1 :]]
        elif name == 'drop':
            self.total -= len(self.kept.pop(words[0]))
        elif words[:1] == ('l',):
            if live:
                return 'NotDead'
            self.places.pop()
        elif fault := super().step(name, *words):
            return fault
        if len(self.places) == 1 and self.literals is not None:
            self.kept[self.begun] = self.literals
            self.literals = None
        return None


def start(puzzle, form, givens):
    facts = [ALL] * (puzzle.rows * puzzle.columns)
    for x in givens:
        facts[x] = puzzle.goal[x]
    return (Tree if form.startswith('nonocert') else Lemmas)(puzzle, facts)


def check(puzzle, data, published=None):
    """How many givens a right certificate has; and of a tree how many splits, and how many of them
    stand in each other."""
    form, givens, steps, lines = read_certificate(data)
    cells = [puzzle.cell(*given) for given in givens]
    if None in cells:
        raise Fault('Place', cells.index(None) + 2)
    state = start(puzzle, form, cells)
    for at, step in steps:
        if fault := state.step(*step):
            raise Fault(fault, at)
    if state.places:
        raise Fault('Ended', lines + 1)
    for at, given in enumerate(givens, 2):
        if published is not None and given not in published:
            raise Fault('UnpublishedGiven', at)
    figures = None if isinstance(state, Lemmas) else (state.splits, state.depth)
    return len(givens), figures


def read_published(puzzle, data):
    published = set()
    for at, line in enumerate(lines_of(data), 1):
        match = GIVEN.fullmatch(line.removesuffix('\r'))
        if not match:
            raise Fault('BadLine', at)
        given = int(match[1]), int(match[2])
        if given in published:
            raise Fault('Repeated', at)
        if puzzle.cell(*given) is None:
            raise Fault('Place', at)
        published.add(given)
    return published


def answer(picture, certificate, published=None):
    """What `cert_tables` prints of these files."""
    try:
        puzzle = Puzzle(read_p3(picture))
    except Fault as fault:
        return f'ppm {fault.name}'
    try:
        cells = None if published is None else read_published(puzzle, published)
    except Fault as fault:
        return f'givens {fault.name} at line {fault.place}'
    try:
        givens, figures = check(puzzle, certificate, cells)
    except Fault as fault:
        return f'{fault.name} at line {fault.place}'
    said = 'accepted' + (f', givens {givens}' if givens else '')
    return said + (', splits %d, depth %d' % figures if figures else '')


# Texts: certificates from walks through the checker itself, mostly along right steps; then the same
# with changes.

ODD = """
done|lemma|dead l 0|dead l 1|use 1|use 0|use 65535|use 65536|drop 1|drop 2|drop 1 1|line r 1|line r1|line r1 c1|line r1 c0|line r5|line r 5
line|use|drop|dead r 1|dead c 1|dead r1|dead r 0|split 1 1|split 0 1|split 1 9|part 1 1 .|part 1 1 .a|part 1 1 a.|part 1 1 aa|part 1 1 p
part 1 1 bo|part 0 1 a|part 1 1|deny 1 1 .|deny 9 1 a|deny 1 1 .abcdefghijklmno|given 1 1|given 0 1|given 2 1|done |DONE|line r 01|line r 1000
split 1 1\r|use 00|use 1 2 3|line c1 r1 c1|line  r1|line r1 |dead l 70000|\xff|\x00||nonocert 1
"""  # noqa: E501
ODD = [line for row in ODD[1:-1].split('\n') for line in row.split('|')]


def p3(picture, rng):
    triples = ['9 9 9', *rng.sample([f'{x} {y} 0' for x in range(9) for y in range(9)], 15)]
    cells = '\n'.join(' '.join(triples[c] for c in row) for row in picture)
    return f'P3\n{len(picture[0])} {len(picture)}\n9\n{cells}\n'.encode()


def some_colours(rng, mask):
    left = [LETTERS[k] for k in range(16) if mask >> k & 1] or list(LETTERS)
    return ''.join(c for c in left if rng.random() < 0.4) or rng.choice(left)


def end_of_branch(rng, state, live):
    puzzle, facts = state.puzzle, state.places[-1]
    if puzzle.is_done(facts) and rng.random() < 0.9:
        return 'done'
    ends = ['dead %s %d' % line for line in puzzle.lines if puzzle.is_dead(facts, line)]
    ends += [f'dead l {n}' for n, count in live.items() if not count]
    return rng.choice(ends) if ends and rng.random() < 0.95 else None


def lemma_line(rng, state, live):
    """A line that forms with lemmas alone have, or None."""
    puzzle, facts = state.puzzle, state.places[-1]
    if state.may_deny and (not state.literals or rng.random() < 0.4):
        x = rng.randrange(len(facts))
        mask = puzzle.goal[x] if rng.random() < 0.7 else facts[x]
        return f'deny {x // puzzle.columns + 1} {x % puzzle.columns + 1} {some_colours(rng, mask)}'
    if len(state.places) == 1 and rng.random() < 0.15:
        return 'lemma'
    if live and len(state.places) == 1 and rng.random() < 0.05:
        return f'drop {rng.choice(list(live))}'
    units = [n for n, count in live.items() if count == 1]
    return f'use {rng.choice(units)}' if units and rng.random() < 0.5 else None


def next_line(rng, state, lemmas):
    """A line of one step that is mostly right at the place at hand."""
    puzzle, facts = state.puzzle, state.places[-1]
    live = (
        {n: sum(facts[x] & mask > 0 for x, mask in lemma) for n, lemma in state.kept.items()}
        if lemmas
        else {}
    )
    if line := end_of_branch(rng, state, live) or (lemmas and lemma_line(rng, state, live)):
        return line
    new = [name for name in puzzle.lines if puzzle.forced(facts, name) != facts]
    if new and rng.random() < 0.85:
        return 'line %s %d' % rng.choice(new)
    x = rng.choice([x for x, mask in enumerate(facts) if mask & (mask - 1)] or range(len(facts)))
    cell = f'{x // puzzle.columns + 1} {x % puzzle.columns + 1}'
    return f'part {cell} {some_colours(rng, facts[x])}' if lemmas else f'split {cell}'


def walk(rng, puzzle, form, givens):
    """The lines of a certificate, each of one step; those of `nonolemma 2` as in `nonolemma 1`."""
    state = start(puzzle, form, [puzzle.cell(*given) for given in givens])
    lines = [form, *[f'given {r} {c}' for r, c in givens]]
    for _ in range(rng.choice([20, 60, 150])):
        line = next_line(rng, state, form.startswith('nonolemma'))
        lines.append(line)
        if state.step(*read_line(line, form.replace('lemma 2', 'lemma 1'))[0]) or not state.places:
            break
    return lines


def joined(rng, lines):
    """In `nonolemma 2`, with runs of some length."""
    found, longest = [], rng.choice([1, 2, 5, 1000])
    for line in lines:
        name, *words = line.split(' ')
        if name in ('line', 'use', 'drop') and words:
            line = f'{name} {"".join(words)}'
            if (
                found
                and found[-1].startswith(name + ' ')
                and found[-1].count(' ') < longest
                and rng.random() < 0.8
            ):
                line = found.pop() + line[len(name) :]
        found.append(line)
    return found


def odd(rng, lines):
    well_formed = [line for line in ODD if lines[0] in FORMS and read_line(line, lines[0])]
    return rng.choice(well_formed if well_formed and rng.random() < 0.8 else ODD)


def changed(rng, line):
    """With another number, or with bytes put in the place of none or one."""
    numbers = list(re.finditer('[0-9]+', line))
    if numbers and rng.random() < 0.8:
        n = rng.choice(numbers)
        return (
            line[: n.start()]
            + str(rng.choice([0, 1, 2, 3, 4, 5, int(n[0]) + 1, int(n[0]) - 1]))
            + line[n.end() :]
        )
    at = rng.randrange(len(line) + 1)
    return (
        line[:at] + rng.choice([*' rcl.ab01#\r\n', '', line[at:]]) + line[at + rng.randrange(2) :]
    )


def spoilt(rng, lines):
    """With up to three changes, most of them after the first line."""
    lines = list(lines)
    for _ in range(rng.choice([1, 1, 1, 2, 3])):
        lines = lines or ['']
        k, j = (
            rng.randrange(min(len(lines) - 1, rng.random() < 0.97), len(lines)) for _ in range(2)
        )
        kind = rng.choice(
            [
                'without',
                'twice',
                'swapped',
                'swapped',
                'cut',
                'changed',
                'changed',
                'changed',
                'odd',
                'odd',
                'last',
                'given',
                'first',
            ]
        )
        if kind == 'without':
            del lines[k]
        elif kind == 'twice':
            lines.insert(k, lines[j])
        elif kind == 'swapped':
            lines[j], lines[k] = lines[k], lines[j]
        elif kind == 'cut':
            del lines[max(j, k) :]
        elif kind == 'changed':
            lines[k] = changed(rng, lines[k])
        elif kind == 'odd':
            lines.insert(k + 1, odd(rng, lines))
        elif kind == 'last':
            lines.append(odd(rng, lines))
        elif kind == 'given':
            lines.insert(rng.choice([1, 1, 2, k]), f'given {rng.randint(0, 5)} {rng.randint(0, 5)}')
        else:
            lines[0] = rng.choice([*FORMS * 5, 'nonolemma 3', 'nonocert', ''])
    return lines


def text_of(rng, lines):
    return ('\n'.join(lines) + rng.choice(['\n'] * 40 + ['', '', '\n\n', '\r\n', ' '])).encode(
        'latin-1'
    )


def published_text(rng, places, givens):
    """A file that lists most of the givens, and others."""
    listed = [*dict.fromkeys([*rng.sample(places, rng.randint(0, len(places) // 2)), *givens])]
    rng.shuffle(listed)
    lines = [f'given {r} {c}' for r, c in (listed[1:] if rng.random() < 0.3 else listed)]
    if rng.random() < 0.3:
        lines = spoilt(rng, lines)
    return text_of(rng, lines) if lines else b''


def seeded(rng, count):
    """Picture, certificate, and published givens or None."""
    cases = []
    while len(cases) < count:
        rows, columns, colours = rng.randint(1, 4), rng.randint(1, 4), rng.randint(2, 4)
        cells = [[rng.randrange(colours) for _ in range(columns)] for _ in range(rows)]
        picture = p3(cells, rng)
        cells[rng.randrange(rows)][rng.randrange(columns)] = rng.randrange(colours)
        near = p3(cells, rng)
        puzzle = Puzzle(read_p3(picture))
        places = [(r, c) for r in range(1, rows + 1) for c in range(1, columns + 1)]
        form = rng.choice([*FORMS, *FORMS[2:]])
        givens = (
            []
            if form == FORMS[0] or rng.random() < 0.4
            else sorted(rng.sample(places, rng.randint(0, min(len(places), 4))))
        )
        lines = walk(rng, puzzle, form, givens)
        for k in range(8):
            text = spoilt(rng, lines) if k else lines
            if form == 'nonolemma 2':
                text = joined(rng, text)
                if k and rng.random() < 0.5:
                    text = spoilt(rng, text)
            published = published_text(rng, places, givens) if rng.random() < 0.4 else None
            cases.append((near if rng.random() < 0.05 else picture, text_of(rng, text), published))
    return cases


def bounds():
    """Texts at the bounds of words and literals, of a picture of one cell."""
    most = ['deny 1 1 abcdefghijklmno'] * 1024
    for form, line in ('nonolemma 1', 'line r 1'), ('nonolemma 2', 'line r1'):
        for count in (1000, 1001):
            yield [form, 'line' + ' r1' * count, 'done']
        yield [form, 'line' + ' r1' * 999 + ' c2', 'done']
        yield [form, line, 'lemma', *most, 'done', 'use 1', 'done']
        yield [form, line, 'lemma', *most, most[0], 'done', 'use 1', 'done']
        full = [form, line, *['lemma', *most, 'done'] * 64, 'lemma', 'done']
        yield [*full, 'drop 2', 'lemma', *most, 'done', 'lemma', most[0]]


def shown(rows):
    """A picture of white, black and red cells, its rows joined by slashes."""
    return p3([['.ab'.index(cell) for cell in row] for row in rows.split('/')], random.Random(1))


def worked():
    """The texts of tests/cases, with the answers that are written there, and with the figures of
    those that are graded."""
    for kind in ('certificates', 'lemmas'):
        for line in (Path(__file__).parents[1] / 'cases' / f'{kind}.case').read_text().splitlines():
            if line and line[0] != '#':
                asked, wanted = line.split(' => ')
                rows, text = asked.split(' ', 1)
                yield shown(rows), text.encode().decode('unicode_escape').encode('latin-1'), re.sub(
                    '^(! )?certificate ', '', wanted
                )
    grades = (Path(__file__).parents[1] / 'cases/grade.case').read_text()
    for rows, text, figures in re.findall(
        r'^([.ab/]+) (?:map \S+ )?cert (.*) => .*(, splits \d+, depth \d+)$', grades, re.M
    ):
        yield shown(rows), text.encode().decode('unicode_escape').encode(
            'latin-1'
        ), f'accepted{figures}'


def longest():
    """The deepest, longest and fullest texts with their answers, which the plain checker would take
    long to find."""

    def lines(form, *parts):
        return b'\n'.join([form, *(line for part, count in parts for line in part * count)])

    wide, end, dies = (
        b'part 1 1 a',
        [b'line r 1', b'line c 1', b'line r 2', b'done'],
        [b'line r 1', b'dead c 2'],
    )
    form, deny, depth, many, cells = b'nonolemma 1', b'deny 1 1 a', 600_000, 700_000, 40 * 40
    full = [b'lemma', *[deny] * 1024, *dies] * 64
    # All branches of the splits but the first end in a row in which a cell has a colour that the
    # row does not have.
    splits = [b'split %d %d' % (i % cells // 40 + 1, i % 40 + 1) for i in range(100_000)], 1
    ends = [b'done', *[b'dead r %d' % (40 - i // 15 // 40) for i in range(15 * cells)]]
    two, blank = shown('a./.b'), shown('/'.join(['.' * 40] * 40))
    return [
        (two, lines(form, ([wide], depth)), f'Ended at line {depth + 2}'),
        (
            two,
            lines(form, ([wide], depth), (dies, 1), ([b'dead c 1'], depth - 1), (end, 1)),
            'accepted',
        ),
        (
            two,
            lines(
                form,
                ([b'part 1 1 .bcdefghijklmno', *end, b'line r 1', b'line c 2'], 1),
                ([b'lemma', b'dead r 1'], many),
                ([b'dead l 1'], 1),
            ),
            'accepted',
        ),
        (two, lines(form, ([b'lemma'], 1), ([deny], 1025)), 'Full at line 1027'),
        (two, lines(form, (full, 1), ([b'lemma', deny], 1)), f'Full at line {64 * 1027 + 3}'),
        (
            two,
            lines(form, (full, 1), ([b'drop 1', b'lemma', deny, *dies, b'use 65', *end], 1)),
            'accepted',
        ),
        (
            two,
            lines(form, (full, 1), ([wide], 1), ([b'use 1'], 10_000), ([b'dead l 1', *end], 1)),
            'accepted',
        ),
        (
            two,
            lines(form, ([b'lemma', deny, *dies], 60_000), ([b'use 60000', *end], 1)),
            'accepted',
        ),
        (
            shown('a./.a'),
            lines(b'nonocert 2', ([b'given 1 1'], 1), ([b'split 1 1'], 1_000_000), (end, 1)),
            'accepted, givens 1, splits 1000000, depth 1000000',
        ),
        (blank, lines(b'nonocert 1', splits), 'Ended at line 100002'),
        (blank, lines(b'nonocert 1', splits, (ends[:-1], 1)), 'Ended at line 124002'),
        (blank, lines(b'nonocert 1', splits, (ends, 1)), 'accepted, splits 100000, depth 100000'),
    ]


def main(program, seed='1', count='4000'):
    cases = [(b'P3 1 1 9 9 9 9', '\n'.join(lines).encode(), None) for lines in bounds()]
    cases += seeded(random.Random(int(seed)), int(count))
    checked = []
    for picture, text, wanted in worked():
        found = answer(picture, text)
        if wanted not in (found, found.split(', splits')[0]):
            sys.exit(f'{text}\nplain_forms: {found}\ntests/cases: {wanted}')
        checked.append((picture, text, found))
    checked += longest()
    wanted = [answer(*case) for case in cases] + [one for _, _, one in checked]
    cases += [(picture, text, None) for picture, text, _ in checked]
    with tempfile.TemporaryDirectory() as folder:
        named = []
        for k, case in enumerate(cases):
            files = {
                f'{k}.{end}': data
                for end, data in zip(('ppm', 'cert', 'givens'), case)
                if data is not None
            }
            for name, data in files.items():
                (Path(folder) / name).write_bytes(data)
            named.append(' '.join(files) + '\n')
        ran = subprocess.run(
            [Path(program).resolve()],
            cwd=folder,
            input=''.join(named),
            capture_output=True,
            text=True,
            check=True,
            preexec_fn=lambda: resource.setrlimit(resource.RLIMIT_AS, (MOST_MEMORY, MOST_MEMORY)),
        )
    for case, one, found in itertools.zip_longest(cases, wanted, ran.stdout.splitlines()):
        if found != one:
            sys.exit(f'{str(case)[:2000]}\nthe program: {found}\nwanted: {one}')
    print(f'{len(cases)} texts')


if __name__ == '__main__':
    main(*sys.argv[1:])
