#!/usr/bin/env python3
"""Asks a built library for assessments and paths, and compares each line:
tests/references/assessments.py LIBRARY [assess] [path] [PART ..]

If neither `assess` nor `path` is named, both are asked for. The parts, all of which are tried if
none is named:

- givens: all pictures of some sizes with all sets of givens. A listing of all pictures says which
  of them have one solution.
- lot: pictures with givens by lot, of a size that has too many; by the same kind of listing.
- documents: random documents up to six by six, with palettes whose colours may be too similar, some
  under an allowance. Without one, a listing of the pictures that the map leaves says what is
  unique.

All other lines are those of tests/references/reference. Free are the other picture, which must be
one, and splits and depth, which must be possible and fit the word.
"""
import ctypes
import itertools
import random
import sys
from pathlib import Path

sys.dont_write_bytecode = True
ROOT = Path(__file__).resolve().parent.parent.parent
sys.path.insert(0, str(ROOT / 'tests/references'))
from reference import selftest  # noqa: E402
from reference.assessments import Assessment, Solving, by_listing  # noqa: E402
from reference.lines import clues_of, letter, settled  # noqa: E402
from reference.pictures import Document, read_ppm, write_ppm  # noqa: E402
from reference.search import TooMuch, open_cells  # noqa: E402
from reference.sessions import (  # noqa: E402
    Disagreement,
    Output,
    Session,
    agree,
    must_assess,
    must_path,
    picture_rows,
)
from small_pictures import TRIPLES, Listing, blank_ppm, key_of  # noqa: E402

GIVENS = ((2, 2, 3), (2, 3, 3), (3, 3, 2))  # height, width, colours
LOT, LOTS = (3, 3, 3), 20000
DOCUMENTS = 5000
DONE = 0


class Library:
    """A desk of the library with one bench at a time."""

    def __init__(self, path):
        self.calls = ctypes.CDLL(path)
        self.calls.nonobench_take.restype = ctypes.c_size_t
        self.cell = ctypes.c_void_p()
        self.at = ctypes.byref(self.cell)
        self.handle = ctypes.c_uint32()
        self.room = ctypes.create_string_buffer(1 << 16)
        self.must(self.calls.nonobench_start(self.at))

    def must(self, status):
        """A call must be answered."""
        agree(status == DONE, f'the library answers {status}')

    def open(self, text, background=b''):
        """Opens a P3 picture, in place of the one that is open."""
        if self.handle.value:
            self.must(self.calls.nonobench_close(self.at, self.handle))
        self.must(
            self.calls.nonobench_open(
                self.at,
                text,
                ctypes.c_size_t(len(text)),
                False,
                background,
                ctypes.c_size_t(len(background)),
                1,
                ctypes.byref(self.handle),
            )
        )

    def say(self, lines):
        """What a session answers to lines."""
        self.must(
            self.calls.nonobench_say(self.at, self.handle, lines, ctypes.c_size_t(len(lines)))
        )
        size = self.take()
        if size > len(self.room):
            self.room = ctypes.create_string_buffer(size)
            self.take()
        return ctypes.string_at(self.room, size)

    def take(self):
        """Copies the text of the last call as far as there is room; how many bytes it has."""
        return self.calls.nonobench_take(self.at, self.room, ctypes.c_size_t(len(self.room)))


class Walk:
    """Goes in one session from a document of a size to another, and asks for assessment and path of
    each."""

    def __init__(self, library, asks, height, width, colours):
        self.library, self.asks = library, asks
        self.listing = Listing(height, width, colours)
        self.cells = list(itertools.product(range(height), range(width)))
        self.rows, self.givens = [[0] * width for _ in range(height)], frozenset()
        self.colours = [tuple(map(int, triple.split())) for triple in TRIPLES[:colours]]
        library.open(blank_ppm(height, width))
        self.lines, self.asked = [], []
        for triple in TRIPLES[1:colours]:
            self.edit(f'colour add {triple}')

    def edit(self, line):
        """An edit that is accepted."""
        self.lines.append(line)
        self.asked.append(lambda output: output.must_lines('ok'))

    def go(self, rows, givens):
        """Edits on the way to a document."""
        for row, col in self.cells:
            if rows[row][col] != self.rows[row][col]:
                self.edit(f'paint {row + 1} {col + 1} {letter(rows[row][col])}')
        for row, col in sorted(givens ^ self.givens):
            self.edit(f'{"pin" if (row, col) in givens else "unpin"} {row + 1} {col + 1}')
        self.rows, self.givens = rows, givens

    def ask(self, others, off):
        """Asks for assessment and path; `others` are the other pictures with the clues, each with
        the cells in which it differs."""
        givens, document = self.givens, Document(255, self.colours, self.rows, self.givens)

        def verdict(chosen):
            return (
                'ambiguous'
                if any(chosen.isdisjoint(cells) for cells in others.values())
                else 'unique'
            )

        def must_be_other(said):
            agree(
                tuple(said) in others and givens.isdisjoint(others[tuple(said)]),
                f'not another picture: {said}',
            )

        def judge(output):
            if 'assess' in self.asks:
                agree(
                    not must_assess(output, Assessment(document, verdict), must_be_other),
                    'no certificate is found',
                )
            if 'path' in self.asks:
                must_path(output, Solving(document.rows, givens))

        self.lines += [f'{word} off' if word == 'assess' and off else word for word in self.asks]
        self.asked.append(judge)

    def others(self, rows):
        """The other pictures with a picture's clues, as they are printed, each with the cells in
        which it differs."""
        same = self.listing.by_clues[key_of(clues_of(rows))]
        return {
            tuple(picture_rows(other)): frozenset(
                (r, c) for r, c in self.cells if other[r][c] != rows[r][c]
            )
            for other in same
            if other != rows
        }

    def judge(self):
        """Asks what was prepared, and judges the answers."""
        said = self.library.say(''.join(line + '\n' for line in self.lines).encode())
        output = Output(said)
        for judge in self.asked:
            try:
                judge(output)
            except Disagreement as found:
                raise Disagreement(
                    f'{found}, near'
                    f' {said[max(0, output.at - 200):output.at + 100].decode("latin-1")!r}'
                ) from None
        output.end()
        self.lines, self.asked = [], []


def all_givens(library, asks, height, width, colours):
    """All pictures of a size with all sets of givens; how many."""
    walk = Walk(library, asks, height, width, colours)
    sets = [
        frozenset(itertools.compress(walk.cells, chosen))
        for chosen in itertools.product((0, 1), repeat=len(walk.cells))
    ]
    for number, rows in enumerate(walk.listing.pictures):
        others = walk.others(rows)
        for givens in sets:
            walk.go(rows, givens)
            walk.ask(others, (number + len(givens)) % 2 == 0)
        walk.judge()
    return len(walk.listing.pictures) * len(sets)


def some_givens(library, asks, count):
    """Pictures with sets of givens by lot, of one size; how many."""
    chance = random.Random(1)
    walk = Walk(library, asks, *LOT)
    for number in range(count):
        rows = chance.choice(walk.listing.pictures)
        share = chance.choice((0, 0.1, 0.3, 0.6, 1))
        walk.go(rows, frozenset(cell for cell in walk.cells if chance.random() < share))
        walk.ask(walk.others(rows), number % 2 == 0)
        if number % 500 == 0:
            walk.judge()
    walk.judge()
    return count


class Judged(Session):
    """A session in which, if it sets no allowance, a listing says what is unique: no search of so
    small a picture makes 10,000 splits."""

    def verdict_on(self, givens, allowance):
        """The verdict on the picture with some givens."""
        if self.allowance is None:
            return by_listing(self.document.rows)(givens)
        return super().verdict_on(givens, allowance)


def some_samples(chance, maxval, near):
    """A colour by lot, often one that is near another."""
    if near is None or chance.random() < 0.4:
        return tuple(chance.randint(0, maxval) for _ in range(3))
    # as many 65535ths: a half, ten and twenty 255ths
    far = chance.choice((2, 130, 5140, 10280)) * maxval // 65535 + 1
    return tuple(min(max(sample + chance.randint(-far, far), 0), maxval) for sample in near)


def some_document(chance):
    """A document by lot, often with no more givens than it takes to have one solution."""
    maxval = chance.choice((255, 255, 65535, 65535, 1, 7, chance.randint(1, 65535)))
    colours = [some_samples(chance, maxval, None)]
    for _ in range(chance.choice((1, 1, 1, 1, 1, 1, 2, 5))):
        colour = some_samples(chance, maxval, chance.choice(colours))
        colours += [colour] if colour not in colours else []
    document = Document(maxval, colours, some_picture(chance, len(colours))).ordered()
    if chance.random() < 0.4:
        document.givens = some_needed(chance, document.rows)
    cells = [(r, c) for r, row in enumerate(document.rows) for c in range(len(row))]
    share = chance.choice((0, 0, 0, 0, 1 / len(cells), 0.1, 0.3, 0.6))
    document.givens |= {cell for cell in cells if chance.random() < share}
    return document


def some_picture(chance, colours):
    """The rows of a picture by lot: of any, of one that lines leave open, or of one that they leave
    open and that has no other, if there is one among those that are drawn."""
    drawn, wanted = chance.choice(
        ((1, 'any'), (1, 'any'), (20, 'open'), (20, 'open'), (40, 'unique'))
    )
    for _ in range(drawn):
        height, width = (
            chance.choice((1, 2, 3, 4, 5, 5, 6, 6) if wanted == 'any' else (3, 4, 5, 6, 6))
            for _ in range(2)
        )
        weights = [chance.choice((1, 1, 1, 1, 0.6, 0.3, 0.2, 0.02)) for _ in range(colours)]
        rows = [chance.choices(range(colours), weights, k=width) for _ in range(height)]
        if (
            wanted != 'any'
            and Solving(rows, ()).open()
            and (wanted == 'open' or by_listing(rows)(()) == 'unique')
        ):
            break
    return rows


def some_needed(chance, rows):
    """Cells which, as givens, leave one solution, each of them open under those before it."""
    givens, verdict = set(), by_listing(rows)
    while verdict(givens) == 'ambiguous':
        givens.add(chance.choice(open_cells(settled(rows, givens))))
    return givens


def some_commands(chance, document, asks):
    """Edits by lot of a picture, by which its cells become givens; then what is asked for."""
    lines = [f'pin {row + 1} {col + 1}' for row, col in sorted(document.givens)]
    if chance.random() < 0.2:
        lines.append(
            'colour add %d %d %d' % some_samples(chance, document.maxval, document.colours[-1])
        )
    if chance.random() < 0.1:
        lines += ['paint 1 1 a', 'delete row 1', 'insert column 1']
    if chance.random() < 0.3:
        lines.append(f'allow {chance.choice((0, 0, 0, 1, 1, 2, 3))}')
    off = chance.choice(('', ' off'))
    lines += [word + off if word == 'assess' else word for word in asks]
    return ''.join(line + '\n' for line in lines).encode()


def documents(library, asks, count):
    """Documents by lot; how many."""
    for number in range(count):
        chance = random.Random(f'1 {number}')
        document = some_document(chance)
        text, commands = write_ppm(document), some_commands(chance, document, asks)
        library.open(text, b'%d,%d,%d' % document.colours[0])
        said = library.say(commands)
        try:
            session = Judged(read_ppm(text, document.colours[0]), 1)
            session.run(commands, Output(said))
            agree(not session.ungraded, 'no certificate is found')
        except Disagreement as found:
            raise Disagreement(f'{text!r}, {commands!r}: {found}, in {said!r}') from None
    return count


ASKS = ('assess', 'path')
PARTS = {
    'givens': lambda library, asks: sum(all_givens(library, asks, *size) for size in GIVENS),
    'lot': lambda library, asks: some_givens(library, asks, LOTS),
    'documents': lambda library, asks: documents(library, asks, DOCUMENTS),
}


def main(path, *words):
    """The parts, and how many documents each has."""
    selftest.test()
    library = Library(path)
    asks = [word for word in ASKS if word in words] or ASKS
    for part in [part for part in PARTS if part in words] or PARTS:
        try:
            print(
                f'{part}: {PARTS[part](library, asks)} documents are answered as the reference says'
                f' ({" and ".join(asks)})'
            )
        except (Disagreement, TooMuch) as wrong:
            print(f'{part}: {wrong}', file=sys.stderr)
            return 1
    return 0


if __name__ == '__main__':
    if len(sys.argv) < 2 or not set(sys.argv[2:]) <= {*ASKS, *PARTS}:
        sys.exit(
            'usage: tests/references/assessments.py LIBRARY [assess] [path]'
            ' [givens|lot|documents ..]'
        )
    sys.exit(main(*sys.argv[1:]))
