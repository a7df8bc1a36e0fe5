#!/usr/bin/env python3
"""Tries the longest texts that the program takes, of each hostile kind: comments, zeros, tokens and
samples without end; .non texts of a million sections or numbers; certificates of nested splits, of
idle splits and idle lines, of deep branches, of a million lemmas without literals or on a large
picture, of one long lemma, and of its uses; sessions without a line end.

For each it prints the instructions per byte (by callgrind, on texts of 64 to 256 KiB; none if
valgrind is missing), the seconds, and the peak of memory beyond the text (a session keeps no text;
if /usr/bin/time is missing, what is below some 15 MiB is that of this script). The status is 1 if a
text gets a wrong answer, the cost of a byte grows with the text or is above a bound, or the memory
reaches 64 MiB (72 MiB for certificates with lemmas).

Usage: tests/program/hostile.py [KIND ..]: parts of the names of kinds. PROGRAM names another
program than the proved one.
"""
import os
import re
import shutil
import subprocess
import sys
import tempfile
import time
from itertools import chain, islice, repeat
from pathlib import Path

PROVED = Path(__file__).resolve().parent.parent.parent / 'crates/nonobench/out/nonobench'
MEBIBYTE = 1 << 20
MOST_BYTES = 16 * MEBIBYTE  # the longest input that the program takes
COUNTED = (1 << 16, 1 << 17, 1 << 18)  # sizes at which instructions are counted
MOST_OVER = 64 * MEBIBYTE
MOST_LEMMAS = 72 * MEBIBYTE  # a step has eight bytes, and may have two in the text
MOST_COUNTED = 4_600  # instructions for a byte: half a second for a MiB
# A step of two bytes reads a lemma of up to 1,024 literals, 11 instructions each; one of four bytes
# evaluates a line of 120 cells with as many blocks as there can be.
MOST_OF_RUNS = {'runs: a long lemma, used': 6_000, 'runs: large lines': 9_000}
PIECE = 1 << 14
TIME = '/usr/bin/time'
SIDE = 20
LARGE = 120


def lines(*parts):
    """Lines of text as bytes."""
    return ''.join(part + '\n' for part in parts).encode()


def splits():
    """The lines of a tree that splits each cell, sixteen ways, and ends each branch in the first
    row, which is dead."""
    cells = [
        lines(f'split {row} {col}') for row in range(1, SIDE + 1) for col in range(1, SIDE + 1)
    ]
    yield from cells
    tried = [0] * len(cells)
    while True:
        yield lines('dead r 1') * 16
        at = len(cells) - 2
        while tried[at] == 15:
            tried[at] = 0
            at -= 1
        tried[at] += 1
        yield from cells[at + 1 :]


def givens():
    """Each cell that a given line can name."""
    return (lines(f'given {row} {col}') for row in range(1000) for col in range(1000))


def behind_blank(line):
    """The lines that settle a blank picture, and behind them one line again and again."""
    return chain((lines(f'line r {row}') for row in range(1, SIDE + 1)), repeat(lines(line) * 4096))


def picture(cell):
    """A P3 text of a square picture; `cell` says whether a cell is black."""
    cells = (
        '0 0 0' if cell(row, col) else '255 255 255' for row in range(SIDE) for col in range(SIDE)
    )
    return lines('P3', f'{SIDE} {SIDE}', '255', *cells)


def noise(row, col):
    """A picture with many blocks, none of them settled by one line. Its first row is black."""
    return row == 0 or (row * 7 + col * col * 3 + row * col) % 5 < 2


def dense(row, col):
    """A colour for each cell of a large picture, so that its lines have the most blocks."""
    return 0 if col in (row, (row + 61) % LARGE) else 1 + (row + col) % 15


NOISE = picture(noise)
BLANK = picture(lambda row, col: False)
PIXEL = lines('P3', '1 1', '255', '0 0 0')
SMALL = lines('P3', '2 2', '255', '0 0 0', '255 255 255', '255 255 255', '0 0 255')
# The small picture is shown, and then no list fits the root.
DEAD_ROOT = lines(
    'part 1 1 .bcdefghijklmno', 'line r 1', 'line c 1', 'line r 2', 'done', 'line r 1', 'line c 2'
)
# A lemma of the most literals, all of them denied by its own first; then a branch in which none of
# them has a colour left.
LONG_LEMMA = lines('lemma', *['deny 1 1 a'] * 1024, 'dead r 1', 'part 1 1 a')
DENSE = lines(
    'P3',
    f'{LARGE} {LARGE}',
    '255',
    *(
        ' '.join(str(255 - dense(row, col) * step % 256) for step in (16, 37, 77))
        for row in range(LARGE)
        for col in range(LARGE)
    ),
)
# A large blank picture, and the lines that settle it.
WHITE = lines('P3', f'{LARGE} {LARGE}', '1', *['1 ' * LARGE * 3] * LARGE)
SETTLED = lines(*(f'line r {at}' for at in range(1, LARGE + 1)))
# A lemma in which each line but the first row is evaluated anew.
DENIED = 'deny 1 1 .abcdefghijklmno'
PLACES = [f'{axis} {at}' for axis in 'rc' for at in range(2, LARGE + 1)]
PUZZLE = lines('width 1', 'height 1', 'rows', '1', 'columns', '1')


class Kind:
    """A kind of text: how it begins, what is said again and again, and how it ends; the words that
    hand it in, and the fault that it has, as a pattern, or None where it is taken."""

    def __init__(self, words, head, body, tail=b'', beside=b'', is_kept=True, fault=None):
        self.words = words
        self.head = head
        self.said = body if callable(body) else lambda: repeat(body * max(1, PIECE // len(body)))
        self.tail = tail
        self.beside = beside
        self.fault = fault
        self.is_kept = (
            is_kept  # whether the program keeps the text, so that its memory is told beyond it
        )

    def is_answer(self, status, said):
        """Whether a run on the text ends as it must."""
        if self.fault is None:
            return (status, said) == (0, '')
        return status == 1 and re.fullmatch('nonobench: ' + self.fault, said) is not None

    def write(self, path, size):
        """Writes a text of at most so many bytes, in pieces, so that this process stays small."""
        room = size - len(self.head) - len(self.tail)
        with open(path, 'wb') as file:
            file.write(self.head)
            for piece in self.pieces(room):
                file.write(piece)
            file.write(self.tail)
        return os.path.getsize(path)

    def pieces(self, room):
        """What is said again and again, in pieces, with so many bytes in all; of a certificate,
        whole lines."""
        said = self.said()
        while True:
            piece = b''.join(islice(said, 16))
            if len(piece) >= room or not piece:
                yield piece[
                    : piece.rfind(b'\n', 0, room) + 1
                    if b'\n' in piece and self.words[:1] == ('check',)
                    else room
                ]
                return
            yield piece
            room -= len(piece)


def ppm(head, body, tail=b'', fault=None):
    """A P3 text on standard input."""
    return Kind((), head, body, tail, fault=fault and 'ppm ' + fault)


def cert(body, fault, beside=NOISE, form='nonocert 1', head=b''):
    """A certificate for a picture, which it does not prove."""
    return Kind(
        ('check', 'beside', 'text'),
        lines(form) + head,
        body,
        beside=beside,
        fault='certificate ' + fault,
    )


def lemmas(head, body, fault):
    """One with lemmas for the small picture."""
    return cert(body, fault, SMALL, 'nonolemma 1', head)


def non(head, body, tail=b'', fault=None):
    """A .non text that a session opens."""
    return Kind(
        ('work', 'text', '--format', 'non'), head, body, tail, fault=fault and 'non ' + fault
    )


def session(body, head=b''):
    """The input of a session on a picture of one cell."""
    return Kind(('work', 'beside'), head, body, beside=PIXEL, is_kept=False)


ENDED = r'Ended at line \d+'
KINDS = {
    'P3: comments': ppm(
        b'P3\n',
        b'# a comment of some sixty bytes, with the line end that closes it\n',
        b'\n1 1\n255\n0 0 0\n',
    ),
    'P3: one comment': ppm(b'P3#', b'x', b'\n1 1\n255\n0 0 0\n'),
    'P3: empty comments': ppm(b'P3\n', b'#\n', b'\n1 1\n255\n0 0 0\n'),
    'P3: white space': ppm(b'P3', b' \n', b'1 1\n255\n0 0 0\n'),
    'P3: leading zeros': ppm(b'P3\n', b'0', b'1 1\n255\n0 0 0\n'),
    'P3: one long number': ppm(b'P3\n', b'9', fault='TooLarge at byte 3'),
    'P3: one long token': ppm(b'P3\n', b'x', fault='BadNumber at byte 3'),
    # Behind fifteen bytes stand three samples a cell, of 46 bytes each.
    'P3: samples without end': ppm(
        b'P3\n120 120\n255\n',
        b'000000000000000000000000000000000000000000007\n',
        fault=f'TrailingToken at byte {15 + 120 * 120 * 3 * 46}',
    ),
    'P3: tokens behind the picture': ppm(PIXEL, b'7 ', fault='TrailingToken at byte 17'),
    'certificate: nested splits': cert(splits, ENDED),
    'certificate: splits with one colour left': cert(
        lambda: behind_blank('split 1 1'), ENDED, BLANK
    ),
    'certificate: line r 1': cert(b'line r 1\n', ENDED),
    'certificate: line r 2': cert(b'line r 2\n', ENDED),
    # The tree is whole with the first `done`, which stands below the twenty lines that settle the
    # picture.
    'certificate: lines behind the end': cert(
        lambda: behind_blank('done'), 'Trailing at line 23', BLANK
    ),
    'certificate: givens': cert(givens, 'Place at line 2', form='nonocert 2'),
    'certificate: one long line': cert(b'0', 'BadLine at line 2'),
    'certificate: blank lines': cert(b'\n', 'BadLine at line 2'),
    'lemmas: deep branches': lemmas(b'', b'part 1 1 a\n', ENDED),
    'lemmas: without literals': lemmas(DEAD_ROOT, b'lemma\ndead r 1\n', ENDED),
    'lemmas: a long one': lemmas(b'lemma\n', b'deny 1 1 a\n', 'Full at line 1027'),
    'lemmas: lines that nothing follows from': lemmas(b'', b'line r 1\n', ENDED),
    'lemmas: a long one, used': cert(b'use 1\n', ENDED, PIXEL, 'nonolemma 1', LONG_LEMMA),
    'lemmas: a long one that ends branches': cert(
        b'part 1 1 a\ndead l 1\n', ENDED, PIXEL, 'nonolemma 1', LONG_LEMMA
    ),
    'lemmas: a large picture that is shown': cert(
        b'lemma\ndone\n', ENDED, WHITE, 'nonolemma 1', SETTLED
    ),
    'lemmas: large lines': cert(
        lines('lemma', DENIED, *(f'line {place}' for place in PLACES), 'dead r 1'),
        ENDED,
        DENSE,
        'nonolemma 1',
    ),
    'runs: a long lemma, used': cert(
        lines('use' + ' 1' * 1000), ENDED, PIXEL, 'nonolemma 2', LONG_LEMMA
    ),
    'runs: large lines': cert(
        lines(
            'lemma',
            DENIED,
            'line ' + ' '.join(place.replace(' ', '') for place in PLACES),
            'dead r 1',
        ),
        ENDED,
        DENSE,
        'nonolemma 2',
    ),
    '.non: a million keyword lines': non(PUZZLE, b'title\n'),
    '.non: a million sections': non(PUZZLE, b'rows\n', fault='Repeated'),
    '.non: a million lines of a section': non(PUZZLE, b'1\n', fault='BadCount'),
    '.non: blank lines of a section': non(PUZZLE, b'\n'),
    '.non: comments': non(PUZZLE, b'#\n'),
    '.non: a clue of a million numbers': non(
        lines('width 1', 'height 1', 'columns', '1', 'rows'), b'1,', fault='BadClue'
    ),
    '.non: a clue of zeros': non(
        lines('width 1', 'height 1', 'columns', '1', 'rows'), b'0', b'1\n'
    ),
    '.non: a long goal': non(PUZZLE + b'goal "', b'1', b'"\n', fault='BadGoal'),
    '.non: a long width': non(b'width ', b'0', b'1\n', fault='MissingSize'),
    'session: a line without end': session(b'x'),
    'session: blank lines': session(b'\n'),
    'session: lines of blanks': session(b' ' * 200 + b'\n'),
    'session: lines that are too long': session(b'x' * 201 + b'\n'),
    'session: undo': session(b'undo\n'),
}


class Machine:
    """Runs the program on texts and measures it."""

    def __init__(self, program, folder):
        self.program = program
        self.folder = folder

    def prepare(self, kind, size):
        """Writes the texts of a kind; its size and what to run with which standard input."""
        path = os.path.join(self.folder, 'text')
        with open(os.path.join(self.folder, 'beside'), 'wb') as file:
            file.write(kind.beside)
        bytes_of = kind.write(path, size)
        words = [
            os.path.join(self.folder, word) if word in ('beside', 'text') else word
            for word in kind.words
        ]
        return bytes_of, words, os.devnull if 'text' in kind.words else path

    def measure(self, kind, size):
        """The bytes of the text, the peak of memory in bytes, the seconds, the status, a signal,
        and what was said."""
        bytes_of, words, given = self.prepare(kind, size)
        said, peak = (os.path.join(self.folder, name) for name in ('said', 'peak'))
        # A process begun by this one has its peak too. One that TIME begins has its own.
        before = [TIME, '-q', '-f', '%M', '-o', peak] if os.path.exists(TIME) else []
        words = [*before, self.program, *words]
        with open(given, 'rb') as source, open(os.devnull, 'wb') as sink, open(
            said, 'wb'
        ) as errors:
            began = time.monotonic()
            process = os.posix_spawn(
                words[0],
                words,
                {},
                file_actions=[
                    (os.POSIX_SPAWN_DUP2, source.fileno(), 0),
                    (os.POSIX_SPAWN_DUP2, sink.fileno(), 1),
                    (os.POSIX_SPAWN_DUP2, errors.fileno(), 2),
                ],
            )
            _, ended, usage = os.wait4(process, 0)
        with open(said, 'rb') as errors:
            text = errors.read(200).decode('latin-1').strip()
        took = min(usage.ru_utime + usage.ru_stime, time.monotonic() - began)
        status, signal = ended >> 8, ended & 127
        if not before:
            return bytes_of, usage.ru_maxrss * 1024, took, status, signal, text
        with open(peak, encoding='ascii') as figure:
            return bytes_of, int(figure.read()) * 1024, took, status, max(0, status - 128), text

    def instructions(self, kind, size):
        """The instructions that a text of a size takes, and its bytes."""
        bytes_of, words, given = self.prepare(kind, size)
        with open(given, 'rb') as source:
            ended = subprocess.run(
                [
                    'valgrind',
                    '--tool=callgrind',
                    '--callgrind-out-file=/dev/null',
                    self.program,
                    *words,
                ],
                stdin=source,
                stdout=subprocess.DEVNULL,
                stderr=subprocess.PIPE,
                check=False,
            )
        return int(re.search(rb'Collected : (\d+)', ended.stderr).group(1)), bytes_of


def is_linear(small, large, slack, factor):
    """Whether the cost of a byte of the larger text is hardly more than that of the smaller one."""
    return large <= small * factor + slack


def row_of(machine, name, kind):
    """Measures one kind; its line of the table, and whether the answer is right and all is within
    bounds."""
    few, low, fast, *_ = machine.measure(kind, MOST_BYTES // 4)
    many, peak, seconds, status, signal, said = machine.measure(kind, MOST_BYTES)
    over = max(0, peak - many if kind.is_kept else peak)
    is_right = not signal and kind.is_answer(status, said)
    good = over < (MOST_LEMMAS if kind.head.startswith(b'nonolemma') else MOST_OVER) and is_linear(
        fast / few, seconds / many, 0.1 / many, 2
    )
    good = good and (kind.is_kept or peak < low + MEBIBYTE)
    counted = ''
    if shutil.which('valgrind'):
        one, two, four = (machine.instructions(kind, size) for size in COUNTED)
        first, second = (slope(one, two), slope(two, four))
        counted = f'{second:.1f}'
        good = (
            good
            and is_linear(first, second, 1, 1.1)
            and second < MOST_OF_RUNS.get(name, MOST_COUNTED)
        )
    answer = said or f'status {status}' if not signal else f'SIGNAL {signal}'
    line = f'{name:<42} {many:>9} {counted:>8} {seconds:>8.2f} {over / MEBIBYTE:>8.1f}  {answer}'
    mark = '' if good else '   OUT OF BOUNDS'
    return line + (mark if is_right else '   WRONG'), good and is_right


def slope(small, large):
    """The instructions for each byte that the larger text has more."""
    return (large[0] - small[0]) / max(1, large[1] - small[1])


def takes_work(program):
    """Whether the program has sessions."""
    shown = subprocess.run([program, '--help'], capture_output=True, check=False).stdout
    return any(line.split()[:1] == [b'work'] for line in shown.splitlines())


def main(*wanted):
    """Measures all kinds that the program takes, or those whose names hold a word that was asked
    for."""
    program = os.path.abspath(os.environ.get('PROGRAM', PROVED))
    with tempfile.TemporaryDirectory() as folder:
        return measured(program, folder, wanted)


def measured(program, folder, wanted):
    """Measures kinds in a folder; gives the status."""
    kinds = {
        name: kind
        for name, kind in KINDS.items()
        if not wanted or any(word in name for word in wanted)
    }
    if not takes_work(program):
        kinds = {name: kind for name, kind in kinds.items() if kind.words[:1] != ('work',)}
        print('this program has no sessions: .non texts and sessions are left out')
    print(f'{"kind":<42} {"bytes":>9} {"instr/B":>8} {"seconds":>8} {"MiB over":>8}  answer')
    machine = Machine(program, folder)
    bad = 0
    for name, kind in kinds.items():
        line, good = row_of(machine, name, kind)
        print(line, flush=True)
        bad += not good
    print(f'{len(kinds)} kinds, {bad} wrong or out of bounds')
    return 1 if bad else 0


if __name__ == '__main__':
    sys.exit(main(*sys.argv[1:]))
