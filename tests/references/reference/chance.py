"""Pictures, texts and sessions made by chance, right ones and ones with faults. `chance` is a
seeded random.Random."""
import re

import plain_forms

from .lines import clue_of

NUMBERS = [
    b'0',
    b'1',
    b'2',
    b'9',
    b'16',
    b'17',
    b'119',
    b'120',
    b'121',
    b'200',
    b'201',
    b'255',
    b'256',
    b'257',
    b'999',
    b'1000',
    b'65535',
    b'65536',
    b'99999',
    b'100000',
    b'00',
    b'007',
    b'000001',
    b'0' * 40 + b'3',
    b'9' * 30,
    b'-1',
    b'+1',
    b'1e2',
    b'1.0',
    b'4294967296',
    b'4294967297',
    b'18446744073709551616',
    b'18446744073709551617',
    b'340282366920938463463374607431768211457',
    b'\xd9\xa1',
    b'',
    b',',
    b'"',
]
BYTES = b' \t\n\r\x0b\x0c#0123456789,"-P.aoz\x00\xff\x85\xa0'
GAPS = [
    b' ',
    b' ',
    b'\n',
    b'\n',
    b'\t',
    b'\r',
    b'\r\n',
    b'\x0b',
    b'\x0c',
    b'  ',
    b'#\n',
    b' # note 1 2\n',
    b'#x\r',
    b'\n#\r\n',
]


def some_rows(chance, most, colours):
    """The rows of a picture of up to `most` cells a side, often one that has others with its
    clues."""
    height, width = chance.randint(1, most), chance.randint(1, most)
    style = chance.random()
    full = chance.random()
    rows = [
        [
            chance.randrange(1, colours) if colours > 1 and chance.random() < full else 0
            for _ in range(width)
        ]
        for _ in range(height)
    ]
    if style < 0.25:
        rows = [
            [rows[0][0] if (row + col) % chance.choice((2, 3)) == 0 else 0 for col in range(width)]
            for row in range(height)
        ]
    elif style < 0.4:
        rows = some_corners(chance, most, colours)
    elif style < 0.55:
        for _ in range(chance.randint(1, 3)):
            colour = chance.randrange(colours)
            top, left = chance.randrange(height), chance.randrange(width)
            for row in range(top, chance.randint(top, height - 1) + 1):
                rows[row][left:] = [colour] * (width - left)
    return rows


def some_corners(chance, most, colours):
    """Squares of two by two down the diagonal, each with two equal corners: each can be turned over
    by itself."""
    count = chance.randint(1, max(1, most // 2))
    rows = [[0] * (2 * count) for _ in range(2 * count)]
    for at in range(0, 2 * count, 2):
        colour = chance.randrange(1, colours) if colours > 1 else 0
        turn = chance.randrange(2)
        rows[at][at + turn] = rows[at + 1][at + 1 - turn] = colour
    return rows


def some_triples(chance, count, maxval):
    """Different triples, the first of them white more often than not."""
    triples = [(maxval,) * 3] if chance.random() < 0.8 else []
    while len(triples) < count:
        top = min(maxval, chance.choice((3, 255, 65535)))
        triple = tuple(chance.randint(0, top) for _ in range(3))
        if triple not in triples:
            triples.append(triple)
        elif maxval < 3:
            maxval += 1
    return triples


def mutated(chance, text, times):
    """A text with some changes: bytes, words or lines taken out, put in, doubled or exchanged."""
    for _ in range(times):
        change = chance.choice(
            (
                take_out,
                put_in,
                other_byte,
                double,
                cut_off,
                other_word,
                other_word,
                exchange_lines,
                take_out_line,
                double_line,
            )
        )
        text = change(chance, text)
    return text


def place(chance, text):
    """A place in a text, or at its end."""
    return chance.randint(0, len(text))


def take_out(chance, text):
    """A few bytes less."""
    at = place(chance, text)
    return text[:at] + text[at + chance.choice((1, 1, 2, 4)) :]


def put_in(chance, text):
    """A number or a gap more."""
    at = place(chance, text)
    return text[:at] + chance.choice(chance.choice((NUMBERS, GAPS))) + text[at:]


def other_byte(chance, text):
    """One byte exchanged."""
    at = place(chance, text)
    return text[:at] + bytes((chance.choice(BYTES),)) + text[at + 1 :]


def double(chance, text):
    """A slice twice."""
    at = place(chance, text)
    end = min(len(text), at + chance.choice((1, 3, 10, 100)))
    return text[:end] + text[at:end] + text[end:]


def cut_off(chance, text):
    """The end missing."""
    return text[: place(chance, text)]


def other_word(chance, text):
    """Another number in the place of a word."""
    words = list(re.finditer(rb'[^\s,]+', text))
    if not words:
        return put_in(chance, text)
    word = chance.choice(words)
    return text[: word.start()] + chance.choice(NUMBERS) + text[word.end() :]


def exchange_lines(chance, text):
    """Two lines exchanged."""
    lines = text.split(b'\n')
    i, j = chance.randrange(len(lines)), chance.randrange(len(lines))
    lines[i], lines[j] = lines[j], lines[i]
    return b'\n'.join(lines)


def take_out_line(chance, text):
    """A line less."""
    lines = text.split(b'\n')
    del lines[chance.randrange(len(lines))]
    return b'\n'.join(lines)


def double_line(chance, text):
    """A line twice, in any two places."""
    lines = text.split(b'\n')
    lines.insert(chance.randint(0, len(lines)), chance.choice(lines))
    return b'\n'.join(lines)


def faults_wanted(chance):
    """How many changes a text gets."""
    return chance.choice((0, 0, 0, 1, 1, 1, 2, 3))


def ppm_text(chance, rows, triples, maxval):
    """A P3 text in some lawful layout."""
    plain = chance.random() < 0.4

    def gap():
        return (
            b'\n'
            if plain
            else b''.join(chance.choice(GAPS) for _ in range(chance.choice((1, 1, 1, 2))))
        )

    def number(value):
        zeros = 0 if plain or chance.random() < 0.9 else chance.choice((1, 3, 20))
        return b'0' * zeros + str(value).encode()

    values = [len(rows[0]), len(rows), maxval]
    values += [sample for row in rows for colour in row for sample in triples[colour]]
    text = b'P3' + b''.join(gap() + number(value) for value in values)
    return text + (gap() if chance.random() < 0.8 else b'')


def some_ppm(chance, most, colours):
    """A picture and a P3 text of it: its rows, its triples and the text."""
    rows = some_rows(chance, most, colours)
    maxval = chance.choice((255, 255, 1, 15, 65535, chance.randint(1, 65535)))
    maxval = max(maxval, 3) if colours > 4 else maxval
    triples = some_triples(chance, colours, maxval)
    maxval = max([maxval] + [max(triple) for triple in triples])
    return rows, triples, ppm_text(chance, rows, triples, maxval)


def some_non(chance, most):
    """A .non text of a picture of two colours, in some lawful layout."""
    rows = some_rows(chance, most, 2)
    empty = chance.choice((b'0', b'0', b'', b'00'))

    def clue_line(cells):
        comma = chance.choice((b',', b',', b' , ', b',\t'))
        line = (
            comma.join(
                b'0' * chance.choice((0, 0, 2)) + str(length).encode()
                for length, _ in clue_of(cells)
            )
            or empty
        )
        return chance.choice((b'', b'', b' ')) + line + chance.choice((b'', b'', b' \t'))

    digits = ''.join(str(colour) for row in rows for colour in row).encode()
    goal = (
        chance.choice((b'goal "%s"', b'goal %s', b'goal "%s" ', b'goal\t%s', b' goal "%s"'))
        % digits
    )
    blocks = [
        [b'width %d' % len(rows[0])],
        [b'height %d' % len(rows)],
        [b'rows'] + [clue_line(row) for row in rows],
        [b'columns'] + [clue_line(column) for column in zip(*rows)],
    ]
    if chance.random() < 0.7:
        blocks.append([goal])
    if chance.random() < 0.3:
        blocks.append(
            [chance.choice((b'title "x"', b'copyright "\xa9"', b'goal2 1', b'catalogue 1'))]
        )
    if chance.random() < 0.4:
        chance.shuffle(blocks)
    lines = [line for block in blocks for line in block]
    for _ in range(chance.choice((0, 0, 1, 2))):
        lines.insert(place(chance, lines), chance.choice((b'', b' ', b'# a note', b'\t#1')))
    end = chance.choice((b'\n', b'\n', b'\r\n'))
    return end.join(lines) + chance.choice((b'', end, end))


def some_check(chance, most, colours):
    """A picture, a certificate and a background for a check: two texts and three samples or
    None."""
    rows, triples, text = some_ppm(chance, most, colours)
    height, width = len(rows), len(rows[0])
    share = chance.choice((0, 0, 0.1, 0.4))
    cells = [(r, c) for r in range(1, height + 1) for c in range(1, width + 1)]
    givens = [cell for cell in cells if chance.random() < share]
    form = chance.choice(plain_forms.FORMS[1:] if givens else plain_forms.FORMS)
    lines = plain_forms.walk(chance, plain_forms.Puzzle(rows), form, givens)
    if form == 'nonolemma 2':
        lines = plain_forms.joined(chance, lines)
    cert = plain_forms.text_of(chance, lines)
    for _ in range(chance.choice((0, 0, 1, 1, 2))):
        cert = other_tree(chance, cert, height, width)
    return text, cert, triples[0] if chance.random() < 0.8 else None


def other_tree(chance, cert, height, width):
    """A certificate with one line of the tree put in, taken out or exchanged for another lawful
    one."""
    lines = cert.split(b'\n')
    at = chance.randrange(1, max(2, len(lines)))
    row, col = chance.randint(0, height + 1), chance.randint(0, width + 1)
    line = chance.choice(
        (
            b'line r %d' % row,
            b'line c %d' % col,
            b'dead r %d' % row,
            b'dead c %d' % col,
            b'split %d %d' % (row, col),
            b'done',
            b'given %d %d' % (row, col),
        )
    )
    lines[at : at + chance.randint(0, 1)] = [line] if chance.random() < 0.8 else []
    return b'\n'.join(lines)


def some_place(chance, most):
    """A place from 1 on, mostly in the picture."""
    return (
        chance.randint(1, most + 1)
        if chance.random() < 0.95
        else chance.choice((0, 1, 119, 120, 121, 256, 257))
    )


def some_colour(chance, colours):
    """A colour word, mostly of the palette."""
    if chance.random() < 0.95:
        return '.abcdefghijklmno'[chance.randrange(min(16, colours + 1))]
    return chance.choice(('.', 'o', 'p', 'A', 'ab', '0'))


def some_triple(chance, triples):
    """A triple, sometimes one that is there."""
    if chance.random() < 0.3:
        return chance.choice(triples)
    top = chance.choice((1, 3, 255, 256, 65535, 65536))
    return tuple(chance.randint(0, top) for _ in range(3))


def some_command(chance, height, width, triples, heed):
    """A command of a session; where verdicts are heeded, one that moves a verdict or asks for
    it."""

    def row():
        return some_place(chance, height)

    def col():
        return some_place(chance, width)

    def colour():
        return some_colour(chance, len(triples))

    small = chance.choice((0, 0, 1, 1, 2, 3))
    made = (  # how often in general, how often where verdicts are heeded, and the words
        (10, 4, lambda: ('paint', row(), col(), colour())),
        (3, 0, lambda: ('fill', row(), col(), row(), col(), colour())),
        (2, 0, lambda: ('recolour', colour(), colour())),
        (1, 1, lambda: ('insert row', row())),
        (1, 0, lambda: ('insert column', col())),
        (2, 0, lambda: ('delete row', row())),
        (2, 0, lambda: ('delete column', col())),
        (2, 0, lambda: ('swap row', row(), row())),
        (2, 1, lambda: ('swap column', col(), col())),
        (2, 0, lambda: ('colour add', *some_triple(chance, triples))),
        (2, 0, lambda: ('colour set', colour(), *some_triple(chance, triples))),
        (4, 2, lambda: ('pin', row(), col())),
        (2, 1, lambda: ('unpin', row(), col())),
        (5, 3, lambda: ('undo',)),
        (3, 2, lambda: ('redo',)),
        (3, 0, lambda: ('clues',)),
        (4, 0, lambda: ('map',)),
        (6, 12, lambda: ('verdict',)),
        (3, 1, lambda: ('report',)),
        (
            8,
            0,
            lambda: (
                'why',
                row(),
                col(),
                '.abcdefghijklmno'[chance.randrange(16)] if chance.random() < 0.3 else colour(),
            ),
        ),
        (3, 1, lambda: ('certify',)),
        (1, 0, lambda: ('write ppm',)),
        (1, 0, lambda: ('write non',)),
        (3, 4, lambda: ('assess', *chance.choice(((), (), ('off',), ('of',))))),
        (2, 0, lambda: ('path',)),
        (
            3,
            8,
            lambda: (
                'allow',
                small if heed else chance.choice(('off', 'off', 0, 1, 2, 3, 5, 99999, 100000)),
            ),
        ),
        (0, 2, lambda: ('allow off',)),
    )
    weights = [heeded if heed else general for general, heeded, _ in made]
    return ' '.join(str(word) for word in chance.choices(made, weights)[0][2]()).encode()


def broken_line(chance, line):
    """A line with another layout or a fault."""
    blank = b' ' * chance.choice((180, 197, 198, 199, 200, 201, 300, 5000))
    return chance.choice(
        (
            lambda: mutated(chance, line, 1),
            lambda: line + b' 1',
            lambda: line.replace(b' ', b'\t '),
            lambda: b' ' + line + b' ',
            lambda: (line + blank)[: chance.choice((199, 200, 201, 202))],
            lambda: blank,
            lambda: b'',
            lambda: line + b'\r',
            lambda: line.rsplit(b' ', 1)[0],
            lambda: line.upper(),
            lambda: line + b'\x00',
            lambda: line.replace(b' ', b'\x0b'),
        )
    )()


def some_session(chance, rows, triples, count):
    """The lines of a session on a picture."""
    text = b''
    heed = chance.random() < 0.4
    for _ in range(count):
        line = some_command(chance, len(rows), len(rows[0]), triples, heed)
        if chance.random() < 0.06:
            line = broken_line(chance, line)
        text += line + chance.choice((b'\n', b'\n', b'\n', b'\n', b'\r\n'))
    return text if chance.random() < 0.8 else text[:-1]
