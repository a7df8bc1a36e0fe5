"""Documents, and plain PPM texts both ways."""
import re

from plain_forms import Fault

MAX_SIDE = 120
MAX_COLOURS = 16
PIECE = re.compile(rb'[^ \t\n\x0b\x0c\r#]+|#[^\r\n]*')


class Document:
    """A picture with its colours and its givens."""

    def __init__(self, maxval, colours, rows, givens=()):
        self.maxval = maxval
        self.colours = list(colours)
        self.rows = [list(row) for row in rows]
        self.givens = set(givens)

    def copy(self):
        """Another document that says the same."""
        return Document(self.maxval, self.colours, self.rows, self.givens)

    def said(self):
        """All that a document says, for comparing two of them."""
        return self.maxval, self.colours, self.rows, self.givens

    def ordered(self):
        """The same picture with its colours numbered by first appearance, and no colour that no
        cell has."""
        kept = [0]
        for row in self.rows:
            for colour in row:
                if colour not in kept:
                    kept.append(colour)
        rows = [[kept.index(colour) for colour in row] for row in self.rows]
        return Document(self.maxval, [self.colours[k] for k in kept], rows, self.givens)


def value_of(token):
    """The value of a token of digits, or a number larger than all limits for a very long one; None
    for no number."""
    if not re.fullmatch(rb'[0-9]+', token):
        return None
    digits = token.lstrip(b'0')
    return 10**9 if len(digits) > 9 else int(digits or b'0')


class Tokens:
    """The tokens of a P3 text behind its magic, one after the other."""

    def __init__(self, text):
        self.text = text
        self.pieces = (
            piece for piece in PIECE.finditer(text, 2) if not piece.group().startswith(b'#')
        )

    def number(self):
        """The next token's value and place; the first fault where there is none, or no number."""
        piece = next(self.pieces, None)
        if piece is None:
            raise Fault('Truncated', len(self.text))
        value = value_of(piece.group())
        if value is None:
            raise Fault('BadNumber', piece.start())
        return value, piece.start()

    def side(self):
        """The next token as a width or a height."""
        value, place = self.number()
        if value == 0:
            raise Fault('EmptySize', place)
        if value > MAX_SIDE:
            raise Fault('TooLarge', place)
        return value


def read_ppm(text, background=None):
    """The document of a P3 text, or its first fault."""
    if not re.match(rb'P3(?:[ \t\n\x0b\x0c\r#]|\Z)', text):
        raise Fault('NotP3', 0)
    tokens = Tokens(text)
    width = tokens.side()
    height = tokens.side()
    maxval, place = tokens.number()
    if not 1 <= maxval <= 65535:
        raise Fault('BadMaxval', place)
    if background is not None and max(background) > maxval:
        raise Fault('SampleOver', place)
    colours = [tuple(background) if background is not None else (maxval,) * 3]
    rows = [[read_cell(tokens, maxval, colours) for _ in range(width)] for _ in range(height)]
    piece = next(tokens.pieces, None)
    if piece is not None:
        raise Fault('TrailingToken', piece.start())
    return Document(maxval, colours, rows)


def read_cell(tokens, maxval, colours):
    """The number of the next triple's colour; a new one is put behind the others."""
    samples, places = [], []
    for _ in range(3):
        value, place = tokens.number()
        if value > maxval:
            raise Fault('SampleOver', place)
        samples.append(value)
        places.append(place)
    triple = tuple(samples)
    if triple not in colours:
        if len(colours) == MAX_COLOURS:
            raise Fault('TooManyColours', places[0])
        colours.append(triple)
    return colours.index(triple)


def write_ppm(document):
    """The P3 text of a document."""
    lines = ['P3', f'{len(document.rows[0])} {len(document.rows)}', str(document.maxval)]
    lines += ['%d %d %d' % document.colours[colour] for row in document.rows for colour in row]
    return ''.join(line + '\n' for line in lines).encode()
