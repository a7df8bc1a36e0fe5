"""Edits of a document, their refusals, and the history along which they are undone and made again.
"""
from plain_forms import Fault

from .pictures import MAX_COLOURS, MAX_SIDE

EDITS = {
    ('paint',),
    ('fill',),
    ('recolour',),
    ('insert', 'row'),
    ('insert', 'column'),
    ('delete', 'row'),
    ('delete', 'column'),
    ('swap', 'row'),
    ('swap', 'column'),
    ('colour', 'add'),
    ('colour', 'set'),
    ('pin',),
    ('unpin',),
}


def refuse(condition, name):
    """Refuses where a condition holds."""
    if condition:
        raise Fault(name)


def turned(document):
    """The document with rows and columns exchanged."""
    after = document.copy()
    after.rows = [list(column) for column in zip(*document.rows)]
    after.givens = {(col, row) for row, col in document.givens}
    return after


def edited(document, key, values):
    """The document after an edit, or its first refusal in the order of the edits' faults."""
    if key[0] in ('insert', 'delete', 'swap'):
        if key[1] == 'column':
            after = turned(LINES[key[0]](turned(document), *values))
        else:
            after = LINES[key[0]](document.copy(), *values)
    else:
        after = CELLS[key](document.copy(), *values)
    refuse(after.said() == document.said(), 'NoChange')
    return after


def outside(document, row, col):
    """Whether a place is outside the picture."""
    return row >= len(document.rows) or col >= len(document.rows[0])


def paint(document, row, col, colour):
    """A colour in one cell."""
    return fill(document, row, col, row, col, colour)


def fill(document, top, left, bottom, right, colour):
    """A colour in a rectangle with its corners."""
    refuse(
        outside(document, top, left)
        or outside(document, bottom, right)
        or bottom < top
        or right < left,
        'Place',
    )
    refuse(colour >= len(document.colours), 'Colour')
    for row in range(top, bottom + 1):
        for col in range(left, right + 1):
            document.rows[row][col] = colour
    return document


def recolour(document, source, target):
    """Each cell of one colour in another."""
    refuse(max(source, target) >= len(document.colours), 'Colour')
    document.rows = [
        [target if colour == source else colour for colour in row] for row in document.rows
    ]
    return document


def insert_row(document, at):
    """A background row before a place; the place behind the last is lawful."""
    refuse(at > len(document.rows), 'Place')
    refuse(len(document.rows) == MAX_SIDE, 'TooLarge')
    document.rows.insert(at, [0] * len(document.rows[0]))
    document.givens = {(row + (row >= at), col) for row, col in document.givens}
    return document


def delete_row(document, at):
    """A row less; its givens go with it."""
    refuse(at >= len(document.rows), 'Place')
    refuse(len(document.rows) == 1, 'LastLine')
    del document.rows[at]
    document.givens = {(row - (row > at), col) for row, col in document.givens if row != at}
    return document


def swap_rows(document, first, second):
    """Two rows exchanged, with their givens."""
    refuse(max(first, second) >= len(document.rows), 'Place')
    document.rows[first], document.rows[second] = document.rows[second], document.rows[first]
    place = {first: second, second: first}
    document.givens = {(place.get(row, row), col) for row, col in document.givens}
    return document


def add_colour(document, *triple):
    """A colour more."""
    refuse(max(triple) > document.maxval, 'SampleOver')
    refuse(len(document.colours) == MAX_COLOURS, 'PaletteFull')
    refuse(triple in document.colours, 'DuplicateColour')
    document.colours.append(triple)
    return document


def set_colour(document, colour, *triple):
    """Another triple for a colour."""
    refuse(colour >= len(document.colours), 'Colour')
    refuse(max(triple) > document.maxval, 'SampleOver')
    refuse(
        triple in document.colours and document.colours.index(triple) != colour, 'DuplicateColour'
    )
    refuse(colour == 0, 'Background')
    document.colours[colour] = triple
    return document


def pin(document, row, col):
    """A cell given."""
    refuse(outside(document, row, col), 'Place')
    document.givens.add((row, col))
    return document


def unpin(document, row, col):
    """A cell no longer given."""
    refuse(outside(document, row, col), 'Place')
    document.givens.discard((row, col))
    return document


LINES = {'insert': insert_row, 'delete': delete_row, 'swap': swap_rows}
CELLS = {
    ('paint',): paint,
    ('fill',): fill,
    ('recolour',): recolour,
    ('colour', 'add'): add_colour,
    ('colour', 'set'): set_colour,
    ('pin',): pin,
    ('unpin',): unpin,
}


class History:
    """A document with those before and after it."""

    def __init__(self, document, depth):
        self.document = document
        self.depth = depth
        self.past = []
        self.future = []

    def edit(self, key, values):
        """Makes an edit, or raises its refusal."""
        after = edited(self.document, key, values)
        self.past = (self.past + [self.document])[-self.depth :]
        self.future = []
        self.document = after

    def undo(self):
        """Takes the last edit back."""
        refuse(not self.past, 'UndoEmpty')
        self.future.insert(0, self.document)
        self.document = self.past.pop()

    def redo(self):
        """Makes the edit again that was taken back last."""
        refuse(not self.future, 'RedoEmpty')
        self.past.append(self.document)
        self.document = self.future.pop(0)
