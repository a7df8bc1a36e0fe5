"""The normal form of a puzzle's clues: the same however it is turned, mirrored or coloured."""

from __future__ import annotations

import hashlib
from typing import Sequence

_LETTERS = b"abcdefghijklmno"


def shape_of(picture: str) -> str:
    """A digest of the clues of a picture, whose rows are letters between slashes: the least of
    those of the eight pictures that it can be turned and mirrored into, with colours in the order
    in which they come.

    Lines with few cells come first: mostly this tells how the picture is turned.
    """
    rows = picture.encode("ascii").split(b"/")
    columns = list(map(bytes, zip(*rows)))
    colours = [letter for letter in _LETTERS if chr(letter) in picture]
    counts = _turned(_counts(rows), _counts(columns))
    clues = _clues(rows + columns, colours)
    across, down = clues[: len(rows)], clues[len(rows) :]
    back, up = [clue[::-1] for clue in across], [clue[::-1] for clue in down]
    texts = (
        (across, down),
        (back, down[::-1]),
        (across[::-1], up),
        (back[::-1], up[::-1]),
        (down, across),
        (down[::-1], back),
        (up, across[::-1]),
        (up[::-1], back[::-1]),
    )
    least = min(counts)
    forms = [
        _recoloured(b"/".join(one) + b"|" + b"/".join(other), colours)
        for (one, other), count in zip(texts, counts)
        if count == least
    ]
    return hashlib.sha256(min(forms)).hexdigest()[:32]


def _counts(lines: list[bytes]) -> list[int]:
    """How many cells of each line have the background."""
    return [line.count(b".") for line in lines]


def _turned(rows: list[int], columns: list[int]) -> Sequence[tuple[list[int], list[int]]]:
    """The counts of a picture and of the seven others, in the order of `shape_of`."""
    back, up = columns[::-1], rows[::-1]
    return (
        (rows, columns),
        (rows, back),
        (up, columns),
        (up, back),
        (columns, rows),
        (back, rows),
        (columns, up),
        (back, up),
    )


def _clues(lines: list[bytes], colours: list[int]) -> list[bytes]:
    """The clue of each line: its blocks as letters, with a comma between two of one colour."""
    text = b" ".join(b"/".join(lines).replace(b".", b" ").split())  # one blank for each gap
    for colour in colours:
        apart, marked = b"%c %c" % (colour, colour), b"%c,%c" % (colour, colour)
        text = text.replace(apart, marked).replace(apart, marked)  # two in `a a a` overlap
    return text.replace(b" ", b"").split(b"/")


def _recoloured(form: bytes, colours: list[int]) -> bytes:
    """Colours renamed in the order in which they come."""
    come = bytes(sorted(colours, key=form.find))
    return form.translate(bytes.maketrans(come, _LETTERS[: len(come)]))
