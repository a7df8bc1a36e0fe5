"""The questions: bytes in, an answer or an error out."""

from __future__ import annotations

import contextlib
import operator
import re
from typing import Iterable, Optional, SupportsIndex, Union

from ._answers import (
    Assessment,
    Audit,
    Clues,
    GivensError,
    LengthError,
    NonobenchError,
    Proved,
    Puzzle,
    Result,
    SolvingPath,
    Verdict,
    assessment_of,
    clues_of,
    error_of,
    givens_of,
    path_of,
    proved_of,
    result_of,
    verdict_of,
)
from ._library import DONE, MEMORY
from ._serve import ASSESS, CHECK, CHECK_ANY, PROVE, SESSION, SESSION_OF_NON, answer

Bytes = Union[bytes, bytearray, memoryview]
Colour = tuple[int, int, int]

# How many bytes a picture, a certificate or a file of givens has at the most, as for the program.
MOST_BYTES = 16_777_216
MOST_ALLOWANCE = 99_999
MOST_CELLS = 120  # of a side
MOST_SAMPLE = 65535

# What a line of a .non text begins with, in the front of the file, and how a picture does.
_WORD = re.compile(rb"^[ \t]*(?:width|height|rows|columns|goal|catalogue|title)\b", re.MULTILINE)
_FRONT = 65536
_PICTURE = re.compile(rb"P3[\s#]")


class AnyGiven:
    """The type of ANY_GIVEN."""

    def __repr__(self) -> str:
        return "nonobench.ANY_GIVEN"


# Published are the givens that a certificate names, whichever they are.
ANY_GIVEN = AnyGiven()
Published = Union[Iterable[tuple[int, int]], Bytes, AnyGiven]


class Questions:
    """The questions, wherever they are answered. Each raises PictureError, LengthError or
    MemoryError if a picture is refused, and ValueError for a background that is not a triple of
    numbers from 0 to 65,535. Without one the background is white. All but `check` and `prove` take
    a .non text, too, which they recognise by what it has, and which has no other background.
    """

    def check(
        self,
        picture: Bytes,
        certificate: Bytes,
        background: Optional[Colour] = None,
        published: Published = (),
    ) -> Result:
        """Checks a certificate of a picture, a P3 text, in any of its forms. Raises
        CertificateError if it is not accepted.

        A puzzle has one solution with the givens that its certificate names, and these may be all
        cells. So a certificate is accepted only if each of its givens is among `published`: the
        cells whose colours you publish, as pairs of row and column counted from 1, or as the bytes
        of a file with a line `given R C` for each; by default none. Otherwise it raises
        UnpublishedGivenError, whose `givens` are those that the certificate names. A published cell
        that is outside the picture or occurs twice raises GivensError. `published=ANY_GIVEN`
        accepts all givens, for a site that then publishes exactly these.
        """
        picture, certificate, givens = (
            bytes_of(picture),
            bytes_of(certificate),
            _file_of(published),
        )
        kind = CHECK_ANY if givens is None else CHECK
        (text,) = self._ask(kind, picture, background, certificate, givens or b"")
        return result_of(text)

    def prove(
        self,
        picture: Bytes,
        background: Optional[Colour] = None,
        published: Published = (),
        complete: bool = False,
        format: int = 2,
    ) -> Proved:
        """A certificate of a picture, or why there is none. Its givens are exactly the published
        cells, which are as in `check`, but not ANY_GIVEN.

        It is often shorter than that of `certify`, and sometimes there when that takes too long.
        Unless it is `complete`, the search has bounds, and if it reaches one, the ruling is
        UNDECIDED. It may take minutes, or without bounds any time; `Worker` limits the time.
        `format` is 2, or 1 for a certificate with lemmas that is `nonolemma 1`.
        """
        givens = _file_of(published)
        if givens is None:
            raise ValueError("ANY_GIVEN goes with a certificate")
        if format not in (1, 2):
            raise ValueError("format must be 1 or 2")
        how = b"%d %d" % (bool(complete), format)
        return proved_of(self._ask(PROVE, bytes_of(picture), background, how, givens)[0])

    def assess(
        self,
        puzzle: Bytes,
        certificate: Optional[Bytes] = None,
        background: Optional[Colour] = None,
        published: Published = (),
        allowance: Union[int, str, None] = None,
        non: Optional[bool] = None,
    ) -> Assessment:
        """Whether a puzzle is fit to be published: its verdict, its grade and its flaws. It is a P3
        text, or a .non text with a goal; `non` says which, where that must not be recognised.

        The published cells and the certificate are as in `check`; a certificate takes the place of
        the search for another solution. The allowance is how many splits the search of a part may
        make: 10,000 without one, or 0 to 99,999, or "off" for no bound.
        """
        puzzle, by = bytes_of(puzzle), None if certificate is None else bytes_of(certificate)
        givens = _file_of(givens_of(by or b"") if isinstance(published, AnyGiven) else published)
        bound = _bound(allowance)
        if non is None:
            non = is_non(puzzle)
        if not isinstance(non, int):
            raise TypeError(f"non must be True or False, not {type(non).__name__}")
        if non and background is not None:
            raise ValueError("background goes with a P3 text")
        rest = b"%d %d %s\n" % (non, by is not None, bound) + (by or b"")
        try:
            (text,) = self._ask(ASSESS, puzzle, background, rest, givens or b"")
        except GivensError:
            if by is not None and isinstance(published, AnyGiven) and not non:
                self.check(
                    puzzle, by, background, ANY_GIVEN
                )  # which says what is wrong with the certificate that names them
            raise
        return assessment_of(text.decode("ascii"), givens_of(by or b""))

    def clues(self, picture: Bytes, background: Optional[Colour] = None) -> Clues:
        """The clues of a picture."""
        palette, text = self._say(picture, background, b"clues\n")
        return clues_of(text.decode("ascii"), palette.decode("ascii"))

    def verdict(
        self, picture: Bytes, allowance: Optional[int] = None, background: Optional[Colour] = None
    ) -> Verdict:
        """Whether another picture has the clues of this one.

        The allowance, 0 to 99,999, is how many splits the search of a part may make. Without one
        the search has no bound, and may take very long; `Worker` limits the time. Raises ValueError
        for another allowance.
        """
        palette, *_, text = self._say(picture, background, _allow(allowance) + b"verdict\n")
        return verdict_of(text.decode("ascii"), palette.decode("ascii"))

    def path(
        self,
        picture: Bytes,
        background: Optional[Colour] = None,
        published: Iterable[tuple[int, int]] = (),
    ) -> SolvingPath:
        """The path of line logic on a picture, some of whose cells are published: each look at a
        line that excluded something, with what it needs."""
        if isinstance(published, (AnyGiven, bytes, bytearray, memoryview)):
            raise TypeError("published must be pairs of row and column")
        pins = (_file_of(published) or b"").replace(b"given", b"pin")
        return path_of(self._say(picture, background, pins + b"path\n")[-1].decode("ascii"))

    def certify(self, picture: Bytes, background: Optional[Colour] = None) -> Optional[bytes]:
        """A certificate of a picture, without givens, or None if another picture has its clues. It
        may take very long."""
        text = self._say(picture, background, b"certify\n")[-1]
        return None if text == b"ambiguous\n" else text

    def audit(
        self, picture: Bytes, allowance: Optional[int] = None, background: Optional[Colour] = None
    ) -> Audit:
        """Verdict and certificate of a picture that is opened once. There is a certificate if the
        ruling is UNIQUE.

        The allowance bounds the verdict, as in `verdict`; making the certificate has no bound.
        """
        lines = _allow(allowance) + b"verdict\ncertify\n"
        palette, *texts = self._say(picture, background, lines)
        certificate = texts.pop() if texts[-1].startswith(b"nonocert ") else None
        return Audit(verdict_of(texts[-1].decode("ascii"), palette.decode("ascii")), certificate)

    def puzzles_of(self, data: Bytes, background: Optional[Colour] = None) -> list[Puzzle]:
        """The puzzles of a file, of every kind that nonobench-audit reads (docs/AUDIT.md): P3,
        which stays as it is, other Netpbm images, PNG, .non and XML, which may have several.

        Without a background, a PNG has the one that the audit chooses, and XML its own; givens are
        those of XML. A .non text without a goal is the first picture that is found for its clues,
        which may take very long; `Worker` limits the time. Raises ImageError, UnreadableError or
        PictureError if the file is refused, and ImportError if PNG needs Pillow, or XML defusedxml.
        """
        from .collection.reading import puzzles_of

        return puzzles_of(bytes_of(data), background, self)

    def picture_of_non(self, puzzle: Bytes) -> bytes:
        """The P3 text of a .non text: of its goal, or of a picture that is found for its clues."""
        return self._say(puzzle, None, b"write ppm\n", True)[-1]

    def _say(
        self,
        picture: Bytes,
        background: Optional[Colour],
        lines: bytes,
        non: Optional[bool] = None,
    ) -> list[bytes]:
        """The palette of a picture, and what a bench on it answers to the last lines, at most two,
        until one is refused or tells that there is no certificate.

        All that is asked here is lawful, so a refusal is one of memory.
        """
        data = bytes_of(picture)
        non = is_non(data) if non is None else non
        if non and background is not None:
            raise ValueError("background goes with a P3 text")
        texts = self._ask(SESSION_OF_NON if non else SESSION, data, background, lines)
        if texts[-1].startswith(b"refused: "):
            if texts[-1] == b"refused: Memory\n":
                raise MemoryError("nonobench: memory")
            last = texts[-1].decode("ascii")
            raise NonobenchError(last[9:-1], last[:-1])
        return texts

    def _ask(
        self,
        kind: int,
        picture: bytes,
        background: Optional[Colour],
        rest: bytes,
        givens: bytes = b"",
    ) -> list[bytes]:
        """The texts of an answer. Raises what its status tells."""
        ground = b"" if background is None else colour_word(background)
        status, texts = self._answer(kind, picture, ground, rest, givens)
        if status == MEMORY:
            raise MemoryError("nonobench: memory")
        if status != DONE:
            raise error_of(
                texts[-1].decode("ascii"), rest.partition(b"\n")[2] if kind == ASSESS else rest
            )
        return texts

    def _answer(self, kind: int, *files: bytes) -> tuple[int, list[bytes]]:
        """The status and the texts of an answer."""
        return answer(kind, *files)


_here = Questions()
assess, check, clues, verdict, certify, audit = (
    _here.assess,
    _here.check,
    _here.clues,
    _here.verdict,
    _here.certify,
    _here.audit,
)
path, prove, puzzles_of = _here.path, _here.prove, _here.puzzles_of


def picture_of(columns: int, rows: int, triples: Iterable[Colour], maxval: int = 255) -> bytes:
    """A P3 text of cells by rows, each a red, a green and a blue from 0 to maxval. ValueError names
    what the reader would refuse."""
    cells = [(*map(operator.index, cell),) for cell in triples]
    for name, value, most in (
        ("columns", columns, MOST_CELLS),
        ("rows", rows, MOST_CELLS),
        ("maxval", maxval, MOST_SAMPLE),
    ):
        if (
            isinstance(value, bool)
            or not isinstance(value, SupportsIndex)
            or not 1 <= operator.index(value) <= most
        ):
            raise ValueError(f"{name} must be a whole number from 1 to {most}")
    if len(cells) != columns * rows or not all(
        len(cell) == 3 and 0 <= min(cell) <= max(cell) <= maxval for cell in cells
    ):
        raise ValueError(
            f"{columns} by {rows} cells need {columns * rows} colours up to {maxval}; not these"
            f" {len(cells)}"
        )
    return "\n".join(
        [
            f"P3\n{columns} {rows}\n{maxval}",
            *(f"{red:d} {green:d} {blue:d}" for red, green, blue in cells),
            "",
        ]
    ).encode("ascii")


def bytes_of(file: Bytes) -> bytes:
    """The bytes of a file, not too many of them."""
    if not isinstance(file, (bytes, bytearray, memoryview)):
        raise TypeError(f"expected bytes, not {type(file).__name__}")
    data = bytes(memoryview(file))  # a subclass may have another length
    if len(data) > MOST_BYTES:
        raise LengthError("TooLong", "input too long")
    return data


def is_non(data: bytes) -> bool:
    """Whether a file is a .non text: a line of it begins with a word of that format, and it does
    not begin as a picture does."""
    return not _PICTURE.match(data) and bool(_WORD.search(data, 0, _FRONT))


def _file_of(published: Published) -> Optional[bytes]:
    """The file of the givens that are published; None for whichever are given."""
    if isinstance(published, AnyGiven):
        return None
    if isinstance(published, (bytes, bytearray, memoryview)):
        return bytes_of(published)
    try:
        lines = [
            b"given %d %d\n" % (operator.index(row), operator.index(column))
            for row, column in published
        ]
    except (TypeError, ValueError):
        raise TypeError(
            "published must be pairs of row and column, a file's bytes, or ANY_GIVEN"
        ) from None
    return bytes_of(b"".join(lines))


def _bound(allowance: Union[int, str, None]) -> bytes:
    """The word of an assessment's allowance; empty where there is none."""
    if isinstance(allowance, str):
        if allowance != "off":
            raise ValueError('allowance must be 0 to 99999 or "off"')
        return b"off"
    return b"" if allowance is None else _allow(allowance).split()[1]


def _allow(allowance: Optional[int]) -> bytes:
    """The line that sets an allowance; none where there is none."""
    if allowance is None:
        return b""
    if not isinstance(allowance, int):
        raise TypeError(f"allowance must be a whole number, not {type(allowance).__name__}")
    if not 0 <= allowance <= MOST_ALLOWANCE:
        raise ValueError("allowance must be 0 to 99999")
    return f"allow {allowance:d}\n".encode("ascii")


def colour_word(colour: Colour) -> bytes:
    """A colour as the library takes it."""
    return b"%d,%d,%d" % triple_of(colour)


def triple_of(colour: Colour, most: int = MOST_SAMPLE, name: str = "background") -> Colour:
    """A colour as three numbers from 0 to another one."""
    with contextlib.suppress(TypeError, ValueError):
        red, green, blue = map(
            operator.index, () if isinstance(colour, (bytes, bytearray, memoryview)) else colour
        )
        if 0 <= min(red, green, blue) <= max(red, green, blue) <= most:
            return red, green, blue
    raise ValueError(f"{name} must be a triple of numbers from 0 to {most}")
