"""What the calls answer, and why they refuse."""

from __future__ import annotations

import enum
import io
import itertools
import re
from dataclasses import dataclass, field
from typing import Iterable, Mapping, NamedTuple, Optional

MOST_GIVENS = 120 * 120  # a picture has no more cells


class NonobenchError(ValueError):
    """A file is refused. `name` is the error's name in docs/FILE-FORMATS.md, and `text` what the
    program says after `nonobench: `. Where it has a place, that is a `byte`, counted from 0, or a
    `line`, counted from 1.
    """

    def __init__(
        self, name: str, text: str, byte: Optional[int] = None, line: Optional[int] = None
    ) -> None:
        super().__init__(name, text, byte, line)
        self.name = name
        self.text = text
        self.byte = byte
        self.line = line

    def __str__(self) -> str:
        return self.text


class PictureError(NonobenchError):
    """The picture is refused, at a byte; or a .non text, without a place."""


class CertificateError(NonobenchError):
    """The certificate is refused, at a line."""


class GivensError(NonobenchError):
    """The cells that are published are refused, at one of them, which counts as a line."""


class UnpublishedGivenError(CertificateError):
    """The certificate names a given that is not published, at a line. It proves the puzzle with
    that given. `givens` has all givens that it names.
    """

    def __init__(self, line: int, givens: tuple[Given, ...]) -> None:
        text = f"certificate UnpublishedGiven at line {line}"
        super().__init__("UnpublishedGiven", text, line=line)
        self.args = (line, givens)
        self.givens = givens


class ImageError(NonobenchError):
    """An image is refused. `name` is the reason, as docs/AUDIT.md has it."""


class LengthError(NonobenchError):
    """A picture, a certificate or a file of givens has more than 16,777,216 bytes."""


class UnreadableError(NonobenchError):
    """No puzzle is read from a file. The text says why in one line."""

    def __init__(self, text: str) -> None:
        super().__init__("unreadable", text)
        self.args = (text,)


_KINDS = {
    "ppm": PictureError,
    "non": PictureError,
    "givens": GivensError,
    "certificate": CertificateError,
}


def error_of(text: str, certificate: bytes = b"") -> NonobenchError:
    """The error that a text tells, of a certificate where one was asked about."""
    found = re.fullmatch(r"(\w+) (\w+)(?: at byte (\d+)| at line (\d+))?", text)
    if found is None or found[1] not in _KINDS:
        return NonobenchError(text, text)
    byte, line = (None if place is None else int(place) for place in found.group(3, 4))
    if found[2] == "UnpublishedGiven" and line is not None:
        return UnpublishedGivenError(line, givens_of(certificate))
    return _KINDS[found[1]](found[2], text, byte, line)


class Given(NamedTuple):
    """A cell that is given, its row and column counted from 1."""

    row: int
    column: int


@dataclass(frozen=True)
class Result:
    """A certificate was accepted: no other picture of that size has the clues, and these cells'
    colours."""

    givens: tuple[Given, ...]

    def __str__(self) -> str:
        return (
            f"certificate accepted, givens {len(self.givens)}\n"
            if self.givens
            else "certificate accepted\n"
        )


def givens_of(text: bytes) -> tuple[Given, ...]:
    """The givens that a text names in lines directly below its first one: a right certificate, or
    the library's text for one that is accepted. No right one has more or longer numbers."""
    lines = itertools.islice(io.BytesIO(text), 1, 1 + MOST_GIVENS)
    found = itertools.takewhile(
        bool, map(re.compile(rb"given (\d{1,3}) (\d{1,3})\n?").fullmatch, lines)
    )
    return tuple(Given(int(match[1]), int(match[2])) for match in found if match)


def result_of(text: bytes) -> Result:
    """What was accepted, by the library's text: the line that tells it, and the givens below."""
    result = Result(givens_of(text))
    if not text.startswith(str(result).encode()):
        raise RuntimeError(f"the library names other givens: {text!r}")
    return result


# Which colour each letter is, the background first: a red, a green and a blue on the scale of the
# picture, up to its maxval.
Palette = Mapping[str, tuple[int, int, int]]


def palette_of(text: str) -> Palette:
    """The palette that lines tell, such as `colour . 255 255 255`."""
    lines = (line.split(" ") for line in text.splitlines())
    return {letter: (int(red), int(green), int(blue)) for _, letter, red, green, blue in lines}


class Block(NamedTuple):
    """Cells side by side in one colour: how many, and the colour's letter."""

    length: int
    colour: str


@dataclass(frozen=True)
class Clues:
    """The clues of each row from the top, and of each column from the left."""

    rows: tuple[tuple[Block, ...], ...]
    columns: tuple[tuple[Block, ...], ...]
    palette: Palette = field(default_factory=dict, compare=False)

    def __str__(self) -> str:
        """The lines that the program prints."""
        return "".join(
            f"{axis} {number}:"
            f" {' '.join(f'{block.length}{block.colour}' for block in clue) or '0'}\n"
            for axis, clues in (("r", self.rows), ("c", self.columns))
            for number, clue in enumerate(clues, 1)
        )


def clues_of(text: str, palette: str) -> Clues:
    """The clues that a text tells, and the palette that another one does."""
    axes: dict[str, list[tuple[Block, ...]]] = {"r": [], "c": []}
    for line in text.splitlines():
        name, words = line.split(": ")
        blocks = (
            ()
            if words == "0"
            else tuple(Block(int(word[:-1]), word[-1]) for word in words.split(" "))
        )
        axes[name[0]].append(blocks)
    return Clues(tuple(axes["r"]), tuple(axes["c"]), palette_of(palette))


class Ruling(enum.Enum):
    """Whether another picture has the clues."""

    UNIQUE = "unique"
    AMBIGUOUS = "ambiguous"
    UNDECIDED = "undecided"


@dataclass(frozen=True)
class Verdict:
    """A verdict. `other` is another picture with the clues, its rows as letters, if the ruling is
    AMBIGUOUS."""

    ruling: Ruling
    other: Optional[tuple[str, ...]] = None
    palette: Palette = field(default_factory=dict, compare=False)


class Grade(NamedTuple):
    """How hard a puzzle is: easy, medium, hard, very-hard or expert, and its figures; or `unknown`,
    without splits and depth."""

    word: str
    rounds: int
    evaluations: int
    wait: int
    splits: Optional[int] = None
    depth: Optional[int] = None


class Flaw(NamedTuple):
    """Why a puzzle is not fit to be published: `blank`, `background`, `given` with a cell, `alike`
    with two colours' letters."""

    kind: str
    place: Optional[Given] = None
    colours: Optional[tuple[str, str]] = None

    def __str__(self) -> str:
        """Its words in the text of an assessment."""
        return " ".join(map(str, (self.kind, *(self.place or self.colours or ()))))


@dataclass(frozen=True)
class Assessment:
    """Whether a puzzle is fit to be published, as docs/SESSION.md has it. There is a grade if the
    ruling is UNIQUE."""

    verdict: Verdict
    rows: int
    columns: int
    colours: int
    givens: int
    open: int
    grade: Optional[Grade]
    flaws: tuple[Flaw, ...]
    is_fit: bool
    text: str  # what the program prints
    named: tuple[Given, ...] = ()  # the givens that the certificate names, where one is passed

    @property
    def palette(self) -> Palette:
        """Which colour each letter is."""
        return self.verdict.palette


FLAW_KINDS = ("blank", "background", "given", "alike", "any")


def refused_flaws(flaws: Iterable[str], kinds: Iterable[str]) -> list[str]:
    """The flaws, by their words, that somebody refuses who allows some kinds."""
    allowed = {*kinds}
    return [] if "any" in allowed else [flaw for flaw in flaws if flaw.split(" ")[0] not in allowed]


class Puzzle(NamedTuple):
    """A puzzle of a file, as the calls take it: a P3 text, its background (None is white), and the
    cells that are given. XML may have a title."""

    picture: bytes
    background: Optional[tuple[int, int, int]] = None
    givens: tuple[Given, ...] = ()
    title: str = ""


@dataclass(frozen=True)
class Audit:
    """Verdict and certificate of a picture. There is a certificate if the ruling is UNIQUE."""

    verdict: Verdict
    certificate: Optional[bytes] = None


@dataclass(frozen=True)
class Proved:
    """What came of the search for a certificate. There is one if the ruling is UNIQUE. If that is
    UNDECIDED, a bound was reached."""

    ruling: Ruling
    certificate: Optional[bytes] = None


class Look(NamedTuple):
    """A look at a line that excluded something (docs/SESSION.md, Line logic). The line is a row,
    `r`, or a column, `c`, by its number. Cells that fell come by their places along the line and
    the letter that is left, premises by their places and the letters that were left there; numbers
    and places count from 1. `stands`: all blocks of the line stood before the look."""

    axis: str
    number: int
    round: int
    excluded: int
    falls: tuple[tuple[int, str], ...]
    stands: bool
    premises: tuple[tuple[int, str], ...]


class SolvingPath(NamedTuple):
    """The path of line logic: its looks in order, and how many cells stay open."""

    looks: tuple[Look, ...]
    open: int


def path_of(text: str) -> SolvingPath:
    """The path that a text tells."""
    *lines, last = text.splitlines()
    return SolvingPath(tuple(map(_look_of, lines)), int(last.split(" ")[1]))


def _look_of(line: str) -> Look:
    front, _, needs = line.partition(" given ")
    axis, number, round_, excluded, *words = front.split(" ")
    stands = words[-1:] == ["stands"]
    falls = _cells_of(words[:-1] if stands else words)
    numbers = int(number), int(round_), int(excluded)
    return Look(axis, *numbers, falls, stands, _cells_of(needs.split()))


def _cells_of(words: list[str]) -> tuple[tuple[int, str], ...]:
    pairs = (word.split("=") for word in words)
    return tuple((int(place), letters) for place, letters in pairs)


def proved_of(text: bytes) -> Proved:
    """What a text tells: a certificate, or why there is none."""
    if text.startswith(b"nono"):
        return Proved(Ruling.UNIQUE, text)
    return Proved(Ruling(text.decode("ascii").rstrip("\n")))


def verdict_of(text: str, palette: str) -> Verdict:
    """The verdict that a text tells, and the palette that another one does."""
    first, *rows = text.splitlines()
    ruling = Ruling(first.split(" ")[0])
    other = tuple(rows) if ruling is Ruling.AMBIGUOUS else None
    return Verdict(ruling, other, palette_of(palette))


def assessment_of(text: str, named: tuple[Given, ...] = ()) -> Assessment:
    """The assessment that a text tells, by a certificate that names some givens. The palette stands
    below what the program prints."""
    end = text.find("\ncolour ") + 1 or len(text)
    text, palette = text[:end], text[end:]
    front, back = text.split("size ", 1)
    size, *lines = (line.split(" ") for line in back.splitlines())
    found = {words[0]: words[1:] for words in lines if words[0] != "flaw"}
    grade = found.get("grade")
    return Assessment(
        verdict_of(front, palette),
        int(size[0]),
        int(size[1]),
        int(found["colours"][0]),
        int(found["givens"][0]),
        int(found["open"][0]),
        None if grade is None else Grade(grade[0], *map(int, grade[1:])),
        tuple(_flaw(words[1:]) for words in lines if words[0] == "flaw"),
        lines[-1] == ["fit"],
        text,
        named,
    )


def _flaw(words: list[str]) -> Flaw:
    if words[0] == "alike":
        return Flaw("alike", None, (words[1], words[2]))
    return Flaw(words[0], Given(*map(int, words[1:])) if words[1:] else None)
