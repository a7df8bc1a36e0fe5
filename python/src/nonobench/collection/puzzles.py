"""The questions and answers of an audit, and why a file has no puzzle."""

from __future__ import annotations

import re
from typing import Any, NamedTuple, Optional

from .._answers import FLAW_KINDS, UnreadableError
from .._calls import MOST_ALLOWANCE, Colour

MOST_COLOURS = 16  # with the background
WHITE: Colour = (255, 255, 255)
BLACK: Colour = (0, 0, 0)
Row = dict[str, Any]  # as docs/rows.schema.json has it

# What a line of text should not have: control characters, and marks that change the direction of
# writing.
_UNSEEN = re.compile(
    "[\x00-\x1f\x7f-\x9f\u061c\u200b-\u200f\u2028-\u202e\u2060-\u2069\ufeff\ud800-\udfff]"
)
MOST_TITLE = 200


class MissingLibraryError(ImportError):
    """A library is not installed that a file or an option needs."""

    def __init__(self, library: str, use: str) -> None:
        super().__init__(f"{library}, which {use}, is not installed (pip install {library})")
        self.args = (library, use)
        self.library = library


class Question(NamedTuple):
    """One puzzle, as bytes, with what belongs to it. The ending of its name counts where the bytes
    do not say what it is."""

    name: str
    data: bytes
    certificate: Optional[bytes] = None
    givens: Optional[bytes] = None  # lines `given R C`
    background: Optional[bytes] = None  # `white` or R,G,B
    ignored: tuple[str, ...] = ()  # files next to it that are not believed
    claimed: Optional[bytes] = None  # a background next to it that is not believed


# The least and the most of the options that are numbers.
BOUNDS = {"seconds": (1, 1_000_000), "memory": (64, 1 << 20), "max_guesses": (0, MOST_ALLOWANCE)}


def check_number(name: str, value: Any, least: int, most: int) -> None:
    """Raises ValueError if a value is not a whole number between two others."""
    if type(value) is not int or not least <= value <= most:
        raise ValueError(f"{name} must be a whole number from {least} to {most}, not {value!r}")


class Options(NamedTuple):
    """What changes an answer."""

    background: str = "auto"  # of pictures that name none: auto, white or R,G,B
    seconds: int = 10  # of processor time for each puzzle; ten times as many by the clock
    memory: int = 1024  # MiB of a process
    max_guesses: Optional[int] = None  # of each search for another solution: 0 to 99,999
    allowed: tuple[str, ...] = ()  # kinds of flaws that count for nothing
    is_untrusted: bool = False  # the givens and the background that XML names count for nothing
    is_certified: bool = False  # a certificate must be there and accepted; nothing is searched
    is_certifying: bool = False  # a certificate is made
    is_publishing: bool = False  # the picture is written as P3, with its certificate

    def check(self) -> None:
        """Raises ValueError if an option is wrong."""
        for name, bounds in BOUNDS.items():
            value = getattr(self, name)
            if name != "max_guesses" or value is not None:
                check_number(name, value, *bounds)
        for kind in self.allowed:
            if kind not in FLAW_KINDS:
                raise ValueError(f"allowed must be of {', '.join(FLAW_KINDS)}, not {kind!r}")
        try:
            background_named(self.background)
        except ValueError as error:
            raise ValueError(f"background {error}, not {self.background!r}") from None

    def limit(self) -> Row:
        """The bound that leaves a puzzle undecided."""
        bounds: Row = {"seconds": self.seconds, "memory": self.memory}
        return bounds if self.max_guesses is None else {**bounds, "guesses": self.max_guesses}


def background_named(word: str) -> Optional[Colour]:
    """A colour that is named as R,G,B, up to 65,535; None for the others, `auto` and `white`.
    ValueError: it is none of these."""
    if word in ("auto", "white"):
        return None
    if not isinstance(word, str) or not re.fullmatch(r"[0-9]{1,5}(,[0-9]{1,5}){2}", word):
        raise ValueError("must be auto, white, or R,G,B")
    red, green, blue = map(int, word.split(","))
    if max(red, green, blue) > 65535:
        raise ValueError("must be R,G,B of numbers up to 65535")
    return red, green, blue


class Answer(NamedTuple):
    """The row of a puzzle, and the files to be written for it, by what follows its name. The row
    has a key if the same bytes, options and bounds have the same answer."""

    row: Row
    files: dict[str, bytes] = {}


def need(is_right: object, why: str) -> None:
    """Refuses a puzzle if something is wrong."""
    if not is_right:
        raise UnreadableError(why)


def one_line(text: str, most: int = MOST_TITLE) -> str:
    """A stranger's text in one line, not too long, with blanks for what cannot be seen."""
    words = " ".join(_UNSEEN.sub(" ", text).split())
    return words if len(words) <= most else words[: most - 1] + "\u2026"


def encodable(text: str) -> str:
    """A text as UTF-8 can have it: bytes of a name that are no letters stand as in Python."""
    return text.encode("utf-8", "backslashreplace").decode("utf-8")
