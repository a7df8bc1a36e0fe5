"""Reads files as pictures with their backgrounds. The first bytes say what a file is."""

from __future__ import annotations

from typing import NamedTuple, Optional

from .. import _images
from .._answers import Given, Puzzle, UnreadableError
from .._calls import Colour, Questions, colour_word, is_non
from .._calls import picture_of as text_of
from . import webpbn
from .puzzles import (
    BLACK,
    MOST_COLOURS,
    WHITE,
    MissingLibraryError,
    Options,
    Question,
    background_named,
    need,
)

# How texts begin that an editor did not save as plain ASCII or UTF-8.
_ODD_STARTS = {
    b"\xef\xbb\xbf": "it begins with a byte order mark: save it without",
    b"\xff\xfe": "it is UTF-16: save it as UTF-8",
    b"\xfe\xff": "it is UTF-16: save it as UTF-8",
}
_AUTO, _WHITE = "auto", "white"


class Picture(NamedTuple):
    """A picture as the library takes it."""

    text: bytes  # a P3 text, or a .non text
    background: Optional[Colour] = None  # if one is named; else white
    background_from: str = _WHITE  # what names it
    givens: bytes = b""
    title: str = ""
    is_non: bool = False
    ink: Colour = BLACK  # of a .non text
    ignored: tuple[str, ...] = ()  # what its XML names and is not believed
    claims: tuple[Optional[Colour], ...] = ()  # backgrounds that are named and not believed


def picture_of(question: Question, options: Options) -> Picture:
    """The picture of a puzzle."""
    word = _word_of(question, options)
    picture = _read(question, word, options.is_untrusted)
    if question.claimed is not None:
        claim = background_named(_background_word(question.claimed))
        picture = picture._replace(claims=(*picture.claims, claim))
    if question.givens is None:
        return picture
    return picture._replace(givens=question.givens)


def need_claims(picture: Picture) -> None:
    """Refuses a picture that can be read if it was judged on another background than somebody
    names: who publishes the file publishes that."""
    most = 255
    if picture.claims and not picture.is_non:
        most = int(_images.plain_words(picture.text[2:], 3)[2])
    white = (most,) * 3
    judged = picture.background or white
    for claim in picture.claims:
        named = colour_word(claim or white).decode("ascii")
        need((claim or white) == judged, f"its background {named} is not believed: name it")


def puzzles_of(data: bytes, background: Optional[Colour], asked: Questions) -> list[Puzzle]:
    """The puzzles of a file, whatever it is, with the background and the givens that it names."""
    named = None if background is None else colour_word(background)
    question = Question("", data, background=named)
    word = _word_of(question, Options())
    if _is_xml(data):
        drawn = webpbn.puzzles_of_xml(data)
        found = [_picture_of_xml(one, question, word, False) for one in drawn]
    else:
        found = [_read(question, word, False)]
    return [
        Puzzle(one.text, one.background, tuple(cells_of(one.givens)), one.title)
        for one in (painted(picture, asked) for picture in found)
    ]


def cells_of(givens: bytes) -> list[Given]:
    """The cells of a file of givens that is right, in row order."""
    words = [line.split(b" ") for line in givens.splitlines()]
    return sorted(Given(int(row), int(column)) for _, row, column in words)


def painted(picture: Picture, asked: Questions) -> Picture:
    """A picture as a P3 text. A .non puzzle is the picture of its goal, or one that is found for
    its clues."""
    if not picture.is_non:
        return picture
    text = asked.picture_of_non(picture.text)
    size, _, *cells = text.splitlines()[1:]
    columns, rows = map(int, size.split())
    colours = (picture.background or WHITE, picture.ink)
    if colours != (WHITE, BLACK):
        text = text_of(columns, rows, (colours[cell == b"0 0 0"] for cell in cells))
    return picture._replace(text=text, is_non=False)


def _word_of(question: Question, options: Options) -> str:
    """The background that is named for a puzzle: by the file that belongs to it, else by the
    option."""
    if question.background is None:
        return options.background
    return _background_word(question.background)


def _background_word(named: bytes) -> str:
    """The word in a file that names a background."""
    word = named.strip().decode("ascii", "replace")
    try:
        need(word != _AUTO, "")
        background_named(word)
    except ValueError:
        why = "its background must be white, or R,G,B of numbers up to 65535"
        raise UnreadableError(why) from None
    return word


def _read(question: Question, word: str, is_untrusted: bool) -> Picture:
    data, suffix = question.data, question.name.lower().rpartition(".")[2]
    if _is_xml(data):
        return _picture_of_xml(webpbn.puzzle_of_xml(data), question, word, is_untrusted)
    odd = _ODD_STARTS.get(data[:3]) or _ODD_STARTS.get(data[:2])
    need(not odd, odd or "")
    if suffix == "non" or is_non(data) and not _images.is_image(data):
        own = question.background is None or word in (_WHITE, "255,255,255")
        need(own, "a .non puzzle has no background but white")
        return Picture(data, is_non=True)
    if data.startswith(b"P3"):
        named = background_named(word)
        return Picture(data, named, "named" if named or word == _WHITE else _WHITE)
    return _read_image(data, word)


def _is_xml(data: bytes) -> bool:
    return data.removeprefix(b"\xef\xbb\xbf").lstrip()[:1] == b"<"


def _read_image(data: bytes, word: str) -> Picture:
    """A cell for each pixel. A PNG that names no background has one by what is transparent, by
    white, or by its corners."""
    try:
        pixels = _images.pixels_of(data)
        named = background_named(word)
        if word == _AUTO and pixels.is_png:
            background, why = _images.auto_background(pixels)
        else:
            background, why = (named or (pixels.maxval,) * 3, "named" if word != _AUTO else _WHITE)
        need(max(background) <= pixels.maxval, "its background is above the picture's samples")
        few = len({background, *pixels.cells} - {None}) <= MOST_COLOURS
        need(few, f"more than {MOST_COLOURS} colours with the background")
        return Picture(pixels.picture(background), background, why)
    except ImportError:
        raise MissingLibraryError("Pillow", "reads PNG") from None


def _picture_of_xml(
    drawn: webpbn.Drawn, question: Question, word: str, is_untrusted: bool
) -> Picture:
    """The background and the givens are those that the XML names, unless a file names others. A
    stranger's givens count for nothing, and his background is not believed."""
    is_named = question.background is not None
    if drawn.ink is not None:
        need(not is_named and not question.givens, "it has clues only: no background or givens")
        return Picture(drawn.text, drawn.background, "XML", b"", drawn.title, True, drawn.ink)
    if not is_untrusted and not is_named:
        return Picture(drawn.text, drawn.background, "XML", drawn.givens, drawn.title)
    picture = Picture(drawn.text, title=drawn.title, givens=drawn.givens)
    if is_untrusted:
        ignored = ("givens in the XML",) * bool(drawn.givens)
        picture = picture._replace(givens=b"", ignored=ignored, claims=(drawn.background,))
    background = background_named(word)
    return picture._replace(background=background, background_from="named" if is_named else _WHITE)
