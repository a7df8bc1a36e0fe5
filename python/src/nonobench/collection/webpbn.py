"""Web Paint-by-Number's XML, of one puzzle, as nonobench's page reads it; and a set as files of one
puzzle each.

The format is Wolter's, https://webpbn.com/pbn_fmt.html. Givens stand as a saved solution with the
id `givens`, which has `?` in all other cells. defusedxml reads the XML.
"""

from __future__ import annotations

import itertools
import re
from typing import Any, Iterator, NamedTuple, Optional
from xml.etree.ElementTree import Element, tostring

from .._answers import UnreadableError
from .._calls import MOST_CELLS, Colour, picture_of
from .puzzles import (
    BLACK,
    MOST_COLOURS,
    WHITE,
    MissingLibraryError,
    need,
    one_line,
)

SPACE = " \t\r\n"  # of XML; other letters count nowhere for blanks
GIVENS = "givens"
SEVERAL = "this has {} puzzles: nonobench-audit unpack SET.xml DIR writes a file for each"
# A text of the format declares nothing but which format it is.
_DOCTYPE = re.compile(
    rf'<!DOCTYPE[{SPACE}]+[a-z]+([{SPACE}]+SYSTEM[{SPACE}]+"[^"<>]*")?[{SPACE}]*>'
)
Signs = list[list[str]]
# of a row: line breaks are none, since not all readers count them alike
_CELL = r"\\[^\r\n]|\[[^]\r\n]*\]|[^|\\\[\r\n]"


class Ink(NamedTuple):
    """A colour of a puzzle. Its sign stands for it in solutions."""

    name: str
    sign: Optional[str]
    triple: Colour
    is_declared: bool


class Drawn(NamedTuple):
    """A puzzle of the format: a P3 text, or, if it has clues only, a .non text and two colours."""

    text: bytes
    background: Colour
    givens: bytes
    title: str
    ink: Optional[Colour] = None  # of a .non text


def prepare() -> None:
    """Loads defusedxml, if it is there."""
    try:
        import defusedxml.ElementTree  # noqa: F401
    except ImportError:
        pass


def puzzle_of_xml(data: bytes) -> Drawn:
    """The puzzle of an XML text that has one."""
    puzzles = elements_of(data)
    need(len(puzzles) < 2, SEVERAL.format(len(puzzles)))
    return puzzle_of(puzzles[0])


def puzzles_of_xml(data: bytes) -> list[Drawn]:
    """All puzzles of an XML text."""
    return list(map(puzzle_of, elements_of(data)))


def files_of(data: bytes) -> Iterator[bytes]:
    """Each puzzle of a set, as an XML text of its own."""
    for element in elements_of(data):
        element.tail = None
        text = tostring(element, encoding="unicode")
        yield f'<?xml version="1.0"?>\n<puzzleset>{text}</puzzleset>\n'.encode()


def elements_of(data: bytes) -> list[Element]:
    """The puzzles of an XML text, at least one."""
    try:
        from defusedxml import ElementTree
        from defusedxml.common import DefusedXmlException
    except ImportError:
        raise MissingLibraryError("defusedxml", "reads XML") from None
    try:
        text = _DOCTYPE.sub("", data.decode("utf-8-sig"), count=1)
        outer: Element = ElementTree.fromstring(text, forbid_dtd=True)
    except UnicodeDecodeError as error:
        raise UnreadableError("the XML is not UTF-8") from error
    except DefusedXmlException as error:
        raise UnreadableError("the XML has declarations of its own") from error
    except (ElementTree.ParseError, ValueError) as error:
        raise UnreadableError(f"the XML cannot be read: {one_line(str(error))}") from error
    need(
        not outer.tag.lower().endswith("svg"),
        "this is SVG: convert it to PNG: nonobench.html opens it",
    )
    every = list(outer.iter())
    need(not any("}" in one.tag for one in every), "the XML has a namespace")
    puzzles = [outer] if outer.tag == "puzzle" else outer.findall("puzzle")
    need(puzzles, "the XML has no puzzle")
    is_plain = len(puzzles) == sum(one.tag == "puzzle" for one in every)
    need(is_plain, "the XML has a puzzle that is not directly in its set")
    return puzzles


def puzzle_of(element: Element) -> Drawn:
    """One puzzle, by its goal, or by its clues where it has none and two colours."""
    kind = element.get("type", "grid")
    need(
        kind == "grid", f"a puzzle of the type {one_line(kind, 30)}, which has no rows and columns"
    )
    title = one_line(element.findtext("title") or "")
    usual = element.get("defaultcolor", "black")
    clues = {axis: _clues(element, axis, usual) for axis in ("rows", "columns")}
    solutions = element.findall("solution")
    goals = [one for one in solutions if one.get("type", "goal") == "goal"]
    goals = goals or [one for one in solutions if one.get("type") == "solution"]
    givens = [one for one in solutions if (one.get("type"), one.get("id")) == ("saved", GIVENS)]
    if not goals:
        need(not givens, "the puzzle has givens and no solution")
        return _drawn_of_clues(element, clues, title)
    signs, *others = map(_image, goals)
    is_one = all(other == signs for other in others)
    need(is_one, "the puzzle has several goals, and they are different pictures")
    ground, used = element.get("backgroundcolor", "white"), {sign for row in signs for sign in row}
    order, by_sign = _order(_inks(element), ground, used)
    cells = [[by_sign[sign].name for sign in row] for row in signs]
    _compare(cells, order[0].name, clues)
    saved = _only(givens, "its givens")
    published = b"" if saved is None else _givens(_image(saved), signs)
    apart = _apart([ink.triple for ink in order])
    triples = {ink.name: triple for ink, triple in zip(order, apart)}
    text = picture_of(len(cells[0]), len(cells), [triples[name] for row in cells for name in row])
    return Drawn(text, apart[0], published, title)


def _drawn_of_clues(element: Element, clues: dict[str, Any], title: str) -> Drawn:
    """A puzzle that has clues and no goal, in two colours."""
    text, inks = _non_text(clues), _inks(element)
    ground = element.get("backgroundcolor", "white")
    used = {name for lines in clues.values() for line in lines or () for _, name in line}
    is_known = used | {ground} <= inks.keys()
    need(is_known, "the puzzle has clues, or a background, in a colour that it does not have")
    need(ground not in used, "the puzzle has clues in the colour of its background")
    under, ink = _apart([inks[name].triple for name in (ground, *(used or {"black"}))])
    return Drawn(text, under, b"", title, ink)


def _text(element: Element) -> str:
    """The text of an element. Others within it would hide what stands behind them."""
    need(not len(element), "a text of the puzzle has elements in it")
    return element.text or ""


def _only(elements: list[Any], what: str) -> Any:
    """The only one of some elements, or none: of several nothing says which one is shown."""
    need(len(elements) < 2, f"the puzzle has {what} twice")
    return next(iter(elements), None)


def _inks(element: Element) -> dict[str, Ink]:
    """The declared colours by name, and white and black where they are not declared."""
    known = {"white": Ink("white", ".", WHITE, False), "black": Ink("black", "X", BLACK, False)}
    colours: dict[str, Ink] = {}
    for one in element.findall("color"):
        name = one.get("name", "")
        need(name not in colours, "a colour of the puzzle is declared twice")
        need(
            one.get("char") != "?",
            "a colour of the puzzle has the sign '?', which stands for a cell of any colour",
        )
        sign = one.get("char", known[name].sign if name in known else None)
        colours[name] = Ink(name, sign, _triple(_text(one)), True)
    return {**colours, **{name: colour for name, colour in known.items() if name not in colours}}


def _triple(text: str) -> Colour:
    digits = text.strip(SPACE).removeprefix("#")
    if re.fullmatch("[0-9a-fA-F]{3}", digits):
        digits = "".join(digit * 2 for digit in digits)
    need(
        re.fullmatch("[0-9a-fA-F]{6}", digits),
        "a colour of the puzzle is not three or six hexadecimal digits",
    )
    red, green, blue = bytes.fromhex(digits)
    return red, green, blue


def _order(inks: dict[str, Ink], ground: str, used: set[str]) -> tuple[list[Ink], dict[str, Ink]]:
    """The colours of a solution, its background first, and the colour of each sign."""
    need(ground in inks, "the background of the puzzle is a colour that it does not have")
    by_sign: dict[str, Ink] = {}
    for ink in inks.values():
        before = by_sign.get(ink.sign or "")
        is_twice = before is not None and before.is_declared and ink.is_declared
        if is_twice and ink.sign in used:
            raise UnreadableError(
                f"two colours of the puzzle have the sign {one_line(ink.sign, 2)!r}"
            )
        if ink.sign and (before is None or ink.is_declared):
            by_sign[ink.sign] = ink
    for sign in sorted(used - by_sign.keys()):
        why = "which is not a colour of the puzzle"
        raise UnreadableError(f"the solution has a cell {one_line(sign, 2)!r}, {why}")
    others = [by_sign[sign] for sign in sorted(used) if by_sign[sign].name != ground]
    seen = [inks[ground], *others]
    need(len(seen) <= MOST_COLOURS, f"more than {MOST_COLOURS} colours with the background")
    return seen, by_sign


def _apart(triples: list[Colour]) -> list[Colour]:
    """Colours of which no two are equal. Those that are declared so differ as little as they can,
    so that they are found to look alike."""
    made: list[Colour] = []
    for red, green, blue in triples:
        blues = sorted(range(256), key=lambda other: abs(other - blue))
        made.append(next(one for one in ((red, green, at) for at in blues) if one not in made))
    return made


def _image(solution: Any) -> Signs:
    """Rows of signs between bars. A backslash takes the next sign as it stands, and `[..]` is a
    cell that may have several."""
    image = _only(solution.findall("image"), "the image of a solution")
    text = "" if image is None else _text(image)
    is_short = len(text) <= 64 * MOST_CELLS * MOST_CELLS
    need(
        is_short and re.fullmatch(rf"([{SPACE}]*\|(?:{_CELL})*\|)+[{SPACE}]*", text),
        "a row of the solution is not between bars",
    )
    rows = [
        [_sign(cell) for cell in re.findall(_CELL, row)]
        for row in re.findall(rf"\|((?:{_CELL})*)\|", text)
    ]
    need(
        max(len(rows), *map(len, rows)) <= MOST_CELLS,
        f"the solution is larger than {MOST_CELLS} by {MOST_CELLS}",
    )
    need(
        rows[0] and len(set(map(len, rows))) == 1,
        "the rows of the solution have several lengths, or none",
    )
    return rows


def _sign(cell: str) -> str:
    if cell[0] == "[":
        return cell[1] if len(cell) == 3 else "?"
    return cell[-1]


def _clues(element: Any, axis: str, usual: str) -> Optional[list[list[tuple[int, str]]]]:
    """The clues of an axis as lengths with names of colours, or none if the puzzle has none."""
    clues = _only(
        [one for one in element.findall("clues") if one.get("type") == axis],
        f"the clues of the {axis}",
    )
    if clues is None:
        return None
    lines = [
        [(_length(count), count.get("color", usual)) for count in line.findall("count")]
        for line in clues.findall("line")
    ]
    return [[block for block in line if block[0]] for line in lines]


def _length(count: Any) -> int:
    text = _text(count)
    need(re.fullmatch("[0-9]{1,6}", text.strip(SPACE)), "a clue of the puzzle is not a number")
    return int(text)


def _compare(cells: list[list[str]], ground: str, clues: dict[str, Any]) -> None:
    """Refuses clues that are not those of the goal."""
    for axis, lines in (("rows", cells), ("columns", zip(*cells))):
        is_right = clues[axis] is None or clues[axis] == [_blocks(line, ground) for line in lines]
        need(is_right, f"the clues of the {axis} are not those of the solution")


def _blocks(line: Any, ground: str) -> list[tuple[int, str]]:
    return [
        (sum(1 for _ in cells), name) for name, cells in itertools.groupby(line) if name != ground
    ]


def _givens(saved: Signs, signs: Signs) -> bytes:
    need(
        (len(saved), len(saved[0])) == (len(signs), len(signs[0])),
        "the givens have another size than the solution",
    )
    cells = [
        (row, column)
        for row, line in enumerate(saved)
        for column, sign in enumerate(line)
        if sign != "?"
    ]
    need(
        all(saved[row][column] == signs[row][column] for row, column in cells),
        "a given has another colour than the solution",
    )
    return b"".join(b"given %d %d\n" % (row + 1, column + 1) for row, column in cells)


def _non_text(clues: dict[str, Any]) -> bytes:
    """The .non text of a puzzle of two colours that has clues and no solution."""
    rows, columns = clues["rows"], clues["columns"]
    need(rows and columns, "the puzzle has neither a solution nor all clues")
    names = {name for line in [*rows, *columns] for _, name in line}
    need(len(names) < 2, "the puzzle has clues in several colours and no solution")
    lines = [f"width {len(columns)}", f"height {len(rows)}"]
    for axis, all_clues in (("rows", rows), ("columns", columns)):
        lines += [axis, *(",".join(str(length) for length, _ in line) or "0" for line in all_clues)]
    return ("\n".join(lines) + "\n").encode()
