"""A row for each puzzle: what is said of it, in a table, and for spreadsheets."""

from __future__ import annotations

import unicodedata
from typing import Any, Iterable, Optional, Sequence

from .._answers import Assessment, refused_flaws
from .._calls import Colour
from .._images import colour_shown, plain_words
from .puzzles import Row

VERDICTS = ("unique", "ambiguous", "undecided", "error")
# What the command is asked: is it fit, and if it is not, why.
FITNESS = ("fit", "flawed", "ambiguous", "undecided", "error")
GRADES = ("easy", "medium", "hard", "very hard", "expert", "unknown")
FIGURES = ("rounds", "evaluations", "wait", "splits", "depth")
COLUMNS = (
    "file",
    "title",
    "fit",
    "verdict",
    "flaws",
    "rows",
    "columns",
    "colours",
    "background",
    "palette",
    "open",
    "givens",
    "grade",
    *(f"grade_{name}" for name in FIGURES),
    "certificate",
    "certificate_givens",
    "lines",
    "same_as",
    "error",
    "notes",
    "seconds",
    "digest",
)
LETTERS = ".abcdefghijklmno"


def shown_in(text: bytes, background: Optional[Colour], cells: int) -> tuple[list[str], str]:
    """The colours of a P3 text as shown, its background first, and the letter of each cell."""
    _, _, most, raster = plain_words(text[2:], 3)
    spots = raster.rstrip().split(b"\n", cells)  # mostly each cell has a line
    come = dict.fromkeys(spots)
    if len(spots) != cells or any(len(spot.split()) != 3 for spot in come):
        words = raster.split(None, 3 * cells)[: 3 * cells]
        spots = list(map(b" ".join, zip(words[::3], words[1::3], words[2::3])))
        come = dict.fromkeys(spots)
    triples = {spot: _triple(spot.split()) for spot in come}
    colours = dict.fromkeys([background or _triple([most] * 3), *triples.values()])
    by_colour = dict(zip(colours, LETTERS))
    letters = {spot: by_colour[triple] for spot, triple in triples.items()}
    scale = _number(most)
    shown = colours if scale == 255 else [colour_shown(triple, scale) for triple in colours]
    palette = ["%02x%02x%02x" % triple for triple in shown]
    return palette, "".join(map(letters.__getitem__, spots))


def graded(said: Assessment) -> Row:
    """The grade of a row, if there is one."""
    if said.grade is None:
        return {}
    word, *figures = said.grade
    named = zip(FIGURES, figures)
    return {
        "grade": word.replace("-", " "),
        "figures": {name: figure for name, figure in named if figure is not None},
    }


def _triple(words: Sequence[bytes]) -> Colour:
    red, green, blue = map(_number, words)
    return red, green, blue


def _number(word: bytes) -> int:
    return int(word.lstrip(b"0") or b"0")  # Python reads no more than some thousands of digits


def fitness_of(row: Row) -> str:
    """What a row answers, as one of FITNESS."""
    if row["fit"]:
        return "fit"
    return "flawed" if row["verdict"] == "unique" else str(row["verdict"])


def certificate_words(row: Row) -> str:
    """What is said of the certificate that belongs to a puzzle."""
    found: Optional[Row] = row.get("certificate")
    if found is None:
        return ""
    if not found["accepted"]:
        return f"refused: {found['why']}"
    return f"accepted, givens {len(found['givens'])}" if "givens" in found else "accepted"


# What is counted of a collection, by the kinds of flaws. Of another kind, its word is.
FLAWS = {
    "blank": "blank pictures",
    "background": "backgrounds that no cell has",
    "given": "givens that are not needed",
    "alike": "colours that look alike",
}
REFUSED = "certificates not accepted"


def flaws_of(row: Row, allowed: Iterable[str]) -> list[str]:
    """Why a puzzle cannot be published as it is, apart from its verdict, for somebody who allows
    flaws of some kinds."""
    is_accepted = row.get("certificate", {"accepted": True})["accepted"]
    kinds = [flaw.split(" ")[0] for flaw in refused_flaws(row.get("flaws", ()), allowed)]
    flaws = [FLAWS.get(kind, kind) for kind in dict.fromkeys(kinds)]
    return flaws if is_accepted else [REFUSED, *flaws]


HEAD = (
    f"{'FIT':3}  {'VERDICT':9}  {'SIZE':>7}  {'COLOURS':>7}  {'BACKGROUND':10}  {'GIVENS':>6} "
    f" {'OPEN':>5}  {'GRADE':9}  {'SECONDS':>7}  FILE"
)


def table_line(row: Row) -> str:
    """A line of the table. A name cannot break it: what does not print stands as in Python."""
    is_read = "rows" in row
    size = f"{row['columns']}x{row['rows']}" if is_read else ""
    background = f"#{row['background']}" if is_read else ""
    givens = len(row.get("givens", ())) if is_read else ""
    seconds = f"{row['seconds']:.3f}" if "seconds" in row else ""
    line = (
        f"{_yes(row['fit']):3}  {row['verdict']:9}  {size:>7}  {row.get('colours', ''):>7} "
        f" {background:10}  {givens:>6}  {row.get('open', ''):>5}  {row.get('grade', ''):9} "
        f" {seconds:>7}  {printable(row['file'])}"
    )
    return "; ".join([line, *words_of(row)])


def _yes(is_so: bool) -> str:
    return "yes" if is_so else "no"


def words_of(row: Row) -> list[str]:
    """All that is said of a row in words."""
    words = certificate_words(row)
    found = [row.get("error", ""), f"certificate {words}" if words else "", *flaw_words(row)]
    found += notes_of(row)
    return [printable(word) for word in found if word]


def notes_of(row: Row) -> list[str]:
    """What else is said of a row: what was not believed, and what it is the same as."""
    notes = list(row.get("notes", ()))
    if row.get("background_from") in ("transparent", "corners"):
        notes.append(f"background by {row['background_from']}")
    if "ignored" in row:
        notes.append(f"not believed: {', '.join(row['ignored'])}")
    if "same_as" in row:
        notes.append(f"same clues as {row['same_as']}")
    return notes


# What is said of one, but for colours that look alike.
FLAW_WORDS = {
    "blank": "the picture is blank",
    "background": "no cell has its background",
    "given": "given {} {} is not needed",
}


def flaw_words(row: Row) -> list[str]:
    """The flaws of a puzzle."""
    flaws = [flaw.split(" ") for flaw in row.get("flaws", ())]
    words = [
        FLAW_WORDS.get(kind, " ".join([kind, *more])).format(*more)
        for kind, *more in flaws
        if kind != "alike"
    ]
    pairs = [
        " and ".join(f"#{row['palette'][LETTERS.index(letter)]}" for letter in pair)
        for kind, *pair in flaws
        if kind == "alike"
    ]
    if pairs:
        words.append(f"colours look alike: {', '.join(pairs)}")
    return words


def printable(text: str) -> str:
    """A text in one line, that a terminal can show. What bytes of a name stand as, no letter
    does."""
    if text.isprintable():
        return text
    return "".join(sign if sign.isprintable() else _escaped(sign) for sign in text)


def _escaped(sign: str) -> str:
    is_latin = "\x7f" < sign < "\u0100"
    return f"\\u{ord(sign):04x}" if is_latin else sign.encode("unicode_escape").decode("ascii")


def csv_cells(row: Row) -> list[Any]:
    """The cells of a row in the order of COLUMNS. A text that a spreadsheet would take for a
    formula begins with an apostrophe, also where its first sign is a wide or a small one, and
    behind quotes and a semicolon, which ends a cell where decimals have commas.
    """
    certificate = row.get("certificate", {})
    cells: Row = {
        **row,
        **{f"grade_{name}": figure for name, figure in row.get("figures", {}).items()},
        "fit": _yes(row["fit"]),
        "flaws": "; ".join(flaw_words(row)),
        "certificate": certificate_words(row),
        "certificate_givens": " ".join(f"{r},{c}" for r, c in certificate.get("givens", ())),
        "givens": " ".join(f"{r},{c}" for r, c in row.get("givens", ())),
        "background": f"#{row['background']}" if "background" in row else "",
        "palette": " ".join(f"#{colour}" for colour in row.get("palette", ())),
        "notes": "; ".join(notes_of(row)),
    }
    found = [cells.get(name, "") for name in COLUMNS]
    return [
        ";".join(map(_no_formula, printable(cell).split(";"))) if isinstance(cell, str) else cell
        for cell in found
    ]


def _no_formula(text: str) -> str:
    front = unicodedata.normalize("NFKD", text.replace('"', " ").lstrip())
    return f"'{text}" if front.startswith(("=", "+", "-", "@")) else text
