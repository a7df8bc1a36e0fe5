"""The report of an audit: one HTML file that needs no network, to look at, sort and filter."""

from __future__ import annotations

import re
import secrets
import tempfile
from collections import Counter
from pathlib import Path
from typing import Any

from ..._library import version
from ..outputs import NewFile, Sink, text_of
from ..puzzles import MissingLibraryError, Row
from ..rows import FIGURES, FITNESS, GRADES, fitness_of, flaws_of, printable, words_of
from ..tally import Tally

SIDES = (10, 15, 20, 25, 30, 40, 60, 120)  # the longer sides that puzzles are counted by
SAME = "the same clues as another"
_FOLDER = Path(__file__).resolve().parent


class Report(Sink):
    """Gathers rows in a file, and in the end makes the report of them and of their counts."""

    def __init__(self, name: str, title: str, tally: Tally) -> None:
        self._environment = _environment()
        self._new, self._title, self._tally = NewFile(name), title, tally
        self._rows = tempfile.TemporaryFile()
        self._sides: Counter[tuple[int, str]] = Counter()
        self._filters: Counter[str] = Counter()  # by what is wrong with a puzzle, or the same
        self._numbers: dict[str, int] = {}

    def put(self, row: Row) -> None:
        found = flaws_of(row, self._tally.allowed) + ([SAME] if "same_as" in row else [])
        self._filters.update(found)
        if "rows" in row:
            side = max(row["rows"], row["columns"])
            most = next((most for most in SIDES if side <= most), SIDES[-1])
            self._sides[most, fitness_of(row)] += 1
        flaws = [self._numbers.setdefault(one, len(self._numbers)) for one in found]
        line = text_of(record_of(row, flaws)).replace("<", "\\u003c")
        self._rows.write(((",\n" if self._rows.tell() else "") + line).encode("ascii"))

    def discard(self) -> None:
        self._rows.close()
        self._new.discard()

    def close(self) -> None:
        parts = {
            name: (_FOLDER / name).read_text(encoding="utf-8")
            for name in ("report.css", "report.js")
        }
        mark = secrets.token_hex()
        page = self._environment.get_template("report.html").render(
            title=self._title,
            mark=mark,
            version=version(),
            style=parts["report.css"],
            script=parts["report.js"],
            **self._figures(),
        )
        front, _, back = page.partition(mark)
        self._new.file.write(front.encode("utf-8"))
        self._rows.seek(0)
        for chunk in iter(lambda: self._rows.read(1 << 20), b""):
            self._new.file.write(chunk)
        self._new.file.write(back.encode("utf-8"))
        self._rows.close()
        self._new.close()

    def _figures(self) -> dict[str, Any]:
        """The numbers and shares at the front of the page."""
        tally = self._tally
        tallest = max(tally.grades.values(), default=1)
        sides = [(most, [self._sides[most, name] for name in FITNESS]) for most in SIDES]
        widest = max((sum(counts) for _, counts in sides), default=1) or 1
        return {
            "total": tally.total,
            "fitness": [
                (name, tally.fitness[name], tally.fitness[name] / (tally.total or 1))
                for name in FITNESS
            ],
            "grades": [(name, tally.grades[name], tally.grades[name] / tallest) for name in GRADES],
            "filters": [
                (number, name, self._filters[name]) for name, number in self._numbers.items()
            ],
            "skipped": sorted(tally.skipped.items()),
            "graded": sum(tally.grades.values()),
            "sides": [
                (
                    least + 1,
                    most,
                    sum(counts),
                    [(name, count, count / widest) for name, count in zip(FITNESS, counts)],
                )
                for least, (most, counts) in zip((0, *SIDES), sides)
                if sum(counts)
            ],
        }


def record_of(row: Row, flaws: list[int]) -> list[Any]:
    """A row with the numbers of its flaws, as the page's script reads it. What is empty at its end
    is left out."""
    figures = row.get("figures", {})
    width = row.get("columns", 0)
    givens = [(r - 1) * width + c - 1 for r, c in row.get("givens", ())]
    record: list[Any] = [
        printable(row["file"]),
        row.get("title", ""),
        row.get("rows", 0),
        row.get("columns", 0),
        FITNESS.index(fitness_of(row)),
        GRADES.index(row["grade"]) if "grade" in row else -1,
        row.get("open", 0),
        "".join(row.get("palette", ())),
        runs_of(row.get("picture", "")),
        runs_of(row.get("other", "")),
        row.get("lines", 0),
        row.get("seconds", 0),
        "; ".join(words_of(row)),
        givens,
        [figures[name] for name in FIGURES if name in figures],
        flaws,
    ]
    while record[-1] in (0, "", []):
        record.pop()
    return record


def runs_of(picture: str) -> str:
    """The cells of a picture, row after row: a letter, and how often it comes where that is more
    than once."""
    return re.sub(r"(.)\1+", lambda run: f"{run[1]}{len(run[0])}", picture.replace("/", ""))


def _environment() -> Any:
    try:
        from jinja2 import Environment, FileSystemLoader, StrictUndefined
    except ImportError:
        raise MissingLibraryError("Jinja2", "makes the report") from None
    environment = Environment(
        loader=FileSystemLoader(_FOLDER),
        autoescape=True,
        undefined=StrictUndefined,
        trim_blocks=True,
        lstrip_blocks=True,
    )
    environment.filters["grouped"] = lambda number: f"{number:,}"
    return environment
