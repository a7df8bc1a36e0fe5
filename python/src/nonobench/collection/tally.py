"""What a run counts of its rows, what it says of them in the end, and its status."""

from __future__ import annotations

from collections import Counter
from typing import Iterable, Sequence

from .puzzles import Row
from .rows import FITNESS, GRADES, VERDICTS, fitness_of, flaws_of

FIT, UNFIT, FAILED = 0, 1, 3


class Tally:
    """How many puzzles have which verdict, grade and flaw, but for flaws of the kinds that are
    allowed."""

    def __init__(self, allowed: Sequence[str]) -> None:
        self.allowed = allowed
        self.fitness: Counter[str] = Counter()
        self.verdicts: Counter[str] = Counter()
        self.grades: Counter[str] = Counter()
        self.flaws: Counter[str] = Counter()
        self.same = 0
        self.missing: Counter[str] = Counter()  # libraries
        self.skipped: Counter[str] = Counter()

    def put(self, row: Row) -> None:
        """Counts a row."""
        self.fitness[fitness_of(row)] += 1
        self.verdicts[row["verdict"]] += 1
        self.flaws.update(flaws_of(row, self.allowed))
        self.grades.update(row[name] for name in ("grade",) if name in row)
        self.missing.update(row[name] for name in ("missing",) if name in row)

    @property
    def total(self) -> int:
        """All rows."""
        return sum(self.verdicts.values())

    def status(self) -> int:
        """The status of a run that came to its end."""
        if self.missing or not self.total:
            return FAILED
        return FIT if self.fitness["fit"] == self.total else UNFIT

    def summary(self) -> list[str]:
        """The lines that end a run."""
        noun = "puzzle" if self.total == 1 else "puzzles"
        lines = [
            f"{self.total} {noun}: {counted(self.fitness, FITNESS)}",
            f"verdicts: {counted(self.verdicts, VERDICTS)}",
            f"grades: {counted(self.grades, GRADES)}",
            f"flaws: {counted(self.flaws, sorted(self.flaws))}",
            f"same clues as another: {self.same}" if self.same else ":",
            f"skipped: {counted(self.skipped, sorted(self.skipped))}",
        ]
        return [line for line in lines if line.partition(":")[2].strip()]


def counted(counts: Counter[str], names: Iterable[str]) -> str:
    """How often some names were counted, those that were."""
    return ", ".join(f"{name} {counts[name]}" for name in names if counts[name])
