"""Finds the files that are puzzles, and what belongs to each: the rule of names.

The names of the certificate, the givens and the background of a puzzle are its whole file name plus
one ending. They are in its folder, or at the same path below another folder.
"""

from __future__ import annotations

import functools
import os
import re
import stat
from collections import Counter
from typing import Iterable, Iterator, NamedTuple, Optional

from .._answers import UnreadableError
from .._calls import MOST_BYTES
from .._serve import read
from .puzzles import Question, need

PUZZLES = (".ppm", ".pgm", ".pbm", ".pnm", ".png", ".non", ".xml")  # in any letters
CERT, GIVENS, BACKGROUND = ".cert", ".givens", ".background"
ENDINGS = {CERT: "certificate", GIVENS: "givens", BACKGROUND: "background"}
_ANY_ENDING = re.compile("|".join(map(re.escape, ENDINGS)))
Skipped = Counter[str]


class Found(NamedTuple):
    """A file, by the name that its row has, with the paths of what belongs to it."""

    name: str
    path: str
    belonging: dict[str, str] = {}  # by endings
    ignored: dict[str, str] = {}  # files next to it that are not believed
    why: str = ""  # it is refused


def is_puzzle(name: str) -> bool:
    """Whether a file in a folder is taken for a puzzle."""
    return name.lower().endswith(PUZZLES)


Meant = dict[str, list[tuple[str, str]]]


def meant_in(names: Iterable[str]) -> Meant:
    """Files whose names begin with that of a puzzle and an ending, in whatever letters: they may be
    meant to belong to it. By the puzzle's name in small letters, with the ending."""
    found: Meant = {}
    for name in names:
        for ending in () if is_puzzle(name) else _ANY_ENDING.finditer(name.lower()):
            whose = name.lower()[: ending.start()]
            found.setdefault(whose, []).append((name, ending[0]))
    return found


@functools.lru_cache(16)
def _meant_beside(folder: str) -> Meant:
    try:
        with os.scandir(folder or ".") as entries:
            return meant_in([one.name for one in entries if not one.is_dir(follow_symlinks=False)])
    except OSError:
        return {}


def _is_kept(entry: os.DirEntry[str], skipped: Skipped) -> bool:
    """Whether it is looked at. What is not is counted."""
    if entry.name.startswith("."):
        skipped["hidden"] += 1
    elif entry.is_symlink() and not _ANY_ENDING.search(entry.name.lower()):
        skipped["links"] += 1
    else:
        return True
    return False


def walk(folder: str, skipped: Skipped, failures: list[OSError]) -> Iterator[tuple[str, list[str]]]:
    """The folders below one, and the files in each, in order. Links and hidden names are counted;
    but a link that may be meant to belong to a puzzle is kept, to be refused as it is read."""
    waiting = [""]
    while waiting:
        below = waiting.pop()
        kept = []
        try:
            with os.scandir(os.path.join(folder, below)) as entries:
                kept = [entry for entry in entries if _is_kept(entry, skipped)]
        except OSError as error:
            failures.append(error)
        folders = {one.name for one in kept if one.is_dir(follow_symlinks=False)}
        yield below, sorted(one.name for one in kept if one.name not in folders)
        waiting += sorted((os.path.join(below, one) for one in folders), reverse=True)


class Search:
    """The search of a folder, or of files that are named."""

    def __init__(self, beside: Optional[str], is_untrusted: bool) -> None:
        self.skipped: Skipped = Counter()
        self.failures: list[OSError] = []  # folders that cannot be listed
        self._beside = beside
        self._is_believed = beside is None and not is_untrusted  # the files next to a puzzle

    def folder(self, folder: str) -> Iterator[Found]:
        """The puzzles below a folder, by their paths there, and each file with such an ending that
        belongs to none."""
        ours = {} if self._beside is None else self._belongings(self._beside)
        for below, names in walk(folder, self.skipped, self.failures):
            nearby = {
                os.path.join(below, name): os.path.join(folder, below, name)
                for name in names
                if name.endswith(tuple(ENDINGS))
            }
            puzzles = [os.path.join(below, name) for name in names if is_puzzle(name)]
            believed = nearby if self._is_believed else ours
            meant = meant_in(names)
            for name in puzzles:
                yield self._found(name, os.path.join(folder, name), believed, nearby, meant)
            if self._is_believed:
                yield from _of_none(nearby, puzzles)
                nearby = {}
            others = (name for name in names if not is_puzzle(name))
            self.skipped.update(
                os.path.splitext(name)[1] or "no ending"
                for name in others
                if not name.endswith(tuple(ENDINGS)) or not self._is_believed
            )
        yield from _of_none(ours, [])

    def files(self, names: Iterable[str]) -> Iterator[Found]:
        """The files that are named, and what belongs to them."""
        for name in names:
            nearby = {name + ending: name + ending for ending in ENDINGS}
            nearby = {one: path for one, path in nearby.items() if os.path.lexists(path)}
            ours = {}
            if self._beside is not None:
                paths = {one: os.path.join(self._beside, one) for one in map(name.__add__, ENDINGS)}
                ours = {one: path for one, path in paths.items() if os.path.lexists(path)}
            believed = nearby if self._is_believed else ours
            meant = _meant_beside(os.path.dirname(name))
            yield self._found(name, name, believed, nearby, meant)

    def _found(
        self, name: str, path: str, believed: dict[str, str], nearby: dict[str, str], meant: Meant
    ) -> Found:
        """A puzzle with what belongs to it, which is taken out of the files that are believed."""
        belonging = {
            ending: believed.pop(name + ending) for ending in ENDINGS if name + ending in believed
        }
        beside = {one: nearby[name + one] for one in ENDINGS if name + one in nearby}
        ignored = {} if self._is_believed else beside
        return Found(name, path, belonging, ignored, self._misnamed(name, meant))

    def _misnamed(self, name: str, meant: Meant) -> str:
        """Why a puzzle is refused, if a file that is meant to belong to it has a wrong name."""
        folder, own = os.path.split(name)
        more: Meant = {}
        if self._beside is not None:
            more = _meant_beside(os.path.join(self._beside, folder))
        for other, ending in [*meant.get(own.lower(), ()), *more.get(own.lower(), ())]:
            if other not in map(own.__add__, ENDINGS):
                return f"rename its {ENDINGS[ending]} {other} to {own}{ending}"
        return ""

    def _belongings(self, folder: str) -> dict[str, str]:
        return {
            os.path.join(below, name): os.path.join(folder, below, name)
            for below, names in walk(folder, Counter(), self.failures)
            for name in names
            if name.endswith(tuple(ENDINGS))
        }


def _of_none(left: dict[str, str], puzzles: list[str]) -> Iterator[Found]:
    """Files that belong to no puzzle, and how to rename them."""
    for name, path in sorted(left.items()):
        stem, ending = os.path.splitext(name)
        meant = next((one for one in puzzles if os.path.splitext(one)[0] == stem), "PUZZLE.png")
        called = os.path.basename(meant) + ending
        yield Found(name, path, why=f"it belongs to no puzzle: rename it to {called}")


def question_of(found: Found) -> Question:
    """A puzzle with all that belongs to it, as bytes. UnreadableError says why there is none."""
    need(not found.why, found.why)
    parts = {
        ENDINGS[ending]: bytes_of(path, f"its {ENDINGS[ending]}: ")
        for ending, path in found.belonging.items()
    }
    claimed = found.ignored.get(BACKGROUND)
    return Question(
        found.name,
        bytes_of(found.path),
        **parts,
        ignored=tuple(ENDINGS[one] for one in found.ignored if one != BACKGROUND),
        claimed=None if claimed is None else bytes_of(claimed, "its background: "),
    )


def bytes_of(path: str, whose: str = "") -> bytes:
    """The bytes of a regular file. No link is followed, and no pipe waited for: UnreadableError."""
    try:
        handle = os.open(path, os.O_NONBLOCK | os.O_CLOEXEC | os.O_NOFOLLOW)
        try:
            status = os.fstat(handle)
            need(stat.S_ISREG(status.st_mode), f"{whose}this is not a file")
            need(status.st_size <= MOST_BYTES, f"{whose}more than {MOST_BYTES} bytes")
            return read(handle, status.st_size)
        finally:
            os.close(handle)
    except UnreadableError:
        raise
    except (OSError, ValueError) as error:  # a name may have a NUL
        is_link = isinstance(error, OSError) and os.path.islink(path)
        why = "this is a link" if is_link else getattr(error, "strerror", None) or str(error)
        raise UnreadableError(f"{whose}{why}") from error
