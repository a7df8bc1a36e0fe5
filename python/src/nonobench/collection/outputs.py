"""What an audit writes: rows as soon as they are known, and files that replace older ones once they
are complete."""

from __future__ import annotations

import contextlib
import csv
import fcntl
import io
import json
import os
import sqlite3
import sys
from typing import BinaryIO, Optional

from .._answers import UnreadableError
from .puzzles import Row, encodable
from .rows import COLUMNS, HEAD, csv_cells, table_line

# The name of a file may have bytes that are no letters: JSON escapes what Python has for them.
text_of = json.JSONEncoder(separators=(",", ":")).encode


class Sink:
    """Where rows go."""

    def record(self, row: Row) -> None:
        """Takes a row as soon as it is known."""

    def flush(self) -> None:
        """Writes all rows that were recorded."""

    def put(self, row: Row) -> None:
        """Takes a row in the order of the run, with what it is the same as."""

    def close(self) -> None:
        """Ends what is written, once all rows are there."""

    def discard(self) -> None:
        """Leaves what was there before: the run was stopped, or it failed."""


def lock(name: str, flags: int = os.O_RDONLY) -> int:
    """A handle of a file or a folder that no other run writes as long as this one has it."""
    handle = os.open(name, flags | os.O_CLOEXEC, 0o666)
    try:
        fcntl.flock(handle, fcntl.LOCK_EX | fcntl.LOCK_NB)
        is_there = os.path.samestat(os.stat(name), os.fstat(handle))
    except (BlockingIOError, FileNotFoundError):
        is_there = False
    if not is_there:  # the other run may have just renamed it
        os.close(handle)
        raise UnreadableError(f"another run is writing {name}")
    return handle


class NewFile:
    """A file that replaces an older one when it is complete: until then it is NAME.new, which no
    other run writes."""

    def __init__(self, name: str) -> None:
        self._name, self._new = name, f"{name}.new"
        self.file = open(lock(self._new, os.O_RDWR | os.O_CREAT | os.O_NOFOLLOW), "wb")
        self.file.truncate(0)

    def close(self) -> None:
        """Replaces the older file."""
        self.file.flush()
        os.replace(self._new, self._name)
        self.file.close()

    def discard(self) -> None:
        """Leaves the older file as it is."""
        os.unlink(self._new)
        with contextlib.suppress(OSError):  # a full disk
            self.file.close()


def write_file(name: str, data: bytes) -> None:
    """Writes a file, and makes its folders. Until it is complete it is called `.new`, since a name
    may not be any longer."""
    folder = os.path.dirname(name) or "."
    os.makedirs(folder, exist_ok=True)
    new = os.path.join(folder, ".new")
    try:
        flags = os.O_WRONLY | os.O_CREAT | os.O_TRUNC | os.O_NOFOLLOW | os.O_CLOEXEC
        with open(os.open(new, flags, 0o666), "wb") as file:
            file.write(data)
        os.replace(new, name)
    except BaseException:
        with contextlib.suppress(OSError):
            os.unlink(new)
        raise


class Table(Sink):
    """A table on standard output."""

    def __init__(self) -> None:
        _print(HEAD)

    def put(self, row: Row) -> None:
        _print(table_line(row))


class Printed(Sink):
    """Rows as lines of JSON on standard output."""

    def put(self, row: Row) -> None:
        _print(text_of(row))


def _print(line: str) -> None:
    """Prints a line, in signs that the output has."""
    coding = sys.stdout.encoding or "utf-8"
    print(line.encode(coding, "namereplace").decode(coding), flush=True)


class Lines(Sink):
    """Rows as lines of JSON in a file.

    Each is appended as soon as it is known. When the run has ended well, a new file with its rows
    in order replaces this one.
    """

    def __init__(self, name: str, is_resumed: bool) -> None:
        self._new = NewFile(name)
        self._file, self._cache = open(name, "ab"), open(name, "rb")
        self._offsets: dict[str, int] = {}  # of the rows, by their keys
        self._waiting: dict[
            int, bytes
        ] = {}  # the lines of rows whose turn has not come, by their ids
        self._index(is_resumed)

    def _index(self, is_resumed: bool) -> None:
        """Finds the rows that are there. An incomplete line is cut off."""
        end = 0
        for line in self._cache:
            row = _row_of(line) if is_resumed else None
            if line.endswith(b"\n") and row and "key" in row:
                self._offsets[row["key"]] = end
            end += len(line) if line.endswith(b"\n") else 0
        self._file.truncate(end)

    def cached(self, key: str) -> Optional[Row]:
        """The row with a key."""
        if key not in self._offsets:
            return None
        self._cache.seek(self._offsets[key])
        return _row_of(self._cache.readline())

    def record(self, row: Row) -> None:
        line = _line_of(row)
        self._waiting[id(row)] = line
        self._file.write(line)

    def flush(self) -> None:
        self._file.flush()

    def put(self, row: Row) -> None:
        line = self._waiting.pop(id(row))
        self._new.file.write(_line_of(row) if "same_as" in row else line)

    def close(self) -> None:
        self._new.close()
        self._end()

    def discard(self) -> None:
        self._new.discard()
        self._end()

    def _end(self) -> None:
        self._cache.close()
        self._file.close()


def _line_of(row: Row) -> bytes:
    return text_of(row).encode("ascii") + b"\n"


def _row_of(line: bytes) -> Optional[Row]:
    try:
        row = json.loads(line)
    except ValueError:
        return None
    return row if isinstance(row, dict) else None


class Spreadsheet(Sink):
    """Rows for spreadsheets."""

    def __init__(self, name: str) -> None:
        self._new = None if name == "-" else NewFile(name)
        self._write(COLUMNS)

    def _write(self, cells: object) -> None:
        text = io.StringIO()
        csv.writer(text).writerow(cells)  # type: ignore[arg-type]
        line = text.getvalue().encode("utf-8", "backslashreplace")
        file: BinaryIO = sys.stdout.buffer if self._new is None else self._new.file
        file.write(line)
        if self._new is None:
            file.flush()

    def put(self, row: Row) -> None:
        self._write(csv_cells(row))

    def close(self) -> None:
        if self._new is not None:
            self._new.close()

    def discard(self) -> None:
        if self._new is not None:
            self._new.discard()


# The fields of a row that have a column of their own; `row` has all as JSON.
_FIELDS = (
    "key",
    "digest",
    "shape",
    "verdict",
    "fit",
    "rows",
    "columns",
    "colours",
    "grade",
    "open",
)
_COLUMNS = ("folder", "file", *_FIELDS, "row")


class Database(Sink):
    """A table of SQLite, in which each file of a folder has one row: that of the last run."""

    def __init__(self, name: str, folder: str) -> None:
        self._folder = encodable(folder)
        self._lock = lock(name, os.O_RDWR | os.O_CREAT)  # closed later than the database
        self._database = sqlite3.connect(name)
        try:
            is_right = self._begin()
        except sqlite3.Error as error:
            raise UnreadableError(f"{name}: {error}") from error
        if not is_right:
            raise UnreadableError(f"{name} has another table that is called puzzles")

    def _begin(self) -> bool:
        """Makes the table, unless it is there. False: another one is."""
        columns = ", ".join(_COLUMNS)
        self._database.execute(
            f"CREATE TABLE IF NOT EXISTS puzzles ({columns}, PRIMARY KEY (folder, file))"
        )
        found = self._database.execute("PRAGMA table_info(puzzles)")
        if tuple(column for _, column, *_ in found) != _COLUMNS:
            return False
        self._database.execute("CREATE INDEX IF NOT EXISTS puzzles_by_key ON puzzles (key)")
        return True

    def cached(self, key: str) -> Optional[Row]:
        """The row with a key."""
        found = self._database.execute("SELECT row FROM puzzles WHERE key = ?", (key,)).fetchone()
        return None if found is None else _row_of(found[0])

    def record(self, row: Row) -> None:
        fields = [row.get(field) for field in _FIELDS]
        values = [self._folder, encodable(row["file"]), *fields, text_of(row)]
        marks = ", ".join("?" * len(values))
        self._database.execute(f"INSERT OR REPLACE INTO puzzles VALUES ({marks})", values)

    def put(self, row: Row) -> None:
        if "same_as" in row:  # which was not known before
            self.record(row)

    def flush(self) -> None:
        self._database.commit()

    def close(self) -> None:
        self._database.commit()
        self._database.close()
        os.close(self._lock)

    discard = close
