"""A run of nonobench-audit."""

from __future__ import annotations

import contextlib
import errno
import os
import signal
import sqlite3
import sys
from collections import Counter
from concurrent.futures import Executor, ThreadPoolExecutor
from types import FrameType
from typing import Container, Iterable, Iterator, NoReturn, Optional

from .. import _loading
from .._answers import UnreadableError
from .._library import version
from . import webpbn
from .arguments import Arguments, arguments_of, fail, unpack_arguments
from .asking import Entry, Turns, arrivals, digest_of, digests_of, key_of
from .finding import Found, Search, bytes_of, question_of, walk
from .outputs import Database, Lines, Printed, Sink, Spreadsheet, Table, lock, write_file
from .progress import Progress
from .puzzles import Answer, Question, Row
from .rows import printable
from .tally import FAILED, Tally


class Stopped(BaseException):
    """A signal ends the run."""

    def __init__(self, number: int) -> None:
        super().__init__(number)
        self.status = 128 + number


def main(words: Optional[list[str]] = None) -> int:
    """Runs the program, and answers its status."""
    _loading.end()
    words = sys.argv[1:] if words is None else words
    for number in (signal.SIGINT, signal.SIGTERM):
        if signal.getsignal(number) != signal.SIG_IGN:
            signal.signal(number, _stop)
    try:
        return unpack(*unpack_arguments(words[1:])) if words[:1] == ["unpack"] else _run(words)
    except Stopped as stop:
        _leave(stop.status)


def _stop(number: int, _frame: Optional[FrameType]) -> NoReturn:
    signal.signal(number, signal.SIG_DFL)  # another one ends the program at once
    raise Stopped(number)


def _leave(status: int) -> NoReturn:
    """Ends the program at once: Python would wait for its threads, which wait for puzzles. The
    processes end with it."""
    with contextlib.suppress(OSError, ValueError):
        sys.stdout.flush()
        sys.stderr.flush()
    os._exit(status)


def unpack(name: str, folder: str) -> int:
    """Writes a file for each puzzle of a set."""
    try:
        files = list(webpbn.files_of(bytes_of(name)))
        stem, width = os.path.splitext(os.path.basename(name))[0], len(str(len(files)))
        for number, data in enumerate(files, 1):
            write_file(os.path.join(folder, f"{stem}-{number:0{width}}.xml"), data)
    except (UnreadableError, OSError, ImportError) as error:
        fail(f"{printable(name)}: {error}")
    print(f"{len(files)} puzzles in {printable(folder)}")
    return 0


def _run(words: list[str]) -> int:
    try:
        return Run(arguments_of(words)).run()
    except (OSError, sqlite3.Error, ImportError, RuntimeError, UnreadableError) as error:
        print(f"nonobench-audit: {_words_of(error)}", file=sys.stderr)
        _leave(FAILED)


def _words_of(error: Exception) -> str:
    if isinstance(error, BrokenPipeError):
        return "standard output is closed"
    if isinstance(error, OSError) and error.filename:
        return f"{printable(str(error.filename))}: {error.strerror}"
    return printable(str(error) or type(error).__name__)


def _row_of_error(name: str, why: str) -> Row:
    """The row of a file that no process judged."""
    row = {"file": name, "verdict": "error", "fit": False, "error": why}
    return {**row, "tool": f"nonobench {version()}"}


def _digest_at(path: Optional[str]) -> Optional[str]:
    """The digest of a file, if there is one."""
    try:
        return None if path is None else digest_of(bytes_of(path))
    except UnreadableError:
        return None


class Run:
    """A run, with what it writes."""

    def __init__(self, arguments: Arguments) -> None:
        self._arguments, self._options = arguments, arguments.options
        version()  # an ImportError says that there is no library
        self._tally = Tally(arguments.options.allowed)
        self._progress = Progress(self._tally, arguments.is_quiet)
        self._search = Search(arguments.beside, arguments.options.is_untrusted)
        self._shapes: dict[str, str] = {}  # the first file of each
        self._made: set[str] = set()  # the files of puzzles
        self._locks: list[int] = []
        self._sinks: list[Sink] = []
        self._caches: list[Lines | Database] = []  # for --resume

    def _open(self) -> None:
        """Begins all outputs, and locks them."""
        arguments = self._arguments
        for folder in self._folders():
            os.makedirs(folder, exist_ok=True)
            self._locks.append(lock(folder))
        if arguments.html is not None:
            from .report import Report

            self._sinks.append(Report(arguments.html, arguments.title, self._tally))
        if arguments.csv is not None:
            self._sinks.append(Spreadsheet(arguments.csv))
        if arguments.sqlite is not None:
            folder = os.path.realpath(arguments.folder or ".")
            self._sinks.append(Database(arguments.sqlite, folder))
        if arguments.jsonl == "-":
            self._sinks.append(Printed())
        elif arguments.jsonl is not None:
            self._sinks.append(Lines(arguments.jsonl, arguments.is_resumed))
        if arguments.is_resumed:
            self._caches = [one for one in self._sinks if isinstance(one, (Lines, Database))]
        if not self._sinks and not arguments.is_quiet:
            self._sinks.append(Table())

    def _folders(self) -> list[str]:
        """The folders for what is made of puzzles, each once."""
        return list({os.path.realpath(one): one for one in self._arguments.folders()}.values())

    def run(self) -> int:
        """Judges all, and answers the status. Only a run that does not fail replaces what is
        there."""
        try:
            with self._executor() as executor:
                self._open()
                self._progress.begin(self._count())
                self._judge(executor)
            status = self._end()
        except BaseException:
            self._stop()
            raise
        finally:
            self._progress.close()
            for handle in self._locks:
                os.close(handle)
        self._say(status == FAILED)
        return status

    def _judge(self, executor: Executor) -> None:
        """Records rows as answers come, and puts them out in the order of their puzzles."""
        turns = Turns()
        for answers in arrivals(self._entries(), self._options, executor):
            rows = [(number, self._record(answer)) for number, answer in answers]
            for sink in self._sinks:
                sink.flush()
            for number, row in rows:
                for due in turns.due(number, row):
                    self._put(due)

    def _end(self) -> int:
        """Ends all outputs, and answers the status."""
        self._tally.skipped.update(self._search.skipped)
        status = FAILED if self._search.failures else self._tally.status()
        for sink in self._sinks:
            end = sink.discard if status == FAILED else sink.close
            end()
        return status

    def _stop(self) -> None:
        """Leaves what was there before, with the rows that were recorded, and says so."""
        for sink in self._sinks:
            with contextlib.suppress(OSError, sqlite3.Error):
                sink.discard()
        if self._sinks:
            can_resume = any(isinstance(sink, (Lines, Database)) for sink in self._sinks)
            why = f"stopped after {self._tally.total} puzzles"
            again = "; --resume goes on" if can_resume else ""
            print(f"nonobench-audit: {why}{again}", file=sys.stderr)

    @contextlib.contextmanager
    def _executor(self) -> Iterator[Executor]:
        if self._arguments.scheduler is not None:
            from .cluster import executor_at

            with executor_at(self._arguments.scheduler) as executor:
                yield executor
            return
        threads = ThreadPoolExecutor(self._arguments.jobs)
        yield threads
        threads.shutdown()

    def _count(self) -> Optional[int]:
        """The number of rows, for the bar."""
        if not self._progress.is_shown:
            return None
        if self._arguments.folder is None:
            return len(self._arguments.files)
        search = Search(self._arguments.beside, self._options.is_untrusted)
        return sum(1 for _ in search.folder(self._arguments.folder))

    def _found(self) -> Iterable[Found]:
        arguments = self._arguments
        if arguments.folder is not None:
            return self._search.folder(arguments.folder)
        return self._search.files(arguments.files)

    def _entries(self) -> Iterator[Entry]:
        """Each puzzle as a question, or with its row of an earlier run."""
        for found in self._found():
            try:
                question = question_of(found)
            except UnreadableError as error:
                yield Entry(None, _row_of_error(found.name, str(error)))
                continue
            row = self._cached_row(question) if self._caches else None
            yield Entry(question) if row is None else Entry(None, row)

    def _cached_row(self, question: Question) -> Optional[Row]:
        """The row of an earlier run with the same key, if the files that it names are there, and no
        bound that left it undecided has changed."""
        key = key_of(question, digests_of(question), self._options)
        for cache in self._caches:
            row = cache.cached(key)
            if row is None or row.get("limit", self._options.limit()) != self._options.limit():
                continue
            row.pop("same_as", None)
            paths, digests = self._arguments.paths_of(question.name), row.get("files", {})
            if all(_digest_at(paths.get(ending)) == digests[ending] for ending in digests):
                return {**row, "file": question.name}
        return None

    def _write(self, name: str, files: dict[str, bytes], endings: Container[str]) -> None:
        """Writes what was made of a puzzle. Its files that are there already stay if their endings
        are among some; others are deleted."""
        for ending, path in self._arguments.paths_of(name).items():
            if ending in files:
                write_file(path, files[ending])
            elif ending not in endings and (os.path.isfile(path) or os.path.islink(path)):
                os.unlink(path)
            if ending in endings:
                self._made.add(os.path.normpath(path))

    def _record(self, answer: Answer) -> Row:
        """Writes what was made, and then the row. A full disk ends the run; what else cannot be
        written is the puzzle's error."""
        row = answer.row
        try:
            self._write(row["file"], answer.files, row.get("files", {}).keys())
        except OSError as error:
            if error.errno in (errno.ENOSPC, errno.EDQUOT):
                raise
            why = f"{error.filename2 or error.filename}: {error.strerror}"
            row = _row_of_error(row["file"], why)
            with contextlib.suppress(OSError):
                self._write(row["file"], {}, ())
        self._tally.put(row)
        for sink in self._sinks:
            sink.record(row)
        self._progress.step()
        return row

    def _put(self, row: Row) -> None:
        """Writes a row in the order of the run."""
        shape = row.get("shape")
        if shape is not None and self._shapes.setdefault(shape, row["file"]) != row["file"]:
            row["same_as"] = self._shapes[shape]
            self._tally.same += 1
        for sink in self._sinks:
            sink.put(row)

    def _others(self) -> Iterator[str]:
        """How many files in the folders for output belong to no puzzle of this run."""
        for folder in self._folders():
            paths = [
                os.path.normpath(os.path.join(folder, below, name))
                for below, names in walk(folder, Counter(), [])
                for name in names
            ]
            count = sum(path not in self._made for path in paths)
            noun = "file belongs" if count == 1 else "files belong"
            if count:
                yield f"{printable(folder)}: {count} {noun} to no puzzle of this run"

    def _say(self, is_failed: bool) -> None:
        """Prints the last lines: what was judged, and what went wrong."""
        lines = [_words_of(error) for error in self._search.failures]
        lines += [
            f"{count} not read, since {library} is not installed (pip install {library})"
            for library, count in sorted(self._tally.missing.items())
        ]
        lines += self._others()
        if not self._tally.total:
            lines.append("there are no puzzles")
        if lines and self._arguments.outputs() and is_failed:
            lines.append("the run failed, so what was there before is not replaced")
        for line in lines:
            print(f"nonobench-audit: {line}", file=sys.stderr)
        if self._arguments.is_quiet:
            return
        is_table = isinstance(self._sinks[0], Table)
        is_free = "-" not in (self._arguments.jsonl, self._arguments.csv)
        output = sys.stdout if is_free else sys.stderr
        print("\n" * is_table + "\n".join(self._tally.summary()), file=output)
