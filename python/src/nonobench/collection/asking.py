"""Asks about puzzles: in processes with limits, one for each thread, on any executor of
`concurrent.futures`."""

from __future__ import annotations

import functools
import hashlib
import itertools
import json
import os
import threading
from concurrent.futures import Executor, Future, ThreadPoolExecutor
from queue import SimpleQueue
from typing import Any, Iterable, Iterator, NamedTuple, Optional, Sequence, Union

from .._library import version
from ..worker import OVER_MEMORY, OVER_PROCESSOR, Worker
from .finding import CERT
from .judging import CERTIFY, JUDGE, packed_options, parts_of
from .puzzles import Answer, Options, Question, Row

WALL = 10  # how much longer a puzzle may take by the clock than of the processor
# Puzzles that go together, since to hand over one takes as long as to judge a small one. Their rows
# are written together, so a run that is killed loses no more than these in each thread.
BATCH = 16
LEAST_AHEAD = 8  # batches under way, before answers are taken
MOST_AHEAD = 4096  # puzzles behind one that takes long
MOST_BYTES = 32 << 20  # of questions under way
_BOUNDS = ("", OVER_PROCESSOR, OVER_MEMORY)  # why an answer would be the same again


class Judge(Worker):
    """A process that judges puzzles, with the libraries that this program finds."""

    def __init__(self, options: Options) -> None:
        super().__init__(options.seconds * WALL, options.memory << 20, options.seconds)

    def _program(self) -> tuple[str, bool]:
        return "collection.judging", True

    def answers(self, questions: Sequence[Question], options: Options) -> list[Answer]:
        """The row of each puzzle, and the files to write for it."""
        texts = self._texts(JUDGE, questions, options)
        found = [_answer_of(*both, options) for both in zip(questions, texts)]
        is_making = options.is_certifying or options.is_publishing
        made = [at for at, one in enumerate(found) if is_making and one.row["verdict"] == "unique"]
        texts = self._texts(CERTIFY, [questions[at] for at in made], options)
        for at, text in zip(made, texts):
            found[at] = _with_certificate(found[at], text, options)
        return found

    def _texts(
        self, kind: int, questions: Sequence[Question], options: Options
    ) -> list[tuple[bytes, str]]:
        """The text that is answered to each question, or why none is."""
        packed = packed_options(options)
        asked = [(kind, *parts_of(question, packed)) for question in questions]
        texts: list[tuple[bytes, str]] = []
        while len(texts) < len(asked):
            found: list[tuple[int, list[bytes]]] = []
            why = []
            try:
                self._ask_all(asked[len(texts) :], found)
            except (TimeoutError, MemoryError) as error:
                why = [(b"", str(error))]
            texts += [(text, "") for _, (text,) in found] + why
        return texts

    def stop(self) -> None:
        """Ends the process in the middle of another thread's call, which raises RuntimeError. What
        is asked later, or has its process only then, has no time."""
        self._seconds = 0.0
        if self._asked:
            self._asked.stop()


def _answer_of(question: Question, text: tuple[bytes, str], options: Options) -> Answer:
    """The answer to a question, or why there is none: of bounds, or of something else."""
    answered, why = text
    row: Row = {"file": question.name, "verdict": "undecided", "fit": False, "notes": [why]}
    row = json.loads(answered) if answered else {**row, "limit": options.limit()}
    digests = digests_of(question)
    row["tool"], row["digest"] = _tool(), digests[0]
    if why in _BOUNDS and "missing" not in row:
        row["key"] = key_of(question, digests, options)
    return Answer(row)


def _with_certificate(answer: Answer, text: tuple[bytes, str], options: Options) -> Answer:
    """Adds the certificate that was made, or that none was."""
    row, (answered, why) = answer.row, text
    made = json.loads(answered) if answered else {}
    files = {ending: data.encode("ascii") for ending, data in made.items()}
    certificate = files.get(CERT, files.get(f".ppm{CERT}"))
    if certificate is None:
        row["limit"] = options.limit()
        row["notes"] = ["no certificate was made within its time and memory"]
    else:
        row["lines"] = certificate.count(b"\n")
        row["files"] = {ending: digest_of(files[ending]) for ending in sorted(files)}
    if why not in _BOUNDS:
        row.pop("key", None)
    return Answer(row, files)


_of_thread = threading.local()  # its judge, and the bounds of that


def judge(
    questions: Sequence[Question], options: Options = Options(), asked_by: Optional[str] = None
) -> list[Answer]:
    """The answers to some questions, by the process of this thread. `asked_by` is the
    version of who asks: another one has other answers. ValueError: an option is wrong.
    """
    options.check()
    if asked_by not in (None, _tool()):
        raise RuntimeError(f"this is {_tool()}, and {asked_by} asks")
    bounds = options.seconds, options.memory
    if getattr(_of_thread, "bounds", None) != bounds:
        _of_thread.judge, _of_thread.bounds = Judge(options), bounds
        getattr(_of_thread, "judges", []).append(_of_thread.judge)
    found: list[Answer] = _of_thread.judge.answers(questions, options)
    return found


def audit(
    puzzles: Iterable[Union[Question, tuple[Any, ...]]],
    options: Options = Options(),
    executor: Optional[Executor] = None,
) -> Iterator[Row]:
    """The rows of puzzles, each a Question or its fields (a name, bytes, ..), in order.

    They are judged by the threads of an executor; without one, by a thread for each processor.
    Whoever leaves the loop ends what is under way, but in threads of an executor of their own the
    puzzles that have begun.
    """
    if executor is not None:
        turns = Turns()
        for answers in arrivals(
            (Entry(Question(*puzzle)) for puzzle in puzzles), options, executor
        ):
            for number, answer in answers:
                yield from turns.due(number, answer.row)
        return
    judges: list[Judge] = []
    count = len(os.sched_getaffinity(0))
    threads = ThreadPoolExecutor(
        count, initializer=setattr, initargs=(_of_thread, "judges", judges)
    )
    try:
        yield from audit(puzzles, options, threads)
    finally:
        threads.shutdown(wait=False, cancel_futures=True)
        for one in judges:
            one.stop()


class Entry(NamedTuple):
    """A puzzle of a run: a question, or the row that is known of it."""

    question: Optional[Question]
    row: Row = {}

    def size(self) -> int:
        """The bytes of its question, and what it takes besides."""
        return 4096 + sum(len(part or b"") for part in (self.question or ())[1:5])


class Turns:
    """Puts rows that come in any order into the order of their numbers."""

    def __init__(self) -> None:
        self._waiting: dict[int, Row] = {}
        self._next = 0

    def due(self, number: int, row: Row) -> Iterator[Row]:
        """Takes a row, and yields those that are next."""
        self._waiting[number] = row
        while self._next in self._waiting:
            self._next += 1
            yield self._waiting.pop(self._next - 1)


Arrival = tuple[int, Answer]


def arrivals(
    entries: Iterable[Entry], options: Options, executor: Executor
) -> Iterator[list[Arrival]]:
    """The answers as they come, each with the number of its puzzle. Leaving the loop cancels what
    waits."""
    waiting: dict[int, Batch] = {}  # by the number of its first puzzle, the lowest first
    done: SimpleQueue[int] = SimpleQueue()
    size = 0
    try:
        for number, batch in _batches(entries, options, executor):
            waiting[number] = batch
            size += batch.size
            batch.future.add_done_callback(functools.partial(_put, done, number))
            while waiting and (
                (size > MOST_BYTES or number - next(iter(waiting)) >= MOST_AHEAD)
                or (len(waiting) >= LEAST_AHEAD and not done.empty())
            ):
                first = done.get()
                size -= waiting[first].size
                yield waiting.pop(first).answers(first)
        while waiting:
            first = done.get()
            yield waiting.pop(first).answers(first)
    finally:
        for batch in waiting.values():
            batch.future.cancel()


def _put(done: SimpleQueue[int], number: int, _: Future[list[Answer]]) -> None:
    done.put(number)


class Batch(NamedTuple):
    """Puzzles that go together."""

    entries: list[Entry]
    size: int
    future: Future[list[Answer]]

    def answers(self, first: int) -> list[Arrival]:
        """Their answers."""
        made = iter(self.future.result())
        found = [next(made) if one.question else Answer(one.row) for one in self.entries]
        return list(enumerate(found, first))


def _batches(
    entries: Iterable[Entry], options: Options, executor: Executor
) -> Iterator[tuple[int, Batch]]:
    all_entries = iter(entries)
    number = 0
    while batch := list(itertools.islice(all_entries, BATCH)):
        asked = [entry.question for entry in batch if entry.question]
        future: Future[list[Answer]] = Future()
        if asked:
            future = executor.submit(judge, asked, options, _tool())
        else:
            future.set_result([])
        yield number, Batch(batch, sum(map(Entry.size, batch)), future)
        number += len(batch)


def digests_of(question: Question) -> list[Optional[str]]:
    """The digests of the files of a question, that of the puzzle first."""
    return [None if part is None else digest_of(part) for part in question[1:5]]


def key_of(question: Question, digests: list[Optional[str]], options: Options) -> str:
    """A digest of all that an answer comes from, but for the bounds that are in its `limit`."""
    ending = question.name.lower().rpartition(".")[2]
    unbounded = options._replace(seconds=0, memory=0)
    claim = question.ignored, question.claimed
    return digest_of(repr((_tool(), ending, digests, claim, unbounded)).encode())


def digest_of(data: bytes) -> str:
    """SHA-256, as a row has it."""
    return hashlib.sha256(data).hexdigest()


@functools.lru_cache(None)
def _tool() -> str:
    return f"nonobench {version()}"
