"""The same questions, asked in a separate process, which is ended if an answer takes too long or
too much memory."""

from __future__ import annotations

import math
import operator
import os
import signal
import sys
import threading
import time
import weakref
from collections import deque
from types import TracebackType
from typing import Any, Iterator, Optional, Sequence

from ._calls import Questions
from ._library import version
from ._process import Child, folders, uninterrupted
from ._serve import NO_MEMORY

# After so many seconds more than it may take, a question ends the process by itself, should nobody
# be there to end it.
_GRACE = 2
_MOST_ALARM = 2**31 - 1
_LONGEST = 3600.0  # seconds that the system is asked to wait
# Seconds of sleep between answers to many questions, at the most: to be woken for each takes about
# as long as a small puzzle.
_PAUSE = 0.005
# Why a worker has no answer, if that is by the bounds that it was given.
OVER_PROCESSOR, OVER_MEMORY = "no answer within its processor time", "no answer within its memory"
_NO_PYTHON = "a Worker needs a Python in sys.executable, and not {!r}"


class Worker(Questions):
    """Asks in another process. A call raises TimeoutError if the answer takes too long, and the
    next one starts a new process.

        with nonobench.Worker(seconds=5) as worker:
            worker.check(picture, certificate)

    Threads may share a worker: their calls are made one after another. `seconds` bounds the time by
    the clock, with the wait for a call's turn. `processor` bounds the processor time of a call, in
    whole seconds. `memory` bounds the process, in bytes; if that is not enough, the call raises
    MemoryError. The first call starts the process. It ends with `close`, with the `with`, with the
    last reference to the worker, with this program, and if an exception is raised while a call
    waits, for example by Ctrl-C or a task queue's limit. So a late answer is never taken for the
    answer to a later question.
    """

    def __init__(
        self, seconds: float = 10.0, memory: int = 1 << 30, processor: Optional[int] = None
    ) -> None:
        if not isinstance(seconds, (int, float)):
            raise TypeError(f"seconds must be a number, not {type(seconds).__name__}")
        if not 0 < seconds <= threading.TIMEOUT_MAX:
            raise ValueError("seconds must be above 0 and finite")
        self._seconds = float(seconds)
        self._memory = operator.index(memory)
        if not 0 < self._memory < 1 << 63:
            raise ValueError("memory must be above 0, and finite")
        self._processor = 0 if processor is None else operator.index(processor)
        if processor is not None and not 0 < self._processor <= _MOST_ALARM:
            raise ValueError("processor must be above 0, and finite")
        self._number = 0
        if not sys.executable:
            raise OSError(_NO_PYTHON.format(sys.executable))
        version()  # an ImportError here if there is no library
        self._begin()
        _WORKERS.add(self)

    def _program(self) -> tuple[str, bool]:
        """The module whose program the process runs, and whether it needs more libraries than
        Python's own."""
        return "_serve", False

    def _begin(self) -> None:
        """Begins without a process: also in a child that was forked, which must neither ask nor end
        its parent's."""
        # a signal's handler may call while a call of its thread waits
        self._lock = threading.RLock()
        self._process: Optional[_Process] = None
        self._asked: Optional[_Process] = None

    def __enter__(self) -> Worker:
        return self

    def __exit__(
        self,
        kind: type[BaseException] | None,
        error: BaseException | None,
        at: TracebackType | None,
    ) -> None:
        self.close()

    def close(self) -> None:
        """Ends the process. The next call starts another one. In a signal's handler it ends the
        call that it interrupted: RuntimeError."""
        with self._lock:
            process, self._process = self._process, None
            if process:
                uninterrupted(process.end)
            if self._asked:
                self._asked.stop()

    def _answer(self, kind: int, *files: bytes) -> tuple[int, list[bytes]]:
        found: list[tuple[int, list[bytes]]] = []
        self._ask_all([(kind, *files)], found)
        return found[0]

    def _ask_all(
        self, questions: Sequence[tuple[Any, ...]], found: list[tuple[int, list[bytes]]]
    ) -> None:
        """Appends the answers to questions (a kind and its files) as they come. Raises why one does
        not come; those behind it are not asked then."""
        called = time.monotonic()
        with self._lock:
            if time.monotonic() - called >= self._seconds:  # another thread's calls took them
                raise _late(self._seconds)
            # The process is this call's alone until its answers have been read whole. Whatever is
            # raised before, it never goes back.
            process, self._process, before = self._process, None, self._asked
            try:
                if not process or not process.is_waiting():
                    process = uninterrupted(lambda: _Process(self._memory, *self._program()))
                self._asked = process
                first, self._number = self._number + 1, self._number + len(questions)
                asked = process.ask(first, questions, called, self._seconds, self._processor)
                for answer in asked:
                    found.append(answer)
            except BaseException as error:
                if process:
                    error = process.why() if isinstance(error, EOFError) else error
                    uninterrupted(process.end)
                raise error
            finally:
                self._asked = before
            self._process = process


def _late(seconds: float) -> TimeoutError:
    return TimeoutError(f"no answer within {seconds:g} seconds")


_WORKERS: weakref.WeakSet[Worker] = weakref.WeakSet()
os.register_at_fork(
    after_in_child=lambda: list(map(Worker._begin, _WORKERS))
)  # before a thread of the child can call


class _Process(Child):
    """A process that answers questions one after the other."""

    def __init__(self, memory: int, module: str, has_libraries: bool) -> None:
        paths = folders() if has_libraries else ()
        super().__init__(module, memory, ("-S", "-B"), paths, cwd="/", start_new_session=True)

    def why(self) -> Exception:
        """What is raised if a process ended in the middle of a question: by status 1 Python
        tells what its program raised. Its status seems to be 0 where it is lost: SIGCHLD is
        ignored, or another part of the program waits for all that end.
        """
        if self.is_stopped:
            return RuntimeError("the worker was closed while it was asked")
        has_begun, status = self.has_begun(), self.status()
        if status == 1:
            return RuntimeError("the worker's program failed; it says why on standard error")
        if (
            status == -signal.SIGXCPU
            or has_begun
            and status == 0
            and time.monotonic() >= self._spent
        ):
            return TimeoutError(OVER_PROCESSOR)
        if status == NO_MEMORY:
            return MemoryError(OVER_MEMORY)
        is_python = has_begun or status < 0
        return (
            MemoryError("the worker ended")
            if is_python
            else OSError(_NO_PYTHON.format(sys.executable))
        )

    def ask(
        self,
        first: int,
        questions: Sequence[tuple[Any, ...]],
        begun: float,
        seconds: float,
        processor: int,
    ) -> Iterator[tuple[int, list[bytes]]]:
        """The status and the texts that come for each question, which are numbered from the first
        one, begun at some time. Raises TimeoutError where they come too late, and EOFError where
        none do."""
        alarm = min(math.ceil(seconds) + _GRACE, _MOST_ALARM)
        for number, (kind, *files) in enumerate(questions, first):
            self.put(number, b"%d %d %d" % (kind, alarm, processor), *files)
        self.write()
        come: deque[tuple[int, list[bytes]]] = deque()
        sent = time.monotonic()
        for count, number in enumerate(range(first, first + len(questions))):
            # before that it has not had its processor time
            self._spent = time.monotonic() + (processor or math.inf)
            if count and not come:
                rest = (time.monotonic() - sent) / count * (len(questions) - count)
                time.sleep(min(rest / 2, _PAUSE))
            while not come:
                left = begun + seconds - time.monotonic()
                self.wait(min(max(left, 0.0), _LONGEST))
                come.extend(self.answers())
                if not come and left <= 0:
                    raise _late(seconds)
            answered, (status, *texts) = come.popleft()
            if answered != number:
                raise RuntimeError(f"the worker answered question {answered} instead of {number}")
            yield int(status), [text for text in texts if text]
            begun = time.monotonic()
