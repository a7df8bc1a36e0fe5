"""A process of Python that answers over a stream: it begins apart from what lies around, and ends
with what asks it."""

from __future__ import annotations

import _thread
import contextlib
import itertools
import math
import os
import select
import socket
import subprocess
import sys
import weakref
from typing import Any, Callable, Iterable, TypeVar, Union

from ._library import FOLDER, PATH
from ._serve import FRAME, framed

# A process loads modules from the package's folder, under the package's name: `-I` leaves out
# PYTHONPATH and the current folder.
_START = """import importlib, sys
package = sys.modules["nonobench"] = type(sys)("nonobench")
package.__path__ = [sys.argv[1]]
sys.path += sys.argv[4:]
serve = importlib.import_module(sys.argv[2]).serve
serve(int(sys.argv[3]))"""

# A write to a process that has ended is an error, and no signal.
NO_SIGNAL = getattr(socket, "MSG_NOSIGNAL", 0)
CHUNK = 1 << 18  # bytes that are read at once
ENDING = (
    2.0  # seconds for a process to end: one that reads from files that do not come cannot be ended
)

Made = TypeVar("Made")


def uninterrupted(call: Callable[[], Made]) -> Made:
    """What a call makes in a thread of its own: what a signal's handler raises is raised in the
    main thread alone.

    There it may be raised between any two steps, also within `subprocess` and `threading`: a
    process that was just started would be known to nobody, or a lock of theirs would stay taken.
    Here the main thread takes no lock but one of this call.
    """
    made: list[Made] = []
    raised: list[BaseException] = []
    done = _thread.allocate_lock()

    def run() -> None:
        try:
            made.append(call())
        except BaseException as error:
            raised.append(error)
        finally:
            done.release()

    done.acquire()
    try:
        _thread.start_new_thread(run, ())
    except RuntimeError:  # no thread is started any more where the program ends
        run()
    done.acquire()
    if raised:
        raise raised[0]
    return made[0]


def folders() -> list[str]:
    """Where this program finds libraries, but for the current folder, whose files may be a
    stranger's."""
    return [
        path
        for path in sys.path
        if os.path.exists(path or ".") and not os.path.samefile(path or ".", ".")
    ]


class Child:
    """A process that answers, and the stream to it, which is its standard input. It is ended with
    this object.

    It runs `serve` of a module with a bound of its memory. More folders with libraries are looked
    into last.
    """

    def __init__(
        self,
        module: str,
        memory: int,
        flags: Iterable[str] = (),
        folders: Iterable[str] = (),
        **more: Any,
    ) -> None:
        self._memory = memory
        self._out: list[Union[bytes, memoryview]] = []
        self._come = bytearray()
        self._stream, theirs = socket.socketpair()
        self._stream.setblocking(False)
        words = [
            sys.executable,
            "-I",
            "-X",
            f"utf8={sys.flags.utf8_mode}",
            *flags,
            "-c",
            _START,
            FOLDER,
            f"nonobench.{module}",
            str(memory),
            *folders,
        ]
        env = {**os.environ, "NONOBENCH_LIBRARY": PATH}
        with theirs:
            self._process = subprocess.Popen(
                words, stdin=theirs.fileno(), stdout=subprocess.PIPE, env=env, **more
            )
        self.pid, self._owner, self.is_stopped = self._process.pid, os.getpid(), False
        self.end = weakref.finalize(self, _end, self._process, self._stream, self._owner)

    def is_waiting(self) -> bool:
        """Whether it waits for a question: it is not a parent's, it has not ended, and nothing of
        another answer is there."""
        try:
            self._stream.recv(1, socket.MSG_PEEK)
        except BlockingIOError:
            return not self._come and not self.is_stopped and self._owner == os.getpid()
        except (
            OSError
            # where the stream is open no other error of the system: a signal's handler may raise
            # one of its own here
        ) as error:
            if self.end.alive and not isinstance(error, ConnectionError):
                raise
        return False

    def put(self, number: int, *parts: bytes) -> None:
        """Takes a question, which `write` sends."""
        self._out.append(framed(number, *parts))

    def write(self) -> None:
        """Sends as much as there is room for."""
        try:
            while self._out:
                whole = memoryview(b"".join(self._out))
                left = whole[self._stream.send(whole, NO_SIGNAL) :]
                self._out = [left] if left else []
        except BlockingIOError:
            pass
        except ConnectionError:
            self._out.clear()

    def answers(self) -> list[tuple[int, list[bytes]]]:
        """The answers that have come whole. Raises EOFError where the process has ended,
        MemoryError where one is too large."""
        try:
            data = self._stream.recv(CHUNK)
        except BlockingIOError:
            return []
        except ConnectionError:
            data = b""
        if not data:
            raise EOFError
        self._come += data
        found = []
        while len(self._come) >= FRAME.size:
            number, *sizes = FRAME.unpack_from(self._come)
            *starts, end = itertools.accumulate(sizes, initial=FRAME.size)
            if end > FRAME.size + self._memory:
                raise MemoryError("the worker's answer is larger than its memory")
            if len(self._come) < end:
                break
            found.append(
                (number, [bytes(self._come[at : at + size]) for at, size in zip(starts, sizes)])
            )
            del self._come[:end]
        return found

    def wait(self, seconds: float) -> None:
        """Waits until the process has said something, or has ended, but no more than so many
        seconds. What is on its way goes on."""
        poll = select.poll()
        poll.register(self._stream, select.POLLIN | (select.POLLOUT if self._out else 0))
        for _, event in poll.poll(math.ceil(1000 * seconds)):
            if event & select.POLLOUT:
                self.write()

    def stop(self) -> None:
        """Ends the process. Its stream stays open, so that whoever waits sees the end."""
        self.is_stopped = True
        self._process.kill()

    def status(self) -> int:
        """Ends the process, and answers its status."""
        uninterrupted(self.end)
        return -9 if self.is_there() else self._process.returncode

    def has_begun(self) -> bool:
        """Whether it has said that it begins, by an empty line. It is asked once, before it is
        ended."""
        assert self._process.stdout
        os.set_blocking(self._process.stdout.fileno(), False)
        return bool(self._process.stdout.read(1) == b"\n")

    def is_there(self) -> bool:
        """Whether the process has not ended."""
        return self._process.poll() is None


def _end(process: subprocess.Popen[bytes], stream: socket.socket, owner: int) -> None:
    """Ends a process. In a child that was forked, this closes the child's end of the stream, and
    the process goes on."""

    def end() -> None:
        process.kill()
        with process.stdout or contextlib.nullcontext(), contextlib.suppress(
            subprocess.TimeoutExpired
        ):
            process.wait(ENDING)

    if os.getpid() == owner:
        uninterrupted(end)
    stream.close()
