"""The calls of libnonobench, and a desk to ask them on. c/nonobench.h has what each does.

The process of `Worker` loads this too, so it imports little: what it imports takes longer than a
check.
"""

from __future__ import annotations

import ctypes
import os

TYPE_CHECKING = False
if TYPE_CHECKING:
    from types import TracebackType
    from typing import Any, Callable

DONE, REFUSED, MEMORY, CLOSED, OPTIONS = 0, 1, 4, 5, 6
# What the package and the checkout have, and what the system looks for.
NAME, SYSTEM_NAME = "libnonobench.so", "libnonobench.so.0"

# The folder of the package.
FOLDER = os.path.dirname(os.path.abspath(__file__))

# The size of the buffer that a text is first copied to.
_SIZE = 4096
_Buffer = ctypes.c_char * _SIZE


def _path() -> str:
    """Where the library is: as NONOBENCH_LIBRARY says, else beside the package, in the checkout, or
    where the system looks."""
    named = os.environ.get("NONOBENCH_LIBRARY")
    if named:
        # A name without a slash is looked for by the system.
        return os.path.realpath(named) if os.sep in named else named
    checkout = os.path.dirname(os.path.dirname(os.path.dirname(FOLDER)))
    return next(
        filter(
            os.path.isfile, (os.path.join(FOLDER, NAME), os.path.join(checkout, "c", "out", NAME))
        ),
        SYSTEM_NAME,
    )


def _kinds() -> dict[str, tuple[Any, list[Any]]]:
    """What each call answers, and what it is passed."""
    cell = ctypes.POINTER(ctypes.c_void_p)
    bytes_of = [ctypes.c_char_p, ctypes.c_size_t]
    number = ctypes.c_uint32
    return {
        "version": (ctypes.c_size_t, [*bytes_of]),
        "start": (number, [cell]),
        "end": (None, [ctypes.c_void_p]),
        "open": (
            number,
            [cell, *bytes_of, ctypes.c_bool, *bytes_of, number, ctypes.POINTER(number)],
        ),
        "say": (number, [cell, number, *bytes_of]),
        "take": (ctypes.c_size_t, [cell, *bytes_of]),
        "close": (number, [cell, number]),
        "check": (number, [cell, *bytes_of, *bytes_of, *bytes_of, *bytes_of]),
        "check_any_given": (number, [cell, *bytes_of, *bytes_of, *bytes_of]),
        "prove": (number, [cell, *bytes_of, *bytes_of, *bytes_of, ctypes.c_bool, number]),
        "assess": (
            number,
            [
                cell,
                *bytes_of,
                ctypes.c_bool,
                *bytes_of,
                ctypes.c_bool,
                *bytes_of,
                ctypes.c_bool,
                *bytes_of,
                *bytes_of,
            ],
        ),
    }


# Where the library is: it stays this file, whatever folder becomes the current one.
PATH = _path()


def _loaded() -> ctypes.CDLL:
    """The library. Without the processor that it needs, its version has no bytes."""
    try:
        library = ctypes.CDLL(PATH)
    except OSError as error:
        raise ImportError(
            f"cannot load {PATH}; build it with c/build, or set NONOBENCH_LIBRARY to its path:"
            f" {error}"
        ) from error
    if library.nonobench_version(b"", ctypes.c_size_t(0)) == 0:
        raise ImportError("this processor has no SSE4.2, which nonobench needs")
    return library


class _Calls:
    """The calls of the library, which the first of them loads."""

    def __getattr__(self, name: str) -> Any:
        call = getattr(_loaded(), name)
        call.restype, call.argtypes = _kinds()[name.removeprefix("nonobench_")]
        setattr(self, name, call)
        return call


_calls = _Calls()


def version() -> str:
    """The version of the library, as `nonobench --version` prints it behind the name."""
    return _text(_calls.nonobench_version).decode("ascii")


def _text(put: Callable[..., int], *words: object) -> bytes:
    """The text that a call puts out, as far as there is room, and answers how many bytes it has."""
    buffer = _Buffer()
    size = put(*words, buffer, _SIZE)
    if size > _SIZE:
        buffer = ctypes.create_string_buffer(size)
        put(*words, buffer, size)
    return ctypes.string_at(buffer, size)


def _lent(*files: bytes) -> list[object]:
    """Files as a call takes them: the bytes of each, and how many they are."""
    return [word for file in files for word in (file, len(file))]


class Desk:
    """A desk, ended where its `with` ends. One thread uses it at a time."""

    def __enter__(self) -> Desk:
        self._cell = ctypes.c_void_p()
        self._at = ctypes.byref(self._cell)
        if _calls.nonobench_start(self._at) != DONE:
            raise MemoryError("nonobench: memory")
        return self

    def __exit__(
        self,
        kind: type[BaseException] | None,
        error: BaseException | None,
        at: TracebackType | None,
    ) -> None:
        _calls.nonobench_end(self._cell)

    def check(
        self, picture: bytes, certificate: bytes, background: bytes, published: bytes | None
    ) -> int:
        """Checks a certificate of a picture by the file of the givens that are published, or (None)
        one with any givens, and answers the status."""
        call = _calls.nonobench_check_any_given if published is None else _calls.nonobench_check
        files = (
            (picture, certificate, background)
            if published is None
            else (picture, certificate, published, background)
        )
        return int(call(self._at, *_lent(*files)))

    def prove(
        self, picture: bytes, background: bytes, published: bytes, complete: bool, format: int
    ) -> int:
        """Makes a certificate of a picture with the givens of a file, and answers the status."""
        files = _lent(picture, published, background)
        return int(_calls.nonobench_prove(self._at, *files, complete, format))

    def assess(
        self,
        puzzle: bytes,
        non: bool,
        background: bytes,
        givens: bytes,
        certificate: bytes | None,
        allowance: bytes,
    ) -> int:
        """Assesses a puzzle, by a certificate where there is one, and answers the status."""
        proof, has_proof = certificate or b"", certificate is not None
        return int(
            _calls.nonobench_assess(
                self._at,
                puzzle,
                len(puzzle),
                non,
                background,
                len(background),
                True,
                givens,
                len(givens),
                has_proof,
                proof,
                len(proof),
                allowance,
                len(allowance),
            )
        )

    def open(self, puzzle: bytes, background: bytes, non: bool = False) -> tuple[int, int]:
        """Opens a bench on a puzzle: the status and the handle."""
        handle = ctypes.c_uint32()
        status = _calls.nonobench_open(
            self._at, puzzle, len(puzzle), non, background, len(background), 1, ctypes.byref(handle)
        )
        return status, handle.value

    def say(self, handle: int, lines: bytes) -> int:
        """Says lines of commands to a bench, and answers the status."""
        return int(_calls.nonobench_say(self._at, handle, lines, len(lines)))

    def close(self, handle: int) -> None:
        """Closes a bench."""
        _calls.nonobench_close(self._at, handle)

    def text(self) -> bytes:
        """The text of the last call."""
        return _text(_calls.nonobench_take, self._at)
