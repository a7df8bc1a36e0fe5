"""What the library is asked and answers, as bytes: in this process, or in that of `Worker`, whose
program this is.

The process imports this and _library alone. What goes either way is a number and up to five parts,
which are bytes. A question has numbers (a kind, and its bounds: seconds by the clock, and of the
processor, 0 for none), and four files; an answer has the number of its question, a status and at
most three texts. Nothing else comes back: no names and no objects.
"""

from __future__ import annotations

import ctypes
import io
import math
import os
import struct

from ._library import DONE, Desk, version

TYPE_CHECKING = False
if TYPE_CHECKING:
    from typing import BinaryIO, Callable

# What is asked: whether a certificate of a picture is accepted by the givens that are published, or
# with any; what a bench on a picture answers to lines; for a certificate; for an assessment, which
# a certificate may help; or what a bench on a .non text answers.
CHECK, CHECK_ANY, SESSION, PROVE, ASSESS, SESSION_OF_NON = 1, 2, 3, 4, 5, 6

NO_MEMORY = 9  # the status of a process whose memory has ended
STREAM = 0  # of a process that answers: questions come there, and answers go
FRAME = struct.Struct("!6Q")  # a number, and the sizes of its parts

# After such an answer no further line is said.
LAST = (b"refused: ", b"ambiguous\n", b"undecided ")


def answer(
    kind: int, picture: bytes, background: bytes, rest: bytes, givens: bytes
) -> tuple[int, list[bytes]]:
    """The status, and the texts that were said. `rest` is the certificate, or the lines. To make a
    certificate it is two numbers, 1 for a complete search and the form; for an assessment a line of
    words (1 for a .non text, 1 where there is a certificate, the allowance if there is one), and
    then the certificate.
    """
    with Desk() as desk:
        return answer_on(desk, kind, picture, background, rest, givens)


def answer_on(
    desk: Desk, kind: int, picture: bytes, background: bytes, rest: bytes, givens: bytes
) -> tuple[int, list[bytes]]:
    """The same, on a desk that is there."""
    if kind in (CHECK, CHECK_ANY):
        status = desk.check(picture, rest, background, givens if kind == CHECK else None)
    elif kind == PROVE:
        complete, form = map(int, rest.split())
        status = desk.prove(picture, background, givens, bool(complete), form)
    elif kind == ASSESS:
        words, _, certificate = rest.partition(b"\n")
        non, is_by, *allowance = words.split()
        by = certificate if is_by == b"1" else None
        status = desk.assess(picture, non == b"1", background, givens, by, b"".join(allowance))
    else:
        return _answer_of_bench(desk, kind == SESSION_OF_NON, picture, background, rest)
    return status, [desk.text()]


def _answer_of_bench(
    desk: Desk, non: bool, picture: bytes, background: bytes, lines: bytes
) -> tuple[int, list[bytes]]:
    """The palette of a picture, and what a bench on it says to the last two lines, until one is the
    last."""
    status, bench = desk.open(picture, background, non)
    palette = desk.text()
    if status != DONE:
        return status, [palette]  # which says why
    texts: list[bytes] = []
    for line in lines.splitlines(keepends=True):
        status = desk.say(bench, line)
        texts.append(desk.text())
        if status != DONE or texts[-1].startswith(LAST):
            break
    desk.close(bench)
    return status, [palette, *texts[-2:]]


def framed(number: int, *parts: bytes) -> bytes:
    """A number with its parts, as they go over a stream. Parts that are left out are empty."""
    return FRAME.pack(number, *map(len, parts), *[0] * (5 - len(parts))) + b"".join(parts)


def receive(stream: BinaryIO) -> tuple[int, list[bytes]]:
    """The number and the parts that come next to this process."""
    number, *sizes = FRAME.unpack(_whole(stream, FRAME.size))
    parts = io.BytesIO(_whole(stream, sum(sizes)))
    return number, [parts.read(size) for size in sizes]


def _whole(stream: BinaryIO, size: int) -> bytes:
    data = stream.read(size)
    if len(data) < size:
        raise EOFError
    return data


def read(stream: int, size: int) -> bytes:
    """So many bytes of a stream, or all where it ends before."""
    parts = []
    while size > 0 and (part := os.read(stream, min(size, 1 << 20))):
        parts.append(part)
        size -= len(part)
    return b"".join(parts)


def write(stream: int, data: bytes) -> None:
    """Writes all of some bytes."""
    view = memoryview(data)
    while view:
        view = view[os.write(stream, view) :]


def begin(memory: int) -> None:
    """Bounds the memory of this process, where it is not bounded by less. What loads the library is
    not bounded."""
    import resource

    version()
    hard = resource.getrlimit(resource.RLIMIT_AS)[1]
    most = memory if hard == resource.RLIM_INFINITY else min(memory, hard)
    resource.setrlimit(resource.RLIMIT_AS, (most, most))
    resource.setrlimit(resource.RLIMIT_CORE, (0, 0))


def _allow(processor: int) -> None:
    """Lets this process run for so many seconds more of the processor, at the most; for as long as
    before where there are none."""
    import resource

    if processor:
        spent = sum(resource.getrusage(resource.RUSAGE_SELF)[:2])
        hard = resource.getrlimit(resource.RLIMIT_CPU)[1]
        most = math.ceil(spent) + processor
        resource.setrlimit(
            resource.RLIMIT_CPU, (most if hard == resource.RLIM_INFINITY else min(most, hard), hard)
        )


def serve(memory: int, answer: Callable[..., tuple[int, list[bytes]]] = answer) -> None:
    """Answers questions until nobody asks any more. What ends the process: a question that takes
    too long, and the end of who asks."""
    import _signal as signal  # type: ignore  # as in _loading
    import fcntl

    alarm = ctypes.CDLL(None).alarm
    begin(memory)
    for number in (
        signal.SIGALRM,
        signal.SIGXCPU,
    ):  # they end it, also where who asks ignores or blocks them
        signal.signal(number, signal.SIG_DFL)
    signal.pthread_sigmask(signal.SIG_SETMASK, ())
    for command, value in (
        (fcntl.F_SETSIG, 9),
        (fcntl.F_SETOWN, os.getpid()),
        (fcntl.F_SETFL, os.O_WRONLY | os.O_ASYNC),
    ):
        fcntl.fcntl(
            1, command, value
        )  # killed with who asks, where the system closes the other end of its standard output
    questions = open(STREAM, "rb", closefd=False)
    try:
        os.write(1, b"\n")  # an error where that end is closed by now
        while True:
            number, (bounds, *files) = receive(questions)
            kind, seconds, processor = map(int, bounds.split())
            alarm(seconds)
            _allow(processor)
            status, texts = answer(kind, *files)
            alarm(0)
            write(STREAM, framed(number, b"%d" % status, *texts))
    except (EOFError, OSError):
        return
    except MemoryError:
        os._exit(NO_MEMORY)
