"""What tests ask of processes, which may end while they are looked at: then there is nothing to see
of them."""

import os
from pathlib import Path
from typing import NamedTuple


class Seen(NamedTuple):
    """A process as the system sees it."""

    state: str  # a letter, Z for one that has ended and that nobody has waited for
    parent: int
    threads: int
    cpu: float  # the seconds that it has been at work


GONE = Seen("", 0, 0, 0.0)


def seen(pid):
    """A process."""
    try:
        words = Path(f"/proc/{pid}/stat").read_text(errors="replace").rpartition(")")[2].split()
        return Seen(
            words[0],
            int(words[1]),
            int(words[17]),
            (int(words[11]) + int(words[12])) / os.sysconf("SC_CLK_TCK"),
        )
    except (OSError, IndexError):
        return GONE


def children(parent):
    """The processes that a process started, those too that have ended and that it has not waited
    for."""
    return [
        pid
        for pid in map(int, filter(str.isdigit, os.listdir("/proc")))
        if seen(pid).parent == parent
    ]


def only_child(call):
    """The process that this program starts during a call, which starts one."""
    before = set(children(os.getpid()))
    call()
    (pid,) = (pid for pid in children(os.getpid()) if pid not in before and is_running(pid))
    return pid


def is_running(pid):
    """Whether a process is there, and has not ended."""
    return seen(pid).state not in ("", "Z", "X")
