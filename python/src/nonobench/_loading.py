"""While a program of this package is loaded, Ctrl-C ends it at once, without a traceback. The
program minds it once it runs.

Where it cannot be loaded it ends with status 3: Python's own, 1, says that all was judged.
"""

import _signal as signal  # type: ignore  # `signal` itself loads much before it can be asked
import os
import sys

_is_ours = (
    os.path.basename(sys.argv[0] if sys.argv else "") == "nonobench-audit"
    and signal.getsignal(signal.SIGINT) is signal.default_int_handler
)


def _fail(kind, fault, trace):  # type: ignore  # without `types`
    sys.__excepthook__(kind, fault, trace)
    if issubclass(kind, Exception):
        os._exit(3)


if _is_ours:
    sys.excepthook = _fail
    signal.signal(signal.SIGINT, signal.SIG_DFL)


def end() -> None:
    """Has Ctrl-C raise KeyboardInterrupt again, as the program expects."""
    if _is_ours:
        signal.signal(signal.SIGINT, signal.default_int_handler)
