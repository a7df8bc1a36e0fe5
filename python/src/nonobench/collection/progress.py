"""The progress of an audit, on standard error: a bar on a terminal, else a line now and then."""

from __future__ import annotations

import sys
import time
from typing import Any, Optional

from .tally import Tally, counted
from .rows import FITNESS

EVERY = 10.0  # seconds between lines where there is no terminal


class Progress:
    """How far an audit is."""

    def __init__(self, tally: Tally, is_quiet: bool) -> None:
        self._tally, self._is_quiet = tally, is_quiet
        self._begun = self._printed = time.monotonic()
        self.is_shown = not is_quiet and sys.stderr.isatty() and not sys.stdout.isatty()
        self._bar: Any = None

    def begin(self, total: Optional[int]) -> None:
        """Shows the bar, with the number of files if that is known."""
        if self.is_shown:
            try:
                from tqdm import tqdm
            except ImportError:
                return
            self._bar = tqdm(total=total, unit=" files", dynamic_ncols=True, smoothing=0.1)

    def step(self) -> None:
        """Shows that one more row is counted."""
        if self._bar is not None:
            self._bar.set_postfix_str(counted(self._tally.fitness, FITNESS), refresh=False)
            self._bar.update()
        elif not self._is_quiet and time.monotonic() - self._printed >= EVERY:
            self._printed = time.monotonic()
            rate = self._tally.total / (self._printed - self._begun)
            words = counted(self._tally.fitness, FITNESS)
            line = f"nonobench-audit: {self._tally.total} files, {rate:.0f} a second; {words}"
            print(line, file=sys.stderr, flush=True)

    def close(self) -> None:
        """Takes the bar away."""
        if self._bar is not None:
            self._bar.close()
