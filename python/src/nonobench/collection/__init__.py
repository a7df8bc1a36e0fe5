"""Audits a collection of puzzles: which of them are fit to be published. docs/AUDIT.md has the
rules.

The program is `nonobench-audit PATH..`, or `python3 -m nonobench.audit PATH..`; --help lists its
options. In a program of your own:

    for row in audit([("heart.ppm", data), ..]):
        print(row["file"], row["fit"], row["verdict"])

The verdicts and the certificates are those of libnonobench, which is proved (docs/THEOREMS.md).
What reads files, distributes them and writes rows is plain Python, and tested. Beside Python it
uses Pillow for PNG, defusedxml for XML, jinja2 for the report, tqdm for the bar, and distributed
for several machines; each is needed only for that.
"""

from __future__ import annotations

from typing import Optional

from .asking import audit, judge
from .puzzles import Answer, Options, Question

__all__ = ["Answer", "Options", "Question", "audit", "judge", "main"]


def main(words: Optional[list[str]] = None) -> int:
    """Runs nonobench-audit, and answers its status."""
    from .running import main as run

    return run(words)
