"""Checks certificates of nonograms, and judges pictures.

    result = nonobench.check(picture, certificate, published=[(1, 1)])  # raises a NonobenchError
    clues = nonobench.clues(picture)
    verdict = nonobench.verdict(picture, allowance=1000)
    certificate = nonobench.certify(picture)  # None if the puzzle has several solutions
    audit = nonobench.audit(picture, allowance=1000)  # both, of one opened picture
    assessment = nonobench.assess(picture, allowance=1000)  # is it fit to be published?
    certificate = nonobench.prove(picture).certificate  # with lemmas: where others are too long

A picture is the bytes of a plain PPM text (P3), of at most 120 by 120 cells in 16 colours with the
background. The calls are those of libnonobench, which is proved (docs/THEOREMS.md); this package
passes bytes to it and reads the texts that it returns, and is tested. Each call makes a desk of its
own, so several threads may call at once. After a program with threads has forked, the child must
not call the library; use `Worker` there, which starts a new program. An answer may take long:
`Worker` limits the time.

`picture_of_image` reads other images, a cell for each pixel, as a browser shows them, and
`puzzles_of` files of every kind that nonobench-audit reads:

    picture = nonobench.picture_of_image(data)  # raises ImageError
    for puzzle in nonobench.puzzles_of(data):  # with picture, background, givens and title
        nonobench.assess(puzzle.picture, None, puzzle.background, puzzle.givens)
"""

from . import _loading  # noqa: F401, before all else
from ._answers import (
    Assessment,
    Audit,
    Block,
    CertificateError,
    Clues,
    Flaw,
    Given,
    GivensError,
    Grade,
    ImageError,
    LengthError,
    Look,
    NonobenchError,
    PictureError,
    Proved,
    Puzzle,
    Result,
    Ruling,
    SolvingPath,
    UnpublishedGivenError,
    UnreadableError,
    Verdict,
)
from ._calls import (
    ANY_GIVEN,
    assess,
    audit,
    certify,
    check,
    clues,
    path,
    picture_of,
    prove,
    puzzles_of,
    verdict,
)
from ._hints import hint_of
from ._images import colour_shown, picture_of_image
from ._library import version
from .worker import Worker


def __getattr__(name: str) -> str:
    if name == "__version__":
        return version()
    raise AttributeError(f"module {__name__!r} has no attribute {name!r}")


__all__ = [
    "ANY_GIVEN",
    "Assessment",
    "Audit",
    "Block",
    "CertificateError",
    "Clues",
    "Flaw",
    "Given",
    "GivensError",
    "Grade",
    "ImageError",
    "LengthError",
    "Look",
    "NonobenchError",
    "PictureError",
    "Proved",
    "Puzzle",
    "Result",
    "Ruling",
    "SolvingPath",
    "UnpublishedGivenError",
    "UnreadableError",
    "Verdict",
    "Worker",
    "assess",
    "audit",
    "certify",
    "check",
    "clues",
    "colour_shown",
    "hint_of",
    "path",
    "picture_of",
    "picture_of_image",
    "prove",
    "puzzles_of",
    "verdict",
    "version",
]
