"""Judges puzzles, and makes certificates: the program of the process of a `Judge`."""

from __future__ import annotations

import functools
import json
import time
from typing import Optional, Union

from .. import _images, _serve
from .._answers import (
    Assessment,
    CertificateError,
    Ruling,
    UnpublishedGivenError,
    UnreadableError,
    givens_of,
    refused_flaws,
)
from .._calls import Questions, colour_word
from .._hints import hint_of
from .._library import DONE, Desk
from . import reading, webpbn
from .finding import BACKGROUND, CERT, GIVENS
from .puzzles import (
    MissingLibraryError,
    Options,
    Question,
    Row,
)
from .reading import Picture, cells_of, painted
from .rows import graded, shown_in
from .shapes import shape_of

JUDGE, CERTIFY = 101, 102  # kinds of questions, besides those of _serve


class _OnOneDesk(Questions):
    """Asks on the one desk of this process, which has one thread."""

    def __init__(self) -> None:
        self._desk: Optional[Desk] = None

    def _answer(self, kind: int, *files: bytes) -> tuple[int, list[bytes]]:
        if self._desk is None:
            self._desk = Desk().__enter__()
        return _serve.answer_on(self._desk, kind, *files)


_library = _OnOneDesk()


def packed_options(options: Options) -> bytes:
    """Options as they go to the process: once made, and once read, for many questions."""
    return b"\n" + json.dumps(options).encode("ascii")


@functools.lru_cache(1)
def _options_of(packed: bytes) -> Options:
    return Options(*json.loads(packed))


def parts_of(question: Question, packed: bytes) -> list[bytes]:
    """A question as it goes to the process, with options that are packed."""
    is_there = [part is not None for part in question[2:4]]
    background = None if question.background is None else question.background.decode("latin-1")
    claimed = None if question.claimed is None else question.claimed.decode("latin-1")
    head = json.dumps([question.name, background, question.ignored, claimed, is_there])
    files = question.data, question.certificate or b"", question.givens or b""
    return [head.encode("ascii") + packed, *files]


def _question_of(parts: tuple[bytes, ...]) -> tuple[Question, Options]:
    front, data, certificate, givens = parts
    head, packed = front.split(b"\n")
    name, background, ignored, claimed, (has_certificate, has_givens) = json.loads(head)
    question = Question(
        name,
        data,
        certificate if has_certificate else None,
        givens if has_givens else None,
        None if background is None else background.encode("latin-1"),
        tuple(ignored),
        None if claimed is None else claimed.encode("latin-1"),
    )
    return question, _options_of(packed)


def answer(kind: int, *parts: bytes) -> tuple[int, list[bytes]]:
    """The answer to a question of an audit, or to one of the library."""
    if kind not in (JUDGE, CERTIFY):
        return _serve.answer(kind, *parts)
    question, options = _question_of(parts)
    if kind == JUDGE:
        return DONE, [json.dumps(row_of(question, options)).encode("ascii")]
    try:
        made = files_of(question, options)
    except MemoryError:
        raise
    except Exception:  # one puzzle must not end the run
        made = {}
    files = {ending: text.decode("ascii") for ending, text in made.items()}
    return DONE, [json.dumps(files).encode("ascii")]


def serve(memory: int) -> None:
    """Answers questions. Libraries are loaded before memory is bounded."""
    _images.prepare()
    webpbn.prepare()
    _serve.serve(memory, answer)


def row_of(question: Question, options: Options) -> Row:
    """The row of a puzzle, whatever its bytes are."""
    begun = time.process_time()
    row: Row = {"file": question.name}
    try:
        row.update(_judged(question, options))
    except MissingLibraryError as error:
        row.update(verdict="error", fit=False, error=str(error), missing=error.library)
    except ValueError as error:
        row.update(verdict="error", fit=False, error=str(error))
    except MemoryError:
        raise
    except Exception as error:  # one puzzle must not end the run
        row.update(verdict="error", fit=False, error=f"{type(error).__name__}: {error}")
    if options.max_guesses is None:
        row["seconds"] = round(time.process_time() - begun, 4)
    return row


def _judged(question: Question, options: Options) -> Row:
    picture = _painted(reading.picture_of(question, options), options)
    row: Row = {"title": picture.title} if picture.title else {}
    assessment: Optional[Assessment] = None
    if question.certificate is not None:
        assessment, row["certificate"] = _by_certificate(picture, question.certificate)
    elif options.is_certified:
        raise UnreadableError("there is no certificate")
    if assessment is None and options.is_certified:
        raise UnreadableError(f"its certificate is refused: {row['certificate']['why']}")
    if assessment is None:
        bound: Union[int, str] = "off" if options.max_guesses is None else options.max_guesses
        assessment = _assessed(picture, None, bound)
    reading.need_claims(picture)
    is_accepted = row.get("certificate", {"accepted": True})["accepted"]
    flaws = [str(flaw) for flaw in assessment.flaws]
    is_fit = assessment.verdict.ruling is Ruling.UNIQUE and not refused_flaws(
        flaws, options.allowed
    )
    row.update(
        verdict=assessment.verdict.ruling.value,
        fit=is_fit and is_accepted,
        **_figures(assessment, flaws),
        **_shown(picture, assessment),
    )
    ignored = [*question.ignored, *picture.ignored]
    if ignored:
        row["ignored"] = ignored
    if row["verdict"] == "undecided":
        row["limit"] = options.limit()
    return row


def _figures(assessment: Assessment, flaws: list[str]) -> Row:
    """The size, the grade and the flaws of a row."""
    row: Row = {
        "rows": assessment.rows,
        "columns": assessment.columns,
        "open": assessment.open,
        **graded(assessment),
    }
    if flaws:
        row["flaws"] = flaws
    return row


def _shown(picture: Picture, assessment: Assessment) -> Row:
    """The picture of a row, its givens, and a second solution."""
    palette, letters = shown_in(
        picture.text, picture.background, assessment.rows * assessment.columns
    )
    width = assessment.columns
    rows = "/".join([letters[at : at + width] for at in range(0, len(letters), width)])
    row: Row = {
        "colours": len(palette),
        "background": palette[0],
        "background_from": picture.background_from,
        "palette": palette,
        "picture": rows,
        "shape": shape_of(rows),
    }
    if picture.givens:
        row["givens"] = [list(given) for given in cells_of(picture.givens)]
    if assessment.verdict.other:
        row["other"] = "/".join(assessment.verdict.other)
    return row


def _by_certificate(picture: Picture, certificate: bytes) -> tuple[Optional[Assessment], Row]:
    """The assessment by a certificate, if it is accepted, and what the row says of it."""
    try:
        assessment = _assessed(picture, certificate, 0)
    except UnpublishedGivenError as error:
        return None, {
            "accepted": False,
            "why": str(error),
            "givens": [list(given) for given in error.givens],
        }
    except CertificateError as error:
        hint = hint_of(error, certificate)
        return None, {"accepted": False, "why": f"{error} ({hint})" if hint else str(error)}
    givens = [list(given) for given in givens_of(certificate)]
    return assessment, {"accepted": True, "givens": givens} if givens else {"accepted": True}


def _assessed(
    picture: Picture, certificate: Optional[bytes], allowance: Union[int, str]
) -> Assessment:
    background = None if picture.is_non else picture.background
    return _library.assess(
        picture.text, certificate, background, picture.givens, allowance, picture.is_non
    )


def _painted(picture: Picture, options: Options) -> Picture:
    """A picture as a P3 text. The clues of a .non puzzle do not say which colours givens have."""
    if picture.is_non and (picture.givens or options.is_certified):
        try:  # of a puzzle with a goal, an empty certificate is refused, and without a search
            _assessed(picture, b"", 0)
        except CertificateError:
            pass
    return painted(picture, _library)


def files_of(question: Question, options: Options) -> dict[str, bytes]:
    """A certificate of a puzzle with one solution, and the picture that it is of."""
    picture = _painted(reading.picture_of(question, options), options)
    proved = _library.prove(picture.text, picture.background, picture.givens, complete=True)
    certificate = proved.certificate
    if certificate is None:
        return {}
    files = {CERT: certificate} if options.is_certifying else {}
    if not options.is_publishing:
        return files
    files.update({".ppm": picture.text, f".ppm{CERT}": certificate})
    if picture.background is not None:
        files[f".ppm{BACKGROUND}"] = colour_word(picture.background) + b"\n"
    if picture.givens:
        files[f".ppm{GIVENS}"] = picture.givens
    return files
