"""A service that says which puzzles are fit to be published, for a site in whatever language.

    gunicorn --threads 16 nonobench.service:app

Each request is a form with a file `puzzle`, of any kind that nonobench-audit reads, and if the site
has them `certificate`, `givens` and `background`. The answer is JSON: the puzzle's row, as in
docs/AUDIT.md.

- `POST /assess` searches whether the puzzle has one solution, unless a certificate proves it;
- `POST /check` wants a certificate, and searches nothing;
- `POST /prove` makes a certificate as well: `certificate_text`;
- `GET /health` has the version.

`other_png` is a second solution, as PNG in base64 with a pixel for each cell. What an XML file says
of givens and background is not believed: a stranger wrote it.

The puzzles are judged by processes with limits, which begin at the first request, so a server may
fork before that. A variable such as NONOBENCH_SECONDS sets one of LIMITS, as JSON; the service does
not begin with a wrong one.
"""

from __future__ import annotations

import base64
import os
import struct
import zlib
from collections import Counter
from concurrent.futures import ThreadPoolExecutor, TimeoutError
from typing import Any, Mapping, Optional, Sequence

from flask import Flask, Response, current_app, jsonify, request
from werkzeug.exceptions import BadRequest, HTTPException, LengthRequired, ServiceUnavailable

from ._library import version
from .collection import Answer, Options, Question, judge
from .collection.finding import CERT
from .collection.puzzles import check_number
from .collection.rows import LETTERS

LIMITS: Mapping[str, Any] = {
    "SECONDS": 10,  # of processor time for each puzzle; ten times as many by the clock
    "MEMORY": 1024,  # MiB of each process
    "PROCESSES": len(os.sched_getaffinity(0)),  # puzzles that are judged at once
    "WAIT": 60,  # seconds until an answer is given up
    "MAX_CONTENT_LENGTH": 8 << 20,  # bytes of a request
    "MAX_GUESSES": None,  # of each search
    "BACKGROUND": "auto",  # of pictures for which none is named
    "ALLOW_FLAWS": [],  # kinds of flaws that count for nothing
}
BOUNDS = {"PROCESSES": (1, 4096), "WAIT": (0, 1_000_000), "MAX_CONTENT_LENGTH": (1, 1 << 30)}
FIELDS = ("puzzle", "certificate", "givens", "background")
PNG = b"\x89PNG\r\n\x1a\n"
POOL = "nonobench"


def create_app(**limits: Any) -> Flask:
    """The application, with limits in place of those of LIMITS and of the environment. ValueError:
    one is wrong."""
    app = Flask(__name__, static_folder=None)
    app.config.from_mapping(LIMITS)
    app.config.from_prefixed_env("NONOBENCH")
    app.config.from_mapping(limits)
    check_limits(app.config)
    app.config["MAX_FORM_MEMORY_SIZE"] = app.config["MAX_CONTENT_LENGTH"]  # from Flask 3.1 on
    app.extensions[POOL] = ThreadPoolExecutor(app.config["PROCESSES"])  # no thread begins here
    app.register_error_handler(HTTPException, refusal)
    app.add_url_rule("/assess", view_func=assess, methods=["POST"])
    app.add_url_rule("/check", view_func=check, methods=["POST"])
    app.add_url_rule("/prove", view_func=prove, methods=["POST"])
    app.add_url_rule("/health", view_func=health)
    return app


def check_limits(limits: Mapping[str, Any]) -> None:
    """Raises ValueError if a limit is wrong."""
    for name, bounds in BOUNDS.items():
        check_number(name, limits[name], *bounds)
    if not isinstance(limits["ALLOW_FLAWS"], list):
        raise ValueError(f"ALLOW_FLAWS must be a list, not {limits['ALLOW_FLAWS']!r}")
    options_by(limits).check()


def options_by(limits: Mapping[str, Any]) -> Options:
    """What changes an answer, by the limits."""
    return Options(
        background=limits["BACKGROUND"],
        seconds=limits["SECONDS"],
        memory=limits["MEMORY"],
        max_guesses=limits["MAX_GUESSES"],
        allowed=tuple(limits["ALLOW_FLAWS"]),
        is_untrusted=True,
    )


def assess() -> Response:
    """Whether a puzzle is fit to be published."""
    return response_of(answer_to(options_by(current_app.config)))


def check() -> Response:
    """The same by its certificate, without a search."""
    options = options_by(current_app.config)._replace(is_certified=True)
    return response_of(answer_to(options))


def prove() -> Response:
    """The same, with a certificate that is made."""
    options = options_by(current_app.config)._replace(is_certifying=True)
    answer = answer_to(options)
    made = answer.files.get(CERT)
    return response_of(answer, {} if made is None else {"certificate_text": made.decode("ascii")})


def health() -> Response:
    """The version, if the library is there."""
    return jsonify(version=version())


def refusal(error: HTTPException) -> tuple[Response, int]:
    """Why a request has no row."""
    return jsonify(error=error.description), error.code or 500


def question() -> Question:
    """The puzzle of a request, which is a form of files or texts. What is empty is not there, as in
    a browser's form that is not filled in."""
    if request.content_length is None:
        raise LengthRequired("a request must say its length")
    fields = [(name, file.read()) for name, file in request.files.items(multi=True)]
    fields += [(name, text.encode("utf-8")) for name, text in request.form.items(multi=True)]
    parts = dict(fields)
    for name, count in Counter(name for name, _ in fields).items():
        if name not in FIELDS:
            raise BadRequest(f"there is no field {name!r}, only {', '.join(FIELDS)}")
        if count > 1:
            raise BadRequest(f"the form has the field {name!r} {count} times")
    puzzle, certificate, givens, background = (parts.get(name) or None for name in FIELDS)
    if puzzle is None:
        raise BadRequest("the form has no puzzle")
    file = request.files.get("puzzle")
    filename = file.filename if file else None
    return Question(filename or "puzzle", puzzle, certificate, givens, background)


def answer_to(options: Options) -> Answer:
    """What is said of the puzzle of a request, in time."""
    future = current_app.extensions[POOL].submit(judge, [question()], options)
    try:
        answers: list[Answer] = future.result(current_app.config["WAIT"])
    except TimeoutError:
        future.cancel()
        raise ServiceUnavailable("no answer in time: the service is busy") from None
    return answers[0]


def response_of(answer: Answer, more: Optional[dict[str, str]] = None) -> Response:
    """The response to a request: a row, and the picture of a second solution."""
    row = {**answer.row, **(more or {})}
    if "other" in row:
        picture = png_of(row["other"].split("/"), row["palette"])
        row["other_png"] = base64.b64encode(picture).decode("ascii")
    return jsonify(row)


def png_of(rows: Sequence[str], palette: Sequence[str]) -> bytes:
    """A picture of letters as PNG, with a pixel for each cell."""
    size = struct.pack(">IIBBBBB", len(rows[0]), len(rows), 8, 3, 0, 0, 0)  # 8 bits, by a palette
    cells = b"".join(bytes([0, *map(LETTERS.index, row)]) for row in rows)
    return PNG + b"".join(
        struct.pack(">I", len(data)) + kind + data + struct.pack(">I", zlib.crc32(kind + data))
        for kind, data in (
            (b"IHDR", size),
            (b"PLTE", bytes.fromhex("".join(palette))),
            (b"IDAT", zlib.compress(cells)),
            (b"IEND", b""),
        )
    )


app = create_app()
