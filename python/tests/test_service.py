"""Tests of the service: python3 -m pytest python/tests/test_service.py. They speak HTTP to the
application, and once to a server."""

import base64
import http.client
import io
import json
import os
import re
import shutil
import socket
import subprocess
import sys
import time
from contextlib import contextmanager
from pathlib import Path

import nonobench
import pytest
from audit_parts import background_cases
from nonobench.service import POOL, create_app, png_of
from PIL import Image
from werkzeug.datastructures import MultiDict

EXAMPLES = Path(__file__).resolve().parents[2] / "examples"
NAMES = {file.name for file in EXAMPLES.iterdir()}
CROSS = "P3 2 2 255 0 0 0 200 0 0 200 0 0 0 0 0"  # red on black: there are two
XML = """<puzzle backgroundcolor="black"><color name="black" char=".">000000</color>
<color name="red" char="X">c80000</color><solution type="goal"><image>|.X||X.|</image></solution>
<solution type="saved" id="givens"><image>|?X||??|</image></solution></puzzle>"""


@contextmanager
def served(**limits):
    """A client of an application with one process, which ends with it."""
    app = create_app(PROCESSES=1, **limits)
    try:
        yield app.test_client()
    finally:
        app.extensions[POOL].shutdown()


@pytest.fixture(scope="module")
def client(library):
    with served() as client:
        yield client


def file_of(name):
    return io.BytesIO((EXAMPLES / name).read_bytes()), name


def asked(client, path, **fields):
    """The status of a request, and its answer. A field is a file of the examples, or a text."""
    data = {field: file_of(value) if value in NAMES else value for field, value in fields.items()}
    answer = client.post(path, data=data, content_type="multipart/form-data")
    assert answer.mimetype == "application/json"
    return answer.status_code, answer.get_json()


def row_of(client, path, **fields):
    status, row = asked(client, path, **fields)
    assert status == 200, row
    return row


def test_a_puzzle_is_assessed(client):
    row = row_of(client, "/assess", puzzle="heart.ppm")
    assert (row["file"], row["fit"], row["verdict"]) == ("heart.ppm", True, "unique")
    assert (row["rows"], row["columns"], row["colours"]) == (8, 9, 3)
    assert "certificate_text" not in row and "other_png" not in row


def test_a_second_solution_is_shown(client):
    row = row_of(client, "/assess", puzzle="duck.png")
    assert (row["fit"], row["verdict"]) == (False, "ambiguous")
    picture = Image.open(io.BytesIO(base64.b64decode(row["other_png"]))).convert("RGB")
    other = nonobench.picture_of(*picture.size, picture.getdata())
    duck = nonobench.picture_of_image((EXAMPLES / "duck.png").read_bytes())
    assert other != duck
    assert sorted(nonobench.clues(other).rows) == sorted(nonobench.clues(duck).rows)
    assert nonobench.clues(other) == nonobench.clues(duck)


def test_the_site_names_givens_and_background(client):
    assert not row_of(client, "/assess", puzzle="given.ppm")["fit"]
    row = row_of(client, "/assess", puzzle="given.ppm", givens="given 1 1\n")
    assert (row["fit"], row["givens"]) == (True, [[1, 1]])
    row = row_of(client, "/assess", puzzle="moon.ppm", background="moon.ppm.background")
    assert (row["verdict"], row["background"]) == ("ambiguous", "000028")
    row = row_of(client, "/assess", puzzle=CROSS, background="0,0,0")
    assert (row["file"], row["verdict"]) == ("puzzle", "ambiguous")


def test_backgrounds(client):
    """The cases of the audit."""
    for name, data, named, wanted, refused in background_cases():
        files = {"puzzle": (io.BytesIO(data), "one.png")}
        if named:
            files["background"] = named.decode()
        row = client.post("/assess", data=files, content_type="multipart/form-data").get_json()
        if refused:
            assert f"the image is refused: {refused} (" in row["error"], name
        else:
            assert (row["background"], row["background_from"]) == wanted, name


def test_what_a_strangers_xml_names_is_not_believed(client):
    row = row_of(client, "/assess", puzzle=XML)
    assert (row["verdict"], row["fit"]) == ("error", False)
    assert row["error"] == "its background 0,0,0 is not believed: name it"
    row = row_of(client, "/assess", puzzle=XML, background="0,0,0")
    assert "givens" not in row and row["ignored"] == ["givens in the XML"]
    row = row_of(client, "/assess", puzzle=XML, background="0,0,0", givens="given 1 2\n")
    assert (row["verdict"], row["background"], row["givens"]) == ("unique", "000000", [[1, 2]])


def test_a_certificate_is_checked(client):
    pair = {"puzzle": "given.ppm", "certificate": "given.ppm.cert"}
    row = row_of(client, "/check", **pair, givens="given.ppm.givens")
    assert (row["fit"], row["certificate"]) == (True, {"accepted": True, "givens": [[1, 1]]})
    row = row_of(client, "/check", **pair)
    assert not row["fit"] and "UnpublishedGiven" in row["error"]
    assert not row_of(client, "/check", puzzle="heart.ppm")["fit"]  # without one


def test_a_certificate_is_made(client):
    row = row_of(client, "/prove", puzzle="heart.ppm")
    certificate, picture = row["certificate_text"], (EXAMPLES / "heart.ppm").read_bytes()
    assert str(nonobench.check(picture, certificate.encode())) == "certificate accepted\n"
    assert "certificate_text" not in row_of(client, "/prove", puzzle="given.ppm")


def test_what_is_no_puzzle_has_a_row_too(client):
    row = row_of(client, "/assess", puzzle="diagonal.ppm.cert")
    assert (row["fit"], row["verdict"]) == (False, "error") and row["error"]


def test_requests_without_a_row(client, library):
    assert asked(client, "/assess") == (400, {"error": "the form has no puzzle"})
    assert asked(client, "/assess", puzzle="") == (400, {"error": "the form has no puzzle"})
    status, answer = asked(client, "/assess", puzzle="heart.ppm", cert="given.ppm.cert")
    assert (status, "no field 'cert'" in answer["error"]) == (400, True)
    twice = MultiDict([("puzzle", CROSS), ("givens", "given 1 1\n"), ("givens", "")])
    answer = client.post("/assess", data=twice, content_type="multipart/form-data")
    wanted = {"error": "the form has the field 'givens' 2 times"}
    assert (answer.status_code, answer.get_json()) == (400, wanted)
    for path, method, status in (("/assess", "get", 405), ("/", "get", 404)):
        answer = getattr(client, method)(path)
        assert (answer.status_code, list(answer.get_json())) == (status, ["error"])
    assert client.post("/assess", headers={"Transfer-Encoding": "chunked"}).status_code == 411
    with served(MAX_CONTENT_LENGTH=1000) as small:
        assert asked(small, "/assess", puzzle=CROSS)[0] == 200
        assert asked(small, "/assess", puzzle="heart.ppm", givens=" " * 1000)[0] == 413


def test_limits(library, monkeypatch):
    """By the environment, as a server has it."""
    monkeypatch.setenv("NONOBENCH_WAIT", "0")
    monkeypatch.setenv("NONOBENCH_ALLOW_FLAWS", '["alike"]')
    with served() as client:
        assert client.application.config["ALLOW_FLAWS"] == ["alike"]
        status, answer = asked(client, "/assess", puzzle="heart.ppm")
        assert (status, list(answer)) == (503, ["error"])


@pytest.mark.parametrize(
    "name, value, said",
    [
        ("SECONDS", "0", "seconds must be a whole number from 1 to 1000000, not 0"),
        ("SECONDS", "ten", "not 'ten'"),
        ("MEMORY", "1.5", "memory must be a whole number from 64"),
        ("PROCESSES", "0", "PROCESSES must be a whole number from 1 to 4096, not 0"),
        ("WAIT", "-1", "WAIT must be a whole number from 0"),
        ("MAX_CONTENT_LENGTH", "null", "MAX_CONTENT_LENGTH must be a whole number from 1"),
        ("MAX_GUESSES", "true", "max_guesses must be a whole number from 0 to 99999"),
        ("BACKGROUND", "blue", "background must be auto, white, or R,G,B, not 'blue'"),
        ("ALLOW_FLAWS", "alike", "ALLOW_FLAWS must be a list, not 'alike'"),
        ("ALLOW_FLAWS", '["like"]', "allowed must be of blank, background, given, alike, any"),
    ],
)
def test_a_wrong_limit_is_refused_at_the_start(monkeypatch, name, value, said):
    monkeypatch.setenv(f"NONOBENCH_{name}", value)
    with pytest.raises(ValueError, match=re.escape(said)):
        create_app()


def test_health(client):
    assert client.get("/health").get_json() == {"version": nonobench.version()}


def test_a_picture_as_png():
    image = Image.open(io.BytesIO(png_of(["a.b", "..a"], ["ffffff", "c80000", "000028"])))
    red, white, blue = (200, 0, 0), (255, 255, 255), (0, 0, 40)
    assert list(image.convert("RGB").getdata()) == [red, white, blue, white, white, red]


@pytest.fixture
def server(library, tmp_path):
    """The port of a server whose master loads the application, and forks."""
    if not shutil.which("gunicorn"):
        pytest.skip("there is no gunicorn")
    with socket.socket() as free:
        free.bind(("127.0.0.1", 0))
        port = free.getsockname()[1]
    begin = [sys.executable, shutil.which("gunicorn"), "--preload", "--threads", "2"]
    process = subprocess.Popen(
        [*begin, "--bind", f"127.0.0.1:{port}", "nonobench.service:app"],
        cwd=tmp_path,
        env={**os.environ, "NONOBENCH_PROCESSES": "1"},
        stderr=subprocess.DEVNULL,
    )
    yield port
    process.terminate()
    assert process.wait(60) == 0


def answered(port, method, path, *words):
    """The answer of a server, once it is there."""
    for _ in range(600):
        connection = http.client.HTTPConnection("127.0.0.1", port, timeout=60)
        try:
            connection.request(method, path, *words)
            return json.loads(connection.getresponse().read())
        except ConnectionRefusedError:
            time.sleep(0.1)
        finally:
            connection.close()
    raise AssertionError("the server did not begin")


def test_by_a_server(server):
    fields = {"puzzle": CROSS, "background": "0,0,0"}
    form = "".join(
        f'--x\r\nContent-Disposition: form-data; name="{field}"\r\n\r\n{text}\r\n'
        for field, text in fields.items()
    )
    kind = {"Content-Type": "multipart/form-data; boundary=x"}
    assert answered(server, "GET", "/health") == {"version": nonobench.version()}
    for _ in range(2):
        row = answered(server, "POST", "/assess", form + "--x--\r\n", kind)
        assert (row["verdict"], row["fit"]) == ("ambiguous", False)
