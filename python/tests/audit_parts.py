"""What the tests of nonobench-audit share: small puzzles worked by hand, a folder of their own, and
runs of the program."""

import io
import json
import os
import re
import subprocess
import sys
import tempfile
import time
import unittest
from pathlib import Path

from nonobench.collection.finding import ENDINGS

PATIENCE = 300  # seconds after which what is waited for counts as what does not come
# Processes of a run that names no other number: each costs more than most tests ask of it.
JOBS = "1" if os.environ.get("SHORT") else "2"
# For those of many runs: `make check` says why it leaves them out.
takes_long = unittest.skipIf(os.environ.get("SHORT"), os.environ.get("SHORT"))
ROOT = Path(__file__).resolve().parent.parent.parent
CASES = ROOT / "tests" / "cases"
WHITE, BLACK, RED = (255, 255, 255), (0, 0, 0), (255, 0, 0)
TRIPLES = {".": WHITE, "a": BLACK, "b": RED}
# Black above white, white above red: rows 1a and 1b, columns 1a and 1b. No other picture has these
# clues.
UNIQUE = ("a.", ".b")
# Black on the diagonal, and on the other one: both have a block of 1 in each row and column.
AMBIGUOUS = ("a.", ".a")
OTHER = ".a/a."
GIVEN_CERT = "nonocert 2\ngiven 1 1\nline r 1\nline c 1\nline r 2\ndone\n"
# As in tests/cases/: two certificates of UNIQUE, the second with lemmas, and such ones of AMBIGUOUS
# with a cell given, and with all.
CERT = "nonocert 1\nline r 1\nsplit 1 1\nline c 1\ndead r 2\nline r 1\nline c 1\nline c 2\ndone\n"
LEMMAS = "nonolemma 1\npart 1 1 a\nline r 1\ndead c 2\nline r 1\nline c 1\nline r 2\ndone\n"
GIVEN_LEMMAS = "nonolemma 1\ngiven 1 1\nline r 1\nline c 1\nline r 2\ndone\n"
ALL_LEMMAS = "nonolemma 1\ngiven 1 1\ngiven 1 2\ngiven 2 1\ngiven 2 2\ndone\n"


def p3(rows, background=None):
    """A P3 text of rows of letters."""
    triples = {**TRIPLES, **({".": background} if background else {})}
    cells = "\n".join("%d %d %d" % triples[letter] for row in rows for letter in row)
    return f"P3\n{len(rows[0])} {len(rows)}\n255\n{cells}\n".encode()


def webpbn(rows, title="", more="", kind="grid"):
    """A puzzle in Web Paint-by-Number's XML, of white, black and red cells."""
    image = "".join(
        "|" + "".join({".": ".", "a": "X", "b": "r"}[letter] for letter in row) + "|"
        for row in rows
    )
    return (
        f'<puzzle type="{kind}"><title>{title}</title><color name="red" char="r">f00</color>'
        f'<solution type="goal"><image>{image}</image></solution>{more}</puzzle>'
    )


def chequered(side, colours):
    """A picture with so many solutions, and so many colours on each of its lines, that no search
    ends in time."""
    letters = "abcdefghijklmno"[: colours - 1] + "."
    return [
        "".join(letters[(row + column) % colours] for column in range(side)) for row in range(side)
    ]


def p3_of_letters(rows):
    """A P3 text of rows of letters in colours that differ much."""
    triples = {".": "255 255 255", **{chr(97 + at): f"{40 * at} 0 0" for at in range(7)}}
    cells = "\n".join(triples[letter] for row in rows for letter in row)
    return f"P3 {len(rows[0])} {len(rows)} 255\n{cells}\n".encode()


def image(kind, mode="RGB", pixels=(BLACK, WHITE, WHITE, RED), size=(2, 2), **more):
    """An image as Pillow writes it: by default the picture UNIQUE."""
    from PIL import Image

    made = Image.new(mode, size)
    made.putdata(list(pixels))
    file = io.BytesIO()
    made.save(file, kind, **more)
    return file.getvalue()


def cases_in(name):
    """The cases of a file: lists of lines, each a key and its value."""
    text = (CASES / name).read_text(encoding="utf-8")
    blocks = re.sub(r"(?m)^#.*\n", "", text).strip().split("\n\n")
    return [[line.partition(" ")[::2] for line in block.splitlines()] for block in blocks]


def background_cases():
    """The cases of backgrounds.txt: a name, a PNG, the background that is named or None, and the
    puzzle's with what told it, or why the image is refused."""
    letters = {
        "-": (0, 0, 0, 0),
        "w": (255, 255, 255, 255),
        "k": (0, 0, 0, 255),
        "r": (255, 0, 0, 255),
    }
    for case in map(dict, cases_in("backgrounds.txt")):
        rows = case["rows"].split("/")
        pixels = [letters[letter] for row in rows for letter in row]
        data = image("PNG", "RGBA", pixels, size=(len(rows[0]), len(rows)))
        named = case["named"].encode() if "named" in case else None
        triple, _, why = case.get("background", "0,0,0").partition(" ")
        wanted = "%02x%02x%02x" % tuple(map(int, triple.split(","))), why
        yield case["case"], data, named, wanted, case.get("refused")


class Case(unittest.TestCase):
    """A test in a folder of its own, `self.folder`, with the collection in `self.folder /
    "site"`."""

    def setUp(self):
        folder = tempfile.TemporaryDirectory()
        self.addCleanup(folder.cleanup)
        self.folder = Path(folder.name)
        self.site = self.folder / "site"
        self.site.mkdir()

    def put(self, name, data, folder="site"):
        """A file of the collection, or of another folder."""
        place = self.folder / folder / name
        place.parent.mkdir(parents=True, exist_ok=True)
        place.write_bytes(data if isinstance(data, bytes) else data.encode())
        return place

    def put_for(self, name, folder="site", **parts):
        """What belongs to a puzzle, whatever the rule of names calls it: its certificate, its
        givens or its background."""
        for ending, what in ENDINGS.items():
            if what in parts:
                self.put(name + ending, parts[what], folder)

    def words(self, *words):
        """The command line of a run, apart from the folder that it runs in. Where no bound is
        named, no puzzle is too slow for it."""
        more = [
            *([] if {"unpack", "--seconds"}.intersection(words) else ["--seconds", str(PATIENCE)]),
            *([] if {"unpack", "--jobs"}.intersection(words) else ["--jobs", JOBS]),
        ]
        return [sys.executable, "-m", "nonobench.audit", *map(str, words), *more]

    def env(self, **more):
        return {
            **os.environ,
            "PYTHONPATH": str(ROOT / "python" / "src"),
            "PYTHONDONTWRITEBYTECODE": "1",
            **more,
        }

    def run_audit(self, *words, status=None, cwd=None, input=None, **more):
        """A run: what it printed, what it said, and its status, which is looked at where it is
        given."""
        done = subprocess.run(
            self.words(*words),
            cwd=cwd or self.folder,
            env=self.env(**more),
            capture_output=True,
            input=input,
            text=True,
            check=False,
            timeout=PATIENCE,
        )
        if status is not None:
            self.assertEqual(done.returncode, status, done.stdout + done.stderr)
        return done

    def rows(self, *words, status=None, **more):
        """The rows of a run, by their files."""
        done = self.run_audit(*words, "--jsonl", "rows.jsonl", status=status, **more)
        self.assertNotIn("Traceback", done.stderr)
        return self.read("rows.jsonl")

    def files(self, folder):
        """The paths of the files below a folder."""
        path = self.folder / folder
        return sorted(str(one.relative_to(path)) for one in path.rglob("*") if one.is_file())

    def read(self, name):
        """The rows of a file, by their names."""
        lines = (self.folder / name).read_text().splitlines()
        return {row["file"]: row for row in map(json.loads, lines)}

    def start(self, *words, **more):
        """A run that goes on beside the test."""
        process = subprocess.Popen(
            self.words(*words),
            cwd=self.folder,
            env=self.env(**more),
            stdout=subprocess.PIPE,
            stderr=subprocess.PIPE,
            text=True,
        )
        self.addCleanup(process.wait)
        self.addCleanup(process.kill)
        self.addCleanup(process.stdout.close)
        self.addCleanup(process.stderr.close)
        return process


def eventually(look):
    """What a look answers, once that is true: on a slow machine this takes longer, and does not
    fail."""
    until = time.monotonic() + PATIENCE
    while not (found := look()):
        if time.monotonic() > until:
            raise AssertionError(f"not within {PATIENCE} seconds")
        time.sleep(0.02)
    return found
