"""Tests of files of every kind as puzzles, for whoever has their bytes.

Puzzles and what is expected of them are worked by hand. Pillow and defusedxml are needed.
"""

import os
import subprocess
import sys
import unittest
from pathlib import Path

sys.path.insert(0, str(Path(__file__).resolve().parent))
from audit_parts import AMBIGUOUS, BLACK, RED, ROOT, UNIQUE, WHITE, image, p3, webpbn  # noqa: E402

from PIL.PngImagePlugin import PngInfo  # noqa: E402

import nonobench  # noqa: E402
from nonobench import Given, Puzzle, Ruling  # noqa: E402
from nonobench.collection import Question, judge  # noqa: E402

# Two rows and columns with a block of 1 each: both diagonals have these clues. Then with a goal.
CLUES = b"width 2\nheight 2\nrows\n1\n1\ncolumns\n1\n1\n"
GOAL = CLUES + b'goal "1001"\n'
# A row of two black cells: no other picture has its clues.
ROW = b"width 2\nheight 1\nrows\n2\ncolumns\n1\n1\n"
SAVED = '<solution type="saved" id="givens"><image>|X?||??|</image></solution>'
CLUED = (
    '<puzzle backgroundcolor="blue" defaultcolor="red"><color name="blue">00f</color>'
    '<color name="red">f00</color><clues type="rows"><line><count>2</count></line></clues>'
    '<clues type="columns"><line><count>1</count></line><line><count>1</count></line></clues>'
    "</puzzle>"
)


def cells_of(puzzle):
    """The colours of a puzzle's cells."""
    samples = list(map(int, puzzle.picture.split()[4:]))
    return list(zip(samples[::3], samples[1::3], samples[2::3]))


class Puzzles(unittest.TestCase):
    """The puzzles of a file."""

    def one(self, data, *background):
        """The only puzzle of a file."""
        (puzzle,) = nonobench.puzzles_of(data, *background)
        return puzzle

    def test_pictures(self):
        """A P3 text stays as it is, also one that the calls refuse."""
        for text in (p3(UNIQUE), b"P3 1 1 1 2 0 0"):
            self.assertEqual(self.one(text), Puzzle(text))
        self.assertEqual(self.one(p3(UNIQUE), BLACK), Puzzle(p3(UNIQUE), BLACK))
        cells = [BLACK, WHITE, WHITE, RED]
        png = self.one(image("PNG"))
        self.assertEqual((cells_of(png), png[1:]), (cells, (WHITE, (), "")))
        # No cell is white, and the corners agree.
        dark = self.one(image("PNG", pixels=[BLACK] * 4 + [RED] + [BLACK] * 4, size=(3, 3)))
        self.assertEqual(dark.background, BLACK)
        grey = self.one(b"P2 2 1 255 0 255")
        self.assertEqual((cells_of(grey), grey.background), ([BLACK, WHITE], WHITE))

    def test_non(self):
        """A text with a goal has its picture, and one without has a picture with its clues."""
        cells = [BLACK, WHITE, WHITE, BLACK]
        self.assertEqual(cells_of(self.one(GOAL)), cells)
        self.assertEqual(self.one(GOAL)[1:], (None, (), ""))
        self.assertIn(cells_of(self.one(CLUES)), (cells, cells[2:] + cells[:2]))
        self.assertEqual(cells_of(self.one(b'title "a"\n' + ROW)), [BLACK, BLACK])

    def test_xml(self):
        puzzle = self.one(webpbn(AMBIGUOUS, "A &lt;b&gt; title", SAVED).encode())
        self.assertEqual(cells_of(puzzle), [BLACK, WHITE, WHITE, BLACK])
        self.assertEqual(puzzle[1:], (WHITE, (Given(1, 1),), "A <b> title"))
        several = f"<puzzleset>{webpbn(UNIQUE, 'One')}{webpbn(UNIQUE, 'Two')}</puzzleset>"
        titles = [one.title for one in nonobench.puzzles_of(several.encode())]
        self.assertEqual(titles, ["One", "Two"])
        # Clues alone, in two colours.
        clued = self.one(CLUED.encode())
        self.assertEqual((cells_of(clued), clued.background), ([RED, RED], (0, 0, 255)))
        self.assertEqual(
            self.one(webpbn(UNIQUE).encode(), (1, 2, 3)).background,
            (1, 2, 3),
        )

    def test_other_calls_take_them(self):
        (puzzle,) = nonobench.puzzles_of(webpbn(AMBIGUOUS, more=SAVED).encode())
        words = {"background": puzzle.background, "published": puzzle.givens}
        self.assertTrue(nonobench.assess(puzzle.picture, **words).is_fit)
        certificate = b"nonocert 2\ngiven 1 1\nline r 1\nline c 1\nline r 2\ndone\n"
        said = nonobench.check(puzzle.picture, certificate, **words)
        self.assertEqual(said.givens, puzzle.givens)
        with nonobench.Worker(seconds=300) as worker:
            self.assertEqual(worker.puzzles_of(CLUES), nonobench.puzzles_of(CLUES))

    def test_what_is_refused(self):
        none = b"width 1\nheight 1\nrows\n1\ncolumns\n0\n"  # no picture has these clues
        for data, kind, why in (
            (b"", nonobench.ImageError, "this is no image"),
            (b"GIF89a\nrows\n", nonobench.ImageError, "this is GIF"),
            (image("PNG")[:-9], nonobench.ImageError, "damaged"),
            (b"\xff\xfea", nonobench.UnreadableError, "it is UTF-16: save it as UTF-8"),
            (b"<puzzle>", nonobench.UnreadableError, "the XML cannot be read"),
            (b"<puzzleset/>", nonobench.UnreadableError, "the XML has no puzzle"),
            (b"width 1\n", nonobench.PictureError, "non MissingSize"),
            (none, nonobench.NonobenchError, "no picture has these clues"),
            (b" " * 16777217, nonobench.LengthError, "input too long"),
        ):
            with self.subTest(data[:20]), self.assertRaises(kind) as caught:
                nonobench.puzzles_of(data)
            self.assertIn(why, str(caught.exception))
            self.assertIsInstance(caught.exception, nonobench.NonobenchError)
        with self.assertRaisesRegex(ValueError, "^background must be a triple"):
            nonobench.puzzles_of(p3(UNIQUE), (1, 2))
        with self.assertRaises(TypeError):
            nonobench.puzzles_of("P3")

    def test_a_library_that_is_missing(self):
        """That is no fault of the file."""
        code = (
            "import sys; sys.modules[sys.argv[1]] = None\nimport nonobench\n"
            "try: nonobench.puzzles_of(sys.stdin.buffer.read())\n"
            "except ImportError as error: print(error)"
        )
        for module, library, data in (
            ("PIL", "Pillow, which reads PNG", image("PNG")),
            ("defusedxml", "defusedxml, which reads XML", webpbn(UNIQUE).encode()),
        ):
            done = subprocess.run(
                [sys.executable, "-c", code, module],
                input=data,
                env={**os.environ, "PYTHONPATH": str(ROOT / "python" / "src")},
                stdout=subprocess.PIPE,
                check=True,
            )
            self.assertTrue(done.stdout.decode().startswith(f"{library}, is not installed"))


class NonTexts(unittest.TestCase):
    """A .non text is recognised, whatever takes it."""

    def test_calls(self):
        clues = nonobench.clues(ROW)
        self.assertEqual(str(clues), "r 1: 2a\nc 1: 1a\nc 2: 1a\n")
        self.assertEqual(nonobench.verdict(CLUES).ruling, Ruling.AMBIGUOUS)
        self.assertEqual(nonobench.verdict(ROW).ruling, Ruling.UNIQUE)
        self.assertIsNone(nonobench.certify(GOAL))
        self.assertEqual(nonobench.certify(ROW), b"nonocert 1\nline r 1\ndone\n")
        self.assertEqual(nonobench.audit(CLUES).verdict.ruling, Ruling.AMBIGUOUS)
        self.assertTrue(nonobench.assess(GOAL, published=[(1, 1)]).is_fit)
        for call in (nonobench.clues, nonobench.verdict, nonobench.certify, nonobench.assess):
            with self.assertRaisesRegex(ValueError, "^background goes with a P3 text$"):
                call(GOAL, background=BLACK)
        # A word says which it is.
        with self.assertRaisesRegex(nonobench.PictureError, "^ppm NotP3 at byte 0$"):
            nonobench.assess(GOAL, non=False)
        with self.assertRaisesRegex(nonobench.PictureError, "^non MissingSize$"):
            nonobench.assess(p3(UNIQUE), non=True)
        with self.assertRaisesRegex(nonobench.PictureError, "^ppm BadNumber at byte 3$"):
            nonobench.verdict(b"P3\nrows\n")

    def test_an_audit(self):
        """Without an ending in its name, too; an image stays one."""
        for name in ("from a database", "x.non", "x.ppm"):
            row = judge([Question(name, CLUES)])[0].row
            self.assertEqual((row["verdict"], row["background"]), ("ambiguous", "ffffff"))
        words = PngInfo()
        words.add_text("Comment", "a\ntitle b\n")
        row = judge([Question("x", image("PNG", pnginfo=words))])[0].row
        self.assertEqual(row["verdict"], "unique")
        self.assertIn("non MissingSize", judge([Question("x.non", b"junk")])[0].row["error"])


if __name__ == "__main__":
    unittest.main()
