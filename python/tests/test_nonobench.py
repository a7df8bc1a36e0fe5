"""Tests of the package: cd python && python3 -m unittest tests/test_nonobench.py. Those of `Worker`
are in test_worker.py.

What is expected stands in tests/cases/, or follows from docs/SESSION.md by hand. With
NONOBENCH=program, 1,000 cases by chance (CASES=number) are compared with what the program prints;
the seed is 1 (SEED=number).
"""

import importlib
import os
import pickle
import random
import re
import subprocess
import tempfile
import threading
import unittest
from pathlib import Path

import nonobench
from nonobench import (
    ANY_GIVEN,
    Block,
    CertificateError,
    Given,
    GivensError,
    ImageError,
    LengthError,
    PictureError,
    Ruling,
    UnpublishedGivenError,
    _answers,
)

ROOT = Path(__file__).resolve().parent.parent.parent
# Two rows, black and white, white and black: another picture has the clues, and a given decides it.
DIAGONAL = b"P3 2 2 255 0 0 0 255 255 255 255 255 255 0 0 0\n"
GIVEN = b"nonocert 2\ngiven 1 1\nline r 1\nline c 1\nline r 2\ndone\n"
TRIPLES = {".": (255, 255, 255), "a": (0, 0, 0), "b": (255, 0, 0)}
ESCAPES = {"n": 10, "t": 9, "r": 13, "v": 11, "f": 12, "a": 7, "b": 8, "e": 27, "\\": 92}


def bytes_of(text):
    """The bytes of a text as printf reads it."""
    found = re.split(r"(\\(?:x[0-9a-fA-F]{1,2}|[0-7]{1,3}|.))", text)
    made = b""
    for part in found:
        if part[:1] != "\\" or len(part) == 1:
            made += part.encode()
        elif part[1] in ESCAPES:
            made += bytes([ESCAPES[part[1]]])
        else:
            made += bytes([int(part[2:], 16) if part[1] == "x" else int(part[1:], 8)])
    return made


def cases(name):
    """What is asked, and what has to come."""
    for line in (
        (ROOT / "tests" / "cases" / f"{name}.case").read_text(encoding="utf-8").splitlines()
    ):
        if line and not line.startswith("#"):
            asked, _, answer = line.rpartition(" => ")
            yield asked, answer


def places_of(word):
    """The cells of a word of cases, which may be - for none."""
    return tuple(Given(*map(int, place.split(","))) for place in word.split(";") if place != "-")


def picture_of(rows):
    """The picture of a shorthand: its rows, with / between them."""
    lines = rows.split("/")
    return nonobench.picture_of(
        len(lines[0]), len(lines), [TRIPLES[cell] for line in lines for cell in line]
    )


def answer_of(call):
    """What a call answers, as the program tells it: standard output, what is said, status."""
    try:
        return str(call()), "", 0
    except nonobench.NonobenchError as error:
        return "", f"nonobench: {error.text}\n", 1


def givens_of(call):
    """The givens that an answer names, whether they are published or not."""
    try:
        return call().givens
    except UnpublishedGivenError as error:
        return error.givens
    except nonobench.NonobenchError:
        return ()


class Cases(unittest.TestCase):
    """The lines of tests/cases/."""

    def compare(self, asked, answer, call):
        wrote = answer.replace(" | ", "\n") + "\n"
        wanted = (
            ("", f"nonobench: {answer[2:]}\n", 1) if answer.startswith("! ") else (wrote, "", 0)
        )
        with self.subTest(asked):
            self.assertEqual(answer_of(call), wanted)

    def test_pictures(self):
        for asked, answer in cases("pictures"):
            self.compare(asked, answer, lambda text=bytes_of(asked): nonobench.clues(text))

    def test_certificates(self):
        for name in ("certificates", "lemmas"):
            count = 0
            for asked, answer in cases(name):
                rows, _, text = asked.partition(" ")
                self.compare(
                    asked,
                    answer,
                    lambda pair=(picture_of(rows), bytes_of(text)): nonobench.check(
                        *pair, published=ANY_GIVEN
                    ),
                )
                count += 1
            self.assertGreater(count, 40)

    def test_published(self):
        count = 0
        for asked, answer in cases("published"):
            (rows, published, text), (givens, _, answer) = asked.split(" ", 2), answer.partition(
                " "
            )
            pair = picture_of(rows), bytes_of(text)
            places = ANY_GIVEN if published == "any" else places_of(published)
            self.compare(asked, answer, lambda: nonobench.check(*pair, published=places))
            with self.subTest(asked):
                self.assertEqual(
                    givens_of(lambda: nonobench.check(*pair, published=places)), places_of(givens)
                )
            count += 1
        self.assertGreater(count, 20)


class Answers(unittest.TestCase):
    """Rows that were worked by hand."""

    def test_check(self):
        result = nonobench.check(DIAGONAL, GIVEN, published=[(1, 1)])
        self.assertEqual(result.givens, (Given(1, 1),))

        class Longer(bytes):
            """Bytes that tell another length."""

            def __bytes__(self):
                return self

            def __len__(self):
                return 1 << 20

        self.assertEqual(
            nonobench.check(Longer(DIAGONAL), Longer(GIVEN), published=[(1, 1)]), result
        )
        said = nonobench.check(
            bytearray(DIAGONAL), memoryview(GIVEN), published=iter([(2, 2), [1, 1]])
        )
        self.assertEqual(str(said), "certificate accepted, givens 1\n")
        with self.assertRaises(UnpublishedGivenError) as caught:
            nonobench.check(DIAGONAL, GIVEN)
        self.assertEqual((caught.exception.name, caught.exception.line), ("UnpublishedGiven", 2))
        self.assertEqual(
            nonobench.check(DIAGONAL, GIVEN, published=b"given 2 2\ngiven 1 1").givens, ((1, 1),)
        )
        for published, name, line in (
            ([(1, 1), (3, 1)], "Place", 2),
            ([(1, 1)] * 2, "Repeated", 2),
            ([(-1, 1)], "BadLine", 1),
            (b"given 1 1\n\n", "BadLine", 2),
            (b"given 1 1\r\r\n", "BadLine", 1),
        ):
            with self.subTest(published), self.assertRaisesRegex(
                GivensError, f"^givens {name} at line {line}$"
            ) as refused:
                nonobench.check(DIAGONAL, GIVEN, published=published)
            self.assertEqual((refused.exception.name, refused.exception.line), (name, line))
        again = pickle.loads(pickle.dumps(caught.exception))
        self.assertEqual(
            (again.givens, str(again)), (((1, 1),), "certificate UnpublishedGiven at line 2")
        )
        with self.assertRaises(CertificateError) as caught:
            nonobench.check(DIAGONAL, b"nonocert 1\nline r 3\n")
        self.assertEqual((caught.exception.name, caught.exception.line), ("Place", 2))
        with self.assertRaises(PictureError) as caught:
            nonobench.check(b"P3 1 1 1 0 0 2", b"")
        self.assertEqual((caught.exception.name, caught.exception.byte), ("SampleOver", 13))
        self.assertEqual(str(caught.exception), "ppm SampleOver at byte 13")

    def test_errors(self):
        """Each is a NonobenchError, a ValueError, with its name and place, also as a copy."""
        clues = b"width 1\nheight 1\nrows\n1\ncolumns\n1\n"
        long = b" " * 16777217
        for call, kind, *told in (
            (lambda: nonobench.clues(b"P3 1 1 1 0 0 2"), PictureError, "SampleOver", 13, None),
            (lambda: nonobench.assess(clues, non=True), PictureError, "NoGoal", None, None),
            (lambda: nonobench.check(DIAGONAL, b""), CertificateError, "NotCert", None, 1),
            (
                lambda: nonobench.check(DIAGONAL, GIVEN),
                UnpublishedGivenError,
                "UnpublishedGiven",
                None,
                2,
            ),
            (
                lambda: nonobench.check(DIAGONAL, GIVEN, published=[(1, 3)]),
                GivensError,
                "Place",
                None,
                1,
            ),
            (lambda: nonobench.clues(long), LengthError, "TooLong", None, None),
            (lambda: nonobench.picture_of_image(b"GIF89a"), ImageError, "not read", None, None),
        ):
            with self.subTest(kind), self.assertRaises(ValueError) as caught:
                call()
            for error in (caught.exception, pickle.loads(pickle.dumps(caught.exception))):
                self.assertIs(type(error), kind)
                self.assertIsInstance(error, nonobench.NonobenchError)
                self.assertEqual([error.name, error.byte, error.line], told)
                self.assertEqual(str(error), error.text)

    def test_clues(self):
        clues = nonobench.clues(b"P3 3 1 2 1 0 0 0 1 0 0 1 0")
        self.assertEqual(clues.rows, ((Block(1, "a"), Block(2, "b")),))
        self.assertEqual(clues.columns, ((Block(1, "a"),), (Block(1, "b"),), (Block(1, "b"),)))
        self.assertEqual(nonobench.clues(b"P3 1 1 1 0 0 0", (0, 0, 0)).rows, ((),))

    def test_palette(self):
        """The background first, also where no cell has it; the others as they first appear."""
        picture, inks = b"P3 3 1 999 9 0 999 1 2 3 0 0 0", [(9, 0, 999), (1, 2, 3), (0, 0, 0)]
        for background, colours in (
            (None, [(999, 999, 999), *inks]),
            (inks[1], [inks[1], inks[0], inks[2]]),
        ):
            wanted = list(zip(".abc", colours))
            for call in (nonobench.clues, nonobench.verdict, nonobench.assess):
                self.assertEqual(list(call(picture, background=background).palette.items()), wanted)
            audit = nonobench.audit(picture, background=background)
            self.assertEqual(list(audit.verdict.palette.items()), wanted)
        puzzle = b"width 1\nheight 1\nrows\n1\ncolumns\n1\n"
        self.assertEqual(nonobench.clues(puzzle).palette, {".": (255, 255, 255), "a": (0, 0, 0)})
        same = nonobench.verdict(b"P3 1 1 1 0 0 0"), nonobench.verdict(b"P3 1 1 9 0 0 0")
        self.assertEqual(same[0], same[1], "palettes are not compared")

    def test_verdict(self):
        verdict = nonobench.verdict(DIAGONAL)
        self.assertEqual((verdict.ruling, verdict.other), (Ruling.AMBIGUOUS, (".a", "a.")))
        self.assertEqual(nonobench.verdict(b"P3 1 1 1 0 0 0", allowance=0).ruling, Ruling.UNIQUE)
        self.assertEqual(nonobench.verdict(DIAGONAL, 99999, (0, 0, 0)).ruling, Ruling.AMBIGUOUS)

    def test_certify_and_audit(self):
        tile, pair = b"P3 1 1 1 0 0 0", picture_of("ab/.b")
        for picture in (tile, pair):
            certificate = nonobench.certify(picture)
            self.assertEqual(nonobench.check(picture, certificate).givens, ())
            audit = nonobench.audit(picture, allowance=5)
            self.assertEqual(
                (audit.verdict, audit.certificate), (nonobench.Verdict(Ruling.UNIQUE), certificate)
            )
        self.assertIsNone(nonobench.certify(DIAGONAL))
        audit = nonobench.audit(DIAGONAL)
        self.assertEqual(
            (audit.verdict.ruling, audit.verdict.other, audit.certificate),
            (Ruling.AMBIGUOUS, (".a", "a."), None),
        )
        # By its background this picture has no cell that is filled in.
        self.assertEqual(nonobench.audit(tile, background=(0, 0, 0)).verdict.ruling, Ruling.UNIQUE)
        for call in (nonobench.certify, nonobench.audit):
            with self.assertRaisesRegex(PictureError, "^ppm NotP3 at byte 0$"):
                call(b"P4")
        with self.assertRaises(ValueError):
            nonobench.audit(tile, -1)

    def test_prove(self):
        tile, pair = b"P3 1 1 1 0 0 0", picture_of("a./.b")
        for picture in (tile, pair):
            proved = nonobench.prove(picture)
            self.assertEqual(
                (proved.ruling, proved.certificate[:12]), (Ruling.UNIQUE, b"nonolemma 2\n")
            )
            self.assertEqual(
                str(nonobench.check(picture, proved.certificate)), "certificate accepted\n"
            )
        self.assertEqual(nonobench.prove(DIAGONAL), nonobench.Proved(Ruling.AMBIGUOUS))
        # Nothing proves a picture that has another one: not the certificate of another picture, nor
        # lines of its own.
        for text in (nonobench.prove(pair).certificate, b"nonolemma 2\nline r1 c1 r2 c2\ndone\n"):
            with self.assertRaises(CertificateError):
                nonobench.check(DIAGONAL, text, published=ANY_GIVEN)
        with self.assertRaises(UnpublishedGivenError) as caught:
            nonobench.check(DIAGONAL, b"nonolemma" + b" 1" + GIVEN[10:])
        self.assertEqual((caught.exception.line, caught.exception.givens), (2, ((1, 1),)))
        # By its background this picture has no cell that is filled in.
        self.assertEqual(nonobench.prove(tile, (0, 0, 0)).ruling, Ruling.UNIQUE)
        with self.assertRaisesRegex(PictureError, "^ppm NotP3 at byte 0$"):
            nonobench.prove(b"P4")
        for wrong in ({"background": (1, 2)}, {"format": 3}, {"published": ANY_GIVEN}):
            with self.assertRaises(ValueError):
                nonobench.prove(tile, **wrong)
        for published in ((), b" " * 16777217):
            with self.assertRaises(LengthError):
                nonobench.check(tile, b"" if published else b" " * 16777217, published=published)

    def test_path(self):
        """By hand, as in tests/sessions/path.out: the diagonal with its first cell given."""
        looks = nonobench.path(DIAGONAL, published=[(1, 1)]).looks
        self.assertEqual(
            looks,
            (
                ("r", 1, 1, 1, ((2, "."),), True, ((1, "a"),)),
                ("c", 1, 1, 1, ((2, "."),), True, ((1, "a"),)),
                ("c", 2, 1, 1, ((2, "a"),), False, ((1, "."),)),
            ),
        )
        self.assertEqual(nonobench.path(DIAGONAL), nonobench.SolvingPath((), 4))
        with self.assertRaises(TypeError):
            nonobench.path(DIAGONAL, published=b"given 1 1\n")
        with self.assertRaises(nonobench.NonobenchError):
            nonobench.path(DIAGONAL, published=[(3, 1)])

    def test_prove_with_published_cells(self):
        """The diagonal has one solution with its first cell given. The certificate names just
        that."""
        for published in ([(1, 1)], b"given 1 1\n"):
            for how in ({}, {"format": 1}, {"complete": True}):
                proved = nonobench.prove(DIAGONAL, published=published, **how)
                self.assertIs(proved.ruling, Ruling.UNIQUE)
                result = nonobench.check(DIAGONAL, proved.certificate, published=published)
                self.assertEqual(result.givens, ((1, 1),))
        with self.assertRaisesRegex(GivensError, "^givens Place at line 2$"):
            nonobench.prove(DIAGONAL, published=[(1, 1), (1, 3)])

    def test_as_many_givens_as_the_largest_picture_has_cells(self):
        """More of them are not looked at: no right certificate names more, and a wrong one is
        refused as before."""
        whole, head = picture_of("/".join(["a." * 60] * 120)), b"nonolemma 1\n"
        cells = tuple((row, column) for row in range(1, 121) for column in range(1, 121))
        lines = b"".join(b"given %d %d\n" % cell for cell in cells)
        self.assertTrue(
            nonobench.assess(whole, head + lines + b"done\n", published=ANY_GIVEN).named == cells
        )
        for more in (b"given 1 1\n", b"given 121 1\n"):
            wrong = head + lines + more * 9 + b"done\n"
            with self.assertRaises(CertificateError) as caught:
                nonobench.check(whole, wrong, published=ANY_GIVEN)
            with self.assertRaisesRegex(CertificateError, f"^{caught.exception}$"):
                nonobench.assess(whole, wrong, published=ANY_GIVEN)
        self.assertEqual(len(_answers.givens_of(head + b"given 1 1\n" * 14401)), 14400)

    def test_what_is_wrong_with_givens_of_clues_is_told_of_them(self):
        """Of a .non text, whichever givens a certificate names: the puzzle itself is right."""
        clues = b'width 2\nheight 1\nrows\n1\ncolumns\n1\n0\ngoal "10"\n'
        self.assertTrue(nonobench.assess(clues, non=True).is_fit)
        for lines, why in (
            (b"given 9 9\n", "Place at line 1"),
            (b"given 1 1\n" * 2, "Repeated at line 2"),
        ):
            with self.assertRaisesRegex(GivensError, f"^givens {why}$"):
                nonobench.assess(
                    clues, b"nonocert 2\n" + lines + b"done\n", published=ANY_GIVEN, non=True
                )

    def test_certificates_with_a_byte_changed(self):
        source, picture, count = random.Random(1), picture_of("a./.b"), 0
        right = nonobench.prove(picture).certificate
        for at in range(len(right)):
            text = (
                right[:at] + source.choice([b"", b" ", b"0", b"7", b"x", b"\n\n"]) + right[at + 1 :]
            )
            try:
                self.assertEqual(nonobench.check(picture, text).givens, ())
            except CertificateError:
                count += 1
            with self.assertRaises(CertificateError):
                nonobench.check(DIAGONAL, text, published=ANY_GIVEN)
        self.assertGreater(count, len(right) // 2)

    def test_the_call_stays_where_the_module_is_imported(self):
        # `python3 -m nonobench.audit` has the name of a call.
        self.assertIs(importlib.import_module("nonobench.audit"), nonobench.audit)
        self.assertEqual(nonobench.audit(DIAGONAL).verdict.ruling, Ruling.AMBIGUOUS)

    def test_undecided(self):
        # As in tests/sessions/allowance.out.
        for call in (nonobench.verdict, lambda *asked: nonobench.audit(*asked).verdict):
            self.assertEqual(call(DIAGONAL, 0).ruling, Ruling.UNDECIDED)
            self.assertEqual(call(DIAGONAL, 1).ruling, Ruling.AMBIGUOUS)
        self.assertIsNone(nonobench.audit(DIAGONAL, 0).certificate)

    def test_bad_input(self):
        for file in (None, "P3", 5, ["P3"]):
            with self.assertRaises(TypeError):
                nonobench.clues(file)
        for background in (
            (-1, 0, 0),
            (0, 0, 65536),
            (1, 2),
            (1, 2, 3, 4),
            "0,0,0",
            (0.0, 0, 0),
            ("0", "0", "0"),
            5,
            (10**5000, 0, 0),
            b"fff",
        ):
            with self.assertRaisesRegex(
                ValueError, "^background must be a triple of numbers from 0 to 65535$"
            ):
                nonobench.check(DIAGONAL, GIVEN, background, ANY_GIVEN)
        for published in (
            "11",
            "1,1",
            [1, 1],
            [(1,)],
            [(1, 1, 1)],
            5,
            [(1, "1")],
            [(1.0, 1)],
            [(1, 10**5000)],
        ):
            with self.assertRaisesRegex(
                TypeError,
                "^published must be pairs of row and column, a file's bytes, or ANY_GIVEN$",
            ):
                nonobench.check(DIAGONAL, GIVEN, published=published)
        for allowance, name in (("5", "str"), (5.0, "float"), ([], "list")):
            with self.assertRaisesRegex(
                TypeError, f"^allowance must be a whole number, not {name}$"
            ):
                nonobench.verdict(DIAGONAL, allowance)
        with self.assertRaisesRegex(TypeError, "^non must be True or False, not str$"):
            nonobench.assess(DIAGONAL, non="non")
        for allowance in (-1, 100000):
            with self.assertRaises(ValueError):
                nonobench.verdict(DIAGONAL, allowance)
        with self.assertRaises(LengthError):
            nonobench.clues(b" " * 16777217)
        with self.assertRaisesRegex(PictureError, "^ppm NotP3 at byte 0$"):
            nonobench.clues(b"")
        for columns, rows, cell, maxval in (
            (2, 2, (0, 0, 0), 255),
            (1, 1, (0, 0, 256), 255),
            (1, 1, (0, -1, 0), 255),
            (1, 1, (4, 5, 70000), 65535),
            (1, 1, (1, 2), 255),
            (1, 1, (1, 2, 3, 4), 255),
        ):
            with self.subTest((columns, rows, cell)), self.assertRaisesRegex(
                ValueError, f"^{columns} by {rows} cells need "
            ):
                nonobench.picture_of(columns, rows, [cell], maxval)
        self.assertRaises(ValueError, nonobench.picture_of, 0, 5, [])
        for name, words in (
            ("columns", (121, 1)),
            ("columns", (-1, -1)),
            ("columns", (True, 1)),
            ("rows", (1, 1.0)),
            ("maxval", (1, 1, 0)),
            ("maxval", (1, 1, 65536)),
            ("maxval", (1, 1, 255.0)),
        ):
            columns, rows, *maxval = words
            with self.subTest(words), self.assertRaisesRegex(
                (TypeError, ValueError), f"^{name} must be a whole number from 1 to "
            ):
                nonobench.picture_of(columns, rows, [(0, 0, 0)] * int(columns * rows), *maxval)
        self.assertRaises(TypeError, nonobench.picture_of, 1, 1, [(0, 0, 0.5)])

    def test_a_copy_of_any_given(self):
        """As it comes out of a task queue."""
        copied = pickle.loads(pickle.dumps(ANY_GIVEN))
        self.assertEqual(nonobench.check(DIAGONAL, GIVEN, published=copied).givens, ((1, 1),))
        self.assertEqual(nonobench.assess(DIAGONAL, GIVEN, published=copied).named, ((1, 1),))
        with self.assertRaisesRegex(CertificateError, "^certificate NotDone at line 3$"):
            nonobench.assess(DIAGONAL, b"nonocert 2\ngiven 1 1\ndone\n", published=copied)

    def test_long_text(self):
        rows = ["a." * 60, ".a" * 60] * 60
        clues = nonobench.clues(picture_of("/".join(rows)))
        self.assertEqual(clues.rows, ((Block(1, "a"),) * 60,) * 120)
        self.assertEqual(clues.columns, clues.rows)

    def test_what_an_editor_did_is_told_beside_notcert(self):
        picture = picture_of("a./.b")
        text = nonobench.certify(picture).decode("ascii")
        utf_16 = "it is UTF-16, and must be ASCII"
        changed = [
            (
                text.replace("\n", "\r\n").encode(),
                "its lines end with CR LF, and must end with LF only",
            ),
            (
                text.encode("utf-8-sig"),
                "it begins with a byte order mark, and must begin with its first word",
            ),
            *((text.encode(coding), utf_16) for coding in ("utf-16-le", "utf-16-be")),
            *((("\ufeff" + text).encode(coding), utf_16) for coding in ("utf-16-le", "utf-16-be")),
            (b"", ""),
            (b"nonocert 3\n", ""),
            (b"nonocert 3\nline r 1\r\n", ""),
        ]
        for file, hint in changed:
            with self.subTest(file), self.assertRaisesRegex(
                CertificateError, "NotCert at line 1"
            ) as caught:
                nonobench.check(picture, file)
            self.assertEqual(nonobench.hint_of(caught.exception, file), hint)
        late = text.replace("\n", "\n\r\n", 1).encode()
        with self.assertRaisesRegex(CertificateError, "BadLine at line 2") as caught:
            nonobench.check(picture, late)
        self.assertEqual(nonobench.hint_of(caught.exception, late), "")

    def test_any_bytes(self):
        source = random.Random(1)
        for _ in range(2000):
            noise = source.randbytes(source.randrange(200))
            near = bytearray(DIAGONAL)
            near[source.randrange(len(near))] = source.randrange(256)
            for call in (
                lambda: nonobench.check(near, noise, published=ANY_GIVEN),
                lambda: nonobench.verdict(noise, 10),
                lambda: nonobench.clues(near),
                lambda: nonobench.check(near, noise, published=noise),
            ):
                try:
                    call()
                except nonobench.NonobenchError as error:
                    self.assertRegex(
                        error.text, r"^(ppm|givens|certificate) \w+ at (byte|line) \d+$"
                    )

    def test_threads(self):
        answers = []
        threads = [
            threading.Thread(
                target=lambda: answers.extend(
                    str(nonobench.check(DIAGONAL, GIVEN, published=ANY_GIVEN)) for _ in range(500)
                )
            )
            for _ in range(4)
        ]
        for thread in threads:
            thread.start()
        for thread in threads:
            thread.join()
        self.assertEqual(answers, ["certificate accepted, givens 1\n"] * 2000)

    def test_colours_as_they_are_shown(self):
        # Half of a step is rounded up, whatever the number above it.
        self.assertEqual(nonobench.colour_shown((1, 3, 5), 510), (1, 2, 3))
        self.assertEqual(nonobench.colour_shown((0, 32767, 65535), 65535), (0, 127, 255))
        self.assertEqual(nonobench.colour_shown((0, 1, 1), 1), (0, 255, 255))
        for colour, maxval, why in (
            ((0, 0, 0), 0, "maxval must be"),
            ((0, 0, 0), 65536, "maxval must be"),
            ((1, 2, 3), 2, "colour must be"),
            ((1, 2), 2, "colour must be"),
        ):
            self.assertRaisesRegex(ValueError, why, nonobench.colour_shown, colour, maxval)

    def test_version(self):
        """That of the header, or of an older release that is tried."""
        header = (ROOT / "c" / "nonobench.h").read_text(encoding="utf-8")
        named = re.search('#define NONOBENCH_VERSION "(.*)"', header)[1]
        self.assertEqual(nonobench.__version__, os.environ.get("TRIED", named))


@unittest.skipUnless(os.environ.get("NONOBENCH"), "no program is named by NONOBENCH")
class Chance(unittest.TestCase):
    """Cases by chance beside the program's answers."""

    def setUp(self):
        self.folder = tempfile.TemporaryDirectory()
        self.addCleanup(self.folder.cleanup)

    def run_program(self, words, lines=b""):
        run = subprocess.run(
            [os.environ["NONOBENCH"], *words],
            input=lines,
            capture_output=True,
            cwd=self.folder.name,
            check=False,
        )
        return run.stdout.decode(), run.stderr.decode(), run.returncode

    def put(self, name, file):
        (Path(self.folder.name) / name).write_bytes(file)

    def test_program(self):
        source = random.Random(int(os.environ.get("SEED", "1")))
        accepted = refused = ambiguous = published = 0
        for _ in range(int(os.environ.get("CASES", "300" if os.environ.get("SHORT") else "1000"))):
            picture = marred(chance_picture(source), source, 4)
            background = source.choice([None, None, (0, 0, 0), (7, 80, 7)])
            words = [] if background is None else ["--background", ",".join(map(str, background))]
            self.put("picture", picture)
            answer = self.run_program(
                ["work", "picture", *words], b"allow 500\nverdict\nclues\nallow off\ncertify\n"
            )
            with self.subTest(picture=picture, background=background):
                if answer[2] != 0:
                    self.assertEqual(
                        answer_of(lambda: nonobench.clues(picture, background)), answer
                    )
                    refused += 1
                    continue
                verdict, clues, certificate = parts_of(answer[0])
                self.assertEqual(nonobench.verdict(picture, 500, background), verdict)
                self.assertEqual(str(nonobench.clues(picture, background)), clues)
                ambiguous += verdict.ruling is Ruling.AMBIGUOUS
                proved = nonobench.prove(picture, background)
                answer = self.run_program(["prove", "picture", *words])
                self.assertEqual(
                    (proved.certificate or proved.ruling.value.encode() + b"\n").decode(), answer[0]
                )
                certificate = marred(
                    source.choice([certificate, proved.certificate or b""]), source, 3
                )
                self.put("cert", certificate)
                answer = self.run_program(["check", "picture", "cert", *words])
                self.assertEqual(
                    answer_of(lambda: nonobench.check(picture, certificate, background, ANY_GIVEN)),
                    answer,
                )
                accepted += answer[2] == 0
                givens = b"".join(
                    b"given %d %d\n" % (source.randint(1, 5), source.randint(1, 5))
                    for _ in range(source.randint(0, 4))
                )
                self.put("givens", givens)
                answer = self.run_program(
                    ["check", "--givens", "givens", "picture", "cert", *words]
                )
                self.assertEqual(
                    answer_of(lambda: nonobench.check(picture, certificate, background, givens)),
                    answer,
                )
                published += answer[2] == 0
        self.assertGreater(
            min(accepted, refused, ambiguous, published),
            20 if accepted + refused + ambiguous > 500 else 0,
        )


def chance_picture(source):
    """A picture of some colours."""
    rows, columns, colours = source.randint(1, 9), source.randint(1, 9), source.randint(1, 4)
    triples = [(255, 255, 255)] + [(40 * at, at, 250 - at) for at in range(colours)]
    return nonobench.picture_of(
        columns,
        rows,
        source.choices(triples, [source.randint(1, 4)] + [1] * colours, k=rows * columns),
    )


def marred(text, source, one_of):
    """The text, or, one time of some, with a byte changed."""
    if not text or source.randrange(one_of):
        return text
    at = source.randrange(len(text))
    return text[:at] + source.choice([b"", b" ", b"0", b"7", b"\n", b"x"]) + text[at + 1 :]


def parts_of(out):
    """Verdict, clues and certificate (empty where there is none) of what a session printed."""
    found = re.fullmatch(
        r"ok\n(unique|undecided \d+|ambiguous)\n((?:[.a-o]+\n)*)((?:[rc] .*\n)*)ok\n((?:.*\n)*)",
        out,
    )
    ruling = Ruling(found[1].split(" ")[0])
    other = tuple(found[2].split()) if ruling is Ruling.AMBIGUOUS else None
    certificate = b"" if found[4] == "ambiguous\n" else found[4].encode()
    return nonobench.Verdict(ruling, other), found[3], certificate


if __name__ == "__main__":
    unittest.main()
