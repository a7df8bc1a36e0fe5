"""Tests of the reader of images: cd python && PYTHONPATH=src python3 -m unittest
tests/test_images.py

What each odd image shows is known from how it was made (odd_images.py). Where there are Chromium
and Firefox, their canvases say the same. Pillow is needed.
"""

import json
import os
import re
import shutil
import subprocess
import sys
import tempfile
import unittest
from pathlib import Path

HERE = Path(__file__).resolve().parent
sys.path.insert(0, str(HERE))
import nonobench  # noqa: E402
from audit_parts import BLACK, RED, UNIQUE, WHITE, image, p3  # noqa: E402
from odd_images import BROKEN, CLEAR, REASONS, odd_images  # noqa: E402

ODD = odd_images()
GROUND = (128, 64, 200)  # a colour that no odd image has
# Images that browsers show in shades that are a little different.
NEAR = ("png-gamma-primaries", "png-corners-clear", "png-profile-of-srgb-by-tables")


def read(data):
    """The rows of an image that is read, and nothing; or nothing, and why it is refused."""
    ground = (GROUND,) if data.startswith(b"\x89") else ()
    try:
        text = nonobench.picture_of_image(data, *ground)
    except nonobench.ImageError as error:
        return None, error.name
    columns, _, maxval, *samples = map(int, text.split()[1:])
    triples = list(zip(samples[::3], samples[1::3], samples[2::3]))
    shown = {triple: nonobench.colour_shown(triple, maxval) for triple in set(triples)}
    cells = [CLEAR if one == GROUND else (*shown[one], 255) for one in triples]
    return [cells[at : at + columns] for at in range(0, len(cells), columns)], ""


class Reading(unittest.TestCase):
    """Odd images."""

    def test_what_is_read_and_why_others_are_refused(self):
        for odd in ODD:
            pixels, why = read(odd.data)
            with self.subTest(odd.name):
                if odd.pixels is not None:
                    self.assertEqual((pixels, why), (odd.pixels, ""))
                elif odd.reason == BROKEN:
                    self.assertIn(why, ("damaged", "not read", "a size"))
                else:
                    self.assertEqual(why, odd.reason)

    def test_there_are_many(self):
        self.assertGreaterEqual(len({odd.data for odd in ODD}), 150)
        self.assertEqual({odd.reason for odd in ODD}, {"", BROKEN, *REASONS})

    def test_the_document_names_each_reason(self):
        text = (HERE.parent.parent / "docs" / "AUDIT.md").read_text(encoding="utf-8")
        more = {"damaged", "white and transparent", "no background"}
        section = text.split("| reason |")[1].split("\n\n")[0]
        self.assertEqual(set(re.findall(r"(?m)^\| `([^`]+)` \|", section)), {*REASONS, *more})

    def compare(self, variable, usual, *words):
        """Compares what is read with what a browser shows."""
        if os.environ.get("SHORT"):
            self.skipTest(os.environ["SHORT"])
        browser = os.environ.get(variable, usual)
        if not shutil.which(browser) or not shutil.which("node"):
            self.skipTest(f"there is no {browser} or no node")
        with tempfile.TemporaryDirectory() as folder:
            for odd in ODD:
                (Path(folder) / odd.name).write_bytes(odd.data)
            command = ["node", HERE / "canvas.mjs", folder, *words]
            shown = json.loads(subprocess.run(command, check=True, capture_output=True).stdout)
        compared = 0
        for odd in ODD:
            pixels, _ = read(odd.data)
            if pixels is None or odd.name not in shown or odd.name.startswith(NEAR):
                continue
            seen = [[tuple(dot) if dot[3] else CLEAR for dot in row] for row in shown[odd.name]]
            with self.subTest(odd.name):
                self.assertEqual(pixels, seen)
            compared += 1
        self.assertGreater(compared, 60)

    def test_as_chromium_shows_them(self):
        self.compare("CHROMIUM", "chromium")

    def test_as_firefox_shows_them(self):
        self.compare("FIREFOX", "firefox-esr", "firefox")


class Pictures(unittest.TestCase):
    """P3 texts of images."""

    def test_transparent_is_background(self):
        pixels = [(*BLACK, 255), (9, 9, 9, 0), (7, 7, 7, 0), (*RED, 255)]
        data = image("PNG", "RGBA", pixels)
        self.assertEqual(nonobench.picture_of_image(data), p3(UNIQUE))
        self.assertEqual(nonobench.picture_of_image(data, (1, 2, 3)), p3(UNIQUE, (1, 2, 3)))
        with self.assertRaises(nonobench.ImageError) as caught:
            nonobench.picture_of_image(data, BLACK)
        self.assertEqual(caught.exception.name, "white and transparent")
        self.assertIn("name a background that no opaque cell has", str(caught.exception))
        for ground in ((0, 0, 256), (-1, 0, 0), (0, 0), (0, 0, 0.5), 7, "red"):
            with self.subTest(ground), self.assertRaisesRegex(ValueError, "up|from 0 to 255"):
                nonobench.picture_of_image(data, ground)

    def test_netpbm(self):
        self.assertEqual(nonobench.picture_of_image(p3(UNIQUE)), p3(UNIQUE))
        for data, wanted in (
            (b"P1 2 1 1 0", b"P3\n2 1\n1\n0 0 0\n1 1 1\n"),
            (b"P4 2 1\n\x80", b"P3\n2 1\n1\n0 0 0\n1 1 1\n"),
            (b"P2 2 1 100 0 50", b"P3\n2 1\n100\n0 0 0\n50 50 50\n"),
            (b"P5 2 1 255\n\x00\xff", b"P3\n2 1\n255\n0 0 0\n255 255 255\n"),
            (b"P6 1 1 1000\n\0\0\3\xe8\0\1", b"P3\n1 1\n1000\n0 1000 1\n"),
        ):
            with self.subTest(data):
                self.assertEqual(nonobench.picture_of_image(data), wanted)

    def test_what_is_not_read(self):
        for data, kind in (
            (image("JPEG"), "JPEG"),
            (image("GIF"), "GIF"),
            (image("BMP"), "BMP"),
            (image("WEBP", lossless=True), "WebP"),
            (image("TIFF"), "TIFF"),
            (b"", "no image"),
            (b"something", "no image"),
        ):
            with self.subTest(kind), self.assertRaises(nonobench.ImageError) as caught:
                nonobench.picture_of_image(data)
            why = f"this is {kind}: convert it to PNG: nonobench.html opens it"
            self.assertEqual(str(caught.exception), why)

    def test_sizes(self):
        for data, size in (
            (b"P4 121 1\n", "121 by 1"),
            (image("PNG", "RGB", [WHITE] * 121, (1, 121)), "1 by 121"),
        ):
            with self.assertRaisesRegex(nonobench.ImageError, f"^{size} pixels, and a puzzle has"):
                nonobench.picture_of_image(data)

    def test_long_texts_take_little_memory(self):
        """15 MiB of blanks, comments or numbers: nothing is kept for each."""
        for data, times in (
            (b"P6 %s1 1 255\n\1\2\3", b" "),
            (b"P6 %s1 1 255\n\1\2\3", b"#\n"),
            (b"P1 1 1 %s1", b"#\n"),
            (b"P1 9 9%s", b" 1"),
            (b"P2 9 9 9%s", b" 1"),
        ):
            code = f"""if True:
                import nonobench, resource
                data = {data!r}.replace(b"%s", {times!r} * ((15 << 20) // {len(times)}))
                resource.setrlimit(resource.RLIMIT_AS, (300 << 20, 300 << 20))
                try:
                    print(nonobench.picture_of_image(data).split()[4:])
                except nonobench.ImageError as error:
                    print(error.name)"""
            words = [sys.executable, "-c", code]
            done = subprocess.run(words, check=True, capture_output=True, text=True)
            wanted = "[b'1', b'2', b'3']" if b"P6" in data else "[b'0', b'0', b'0']"
            with self.subTest(data):
                self.assertEqual(done.stdout.strip(), "damaged" if b" 9 9" in data else wanted)


if __name__ == "__main__":
    unittest.main()
