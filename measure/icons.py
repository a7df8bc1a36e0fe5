#!/usr/bin/env python3
"""Makes a set of icons as plain PPM pictures: glyphs of two fonts in black and white, and emoji in
three to six colours.

Usage: measure/icons.py FOLDER [SEED [SET]]. The seed (by default 7) chooses code points among those
of the set's fonts. SET is `first`, `second` or `third`; no glyph is in two of them. It needs Pillow
(python3-pil). Fonts are Debian's: fonts-symbola, fonts-dejavu-core and fonts-noto-color-emoji;
fonts-font-awesome and fonts-opensymbol; fonts-materialdesignicons-webfont and fonts-elusive-icons.
A font that is missing is named.
"""

import collections
import pathlib
import random
import sys

from PIL import Image, ImageChops, ImageDraw, ImageFont

SIZES = (15, 20, 25)
WHITE = (255, 255, 255)
EMOJI = "/usr/share/fonts/truetype/noto/NotoColorEmoji.ttf"
TRUETYPE = "/usr/share/fonts/truetype"
# For each letter of a name: the font, its points, the code points to draw from, and how many glyphs
# are wanted.
SETS = {
    "first": {
        "s": (
            f"{TRUETYPE}/ancient-scripts/Symbola_hint.ttf",
            400,
            [*range(0x2600, 0x2700), *range(0x1F300, 0x1F580)],
            40,
        ),
        "d": (
            f"{TRUETYPE}/dejavu/DejaVuSans.ttf",
            400,
            [*range(0x2600, 0x26C0), *range(0x2701, 0x27BF)],
            20,
        ),
        "e": (EMOJI, 109, [*range(0x1F300, 0x1F5A0), *range(0x1F600, 0x1F640)], 30),
    },
    "second": {
        "f": (
            f"{TRUETYPE}/font-awesome/fontawesome-webfont.ttf",
            400,
            [*range(0xF000, 0xF2E1)],
            40,
        ),
        "o": (f"{TRUETYPE}/libreoffice/opens___.ttf", 400, [*range(0xE000, 0xE4D0)], 20),
        "e": (EMOJI, 109, [*range(0x1F90C, 0x1FA00)], 30),
    },
    "third": {
        "m": (
            f"{TRUETYPE}/materialdesignicons-webfont/materialdesignicons-webfont.ttf",
            400,
            [*range(0xF101, 0xF900)],
            40,
        ),
        "l": (
            f"{TRUETYPE}/elusive-icons/elusiveicons-webfont.ttf",
            400,
            [*range(0xF100, 0xF231)],
            20,
        ),
        "e": (EMOJI, 109, [*range(0x1F680, 0x1F700), *range(0x1FA70, 0x1FB00)], 30),
    },
}


def drawn(font, code, is_colour):
    """A glyph on a white square that it fills, or None where the font has none or nearly
    nothing."""
    image = Image.new("RGB", (1200, 1200), WHITE)
    ImageDraw.Draw(image).text((300, 300), chr(code), font=font, fill=0, embedded_color=is_colour)
    box = ImageChops.difference(image, Image.new("RGB", image.size, WHITE)).getbbox()
    if box is None or min(box[2] - box[0], box[3] - box[1]) < 60:
        return None
    part = image.crop(box)
    side = max(part.size)
    square = Image.new("RGB", (side, side), WHITE)
    square.paste(part, ((side - part.width) // 2, (side - part.height) // 2))
    return square


def cells_of(square, size, colours):
    """The cells of an icon: black where a half is dark, or the colours of the emoji, white around
    it."""
    if colours == 2:
        small = square.convert("L").resize((size, size), Image.BOX)
        return [(0, 0, 0) if value < 128 else WHITE for value in small.getdata()]
    small = (
        square.resize((size, size), Image.LANCZOS)
        .quantize(colours, kmeans=3, dither=0)
        .convert("RGB")
    )
    cells = list(small.getdata())
    ground = collections.Counter([cells[0], cells[size - 1], cells[-1], cells[-size]]).most_common(
        1
    )[0][0]
    return [WHITE if cell == ground else cell for cell in cells]


def main():
    folder = pathlib.Path(sys.argv[1])
    folder.mkdir(parents=True, exist_ok=True)
    draw = random.Random(int(sys.argv[2]) if len(sys.argv) > 2 else 7)
    for name, (path, points, codes, wanted) in SETS[
        sys.argv[3] if len(sys.argv) > 3 else "first"
    ].items():
        if not pathlib.Path(path).exists():
            print(f"no font {path}: left out", file=sys.stderr)
            continue
        font = ImageFont.truetype(path, points)
        missing = drawn(font, 0x10FFFD, name == "e")
        missing = missing and missing.tobytes()
        draw.shuffle(codes)
        made = 0
        for code in codes:
            square = drawn(font, code, name == "e") if made < wanted else None
            if square is None or square.tobytes() == missing:
                continue
            for step, size in enumerate(SIZES):
                colours = 3 + (made + step) % 4 if name == "e" else 2
                cells = cells_of(square, size, colours)
                rows = "\n".join("%d %d %d" % cell for cell in cells)
                (folder / f"{name}{size}-{code:05x}.ppm").write_text(
                    f"P3\n{size} {size}\n255\n{rows}\n"
                )
            made += 1
        print(f"{name}: {made} glyphs")


if __name__ == "__main__":
    main()
