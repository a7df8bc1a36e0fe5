"""Odd images, and what a reader has to say of each: python3 odd_images.py FOLDER writes them there.

Each is made by hand of a picture whose pixels are known: an image that is read must have these, as
a browser shows them.
"""

import itertools
import struct
import sys
import zlib
from fractions import Fraction
from math import floor
from pathlib import Path
from typing import NamedTuple, Optional

BITS, PROFILE, GAMMA, FRAMES, HALF, TURNED = REASONS = (
    "samples of 16 bits",
    "a colour profile",
    "a gamma",
    "several frames",
    "half transparent",
    "turned by its orientation",
)
BROKEN = (  # refused too, since it is no whole image of its format, or of a kind that is not read
    "broken"
)
CLEAR = (0, 0, 0, 0)  # what is transparent has no other colour
WHITE, BLACK, RED, BLUE = (255, 255, 255, 255), (0, 0, 0, 255), (255, 0, 0, 255), (0, 0, 200, 255)
COLOURS = [WHITE, BLACK, RED, BLUE]
CELLS = [
    [1, 0, 2, 2, 0],
    [0, 1, 0, 3, 3],
    [3, 0, 1, 0, 2],
    [0, 2, 0, 1, 0],
]  # of the picture: numbers of colours
SIZE = (5, 4)


class Odd(NamedTuple):
    """An image: its name, its bytes, and its pixels row by row where it is read, or else why it is
    refused."""

    name: str
    data: bytes
    pixels: Optional[list]
    reason: str = ""


def shown(palette, cells=None):
    """The pixels of cells in the colours of a palette."""
    return [[palette[cell] for cell in row] for row in cells or CELLS]


# PNG


def chunk(kind, body=b""):
    return struct.pack(">I", len(body)) + kind + body + struct.pack(">I", zlib.crc32(kind + body))


def packed(samples, depth):
    """A row of samples as bytes."""
    if depth == 16:
        return struct.pack(f">{len(samples)}H", *samples)
    bits = "".join(f"{sample:0{depth}b}" for sample in samples)
    return bytes(int(bits[at : at + 8].ljust(8, "0"), 2) for at in range(0, len(bits), 8))


def filtered(kind, line, before, step):
    """A row as one of the five filters has it."""
    left = bytes(step) + line
    corner = bytes(step) + before
    made = []
    for at, value in enumerate(line):
        a, b, c = left[at], before[at], corner[at]
        near = min(
            (abs(b - c), a), (abs(a - c), b), (abs(a + b - 2 * c), c), key=lambda pair: pair[0]
        )[1]
        made.append((value - (0, a, b, (a + b) // 2, near, 0)[kind]) % 256)
    return bytes([kind, *made])


def pieces(rows, is_laced):
    """The rows of the seven passes of an interlaced image, or its rows."""
    passes = (
        [
            (0, 0, 8, 8),
            (0, 4, 8, 8),
            (4, 0, 8, 4),
            (0, 2, 4, 4),
            (2, 0, 4, 2),
            (0, 1, 2, 2),
            (1, 0, 2, 1),
        ]
        if is_laced
        else [(0, 0, 1, 1)]
    )
    for top, left, down, right in passes:
        taken = [row[left::right] for row in rows[top::down]]
        yield [row for row in taken if row]


def png(rows, depth, kind, more=(), is_laced=False, filters=(0,), end=chunk(b"IEND"), size=None):
    """A PNG of rows of pixels, each a tuple of samples. `more` are the chunks before the pixels."""
    step = max(1, len(rows[0][0]) * depth // 8)
    data = b""
    for piece in pieces(rows, is_laced):
        before = None
        for at, row in enumerate(piece):
            line = packed([sample for pixel in row for sample in pixel], depth)
            data += filtered(filters[at % len(filters)], line, before or bytes(len(line)), step)
            before = line
    head = struct.pack(
        ">IIBBBBB", *(size or (len(rows[0]), len(rows))), depth, kind, 0, 0, is_laced
    )
    return (
        b"\x89PNG\r\n\x1a\n"
        + chunk(b"IHDR", head)
        + b"".join(more)
        + chunk(b"IDAT", zlib.compress(data))
        + end
    )


def palette_chunk(colours):
    return chunk(b"PLTE", bytes(sample for colour in colours for sample in colour[:3]))


GREY, RGB, INDEXED, GREY_ALPHA, RGBA = 0, 2, 3, 4, 6
PALETTE = palette_chunk(COLOURS)
SRGB = chunk(b"sRGB", b"\0")
STANDARD = (31270, 32900, 64000, 33000, 30000, 60000, 15000, 6000)  # the primaries of sRGB
WIDE = (31270, 32900, 64000, 33000, 21000, 71000, 15000, 6000)  # those of Adobe's RGB
PRIMARIES, OTHERS = (chunk(b"cHRM", struct.pack(">8I", *values)) for values in (STANDARD, WIDE))
PLAIN_GAMMA = chunk(b"gAMA", struct.pack(">I", 45455))


def png_samples(depth, kind):
    """The rows of samples of the picture in a kind of PNG, the chunks that these need, and its
    pixels."""
    most = 2**depth - 1
    levels = [0, most, most // 3 * 2, most // 3] if depth > 1 else [0, 1, 1, 0]
    greys = [(level * 255 // most,) * 3 + (255,) for level in levels]
    if kind == INDEXED:
        count = min(4, 2**depth)
        return (
            [[(cell % count,) for cell in row] for row in CELLS],
            [palette_chunk(COLOURS[:count])],
            shown(COLOURS[:count] * 4),
        )
    if kind == GREY:
        return [[(levels[cell],) for cell in row] for row in CELLS], [], shown(greys)
    if kind == GREY_ALPHA:
        opaque = [(level, most if at else 0) for at, level in enumerate(levels)]
        return [[opaque[cell] for cell in row] for row in CELLS], [], shown([CLEAR, *greys[1:]])
    scaled = [
        tuple(sample * most // 255 for sample in colour[: 3 if kind == RGB else 4])
        for colour in COLOURS
    ]
    if kind == RGBA:
        scaled[3] = (7, 8, 9, 0)
    return (
        [[scaled[cell] for cell in row] for row in CELLS],
        [],
        shown([*COLOURS[:3], CLEAR] if kind == RGBA else COLOURS),
    )


KINDS = [
    *((depth, GREY) for depth in (1, 2, 4, 8, 16)),
    *((depth, INDEXED) for depth in (1, 2, 4, 8)),
    *((depth, kind) for kind in (RGB, GREY_ALPHA, RGBA) for depth in (8, 16)),
]


def png_kinds():
    """Every kind of colour and depth, interlaced or not, by all filters."""
    for (depth, kind), is_laced in itertools.product(KINDS, (False, True)):
        rows, more, pixels = png_samples(depth, kind)
        for filters in ((0,), (4, 3, 2, 1)):
            name = f"png-{kind}-{depth}{'-laced' if is_laced else ''}{'-filtered' if len(filters) > 1 else ''}"  # noqa: E501
            data = png(rows, depth, kind, more, is_laced, filters)
            yield Odd(name, data, None, BITS) if depth == 16 else Odd(name, data, pixels)


def png_clear():
    """Transparent colours: of grey and RGB by their samples, of a palette by their numbers."""
    for depth in (1, 2, 4, 8, 16):
        rows, _, pixels = png_samples(depth, GREY)
        key = rows[0][0][0]
        clear = [
            [CLEAR if cell == (key,) else pixel for cell, pixel in zip(*both)]
            for both in zip(rows, pixels)
        ]
        for is_laced in (False, True):
            data = png(rows, depth, GREY, [chunk(b"tRNS", struct.pack(">H", key))], is_laced)
            yield Odd(
                f"png-grey-{depth}-clear{'-laced' if is_laced else ''}",
                data,
                None if depth == 16 else clear,
                BITS if depth == 16 else "",
            )
    rows, _, pixels = png_samples(8, RGB)
    for at, colour in enumerate(COLOURS):
        clear = [*COLOURS[:at], CLEAR, *COLOURS[at + 1 :]]
        yield Odd(
            f"png-rgb-clear-{at}",
            png(rows, 8, RGB, [chunk(b"tRNS", struct.pack(">3H", *colour[:3]))]),
            shown(clear),
        )
        deep = [[tuple(257 * sample for sample in pixel) for pixel in row] for row in rows]
        key = chunk(b"tRNS", struct.pack(">3H", *(257 * sample for sample in colour[:3])))
        yield Odd(f"png-rgb-16-clear-{at}", png(deep, 16, RGB, [key]), None, BITS)
    cross = [[(1, 2, 3), (0, 0, 0)], [(0, 0, 0), (1, 2, 3)]]
    yield Odd(
        "png-cross-16-clear",
        png(cross, 16, RGB, [chunk(b"tRNS", struct.pack(">3H", 1, 2, 3))]),
        None,
        BITS,
    )
    rows, more, _ = png_samples(8, INDEXED)
    for alphas in ([0], [255, 0], [255, 255, 0, 0], [0, 0, 0, 0], [255] * 4):
        clear = [
            (*colour[:3], 255) if alpha else CLEAR
            for colour, alpha in zip(COLOURS, [*alphas, *[255] * 4])
        ]
        yield Odd(
            f"png-palette-clear-{'-'.join(map(str, alphas))}",
            png(rows, 8, INDEXED, [*more, chunk(b"tRNS", bytes(alphas))]),
            shown(clear),
        )
    for alphas in ([128], [255, 254], [1]):
        yield Odd(
            f"png-palette-half-{alphas[-1]}",
            png(rows, 8, INDEXED, [*more, chunk(b"tRNS", bytes(alphas))]),
            None,
            HALF,
        )
    unused = [palette_chunk([*COLOURS, (9, 9, 9)]), chunk(b"tRNS", bytes([255, 255, 255, 255, 77]))]
    yield Odd("png-palette-half-unused", png(rows, 8, INDEXED, unused), shown(COLOURS))
    for opacity in (1, 127, 254):
        half = [
            [(*pixel[:3], opacity) if pixel == RED else pixel for pixel in row]
            for row in shown(COLOURS)
        ]
        yield Odd(f"png-rgba-half-{opacity}", png(half, 8, RGBA), None, HALF)


# Colorants of sRGB, and of Adobe's RGB, for the white of D50; and curves.
XYZ = ((0.4361, 0.2225, 0.0139), (0.3851, 0.7169, 0.0971), (0.1431, 0.0606, 0.7139))
WIDE_XYZ = ((0.6097, 0.3111, 0.0195), (0.2053, 0.6257, 0.0609), (0.1492, 0.0632, 0.7446))
FORMULA = (2.4, 1 / 1.055, 0.055 / 1.055, 1 / 12.92, 0.04045)


def fixed(*numbers):
    return struct.pack(f">{len(numbers)}i", *(round(65536 * number) for number in numbers))


CURVE = b"para\0\0\0\0\0\3\0\0" + fixed(*FORMULA)
STRAIGHT = b"curv\0\0\0\0" + struct.pack(">I3H", 3, 0, 32768, 65535)


def profile_of(colorants, curve):
    """A colour profile of colorants, and one curve for all of them."""
    names = (b"rXYZ", b"gXYZ", b"bXYZ", b"rTRC", b"gTRC", b"bTRC")
    bodies = [b"XYZ \0\0\0\0" + fixed(*values) for values in colorants] + [curve] * 3
    at, table = 132 + 12 * len(names), b""
    for name, body in zip(names, bodies):
        table += struct.pack(">4sII", name, at, len(body))
        at += len(body)
    head = bytes(12) + b"mntrRGB XYZ " + bytes(104)
    return head + struct.pack(">I", len(names)) + table + b"".join(bodies)


def by_tables():
    """The profile of sRGB with tables, as older ones have them."""
    gamma, a, b, c, d = FORMULA
    light = (at * c if at < d else (a * at + b) ** gamma for at in (n / 1023 for n in range(1024)))
    table = struct.pack(">1024H", *(round(65535 * value) for value in light))
    curve = b"curv\0\0\0\0" + struct.pack(">I", 1024) + table
    return chunk(b"iCCP", b"p\0\0" + zlib.compress(profile_of(XYZ, curve)))


def png_colours():
    """Chunks that say how colours are meant."""
    rows, _, pixels = png_samples(8, RGB)
    profile = chunk(b"iCCP", b"p\0\0" + zlib.compress(bytes(128)))
    srgb, wide, plain = (
        chunk(b"iCCP", b"p\0\0" + zlib.compress(profile_of(*words)))
        for words in ((XYZ, CURVE), (WIDE_XYZ, CURVE), (XYZ, STRAIGHT))
    )
    coded = chunk(b"cICP", bytes([9, 16, 0, 1]))
    for name, more, reason in (
        ("srgb", [SRGB], ""),
        ("gamma-plain", [PLAIN_GAMMA], ""),
        ("srgb-gamma-plain", [SRGB, PLAIN_GAMMA], ""),
        ("srgb-gamma-primaries", [SRGB, PLAIN_GAMMA, PRIMARIES], ""),
        ("gamma-primaries", [PLAIN_GAMMA, PRIMARIES], ""),
        ("primaries", [PRIMARIES], ""),
        ("gamma-others", [PLAIN_GAMMA, OTHERS], PROFILE),
        ("others", [OTHERS], ""),
        ("srgb-others", [SRGB, OTHERS], ""),
        ("gamma-100000", [chunk(b"gAMA", struct.pack(">I", 100000))], GAMMA),
        ("gamma-45454", [chunk(b"gAMA", struct.pack(">I", 45454))], GAMMA),
        ("gamma-1000", [chunk(b"gAMA", struct.pack(">I", 1000))], GAMMA),
        ("gamma-0", [chunk(b"gAMA", struct.pack(">I", 0))], GAMMA),
        ("srgb-gamma-1000", [SRGB, chunk(b"gAMA", struct.pack(">I", 1000))], GAMMA),
        ("gamma-1000-primaries", [chunk(b"gAMA", struct.pack(">I", 1000)), PRIMARIES], GAMMA),
        ("gamma-short", [chunk(b"gAMA", b"\1")], BROKEN),
        ("profile", [profile], PROFILE),
        ("srgb-profile", [SRGB, profile], PROFILE),
        ("profile-of-srgb", [srgb], ""),
        ("profile-of-srgb-by-tables", [by_tables()], ""),
        ("profile-of-others", [wide], PROFILE),
        ("profile-of-another-curve", [plain], PROFILE),
        ("coded", [coded], PROFILE),
        ("bits", [chunk(b"sBIT", bytes([5, 6, 5]))], ""),
        ("background", [chunk(b"bKGD", struct.pack(">3H", 1, 2, 3))], ""),
        ("dots", [chunk(b"pHYs", struct.pack(">IIB", 1000, 2000, 1))], ""),
        ("text", [chunk(b"tEXt", b"Title\0x")], ""),
        ("suggested", [PALETTE], ""),
        ("unknown", [chunk(b"vpAg", bytes(9))], ""),
        ("time", [chunk(b"tIME", bytes([7, 228, 1, 1, 0, 0, 0]))], ""),
        ("turned", [chunk(b"eXIf", exif(6))], TURNED),
        ("turned-intel", [chunk(b"eXIf", exif(3, "<"))], TURNED),
        ("upright", [chunk(b"eXIf", exif(1))], ""),
        ("upright-intel", [chunk(b"eXIf", exif(1, "<"))], ""),
        ("gamma-twice", [PLAIN_GAMMA, chunk(b"gAMA", struct.pack(">I", 1000))], BROKEN),
        ("srgb-4", [chunk(b"sRGB", b"\4"), PLAIN_GAMMA, OTHERS], BROKEN),
        ("srgb-long", [chunk(b"sRGB", bytes(2)), PLAIN_GAMMA, OTHERS], BROKEN),
        ("srgb-last", [PLAIN_GAMMA, OTHERS, SRGB], ""),
        (
            "luminance",
            [chunk(b"mDCV", bytes(24)), chunk(b"cLLI", struct.pack(">2I", 10000000, 4000000))],
            "",
        ),
    ):
        yield Odd(f"png-{name}", png(rows, 8, RGB, more), None if reason else pixels, reason)
    for name, end, reason in (
        ("srgb", SRGB, BROKEN),
        ("profile", profile, BROKEN),
        ("turned", chunk(b"eXIf", exif(8)), TURNED),
    ):
        yield Odd(
            f"png-{name}-late",
            png(rows, 8, RGB, [PLAIN_GAMMA], end=end + chunk(b"IEND")),
            None,
            reason,
        )
    corners = [[tuple(255 * (at >> bit & 1) for bit in range(3)) for at in range(8)]]
    for name, more, reason in (
        ("primaries", [PRIMARIES], ""),
        ("others", [OTHERS], PROFILE),
        ("both", [PRIMARIES, OTHERS], BROKEN),
    ):
        yield Odd(
            f"png-corners-{name}",
            png(corners, 8, RGB, [PLAIN_GAMMA, *more]),
            None if reason else [[(*colour, 255) for colour in corners[0]]],
            reason,
        )
    black = [[(1,), (0,), (1,)]]
    yield Odd(
        "png-corners-grey", png(black, 1, GREY, [PLAIN_GAMMA, PRIMARIES]), [[WHITE, BLACK, WHITE]]
    )
    clear = chunk(b"tRNS", b"\0")
    for name, colours, reason in (
        ("clear", [(9, 9, 9), (255, 0, 255)], ""),
        ("near", [(9, 9, 9), (254, 254, 254)], PROFILE),
    ):
        data = png(black, 8, INDEXED, [PLAIN_GAMMA, PRIMARIES, palette_chunk(colours), clear])
        yield Odd(
            f"png-corners-{name}",
            data,
            None if reason else [[(255, 0, 255, 255), CLEAR, (255, 0, 255, 255)]],
            reason,
        )
    grey = [[(90,), (255,)], [(255,), (160,)]]
    yield Odd(
        "png-grey-gamma", png(grey, 8, GREY, [chunk(b"gAMA", struct.pack(">I", 1000))]), None, GAMMA
    )
    yield Odd(
        "png-bits-palette",
        png(*png_samples(8, INDEXED)[:1], 8, INDEXED, [chunk(b"sBIT", b"\1\1\1"), PALETTE]),
        shown(COLOURS),
    )
    ground = chunk(b"bKGD", b"\1")
    for name, more, reason in (("", [PALETTE, ground], ""),):
        yield Odd(
            f"png-background-palette{name}",
            png(*png_samples(8, INDEXED)[:1], 8, INDEXED, more),
            None if reason else shown(COLOURS),
            reason,
        )
    yield Odd(
        "png-background-rgb-palette", png(rows, 8, RGB, [chunk(b"bKGD", bytes(6)), PALETTE]), pixels
    )
    yield Odd(
        "png-bits-grey-2",
        png(*png_samples(2, GREY)[:1], 2, GREY, [chunk(b"sBIT", b"\1")]),
        png_samples(2, GREY)[2],
    )


def exif(number, order=">"):
    """Exif with an orientation alone."""
    mark = b"MM\0*" if order == ">" else b"II*\0"
    return mark + struct.pack(f"{order}IHHHIHHI", 8, 1, 0x112, 3, 1, number, 0, 0)


def png_frames():
    """Animated PNG, by the chunks that make it so."""
    rows = png_samples(8, RGB)[0]
    one, two = (chunk(b"acTL", struct.pack(">2I", count, 0)) for count in (1, 2))
    frame = chunk(b"fcTL", struct.pack(">5I2H2B", 0, 5, 4, 0, 0, 1, 1, 0, 0))
    body = zlib.compress(b"".join(b"\0" + bytes(15) for _ in range(4)))
    later = (
        chunk(b"fcTL", struct.pack(">5I2H2B", 1, 5, 4, 0, 0, 1, 1, 0, 0))
        + chunk(b"fdAT", struct.pack(">I", 2) + body)
        + chunk(b"IEND")
    )
    hidden = (
        chunk(b"fcTL", struct.pack(">5I2H2B", 0, 5, 4, 0, 0, 1, 1, 0, 0))
        + chunk(b"fdAT", struct.pack(">I", 1) + body)
        + chunk(b"IEND")
    )
    yield Odd("apng-two", png(rows, 8, RGB, [two, frame], end=later), None, FRAMES)
    yield Odd("apng-one", png(rows, 8, RGB, [one, frame]), None, FRAMES)
    yield Odd("apng-hidden", png(rows, 8, RGB, [one], end=hidden), None, FRAMES)
    yield Odd("apng-late", png(rows, 8, RGB, end=one + hidden), None, FRAMES)
    yield Odd("apng-frames-alone", png(rows, 8, RGB, end=hidden), None, FRAMES)
    yield Odd(
        "apng-frame-first", png(rows, 8, RGB, [chunk(b"fdAT", bytes(4) + body)]), None, FRAMES
    )


def png_broken():
    """Palettes with holes, and files that are no PNG."""
    rows, more, _ = png_samples(8, INDEXED)
    few = palette_chunk(COLOURS[:3])
    clear = chunk(b"tRNS", b"\0")
    good = png(rows, 8, INDEXED, more)
    at = good.index(b"IDAT")
    rgb = png_samples(8, RGB)[0]
    for name, data in (
        ("hole", png(rows, 8, INDEXED, [few])),
        ("no-palette", png(rows, 8, INDEXED)),
        ("two-palettes", png(rows, 8, INDEXED, [few, PALETTE])),
        ("hole-4", png(rows, 4, INDEXED, [few])),
        ("hole-clear", png(rows, 8, INDEXED, [few, chunk(b"tRNS", bytes([255] * 3 + [0]))])),
        ("palette-empty", png(rows, 8, INDEXED, [chunk(b"PLTE")])),
        ("clear-first", png(rows, 8, INDEXED, [clear, PALETTE])),
        ("clear-twice", png(rows, 8, INDEXED, [PALETTE, clear, clear])),
        ("clear-late", png(rows, 8, INDEXED, more, end=clear + chunk(b"IEND"))),
        ("clear-short", png(rgb, 8, RGB, [chunk(b"tRNS", bytes(4))])),
        ("palette-late", png(rows, 8, INDEXED, end=PALETTE + chunk(b"IEND"))),
        ("sum", good[: at + 8] + bytes([good[at + 8] ^ 1]) + good[at + 9 :]),
        ("sum-clear", png(rows, 8, INDEXED, [*more, clear[:-1] + b"\7"])),
        ("cut", good[:-30]),
        ("no-end", good[:-12]),
        ("sign", good[:8]),
        ("head", good[:33]),
        ("depth", png(rows, 8, RGB, size=(5, 4))),
        ("depth-3", png(rows, 8, INDEXED, more).replace(b"\x08\x03", b"\x03\x03", 1)),
        ("critical", png(rgb, 8, RGB, [chunk(b"CgBI", bytes(4))])),
        ("few-rows", png(rgb, 8, RGB, size=(5, 6))),
        ("few-rows-laced", png(rgb, 8, RGB, is_laced=True, size=(5, 6))),
        ("filter", png(rgb, 8, RGB, filters=(0, 5))),
        ("empty", png(rgb, 8, RGB, size=(0, 4))),
        ("head-twice", png(rgb, 8, RGB, [good[8:33]])),
        ("no-letter", png(rgb, 8, RGB, [chunk(b"abC\xff")])),
        (
            "gap",
            good[: at - 4]
            + chunk(b"IDAT", zlib.compress(bytes(9))[:4])
            + chunk(b"tEXt", b"a\0b")
            + good[at - 4 :],
        ),
    ):
        yield Odd(f"png-broken-{name}", data, None, BROKEN)
    yield Odd("png-more", good + b"more", shown(COLOURS))
    whole = zlib.compress(b"".join(b"\0" + bytes(row) for row in CELLS))
    for name, packed_rows in (("sum-of-rows", whole[:-1] + bytes([whole[-1] ^ 1])),):
        yield Odd(
            f"png-{name}",
            good[: at - 4] + chunk(b"IDAT", packed_rows) + chunk(b"IEND"),
            None,
            BROKEN,
        )
    yield Odd("png-no-data", good[: at - 4] + chunk(b"IDAT") + chunk(b"IEND"), None, BROKEN)
    yield Odd("png-more-rows", png(rgb + rgb, 8, RGB, size=(5, 4)), shown(COLOURS))
    body = good[at + 4 : at + 4 + struct.unpack(">I", good[at - 4 : at])[0]]
    parts = b"".join(chunk(b"IDAT", body[one : one + 3]) for one in range(0, len(body), 3))
    yield Odd("png-parts", good[: at - 4] + parts + chunk(b"IDAT") + chunk(b"IEND"), shown(COLOURS))


# PPM, PGM, PBM: no browser shows them, so what is expected comes from the definition of these
# formats alone.


def grey(sample, most):
    """A sample as it is shown: of 255, rounded, halves up."""
    return (floor(Fraction(255 * sample, most) + Fraction(1, 2)),) * 3 + (255,)


def pnms():
    """PPM, PGM and PBM, plain and raw, with comments and odd bounds."""
    ink = [[cell % 2 for cell in row] for row in CELLS]
    bits = shown([WHITE, BLACK], ink)
    plain_bits = "\n".join("".join(map(str, row)) for row in ink)
    raw_bits = bytes(
        int("".join(map(str, row)) + "101", 2) for row in ink
    )  # what fills a byte counts for nothing
    head = "P{} # kind\n# P6 9 9\r5# columns\n\t4 # rows\n"
    for name, data, wanted in (
        ("1", f"P1 5 4 {plain_bits}", bits),
        ("1-comments", f"{head.format(1)}{plain_bits}".replace("\n1", " # 0 1\n1"), bits),
        ("1-blanks", "P1 5 4\n" + " ".join(plain_bits), bits),
        ("1-two", "P1 2 1 0 2", BROKEN),
        ("1-short", "P1 5 4 0101", BROKEN),
        ("1-long", f"P1 5 4 {plain_bits}0", BROKEN),
        ("1-glued", "P1 1 10", BROKEN),
        ("4", b"P4 5 4\n" + raw_bits, bits),
        ("4-comments", b"P4 # kind\n5#\r# 7 7\n4\r" + raw_bits, bits),
        ("4-short", b"P4 5 4\n" + raw_bits[:-1], BROKEN),
        ("4-comment-last", b"P4 5 4 # x\n" + raw_bits, BROKEN),
        ("4-wide", b"P4 9 1\n\x80\x80", [[BLACK, *[WHITE] * 7, BLACK]]),
        ("2-zeros", "P2 0002 01 0003 003 00", [[grey(3, 3), grey(0, 3)]]),
        ("2-many-zeros", f"P2 2 1 3 {'0' * 5000}2 {'0' * 5000}", [[grey(2, 3), grey(0, 3)]]),
        ("2-digits", f"P2 1 1 3 {'9' * 5000}", BROKEN),
        ("1-zeros", f"P1 {'0' * 5000}2 1 01", [[WHITE, BLACK]]),
        ("2-long", "P2 9999999999 1 1 0", BROKEN),
        ("2-over", "P2 2 1 3 3 4", BROKEN),
        ("2-sign", "P2 2 1 3 3 -1", BROKEN),
        ("2-word", "P2 2 1 3 3 1x", BROKEN),
        ("2-underscore", "P2 2 1 30 3 1_1", BROKEN),
        ("5-over", b"P5 2 1 3\n\3\4", BROKEN),
        ("5-no-blank", b"P5 2 1 3", BROKEN),
        ("5-more", b"P5 2 1 3\n\3\2\0", BROKEN),
        ("5-two", b"P5 2 1 3\n\3\2P5 2 1 3\n\3\2", FRAMES),
        ("6-two", b"P6 1 1 255\nabc\nP6 1 1 255\nabc", FRAMES),
        ("5-line", b"P5 2 1 3\n\3\2\n", [[grey(3, 3), grey(2, 3)]]),
        ("2-256", "P2 1 1 256 0", [[BLACK]]),
        ("5-65535", b"P5 1 1 65535\n\0\0", [[BLACK]]),
        ("6-1000", b"P6 1 1 1000\n\0\0\3\xe8\0\0", [[(0, 255, 0, 255)]]),
        ("5-0", b"P5 1 1 0\n\0", BROKEN),
        ("no-size", b"P6", BROKEN),
        ("size-0", "P1 0 4 ", BROKEN),
        ("no-number", "P2 x 4 3 1", BROKEN),
        ("7", b"P7\nWIDTH 1\n", BROKEN),
    ):
        yield Odd(
            f"pnm-{name}",
            data if isinstance(data, bytes) else data.encode(),
            *([wanted] if isinstance(wanted, list) else [None, wanted or ""]),
        )
    for most in (1, 2, 3, 7, 10, 100, 127, 200, 254, 255):
        levels = [0, most, most // 2, most // 3]
        greys = shown([grey(level, most) for level in levels])
        words = " ".join(str(levels[cell]) for row in CELLS for cell in row)
        yield Odd(f"pnm-2-{most}", f"{head.format(2)}{most} {words}\n# end".encode(), greys)
        yield Odd(
            f"pnm-5-{most}",
            f"{head.format(5)}{most} ".encode()
            + bytes(levels[cell] for row in CELLS for cell in row),
            greys,
        )
        colour = [
            (*grey(level, most)[:1], grey(other, most)[0], 0, 255)
            for level, other in zip(levels, levels[1:] + levels[:1])
        ]
        triples = [(level, other, 0) for level, other in zip(levels, levels[1:] + levels[:1])]
        yield Odd(
            f"pnm-6-{most}",
            f"{head.format(6)}{most}\n".encode()
            + bytes(sample for row in CELLS for cell in row for sample in triples[cell]),
            shown(colour),
        )


def odd_images():
    """All of them."""
    makers = (png_kinds, png_clear, png_colours, png_frames, png_broken, pnms)
    return [odd for make in makers for odd in make()]


if __name__ == "__main__":
    folder = Path(sys.argv[1])
    folder.mkdir(parents=True, exist_ok=True)
    for odd in odd_images():
        (folder / odd.name).write_bytes(odd.data)
