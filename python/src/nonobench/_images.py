"""PNG and Netpbm images as puzzles, a cell for each pixel. docs/AUDIT.md has the rules.

Pillow unpacks PNG. What is looked at here is what a PNG says of its colours, and whether all of it
is there.
"""

from __future__ import annotations

import contextlib
import io
import re
import struct
import zlib
from typing import Iterator, NamedTuple, NoReturn, Optional

from ._answers import ImageError
from ._calls import MOST_CELLS, MOST_SAMPLE, Bytes, Colour, bytes_of, picture_of, triple_of
from ._profiles import is_srgb

WHITE: Colour = (255, 255, 255)
BLACK: Colour = (0, 0, 0)

# Why an image is refused, and how to mend it.
BOTH, CORNERS, HALF = "white and transparent", "no background", "half transparent"
DEEP, PROFILE, GAMMA = "samples of 16 bits", "a colour profile", "a gamma"
FRAMES, TURNED, DAMAGED = "several frames", "turned by its orientation", "damaged"
MENDED = {
    BOTH: "name a background that no opaque cell has",
    DEEP: "save it with 8 bits for each sample",
    PROFILE: "convert its colours to sRGB",
    GAMMA: "convert its colours to sRGB",
    FRAMES: "save one picture",
    HALF: "make each pixel opaque or wholly transparent",
    TURNED: "turn its pixels, and leave out the Exif",
    DAMAGED: "save it once more",
    CORNERS: "no cell is white or transparent, and the corners differ: name the background",
}
# What other files begin with.
OTHERS = {
    "GIF": rb"GIF8",
    "BMP": rb"BM",
    "WebP": rb"RIFF....WEBP",
    "JPEG": rb"\xff\xd8\xff",
    "TIFF": rb"II\*\0|MM\0\*",
    "AVIF": rb"....ftyp",
}
PNG = b"\x89PNG\r\n\x1a\n"
NETPBM = re.compile(rb"P[12456]")


class Pixels(NamedTuple):
    """The pixels of an image, row by row."""

    columns: int
    maxval: int
    cells: list[Optional[Colour]]  # none is transparent
    is_near: bool = False  # a browser may show colours that are a little different
    is_png: bool = False

    def corners(self) -> set[Optional[Colour]]:
        """The colours of the four corners."""
        first, last = self.cells[: self.columns], self.cells[-self.columns :]
        return {first[0], first[-1], last[0], last[-1]}

    def picture(self, background: Colour) -> bytes:
        """The P3 text, in which what is transparent has the background's colour, and no opaque cell
        has it then."""
        colours = set(self.cells)
        if {None, background} <= colours:
            _refuse(BOTH)
        if self.is_near and _has_near(colours | {WHITE, BLACK, background}):
            _refuse(PROFILE)
        triples = (background if cell is None else cell for cell in self.cells)
        return picture_of(self.columns, len(self.cells) // self.columns, triples, self.maxval)


def colour_shown(colour: Colour, maxval: int) -> Colour:
    """A colour of samples from 0 to maxval as it is shown: from 0 to 255, rounded, halves up.
    ValueError: it is none of these."""
    if maxval not in range(1, MOST_SAMPLE + 1):
        raise ValueError(f"maxval must be a whole number from 1 to {MOST_SAMPLE}")
    red, green, blue = (
        (510 * sample + maxval) // (2 * maxval) for sample in triple_of(colour, maxval, "colour")
    )
    return red, green, blue


def picture_of_image(data: Bytes, background: Optional[Colour] = None) -> bytes:
    """The P3 text of a PNG or Netpbm image, a cell for each pixel. A P3 text stays as it is.

    Transparent pixels get the background, by default white; ValueError: it is no triple up to the
    image's maxval. Raises ImageError if the image is refused, and ImportError if Pillow is missing
    for it.
    """
    data = bytes_of(data)
    if data.startswith(b"P3"):
        return data
    pixels = pixels_of(data)
    ground = (pixels.maxval,) * 3 if background is None else background
    return pixels.picture(triple_of(ground, pixels.maxval))


def auto_background(pixels: Pixels) -> tuple[Colour, str]:
    """The background of a PNG that names none, and what tells it: what is transparent, else white,
    else the colour of all corners."""
    if None in pixels.cells:
        return WHITE, "transparent"
    if WHITE in pixels.cells:
        return WHITE, "white"
    corner, *others = pixels.corners()
    if others or corner is None:
        _refuse(CORNERS)
    return corner, "corners"


def pixels_of(data: bytes) -> Pixels:
    """The pixels of an image."""
    if data.startswith(PNG):
        read = _png
    elif NETPBM.match(data):
        read = _netpbm
    else:
        kind = kind_of(data)
        raise ImageError(
            "not read", f"this is {kind or 'no image'}: convert it to PNG: nonobench.html opens it"
        )
    try:
        return read(data)
    except (ImageError, MemoryError, ImportError):
        raise
    except Exception:  # whatever a decoder makes of a stranger's bytes
        _refuse(DAMAGED)


def is_image(data: bytes) -> bool:
    """Whether a file begins as an image does, but for P3."""
    return data.startswith(PNG) or bool(NETPBM.match(data) or kind_of(data))


def kind_of(data: bytes) -> str:
    """What a file is that is not read; nothing if that is not known."""
    return next((kind for kind, sign in OTHERS.items() if re.match(sign, data, re.DOTALL)), "")


def prepare() -> None:
    """Loads Pillow, if it is there. Within a bound of memory it might be left half loaded."""
    with contextlib.suppress(ImportError):
        import PIL.PngImagePlugin  # type: ignore[import]  # noqa: F401


def _refuse(reason: str) -> NoReturn:
    raise ImageError(reason, f"the image is refused: {reason} ({MENDED[reason]})")


def _need(is_right: object, reason: str = DAMAGED) -> None:
    if not is_right:
        _refuse(reason)


def _bounded(columns: int, rows: int) -> None:
    """A size is refused before anything is unpacked."""
    _need(columns > 0 and rows > 0)
    if columns > MOST_CELLS or rows > MOST_CELLS:
        most = f"{MOST_CELLS} by {MOST_CELLS}"
        raise ImageError("a size", f"{columns} by {rows} pixels, and a puzzle has at most {most}")


def _has_near(colours: set[Optional[Colour]]) -> bool:
    """Whether two of some colours look alike (docs/SESSION.md)."""
    triples = [colour for colour in colours if colour]
    return any(_are_near(a, b) for at, a in enumerate(triples) for b in triples[:at])


def _are_near(a: Colour, b: Colour) -> bool:
    red, green, blue = ((one - other) ** 2 for one, other in zip(a, b))
    reds = a[0] + b[0]
    return (1024 + reds) * red + 2048 * green + (1534 - reds) * blue < 2_097_152


# The chunks of a PNG in their order: `s` says how colours are meant, and `a` may be left out.
_COLOURS = (b"gAMA", b"cHRM", b"sRGB", b"iCCP", b"cICP")
_CHUNKS = {b"IHDR": "H", b"PLTE": "P", b"tRNS": "t", b"IDAT": "D", b"IEND": "E"}
_CHUNKS.update(dict.fromkeys(_COLOURS, "s"))
_ORDER = re.compile("H[as]*(Pa*)?(ta*)?D+a*E")
_CHANNELS = {0: 1, 2: 3, 3: 1, 4: 2, 6: 4}
_PRIMARIES = (31270, 32900, 64000, 33000, 30000, 60000, 15000, 6000)  # those of sRGB
_WHOLE = ((0, 0, 1, 1),)
_PASSES = (
    (0, 0, 8, 8),
    (4, 0, 8, 8),
    (0, 4, 4, 8),
    (2, 0, 4, 4),
    (0, 2, 2, 4),
    (1, 0, 2, 2),
    (0, 1, 1, 2),
)


def _chunks(data: bytes) -> Iterator[tuple[bytes, bytes]]:
    """The chunks of a PNG up to its end."""
    at, name = 8, b""
    while name != b"IEND":
        size, name = struct.unpack_from(">I4s", data, at)
        yield name, data[at + 8 : at + 8 + size]
        at += 12 + size


def _png(data: bytes) -> Pixels:
    chunks = list(_chunks(data))
    names = [name for name, _ in chunks]
    order = "".join(_CHUNKS.get(name, "a" if name[0] & 0x20 else "?") for name in names)
    _need(_ORDER.fullmatch(order) and all(names.count(name) < 2 for name in _COLOURS))
    parts = dict(chunks)
    columns, rows, depth, kind, *_, laced = struct.unpack(">IIBBBBB", parts[b"IHDR"])
    _bounded(columns, rows)
    _need(not parts.keys() & {b"acTL", b"fcTL", b"fdAT"}, FRAMES)
    _need(depth < 16, DEEP)
    is_near = _is_near_srgb(parts)
    passes = _PASSES if laced else _WHOLE
    size = sum(_size_of(columns, rows, depth * _CHANNELS[kind], part) for part in passes)
    packed = b"".join(body for name, body in chunks if name == b"IDAT")
    # Pillow takes what is missing for black, and a browser for transparent.
    _need(len(zlib.decompressobj().decompress(packed, size)) == size)
    return Pixels(columns, 255, _unpacked(data, depth, parts), is_near, True)


def _size_of(columns: int, rows: int, bits: int, part: tuple[int, int, int, int]) -> int:
    """The bytes that a pass of the rows has, of which each is behind a byte for its filter."""
    left, top, right, down = part
    wide, high = (columns - left + right - 1) // right, (rows - top + down - 1) // down
    return high * (1 + (wide * bits + 7) // 8) if wide > 0 else 0


def _unpacked(data: bytes, depth: int, parts: dict[bytes, bytes]) -> list[Optional[Colour]]:
    """The pixels that Pillow unpacks."""
    from PIL import Image

    with Image.open(io.BytesIO(data), formats=["PNG"]) as image:
        image.load()
        _need(image.getexif().get(0x112, 1) == 1, TURNED)
        if image.mode == "P":
            _need(image.getextrema()[1] < len(parts[b"PLTE"]) // 3)
        elif image.mode in ("1", "L") and b"tRNS" in parts:  # in the scale of the file's samples
            key = struct.unpack(">H", parts[b"tRNS"])[0]
            image.info["transparency"] = key * 255 // ((1 << depth) - 1)
        raw = image.convert("RGBA").tobytes()
    pixels = [raw[at : at + 4] for at in range(0, len(raw), 4)]
    _need({pixel[3] for pixel in pixels} <= {0, 255}, HALF)
    shown = {pixel: (pixel[0], pixel[1], pixel[2]) if pixel[3] else None for pixel in set(pixels)}
    return [shown[pixel] for pixel in pixels]


def _is_near_srgb(parts: dict[bytes, bytes]) -> bool:
    """Whether the colours of a PNG are those of sRGB but for rounding. Others are refused."""
    _need(b"cICP" not in parts, PROFILE)
    _need(parts.get(b"sRGB", b"\0") in (b"\0", b"\1", b"\2", b"\3"))
    if b"iCCP" in parts:
        packed = parts[b"iCCP"].partition(b"\0")[2][1:]
        _need(is_srgb(zlib.decompressobj().decompress(packed, 1 << 20)), PROFILE)
        return True
    gamma = struct.unpack(">I", parts.get(b"gAMA", struct.pack(">I", 45455)))[0]
    _need(gamma == 45455, GAMMA)
    if not {b"gAMA", b"cHRM"} <= parts.keys() or b"sRGB" in parts:
        return False
    found = struct.unpack(">8I", parts[b"cHRM"])
    _need(all(abs(a - b) <= 100 for a, b in zip(found, _PRIMARIES)), PROFILE)
    return True


# Between the numbers of a header: blanks and comments, some of them at a time, since a pattern
# takes memory for each.
_BLANK = re.compile(rb"(?:[ \t\n\v\f\r]+|#[^\r\n]*[\r\n]){1,999}")
_DIGITS = re.compile(rb"0*([0-9]{1,9})")
_COMMENTS = re.compile(rb"(?:#[^\r\n]*\s*){1,999}")


def _header(data: bytes, count: int) -> tuple[list[int], int]:
    """So many numbers behind the sign of a Netpbm image, and where they end."""
    numbers: list[int] = []
    at = 2
    for _ in range(count):
        begun = at
        while blank := _BLANK.match(data, at):
            at = blank.end()
        digits = _DIGITS.match(data, at)
        if at == begun or digits is None:
            _refuse(DAMAGED)
        numbers.append(int(digits[1]))
        at = digits.end()
    return numbers, at


def _netpbm(data: bytes) -> Pixels:
    """Bits, greys and colours, plain or raw, in the scale that the file has."""
    kind = data[1] - 48
    is_bits = kind in (1, 4)
    numbers, end = _header(data, 2 if is_bits else 3)
    columns, rows, maxval = (*numbers, 1)[:3]
    _bounded(columns, rows)
    _need(0 < maxval <= MOST_SAMPLE)
    step = 3 if kind == 6 else 1
    if kind > 3:
        samples = _raw_samples(data[end:], rows, columns * step, 0 if is_bits else maxval)
    else:
        samples = _plain_samples(data[end:], rows * columns, is_bits)
    _need(len(samples) == rows * columns * step and max(samples) <= maxval)
    if step == 3:
        triples = list(zip(samples[::3], samples[1::3], samples[2::3]))
    else:
        triples = [((maxval - one if is_bits else one),) * 3 for one in samples]
    return Pixels(columns, maxval, list(triples))


def plain_words(text: bytes, most: int) -> list[bytes]:
    """The words of a plain text, of which comments are none, and at the most so many; then the
    rest."""
    return (_COMMENTS.sub(b" ", text) if b"#" in text else text).split(None, most)


def _plain_samples(text: bytes, count: int, is_bits: bool) -> list[int]:
    """The samples behind a header, which the caller counts: fewer than `count`, or one more, if
    their number is wrong."""
    words = plain_words(text, count + 1)[: count + 1]
    _need(all(map(bytes.isdigit, words)))
    if is_bits:
        return [digit - 48 for digit in b"".join(words)[: count + 1]]
    return [int(word.lstrip(b"0")[:9] or b"0") for word in words]


def _raw_samples(raster: bytes, rows: int, count: int, maxval: int) -> list[int]:
    """The samples behind the blank that ends a header, so many of each row; bits if there is no
    maxval."""
    each = 2 if maxval > 255 else 1
    wide = count * each if maxval else (count + 7) // 8
    _need(raster[:1].isspace())
    more = raster[1 + rows * wide :].strip()
    _need(not more, FRAMES if more[:1] == b"P" else DAMAGED)
    raster = raster[1 : 1 + rows * wide]
    if each == 2:
        return list(struct.unpack(f">{len(raster) // 2}H", raster))
    if maxval:
        return list(raster)
    lines = [raster[at : at + wide] for at in range(0, len(raster), wide)]
    return [line[at // 8] >> 7 - at % 8 & 1 for line in lines for at in range(count)]
