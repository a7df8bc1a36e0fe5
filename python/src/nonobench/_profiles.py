"""Whether a colour profile is that of sRGB, by its colorants and curves."""

from __future__ import annotations

import math
import struct
from typing import Callable, Optional

# Where red, green and blue of sRGB are for the white of D50, and how far off they may be.
_COLORANTS = {
    b"rXYZ": (0.4361, 0.2225, 0.0139),
    b"gXYZ": (0.3851, 0.7169, 0.0971),
    b"bXYZ": (0.1431, 0.0606, 0.7141),
}
_NEAR = 0.002
_SAMPLES = range(0, 256, 5)


def is_srgb(profile: bytes) -> bool:
    """Whether a profile says what sRGB is, as GIMP, ImageMagick and macOS write it."""
    try:
        tags = _tags(profile)
        return (
            profile[16:24] == b"RGB XYZ "
            and not any(name[:3] in (b"A2B", b"B2A", b"D2B") for name in tags)
            and all(_is_near(_xyz(tags[name]), wanted) for name, wanted in _COLORANTS.items())
            and all(_is_srgb_curve(tags[name]) for name in (b"rTRC", b"gTRC", b"bTRC"))
        )
    except (KeyError, IndexError, struct.error, ArithmeticError, ValueError):
        return False


def _tags(profile: bytes) -> dict[bytes, bytes]:
    (count,) = struct.unpack_from(">I", profile, 128)
    entries = (struct.unpack_from(">4sII", profile, 132 + 12 * at) for at in range(min(count, 100)))
    return {name: profile[start : start + size] for name, start, size in entries}


def _xyz(tag: bytes) -> tuple[float, ...]:
    return tuple(number / 65536 for number in struct.unpack_from(">3i", tag, 8))


def _is_near(found: tuple[float, ...], wanted: tuple[float, ...]) -> bool:
    return all(abs(a - b) <= _NEAR for a, b in zip(found, wanted))


def _is_srgb_curve(tag: bytes) -> bool:
    curve = _curve(tag)
    if curve is None:
        return False
    return all(abs(curve(at / 255) - _srgb(at / 255)) <= _NEAR for at in _SAMPLES)


def _srgb(sample: float) -> float:
    return sample / 12.92 if sample <= 0.04045 else math.pow((sample + 0.055) / 1.055, 2.4)


def _curve(tag: bytes) -> Optional[Callable[[float], float]]:
    """The light that a sample stands for: by a table, or by a formula with a straight part."""
    if tag[:4] == b"curv":
        (count,) = struct.unpack_from(">I", tag, 8)
        table = struct.unpack_from(f">{min(count, 65536)}H", tag, 12)
        return (lambda at: _between(table, at)) if count > 2 else None
    if tag[:4] != b"para" or struct.unpack_from(">H", tag, 8) != (3,):
        return None
    numbers: tuple[int, ...] = struct.unpack_from(">5i", tag, 12)
    gamma, a, b, c, d = (number / 65536 for number in numbers)
    return lambda at: c * at if at < d else math.pow(a * at + b, gamma)


def _between(table: tuple[int, ...], at: float) -> float:
    index = at * (len(table) - 1)
    low = min(int(index), len(table) - 2)
    return (table[low] + (table[low + 1] - table[low]) * (index - low)) / 65535
