"""The color settings of a PNG file. All are read as sRGB, and others cause a warning."""

from __future__ import annotations

import os
import struct
import sys
import warnings
from typing import Any, Dict, Optional, Sequence

# The chunk gAMA of sRGB, and its cHRM: white, red, green and blue, each x and y.
_GAMMA, _PLACES = 0.45455, (0.3127, 0.329, 0.64, 0.33, 0.3, 0.6, 0.15, 0.06)


class ColorWarning(UserWarning):
    """A file has other colors than sRGB, by its chunk iCCP, gAMA or cHRM, and they are read as sRGB."""


def other_colors(
    profile: Optional[bytes], is_srgb: bool, gamma: Optional[float], places: Optional[Sequence[float]]
) -> Optional[str]:
    """The file's color settings other than sRGB, in PNG's order of precedence; None if there are none."""
    if profile is not None:
        is_srgb = b"sRGB" in profile or "sRGB".encode("utf-16-be") in profile
        return None if is_srgb else "a profile of their own (iCCP)"
    if is_srgb:
        return None
    said = []
    if gamma is not None and abs(gamma - _GAMMA) > 0.0005:
        said.append(f"gAMA {gamma:.5f}")
    if places is not None and any(abs(a - b) > 0.001 for a, b in zip(places, _PLACES)):
        said.append("a cHRM of their own")
    return " and ".join(said) or None


def of_pillow(info: Dict[Any, Any]) -> Optional[str]:
    """The color settings of a PNG file that Pillow opened."""
    return other_colors(info.get("icc_profile"), "srgb" in info, info.get("gamma"), info.get("chromaticity"))


def of_chunks(found: Dict[bytes, bytes]) -> Optional[str]:
    """The color settings in the chunks of a PNG file; incomplete chunks are ignored."""
    gamma, places = found.get(b"gAMA", b""), found.get(b"cHRM", b"")
    return other_colors(
        unpacked(found[b"iCCP"]) if b"iCCP" in found else None,
        b"sRGB" in found,
        struct.unpack(">I", gamma)[0] / 100000 if len(gamma) == 4 else None,
        [place / 100000 for place in struct.unpack(">8I", places)] if len(places) == 32 else None,
    )


def unpacked(data: bytes) -> bytes:
    """The bytes of a profile in the chunk iCCP: its name, two zeros, and the packed data."""
    import zlib

    name, _, packed = data.partition(b"\0")
    try:
        return zlib.decompressobj().decompress(packed[1:], 1 << 20)
    except zlib.error:
        return name


def warn(name: str, said: Optional[str]) -> None:
    """Warns the caller of the package of a file's color settings."""
    if said is None:
        return
    level, frame, home = 1, sys._getframe(), os.path.dirname(__file__)
    while frame.f_back is not None and os.path.dirname(frame.f_code.co_filename) == home:
        level, frame = level + 1, frame.f_back
    warnings.warn(f"{name}: its colors have {said}, and are read as sRGB: convert the file, or save it with sRGB", ColorWarning, level)
