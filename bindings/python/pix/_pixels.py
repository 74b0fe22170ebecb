"""The kinds of pixels, and the layout of their commands, which must be the library's layout."""

from __future__ import annotations

import ctypes
from enum import Enum
from typing import Any, List

from pix._library import CALLS, LONG, PER_COMMAND, libraries
from pix._memory import is_a
from pix._values import Format


class RegionRecord(ctypes.Structure):
    """A region as the library reads it."""

    _fields_ = [("x", ctypes.c_int32), ("y", ctypes.c_int32), ("width", ctypes.c_uint32), ("height", ctypes.c_uint32)]


# Masks of 8 bits, which a command for images of 16 bits has too.
MATTES8 = [("mattes8", ctypes.c_void_p), ("matte8_count", ctypes.c_size_t)]


def command_record(name: str, color: Any, channel: Any) -> Any:
    """Makes the class of a command as the library reads it, with a color and an opacity of these types."""
    fields = [("kind", ctypes.c_uint32), ("op", ctypes.c_uint32), ("to", RegionRecord), ("from_", RegionRecord)]
    fields += [("color", color), ("pixels", ctypes.c_void_p), ("pixel_count", ctypes.c_size_t)]
    fields += [("mattes", ctypes.c_void_p), ("matte_count", ctypes.c_size_t)]
    fields += [("width", ctypes.c_uint32), ("height", ctypes.c_uint32), ("stride", ctypes.c_uint32)]
    fields += [("mask", RegionRecord), ("mask_width", ctypes.c_uint32), ("mask_height", ctypes.c_uint32)]
    fields += [("mask_stride", ctypes.c_uint32), ("alpha", channel)]
    fields += MATTES8 if channel is ctypes.c_uint16 else []
    return type(name, (ctypes.Structure,), {"_fields_": fields})


class PixelType(Enum):
    """A kind of pixels: red, green, blue and alpha of 8 or 16 bits, or gray and alpha of 8 bits."""

    RGBA8 = (4, ctypes.c_uint8, "pix_raw_run_window")
    RGBA16 = (4, ctypes.c_uint16, "pix_raw_run_window_rgba16")
    GRAYA8 = (2, ctypes.c_uint8, "pix_raw_run_window_graya8")

    def __init__(self, channels: int, channel: Any, call: str) -> None:
        self._channel = channel
        self._color = channel * channels
        self._calls = [getattr(library, call) for library in libraries]
        self._cost = CALLS[call][0]
        self._command = command_record(f"Command{self.name}", self._color, channel)

    @property
    def channels(self) -> int:
        """How many channels a pixel has, with the alpha, which is the last one."""
        return ctypes.sizeof(self._color) // ctypes.sizeof(self._channel)

    @property
    def max(self) -> int:
        """The greatest number of a channel: 255 or 65535."""
        return 256 ** ctypes.sizeof(self._channel) - 1

    def _is_long(self, commands: int, pixels: int) -> bool:
        """Whether this many commands on an image of this many pixels are a long call."""
        return commands * (PER_COMMAND + pixels * self._cost) > LONG

    def __repr__(self) -> str:
        return self.name

    __str__ = __repr__

    def __reduce_ex__(self, protocol: Any) -> tuple:
        return getattr, (PixelType, self.name)


# Each by its name, for type checkers.
RGBA8, RGBA16, GRAYA8 = PixelType.RGBA8, PixelType.RGBA16, PixelType.GRAYA8


def kind_of(type: Any) -> PixelType:
    """The kind of pixels, if it is one."""
    if is_a(type, PixelType):
        return type
    if isinstance(type, str) and type.upper() in PixelType.__members__:
        raise TypeError(f"{type!r} is a text: write pix.{type.upper()}")
    if isinstance(type, Format):
        instead = f"pix.Image.from_array(pixels, pix.Format.{type.name})"
        raise TypeError(f"{type.name} is a format, as files have pictures: write {instead}, or type=pix.RGBA8")
    raise TypeError(f"{type!r} is no kind of pixels: write pix.RGBA8, pix.RGBA16 or pix.GRAYA8")


# The version of the binary interface, and the fields with offsets that the library returns, in its order.
ABI_VERSION = 4
REGION = "x y width height"
COMMAND = "kind op to from_ color pixels pixel_count mattes matte_count width height stride mask mask_width mask_height mask_stride alpha"


def layout(structure: Any, names: str) -> List[int]:
    """The size of a structure and the offsets of these fields."""
    return [ctypes.sizeof(structure)] + [getattr(structure, name).offset for name in names.split()]


def refuse_another(library: Any) -> None:
    """Raises an ImportError if the library has another version or another layout than this package."""
    facts = [ABI_VERSION] + [ctypes.sizeof(type._color) for type in PixelType] + layout(RegionRecord, REGION)
    for type in PixelType:
        facts += layout(type._command, COMMAND)
        facts += [getattr(type._command, name).offset for name, _ in MATTES8 if hasattr(type._command, name)]
    if [library.pix_layout(i) for i in range(len(facts) + 1)] != facts + [2**32 - 1]:
        raise ImportError("pix: the library has another version or layout than this package")


refuse_another(libraries[0])
