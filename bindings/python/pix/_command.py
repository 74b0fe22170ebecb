"""Commands: changes of an image as values."""

from __future__ import annotations

from typing import Any, Iterable, List, Optional, SupportsIndex, Tuple, Union

from pix._colors import AnyColor, Color, Srgb, fitted, taken
from pix._memory import NOWHERE, Memory, is_a, name_of
from pix._numbers import index
from pix._pixels import PixelType, RegionRecord
from pix._values import Op, Region, op_of, region_of, u32
from pix._views import MASK8, Rows, View

# made by tools/names: kinds
NAMES = ("clear", "copy_color", "copy_image", "composite_color", "composite_image", "composite_matte",
         "composite_image_matte", "composite_image_alpha")  # fmt: skip
# made by tools/names: end


class Command:
    """A change of an image; the functions of this package make it. It holds its source, and its numbers stay as they are."""

    __slots__ = ("_kind", "_op", "_to", "_color", "_source", "_from", "_mask", "_mask_from", "_alpha")

    def __init__(
        self, kind: SupportsIndex, to: Iterable[SupportsIndex] = (0, 0, 0, 0), color: Optional[AnyColor] = None,
        op: SupportsIndex = Op.SRC, source: Optional[View] = None, from_: Optional[Iterable[SupportsIndex]] = None,
        mask: Optional[View] = None, mask_from: Optional[Iterable[SupportsIndex]] = None, alpha: SupportsIndex = 0,
    ) -> None:  # fmt: skip
        for view in (source, mask):
            if view is not None and not is_a(view, View):
                raise TypeError(f"{type(view).__name__} is neither an Image nor a Matte")
        self._kind = u32(kind, "kind")
        self._op = op_of(op)
        self._to = region_of(to)
        self._color = taken(color)
        self._source = source
        self._from = _all_of(source) if from_ is None else region_of(from_)
        self._mask = mask
        self._mask_from = _all_of(mask) if mask_from is None else region_of(mask_from)
        self._alpha = index(alpha)

    @property
    def kind(self) -> int:
        """0 clears; 1 and 2 copy a color and an image; 3 to 5 composite a color, an image and a matte, and 6 and 7 an image through a mask and at an opacity."""
        return self._kind

    @property
    def op(self) -> int:
        """The number of the operator, as in Op."""
        return self._op

    @property
    def to(self) -> Region:
        """The region that is changed, in pixels of the image."""
        return self._to

    @property
    def color(self) -> Union[Tuple[int, ...], Color, Srgb, None]:
        """The color as it was given, if there is one: a number for each channel of a pixel, or a color made by pix.srgb()."""
        return self._color

    @property
    def source(self) -> Any:
        """The Image or the Matte that is read, if there is one."""
        return self._source

    @property
    def from_(self) -> Region:
        """The region of the source, in its pixels or values."""
        return self._from

    @property
    def mask(self) -> Any:
        """The Matte through which an image is composited, if there is one."""
        return self._mask

    @property
    def mask_from(self) -> Region:
        """The region of the mask, in its values."""
        return self._mask_from

    @property
    def alpha(self) -> int:
        """The opacity at which an image is composited."""
        return self._alpha

    def __repr__(self) -> str:
        name = NAMES[self._kind] if self._kind < len(NAMES) else f"command {self._kind}"
        op = f", {Op(self._op)!r}" if 2 < self._kind < len(NAMES) and self._op < len(Op) else ""
        alpha = self._alpha if self._kind == 7 else None
        parts = [part for part in (self._color, self._source, self._mask, alpha) if part is not None]
        return f"<pix.{name} to {self._to}{''.join(f', {part}' for part in parts)}{op}>"

    def __reduce__(self) -> tuple:
        numbers = self._kind, self._to, self._color, self._op, self._source, self._from
        return Command, (*numbers, self._mask, self._mask_from, self._alpha)


def _all_of(view: Optional[View]) -> Region:
    """The region of a whole view, or an empty one without a view."""
    return region_of((0, 0, 0, 0) if view is None else (0, 0, view.width, view.height))


def made(command: Command, type: PixelType) -> Tuple[Any, List[Memory]]:
    """The command as the library reads it, for an image of this type, and the memory that it reads.

    It runs no user code: all numbers and buffers were taken when the command was made.
    """
    if not is_a(command, Command):
        raise TypeError(f"{name_of(command)} is not a Command: pass commands one by one, as in run(*commands)")
    record = type._command(kind=command._kind, op=command._op)
    record.to, record.from_ = RegionRecord(*command._to), RegionRecord(*command._from)
    record.pixels = record.mattes = NOWHERE
    if hasattr(record, "mattes8"):
        record.mattes8 = NOWHERE
    color, source = command._color, command._source
    read = [] if source is None else [note(record, source._rows, type)]
    if command._mask is not None:
        read.append(note_mask(record, command._mask._rows, command._mask_from, type))
    if not 0 <= command._alpha <= type.max:
        raise ValueError(f"{command._alpha} is no opacity of {type}")
    record.alpha = command._alpha
    if color is not None:
        record.color = type._color(*fitted(color, type))
    return record, read


def note(record: Any, rows: Rows, type: PixelType) -> Memory:
    """Sets the source in a command for an image of this type, and returns the memory that is read."""
    record.width, record.height, record.stride = rows.width, rows.height, rows.stride
    if rows.type is not None:
        if rows.type is not type:
            raise TypeError(
                f"a source of {rows.type} doesn't go with an image of {type}: write source.copy(pix.{type}), or make the"
                f" image with pix.{rows.type}"
            )
        record.pixels, record.pixel_count = rows.memory.address, rows.elements
    else:
        note_mattes(record, rows, type)
    return rows.memory


def note_mattes(record: Any, rows: Rows, type: PixelType) -> None:
    """Sets the matte in a command for an image of this type. A matte of 8 bits goes with all images."""
    if rows.element is type._channel:
        record.mattes, record.matte_count = rows.memory.address, rows.elements
    elif rows.type is None and rows.element is MASK8:
        record.mattes8, record.matte8_count = rows.memory.address, rows.elements
    else:
        raise TypeError(f"a mask of 16 bits doesn't go with an image of {type}: make it of bytes, with bits=8")


def note_mask(record: Any, rows: Rows, from_: Region, type: PixelType) -> Memory:
    """Sets the mask of an image in a command, and returns the memory that is read."""
    record.mask = RegionRecord(*from_)
    record.mask_width, record.mask_height, record.mask_stride = rows.width, rows.height, rows.stride
    note_mattes(record, rows, type)
    return rows.memory
