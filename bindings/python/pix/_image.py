"""Images, and the run of a list of commands on one."""

from __future__ import annotations

import ctypes
from typing import Any, Iterable, Optional, SupportsIndex, Tuple, Union

from pix._bitmap import Bitmap, new_array, write
from pix._calls import copied_rows
from pix._colors import Color
from pix._command import Command
from pix._files import opened, saved, shown
from pix._fresh import zeros
from pix._list import CommandList, PreparedList
from pix._memory import MOST, Buffer, is_a, is_held, refuse_gone
from pix._numbers import index
from pix._pillow import facts_of, image_of, picture_of
from pix._pixels import RGBA8, RGBA16, PixelType, kind_of
from pix._png import LIMIT
from pix._scale import scaled_by_rows, scaled_rows
from pix._turns import turns
from pix._values import Filter, Format, PixError, Status, Weights, origin_of, region_of, u32
from pix._views import View, rows_of


class _Untold:
    """The default for a kind of pixels that isn't given, which is RGBA8."""

    def __repr__(self) -> str:
        return "RGBA8"


_UNTOLD: Any = _Untold()


class Image(View):
    """A view of a buffer as rows of pixels, from top to bottom.

    `pixels` is a buffer of at least (height - 1) * stride + width pixels. It may be read-only if the
    image is only a source. `stride` is the distance from a row to the next, in pixels; the padding
    between rows is not changed. You may leave out width and height if the buffer's shape is (height,
    width, channels). Its rows may have gaps, as in a window of a numpy array; then the stride is
    taken from it. Channels of 16 bits have the machine's byte order. While the view lives, a
    bytearray can't be resized.

    `type` is RGBA8 by default. You have to give it for a buffer of three dimensions, since most
    such arrays have sRGB with a straight alpha, which from_array() takes.

    np.asarray(image) is the pixels, without a copy.

    >>> pixels = bytearray(4 * 3 * 2)
    >>> image = pix.Image(pixels, 3, 2)
    >>> image.run(pix.copy_color((0, 0, 2, 2), pix.srgb(255, 255, 255)))
    >>> pixels.hex(" ", 4)
    'ffffffff ffffffff 00000000 ffffffff ffffffff 00000000'

    A pickle or a copy of it has pixels of its own, without the padding between rows.
    """

    def __init__(
        self, pixels: Buffer, width: Optional[SupportsIndex] = None, height: Optional[SupportsIndex] = None,
        stride: Optional[SupportsIndex] = None, type: PixelType = _UNTOLD,
    ) -> None:  # fmt: skip
        kind = RGBA8 if type is _UNTOLD else kind_of(type)
        rows = rows_of(pixels, width, height, stride, kind._color, kind)
        if type is _UNTOLD and len(rows.memory.shape) > 2:
            raise TypeError(
                f"an array of shape {rows.memory.shape} may have straight alpha, or colors of sRGB, "
                "and an Image has neither: write pix.Image.from_array(array, pix.SRGBA8) for a picture "
                "as files have it, or pix.Image(array, type=pix.RGBA8) for pixels that are "
                "premultiplied and linear"
            )
        super().__init__(rows)

    @classmethod
    def new(cls, width: SupportsIndex, height: SupportsIndex, type: PixelType = RGBA16) -> Image:
        """Makes a transparent image of this size; its buffer is its `pixels`, of bytes.

        Without a `type` it has 16 bits a channel, as open() and from_array() make it. These keep all
        colors of sRGB. RGBA8 needs half the memory, and loses most dark colors.

        Raises PixError if a side is above 2147483647, and MemoryError if there is no memory.

        >>> image = pix.Image.new(3, 2)
        >>> image, image.size, len(image.pixels)
        (<pix.Image 3 x 2, RGBA16>, (3, 2), 48)
        """
        columns, rows = u32(width, "width"), u32(height, "height")
        size = ctypes.sizeof(kind_of(type)._color)
        if max(columns, rows) > MOST:
            raise PixError(Status.BAD_SIZE)
        return cls(zeros(columns * rows * size), columns, rows, type=type)

    @classmethod
    def from_array(
        cls, array: Buffer, format: Format, type: PixelType = RGBA16, size: Optional[Tuple[SupportsIndex, SupportsIndex]] = None
    ) -> Image:
        """Makes an image of the picture in an array, or another buffer, of (height, width,
        samples) or (height, width * samples) elements in a format. There may be gaps between rows,
        and they may go from bottom to top; arrays of other strides are copied first. For a buffer of
        one dimension, such as bytes, pass `size` as (width, height).

        An sRGB picture becomes light in an image of RGBA16. to_array() in the same format returns
        unpainted pixels unchanged if their alpha is at least 13. Below that the alpha comes back,
        but the colors may change: at an alpha of 0 they are 0.

        Raises TypeError if the buffer has other elements or no rows of the format, and PixError if
        it is too short.

        >>> picture = bytes([200, 120, 40, 255, 0, 0, 0, 0])  # or a numpy array of (1, 2, 4)
        >>> image = pix.Image.from_array(picture, pix.SRGBA8, size=(2, 1))
        >>> image[0, 0].srgb
        pix.srgb("#c87828")
        """
        width, height = (None, None) if size is None else size
        source = Bitmap(array, format, width, height, may_copy=True)
        source.refuse_unheld(Status.BAD_SOURCE)
        image = cls.new(source.width, source.height, type)
        write(image._bitmap(), source)
        return image

    def to_array(self, format: Format) -> Any:
        """The picture in a format: a new numpy array of (height, width, samples), or (height,
        width) if a pixel has one sample; a bytearray without numpy.

        The array has the dtype uint8, or uint16 in the machine's order if the format has 16 bits a
        channel. In a bytearray such a channel is two bytes.

        Raises ValueError or TypeError if `format` is no format, PixError if the image's buffer became too short,
        and MemoryError if there is no memory.

        >>> image = pix.Image.new(2, 1)
        >>> image.run(pix.copy_color((0, 0, 1, 1), pix.srgb("#c87828")))
        >>> bytes(image.to_array(pix.SRGBA8)).hex(" ", 4)
        'c87828ff 00000000'
        """
        source, format = self._bitmap(), Format(format)
        source.refuse_unheld(Status.BAD_SOURCE)
        array = new_array(source.width, source.height, format)
        write(Bitmap(array, format, source.width, source.height), source)
        return array

    @classmethod
    def open(
        cls, file: Any, type: PixelType = RGBA16, white: Optional[float] = None, limit: Optional[int] = LIMIT
    ) -> Image:
        """Makes an image of the first picture in a file, turned as its EXIF says. Pass a path, or a
        file that is open for reading bytes.

        Pillow reads it if it is installed, as from_pillow() says. Without Pillow you can read PNG,
        PPM and PGM files. Levels of 16 bits in PNG files, and in gray ones, are kept. The numbers are
        taken as sRGB: a PNG file with chunks that say otherwise gets a ColorWarning. CMYK is
        converted as Pillow does, by the products of the inks.

        A picture of more than `limit` pixels raises an error before it is decoded; None allows any.

        Raises OSError if there is no such file or no whole picture in it, and ValueError if a file
        of numbers of 32 bits doesn't tell which is `white`.

        >>> import io
        >>> image = pix.Image.open(io.BytesIO(b"P6 1 1 255 \\xc8\\x78\\x28"))
        >>> image[0, 0].srgb
        pix.srgb("#c87828")
        """
        kind = kind_of(type)
        return opened(file, white, limit, lambda width, height: cls.new(width, height, kind))

    def save(self, file: Any, format: Optional[str] = None, **options: Any) -> None:
        """Writes the picture into a file: a path, or a file that is open for writing bytes.

        The kind of file is the end of its name, or `format`, by Pillow's names: .png, .ppm and .pgm,
        and with Pillow every kind that it writes, with its options.

        Its colors are sRGB of 8 bits, or of 16 bits in a PNG with bits=16. If all pixels are opaque,
        no alpha is written.

        Raises ValueError if the image has an alpha and the file can't, or for a kind of file that
        can't be written.

        >>> import io
        >>> file = io.BytesIO()
        >>> image = pix.Image.new(3, 2)
        >>> image.save(file, "PNG")
        >>> pix.Image.open(file)
        <pix.Image 3 x 2, RGBA16>
        """
        saved(self, file, format, options)

    def _repr_png_(self) -> Optional[bytes]:
        """The picture that a notebook shows: a PNG file."""
        return shown(self)

    @classmethod
    def from_pillow(
        cls, picture: Any, type: PixelType = RGBA16, white: Optional[float] = None
    ) -> Image:
        """Makes an image of a picture of Pillow, of any mode that Pillow converts to RGBA.

        Gray of 16 bits, in the modes I;16 and I, keeps all of its levels. `white` is the number for
        white in a picture of the mode I or F. You have to give it, except for PNG and PPM files, in
        which it is 65535. If the picture marks a color as transparent, it becomes clear. The picture
        isn't turned as its EXIF says; open() does that.

        >>> from PIL import Image as pillow
        >>> pix.Image.from_pillow(pillow.new("RGB", (3, 2), "#c87828"))
        <pix.Image 3 x 2, RGBA16>
        """
        kind, facts = kind_of(type), facts_of(picture, white)
        return image_of(picture, facts, lambda width, height: cls.new(width, height, kind))

    def to_pillow(
        self,
        mode: str = "RGBA",
        table: Any = None,
        diffuse: bool = False,
        keep_alpha: bool = False,
    ) -> Any:
        """The picture for Pillow, in the mode RGBA, RGB, L or LA, or in P: as indices into a table
        of colors.

        `table` is a buffer of three bytes for each color, or has texts and tuples as srgb() takes
        them. Without it, a table is made as quantize() does by default. With `diffuse` the error of each
        pixel is passed on to its neighbors, as diffuse_indexed() does by default. Pixels with an alpha below 128 get an entry of their own,
        which is transparent. With `keep_alpha` each color has an alpha as a fourth byte: PNG keeps
        it, and GIF has no such colors.

        >>> image = pix.Image.new(2, 1)
        >>> image.run(pix.copy_color((0, 0, 2, 1), pix.srgb("#c87828")))
        >>> image.to_pillow("P", ["#000", "#c80"]).getpixel((0, 0))
        1
        """
        return picture_of(self, mode, table, diffuse, keep_alpha)

    def copy(self, type: Optional[PixelType] = None) -> Image:
        """A copy with pixels of its own, without padding between rows. With a `type` they are
        converted to that kind of pixels.

        >>> pix.Image.new(3, 2, pix.RGBA8).copy(pix.RGBA16)
        <pix.Image 3 x 2, RGBA16>
        """
        kind = self.type if type is None else kind_of(type)
        source = self._bitmap()
        source.refuse_unheld(Status.BAD_SOURCE)
        made = Image.new(self.width, self.height, kind)
        write(made._bitmap(), source)
        return made

    def part(self, region: Iterable[SupportsIndex]) -> Image:
        """A part of it as an image: a view of the same pixels.

        Raises ValueError if the region isn't all in the image.

        >>> image = pix.Image.new(64, 64)
        >>> image.part((16, 16, 8, 8)).run(pix.copy_color((0, 0, 9, 9), pix.srgb("tomato")))
        >>> image[16, 23].srgb
        pix.srgb("#ff6347")
        """
        x, y, width, height = region_of(region)
        memory, element, count, wide, high, stride, type = self._rows
        if not (0 <= x <= wide - width and 0 <= y <= high - height):
            raise ValueError(f"{(x, y, width, height)} is not all in an image of {wide} x {high}")
        if memory.has_gaps:
            raise ValueError("the rows lie apart in an array: slice the array, and make an Image of it")
        if not is_held(count, wide, high, stride):
            raise PixError(Status.BAD_SIZE)
        size = ctypes.sizeof(element)
        first, many = y * stride + x, (height - 1) * stride + width if width and height else 0
        held = self.pixels[first * size : (first + many) * size]
        return Image(held, width, height, stride, type)

    def scaled(
        self, width: SupportsIndex, height: SupportsIndex, filter: Filter = Filter.AREA,
        window: Optional[Iterable[SupportsIndex]] = None,
    ) -> Image:  # fmt: skip
        """The picture at another size, as a new image of the same type.

        With a `window`, a region (x, y, width, height) of that size, only that part is made: a viewer
        pans and zooms without ever making the whole. Windows side by side are the whole without a
        seam, so that threads may make one each; a long call releases the interpreter's lock.

        Pixels are premultiplied and linear, so their mean is what is seen from afar. A mean of
        straight pixels is wrong: it has the color of clear ones. An array of them becomes an Image by
        from_array(), is scaled, and comes back by to_array(); colors of sRGB are scaled in light so.

        Raises PixError, with the status NO_SIDE for a side of 0, TOO_LARGE for a side of this image
        above 65535 or a size that is too large for its sums, and OUTSIDE for a window that is not all
        in the new picture.

        >>> image = pix.Image.new(2, 1)
        >>> image.run(pix.copy_color((1, 0, 1, 1), pix.srgb("#fff")))
        >>> image.scaled(1, 1)[0, 0]
        pix.Color((32768, 32768, 32768, 32768), pix.RGBA16)
        >>> image.scaled(6000, 3000, pix.Filter.LINEAR, window=(2990, 0, 20, 9))
        <pix.Image 20 x 9, RGBA16>
        """
        return scaled_rows(self._rows, width, height, filter, window, lambda wide, high: Image.new(wide, high, self.type))

    def scaled_by(self, across: Weights, down: Weights) -> Image:
        """The picture at another size by two tables of weights, as a new image of the same type.

        It has a column for each of `across`, and a row for each of `down`. This is for a filter that
        Filter has not, for a picture that is moved by a part of a pixel, or for one that is mirrored.
        Each channel is the sum of those of this image by both weights. It is rounded once, to the
        nearest, ties up. An alpha is cut at 0 and at the greatest channel, and a color at 0 and at the
        new alpha. A long call releases the interpreter's lock.

        Raises PixError, with the status NO_SIDE for a side of this image that is 0, TOO_LARGE for one
        above 65535, and BAD_WEIGHTS for a table that is not as Weights says.

        >>> image = pix.Image.new(4, 1)
        >>> image.run(pix.copy_color((1, 0, 1, 1), pix.srgb("#fff")))
        >>> means = pix.Weights([0, 2], 2, [8192, 8192, 8192, 8192])
        >>> image.scaled_by(means, pix.Weights([0], 1, [16384]))[0, 0]
        pix.Color((32768, 32768, 32768, 32768), pix.RGBA16)
        """
        return scaled_by_rows(self._rows, across, down, lambda wide, high: Image.new(wide, high, self.type))

    def __getitem__(self, place: Tuple[SupportsIndex, SupportsIndex]) -> Color:
        """The pixel at (x, y): its channels, premultiplied and linear, and as `srgb` its color.

        >>> image = pix.Image.new(2, 1)
        >>> image.run(pix.copy_color((1, 0, 1, 1), pix.srgb("#c87828")))
        >>> image[1, 0]
        pix.Color((37852, 12309, 1391, 65535), pix.RGBA16)
        >>> image[1, 0].srgb
        pix.srgb("#c87828")
        """
        if type(place) is not tuple or len(place) != 2:
            raise TypeError(f"{place!r} is no place: write image[x, y]")
        x, y = map(index, place)
        memory, element, _, wide, high, stride, kind = self._rows
        if not (0 <= x < wide and 0 <= y < high):
            raise IndexError(f"{(x, y)} is not in an image of {wide} x {high}")
        size = ctypes.sizeof(element)
        held = copied_rows(memory, size, size, 1, (y * stride + x) * size)
        return Color(memoryview(held).cast("H" if kind.max > 255 else "B"), kind)

    def _bitmap(self) -> Bitmap:
        """The rows as a bitmap."""
        rows = self._rows
        return Bitmap.of_rows(rows, Format[f"{rows.type}P"])

    @property
    def type(self) -> PixelType:
        """The kind of pixels."""
        return self._rows.type

    @property
    def pixels(self) -> memoryview:
        """A new view of the buffer: of its bytes, or, if there are gaps between its rows, of the
        buffer as it is."""
        return self._rows.memory.view()

    def __repr__(self) -> str:
        return f"<pix.Image {self.width} x {self.height}, {self.type}>"

    def __reduce__(self) -> tuple:
        return Image, (self._value(), self.width, self.height, None, self.type)

    def run(self, *commands: Union[Command, CommandList], origin: Iterable[SupportsIndex] = (0, 0)) -> None:
        """Runs the commands in order, or none of them. Pass commands, or one CommandList, which is
        checked already.

        With an `origin`, this image is a window of a picture: its first pixel is the point (left,
        top) of the picture, and the regions of the commands are in the picture's coordinates. Each
        pixel gets the value that a run on the whole picture would give it. So you can paint a picture
        tile by tile, in any order, and never have two tiles in memory. Several threads may paint
        bands of rows of one buffer at once, each an image of its own over a slice of a memoryview or
        an array. Windows side by side in one buffer share the memory between their rows, and wait for
        each other.

        Raises PixError if a command is bad, or if the window ends past 2147483647. Raises TypeError
        if the buffer is read-only, if an argument is no Command, or if a source has another type of
        pixels. Raises ValueError if a source or a matte shares memory with this image, or if a color
        is none of its type.

        >>> image, red = pix.Image.new(2, 2), pix.srgb("#c80000")
        >>> image.run(pix.copy_color((0, 0, 2, 2), pix.srgb("white")), pix.composite_color((1, -5, 9, 6), red))
        >>> image[1, 0].srgb, image[1, 1].srgb
        (pix.srgb("#c80000"), pix.srgb("#ffffff"))
        >>> tile = pix.Image.new(2, 2)  # the pixels from (100, 200) to (101, 201) of a picture
        >>> tile.run(pix.copy_color((101, 200, 1, 1), red), origin=(100, 200))
        >>> tile[1, 0].srgb
        pix.srgb("#c80000")
        """
        memory, _, count, width, height, stride, type = self._rows
        left, top = origin_of(origin)
        if len(commands) == 1 and is_a(commands[0], CommandList):
            prepared = commands[0]._prepared
            if prepared.type is not type:
                said = f"a list for {prepared.type} doesn't go with an image of {type}"
                raise TypeError(f"{said}: write pix.CommandList(.., type=pix.{type})")
        else:
            prepared = PreparedList(commands, type)
        if memory.is_readonly and memory.length:
            raise TypeError("the buffer is read-only")
        if not (memory.alive and prepared.alive):
            refuse_gone(memory, prepared)
        prepared.refuse_shared(memory)
        done, size = ctypes.c_size_t(), len(prepared.commands)
        if not width or not height:  # nothing is painted: only its size and the commands are tested
            bitmap = self._bitmap()
            if not bitmap.is_held or max(left + width, top + height) > MOST:
                raise PixError(Status.BAD_SIZE)
            count = left = top = width = height = stride = 0
        arguments = memory.address, count, left, top, width, height, stride, prepared.address, size, done
        is_long = prepared.is_long(width * height)
        call, sources = type._calls[is_long], prepared.sources
        status = turns.take(is_long, call, arguments, [memory], sources)
        if status == Status.BAD_SIZE:
            raise PixError(Status.BAD_SIZE)
        if status:
            raise PixError(Status(status), done.value)
