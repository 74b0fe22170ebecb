"""Compositing of raster images in buffers of Python, by ctypes over the library pix.

You make commands and run a list of them on an Image, which is a view of a buffer: a bytearray, an array, a writable
memoryview or a numpy array. The pixels are changed in place; nothing is copied.

    import pix

    pixels = bytearray(4 * 64 * 64)
    image = pix.Image(pixels, 64, 64)
    image.run(
        pix.copy_color((0, 0, 64, 64), (0, 0, 64, 255)),
        pix.composite_color((50, -8, 20, 20), (90, 40, 0, 128), pix.Op.SRC_OVER),
    )

Pixels are premultiplied and linear: the color channels are multiplied by the alpha and proportional to light. Write
usual colors with srgb(): srgb("#c87828") works on all images. An ambiguous tuple, such as one of 8 bits on an image of
16, raises an error.

Image.open() reads picture files and save() writes them. Image.from_array() and Image.from_pillow() make images from
other packages' pictures, and to_array() and to_pillow() convert them back. With 16 bits a channel, pixels with an alpha
of at least 13 come back unchanged. np.asarray(image) is the pixels themselves. convert() converts with 8 bits, and
convert_bitmap() between any two formats.

A region is a tuple (x, y, width, height) in pixels. It may be anywhere: points outside an image are neither read nor
written. A list is tested as a whole before its first command runs: if an exception is raised, no pixel was changed.

If you run a list often, make a CommandList, which is tested once: image.run(list) then takes a third of the time that
as many commands take one by one.

map_indexed() turns a picture into indices into a table of colors, for files such as GIF and PNG with a palette. look_up()
turns them back into colors, and pack_row() packs several into a byte. map_indexed_rgba() takes a table of colors with an
alpha, which PNG can have.

image.scaled(width, height) is the picture at another size, or a window of that. image.scaled_by(across, down) makes one by
tables of weights of your own.

You can paint a picture tile by tile. Each tile is an Image of its own that runs the same commands at its place, with
tile.run(*commands, origin=(left, top)); the result is the picture painted whole. Several threads may paint bands of rows
of one buffer at once.

A buffer has bytes, or, for pixels of 16 bits a channel, words of 16 bits in the machine's byte order. It is asked for its
memory once, and pinned as long as a view of it lives: a bytearray can't be resized meanwhile. A long call releases the
interpreter's lock, so that two threads work at once. A call that needs memory which another one is writing waits for
it. A signal handler may paint, and an interrupt leaves nothing behind.

A handler or a __del__ that paints may run during a call. If two threads do so, each on the image of the other's outer
call, one of them raises a RuntimeError. A handler must not itself wait for another thread that paints: that one may
wait for the outer call. Using an image that the collector is clearing raises a ReferenceError.

While a call runs, keep code in other threads from its buffers. Such code may assign to a bytearray, or use memory by a
second address, such as a file that is mapped twice; no test of overlaps sees that. Otherwise the pixels come out wrong,
but no other memory is touched. Memory must not move or end under a view. ctypes.resize() moves it although it is pinned,
and so do numpy's array.resize(refcheck=False), array.data = .. and array.__setstate__(). A mapped file must not be made
shorter.

The package looks for the shared object libpix_c.so at the path in the environment variable PIX_LIBRARY. Without it, it
looks in its own folder, in the one above, and in other installed packages pix. On a processor of x86-64-v3 it takes
libpix_c-v3.so of this package first, if a release has it. The package needs CPython 3.10 on Linux, and x86-64 with
SSE4.1 or aarch64. The import raises ImportError on any other processor, or if the library has another version or layout.

This package is tested and not proved; the library below it is proved. docs/PROMISES.md of the repository lists all
calls in four languages, and their promises.
"""

import sys as _sys

# Before 3.10 a signal handler may raise after the body of a `with` and before its end. Then a lock
# stays held, and every other thread waits for ever.
if _sys.version_info < (3, 10):
    raise ImportError("pix: it needs Python 3.10, since earlier ones may leave a lock held by an interrupt")

from pix._bitmap import convert_bitmap
from pix._colors import Color, Srgb, color_of, srgb
from pix._command import Command
from pix._convert import convert
from pix._image import Image
from pix._indexed import (
    count_indices, diffuse_indexed, diffuse_indexed_rgba, index_pixels, look_up, look_up_rgba, map_indexed, map_indexed_rgba,
    pack_row, row_size, quantize, quantize_rgba, unpack_row,
)  # fmt: skip
from pix._list import CommandList
from pix._makers import (
    clear, composite_color, composite_image, composite_image_alpha, composite_image_matte, composite_matte, copy_color,
    copy_image, repeat_image,
)  # fmt: skip
from pix._pixels import GRAYA8, RGBA8, RGBA16, PixelType
from pix._profile import ColorWarning
from pix._values import Filter, Format, Op, PixError, Region, Status, Weights
from pix._views import Matte

__version__ = "0.3.0"
__all__ = [
    "Op", "Filter", "Weights", "Format", "Status", "PixError", "ColorWarning", "PixelType", "RGBA8", "RGBA16", "GRAYA8", "Region", "Image", "Matte",
    "Command", "CommandList", "Color", "Srgb", "srgb", "clear", "copy_color", "copy_image", "composite_color", "composite_image", "composite_matte",
    "composite_image_matte", "composite_image_alpha", "repeat_image", "convert", "convert_bitmap", "color_of",
    "quantize", "map_indexed", "diffuse_indexed", "index_pixels", "look_up", "count_indices", "row_size", "pack_row",
    "unpack_row", "quantize_rgba", "map_indexed_rgba", "diffuse_indexed_rgba", "look_up_rgba",
    "SRGBA8", "SRGBA8P", "SBGRA8", "SBGRA8P", "SRGB8", "SBGR8", "SGRAY8", "SGRAYA8", "SRGBX8", "SBGRX8",
]  # fmt: skip

# The most common formats of pictures.
SRGBA8, SRGBA8P, SBGRA8, SBGRA8P = Format.SRGBA8, Format.SRGBA8P, Format.SBGRA8, Format.SBGRA8P
SRGB8, SBGR8, SGRAY8, SGRAYA8 = Format.SRGB8, Format.SBGR8, Format.SGRAY8, Format.SGRAYA8
SRGBX8, SBGRX8 = Format.SRGBX8, Format.SBGRX8

# Users and pickles name these by this package, wherever they are defined.
for _public in (Op, Region, Filter, Weights, Format, Status, PixError, ColorWarning, PixelType, Image, Matte, Command, CommandList, convert, convert_bitmap):
    _public.__module__ = __name__
for _public in (Color, Srgb, srgb, color_of):
    _public.__module__ = __name__
for _public in (quantize, map_indexed, diffuse_indexed, index_pixels, look_up, count_indices, row_size, pack_row, unpack_row):
    _public.__module__ = __name__
for _public in (quantize_rgba, map_indexed_rgba, diffuse_indexed_rgba, look_up_rgba):
    _public.__module__ = __name__
for _public in (clear, copy_color, copy_image, composite_color, composite_image, composite_matte):
    _public.__module__ = __name__
for _public in (composite_image_matte, composite_image_alpha, repeat_image):
    _public.__module__ = __name__
del _public
