"""Pictures in files: read by Pillow, composited in linear light by pix, and written as PNG or, by Pillow, as GIF."""

import io
import os
import struct
import zlib

import PIL.Image
import PIL.ImageChops
import PIL.ImageOps
import PIL.ImageSequence
import PIL.ImageStat
import pix
from pix._put import put  # how the package writes its own files

# The longest side of a GIF, and its longest time, in milliseconds.
GIF_SIDE, GIF_TIME = 65535, 655350
# The kinds of files whose pictures are shown one after the other.
MOVING = ("GIF", "PNG", "WEBP")
# How hard zlib tries. Level 9 takes three times as long and more, for one or two hundredths of the size.
LEVEL = 6


class PictureError(Exception):
    """A file has no picture that can be read, or can't be written."""


class Picture:
    """Pixels of red, green, blue and alpha in sRGB, a byte each, in rows without gaps; `size` is the width and the height. `time` is
    how many milliseconds a frame of a moving picture is shown, or None."""

    def __init__(self, size, pixels, time=None):
        self.size, self.pixels, self.time = size, pixels, time

    @property
    def is_opaque(self):
        """Whether all of its pixels are."""
        return self.pixels[3::4].count(255) * 4 == len(self.pixels)

    @property
    def region(self):
        """All of the picture."""
        return (0, 0, *self.size)


# How a level of a color that a PNG makes clear becomes one of Pillow's pixels, by their kind in the file: Pillow tells it in the
# file's own bits, and widens or cuts the pixels.
CLEAR_LEVELS = {"L;2": lambda level: level * 85, "L;4": lambda level: level * 17, "RGB;16B": lambda level: level >> 8}


def clear_color(file):
    """Returns the color that a picture has for clear pixels, as those have it, or None."""
    clear = file.info.get("transparency")
    kind = file.tile[0][3] if file.format == "PNG" and file.tile else None
    change = CLEAR_LEVELS.get(kind) if isinstance(kind, str) else None
    if clear is None or change is None:
        return clear
    return tuple(map(change, clear)) if isinstance(clear, tuple) else change(clear)


def gray_pixels(picture, clear):
    """Returns the bytes of a gray of 16 bits, which Pillow would cut off at 255; pixels of the level `clear` are clear."""
    levels = picture.convert("I;16").tobytes()
    pixels = bytearray(pix.convert_bitmap(pix.Format.GRAY16, levels, pix.Format.RGBA8, size=picture.size))
    if clear is not None:
        pixels[3::4] = bytes(0 if level == clear else 255 for level, in struct.iter_unpack("=H", levels))
    return pixels


def pixels_of(picture, clear):
    """Returns the bytes of a picture of Pillow, of which pixels of the color `clear` are clear."""
    if picture.mode == "I" or picture.mode.startswith("I;16"):
        return gray_pixels(picture, clear)
    if picture.mode in ("L", "RGB") and clear is not None:
        picture.info["transparency"] = clear
    return picture.convert("RGBA").tobytes()


def still(file):
    """Returns the picture of a file that was opened, the first one of several, the right way up."""
    clear = clear_color(file)
    upright = PIL.ImageOps.exif_transpose(file)
    return Picture(upright.size, bytes(pixels_of(upright, clear)))


def moving(file):
    """Returns the frames of a file that was opened, each as it is shown."""
    frames = []
    for frame in PIL.ImageSequence.Iterator(file):
        shown = PIL.ImageOps.exif_transpose(frame.convert("RGBA"))
        time = min(GIF_TIME, max(0, int(frame.info.get("duration", 0))))
        frames.append(Picture(shown.size, shown.tobytes(), time))
    return frames


def read(name, ground=None):
    """Returns the pictures of a file: one, or the frames of a moving picture; over a color of sRGB where one is given."""
    try:
        with PIL.Image.open(name) as file:
            moves = file.format in MOVING and getattr(file, "n_frames", 1) > 1
            pictures = moving(file) if moves else [still(file)]
    except PIL.UnidentifiedImageError:
        raise PictureError(f"{name}: Pillow knows no such picture") from None
    except OSError as error:
        raise PictureError(f"{name}: {error.strerror or error}") from None
    except (SyntaxError, ValueError, MemoryError, PIL.Image.DecompressionBombError) as error:
        raise PictureError(f"{name}: {error}") from None
    if any(0 in picture.size for picture in pictures):
        raise PictureError(f"{name}: it has no pixels")
    return pictures if ground is None else [over(picture, ground) for picture in pictures]


def read_one(name, ground=None):
    """Returns the picture of a file that has one."""
    pictures = read(name, ground)
    if len(pictures) > 1:
        raise PictureError(f"{name}: it has {len(pictures)} frames, and a PNG has one: --gif FILE keeps them")
    return pictures[0]


def over(picture, color):
    """Returns a picture composited over a color, in light of 16 bits."""
    light = pix.Image.from_array(picture.pixels, pix.SRGBA8, size=picture.size)
    ground = pix.Image.new(*picture.size, pix.RGBA16)
    ground.run(pix.copy_color(picture.region, pix.color_of(pix.SRGB8, color)), pix.composite_image(picture.region, light))
    return Picture(picture.size, bytes(ground.to_array(pix.SRGBA8)), picture.time)


def of_one_size(pictures):
    """Returns the pictures in the middle of clear ones, all as wide as the widest and as high as the highest."""
    width, height = (max(sides) for sides in zip(*(it.size for it in pictures)))

    def middle(picture):
        left, top = (width - picture.size[0]) // 2, (height - picture.size[1]) // 2
        sheet = pix.Image.new(width, height, pix.RGBA8)
        sheet.run(pix.copy_image((left, top, *picture.size), pix.Image(picture.pixels, *picture.size)))
        return Picture((width, height), bytes(sheet.pixels), picture.time)

    return [it if it.size == (width, height) else middle(it) for it in pictures]


def write(name, data):
    """Writes a file, once all of it is there: what stood at its name stays where that fails."""
    try:
        put(os.fspath(name), data)
    except OSError as error:
        raise PictureError(f"{name}: {error.strerror}") from None


def chunk(kind, data):
    """Returns a part of a PNG file."""
    return struct.pack(">I", len(data)) + kind + data + struct.pack(">I", zlib.crc32(kind + data))


def write_png(name, frame):
    """Writes an indexed PNG, of as few of 1, 2, 4 or 8 bits a pixel as the table needs, and returns how many bytes it has."""
    (width, height), table = frame.size, frame.table
    bits = next(bits for bits in (1, 2, 4, 8) if len(table) <= 2**bits)
    # Each row of indices is packed, and has no filter.
    rows = [b"\0" + pix.pack_row(bits, frame.indices[width * y : width * (y + 1)]) for y in range(height)]
    parts = [(b"IHDR", struct.pack(">IIBBBBB", width, height, bits, 3, 0, 0, 0)), (b"sRGB", b"\0"), (b"PLTE", table.colors)]
    parts += [(b"tRNS", table.alphas)] if table.alphas else []
    parts += [(b"IDAT", zlib.compress(b"".join(rows), LEVEL)), (b"IEND", b"")]
    data = b"\x89PNG\r\n\x1a\n" + b"".join(chunk(*part) for part in parts)
    write(name, data)
    return len(data)


def write_gif(name, frames, times):
    """Writes a GIF with one table of colors, and returns how many bytes it has: without `palette`, Pillow gives each frame one of
    its own."""
    if max(frames[0].size) > GIF_SIDE:
        raise PictureError(f"{name}: a GIF has sides of at most {GIF_SIDE} pixels")
    data, pictures, table = io.BytesIO(), [], frames[0].table
    for frame in frames:
        pictures.append(PIL.Image.frombytes("P", frame.size, bytes(frame.indices)))
        pictures[-1].putpalette(table.colors)
    options = {"save_all": True, "append_images": pictures[1:], "duration": times, "loop": 0, "optimize": False, "interlace": False}
    if table.clear is not None:
        options["transparency"] = table.clear
    pictures[0].save(data, "GIF", palette=table.colors, disposal=2, **options)
    write(name, data.getbuffer())
    return len(data.getbuffer())


def squared_error(picture, frame):
    """Returns the mean squared error of a picture as it is seen: in red, green and blue, added, over black and over white,
    averaged. Opaque pixels are seen alike over both."""
    both = [PIL.Image.frombytes("RGBA", picture.size, bytes(pixels)) for pixels in (picture.pixels, frame.pixels)]
    levels = (0, 255) if frame.table.alphas or not picture.is_opaque else (0,)
    total = 0.0
    for level in levels:
        ground = PIL.Image.new("RGBA", picture.size, (level, level, level, 255))
        over_it = [PIL.Image.alpha_composite(ground, it).convert("RGB") for it in both]
        stat = PIL.ImageStat.Stat(PIL.ImageChops.difference(*over_it))
        total += sum(stat.sum2) / stat.count[0] / len(levels)
    return total
