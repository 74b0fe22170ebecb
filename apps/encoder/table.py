"""Tables of colors, and pictures as indices of one."""

import pix

# In a GIF a pixel whose alpha is below this is clear.
CLEAR_BELOW = 128


class Table:
    """Colors with an alpha, of four bytes each; `clear` is the index of the last one where that stands for clear pixels, and no
    other color has an alpha then, or None."""

    def __init__(self, entries, clear=None):
        self.entries, self.clear = bytes(entries), clear
        self.colors = bytes(level for i, level in enumerate(self.entries) if i % 4 < 3)
        # The alphas up to the last one that is not opaque.
        self.alphas = self.entries[3::4].rstrip(b"\xff")

    def __len__(self):
        return len(self.entries) // 4


class Frame:
    """A picture as indices of a table: a byte for each pixel, in rows without gaps."""

    def __init__(self, size, indices, table):
        self.size, self.indices, self.table = size, indices, table

    @property
    def pixels(self):
        """The entry of each index: red, green, blue and alpha."""
        return bytes(pix.look_up_rgba(self.table.entries, self.indices))


class Diffusion:
    """How errors are spread: by how many sixteenths, and whether every other row goes from right to left."""

    def __init__(self, strength, serpentine):
        self.how = {"strength": strength, "serpentine": serpentine}


def of_picture(picture, most, rounds):
    """Returns a table for a picture whose alphas are kept: its very colors where these are at most `most`, and else so many by the
    cut by squared error, which so many rounds refine. Those that are not opaque come first."""
    if picture.is_opaque:
        return of_frames([picture], most, rounds)
    made = bytes(pix.quantize_rgba(picture.pixels, most, rounds))
    entries = [made[i : i + 4] for i in range(0, len(made), 4)]
    return Table(b"".join(sorted(entries, key=lambda entry: entry[3] == 255)))


def of_frames(pictures, most, rounds):
    """Returns one table for all of these pictures, whose pixels are opaque or clear, as a GIF has them."""
    pixels = b"".join(it.pixels for it in pictures)
    has_clear = any(alpha < CLEAR_BELOW for alpha in set(pixels[3::4]))
    colors = pix.quantize(pixels, most - has_clear, format=pix.SRGBA8, alpha=CLEAR_BELOW, rounds=rounds)
    entries = b"".join(bytes(colors[i : i + 3]) + b"\xff" for i in range(0, len(colors), 3))
    return Table(entries + bytes(4 * has_clear), len(colors) // 3 if has_clear else None)


def indexed(picture, table, diffusion):
    """Returns the index of the color that is seen nearest for each pixel, or, with a diffusion, of one that makes up for the
    errors before it. Of an opaque picture that is the nearest color, which is found sooner."""
    if picture.is_opaque:
        return indexed_frame(picture, table, diffusion)
    if diffusion is None:
        return Frame(picture.size, pix.map_indexed_rgba(table.entries, picture.pixels), table)
    how = diffusion.how
    return Frame(picture.size, pix.diffuse_indexed_rgba(table.entries, picture.pixels, picture.size[0], **how), table)


def indexed_frame(picture, table, diffusion):
    """Returns the same for a table with a clear color: that is the one of clear pixels, and of the others the alpha doesn't count."""
    colors, how = table.colors, {"format": pix.SRGBA8}
    if table.clear is not None:
        colors = colors[: 3 * table.clear]
        how.update(alpha=CLEAR_BELOW, transparent_index=table.clear)
    if diffusion is None:
        return Frame(picture.size, pix.map_indexed(colors, picture.pixels, **how), table)
    how.update(diffusion.how)
    return Frame(picture.size, pix.diffuse_indexed(colors, picture.pixels, picture.size[0], **how), table)
