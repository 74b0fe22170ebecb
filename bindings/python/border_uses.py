"""What callers may do with a buffer, each way once, for the tests of the border."""

import array
import copy
import pickle

import pix

# How many bytes the buffer has that all calls of a test share, and the picture in it.
SIZE = 1200
WIDE, HIGH = 30, 10
WHOLE = (0, 0, WIDE, HIGH)
RGBA8, BGRA8 = pix.Format.RGBA8, pix.Format.BGRA8
# What the interpreter itself asks for, where an object is made or is let go.
OWN = {
    "__new__",
    "__init__",
    "__del__",
    "__init_subclass__",
    "__subclasshook__",
    "__dict__",
    "__doc__",
    "__module__",
    "__weakref__",
    "__slots__",
    "__buffer__",
    "__release_buffer__",
    "__array_finalize__",
}
SPECIAL = set().union(
    *map(dir, (int, float, bytes, bytearray, list, dict, array.array, memoryview))
)
SPECIAL |= {
    "__getattr__",
    "__bytes__",
    "__index__",
    "__fspath__",
    "__array__",
    "__array_interface__",
    "__array_struct__",
    "__class__",
}
SPECIAL = {name for name in SPECIAL if name.startswith("__")} - OWN


def spying(base, asked, **own):
    """A class of objects that note each special method that they are asked for, and raise."""

    def method(name):
        def ask(self, *more, **named):
            asked.append(name)
            raise AssertionError(f"{name} of a caller's object was asked for")

        return (
            property(ask)
            if name in ("__class__", "__array_interface__", "__array_struct__")
            else ask
        )

    return type("Spying", (base,), {**{name: method(name) for name in SPECIAL}, **own})


class Caller:
    """Makes what a caller may hand over: buffers that raise whatever they are asked, and numbers
    that look whether a buffer is taken."""

    def __init__(self):
        self.asked, self.buffers, self.are_free = [], [], True
        self.bytes_of, self.bytearray_of = spying(bytes, self.asked), spying(bytearray, self.asked)
        self.array_of = spying(array.array, self.asked)
        self.number_of = spying(object, self.asked, __index__=lambda number: self.index(number))

    def read(self, count, kind="bytes"):
        """A buffer to read."""
        return self.kept(
            self.bytes_of(bytes(count)) if kind == "bytes" else self.array_of("B", bytes(count))
        )

    def write(self, count):
        """A buffer to write."""
        return self.kept(self.bytearray_of(bytes(count)))

    def kept(self, buffer):
        self.buffers.append(buffer)
        return buffer

    def number(self, value):
        number = self.number_of()
        object.__setattr__(number, "value", value)
        return number

    def index(self, number):
        """Answers a number, and notes where a buffer is taken already: then it can't be resized."""
        for buffer in self.buffers:
            for base in (bytearray, array.array):
                if base in type.mro(type(buffer)):
                    try:
                        base.append(buffer, 0)
                        base.pop(buffer)
                    except BufferError:
                        self.are_free = False
        return object.__getattribute__(number, "value")


def image_of(buffer, type=pix.RGBA8):
    size = {"RGBA8": 4, "RGBA16": 8, "GRAYA8": 2}[type.name]
    return pix.Image(buffer, WIDE * 4 // size, HIGH, type=type)


def painted(buffer, type):
    image_of(buffer, type).run(pix.clear())


def read_by(buffer, type):
    pix.Image.new(WIDE, HIGH, type).run(pix.copy_image(WHOLE, image_of(buffer, type)))


def masked_by(buffer):
    pix.Image.new(WIDE, HIGH, pix.RGBA8).run(
        pix.composite_matte(WHOLE, pix.Matte(buffer, WIDE, 40), (9, 9, 9, 9))
    )


# A table of means.
PAIRS = pix.Weights([0, 2, 4, 6], 2, [8192] * 8)

# What may be done with a buffer of SIZE bytes: the function of the library, whether it writes them,
# and the call.
USES = [
    *[
        (name, is_written, lambda it, use=use, type=type: use(it, type))
        for name, type in (
            ("pix_raw_run_window", pix.RGBA8),
            ("pix_raw_run_window_rgba16", pix.RGBA16),
            ("pix_raw_run_window_graya8", pix.GRAYA8),
        )
        for use, is_written in ((painted, True), (read_by, False))
    ],
    ("pix_raw_run_window", False, masked_by),
    *[
        (name, False, lambda it, type=type: image_of(it, type).scaled(20, 7))
        for name, type in (
            ("pix_raw_scale", pix.RGBA8),
            ("pix_raw_scale_rgba16", pix.RGBA16),
            ("pix_raw_scale_graya8", pix.GRAYA8),
        )
    ],
    *[
        (name, False, lambda it, type=type: image_of(it, type).scaled_by(PAIRS, PAIRS))
        for name, type in (
            ("pix_raw_scale_by", pix.RGBA8),
            ("pix_raw_scale_by_rgba16", pix.RGBA16),
            ("pix_raw_scale_by_graya8", pix.GRAYA8),
        )
    ],
    ("pix_raw_convert", False, lambda it: pix.convert(RGBA8, it, BGRA8)),
    ("pix_raw_convert", True, lambda it: pix.convert(RGBA8, bytes(SIZE), BGRA8, it)),
    (
        "pix_raw_convert_bitmap",
        False,
        lambda it: pix.convert_bitmap(RGBA8, it, BGRA8, None, (WIDE, HIGH)),
    ),
    (
        "pix_raw_convert_bitmap",
        True,
        lambda it: pix.convert_bitmap(RGBA8, bytes(SIZE), BGRA8, it, (WIDE, HIGH)),
    ),
    ("pix_raw_convert_bitmap", True, lambda it: pix.convert_bitmap(RGBA8, it, BGRA8, it, (WIDE, HIGH))),
    ("pix_raw_convert_bitmap", False, lambda it: pix.Image.from_array(it, pix.SRGBA8, size=(WIDE, HIGH))),
    ("pix_raw_convert_bitmap", False, lambda it: image_of(it).to_array(pix.SRGBA8)),
    ("pix_raw_convert_bitmap", False, lambda it: copy.copy(image_of(it))),
    ("pix_raw_convert_bitmap", False, lambda it: pickle.dumps(pix.Matte(it, WIDE, 40))),
    ("pix_raw_map_indexed", False, lambda it: pix.map_indexed(memoryview(it)[:300], bytes(300))),
    ("pix_raw_map_indexed", False, lambda it: pix.map_indexed(bytes(3), it)),
    ("pix_raw_map_indexed", True, lambda it: pix.map_indexed(bytes(3), bytes(3 * SIZE), it)),
    (
        "pix_raw_map_indexed_alpha",
        False,
        lambda it: pix.map_indexed(memoryview(it)[:300], bytes(400), format=pix.SRGBA8),
    ),
    ("pix_raw_map_indexed_alpha", False, lambda it: pix.map_indexed(bytes(3), it, format=pix.SRGBA8)),
    (
        "pix_raw_map_indexed_alpha",
        True,
        lambda it: pix.map_indexed(bytes(3), bytes(4 * SIZE), it, pix.SRGBA8),
    ),
    ("pix_raw_quantize_refined", False, lambda it: pix.quantize(it, rounds=1)),
    ("pix_raw_quantize_refined_alpha", False, lambda it: pix.quantize(it, format=pix.SRGBA8, rounds=1)),
    (
        "pix_raw_diffuse_indexed_by",
        False,
        lambda it: pix.diffuse_indexed(memoryview(it)[:300], bytes(300), 10),
    ),
    ("pix_raw_diffuse_indexed_by", False, lambda it: pix.diffuse_indexed(bytes(3), it, 10)),
    ("pix_raw_diffuse_indexed_by", True, lambda it: pix.diffuse_indexed(bytes(3), bytes(3 * SIZE), 10, it)),
    (
        "pix_raw_diffuse_indexed_by_alpha",
        False,
        lambda it: pix.diffuse_indexed(memoryview(it)[:300], bytes(400), 10, format=pix.SRGBA8),
    ),
    (
        "pix_raw_diffuse_indexed_by_alpha",
        False,
        lambda it: pix.diffuse_indexed(bytes(3), it, 10, format=pix.SRGBA8),
    ),
    (
        "pix_raw_diffuse_indexed_by_alpha",
        True,
        lambda it: pix.diffuse_indexed(bytes(3), bytes(4 * SIZE), 10, it, pix.SRGBA8),
    ),
    (
        "pix_raw_index_pixels",
        False,
        lambda it: pix.index_pixels(memoryview(it)[:300], bytes(300), 256, (255, 255, 255)),
    ),
    ("pix_raw_index_pixels", False, lambda it: pix.index_pixels(b"", it, 256, (255, 255, 255))),
    ("pix_raw_look_up", False, lambda it: pix.look_up(memoryview(it)[:300], bytes(300))),
    ("pix_raw_look_up", False, lambda it: pix.look_up(bytes(768), it)),
    ("pix_raw_look_up", True, lambda it: pix.look_up(bytes(768), bytes(SIZE // 3), it)),
    ("pix_raw_quantize_rgba", False, lambda it: pix.quantize_rgba(it)),
    (
        "pix_raw_map_indexed_rgba",
        False,
        lambda it: pix.map_indexed_rgba(memoryview(it)[:400], bytes(400)),
    ),
    ("pix_raw_map_indexed_rgba", False, lambda it: pix.map_indexed_rgba(bytes(4), it)),
    ("pix_raw_map_indexed_rgba", True, lambda it: pix.map_indexed_rgba(bytes(4), bytes(4 * SIZE), it)),
    (
        "pix_raw_diffuse_indexed_rgba",
        False,
        lambda it: pix.diffuse_indexed_rgba(memoryview(it)[:400], bytes(400), 10),
    ),
    ("pix_raw_diffuse_indexed_rgba", False, lambda it: pix.diffuse_indexed_rgba(bytes(4), it, 10)),
    (
        "pix_raw_diffuse_indexed_rgba",
        True,
        lambda it: pix.diffuse_indexed_rgba(bytes(4), bytes(4 * SIZE), 10, it),
    ),
    (
        "pix_raw_look_up_rgba",
        False,
        lambda it: pix.look_up_rgba(memoryview(it)[:400], bytes(400)),
    ),
    ("pix_raw_look_up_rgba", False, lambda it: pix.look_up_rgba(bytes(1024), it)),
    (
        "pix_raw_look_up_rgba",
        True,
        lambda it: pix.look_up_rgba(bytes(1024), bytes(SIZE // 4), it),
    ),
    ("pix_raw_count_indices", False, lambda it: pix.count_indices(it)),
    ("pix_raw_pack_row", False, lambda it: pix.pack_row(8, it)),
    ("pix_raw_pack_row", True, lambda it: pix.pack_row(8, bytes(SIZE), it)),
    ("pix_raw_unpack_row", False, lambda it: pix.unpack_row(8, it)),
    ("pix_raw_unpack_row", True, lambda it: pix.unpack_row(8, bytes(SIZE), it)),
]


def in_place(buffer, size):
    pix.convert_bitmap(RGBA8, buffer, BGRA8, buffer, size)


# What takes a buffer, with all of its numbers: a name of the package, and the call.
TAKEN = [
    ("Image", lambda it, n: pix.Image(it.write(64), n(4), n(4), n(4))),
    (
        "Image.run",
        lambda it, n: pix.Image(it.write(64), 4, 4).run(pix.clear(), origin=(n(1), n(1))),
    ),
    (
        "Image.run",
        lambda it, n: pix.Image.new(4, 4, pix.RGBA8).run(
            pix.copy_image((0, 0, 4, 4), pix.Image(it.read(64), n(4), n(4)))
        ),
    ),
    (
        "Image.from_array",
        lambda it, n: pix.Image.from_array(it.read(64), pix.SRGBA8, size=(n(4), n(4))),
    ),
    (
        "Image.to_array",
        lambda it, n: pix.Image(it.read(64, "array"), n(4), n(4)).to_array(pix.SRGBA8),
    ),
    (
        "Image.scaled",
        lambda it, n: pix.Image(it.read(64), 4, 4).scaled(
            n(9), n(5), pix.Filter.LINEAR, (n(1), n(2), n(3), n(3))
        ),
    ),
    ("Image.pixels", lambda it, n: pix.Image(it.read(64), n(4), n(4)).pixels[0]),
    ("Matte", lambda it, n: copy.copy(pix.Matte(it.read(64), n(8), n(8), n(8)))),
    ("convert", lambda it, n: pix.convert(RGBA8, it.read(64), BGRA8, it.write(64))),
    (
        "convert_bitmap",
        lambda it, n: pix.convert_bitmap(RGBA8, it.read(64), BGRA8, it.write(64), (n(4), n(4))),
    ),
    ("convert_bitmap", lambda it, n: in_place(it.write(64), (n(4), n(4)))),
    (
        "map_indexed",
        lambda it, n: pix.map_indexed(
            it.read(9), it.write(16), it.write(4), pix.SRGBA8, n(1), n(2)
        ),
    ),
    (
        "quantize",
        lambda it, n: pix.quantize(it.read(64, "array"), n(4), pix.SRGBA8, n(1), n(2)),
    ),
    (
        "diffuse_indexed",
        lambda it, n: pix.diffuse_indexed(
            it.read(9), it.write(16), n(2), it.write(4), pix.SRGBA8, n(1), n(2), n(9), True
        ),
    ),
    (
        "quantize_rgba",
        lambda it, n: pix.quantize_rgba(it.read(64, "array"), n(4), n(2)),
    ),
    (
        "map_indexed_rgba",
        lambda it, n: pix.map_indexed_rgba(it.read(12), it.write(16), it.write(4)),
    ),
    (
        "diffuse_indexed_rgba",
        lambda it, n: pix.diffuse_indexed_rgba(
            it.read(12), it.write(16), n(2), it.write(4), n(9), True
        ),
    ),
    (
        "look_up_rgba",
        lambda it, n: pix.look_up_rgba(it.read(12, "array"), it.read(3), it.write(12)),
    ),
    (
        "index_pixels",
        lambda it, n: pix.index_pixels(it.write(9), it.read(9, "array"), n(9), (n(1), n(1), n(1))),
    ),
    ("look_up", lambda it, n: pix.look_up(it.read(9, "array"), it.read(3), it.write(9))),
    ("count_indices", lambda it, n: pix.count_indices(it.write(9), n(4))),
    ("pack_row", lambda it, n: pix.pack_row(n(1), it.read(16), it.write(2))),
    ("unpack_row", lambda it, n: pix.unpack_row(n(1), it.read(2), it.write(16))),
    ("unpack_row", lambda it, n: pix.unpack_row(n(1), it.write(2), None, n(16))),
]
