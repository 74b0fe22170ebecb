"""The border: whatever a caller hands over, no call touches memory that is not its own."""

import array
import copy
import ctypes
import mmap
import pickle
import random
import tempfile
import threading
import time
import tracemalloc
import unittest
from unittest import mock

import pix
from border_uses import BGRA8, RGBA8, TAKEN, Caller
from pix import _image, _indexed
from pix._calls import Copy

try:
    import numpy
except ImportError:
    numpy = None


class OneWayIn(unittest.TestCase):
    def test_nothing_of_a_caller_is_asked(self):
        for name, call in TAKEN:
            caller = Caller()
            with self.subTest(name):
                call(caller, caller.number)
                self.assertEqual(caller.asked, [])
                self.assertTrue(
                    caller.are_free or name == "Image.run",
                    f"{name} asks for a number with a buffer in its hands",
                )

    def test_each_function_that_takes_a_buffer_is_among_them(self):
        names = set()
        for name in pix.__all__:
            item = getattr(pix, name)
            members = (
                {
                    f"{name}.{key}": getattr(member, "__func__", member)
                    for key, member in vars(item).items()
                }
                if isinstance(item, type)
                else {}
            )
            for key, member in {name: item, **members}.items():
                if "Buffer" in str(getattr(member, "__annotations__", "")):
                    names.add(key.replace(".__init__", ""))
        self.assertLessEqual({"Image", "Image.from_array", "Matte", "quantize", "look_up"}, names)
        self.assertLessEqual(names, {name for name, _ in TAKEN})

    def test_objects_that_say_they_are_others(self):
        asked, image = [], pix.Image.new(4, 4, pix.RGBA8)
        for kind in (pix.Command, pix.CommandList, pix.Image, pix.Matte, pix.PixelType):
            class_of = property(lambda self, kind=kind: asked.append(kind) or kind)
            given = type(
                "Lying",
                (),
                {"__class__": class_of, "__getattr__": lambda self, name: asked.append(name)},
            )()
            for call in (
                lambda: image.run(given),
                lambda: image.run(given, given),
                lambda: pix.copy_image((0, 0, 1, 1), given),
                lambda: pix.composite_matte((0, 0, 1, 1), given, (9, 9, 9, 9)),
                lambda: pix.Command(4, source=given),
                lambda: pix.Image.new(1, 1, given),
                lambda: pix.CommandList(given),
            ):
                self.assertRaises(TypeError, call)
        self.assertEqual([name for name in asked if isinstance(name, str)], [])
        registered = type("Registered", (), {"_prepared": None})
        pix.CommandList.register(registered)
        self.assertRaises(TypeError, image.run, registered())

    def test_a_table_that_answers_twice(self):
        class Table(bytes):
            __bytes__ = lambda self: b""

        class Listed(bytearray):
            __bytes__ = lambda self: b""

        lying = type(
            "Lying",
            (array.array,),
            {"__class__": bytes, "__bytes__": lambda self: b"", "tobytes": lambda self: b""},
        )
        colors = bytes(i % 251 for i in range(765))
        for table in (Table(colors), Listed(colors), lying("B", colors)):
            made, indices = pix.index_pixels(table, b"\7\7\7", 256)
            self.assertEqual((made, indices), (colors + b"\7\7\7", b"\xff"))

    def test_numbers_that_lie(self):
        lying = type(
            "Lying",
            (int,),
            {
                name: lambda self, other: True
                for name in ("__le__", "__ge__", "__lt__", "__gt__", "__eq__")
            },
        )
        lying.__hash__ = int.__hash__
        for call in (
            lambda: pix.Image(bytearray(64), lying(2**32 + 4), 4),
            lambda: pix.map_indexed(b"abc", b"abcd", None, pix.SRGBA8, lying(256)),
            lambda: pix.copy_color((0, 0, lying(2**32 + 4), 1), (9, 9, 9, 9)),
            lambda: pix.row_size(lying(9), 1),
        ):
            self.assertRaises(ValueError, call)

    def test_a_buffer_that_points_to_its_rows(self):
        try:
            import _testbuffer
        except ImportError:
            self.skipTest("no _testbuffer")
        rows = _testbuffer.ndarray(
            list(range(16)), shape=[4, 4], format="B", flags=_testbuffer.ND_PIL
        )
        self.assertRaises(ValueError, pix.Image, rows, 1, 4)

    @unittest.skipIf(numpy is None, "no numpy")
    def test_arrays_without_elements(self):
        made, indices = pix.index_pixels(numpy.zeros((0, 3), "u1"), b"\1\2\3")
        self.assertEqual((made, indices), (b"\1\2\3", b"\0"))
        self.assertEqual(pix.index_pixels(numpy.zeros((2, 3), "u1"), b"\0\0\0")[1], b"\0")


class ChangingMemory(unittest.TestCase):
    def rooms(self, use):
        """Returns how many bytes each copy has that a call makes, and what stands in it."""
        seen, make = [], Copy.make
        note = lambda copy, is_long: (
            make(copy, is_long),
            seen.append((ctypes.sizeof(copy.room), bytes(copy.room))),
        )
        with mock.patch.object(Copy, "make", note):
            use()
        return seen

    def test_tables_have_room_for_each_index(self):
        table, pixels, clear = bytes(range(1, 7)), bytes(9), bytes(12)
        for use in (
            lambda: pix.map_indexed(table, pixels),
            lambda: pix.map_indexed(table, clear, format=pix.SRGBA8),
            lambda: pix.diffuse_indexed(table, pixels, 3),
            lambda: pix.diffuse_indexed(table, clear, 3, format=pix.SRGBA8),
            lambda: pix.look_up(table, bytes(3)),
            lambda: pix.index_pixels(table, pixels, 3),
        ):
            self.assertEqual(self.rooms(use), [(771, table.ljust(771, b"\0"))])
        self.assertEqual(pix.look_up(bytes(897) + b"\1\2\3", b"\0"), bytes(3))
        table, pixels = bytes(range(1, 9)), bytes(12)
        for use in (
            lambda: pix.map_indexed_rgba(table, pixels),
            lambda: pix.diffuse_indexed_rgba(table, pixels, 3),
            lambda: pix.look_up_rgba(table, bytes(3)),
        ):
            self.assertEqual(self.rooms(use), [(1028, table.ljust(1028, b"\0"))])
        self.assertEqual(pix.look_up_rgba(bytes(1196) + b"\1\2\3\4", b"\0"), bytes(4))

    def test_counts_have_room_for_each_index(self):
        counts = _indexed._COUNTS
        given = []
        with mock.patch.object(
            _indexed,
            "_count_indices",
            lambda count, source, address, length: given.append((address, length)),
        ):
            with mock.patch.object(_indexed, "_COUNTS", lambda: given.append(counts()) or given[0]):
                pix.count_indices(b"\1", 2)
        self.assertEqual(
            (ctypes.sizeof(given[0]), *given[1:]), (8 * 256, (ctypes.addressof(given[0]), 2))
        )
        self.assertEqual(pix.count_indices(b"\1", 2), [0, 1])
        self.assertEqual(pix.count_indices(b"\1", 258), [0, 1] + [0] * 256)

    def mapped_twice(self, count):
        """Two maps of one file of so many bytes."""
        with tempfile.TemporaryFile() as file:
            file.write(bytes(count))
            file.flush()
            return mmap.mmap(file.fileno(), count), mmap.mmap(file.fileno(), count)

    def test_a_file_that_is_mapped_twice(self):
        one, other = self.mapped_twice(600_000)
        noise, done = bytes(range(256)) * 40, threading.Event()

        def change():
            chance = random.Random(2)
            while not done.is_set():
                at = chance.randrange(len(one) - len(noise))
                other[at : at + len(noise)] = noise
                other[at : at + len(noise)] = bytes(len(noise))

        thread = threading.Thread(target=change)
        thread.start()
        try:
            end = time.monotonic() + 2
            while time.monotonic() < end:
                self.changed(one)
        finally:
            done.set()
            thread.join()

    def changed(self, indices):
        """Calls what reads indices, while they change: an answer is of the table, or refused."""
        try:
            colors = pix.look_up(b"\7\7\7", indices)
            self.assertLessEqual(set(colors), {0, 7})
            self.assertLessEqual(set(pix.look_up_rgba(b"\7\7\7\7", indices)), {0, 7})
        except pix.PixError as fault:
            self.assertEqual(fault.status, pix.Status.BAD_INDEX)
        try:
            counts = pix.count_indices(indices, 1)
            self.assertEqual(len(counts), 1)
            pix.pack_row(1, indices)
        except pix.PixError as fault:
            self.assertEqual(fault.status, pix.Status.BAD_INDEX)
        pix.diffuse_indexed(b"\7\7\7", bytes(3 * 999), 999, memoryview(indices)[:999])
        pix.index_pixels(b"", indices[:300], 256, (255, 255, 255))


def mapped(size=64 << 20):
    """Memory that takes nothing until it is written."""
    return mmap.mmap(-1, size)


class NoPixels(unittest.TestCase):
    def soon(self, call):
        """Calls it, and sees that it takes no time."""
        started = time.process_time()
        call()
        self.assertLess(time.process_time() - started, 0.5)

    def test_they_take_no_time(self):
        most, a, b = 2**31 - 1, pix.SRGBA8, pix.Format.RGBA16P
        for size in ((0, most), (most, 0), (0, 0)):
            self.soon(lambda: pix.convert_bitmap(a, b"", b, bytearray(), size))
            self.soon(lambda: pix.convert_bitmap(a, b"", b, None, size))
            empty = bytearray()
            self.soon(lambda: pix.convert_bitmap(RGBA8, empty, BGRA8, empty, size))
            for type in pix.PixelType:
                image = pix.Image.new(*size, type)
                self.soon(
                    lambda: image.run(
                        pix.copy_color((0, 0, most, most), (0,) * type.channels), pix.clear()
                    )
                )
                self.soon(
                    lambda: image.run(
                        pix.copy_image((0, 0, most, most), pix.Image.new(*size, type))
                    )
                )
                self.soon(lambda: copy.copy(image))
                self.soon(lambda: image.to_array(a))
            self.soon(lambda: pix.Image.from_array(b"", a, size=size))
            full = pix.Image.new(9, 9, pix.RGBA8)
            self.soon(lambda: full.run(pix.composite_image((0, 0, *size), pix.Image.new(*size, pix.RGBA8))))
            self.soon(
                lambda: full.run(
                    pix.composite_matte((0, 0, most, most), pix.Matte(b"", *size), (9, 9, 9, 9))
                )
            )
        for width, height in ((0, 3 * 10**7), (0, 2**32 - 1), (2**32 - 1, 0)):
            self.soon(
                lambda: self.assertEqual(
                    pix.repeat_image((0, 0, width, height), pix.Image.new(1, 1, pix.RGBA8)), []
                )
            )

    def refused(self, status, call):
        """Tests that a call is refused before it takes memory or time."""
        tracemalloc.start()
        try:
            made = mock.patch.object(pix.Image, "new", side_effect=AssertionError("memory is made"))
            with made, self.assertRaises(pix.PixError) as refused:
                self.soon(call)
            self.assertEqual(refused.exception.status, status)
            self.assertLess(tracemalloc.get_traced_memory()[1], 1_000_000)
        finally:
            tracemalloc.stop()

    def test_refusals_come_first(self):
        status = pix.Status
        self.refused(
            status.BAD_SOURCE,
            lambda: pix.Image.from_array(b"1234", pix.SRGBA8, size=(10000, 10000)),
        )
        self.refused(status.BAD_SIZE, lambda: pix.Image(bytearray(8), 1, 50_000_000))
        self.refused(status.BAD_SIZE, lambda: pix.Image(bytearray(800), 10, 10, 3))
        self.refused(
            status.BAD_SOURCE,
            lambda: pix.convert_bitmap(pix.SRGBA8, b"1234", RGBA8, None, (10000, 10000)),
        )
        self.refused(status.BAD_LENGTH, lambda: pix.unpack_row(1, b"1", None, 10**12))
        self.refused(status.BAD_FORMAT, lambda: pix.convert(pix.SRGBA8, mapped(), pix.Format.RGBA16))
        self.refused(status.BAD_FORMAT, lambda: pix.convert(pix.Format.GRAYA8, mapped(), pix.SRGB8))
        self.assertRaises(ValueError, pix.row_size, 1, -9)
        self.assertRaises(ValueError, pix.unpack_row, 1, b"", None, -1)
        self.assertRaises(ValueError, pix.count_indices, b"", -1)

    def test_an_image_that_nothing_may_paint_is_not_made(self):
        """Its memory was there before anything was refused."""
        with mock.patch.object(_image, "zeros", side_effect=AssertionError("memory is made")):
            for size in ((2**31, 1), (1, 2**31), (2**31, 0), (2**32 - 1, 2**32 - 1)):
                with self.assertRaises(pix.PixError) as caught:
                    pix.Image.new(*size, pix.RGBA8)
                self.assertEqual(caught.exception.status, pix.Status.BAD_SIZE)
        self.assertRaises(MemoryError, pix.Image.new, 2**31 - 1, 2**31 - 1, pix.RGBA16)

    @unittest.skipIf(numpy is None, "no numpy")
    def test_rows_far_apart_are_copied_without_what_lies_between(self):
        apart = 64 << 20
        for step in (1, -1):
            memory = mmap.mmap(-1, apart + 4)
            memory[:4], memory[apart:] = b"\1\2\3\4", b"\5\6\7\x08"
            rows = numpy.ndarray((2, 4), "u1", memory, strides=(apart, 1))[::step]
            self.small(lambda: pix.convert_bitmap(RGBA8, rows, BGRA8, rows))
            self.assertEqual((memory[:4], memory[apart:]), (b"\3\2\1\4", b"\7\6\5\x08"))

    def small(self, call):
        """Calls it, and sees that it takes little memory."""
        tracemalloc.start()
        try:
            call()
            self.assertLess(tracemalloc.get_traced_memory()[1], 1_000_000)
        finally:
            tracemalloc.stop()

    def test_copies_are_the_same(self):
        chance = random.Random(4)
        for type, size in ((pix.RGBA8, 4), (pix.RGBA16, 8), (pix.GRAYA8, 2)):
            pixels = bytearray(chance.randrange(256) for _ in range(size * 64 * 64))
            self.assertEqual(bytes(copy.copy(pix.Image(pixels, 64, 64, type=type)).pixels), pixels)
            rows = b"".join(bytes(pixels[size * 64 * y :][: size * 60]) for y in range(64))
            self.assertEqual(
                bytes(copy.copy(pix.Image(pixels, 60, 64, 64, type=type)).pixels), rows
            )
        for bits in (8, 16):
            values = bytearray(chance.randrange(256) for _ in range(8192 * 16))
            matte = pickle.loads(
                pickle.dumps(pix.Matte(values, 1 << 17 >> bits // 9, 1, bits=bits))
            )
            self.assertEqual(bytes(matte._rows.memory.view()), values)


if __name__ == "__main__":
    unittest.main()
