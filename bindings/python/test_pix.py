"""What is refused, that a refusal changes nothing, and what buffers, strides, operators and the other pixels do."""

import array
import copy
import ctypes
import gc
import os
import pickle
import sys
import threading
import time
import types
import typing
import unittest
from contextlib import contextmanager

import pix
from pix._turns import turns

try:
    import numpy
except ImportError:
    numpy = None

LONG = 2**31
WHOLE = (0, 0, 4, 4)
COLOR = (9, 9, 9, 9)
# the formats of convert()
TWELVE = list(pix.Format)[:12]
NO_OPERATOR = len(pix.Op)


def times(a, b):
    """Returns the channel product of 8 bits."""
    return (2 * a * b + 255) // 510


class Refusals(unittest.TestCase):
    def setUp(self):
        self.pixels = bytearray(range(64))
        self.image = pix.Image(self.pixels, 4, 4)
        self.other = pix.Image.new(4, 4, pix.RGBA8)

    def tearDown(self):
        self.assertEqual(self.pixels, bytes(range(64)))

    def refused(self, status, command):
        """Tests that the library refuses the command behind a good one."""
        with self.assertRaises(pix.PixError) as caught:
            self.image.run(pix.copy_color(WHOLE, COLOR), command)
        self.assertEqual((caught.exception.status, caught.exception.index), (status, 1))

    def test_images(self):
        for width, height, stride in ((LONG, 0, None), (0, LONG, None), (4, 5, None), (4, 4, 3), (4, 4, 5)):
            with self.assertRaises(pix.PixError) as caught:
                pix.Image(self.pixels, width, height, stride).run(pix.clear())
            self.assertEqual((caught.exception.status, caught.exception.index), (pix.Status.BAD_SIZE, None))
        pix.Image(bytearray(), 7, 0).run(pix.clear())
        pix.Image(b"", 0, 7).run(pix.clear())
        self.image.run()

    def test_commands(self):
        self.refused(pix.Status.BAD_KIND, pix.Command(8))
        self.refused(pix.Status.BAD_OP, pix.composite_color(WHOLE, COLOR, NO_OPERATOR))
        self.refused(pix.Status.BAD_REGION, pix.copy_color((0, 0, LONG, 1), COLOR))
        self.refused(pix.Status.BAD_REGION, pix.copy_image(WHOLE, self.other, (0, 0, 1, LONG)))
        for width, height in ((LONG, 0), (0, LONG)):
            source, mask = pix.Image(self.other.pixels, width, height), pix.Matte(bytes(9), width, height)
            self.refused(pix.Status.BAD_SOURCE, pix.composite_image(WHOLE, source, WHOLE))
            self.refused(pix.Status.BAD_SOURCE, pix.composite_matte(WHOLE, mask, COLOR, WHOLE))
            masked = pix.composite_image_matte(WHOLE, self.other, mask, mask_from=WHOLE)
            self.refused(pix.Status.BAD_SOURCE, masked)

    def test_short_buffers(self):
        """They are refused where they are handed over, and what is said tells what is missing."""
        short = r"the buffer is too short: it has {} bytes, and {} take {}"
        for sizes, said in (
            ((4, 5), short.format(64, "4 x 5 pixels of RGBA8", 80)),
            ((4, 4, 5), short.format(64, "4 x 4 pixels of RGBA8 in rows 5 apart", 76)),
            ((4, 4, 3), "rows of 4 pixels of RGBA8 can't begin 3 apart: the stride is counted in pixels, and is"),
            ((LONG, 1), f"{LONG} x 1 pixels of RGBA8 have a side above {LONG - 1}"),
            ((1, LONG), f"1 x {LONG} pixels of RGBA8 have a side above {LONG - 1}"),
        ):
            with self.assertRaisesRegex(pix.PixError, said) as caught:
                pix.Image(self.pixels, *sizes)
            self.assertEqual((caught.exception.status, caught.exception.index), (pix.Status.BAD_SIZE, None))
            again = pickle.loads(pickle.dumps(caught.exception))
            self.assertEqual((str(again), again.status), (str(caught.exception), pix.Status.BAD_SIZE))
        wide = memoryview(bytearray(30)).cast("H")
        for values, sizes, bits, said in (
            (bytes(15), (4, 4), 8, short.format(15, "4 x 4 values", 16)),
            (bytes(19), (4, 4, 5), 8, None),
            (bytes(18), (4, 4, 5), 8, short.format(18, "4 x 4 values in rows 5 apart", 19)),
            (wide, (4, 4), 16, short.format(30, "4 x 4 values", 32)),
            (bytes(64), (8, 8, 7), 8, "rows of 8 values can't begin 7 apart: the stride is counted in values, and"),
        ):
            if said is None:
                pix.Matte(values, *sizes, bits=bits)
                continue
            with self.assertRaisesRegex(pix.PixError, said):
                pix.Matte(values, *sizes, bits=bits)

    def test_windows(self):
        far = pix.copy_color((LONG - 5, 0, 9, 1), COLOR)
        for origin in ((LONG - 4, 0), (0, LONG - 4), (2 * LONG - 1, 0), (0, 2 * LONG - 1)):
            with self.assertRaises(pix.PixError) as caught:
                self.image.run(far, origin=origin)
            self.assertEqual((caught.exception.status, caught.exception.index), (pix.Status.BAD_SIZE, None))
        for origin in ((-1, 0), (0, 2 * LONG), (1,), (1, 2, 3)):
            self.assertRaises(ValueError, self.image.run, far, origin=origin)
        for origin in ((0.5, 0), 3, None):
            self.assertRaises(TypeError, self.image.run, far, origin=origin)
        with self.assertRaises(pix.PixError) as caught:
            self.image.run(far, pix.composite_color(WHOLE, COLOR, NO_OPERATOR), origin=(LONG - 5, 0))
        self.assertEqual((caught.exception.status, caught.exception.index), (pix.Status.BAD_OP, 1))
        last = pix.Image.new(4, 4, pix.RGBA8)
        last.run(far, origin=[LONG - 5, 0])
        self.assertEqual(bytes(last.pixels), bytes(COLOR) * 4 + bytes(48))

    def test_numbers(self):
        for region in ((LONG, 0, 1, 1), (0, -LONG - 1, 1, 1), (0, 0, -1, 1), (0, 0, 1, 2 * LONG)):
            self.assertRaises(ValueError, pix.copy_color, region, COLOR)
        for color in ((256, 0, 0, 0), (-1, 0, 0, 0), (0, 0, 0)):
            self.assertRaises(ValueError, self.image.run, pix.copy_color(WHOLE, color))
        self.assertRaises(TypeError, pix.copy_color, (0.5, 0, 1, 1), COLOR)

    def test_lists(self):
        command = pix.copy_color(WHOLE, COLOR)
        for wrong in ([command], (command,), None, 3):
            with self.assertRaisesRegex(TypeError, "is not a Command"):
                self.image.run(wrong)
        self.assertRaises(AttributeError, setattr, command, "source", self.other)
        self.assertRaises(TypeError, pix.Command, 4, WHOLE, source=bytes(64))

    def test_prepared_lists(self):
        good = pix.copy_color(WHOLE, COLOR)
        for bad, status in ((pix.Command(99), pix.Status.BAD_KIND), (pix.composite_color(WHOLE, COLOR, NO_OPERATOR), pix.Status.BAD_OP)):
            with self.assertRaises(pix.PixError) as caught:
                pix.CommandList(good, bad, type=pix.RGBA8)
            self.assertEqual((caught.exception.status, caught.exception.index), (status, 1))
        for wrong in (None, [good], pix.CommandList(good, type=pix.RGBA8)):
            self.assertRaisesRegex(TypeError, "is not a Command", pix.CommandList, wrong)
        self.assertRaises(ValueError, pix.CommandList, good, type=pix.GRAYA8)
        self.assertRaises(TypeError, pix.CommandList, good, type=8)
        prepared = pix.CommandList(good, type=pix.RGBA8)
        for wrong in ((prepared, prepared), (good, prepared)):
            self.assertRaisesRegex(TypeError, "is not a Command", self.image.run, *wrong)
        for other in (pix.GRAYA8, pix.RGBA16):
            self.assertRaisesRegex(TypeError, "a list for RGBA8", pix.Image.new(4, 4, other).run, prepared)
        self.assertRaises(TypeError, pix.Image(bytes(64), 4, 4).run, prepared)
        near, far = pix.Image(memoryview(self.pixels)[60:], 1, 1), pix.Image.new(1, 1, pix.RGBA8)
        for sources, number in (((near, far), 0), ((far, near), 1), ((far, near, near, far), 1)):
            shared = pix.CommandList(*(pix.copy_image((9, 9, 1, 1), source) for source in sources))
            self.assertRaisesRegex(ValueError, f"command {number}: its source shares", self.image.run, shared)
        with self.assertRaises(pix.PixError) as caught:
            self.image.run(prepared, origin=(LONG - 4, 0))
        self.assertEqual((caught.exception.status, caught.exception.index), (pix.Status.BAD_SIZE, None))

    def test_buffers(self):
        self.assertRaises(TypeError, pix.Image(bytes(64), 4, 4).run, pix.clear())
        self.assertRaises(TypeError, pix.Image, "text", 1, 1)
        self.assertRaises(ValueError, pix.Image, memoryview(self.pixels)[::2], 4, 2)
        self.assertRaises(ValueError, pix.Image, memoryview(self.pixels)[1:9], 1, 1, type=pix.RGBA16)
        self.assertRaises(BufferError, self.pixels.append, 1)

    def test_a_view_that_is_made_again(self):
        source, matte = pix.Image(bytes(64), 4, 4), pix.Matte(bytes(16), 4, 4)
        for again in (lambda: self.image.__init__(bytearray(64), 4, 4), lambda: self.image.__init__(bytearray(64), 4, 2, type=pix.RGBA16),
                      lambda: source.__init__(bytes(1024), 16, 16), lambda: matte.__init__(bytes(32), 4, 4, bits=16)):  # fmt: skip
            with self.assertRaisesRegex(TypeError, "made once"):
                again()
        self.assertEqual((self.image.type, source.width, matte.bits), (pix.RGBA8, 4, 8))
        self.assertEqual((matte.bits, matte.width), (8, 4))

    def test_kinds_of_pixels(self):
        self.assertRaises((TypeError, ValueError), pix.PixelType, "RGB8", 1, ctypes.c_uint8, "pix_raw_run_window")
        self.assertRaises(ValueError, pix.PixelType, (1, ctypes.c_uint8, "pix_raw_run_window"))
        for name in ("max", "channels", "name"):
            self.assertRaises(AttributeError, setattr, pix.RGBA16, name, 1)
        self.assertEqual([(kind.name, kind.channels, kind.max) for kind in pix.PixelType],
                         [("RGBA8", 4, 255), ("RGBA16", 4, 65535), ("GRAYA8", 2, 255)])  # fmt: skip
        for kind in ("RGBA8", None, 4):
            self.assertRaises(TypeError, pix.Image, self.pixels, 4, 4, type=kind)
            self.assertRaises(TypeError, pix.Image.new, 4, 4, kind)

    def test_elements(self):
        for code in "bhHiIlLqQfd":
            elements = array.array(code, bytes(64))
            self.assertRaises(TypeError, pix.Image, elements, 4, 4)
            self.assertRaises(TypeError, pix.Matte, elements, 4, 4)
            self.assertRaises(TypeError, pix.convert, pix.Format.RGBA8, elements, pix.Format.RGB8)
            if code != "H":
                self.assertRaises(TypeError, pix.Image, elements, 4, 2, type=pix.RGBA16)
        other = "BigEndian" if sys.byteorder == "little" else "LittleEndian"
        swapped = type("Swapped", (getattr(ctypes, other + "Structure"),), {"_fields_": [("x", ctypes.c_uint16)]})
        self.assertRaises(TypeError, pix.Image, (swapped * 32)(), 4, 2, type=pix.RGBA16)
        self.assertRaises(TypeError, pix.Image, (ctypes.c_bool * 64)(), 4, 4)

    def test_rows_inside_out(self):
        self.assertRaises(ValueError, pix.Image, memoryview(self.pixels)[::-1], 4, 4)
        self.assertRaises(TypeError, pix.Image, self.pixels)
        self.assertRaises(TypeError, pix.Image, self.pixels, 4)

    def test_overlaps(self):
        for start in (0, 4, 60):
            source = pix.Image(memoryview(self.pixels)[start:], 1, 1)
            self.assertRaises(ValueError, self.image.run, pix.copy_image(WHOLE, source))
        matte = pix.Matte(memoryview(self.pixels)[63:], 1, 1)
        self.assertRaises(ValueError, self.image.run, pix.composite_matte(WHOLE, matte, COLOR))
        self.assertRaises(ValueError, self.image.run, pix.composite_image_matte(WHOLE, self.other, matte))

    def test_types(self):
        self.assertRaises(TypeError, pix.copy_image, WHOLE, pix.Matte(bytes(16), 4, 4))
        self.assertRaises(TypeError, pix.composite_matte, WHOLE, self.other, COLOR)
        self.assertRaises(TypeError, self.image.run, pix.copy_image(WHOLE, pix.Image.new(4, 4, pix.GRAYA8)))
        matte = pix.Matte(bytes(32), 4, 4, bits=16)
        self.assertRaises(TypeError, self.image.run, pix.composite_matte(WHOLE, matte, COLOR))

    def test_opacities(self):
        for alpha in (-1, 256):
            self.assertRaises(ValueError, self.image.run, pix.composite_image_alpha(WHOLE, self.other, alpha))
        self.assertRaises(TypeError, pix.composite_image_alpha, WHOLE, self.other, 0.5)
        matte = pix.Matte(bytes(16), 4, 4)
        self.assertRaises(TypeError, pix.composite_image_matte, WHOLE, matte, matte)
        self.assertRaises(TypeError, pix.composite_image_matte, WHOLE, self.other, self.other)
        wide = pix.composite_image_matte(WHOLE, self.other, pix.Matte(bytes(32), 4, 4, bits=16))
        self.assertRaises(TypeError, self.image.run, wide)

    def test_conversions(self):
        four, three = pix.Format.RGBA8, pix.Format.RGB8
        for src, dst in ((bytes(7), bytearray(8)), (bytes(8), bytearray(7)), (bytes(8), bytearray(12))):
            with self.assertRaises(pix.PixError) as caught:
                pix.convert(four, src, pix.Format.BGRA8, dst)
            self.assertEqual(caught.exception.status, pix.Status.BAD_LENGTH)
        self.assertRaises(TypeError, pix.convert, four, bytes(8), four, bytes(8))
        self.assertRaises(ValueError, pix.convert, four, self.pixels, four, self.pixels)
        self.assertRaises(ValueError, pix.convert, 99, bytes(8), four)
        self.assertEqual(pix.convert(four, bytes((1, 2, 3, 4)), three), bytes((1, 2, 3)))
        self.assertEqual(pix.convert(four, b"", three), b"")


class Number:
    """A number that calls a function when it is asked for."""

    def __init__(self, number, call):
        self.number, self.call = number, call

    def __index__(self):
        self.call()
        return self.number


class Borders(unittest.TestCase):
    def test_a_view_that_is_released(self):
        image = pix.Image.new(16, 16, pix.RGBA8)
        with image.pixels as view:
            self.assertEqual(len(view), 1024)
        image.pixels.release()
        del view
        image.run(pix.copy_color((0, 0, 16, 16), COLOR))
        self.assertEqual(set(image.pixels), {9})

    def test_a_number_that_exchanges_the_source(self):
        pixels = bytearray(64)
        image, other = pix.Image(pixels, 4, 4), pix.Image.new(4, 4, pix.RGBA8)
        commands = []
        number = Number(0, lambda: commands and setattr(commands[0], "_source", image))
        commands.append(pix.copy_image(WHOLE, other))
        with self.assertRaisesRegex(ValueError, "shares memory"):
            image.run(pix.copy_color((number, 0, 1, 1), COLOR), commands[0])
        self.assertEqual(pixels, bytes(64))

    def test_buffers_without_strides(self):
        for kind in (ctypes.c_ubyte, ctypes.c_char):
            pixels = (kind * 64)()
            image = pix.Image(pixels, 4, 4)
            image.run(pix.copy_color((1, 1, 2, 2), COLOR))
            self.assertEqual(sum(image.pixels), 4 * sum(COLOR))
        words = ((ctypes.c_uint16 * 4) * 3 * 2)()
        image = pix.Image(words, type=pix.RGBA16)
        self.assertEqual((image.width, image.height), (3, 2))
        image.run(pix.copy_color((2, 1, 1, 1), (1, 2, 3, 65535)))
        self.assertEqual(list(words[1][2]), [1, 2, 3, 65535])
        self.assertEqual(sum(image.pixels), 6 + 255 * 2)

    @unittest.skipIf(sys.version_info < (3, 12), "no __buffer__")
    def test_buffers_of_a_class(self):
        bytes_of = bytearray(64)
        made = type("Made", (), {"__buffer__": lambda self, flags: memoryview(bytes_of)})()
        image = pix.Image(made, 4, 4)
        image.run(pix.copy_color(WHOLE, COLOR))
        self.assertRaises(BufferError, bytes_of.append, 1)
        image.pixels.release()
        image.run(pix.copy_color(WHOLE, (1, 2, 3, 4)))
        self.assertEqual(bytes_of, bytes((1, 2, 3, 4)) * 16)
        del image
        gc.collect()
        bytes_of.append(1)

    def test_adjacent_buffers(self):
        both = memoryview(bytearray(range(128)))
        for image, source in ((both[:64], both[64:]), (both[64:], both[:64])):
            pix.Image(image, 4, 4).run(pix.copy_image(WHOLE, pix.Image(source, 4, 4)))
            self.assertEqual(image, source)
        pix.convert(pix.Format.RGBA8, both[:64], pix.Format.BGRA8, both[64:])

    def test_values(self):
        image = pix.Image(bytearray(range(52)), 3, 3, 5)
        again = pickle.loads(pickle.dumps(image))
        self.assertEqual((again.width, again.height, again.stride, again.type), (3, 3, 3, pix.RGBA8))
        self.assertEqual(again.pixels, bytes(range(12)) + bytes(range(20, 32)) + bytes(range(40, 52)))
        matte = copy.deepcopy(pix.Matte(array.array("H", range(6)), 3, 2, bits=16))
        self.assertEqual((matte.bits, bytes(matte._rows.memory.view())), (16, array.array("H", range(6)).tobytes()))
        for same in (pix.GRAYA8, pix.Image, pix.Op.XOR, pix.Format.SGRAY8, pix.Status.BAD_OP, pix.convert):
            self.assertIs(pickle.loads(pickle.dumps(same)), same)
            self.assertIs(copy.deepcopy(same), same)
        empty = copy.copy(pix.Image.new(0, 7, pix.RGBA8))
        self.assertEqual((empty.width, empty.height), (0, 7))
        painted = [pix.Image.new(3, 3, pix.RGBA8), pix.Image.new(3, 3, pix.RGBA8)]
        command = pix.composite_image((0, 0, 3, 3), image, op=pix.Op.PLUS)
        painted[0].run(command)
        painted[1].run(*pickle.loads(pickle.dumps([command])))
        self.assertEqual(painted[0].pixels, painted[1].pixels)
        fault = pickle.loads(pickle.dumps(pix.PixError(pix.Status.BAD_OP, 3)))
        self.assertEqual((fault.status, fault.index, str(fault)), (pix.Status.BAD_OP, 3, "command 3: no such operator"))

    def test_prepared_lists(self):
        source = pix.Image(bytearray(range(36)), 3, 3)
        commands = [pix.copy_color((0, 0, 2, 3), COLOR), pix.composite_image((1, 0, 3, 3), source, op=pix.Op.PLUS)]
        prepared = pix.CommandList(*commands)
        self.assertEqual((list(prepared), len(prepared), prepared[1], prepared.type), (commands, 2, commands[1], pix.RGBA8))
        self.assertEqual(repr(prepared), "<pix.CommandList of 2, RGBA8>")
        for value in (7, 200):  # what the source has is read at each run
            source.run(pix.copy_color((1, 1, 1, 1), (value,) * 4))
            one, all = pix.Image.new(3, 3, pix.RGBA8), pix.Image.new(3, 3, pix.RGBA8)
            one.run(*commands, origin=(1, 0))
            all.run(prepared, origin=(1, 0))
            self.assertEqual(one.pixels, all.pixels)
        del source, commands
        gc.collect()
        again = pickle.loads(pickle.dumps(prepared))
        self.assertEqual((len(again), again.type, again[1].source.pixels), (2, pix.RGBA8, prepared[1].source.pixels))
        other = pix.Image.new(3, 3, pix.RGBA8)
        other.run(again, origin=(1, 0))
        self.assertEqual(other.pixels, all.pixels)
        wide = pickle.loads(pickle.dumps(pix.CommandList(pix.copy_color((0, 0, 1, 1), (1, 2, 3, 65535)), type=pix.RGBA16)))
        self.assertEqual(wide.type, pix.RGBA16)
        pix.Image.new(1, 1, pix.RGBA8).run(pix.CommandList(type=pix.RGBA8))

    def test_texts(self):
        image, matte = pix.Image.new(3, 2, pix.RGBA16), pix.Matte(bytes(6), 3, 2)
        self.assertEqual((repr(image), repr(matte)), ("<pix.Image 3 x 2, RGBA16>", "<pix.Matte 3 x 2, 8 bits>"))
        self.assertIn("composite_matte to (0, 0, 1, 1), (9, 9, 9, 9), <pix.Matte", repr(pix.composite_matte((0, 0, 1, 1), matte, COLOR)))
        self.assertEqual(repr(pix.clear()), "<pix.clear to (0, 0, 0, 0)>")

    def public_members(self, item):
        """Returns a public name's own functions, methods and properties, those of its bases in this package too."""
        if not isinstance(item, type):
            return [item]
        bases = [base for base in item.__mro__ if base.__module__.split(".")[0] == "pix"]
        members = [member for base in bases for key, member in vars(base).items() if key[0] != "_"]
        members = [getattr(member, "__func__", member) for member in members]
        return [member for member in members if isinstance(member, (types.FunctionType, property))]

    def test_each_public_name_has_hints_and_a_docstring(self):
        for name in set(pix.__all__) - {"Region", "RGBA8", "RGBA16", "GRAYA8"}:
            item = getattr(pix, name)
            if isinstance(item, pix.Format):
                self.assertEqual(item.name, name)
                continue
            self.assertTrue(item.__doc__, name)
            for member in self.public_members(item):
                self.assertTrue(member.__doc__, member)
                self.assertIn("return", typing.get_type_hints(getattr(member, "fget", member)), member)
            if isinstance(item, type) and "__init__" in vars(item):
                self.assertIn("return", typing.get_type_hints(item.__init__), item)


@contextmanager
def another_call(written, read):
    """Lets another thread be in a long call that writes and reads this memory."""
    begun, go = threading.Event(), threading.Event()
    call = lambda: (begun.set(), go.wait())
    thread = threading.Thread(target=turns.take, args=(True, call, (), written, read))
    thread.start()
    begun.wait()
    try:
        yield
    finally:
        go.set()
        thread.join()


class Threads(unittest.TestCase):
    def long_list(self, image):
        """Returns a list that runs for a fifth of a second at least, by the shortest of five runs, since a busy machine halts some."""
        commands = [pix.composite_color((0, 0, image.width, image.height), (1, 1, 1, 1), pix.Op.XOR)] * 4
        took = []
        for _ in range(5):
            started = time.perf_counter()
            image.run(*commands)
            took.append(time.perf_counter() - started)
        return commands * max(1, int(0.2 / max(1e-6, min(took))))

    def longest_pause(self, image, commands):
        """Returns how long this thread stood still at most while another one painted, and how long that took."""
        took, is_done, pause = [], threading.Event(), 0.0

        def paint():
            started = time.perf_counter()
            image.run(*commands)
            took.append(time.perf_counter() - started)
            is_done.set()

        thread, last = threading.Thread(target=paint), time.perf_counter()
        thread.start()
        while not is_done.is_set():
            now = time.perf_counter()
            pause, last = max(pause, now - last), now
        thread.join()
        return max(pause, time.perf_counter() - last), took[0]

    def test_the_lock_is_let_go(self):
        image = pix.Image.new(512, 512, pix.RGBA8)
        commands = self.long_list(image)
        # On a busy machine a thread may stand still for other reasons: one try in ten is enough.
        self.assertTrue(any(pause < took / 2 for pause, took in (self.longest_pause(image, commands) for _ in range(10))))

    def most_at_once(self, images, commands):
        """Returns how many runs there were at a time at most, of one for each image."""
        most, done = 0, []
        threads = [threading.Thread(target=lambda image=image: done.append(image.run(*commands))) for image in images]
        for thread in threads:
            thread.start()
        while len(done) < len(images):
            most = max(most, len(turns.running))
        for thread in threads:
            thread.join()
        return most

    def test_two_threads_paint_at_once(self):
        images = [pix.Image.new(512, 512, pix.RGBA8) for _ in range(2)]
        commands = self.long_list(pix.Image.new(512, 512, pix.RGBA8))
        # On a busy machine one may end before the other begins: one try in ten is enough.
        self.assertTrue(any(self.most_at_once(images, commands) == 2 for _ in range(10)))
        self.assertEqual(images[0].pixels, images[1].pixels)

    def test_threads_paint_bands_of_one_image(self):
        whole, buffer = pix.Image.new(512, 512, pix.RGBA8), bytearray(4 * 512 * 512)
        commands = self.long_list(pix.Image.new(512, 512, pix.RGBA8)) + [
            pix.composite_color((-9, 100, 300, 200), (9, 8, 7, 99)), pix.composite_color((200, 99, 999, 300), (50, 0, 9, 60)),
        ]  # fmt: skip
        whole.run(*commands)

        def paint(top):
            rows = memoryview(buffer)[top * 2048 : (top + 128) * 2048]
            pix.Image(rows, 512, 128).run(*commands, origin=(0, top))

        threads = [threading.Thread(target=paint, args=[top]) for top in range(0, 512, 128)]
        for thread in threads:
            thread.start()
        for thread in threads:
            thread.join()
        self.assertEqual(buffer, whole.pixels)

    def test_one_waits_for_what_another_writes(self):
        image, source = pix.Image.new(4, 4, pix.RGBA8), pix.Image.new(4, 4, pix.RGBA8)
        painted, read = image._rows.memory, source._rows.memory
        for others in (([painted], []), ([read], []), ([], [painted])):
            done = threading.Event()
            thread = threading.Thread(target=lambda: (image.run(pix.copy_image(WHOLE, source)), done.set()))
            with another_call(*others):
                thread.start()
                self.assertFalse(done.wait(0.05))
            self.assertTrue(done.wait(10))
            thread.join()
        self.assertFalse(turns.running)
        with another_call([], [read]):
            image.run(pix.copy_image(WHOLE, source))

    def test_one_that_begins_inside_another_runs_at_once(self):
        # As in the handler of a signal, which comes before or after what the library does.
        image = pix.Image.new(4, 4, pix.RGBA8)
        inner = lambda: image.run(pix.copy_color(WHOLE, COLOR)) or 0
        for is_long in (False, True):
            turns.take(is_long, inner, (), [image._rows.memory], [])
        self.assertEqual(set(image.pixels), {9})
        self.assertFalse(turns.running)

    def test_an_interrupt_leaves_no_turn(self):
        def interrupted():
            raise KeyboardInterrupt

        for is_long in (False, True):
            self.assertRaises(KeyboardInterrupt, turns.take, is_long, interrupted, (), [pix.Image.new(1, 1, pix.RGBA8)._rows.memory], [])
        self.assertFalse(turns.running)

    def test_a_turn_whose_end_was_left_out(self):
        # As where an interrupt came before the last line of a call: what tells that it is over is its lock alone.
        image, left = pix.Image.new(4, 4, pix.RGBA8), []
        with another_call([image._rows.memory], []):
            left += turns.running
        turns.running.update(left)
        done = threading.Thread(target=image.run, args=[pix.clear()], daemon=True)
        done.start()
        done.join(10)
        self.assertFalse(done.is_alive())
        self.assertFalse(turns.running)

    @unittest.skipIf(not hasattr(os, "fork"), "no fork")
    def test_a_child_process_has_no_turns(self):
        image = pix.Image.new(4, 4, pix.RGBA8)
        with another_call([image._rows.memory], []):
            child = os.fork()
            if child == 0:
                image.run(pix.clear())
                os._exit(0)
            self.assertEqual(os.waitpid(child, 0)[1], 0)

    def test_one_image_from_many_threads(self):
        image, source = pix.Image.new(512, 512, pix.RGBA8), pix.Image.new(512, 512, pix.RGBA8)
        whole = (0, 0, 512, 512)
        source.run(pix.copy_color(whole, (1, 0, 0, 0)))
        command = pix.composite_image(whole, source, op=pix.Op.PLUS)
        threads = [threading.Thread(target=image.run, args=[command] * 3) for _ in range(8)]
        for thread in threads:
            thread.start()
        for thread in threads:
            thread.join()
        self.assertEqual(set(image.pixels[::4]), {24})
        self.assertFalse(turns.running)


class Paintings(unittest.TestCase):
    def test_tiles_are_the_picture_painted_whole(self):
        sprite = pix.Image(bytearray(range(100)), 5, 5)
        commands = [
            pix.copy_color((-3, -3, 9, 20), (0, 0, 9, 99)), pix.composite_image((5, 2, 5, 5), sprite),
            pix.composite_image((-1, 9, 99, 99), sprite, (1, -2, 99, 99), pix.Op.XOR),
            pix.composite_matte((3, 1, 7, 9), pix.Matte(bytes(range(0, 250, 4)), 7, 9), COLOR, op=pix.Op.SRC_ATOP),
        ]  # fmt: skip
        whole = bytearray(i % 251 for i in range(4 * 12 * 11))
        parts = bytearray(whole)
        pix.Image(whole, 12, 11).run(*commands)
        for top, rows in ((5, 6), (0, 5)):
            for left in (6, 0):
                start, end = 4 * (top * 12 + left), 4 * ((top + rows - 1) * 12 + left + 6)
                tile = pix.Image(memoryview(parts)[start:end], 6, rows, 12)
                if left:  # in place, or in memory of its own by a pickle
                    tile.run(*commands, origin=(left, top))
                    continue
                own = pickle.loads(pickle.dumps(tile))
                own.run(*pickle.loads(pickle.dumps(commands)), origin=(left, top))
                tile.run(pix.copy_image((0, 0, 6, rows), own))
        self.assertEqual(parts, whole)

    def test_windows_of_the_other_kinds(self):
        for type, far in ((pix.RGBA16, (900, 800, 700, 1000)), (pix.GRAYA8, (8, 9))):
            image = pix.Image.new(2, 2, type)
            image.run(pix.copy_color((7, 3, 1, 1), far), origin=(6, 2))
            wanted = pix.Image.new(2, 2, type)
            wanted.run(pix.copy_color((1, 1, 1, 1), far))
            self.assertEqual(image.pixels, wanted.pixels)

    def test_rows_with_padding(self):
        pixels = bytearray(b"\x01\x02\x03\x04" * 13)
        rows = bytes(channel for i in range(13) for channel in (i, 0, 0, 255))
        source = pix.Image(rows, 3, 3, 5)
        image = pix.Image(pixels, 3, 3, 5)
        image.run(pix.copy_image((-1, -1, 9, 9), source, (0, 0, 9, 9)))
        expected = [i + 6 if i % 5 < 2 and i // 5 < 2 else 1 for i in range(13)]
        self.assertEqual(list(pixels[::4]), expected)
        image.run(pix.copy_color((0, 0, 9, 9), COLOR))
        self.assertEqual(list(pixels[::4]), [9 if i % 5 < 3 else 1 for i in range(13)])

    def test_operators(self):
        source, dest = (90, 17, 0, 130), (5, 20, 30, 200)
        sa, da = source[3], dest[3]
        na, nb = 255 - sa, 255 - da
        terms = {
            # made by tools/names: operators
            "SRC": (255, 0), "DEST": (0, 255), "SRC_OVER": (255, na), "DEST_OVER": (nb, 255), "SRC_OUT": (nb, 0),
            "DEST_OUT": (0, na), "SRC_IN": (da, 0), "DEST_IN": (0, sa), "SRC_ATOP": (da, na), "DEST_ATOP": (nb, sa),
            "XOR": (nb, na), "CLEAR": (0, 0), "PLUS": (255, 255),
            # made by tools/names: end
        }  # fmt: skip
        for op in pix.Op:
            by_source, by_dest = terms[op.name]
            image = pix.Image(bytearray(dest), 1, 1)
            image.run(pix.composite_color((0, 0, 1, 1), source, op))
            expected = [min(255, times(s, by_source) + times(d, by_dest)) for s, d in zip(source, dest)]
            self.assertEqual(list(image.pixels), expected, op)

    def test_masks_and_opacities(self):
        source = pix.Image(bytes((200, 100, 0, 200)) * 3, 3, 1)
        below = bytes((0, 0, 100, 255))
        faded, kept = bytes((100, 50, 61, 255)), bytes((200, 100, 22, 255))
        pixels = bytearray(below * 3)
        image = pix.Image(pixels, 3, 1)
        image.run(pix.composite_image_alpha((0, 0, 1, 1), source, 128))
        self.assertEqual(pixels, faded + below * 2)
        pixels[:] = below * 3
        mask = pix.Matte(bytes((9, 9, 9, 128, 0, 255)), 3, 2)
        command = pix.composite_image_matte((0, 0, 9, 9), source, mask, mask_from=(0, 1, 3, 1))
        self.assertEqual((command.mask, command.mask_from, command.alpha), (mask, (0, 1, 3, 1), 0))
        image.run(pickle.loads(pickle.dumps(command)))
        self.assertEqual(pixels, faded + below + kept)
        wide = pix.Image(array.array("H", (40000, 20000, 0, 40000)), 1, 1, type=pix.RGBA16)
        words = array.array("H", [0] * 4)
        pix.Image(words, 1, 1, type=pix.RGBA16).run(pix.composite_image_alpha((0, 0, 1, 1), wide, 32768, op=pix.Op.SRC))
        self.assertEqual(list(words), [20000, 10000, 0, 20000])

    def test_wide_pixels(self):
        words = array.array("H", (1000, 2000, 3000, 65535) * 2)
        matte = pix.Matte(array.array("H", (0, 32768)), 2, 1, bits=16)
        pix.Image(words, 2, 1, type=pix.RGBA16).run(pix.composite_matte((0, 0, 2, 1), matte, (65535, 0, 0, 65535)))
        self.assertEqual(list(words), [1000, 2000, 3000, 65535, 33268, 1000, 1500, 65535])

    def test_gray_pixels(self):
        image = pix.Image(bytearray((50, 255, 50, 255)), 2, 1, type=pix.GRAYA8)
        source = pix.Image(bytes((100, 200, 0, 0)), 2, 1, type=pix.GRAYA8)
        image.run(pix.composite_image((0, 0, 2, 1), source))
        self.assertEqual(list(image.pixels), [111, 255, 50, 255])

    def test_sizes(self):
        self.assertEqual([format.size for format in TWELVE], [4, 4, 4, 4, 4, 4, 3, 1, 4, 4, 3, 1])
        for format, size in zip(TWELVE, (4, 4, 4, 4, 4, 4, 3, 1, 4, 4, 3, 1)):
            self.assertEqual(len(pix.convert(pix.Format.RGB8, bytes(6), format)), 2 * size)

    def test_formats(self):
        for a in TWELVE:
            for b in TWELVE:
                self.assertEqual(pix.convert(a, b"\xff" * a.size, b), b"\xff" * b.size)
        self.assertEqual(pix.convert(pix.Format.RGB8, b"\xff\0\0", pix.Format.BGRA8P), b"\0\0\xff\xff")
        half = bytes((64, 64, 64, 128))
        self.assertEqual(pix.convert(pix.Format.RGBA8P, half, pix.Format.RGB8), bytes((64, 64, 64)))
        self.assertEqual(pix.convert(pix.Format.BGRA8P, half, pix.Format.RGB8), bytes((128, 128, 128)))

    def test_views_of_three_dimensions(self):
        pixels = bytearray(4 * 6 * 4)
        view = memoryview(pixels).cast("B", (4, 6, 4))
        pix.Image(view, 6, 4, type=pix.RGBA8).run(pix.copy_color((1, 1, 2, 2), COLOR))
        self.assertEqual(sum(pixels), 4 * sum(COLOR))

    def test_a_buffer_is_let_go(self):
        pixels = bytearray(4)
        pix.Image(pixels, 1, 1).run(pix.copy_color((0, 0, 1, 1), COLOR))
        pixels.append(1)
        self.assertEqual(pixels, bytes((9, 9, 9, 9, 1)))

    @unittest.skipIf(numpy is None, "no numpy")
    def test_numpy(self):
        pixels = numpy.zeros((4, 6, 4), numpy.uint8)
        pix.Image(pixels, 6, 4, type=pix.RGBA8).run(pix.copy_color((numpy.int64(1), 1, 2, 2), COLOR))
        self.assertEqual(pixels.sum(), 4 * sum(COLOR))
        pix.Image(pixels, 5, 4, 6, pix.RGBA8).run(pix.clear())
        self.assertEqual(pixels.sum(), 0)

    @unittest.skipIf(numpy is None, "no numpy")
    def test_windows(self):
        pixels = numpy.zeros((6, 8, 4), numpy.uint8)
        window = pix.Image(pixels[1:5, 2:7], type=pix.RGBA8)
        self.assertEqual((window.width, window.height, window.stride), (5, 4, 8))
        window.run(pix.copy_color((-9, -9, 99, 99), COLOR))
        wanted = numpy.zeros((6, 8, 4), numpy.uint8)
        wanted[1:5, 2:7] = COLOR
        self.assertTrue((pixels == wanted).all())
        pix.Image(pixels[::2], 8, 3, type=pix.RGBA8).run(pix.clear())
        wanted[::2] = 0
        self.assertTrue((pixels == wanted).all())
        mask = numpy.full((6, 8), 255, numpy.uint8)[1:4, 1:3]
        pix.Image(pixels, type=pix.RGBA8).run(pix.composite_matte((0, 0, 2, 3), pix.Matte(mask), (1, 2, 3, 255), op=pix.Op.SRC))
        wanted[:3, :2] = (1, 2, 3, 255)
        self.assertTrue((pixels == wanted).all())
        self.assertEqual(pickle.loads(pickle.dumps(pix.Image(pixels[:, 1:], type=pix.RGBA8))).pixels, pixels[:, 1:].tobytes())
        with self.assertRaisesRegex(ValueError, "inside its rows"):
            pix.Image(pixels[:, ::2], 4, 6)
        with self.assertRaisesRegex(ValueError, "backwards"):
            pix.Image(pixels[::-1], 8, 6)
        for width, height, stride in ((5, 4, 7), (4, 4, None), (5, 3, None)):
            self.assertRaises(ValueError, pix.Image, pixels[1:5, 2:7], width, height, stride)
        self.assertRaises(ValueError, pix.convert, pix.Format.RGBA8, pixels[:, 1:], pix.Format.RGB8)

    @unittest.skipIf(numpy is None, "no numpy")
    def test_elements_of_numpy(self):
        for kind in (object, numpy.float32, numpy.complex64, numpy.bool_, numpy.uint16, numpy.int8):
            self.assertRaises(TypeError, pix.Image, numpy.zeros((4, 4, 4), kind), 4, 4)
        self.assertRaises(TypeError, pix.Image, numpy.zeros((4, 4, 4), ">u2"), 4, 4, type=pix.RGBA16)
        pix.Image(numpy.zeros((4, 4, 4), numpy.uint16), type=pix.RGBA16).run(pix.clear())


if __name__ == "__main__":
    unittest.main()
