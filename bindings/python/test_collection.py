"""A collection: what it clears is not painted and not read, whoever gets hold of it meanwhile."""

import copy
import gc
import unittest
import weakref

import pix

WHOLE = (0, 0, 8, 8)
LENGTH = 4 * 8 * 8


class OwnBytes(bytearray):
    """A buffer that the collector knows of, since it may have attributes."""


class Collected(unittest.TestCase):
    """Objects of a cycle are cleared one by one. A weak reference that a __del__ makes lives on
    until its object is cleared, and the callback of another one runs between two of them."""

    def setUp(self):
        gc.collect()
        gc.disable()
        self.addCleanup(gc.enable)

    def collect(self, make, look):
        """Collects a cycle of the objects that `make` returns. At each step `look` is called with
        the number of one that is still there, and with it."""
        found, steps, looks = [], [], []

        def step(_):
            for number, reference in enumerate(found):
                if reference() is not None:
                    looks.append(look(number, reference()))

        class Step:
            def __init__(self):
                self.itself = self

            def __del__(self):
                steps.append(weakref.ref(self, step))

        class First(Step):
            def __del__(self):
                found.extend(map(weakref.ref, self.made))

        first = First()
        first.made = make(Step)
        for one in first.made:
            one.cycle = first.made
        del first, one
        gc.collect()
        self.assertGreater(len(looks), 3)

    def views_in_a_cycle(self, pixels):
        """Makes an image of these pixels, a list and a command that read it, and steps between
        them."""
        image_of = type("OwnImage", (pix.Image,), {})
        list_of = type("OwnList", (pix.CommandList,), {})
        command_of = type("OwnCommand", (pix.Command,), {})

        def make(step):
            step()
            image = image_of(pixels, 8, 8)
            step()
            command = command_of(4, WHOLE, op=pix.Op.SRC_OVER, source=image)
            step()
            commands = list_of(command, pix.clear())
            step()
            return image, command, commands

        return make

    def test_nothing_runs_on_memory_that_was_let_go(self):
        for kind in (bytearray, OwnBytes):
            pixels, target, ran = kind(LENGTH), pix.Image.new(8, 8, pix.RGBA8), []
            uses = (
                (lambda image: image.run(pix.clear()), lambda image: image.to_array(pix.SRGBA8),
                 copy.copy, lambda image: target.run(pix.copy_image(WHOLE, image)),
                 lambda image: image.pixels, lambda image: image.__array_interface__),
                (target.run, pix.CommandList),
                (target.run,),
            )  # fmt: skip

            def look(number, given, pixels=pixels, uses=uses, ran=ran):
                try:
                    pixels.append(0)
                    pixels.pop()
                    is_free = True
                except BufferError:
                    is_free = False
                for use in uses[number]:
                    try:
                        use(given)
                        ran.append((number, is_free))
                    except (ReferenceError, AttributeError):
                        pass

            self.collect(self.views_in_a_cycle(pixels), look)
            self.assertEqual(ran, [], f"this ran, and whether its memory was free ({kind})")

    def test_what_a_collection_leaves_is_whole(self):
        image = pix.Image(OwnBytes(LENGTH), 8, 8)
        commands = pix.CommandList(pix.copy_image(WHOLE, image))
        cycle = [image, commands]
        cycle.append(cycle)
        del cycle
        gc.collect()
        image.run(pix.clear())
        pix.Image.new(8, 8, pix.RGBA8).run(commands)

    def test_a_cycle_through_the_buffer_is_freed(self):
        buffer = OwnBytes(LENGTH)
        buffer.image = pix.Image(buffer, 8, 8)
        buffer.commands = pix.CommandList(pix.copy_image(WHOLE, buffer.image))
        gone = weakref.ref(buffer)
        del buffer
        gc.collect()
        self.assertIsNone(gone())


if __name__ == "__main__":
    unittest.main()
