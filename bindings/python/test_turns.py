"""Turns: calls beside each other, in threads and in handlers of signals, and interrupts."""

import copy
import os
import pickle
import random
import signal
import subprocess
import sys
import threading
import time
import unittest
from unittest import mock

import pix
from border_uses import BGRA8, RGBA8, SIZE, USES, image_of
from pix._library import CALLS
from pix._turns import turns


class Turns(unittest.TestCase):
    def test_each_function_of_the_library_is_among_them(self):
        self.assertEqual(
            {name for name, _, _ in USES},
            {name for name, (_, takes) in CALLS.items() if ":" in takes},
        )

    def waiting(self, first, others):
        """Returns which of the others wait while the first one is at work, and lets them end."""
        begun, go, shared = threading.Event(), threading.Event(), bytearray(SIZE)
        take, done = turns.take, set()

        def held(is_long, function, arguments, *memories):
            if threading.current_thread() is not at_work:
                return take(is_long, function, arguments, *memories)
            stay = lambda *arguments: (begun.set(), go.wait(), function(*arguments))[2]
            return take(True, stay, arguments, *memories)

        at_work = threading.Thread(target=first, args=[shared])
        with mock.patch.object(turns, "take", held):
            at_work.start()
            self.assertTrue(begun.wait(10))
            threads = [
                threading.Thread(target=lambda i=i, use=use: (use(shared), done.add(i)))
                for i, use in enumerate(others)
            ]
            for thread in threads:
                thread.start()
            for thread in threads:
                thread.join(0.002)
            end = time.monotonic() + 0.02
            while time.monotonic() < end and len(done) < len(others):
                time.sleep(0.002)
            waited = set(range(len(others))) - done
            go.set()
            for thread in [at_work, *threads]:
                thread.join(30)
        self.assertEqual(
            len(done), len(others), f"{others} has a call that fails, or waits for ever"
        )
        return waited

    def test_each_waits_for_each(self):
        for name, writes, use in USES:
            with self.subTest(name, writes=writes):
                others = [other for other in USES if other[1] or writes]
                waited = self.waiting(use, [other[2] for other in others])
                free = [other[0] for i, other in enumerate(others) if i not in waited]
                self.assertEqual(free, [], f"these didn't wait for {name}")

    def test_those_that_read_wait_for_none(self):
        readers = [use for _, writes, use in USES if not writes]
        begun, go, shared = threading.Event(), threading.Event(), bytearray(SIZE)
        memory = image_of(shared)._rows.memory
        reading = threading.Thread(
            target=turns.take, args=(True, lambda: (begun.set(), go.wait()), (), [], [memory])
        )
        reading.start()
        begun.wait()
        for use in readers:
            use(shared)
        go.set()
        reading.join()

    def race(self, long, short, outcome, before, seconds=0.5):
        """Runs a long call in another thread and a short one beside it: the outcome is that of one
        after the other."""
        wanted = []
        for calls in ((long, short), (short, long)):
            shared = before()
            answers = {call: call(shared) for call in calls}
            wanted.append(outcome(shared, answers[short]))
        end = time.monotonic() + seconds
        while time.monotonic() < end:
            shared = before()
            thread = threading.Thread(target=long, args=[shared])
            thread.start()
            time.sleep(random.random() * 0.002)
            answer = short(shared)
            thread.join()
            self.assertIn(outcome(shared, answer), wanted)

    def test_counting_beside_mapping(self):
        pixels = bytes(random.Random(1).randrange(256) for _ in range(3000)) * 200
        table = bytes(i % 256 for i in range(3 * 64))
        self.race(
            lambda it: pix.map_indexed(table, pixels, it),
            pix.count_indices,
            lambda it, counts: counts,
            lambda: bytearray(len(pixels) // 3),
        )

    def test_copies_beside_a_run(self):
        paints = [pix.copy_color((0, 0, 999, 999), (value,) * 4) for value in range(40)]
        for taken in (
            lambda it: bytes(copy.copy(it).pixels),
            lambda it: bytes(pickle.loads(pickle.dumps(it)).pixels),
        ):
            self.race(
                lambda it: it.run(*paints),
                taken,
                lambda it, seen: seen,
                lambda: pix.Image.new(400, 400, pix.RGBA8),
            )


class Circles(unittest.TestCase):
    """Calls inside calls, as of a finalizer or a handler, in two threads or more: where each waits
    for the next, one of them is refused, and then the others end."""

    def inside(self, image, other, meet, said):
        """Paints an image, and within that another one."""

        def paint():
            meet.wait(10)
            try:
                other.run(pix.clear())
            except RuntimeError as fault:
                said.append(str(fault))
            return 0

        turns.take(True, paint, (), [image._rows.memory], [])

    def ends(self, calls):
        """Runs calls in threads, which end; returns what was refused."""
        meet, said = threading.Barrier(len(calls)), []
        threads = [
            threading.Thread(target=call, args=[meet, said], daemon=True) for call in calls
        ]
        for thread in threads:
            thread.start()
        for thread in threads:
            thread.join(5)
        self.assertEqual([thread for thread in threads if thread.is_alive()], [])
        self.assertFalse([turn for turn in turns.running if turn.runs.locked()])
        self.assertEqual([wait for wait in turns.waits if wait.lasts.locked()], [])
        return said

    def test_each_inside_a_call_on_what_the_next_paints(self):
        for count in (2, 3, 5):
            images = [pix.Image.new(4, 4, pix.RGBA8) for _ in range(count)]
            calls = [
                lambda *how, i=i: self.inside(images[i], images[(i + 1) % count], *how)
                for i in range(count)
            ]
            said = self.ends(calls)
            self.assertGreater(len(said), 0)
            for text in said:
                self.assertIn("inside another one", text)

    def test_one_that_has_just_begun(self):
        """The other one can't begin, since this one holds what calls begin under."""
        image, free, other = (pix.Image.new(4, 4, pix.RGBA8) for _ in range(3))
        paints, begun = threading.Event(), threading.Event()

        def outer(meet, said):
            def paint():
                paints.set()
                begun.wait(10)
                free.run(pix.clear())
                return 0

            turns.take(True, paint, (), [image._rows.memory], [])

        def begin(meet, said):
            def paint():
                begun.set()
                self.assertRaisesRegex(RuntimeError, "wait for ever", image.run, pix.clear())
                return said.append("refused")

            paints.wait(10)
            turns.take(False, paint, (), [other._rows.memory], [])

        self.assertEqual(self.ends([outer, begin]), ["refused"])

    def test_what_is_no_circle_waits(self):
        """Both wait for one that paints on, and neither for the other."""
        images = [pix.Image.new(4, 4, pix.RGBA8) for _ in range(3)]
        go, begun = threading.Event(), threading.Event()
        stay = lambda: (begun.set(), go.wait(10), 0)[2]
        memory = images[2]._rows.memory
        holds = threading.Thread(target=turns.take, args=(True, stay, (), [memory], []))
        holds.start()
        begun.wait(10)
        threading.Timer(0.5, go.set).start()
        inside = lambda i: lambda *how: self.inside(images[i], images[2], *how)
        said = self.ends([inside(0), inside(1)])
        holds.join(10)
        self.assertEqual(said, [])


class Interrupted(BaseException):
    """What the handler of a signal raises."""


@unittest.skipIf(not hasattr(signal, "setitimer"), "no timers")
class Interrupts(unittest.TestCase):
    def handled(self, handler):
        before = signal.signal(signal.SIGALRM, handler)
        self.addCleanup(signal.signal, signal.SIGALRM, before)
        self.addCleanup(signal.setitimer, signal.ITIMER_REAL, 0)

    def another_paints(self, image):
        """Another thread paints the image, and needn't wait."""
        thread = threading.Thread(target=image.run, args=[pix.clear()], daemon=True)
        thread.start()
        thread.join(10)
        self.assertFalse(thread.is_alive(), "a turn was left behind")
        self.assertFalse([turn for turn in turns.running if turn.runs.locked()])

    def one_of_all_lengths(self, pixels, sprite, number):
        """Makes an image and paints it, or maps it, copies it, and so on."""
        image = pix.Image(pixels, 64, 64)
        paint = [
            pix.copy_color((0, 0, 64, 64), (9, 9, 9, 9)),
            pix.composite_image((0, 0, 64, 64), sprite),
        ]
        image.run(*paint * (1, 4, 80, 200)[number % 4])
        if number % 3 == 0:
            pix.map_indexed(bytes(30), pixels, None, pix.SRGBA8)
            pix.count_indices(pixels)
        elif number % 3 == 1:
            pickle.dumps(image)
            pix.convert_bitmap(RGBA8, pixels, BGRA8, pixels, (64, 64))

    def test_none_leaves_a_turn_or_a_pin(self):
        def interrupt(*_):
            raise Interrupted

        self.handled(interrupt)
        sprite, chance, interrupts, pixels = (
            pix.Image.new(64, 64, pix.RGBA8),
            random.Random(3),
            0,
            bytearray(4 * 64 * 64),
        )
        end, number = time.monotonic() + float(os.environ.get("PIX_INTERRUPT_SECONDS", 3)), 0
        while time.monotonic() < end:
            number += 1
            try:
                signal.setitimer(
                    signal.ITIMER_REAL,
                    chance.choice((20e-6, 200e-6, 2e-3)) * (0.05 + chance.random()),
                )
                self.one_of_all_lengths(pixels, sprite, number)
                signal.setitimer(signal.ITIMER_REAL, 0)
            except Interrupted:
                interrupts += 1
            pixels.append(0)  # a BufferError where it is pinned
            pixels.pop()
        self.another_paints(pix.Image(pixels, 64, 64))
        self.another_paints(sprite)
        if "PIX_INTERRUPT_SECONDS" in os.environ:
            print(f"{interrupts} interrupts of {number} rounds")
        self.assertGreater(interrupts, 20)

    def test_a_handler_may_paint(self):
        image, other, painted, inside = pix.Image.new(64, 64, pix.RGBA8), pix.Image.new(64, 64, pix.RGBA8), [], []

        def paint(*_):
            if inside:
                raise Interrupted("a handler waits for itself")
            inside.append(1)
            signal.setitimer(signal.ITIMER_REAL, 20)
            for each in (image, other):
                each.run(
                    *[pix.copy_color((0, 0, 64, 64), (1, 2, 3, 4))]
                    * (1 if len(painted) % 2 else 200)
                )
            painted.append(inside.pop())
            signal.setitimer(signal.ITIMER_REAL, 100e-6)

        self.handled(paint)
        signal.setitimer(signal.ITIMER_REAL, 100e-6)
        end, stop = time.monotonic() + 1, threading.Event()
        beside = threading.Thread(
            target=lambda: [other.run(pix.clear()) for _ in iter(stop.is_set, True)]
        )
        beside.start()
        while time.monotonic() < end:
            image.run(*[pix.copy_image((0, 0, 64, 64), other)] * (1 if len(painted) % 3 else 200))
        signal.setitimer(signal.ITIMER_REAL, 0)
        stop.set()
        beside.join(10)
        self.assertFalse(beside.is_alive(), "a thread waits for ever")
        self.assertGreater(len(painted), 2)
        self.another_paints(image)

    def test_the_end_of_the_interpreter(self):
        code = """if True:
            import threading, pix
            from pix._turns import turns
            image, other, begun = pix.Image.new(4, 4), pix.Image.new(4, 4), threading.Event()
            def start(call):
                begun.clear()
                threading.Thread(target=call, daemon=True).start()
                begun.wait()
            stay = lambda: (begun.set(), threading.Event().wait())
            def hold():
                with turns._begins:
                    stay()
            start(lambda: turns.take(True, stay, (), [image._rows.memory], []))
            start(hold)
            class Last:
                def __del__(self):
                    other.run(pix.clear())
                    try:
                        image.run(pix.clear())
                    except RuntimeError as fault:
                        print(fault)
            last = Last()
            last.itself = last
            del last  # which is collected when the interpreter has begun to end
        """
        done = subprocess.run(
            [sys.executable, "-c", code], capture_output=True, text=True, timeout=30
        )
        said = "the interpreter ends, and another thread was painting there"
        self.assertEqual((done.returncode, done.stdout.strip(), done.stderr), (0, said, ""))


if __name__ == "__main__":
    unittest.main()
