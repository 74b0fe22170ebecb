"""What is saved: a file is written whole or stays as it was, of one copy of the picture."""

import io
import os
import pathlib
import resource
import stat
import subprocess
import sys
import tempfile
import threading
import unittest
from unittest import mock

import pix
from pix import _files
from pix._turns import turns
from test_files import alone, fan, pillow, straight

OLD = b"what was there before"


def refuse(*_, **__):
    raise PermissionError(1, "Operation not permitted")


class Trial(unittest.TestCase):
    def setUp(self):
        folder = tempfile.TemporaryDirectory()
        self.addCleanup(folder.cleanup)
        self.folder = pathlib.Path(folder.name)

    def old(self, name):
        """A file that is there already."""
        path = self.folder / name
        path.write_bytes(OLD)
        return path

    def is_picture(self, path, image=None):
        """The file at a path is the picture of an image, and nothing stands beside it."""
        self.assertEqual(straight(pix.Image.open(path)), straight(image or fan()))
        self.assertEqual([each for each in os.listdir(self.folder) if each.startswith(".")], [])


class Whole(Trial):
    """A file that can't be written stays as it was."""

    def refused(self, path, kind, image, **options):
        before = sorted(os.listdir(self.folder))
        self.assertRaises(kind, image.save, path, **options)
        self.assertEqual((path.read_bytes(), sorted(os.listdir(self.folder))), (OLD, before))

    def test_a_refusal_leaves_the_old_file(self):
        clear = fan(opacity=0.5)
        for name in ("a.ppm", "a.pgm"):
            for is_alone in (True, False):
                with self.subTest(name, is_alone=is_alone), alone(is_alone):
                    self.refused(self.old(name), ValueError, clear)
        with alone():
            self.refused(self.old("a.jpg"), ValueError, fan())
            self.refused(self.old("a.png"), TypeError, fan(), quality=3)

    @unittest.skipIf(pillow is None, "Pillow is not there")
    def test_a_refusal_of_pillow_leaves_the_old_file(self):
        for name, kind, image, options in (
            ("a.jpg", ValueError, fan(opacity=0.5), {}),
            ("a.jpeg", Exception, fan(), {"quality": "none"}),
            ("a.png", Exception, fan(), {"pnginfo": 3}),
            ("a.webp", Exception, fan(), {"quality": "none"}),
            ("a.none", ValueError, fan(), {}),
        ):
            with self.subTest(name, options=options):
                self.refused(self.old(name), kind, image, **options)

    def test_a_full_disk_leaves_the_old_file(self):
        path, hard = self.old("a.png"), resource.getrlimit(resource.RLIMIT_FSIZE)[1]
        for is_alone in (True, False):
            with alone(is_alone):
                resource.setrlimit(resource.RLIMIT_FSIZE, (100, hard))
                try:
                    with self.assertRaises(OSError) as caught:
                        fan((300, 300)).save(path)
                finally:
                    resource.setrlimit(resource.RLIMIT_FSIZE, (hard, hard))
            self.assertIn("a.png", str(caught.exception))
            self.assertEqual((path.read_bytes(), os.listdir(self.folder)), (OLD, ["a.png"]))

    def test_a_file_that_is_open_gets_all_or_nothing(self):
        for is_alone in (True, False):
            with alone(is_alone), open(self.old("a.ppm"), "r+b") as file:
                self.assertRaises(ValueError, fan(opacity=0.5).save, file, "PPM")
                self.assertEqual(file.tell(), 0)

    def test_a_file_that_takes_some_bytes_at_a_time(self):
        class Slow(io.BytesIO):
            def write(self, data):
                return super().write(data[:1000])

        for is_alone in (True, False):
            with alone(is_alone):
                file = Slow()
                fan((90, 90)).save(file, "PNG")
                file.seek(0)
                self.assertEqual(straight(pix.Image.open(file)), straight(fan((90, 90))))


class Replaced(Trial):
    """A file that is written takes the place of the old one, and is otherwise as that was."""

    def test_modes(self):
        umask = os.umask(0o027)
        self.addCleanup(os.umask, umask)
        new, old = self.folder / "new.png", self.old("old.png")
        old.chmod(0o604)
        for path, mode in ((new, 0o640), (old, 0o604)):
            fan().save(path)
            self.assertEqual(stat.S_IMODE(path.stat().st_mode), mode)
            self.is_picture(path)

    def test_links(self):
        (self.folder / "deep").mkdir()
        target = self.old("deep/target.png")
        link, twice, none = (self.folder / name for name in ("a.png", "b.png", "c.png"))
        link.symlink_to("deep/target.png")
        twice.symlink_to(link)
        none.symlink_to("deep/new.png")
        for path, to in ((link, target), (twice, target), (none, self.folder / "deep/new.png")):
            fan().save(path)
            self.assertTrue(path.is_symlink())
            self.assertFalse(to.is_symlink())
            self.is_picture(to)
            to.write_bytes(OLD)
        self.assertEqual(sorted(os.listdir(self.folder / "deep")), ["new.png", "target.png"])

    def test_a_file_of_two_names_stays_one(self):
        path, other = self.old("a.png"), self.folder / "b.png"
        os.link(path, other)
        fan().save(path)
        self.is_picture(other)

    def test_who_reads_the_old_file_reads_on(self):
        with open(self.old("a.png"), "rb") as reader:
            fan().save(self.folder / "a.png")
            self.assertEqual(reader.read(), OLD)

    def test_special_files(self):
        with self.assertRaises(OSError) as caught:
            fan().save("/dev/full", "PNG")
        self.assertEqual(caught.exception.errno, 28)
        fan().save("/dev/null", "PNG")
        pipe = self.folder / "pipe"
        os.mkfifo(pipe)
        read = []
        reader = threading.Thread(target=lambda: read.append(pipe.read_bytes()))
        reader.start()
        fan().save(pipe, "PNG")
        reader.join(10)
        self.assertEqual(straight(pix.Image.open(io.BytesIO(read[0]))), straight(fan()))
        self.assertTrue(stat.S_ISFIFO(pipe.stat().st_mode))
        self.assertRaises(IsADirectoryError, fan().save, self.folder, "PNG")

    def test_the_standard_output(self):
        """It is a file that is open: what the shell opened is written, and not replaced."""
        code = "import pix; pix.Image.new(3, 2).save('/dev/stdout', 'PNG')"
        path = self.folder / "a.png"
        with open(path, "wb") as file:
            folder = str(pathlib.Path(pix.__file__).parent.parent)
            environment = {**os.environ, "PYTHONPATH": folder}
            subprocess.run([sys.executable, "-c", code], stdout=file, env=environment, check=True)
            self.assertEqual(os.fstat(file.fileno()).st_nlink, 1)
        self.is_picture(path, pix.Image.new(3, 2, pix.RGBA8))

    def test_a_folder_where_nothing_may_be_added(self):
        real = open
        no_new = lambda name, mode="r", *more: refuse() if "x" in mode else real(name, mode, *more)
        for what in (
            mock.patch("builtins.open", no_new),
            mock.patch("os.replace", refuse),
            mock.patch("os.fchmod", refuse),
        ):
            with what:
                fan().save(self.old("a.png"))
            self.is_picture(self.folder / "a.png")

    @unittest.skipIf(os.geteuid() == 0, "root may write all files")
    def test_a_file_that_may_not_be_written(self):
        path = self.old("a.png")
        path.chmod(0o444)
        self.assertRaises(PermissionError, fan().save, path)
        self.assertEqual(path.read_bytes(), OLD)


class OneCopy(Trial):
    """A picture is read once: another thread may paint it between two looks."""

    KINDS = (("PNG", pix.RGBA16), ("PPM", pix.RGBA8), ("PGM", pix.RGBA16), ("PNG", pix.GRAYA8),
             ("PGM", pix.GRAYA8))  # fmt: skip

    def readings(self, image, use):
        """How often the memory of an image is read meanwhile."""
        count, take, address = [], turns.take, image._rows.memory.address

        def seen(is_long, function, arguments, written, read, *more):
            count.extend(each for each in read if each.address == address)
            return take(is_long, function, arguments, written, read, *more)

        with mock.patch.object(turns, "take", seen):
            use()
        return len(count)

    def test_each_kind_reads_once(self):
        for kind, type in self.KINDS:
            for is_alone in (True, False):
                with self.subTest(kind, type=type, is_alone=is_alone), alone(is_alone):
                    image = fan(kind=type)
                    save = lambda: image.save(io.BytesIO(), kind)
                    self.assertEqual(self.readings(image, save), 1)
                    self.assertEqual(self.readings(image, image._repr_png_), 1)

    def test_what_is_written_is_what_the_image_was(self):
        for opacity in (1.0, 0.5):
            for type in pix.PixelType:
                image = fan((33, 17), type, opacity)
                with alone():
                    file = io.BytesIO()
                    image.save(file, "PNG")
                    file.seek(0)
                    again = pix.Image.open(file)
                self.assertEqual(straight(again), straight(image))
        image = fan((33, 17))
        for kind, format in (("PPM", pix.SRGB8), ("PGM", pix.SGRAY8)):
            data = bytes(image.to_array(format))
            self.assertTrue(_files.encoded(image, kind).endswith(b"\n255\n" + data))


if __name__ == "__main__":
    unittest.main()
