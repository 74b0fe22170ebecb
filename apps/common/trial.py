"""What the tests of the programs share: they run a program, and look at the pictures that it writes.

APPS in the environment names the folder with the programs. With --help a script that imports this prints the text at its head.
"""

import os
import pathlib
import resource
import subprocess
import sys
import tempfile
import unittest

sys.path.insert(0, str(pathlib.Path(__file__).resolve().parent.parent.parent / "tools"))
import endings  # noqa: E402, F401

# What a script says of itself comes first: the machine may lack what it stands on.
if "--help" in sys.argv[1:]:
    print(sys.modules["__main__"].__doc__.strip())
    sys.exit()

try:
    from PIL import Image, ImageChops
except ImportError:
    print(f"{sys.argv[0]}: MISSING Pillow for {sys.executable}: python3-pil", file=sys.stderr)
    sys.exit(2)

TOP = pathlib.Path(__file__).resolve().parent.parent.parent
PICTURES = TOP / "apps/pictures"
PROGRAMS = pathlib.Path(os.environ.get("APPS", TOP / "apps/out")).resolve()


def differences(picture, other):
    """Returns the greatest difference of two pictures in any channel, and the share of the pixels that have one."""
    apart = ImageChops.difference(picture.convert("RGBA"), other.convert("RGBA"))
    levels = [most for _, most in apart.getextrema()]
    changed = sum(1 for pixel in apart.getdata() if any(pixel))
    return max(levels), changed / max(1, picture.width * picture.height)


class Trial(unittest.TestCase):
    """The base of a test: `program` is the command of the program."""

    program = ()

    def setUp(self):
        folder = tempfile.TemporaryDirectory()
        self.addCleanup(folder.cleanup)
        self.folder = pathlib.Path(folder.name)

    def run_program(self, *words, status=0, warns=False, **more):
        """Runs the program, which has to end with this status, and returns what it printed. It may print no error then, unless it warns."""
        words = [str(word) for word in (*self.program, *words)]
        environment = {"SDL_VIDEODRIVER": "dummy", **os.environ, **more.pop("env", {})}
        ran = subprocess.run(words, capture_output=True, text=True, timeout=600, env=environment, stdin=subprocess.DEVNULL, **more)
        self.assertEqual(ran.returncode, status, f"{words}: {ran.stdout}{ran.stderr}")
        if status == 0 and not warns:
            self.assertEqual(ran.stderr, "")
        return ran

    def refuses(self, status, sentence, *words):
        """The program ends with this status and prints one line with this sentence, or for a wrong use another one that names the help."""
        ran = self.run_program(*words, status=status)
        lines = ran.stderr.splitlines()
        self.assertIn(sentence, lines[0])
        self.assertEqual(len(lines), status, ran.stderr)
        self.assertEqual(ran.stdout, "")

    def file(self, name, data):
        """Returns the path of a new file with these bytes."""
        path = self.folder / name
        path.write_bytes(data)
        return path

    def picture(self, name, picture, **options):
        """Returns the path of a new file with this picture."""
        path = self.folder / name
        picture.save(path, **options)
        return path

    def assert_same(self, picture, other, most=0):
        """Two pictures are of one size, and no channel differs by more than `most`."""
        self.assertEqual(picture.size, other.size)
        apart, share = differences(picture, other)
        self.assertLessEqual(apart, most, f"{share:.2%} of the pixels differ")

    def has_help(self):
        """--help prints the use, every option with it, and fails where it can't be printed."""
        said = self.run_program("--help").stdout
        self.assertTrue(said.startswith("usage: "))
        self.assertIn("--help", said)
        with open("/dev/full", "w") as full:
            ran = subprocess.run([*map(str, self.program), "--help"], stdout=full, stderr=subprocess.PIPE)
        self.assertNotEqual(ran.returncode, 0)

    def says_no_room(self, *words):
        """What can't be printed is said in one line, with the status 1, where standard output is full and where it is closed."""
        for room in (">/dev/full", ">&-"):
            command = ["sh", "-c", f'exec "$@" {room}', "sh", *map(str, (*self.program, *words))]
            ran = subprocess.run(command, capture_output=True, text=True, timeout=60, stdin=subprocess.DEVNULL, env={"SDL_VIDEODRIVER": "dummy", **os.environ})
            self.assertEqual((ran.returncode, ran.stderr.count("\n")), (1, 1), f"{words} {room}: {ran.stderr}")
            self.assertIn("standard output", ran.stderr)

    def keeps_old(self, *words):
        """A file that can't be written whole stays as it was, and one that can is another then, with its mode; words name it `OLD`."""
        old, link = self.file("old.png", b"old"), self.folder / "link.png"
        old.chmod(0o640)
        if not link.is_symlink():
            link.symlink_to("old.png")
        words = [str(word).replace("OLD", str(link)) for word in (*self.program, *words)]
        files = sorted(self.folder.iterdir())
        for most, status in ((1000, 1), (resource.RLIM_INFINITY, 0)):
            ran = subprocess.run(
                words, capture_output=True, text=True, timeout=60, stdin=subprocess.DEVNULL, env={"SDL_VIDEODRIVER": "dummy", **os.environ},
                restore_signals=False, preexec_fn=lambda: resource.setrlimit(resource.RLIMIT_FSIZE, (most, resource.RLIM_INFINITY)),
            )  # fmt: skip
            self.assertEqual((ran.returncode, ran.stderr.count("\n")), (status, status), ran.stderr)
            self.assertEqual(old.read_bytes() == b"old", bool(status))
            self.assertEqual(sorted(self.folder.iterdir()), files)
            self.assertTrue(link.is_symlink())
            self.assertEqual(old.stat().st_mode & 0o777, 0o640)


def open_picture(path):
    """Returns the picture of a file, as red, green, blue and alpha."""
    with Image.open(path) as picture:
        return picture.convert("RGBA")


def main():
    """Runs the tests of the script that calls it."""
    unittest.main(argv=[sys.argv[0], *sys.argv[1:]])
