"""Each Python that is found here: interrupts and collections on it, or the refusal of an early one."""

import glob
import os
import re
import subprocess
import unittest

WHERE = ("/usr/bin/python3*", "/usr/local/bin/python3*", "~/.pyenv/versions/*/bin/python3")
FIRST = (3, 10)
TRIALS = ("test_turns.Interrupts", "test_turns.Circles", "test_collection")


def interpreters():
    """The path of an interpreter for each version that is found."""
    found = {}
    for pattern in WHERE:
        for path in sorted(glob.glob(os.path.expanduser(pattern))):
            if re.fullmatch(r"python3(\.\d+)?", os.path.basename(path)):
                said = "import sys; print(*sys.version_info[:2])"
                ran = subprocess.run([path, "-c", said], capture_output=True, text=True)
                if ran.returncode == 0:
                    found.setdefault(tuple(map(int, ran.stdout.split())), path)
    return found


class Interpreters(unittest.TestCase):
    def test_each(self):
        here = os.path.dirname(os.path.abspath(__file__))
        more = {"PYTHONDONTWRITEBYTECODE": "1", "PIX_INTERRUPT_SECONDS": "1"}
        found = interpreters()
        for version, path in found.items():
            words = ["-c", "import pix"] if version < FIRST else ["-m", "unittest", *TRIALS]
            with self.subTest(path):
                ran = subprocess.run(
                    [path, *words], cwd=here, env={**os.environ, **more}, capture_output=True,
                    text=True, timeout=300,
                )  # fmt: skip
                if version < FIRST:
                    self.assertRegex(ran.stderr, "ImportError: pix: it needs Python 3.10, since")
                else:
                    self.assertEqual(ran.returncode, 0, ran.stderr)


if __name__ == "__main__":
    unittest.main()
