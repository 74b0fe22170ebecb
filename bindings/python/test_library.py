"""Which processors and libraries are taken, and what an import says of the others."""

import ctypes
import os
import shutil
import subprocess
import sys
import tempfile
import unittest
from unittest import mock

from pix import _library, _pixels


class Libraries(unittest.TestCase):
    def test_processors(self):
        with tempfile.NamedTemporaryFile("w") as cpuinfo:
            cpuinfo.write("processor: 0\nflags : fpu sse2 ssse3\nflags : fpu sse2 sse4_1\n")
            cpuinfo.flush()
            has = _library.flags(cpuinfo.name)
            self.assertIn("sse2", has)
        self.assertIn("needs a processor with SSE4.1", _library.processor_fault("x86-64", has))
        self.assertIn("this processor is riscv64", _library.processor_fault("riscv64", None))
        self.assertIsNone(_library.flags("/nowhere"))
        for kind, known in (("x86-64", None), ("x86-64", {"sse4_1"}), ("aarch64", None)):
            self.assertIsNone(_library.processor_fault(kind, known))

    def test_windows(self):
        class Kernel:
            has = 1

            def IsProcessorFeaturePresent(self, number):
                return self.has if number == 37 else 0

        folder = os.path.dirname(_library.__file__)
        with mock.patch.object(sys, "platform", "win32"), mock.patch.object(ctypes, "WinDLL", lambda name: Kernel(), create=True):
            self.assertEqual(_library.instructions(), {"sse4_1"})
            with mock.patch.dict(os.environ, clear=True), mock.patch.object(os.path, "exists", lambda path: path.endswith(("pix.dll", "v3.so"))):
                self.assertEqual(_library.path_of_library(_library.V3), os.path.join(folder, "pix.dll"))
            Kernel.has = 0
            self.assertIn("needs a processor with SSE4.1", _library.processor_fault("x86-64", _library.instructions()))

    def imported(self, path, before="pass"):
        """Returns what an import over the library at a path says at last."""
        code, env = f"{before}\nimport pix", {**os.environ, "PIX_LIBRARY": path}
        done = subprocess.run([sys.executable, "-c", code], env=env, capture_output=True, text=True)
        return done.stderr.strip().splitlines()[-1:]

    def test_no_library(self):
        self.assertRegex(self.imported("/nowhere/libpix_c.so")[0], "ImportError: pix: no library at /nowhere/libpix_c.so: build it")
        with tempfile.NamedTemporaryFile("w") as text:
            self.assertRegex(self.imported(text.name)[0], "ImportError: pix: no library at")

    def on_processor(self, machine, flags="fpu sse2"):
        """Returns the lines that let the system tell of another processor."""
        before = "import builtins, io, platform; real = builtins.open; told = lambda: io.StringIO('flags : " + flags + "')\n"
        before += "builtins.open = lambda file, *more, **named: told() if file == '/proc/cpuinfo' else real(file, *more, **named)\n"
        return before + f"platform.machine = lambda: '{machine}'"

    def test_another_processor(self):
        said = self.imported("/nowhere", self.on_processor("x86_64"))
        self.assertEqual(said, ["ImportError: pix: the library needs a processor with SSE4.1, which this one lacks"])
        said = self.imported("/nowhere", self.on_processor("ppc64le"))
        self.assertEqual(said, ["ImportError: pix: the library is built for x86-64 and aarch64, and this processor is ppc64le"])

    def test_a_library_for_another_processor(self):
        with tempfile.NamedTemporaryFile("wb") as file:
            for number, name in _library.MACHINES.items():
                if name != _library.machine():
                    file.write(b"\x7fELF\2\1\1" + bytes(9) + b"\3\0" + bytes((number, 0)) + bytes(44))
            file.flush()
            wanted = rf"ImportError: pix: the library at {file.name} is for \S+, and this processor is {_library.machine()}"
            self.assertRegex(self.imported(file.name)[0], wanted)

    def test_the_library_for_wide_processors(self):
        with tempfile.TemporaryDirectory() as folder:
            names = [os.path.join(folder, "pix", name) for name in ("libpix_c.so", "libpix_c-v3.so")]
            shutil.copytree(os.path.dirname(_library.__file__), os.path.dirname(names[0]), ignore=shutil.ignore_patterns("lib*"))
            code = "import sys; from pix import _library; print(_library.path_of_library(set(sys.argv[1:])))"
            for name in names:
                shutil.copy(_library.path_of_library(), name)
            for has, wanted in ((_library.V3, names[1]), (_library.V3 - {"avx2"}, names[0])):
                env = {key: value for key, value in os.environ.items() if key != "PIX_LIBRARY"}
                done = subprocess.run([sys.executable, "-c", code, *has], env=env, cwd=folder, capture_output=True, text=True)
                self.assertEqual(done.stdout.strip(), wanted, done.stderr)

    def test_a_library_that_is_installed(self):
        """The package of a clone, which has none, finds that of an installed one: the folder of a script comes first."""
        with tempfile.TemporaryDirectory() as folder:
            clone, installed = (os.path.join(folder, name) for name in ("clone", "site-packages"))
            shutil.copytree(os.path.dirname(_library.__file__), os.path.join(clone, "pix"), ignore=shutil.ignore_patterns("lib*"))
            os.makedirs(os.path.join(installed, "pix"))
            shutil.copy(_library.path_of_library(), os.path.join(installed, "pix/libpix_c.so"))
            script = os.path.join(clone, "script.py")
            with open(script, "w") as file:
                file.write("import pix; print(pix.__file__); pix.Image.new(1, 1).run(pix.clear())")
            env = {key: value for key, value in os.environ.items() if key != "PIX_LIBRARY"}
            ran = subprocess.run([sys.executable, script], env={**env, "PYTHONPATH": installed}, capture_output=True, text=True)
            self.assertEqual((ran.stdout.strip(), ran.stderr), (os.path.join(clone, "pix/__init__.py"), ""))

    @unittest.skipIf(_library.machine() != "x86-64", "another processor")
    def test_the_processor_is_asked_itself(self):
        """What the system says of the host may be wrong for the processor that a program sees, as under qemu."""
        own = {"sse4_1", *_library.V3}
        for has, wanted in ((own, None), (own - {"sse4_1"}, "the library needs a processor with SSE4.1, which this one lacks")):
            with mock.patch.object(_library, "asked", lambda has=has: has):
                with mock.patch.object(_library, "flags", lambda: own | {"fpu"}):
                    self.assertEqual(_library.instructions(), has)
                    self.assertEqual(_library.processor_fault("x86-64", _library.instructions()), wanted)
        for told in ((None, {"fpu"}), ({"avx"}, None), (None, None)):
            with mock.patch.object(_library, "asked", lambda: told[0]), mock.patch.object(_library, "flags", lambda: told[1]):
                self.assertEqual(_library.instructions(), told[0] or told[1])

    @unittest.skipIf(not shutil.which("qemu-x86_64") or _library.machine() != "x86-64", "no qemu")
    def test_another_processor_under_qemu(self):
        """The library for wide processors was taken on one that is none: SIGILL."""
        code = "import pix; from pix import _library as it; print(sorted(it.V3 & it.instructions()))"
        for kind, wanted, status in (("Nehalem", "[]", 0), ("Conroe", "needs a processor with SSE4.1", 1)):
            ran = subprocess.run(["qemu-x86_64", "-cpu", kind, sys.executable, "-c", code], capture_output=True, text=True)
            self.assertEqual(ran.returncode, status, ran.stderr)
            self.assertIn(wanted, ran.stdout + ran.stderr)

    @unittest.skipIf("PIX_OTHER" not in os.environ, "no PIX_OTHER")
    def test_another_library(self):
        path = os.environ["PIX_OTHER"]
        self.assertRegex(self.imported(path)[0], "ImportError: pix: the library has another version or layout than this package")
        library = ctypes.PyDLL(path)
        library.pix_layout.restype = ctypes.c_uint32
        library.pix_layout.argtypes = [ctypes.c_size_t]
        fact = ctypes.c_size_t.in_dll(library, "other_fact")
        for fact.value in range(66):
            self.assertRaises(ImportError, _pixels.refuse_another, library)
        fact.value = 66
        _pixels.refuse_another(library)


if __name__ == "__main__":
    unittest.main()
