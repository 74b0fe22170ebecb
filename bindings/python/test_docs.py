"""The examples of the docstrings: each is found and run, with Pillow and without."""

import doctest
import io
import unittest

import pix
from test_files import alone, pillow


def examples():
    """The examples of all that the package has, by what they belong to."""
    finder, found = doctest.DocTestFinder(), {}
    for name in pix.__all__:
        if isinstance(getattr(pix, name), (type, type(examples))):
            # Without a module none is left out for being defined elsewhere.
            for each in finder.find(getattr(pix, name), name, False, {"pix": pix}):
                if each.examples:
                    found[each.name] = each
    return found


class Examples(unittest.TestCase):
    def test_all_are_found(self):
        """Each function has one, each method of an Image, and each class that a user makes objects of."""
        names = {name for name in pix.__all__ if isinstance(getattr(pix, name), type(examples))}
        names |= {f"Image.{name}" for name in dir(pix.Image) if name[0] != "_" and callable(getattr(pix.Image, name))}
        names |= {"Op", "Region", "Color", "Image", "Matte", "CommandList"}
        self.assertLessEqual(names, set(examples()))

    def test_each(self):
        for name, example in examples().items():
            for is_alone in (True, False):
                source = "".join(part.source for part in example.examples)
                if "pillow" in source and (is_alone or pillow is None):
                    continue
                with self.subTest(name, is_alone=is_alone), alone(is_alone):
                    said = io.StringIO()
                    doctest.DocTestRunner().run(example, out=said.write, clear_globs=False)
                    self.assertEqual(said.getvalue(), "")


if __name__ == "__main__":
    unittest.main()
