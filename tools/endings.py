"""How a tool in Python ends where it can't go on: with a sentence, and no traceback. `import endings` is enough.

Standard output that is full ends the run with the status 1, and so does one that is closed, at once. Ctrl-C ends it by its signal, as shells expect.
"""

import atexit
import io
import os
import sys

NAME = os.path.basename(sys.argv[0])


def say(sentence):
    """Prints a sentence on standard error, where that can be."""
    try:
        os.write(2, f"{NAME}: {sentence}\n".encode())
    except OSError:
        pass


class Output(io.FileIO):
    """Standard output: what can't be written ends the run, and what comes after that goes nowhere."""

    broken = False

    def write(self, data):
        """Writes as much as can be."""
        if self.broken:
            return len(data)
        try:
            return super().write(data)
        except OSError as why:
            self.broken = True
            say(f"standard output: {why.strerror}")
            raise SystemExit(1) from None


def flushed():
    """Writes what waits, as the last thing of all. Then it is too late for an exception to change the status."""
    try:
        sys.stdout.flush()
    except SystemExit:
        pass
    if output.broken:
        os._exit(1)


def ended(kind, error, trace, before=sys.excepthook):
    """Says that the run was stopped, and leaves all other exceptions to what was there."""
    if issubclass(kind, KeyboardInterrupt):
        say("stopped by Ctrl-C")
    else:
        before(kind, error, trace)


if sys.stdout is None:
    say("standard output is closed")
    sys.exit(1)
sys.excepthook = ended
was, output = sys.stdout, Output(1, "wb", closefd=False)
sys.stdout = io.TextIOWrapper(
    io.BufferedWriter(output),
    encoding=was.encoding,
    errors=was.errors,
    line_buffering=was.line_buffering or was.write_through,
)
atexit.register(flushed)
