"""Lists of commands that are checked once and run often."""

from __future__ import annotations

import ctypes
from functools import partial
from typing import Any, Dict, Iterator, List, Optional, Sequence, Tuple

from pix._colors import Color
from pix._command import Command, made
from pix._memory import NOWHERE, Alive, Memory, is_a, refuse_gone
from pix._pixels import RGBA16, PixelType, kind_of
from pix._turns import turns
from pix._values import PixError, Status


class PreparedList:
    """Commands as the library reads them, for images of one type. It never changes, and pins the memory that they read."""

    __slots__ = ("commands", "type", "address", "sources", "numbers", "low", "high", "alive", "_records")

    def __init__(self, commands: Sequence[Command], type: PixelType) -> None:
        taken = [made(command, type) for command in commands]
        self.alive = Alive((True,))
        self.commands = tuple(commands)
        self.type = type
        self._records = (type._command * max(1, len(taken)))(*(record for record, _ in taken))
        self.address = ctypes.addressof(self._records)
        # Each memory once, with the number of the first command that reads it.
        first: Dict[int, Tuple[int, Memory]] = {}
        for number, (_, read) in enumerate(taken):
            for source in read:
                if source.length:
                    first.setdefault(id(source), (number, source))
        self.numbers = [number for number, _ in first.values()]
        self.sources: List[Memory] = [source for _, source in first.values()]
        refuse_gone(*self.sources)
        self.low = min((source.address for source in self.sources), default=0)
        self.high = max((source.address + source.length for source in self.sources), default=0)

    def is_long(self, pixels: int) -> bool:
        """Whether a run on an image of this many pixels is a long call."""
        return self.type._is_long(len(self.commands), pixels)

    def refuse_shared(self, memory: Memory) -> None:
        """Raises a ValueError if a command reads this memory."""
        if memory.address + memory.length <= self.low or self.high <= memory.address:
            return
        for number, source in zip(self.numbers, self.sources):
            if not memory.is_apart(source):
                raise ValueError(f"command {number}: its source shares memory with the image")


def kind_read(commands: Sequence[Command]) -> PixelType:
    """The kind of pixels of the commands' first image or pix.Color, or RGBA16 without one."""
    for command in commands:
        if is_a(command, Command):
            if command._source is not None and command._source._rows.type is not None:
                return command._source._rows.type
            if type(command._color) is Color:
                return command._color.type
    return RGBA16


class CommandList(Sequence):
    """A list of commands for images of one `type`. It is checked once, when it is made, and can be run often. Without a
    `type` it takes the one of the first image that is read, or of a pix.Color, and RGBA16 if there is none.

    Image.run() takes it in place of its commands, and repeats only the tests that depend on the image. The list never
    changes; the pixels of its sources are read at each run. A pickle has its commands, with pixels of their own.

    Raises what Image.run() raises for a bad command.

    >>> sprite, images = pix.Image.new(16, 16), [pix.Image.new(64, 64) for _ in range(9)]
    >>> screen = pix.CommandList(pix.clear(), pix.composite_image((8, 8, 16, 16), sprite))
    >>> for image in images:
    ...     image.run(screen)
    """

    __slots__ = ("_prepared",)

    def __init__(self, *commands: Command, type: Optional[PixelType] = None) -> None:
        kind = kind_read(commands) if type is None else kind_of(type)
        prepared, done = PreparedList(commands, kind), ctypes.c_size_t()
        # On an image without pixels all commands are tested, and none paints.
        empty = NOWHERE, 0, 0, 0, 0, 0, 0, prepared.address, len(commands), done
        is_long = kind._is_long(len(commands), 0)
        status = turns.take(is_long, kind._calls[is_long], empty, [], [])
        if status:
            raise PixError(Status(status), done.value)
        self._prepared = prepared

    @property
    def type(self) -> PixelType:
        """The kind of pixels of the images that it is for."""
        return self._prepared.type

    def __len__(self) -> int:
        return len(self._prepared.commands)

    def __getitem__(self, index: Any) -> Any:
        return self._prepared.commands[index]

    def __iter__(self) -> Iterator[Command]:
        return iter(self._prepared.commands)

    def __repr__(self) -> str:
        return f"<pix.CommandList of {len(self)}, {self.type}>"

    def __reduce__(self) -> tuple:
        return partial(CommandList, type=self.type), self._prepared.commands
