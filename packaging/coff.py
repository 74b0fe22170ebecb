"""What a COFF object for x86-64 has of code and data, so that two of them can be compared."""

import hashlib
import struct

MACHINE = 0x8664
# The bits of a section that say what it holds, and the bit and the number by which it has more relocations than its head counts.
KINDS, MANY, COUNTED = 0xE00000E0, 0x01000000, 0xFFFF
# A symbol that others see.
SEEN = 2


def sum_of(data):
    """Returns the sum of bytes."""
    return hashlib.sha256(data).hexdigest()


class Coff:
    """The sections and the symbols of an object."""

    def __init__(self, data):
        machine, count, _, symbols, of_symbols, head, _ = struct.unpack_from("<HHIIIHH", data)
        if machine != MACHINE:
            raise ValueError("it is no COFF object for x86-64")
        self.data, self.names = data, symbols + 18 * of_symbols
        self.sections = [struct.unpack_from("<8sIIIIIIHHI", data, 20 + head + 40 * number) for number in range(count)]
        self.symbols, number = {}, 0
        while number < of_symbols:
            name, value, section, _, kind, more = struct.unpack_from("<8sIhHBB", data, symbols + 18 * number)
            self.symbols[number] = (self.symbol_name(name), value, section, kind)
            number += 1 + more

    def text_at(self, place):
        """Returns the text at a place of the list of names."""
        start = self.names + place
        return self.data[start : self.data.index(b"\0", start)].decode(errors="replace")

    def symbol_name(self, name):
        """Returns the name of a symbol."""
        return self.text_at(struct.unpack_from("<4xI", name)[0]) if name[:4] == b"\0" * 4 else name.rstrip(b"\0").decode(errors="replace")

    def section_name(self, number):
        """Returns the name of a section."""
        name = self.sections[number][0].rstrip(b"\0").decode(errors="replace")
        return self.text_at(int(name[1:])) if name.startswith("/") else name

    def bytes_of(self, number):
        """Returns the bytes of a section."""
        _, _, _, size, place, *_ = self.sections[number]
        return self.data[place : place + size] if place else b"\0" * size

    def target(self, number):
        """Returns what a relocation is to: a name that others see, or a place in the bytes of a section."""
        name, value, section, kind = self.symbols[number]
        return (name, "", 0) if kind == SEEN or section <= 0 else ("", sum_of(self.bytes_of(section - 1)), value)

    def relocations(self, number):
        """Returns the relocations of a section: each with its place, its type and its target."""
        place, count, first = self.sections[number][5], self.sections[number][7], 0
        if self.sections[number][9] & MANY and count == COUNTED:
            count, first = struct.unpack_from("<I", self.data, place)[0], 1
        read = [struct.unpack_from("<IIH", self.data, place + 10 * each) for each in range(first, count)]
        return [(at, kind, self.target(symbol)) for at, symbol, kind in read]


def code_of(data):
    """Returns the sections that hold something, each with its bits, the sum of its bytes and its relocations, in an order in which no name has a part, and the
    names that others see, each with the sum of the section that it stands in and its place there."""
    coff = Coff(data)
    numbers = [number for number, head in enumerate(coff.sections) if head[3]]
    held = [(coff.sections[number][9] & KINDS, sum_of(coff.bytes_of(number)), coff.relocations(number)) for number in numbers]
    seen = [(name, sum_of(coff.bytes_of(section - 1)), value) for name, value, section, kind in coff.symbols.values() if kind == SEEN and section > 0]
    return sorted(held), sorted(seen)
