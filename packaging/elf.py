"""What an object, an archive of one object, or a program has of code and data, so that two of them can be compared."""

import struct

# Types and flags of sections, and the numbers above which a symbol is of no section.
SYMBOLS, ADDENDS, EMPTY, LOADED, SPECIAL = 2, 4, 8, 2, 0xFF00
# A sum over what is not loaded too.
BUILD_ID = ".note.gnu.build-id"


def object_of(data):
    """Returns the one object of an archive, or the data as it is."""
    if not data.startswith(b"!<arch>\n"):
        return data
    place, found = 8, []
    while place < len(data):
        size = int(data[place + 48 : place + 58])
        found.append(data[place + 60 : place + 60 + size])
        place += 60 + size + size % 2
    objects = [body for body in found if body.startswith(b"\x7fELF")]
    if len(objects) != 1:
        raise ValueError(f"the archive has {len(objects)} objects, and not one")
    return objects[0]


def text_at(data, place):
    """Returns the text that begins at a place and ends before a zero."""
    return data[place : data.index(b"\0", place)].decode(errors="replace")


class Sections:
    """The sections and the symbols of an object or a program."""

    def __init__(self, data):
        if not data.startswith(b"\x7fELF\x02\x01"):
            raise ValueError("it is no ELF file of 64 bits")
        start, (size, count, of_names) = struct.unpack_from("<Q", data, 40)[0], struct.unpack_from("<HHH", data, 58)
        self.data, self.heads = data, [struct.unpack_from("<IIQQQQIIQQ", data, start + size * number) for number in range(count)]
        self.names = [text_at(data, self.heads[of_names][4] + head[0]) for head in self.heads]
        self.symbols = []
        for head in self.heads:
            if head[1] == SYMBOLS:
                names = self.heads[head[6]][4]
                read = [struct.unpack_from("<IBBHQQ", data, head[4] + 24 * number) for number in range(head[5] // 24)]
                self.symbols = [(text_at(data, names + name), info >> 4 > 0, place, value, (info, other, size)) for name, info, other, place, value, size in read]

    def target(self, number, addend):
        """Returns what a relocation is to: the name of a symbol that others see, or a place in a section."""
        name, is_seen, place, value, _ = self.symbols[number]
        return (name, addend) if is_seen or not 0 < place < SPECIAL else (self.names[place], value + addend)

    def relocations(self, section):
        """Returns the relocations of a section: each with its place, its type and its target."""
        found = []
        for head in self.heads:
            if head[1] == ADDENDS and head[7] == section:
                read = [struct.unpack_from("<QQq", self.data, head[4] + 24 * number) for number in range(head[5] // 24)]
                found += [(place, info & 0xFFFFFFFF, self.target(info >> 32, addend)) for place, info, addend in read]
        return found

    def parts(self):
        """Returns each part that is loaded, by its name: its flags, size, alignment, bytes and relocations; and the symbols that others see."""
        found = {}
        for number, (_, kind, flags, address, place, size, _, _, *layout) in enumerate(self.heads):
            if flags & LOADED and self.names[number] != BUILD_ID:
                held = b"" if kind == EMPTY else self.data[place : place + size]
                found.setdefault(self.names[number], []).append((kind, flags, address, size, layout, held, self.relocations(number)))
        seen = [(name, self.names[place], value, more) for name, is_seen, place, value, more in self.symbols if is_seen and 0 < place < SPECIAL]
        return {**found, "(the symbols that others see)": sorted(seen)}


def differences(one, other):
    """Returns the names of the parts by which two objects, archives of one object, or programs differ: what is loaded of them, and the names that others see."""
    parts = [Sections(object_of(data)).parts() for data in (one, other)]
    return [name for name in {**parts[0], **parts[1]} if parts[0].get(name) != parts[1].get(name)]
