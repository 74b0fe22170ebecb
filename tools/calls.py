"""Statuses and calls of tools/names.toml, as each language declares them: tools/names makes these lists, and tools/operators compares the library's."""

import re
import textwrap

# How many KiB of stack a call needs that says nothing of it.
STACK = 24
# The types of what is passed, in Rattle, C, Rust and ctypes; the bytes of an element, if Python passes slices of it.
TYPES = {
    "u8": ("u8", "uint8_t", "u8", "u8", 1),
    "u32": ("u32", "uint32_t", "u32", "u32", 4),
    "i32": ("i32", "int32_t", "i32", "", 4),
    "u64": ("u64", "uint64_t", "u64", "", 0),
    "i64": ("i64", "int64_t", "i64", "i64", 0),
    "usize": ("usize", "size_t", "usize", "size", 0),
    "srgb8": ("Color", "pix_srgb8", "Srgb8", "", 3),
    "srgba8": ("RgbaColor", "pix_srgba8", "Srgba8", "", 4),
    "rgba8": ("PixRgba8", "pix_rgba8", "Rgba8", "", 4),
    "rgba16": ("PixRgba16", "pix_rgba16", "Rgba16", "", 8),
    "graya8": ("PixGraya8", "pix_graya8", "Graya8", "", 2),
    "command": ("PixCommand<'_>", "pix_command", "Command<Rgba8, u8>", "", 0),
    "command_rgba16": ("PixCommandRgba16<'_>", "pix_command_rgba16", "CommandRgba16", "", 0),
    "command_graya8": ("PixCommandGraya8<'_>", "pix_command_graya8", "Command<Graya8, u8>", "", 0),
}
# The name of the length of a slice.
LENGTHS = {
    "pixels": "pixel_count", "commands": "command_count", "entries": "len", "indices": "index_count", "bytes": "byte_count", "counts": "len",
    "src": "src_len", "dst": "dst_len", "source": "source_count", "work": "work_len",
    "firsts": "first_count", "weights": "weight_count", "row_firsts": "row_first_count", "row_weights": "row_weight_count",
}  # fmt: skip
ARGUMENT = re.compile(r"(\w+): (&mut |&|)(\[?)(\w+)\]?")


class Argument:
    """What is passed: its name, its type, and whether it is an address, a slice, and written."""

    def __init__(self, text):
        self.name, way, bracket, self.type = ARGUMENT.fullmatch(text).groups()
        self.is_address, self.is_written, self.is_slice = bool(way), way == "&mut ", bool(bracket)

    @property
    def length(self):
        """Returns the name of its length, if it is a slice."""
        return LENGTHS[self.name] if self.is_slice else None

    def rattle(self):
        """Returns it as the library has it."""
        way = "&mut " if self.is_written else "&" if self.is_address else ""
        inner = TYPES[self.type][0]
        return f"{self.name}: {way}{f'[{inner}]' if self.is_slice else inner}"

    def c(self):
        """Returns its parameters in C."""
        inner = TYPES[self.type][1]
        if not self.is_address:
            return [f"{inner} {self.name}"]
        head = f"{'' if self.is_written else 'const '}{inner} *{self.name}"
        return [head, f"size_t {self.length}"] if self.is_slice else [head]

    def rust(self):
        """Returns its parameters in Rust."""
        inner = TYPES[self.type][2]
        if not self.is_address:
            return [f"{self.name}: {inner}"]
        head = f"{self.name}: *{'mut' if self.is_written else 'const'} {inner}"
        return [head, f"{self.length}: usize"] if self.is_slice else [head]

    def python(self, uses):
        """Returns the word for it in Python's table, where `uses` has how each address that comes next is used."""
        if not self.is_address:
            return TYPES[self.type][3]
        use = next(uses)
        if use in ("own", "count"):
            return f"{use} size" if self.is_slice else use
        return f"{use}:{TYPES[self.type][4]}"


class Call:
    """A function of the archive."""

    def __init__(self, name, file, value, like):
        self.name, self.file, self.line = name, file, value["line"]
        takes = like.get("takes", "")
        if "pixels" in value:
            takes = re.sub(r"\brgba8\b", value["pixels"], re.sub(r"\bcommand\b", f"command_{value['pixels']}", takes))
        self.arguments = [Argument(text) for text in takes.split(", ")]
        self.stack, self.is_safe = like.get("stack", STACK), like.get("is_safe", False)
        self.memory, self.cost = like.get("memory"), value.get("cost")
        suffix = f"_{value['pixels']}" if "pixels" in value else ""
        self.names = [*([like["short"] + suffix] if "short" in like else []), name.replace("_raw_", "_")]


def calls_of(data):
    """Returns the calls, in their order."""
    rows = {name: (file, value) for file, group in data.items() for name, value in group.items()}
    return [Call(name, file, value, rows[value["like"]][1] if "like" in value else value) for name, (file, value) in rows.items()]


def wrapped(line, width):
    """Returns the lines of a text, none of which parts the point of a plane or the end of a comment from the word before it."""
    kept = re.sub(r" (?=\*/|[\d`\w]+\))", "\0", line)
    return [row.replace("\0", " ") for row in textwrap.wrap(kept, width, break_on_hyphens=False)]


def commented(line, width=100):
    """Returns the lines of a comment of C."""
    lines = wrapped(f"{line} */", width - 3)
    return [f"/* {lines[0]}", *(f" * {more}" for more in lines[1:])]


def upper(line):
    """Returns a sentence of a line."""
    return f"{line[0].upper()}{line[1:]}."


# ---- C


def c_statuses(names):
    """Returns the statuses of pix_status, each with its line."""
    lines, last = [], list(names.statuses)[-1]
    for name, it in names.statuses.items():
        head = f"PIX_{name} = {it['number']}{'' if name == last else ','}"
        text = re.sub(r"`([A-Z_]+)`", r"PIX_\1", it["line"]).replace("`scale_work`", "pix_scale_work")
        rest = wrapped(f"{text} */", 90)
        lines += [f"{head.ljust(23)} /* {rest[0]}", *(f"{'':23}  * {more}" for more in rest[1:])]
    return lines


def c_texts(names):
    """Returns the text of each status, as cases of a switch."""
    return [f'case PIX_{name}: return "{it["text"]}";' for name, it in names.statuses.items()]


def c_calls(names):
    """Returns the declarations of the archive's functions."""
    lines = []
    for it in names.calls:
        head = f"uint32_t {it.name}("
        words = [word for argument in it.arguments for word in argument.c()]
        parts = [f"{word}," for word in words[:-1]] + [f"{words[-1]});"]
        inner = [""]
        for part in parts:
            if inner[-1] and len(head) + len(inner[-1]) + 1 + len(part) > 120:
                inner.append("")
            inner[-1] += f" {part}" if inner[-1] else part
        said = re.sub(r"\[`(\w+)`\]", r"\1", it.line)
        lines += [*commented(said), head + inner[0], *(" " * len(head) + more for more in inner[1:]), ""]
    return lines[:-1]


def stacks(names):
    """Returns the calls of pix.h by the stack that they need, most first, but for those that need least."""
    found = {}
    for it in names.calls:
        found.setdefault(it.stack, []).extend(it.names)
    return [(stack, found[stack]) for stack in sorted(found, reverse=True) if stack != STACK]


def c_stack(names):
    """Returns the table of stacks, in a comment."""
    lines = []
    for stack, found in stacks(names):
        rows = wrapped(", ".join(found), 84)
        lines += [f"*     {stack:3}   {rows[0]}", *(f"*           {row}" for row in rows[1:])]
    return [*lines, f"*     {STACK:3}   all others"]


def c_shown(names):
    """Returns each call, as one that the host of WebAssembly sees."""
    return [f"SHOWN_({it.name});" for it in names.calls]


# ---- Rust


def rust_statuses(names):
    """Returns the statuses that the archive returns."""
    found = [(name, it) for name, it in names.statuses.items() if "header" not in it]
    return [line for name, it in found for line in (f"/// {upper(it['line'])}", f"pub const {name}: u32 = {it['number']};")]


def rust_calls(file):
    """Returns a function for the declarations in a file of pix-sys."""

    def lines(names):
        found = []
        for it in names.calls:
            if it.file == file:
                found += [*(f"/// {line}" for line in wrapped(it.line, 110)), *rust_declared(it), ""]
        return found[:-1]

    return lines


def rust_declared(it):
    """Returns a declaration, as rustfmt lays it out."""
    words = [word for argument in it.arguments for word in argument.rust()]
    safety = [] if it.is_safe else ["///", "/// # Safety", "///", "/// The [duties](crate#duties) are met."]
    head = f"pub {'safe ' if it.is_safe else ''}fn {it.name}("
    whole = f"{head}{', '.join(words)}) -> u32;"
    if len(whole) <= 96:
        return [*safety, whole]
    return [*safety, head, *(f"    {word}," for word in words), ") -> u32;"]


def rust_stack(names):
    """Returns the table of stacks of pix-sys."""
    found = {}
    for it in names.calls:
        found.setdefault(it.stack, []).append(f"`{it.name}`")
    rows = [f"| {stack} | {', '.join(found[stack])} |" for stack in sorted(found, reverse=True) if stack != STACK]
    return [f"//! {row}" for row in ["| KiB | calls |", "|--:|---|", *rows, f"| {STACK} | all others |"]]


# ---- Python, JavaScript and pages


def python_statuses(names):
    """Returns the members of Status that the archive returns, each with its line."""
    found = [(name, it) for name, it in names.statuses.items() if "header" not in it]
    return [f"{name} = {it['number']}  # {it['line'].replace('`', '')}" for name, it in found]


def python_texts(names):
    """Returns the text of each status that is an error."""
    found = [(name, it) for name, it in names.statuses.items() if it["number"] and "header" not in it]
    return [f'Status.{name}: "{it.get("python", it["text"])}",' for name, it in found]


def python_calls(names):
    """Returns the rows of Python's table of functions."""
    lines = []
    for it in names.calls:
        if it.memory is not None:
            uses = iter(it.memory.split())
            takes = " ".join(argument.python(uses) for argument in it.arguments)
            lines.append(f'"{it.name}": ({it.cost}, "{takes}"),')
    return lines


def script_statuses(names):
    """Returns the names of the statuses, in the order of their numbers."""
    lines = textwrap.wrap(", ".join(f"'{name}'" for name in names.statuses), 125)
    return ["export const STATUS = [", *(f"    {line}" for line in lines[:-1]), f"    {lines[-1]},", "];"]


def page_stack(names):
    """Returns the table of stacks of a page."""
    rows = [f"| {', '.join(f'`{name}`' for name in found)} | {stack} KiB |" for stack, found in stacks(names)]
    return ["", "| calls | stack |", "|---|--:|", *rows, f"| all others | {STACK} KiB |", ""]


def page_kinds(names):
    """Returns the table of the commands with their promises."""
    lines = ["", "| Rattle | C | Rust | Python | promise | clause |", "|---|---|---|---|---|---|"]
    for name, it in names.kind_rows.items():
        head = f"| `Raster::{it['raster']}` | `pix_{name}` | `Command::{name}` | `{name}` |"
        for place, (promise, clause) in enumerate(it["promises"]):
            lines.append(f"{'| | | | |' if place else head} {promise} | {clause} |")
    return [*lines, ""]
