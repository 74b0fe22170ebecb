"""Compares the functions of two objects for arm64, one for Linux and one for macOS, instruction by instruction, as llvm-objdump reads them.

Under macOS a function never has x18, has x29 for frames alone, and saves its registers in pairs, in another order, so that its stack has other places. And
LLVM calls bzero there in the place of a memset of zeros. So what saves and restores registers is left out; what is written to the stack, and read from it,
has to be the same between two jumps, in whatever order and whether by one instruction or by two; and all else has to be the same instruction, with the
same registers and numbers, with jumps to the same instructions and calls of the same names; their order between two jumps may be another one.
"""

import re
import subprocess
from collections import Counter

KEPT = r"(?:x19|x2\d|x30|d8|d9|d1[0-5])"
# What saves and restores the registers that a caller keeps, or moves the stack.
FRAME = re.compile(
    rf"(?:st|ld)p\t(?:x29, x30|x30, x29|{KEPT}, {KEPT}), \[sp(?:, #-?\d+)?\]!?(?:, #-?\d+)?|(?:st|ld)r\t{KEPT}, \[sp, #-?\d+\]!|ldr\t{KEPT}, \[sp\], #\d+|"
    r"(?:st|ld)r\tx(?:30|29), \[sp(?:, #\d+)?\]|(?:add|sub)\tsp, sp, #.*|(?:mov|add)\tx29, sp(?:, #\d+)?|mov\tsp, x29"
)
STACK = re.compile(r"(st|ld)((?:p|r|ur)s?[bhw]?)\t(?:(\w+), )?(\w+), \[(?:sp|x29)(?:, #-?\d+)?\]")
PLACE = re.compile(r"(?:add\t(\w+), sp, #\d+(?:, lsl #12)?|mov\t(\w+), sp)(?:\s+// .*)?")
FAR_PLACE = re.compile(r"add\t(\w+), \1, #\d+")
JUMP = re.compile(r"(?:b|b\.\w+|bl|br|blr|ret|cbn?z|tbn?z|brk)(?:\t|$)")
LEADS = re.compile(r"0x([0-9a-f]+)(?: <.*>)?$")
RELOCATION = re.compile(r"\s+[0-9a-f]{16}:\s+(R_AARCH64_\w+|ARM64_RELOC_\w+)\s+(.*)$")


def functions(objdump, path):
    """Returns the functions of an object, by their names: each instruction with its address, its text and the name that it calls, if any."""
    words = [objdump, "-d", "-r", "--no-show-raw-insn", "--triple=aarch64-linux-gnu", path]
    text = subprocess.run(words, stdout=subprocess.PIPE, text=True, check=True).stdout
    found, lines = [], []
    for line in text.splitlines():
        if head := re.match(r"[0-9a-f]{16} <(.*)>:$", line):
            lines = []
            found.append((head[1], lines))
        elif filled := RELOCATION.match(line):
            if filled[1].endswith(("CALL26", "JUMP26", "BRANCH26")):
                lines[-1][2] = filled[2].removeprefix(".text.") if filled[1].startswith("R_") else filled[2].removeprefix("_")
            elif lines[-1][1].startswith("adrp"):
                lines[-1][1] = lines[-1][1].partition(",")[0]
        elif parts := re.match(r" *([0-9a-f]+):\s+(\S.*)$", line):
            lines.append([int(parts[1], 16), parts[2].strip(), ""])
    return found


def last(lines, pattern):
    """Returns the place of the last instruction that is one of these, or none."""
    return max((at for at, line in enumerate(lines) if re.fullmatch(pattern, line[1])), default=None)


def zeroed(lines, other):
    """Returns the instructions of a function for Linux as one for macOS has them, which calls bzero for the zeros of a memset: without the zero, and with the
    count in its place."""
    calls = [name for _, _, name in other if name in ("memset", "bzero")]
    found, number = [], 0
    for line in lines:
        found.append(line)
        if line[2] != "memset":
            continue
        if number < len(calls) and calls[number] == "bzero":
            found[-1] = [line[0], line[1], "bzero"]
            zero = last(found, r"mov\tw1, wzr")
            count = last(found, r"\w+\t[wx]2, .*")
            if zero is not None:
                found[zero] = [found[zero][0], "", ""]
            if count is not None:
                found[count] = [found[count][0], re.sub(r"\t([wx])2, ", r"\t\g<1>1, ", found[count][1], count=1), ""]
        number += 1
    return found


def steps(lines):
    """Returns what a function does: its instructions in order, and between two jumps what it writes to its stack and reads from it."""
    kept, places, order = [], {}, []
    for address, text, name in lines:
        places[address] = len(kept)
        spill = STACK.fullmatch(text)
        if not text or FRAME.fullmatch(text):
            continue
        if spill:
            order += [(len(kept), spill[1] + spill[2][1:].replace("r", ""), register) for register in spill.groups()[2:] if register not in (None, "x30")]
        elif JUMP.match(text) and name:
            kept.append((text.split("\t")[0], name))
        else:
            kept.append((text, ""))
    found, begun = [], set()
    for text, name in kept:
        leads = LEADS.search(text)
        if leads and JUMP.match(text):
            text = LEADS.sub(f"to {places.get(int(leads[1], 16), 'nowhere')}", text)
        place, far = PLACE.fullmatch(text), FAR_PLACE.fullmatch(text)
        if place and "lsl #12" in text:
            begun.add(place[1])
        elif far and far[1] in begun:
            begun.discard(far[1])
            continue
        found.append((f"place {place[1] or place[2]}" if place else text, name))
    return found, runs(kept, order)


def runs(kept, order):
    """Returns what is written to the stack and read from it, by the number of jumps that stand before it."""
    jumps, passed = [], 0
    for text, _ in kept:
        jumps.append(passed)
        passed += bool(JUMP.match(text))
    return Counter((jumps[at] if at < len(jumps) else passed, kind, register) for at, kind, register in order)


def between_jumps(kept):
    """Returns the instructions between two jumps without their order, and the jumps in order."""
    found = [[]]
    for text, name in kept:
        found[-1].append((re.sub(r"to \d+$", "", text), name))
        if JUMP.match(text):
            found.append([])
    return [sorted(part) for part in found]


def compare(objdump, linux, macos, serves=lambda lines: True):
    """Yields each function of two objects with a word on how it differs, or with none."""
    one, two = functions(objdump, linux), functions(objdump, macos)
    if len(one) != len(two):
        yield "", f"there are {len(one)} functions for Linux, and {len(two)} for macOS"
        return
    for (name, lines), (other, more) in zip(one, two):
        if other.startswith("_"):
            other = other[1:]
        if other != name and not other.startswith("ltmp"):
            yield name, f"stands where macOS has {other}"
            continue
        if not serves(lines):
            yield name, None
            continue
        (kept, spills), (kept_too, spills_too) = steps(zeroed(lines, more)), steps(more)
        if kept != kept_too and between_jumps(kept) == between_jumps(kept_too):
            yield name, ""
        elif kept != kept_too:
            at = next((at for at, pair in enumerate(zip(kept, kept_too)) if pair[0] != pair[1]), min(len(kept), len(kept_too)))
            yield name, f"differs at instruction {at}: {kept[at : at + 1]} and {kept_too[at : at + 1]}"
        elif spills != spills_too:
            yield name, f"reads or writes its stack otherwise: {list((spills - spills_too).items())[:3]} and {list((spills_too - spills).items())[:3]}"
        else:
            yield name, ""


def is_without(lines, registers=r"\b[xw](?:18|29)\b"):
    """Whether a function for Linux has none of the registers that macOS keeps, but for a frame."""
    return not any(re.search(registers, text) for _, text, _ in lines if not FRAME.fullmatch(text))
