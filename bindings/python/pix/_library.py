"""The shared object: the processor that it needs, where it is, and the table of its functions."""

from __future__ import annotations

import ctypes
import os
import platform
import sys
from typing import Any, List, Optional, Set

# From this many nanoseconds on, by the table, a call is long: it releases the interpreter's lock.
LONG = 500_000

# The least cost of a command and the greatest cost of a pixel, in nanoseconds or so, for the pictures, tables and operators
# that take longest; then the arguments of each function, in order. A word says how a caller's memory is used, which is an
# address and a count of elements of n bytes. A call takes turns by these words alone:
#
#   read:n, write:n   read, or written
#   table:n           read in a copy that has room for 256 colors
#   image:n           written by commands, which read their sources
#
# The others are numbers; `own` is memory that nobody else knows, and `count` a number there.
PER_COMMAND = 64
CALLS = {
    # made by tools/names: calls
    "pix_layout": (0, "size"),
    "pix_raw_format_size": (0, "u32"),
    "pix_raw_run_window": (2, "image:4 u32 u32 u32 u32 u32 own size count"),
    "pix_raw_run_window_rgba16": (4, "image:8 u32 u32 u32 u32 u32 own size count"),
    "pix_raw_run_window_graya8": (1, "image:2 u32 u32 u32 u32 u32 own size count"),
    "pix_raw_convert": (16, "u32 u32 read:1 write:1 size"),
    "pix_raw_convert_bitmap": (96, "u32 u32 read:1 write:1 i64 i64 u32 u32"),
    "pix_raw_scale": (16, "write:4 u32 u32 u32 u32 u32 u32 u32 read:4 u32 u32 u32 u32 own size"),
    "pix_raw_scale_rgba16": (16, "write:8 u32 u32 u32 u32 u32 u32 u32 read:8 u32 u32 u32 u32 own size"),
    "pix_raw_scale_graya8": (16, "write:2 u32 u32 u32 u32 u32 u32 u32 read:2 u32 u32 u32 u32 own size"),
    "pix_raw_scale_work": (0, "u32 u32 u32 u32 u32 u32 u32 u32 u32 own"),
    "pix_raw_scale_by": (16, "write:4 u32 u32 u32 read:4 u32 u32 u32 own size u32 own size own size u32 own size own size"),
    "pix_raw_scale_by_rgba16": (16, "write:8 u32 u32 u32 read:8 u32 u32 u32 own size u32 own size own size u32 own size own size"),
    "pix_raw_scale_by_graya8": (16, "write:2 u32 u32 u32 read:2 u32 u32 u32 own size u32 own size own size u32 own size own size"),
    "pix_raw_scale_by_work": (0, "u32 u32 u32 u32 u32 u32 u32 u32 own"),
    "pix_raw_map_indexed": (128, "table:3 read:3 write:1"),
    "pix_raw_map_indexed_alpha": (128, "table:3 read:4 u8 u8 write:1"),
    "pix_raw_quantize_refined": (192, "read:3 u8 own size own size count"),
    "pix_raw_quantize_refined_alpha": (192, "read:4 u8 u8 own size own size count"),
    "pix_raw_diffuse_indexed_by": (160, "table:3 read:3 size u8 u8 own size write:1"),
    "pix_raw_diffuse_indexed_by_alpha": (160, "table:3 read:4 size u8 u8 u8 u8 own size write:1"),
    "pix_raw_index_pixels": (16, "table:3 count own read:3 own size"),
    "pix_raw_look_up": (2, "table:3 read:1 write:3"),
    "pix_raw_count_indices": (1, "read:1 own size"),
    "pix_raw_pack_row": (2, "u32 read:1 write:1"),
    "pix_raw_unpack_row": (2, "u32 read:1 write:1"),
    "pix_raw_quantize_rgba": (600, "read:4 u8 own size own size count"),
    "pix_raw_map_indexed_rgba": (256, "table:4 read:4 write:1"),
    "pix_raw_diffuse_indexed_rgba": (256, "table:4 read:4 size u8 u8 own size write:1"),
    "pix_raw_look_up_rgba": (2, "table:4 read:1 write:4"),
    # made by tools/names: end
}

_TYPES = {"size": ctypes.c_size_t, "u8": ctypes.c_uint8, "u32": ctypes.c_uint32, "i64": ctypes.c_int64}
_TYPES.update(own=ctypes.c_void_p, count=ctypes.POINTER(ctypes.c_size_t))


def types_of(takes: str) -> List[Any]:
    """The types of the arguments that a function takes."""
    types: List[Any] = []
    for word in takes.split():
        types += [ctypes.c_void_p, ctypes.c_size_t] if ":" in word else [_TYPES[word]]
    return types


# Linux's names, in /proc/cpuinfo, of the instructions that x86-64-v3 has beyond those of x86-64-v2.
V3 = {"abm", "avx", "avx2", "bmi1", "bmi2", "f16c", "fma", "movbe", "xsave"}
# The place where glibc, from 2.33 on, has the instructions that the processor and the system allow: a leaf, a word, and a bit.
_BITS = {
    "sse4_1": (0, 6, 19), "fma": (0, 6, 12), "movbe": (0, 6, 22), "xsave": (0, 6, 26), "avx": (0, 6, 28), "f16c": (0, 6, 29),
    "bmi1": (1, 5, 3), "avx2": (1, 5, 5), "bmi2": (1, 5, 8), "abm": (2, 6, 5),
}  # fmt: skip
# The processors by their numbers in the head of a shared object.
MACHINES = {62: "x86-64", 183: "aarch64"}
# The library for each system other than Linux; none of these has a build for wider processors.
NAMES_ELSEWHERE = {"win32": "pix.dll", "darwin": "libpix.dylib"}
# The build for wider processors, by the name of the other one.
WIDE = {"libpix_c.so": "libpix_c-v3.so"}
# Windows's number for SSE4.1.
_SSE4_1_OF_WINDOWS = 37
NAMES = {"x86_64": "x86-64", "amd64": "x86-64", "arm64": "aarch64"}


def machine() -> str:
    """The name of this processor's kind."""
    said = platform.machine().lower()
    return NAMES.get(said, said)


def flags(cpuinfo: str = "/proc/cpuinfo") -> Optional[Set[str]]:
    """The instructions that each of the processors has beyond the first ones of x86-64, or None if the system doesn't tell."""
    try:
        with open(cpuinfo, encoding="utf-8", errors="replace") as lines:
            found = [set(line.split()) for line in lines if line.startswith("flags")]
    except OSError:
        return None
    return set.intersection(*found) if found else None


def asked() -> Optional[Set[str]]:
    """The instructions above that the processor itself reports, or None if no function tells."""
    try:
        leaf = getattr(ctypes.CDLL(None), "__x86_get_cpuid_feature_leaf")
    except (AttributeError, OSError):
        return None
    leaf.argtypes, leaf.restype = [ctypes.c_uint], ctypes.POINTER(ctypes.c_uint32 * 8)
    words = [list(leaf(number).contents) for number in range(3)]
    return {name for name, (number, word, bit) in _BITS.items() if words[number][word] >> bit & 1}


def told_by_windows() -> Optional[Set[str]]:
    """The instructions that Windows reports: only SSE4.1, since the library needs no other."""
    try:
        kernel = getattr(ctypes, "WinDLL")("kernel32")
        return {"sse4_1"} if kernel.IsProcessorFeaturePresent(_SSE4_1_OF_WINDOWS) else set()
    except (AttributeError, OSError):
        return None


def instructions() -> Optional[Set[str]]:
    """The instructions that both the processor and the system report: under an emulator the two may differ."""
    if sys.platform == "win32":
        return told_by_windows()
    own, told = asked(), flags()
    return told if own is None else own if told is None else own & told


def processor_fault(kind: str, has: Optional[Set[str]]) -> Optional[str]:
    """Why the library can't run on a processor of this kind with these instructions, as far as the system tells."""
    if kind not in MACHINES.values():
        return f"the library is built for x86-64 and aarch64, and this processor is {kind or 'unknown'}"
    if kind == "x86-64" and has is not None and "sse4_1" not in has:
        return "the library needs a processor with SSE4.1, which this one lacks"
    return None


def path_of_library(has: Optional[Set[str]] = None) -> str:
    """The path of the shared object: PIX_LIBRARY, or in this folder, in the folder above, or in an installed package. With
    these instructions, the build for x86-64-v3 in this folder comes first."""
    named = os.environ.get("PIX_LIBRARY")
    if named:
        return os.path.abspath(named)
    here = os.path.dirname(os.path.abspath(__file__))
    name = NAMES_ELSEWHERE.get(sys.platform, "libpix_c.so")
    above = os.path.join(os.path.dirname(here), name)
    # A package of sources comes before an installed one on the path, and finds that one's library.
    for folder in (here, *(os.path.join(each, "pix") for each in sys.path if os.path.isabs(each))):
        wide, inside = (os.path.join(folder, each) for each in (WIDE.get(name, name), name))
        if has is not None and V3 <= has and os.path.exists(wide):
            return wide
        if os.path.exists(inside):
            return inside
        if folder == here and os.path.exists(above):
            return above
    return above


def why_not(path: str) -> str:
    """Why a shared object at a path can't be loaded."""
    try:
        with open(path, "rb") as file:
            head = file.read(20)
    except OSError:
        return f"no library at {path}: build it there, or name its path in PIX_LIBRARY"
    built_for = MACHINES.get(int.from_bytes(head[18:20], "little"), "another processor")
    if head[:4] == b"\x7fELF" and built_for != machine():
        return f"the library at {path} is for {built_for}, and this processor is {machine()}"
    return f"no library at {path} that loads: build it there, or name its path in PIX_LIBRARY"


def load(kind: Any) -> Any:
    """Loads the shared object, and declares its functions."""
    path = path_of_library(instructions() if machine() == "x86-64" else None)
    try:
        library = kind(path)
    except OSError as fault:
        raise ImportError(f"pix: {why_not(path)}") from fault
    for name, (_, takes) in CALLS.items():
        try:
            call = getattr(library, name)
        except AttributeError as fault:
            raise ImportError(f"pix: {path} has another version than this package: it lacks {name}") from fault
        call.restype, call.argtypes = ctypes.c_uint32, types_of(takes)
    return library


_fault = processor_fault(machine(), instructions() if machine() == "x86-64" else None)
if _fault:
    raise ImportError(f"pix: {_fault}")

# The library for short calls, which keep the interpreter's lock, and for long ones, which release it.
libraries = (load(ctypes.PyDLL), load(ctypes.CDLL))
