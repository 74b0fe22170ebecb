"""The files of generated/ for other systems than those of the proof: the same module of LLVM, compiled for another system by the kit's clang.

rattle's compiler proves and lowers a crate for Linux. The module that it then hands clang names its system in its first lines, the data layout and the
triple, and in how a function makes room on the stack. So the module with these lines of another system is the same code by another calling convention, in
another object format. Whether a module says more than that of a system is tested here, and none that does is compiled.
"""

import re
from typing import NamedTuple

import arm64
from coff import code_of
from generated import MACOS, WINDOWS, run, stop

# What a function of a module may have beside its types, by the words of its attributes: none of them names a system but probe-stack, which says how a
# function makes room on the stack. Windows has a way of its own, which LLVM takes where that is left out.
ATTRIBUTES = {"frame-pointer", "probe-stack", "stack-probe-size", "target-cpu", "target-features", "tune-cpu", "no-builtins", "no-trapping-math"}
PROBE = ' "probe-stack"="inline-asm"'
# What a module may call beside LLVM's own functions, of which some are of a processor, and those of a system are left out: those that
# the archive may call, and of the program what packaging/kit.c and each C library have.
MAY_CALL = {"memset", "memcpy", "memmove", "read", "write", "__write", "__sysv_signal", "__x86_get_cpuid_feature_leaf"}
MAY_CALL |= {f"rattle_{name}" for name in ("alloc", "realloc", "dealloc", "errno")}
# Words by which a module would say more of a system, or of how its calls pass what they pass, than its first two lines.
OTHER_WORDS = (
    r"\b(module asm|asm sideeffect|byval|sret|byref|inalloca|preallocated|thread_local|personality|comdat|dllexport|dllimport"
    r"|win64cc|x86_64_sysvcc|va_arg|x86_fp80|fp128)\b"
)
# What the calls that others see pass and return: numbers and addresses, each as it is.
NOT_PLAIN = r"\b(?:i1|i128|half|float|double|zeroext|signext|inreg)\b|[{\[<]"


class Kept(NamedTuple):
    """What the compiler of a file was handed: the text of the module, and the words of the call."""

    text: str
    words: list


def kept_by(clang, keep):
    """Returns what a compiler of generated.toolchain_in kept beside the assembly."""
    text = keep.with_name(keep.name + ".ll")
    words = keep.with_name(keep.name + ".words").read_text(encoding="utf-8").splitlines()
    target = next(word for word in words if word.startswith("--target="))
    run(clang, target, "--no-default-config", "-x", "ir", keep.with_name(keep.name + ".module"), "-S", "-emit-llvm", "-O3", "-Xclang", "-disable-llvm-passes", "-o", text)
    return Kept(text.read_text(encoding="utf-8"), words)


def layout_of(clang, target):
    """Returns the lines by which a module names a target of the compiler."""
    text = run(clang, f"--target={target}", "--no-default-config", "-x", "c", "-", "-S", "-emit-llvm", "-o", "-", input="")
    return [re.search(rf"^target {name} = .*$", text, re.M)[0] for name in ("datalayout", "triple")]


def without_mangling(layout):
    """Returns a data layout without what names the object format, and without the alignments that are preferred, and never needed, for small integers."""
    return re.sub(r"-i8:8:32|-i16:16:32", "", re.sub(r"-m:\w", "", layout))


def says_more(text):
    """Yields each way in which a module says more of its system than its first lines and the probe of the stack."""
    body = re.sub(r"^(target \w+|source_filename|; ModuleID) = .*$", "", re.sub(r'c"(?:[^"\\]|\\..)*"', 'c""', text), flags=re.M)
    bare = re.sub(r'@"[^"\n]*"', "@it", body)
    for word in sorted(set(re.findall(OTHER_WORDS, bare))):
        yield f"it has the word {word}"
    for key in sorted(set(re.findall(r'(?<!=)"([\w-]+)"', "\n".join(re.findall(r"^attributes .*$", bare, re.M)))) - ATTRIBUTES):
        yield f"its functions have the attribute {key}"
    for name in sorted(set(re.findall(r"^declare .*@([\w.]+)\(", bare, re.M))):
        if name not in MAY_CALL and not re.match(r"llvm\.(?!win|seh|eh|va_|va|threadlocal|local)", name):
            yield f"it calls {name}"
    for line in re.findall(r"^define (?!internal|private).*$", bare, re.M):
        returned, _, passed = line.partition("@")
        if re.search(NOT_PLAIN, returned + re.sub(r"\b[a-z]+\((?:[^()]|\([^()]*\))*\)", "", passed.partition("(")[2]).partition(")")[0]):
            yield f"a call of it passes more than numbers and addresses: {line[:150]}"


def for_system(clang, kept, made, name):
    """Returns the text of a module as one of another system."""
    was = next(word for word in kept.words if word.startswith("--target=")).partition("=")[2]
    if found := list(says_more(kept.text)):
        stop(f"the module of {name} names its system in more than its layout and its triple, so {made.name} is not made: {'; '.join(found[:5])}")
    lines, other = layout_of(clang, was), layout_of(clang, made.target)
    if without_mangling(lines[0]) != without_mangling(other[0]):
        stop(f"the layout of {made.target} differs from that of {was} in more than its mangling: {other[0]}")
    text = kept.text
    for line, new in zip(lines, other):
        if text.count(f"\n{line}\n") != 1:
            stop(f"the module of {name} has no line {line}")
        text = text.replace(f"\n{line}\n", f"\n{new}\n")
    return text.replace(PROBE, "") if made.target == WINDOWS else text


def words_for(kept, made):
    """Returns the words by which a module is compiled for another system: those that rattle gave, but for the system, the files and -fPIC."""
    words = []
    for word in kept.words:
        left_out = word.startswith(("--target=", "--sysroot=", "-march=armv8-a")) or word.endswith((".o", ".bc", ".ll"))
        left_out = left_out or word in ("-c", "-fPIC", "-fPIE", "-x", "ir", "-o")
        if not left_out:
            words.append(word)
    return [f"--target={made.target}", *(["-mcpu=generic"] if made.target == MACOS else []), *words, "-fno-verbose-asm", "-fno-addrsig"]


def plain_sections(text):
    """Returns assembly for COFF as each assembler reads it: a section for each function by its name alone, and no words of a debugger for functions that
    others don't see."""
    text = re.sub(r'\t\.def\t"[^"\n]*";\n\t\.scl\t3;\n\t\.type\t32;\n\t\.endef\n', "", text)

    def section(match):
        base, name = match[1].strip('"'), match[3].strip('"')
        return f'\t.section\t"{base if "$" in base else f"{base}${name}"}",{match[2]}\n'

    return re.sub(r'\t\.section\t(.*?),("\w+"),(?:one_only|associative|discard),(.+?)(?:,unique,\d+)?\n', section, text)


def compiled(clang, kept, made, name, room):
    """Compiles a module for another system, and returns the assembly, and the object that the compiler makes of it by itself."""
    module = room / f"{made.name}.ll"
    module.write_text(for_system(clang, kept, made, name), encoding="utf-8")
    words = [clang, *words_for(kept, made), "-x", "ir", module]
    run(*words, "-c", "-o", room / f"{made.name}.object")
    run(*words, "-S", "-o", room / f"{made.name}.text")
    text = (room / f"{made.name}.text").read_text(encoding="utf-8")
    return plain_sections(text) if made.target == WINDOWS else text, room / f"{made.name}.object"


def compared(clang, kept, made, whole, room):
    """Compares the object for macOS with that of the same module for Linux, which leaves the registers alone that macOS keeps, and returns how many of how many
    functions are the same; prints each that is not, and ends the run where these are more than three in ten."""
    module, like = room / "like.ll", room / "like.o"
    module.write_text(re.sub(r"^(attributes #\d+ = \{)", r'\1 "frame-pointer"="reserved"', kept.text, flags=re.M), encoding="utf-8")
    was = next(word for word in kept.words if word.startswith("--target=")).partition("=")[2]
    words = [f"--target={was}" if word.startswith("--target=") else word for word in words_for(kept, made)]
    run(clang, *words, "-fPIC", "-ffixed-x18", "-x", "ir", module, "-c", "-o", like)
    found = list(arm64.compare("llvm-objdump", like, whole))
    other = [f"{name} {why}" for name, why in found if why]
    for line in other:
        print(f"tools/generate: note: {made.name}: {line[:300]}")
    if 10 * len(other) > 3 * len(found):
        stop(f"{made.name} is other code than that of Linux in {len(other)} of {len(found)} functions")
    return f"{len(found) - len(other)} of {len(found)}"


def other_object(made, one, other):
    """Returns how two objects for a system differ in their code, or nothing."""
    parts = [code_of(path.read_bytes()) if made.target == WINDOWS else path.read_bytes() for path in (one, other)]
    return "" if parts[0] == parts[1] else "its code is another"
