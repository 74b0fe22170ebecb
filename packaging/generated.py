"""The files of generated/: what each is made of, what stands at its head, and how it is compared with what was proved and built.

generated/ has, for each processor, the library and the program as assembly, which rattle's compiler writes in the place of an object; the module of the
page, with what the page says of it; and SHA256SUMS, the sum of each of these files.
"""

import functools
import hashlib
import json
import os
import pathlib
import re
import shutil
import subprocess
import sys
import tempfile
from typing import NamedTuple

sys.path.insert(0, str(pathlib.Path(__file__).resolve().parent))

from elf import differences  # noqa: E402

TOP = pathlib.Path(__file__).resolve().parent.parent
FOLDER = TOP / "generated"
SUMS = "SHA256SUMS"
X86, ARM, WASM = "x86_64-unknown-linux-gnu", "aarch64-unknown-linux-gnu", "wasm64-unknown-unknown"
WINDOWS, MACOS = "x86_64-pc-windows-gnu", "arm64-apple-macos11"
# How many bytes of a file hold its head.
HEAD = 2000


class Made(NamedTuple):
    """A file: its name, what it is, the crate that it is made of, the processor's system and name, how rattle's words name both, and, if it is for a system
    that rattle doesn't know, the file of whose module of LLVM it is compiled."""

    name: str
    what: str
    crate: str
    target: str
    cpu: str
    words: tuple
    of: str = ""

    @property
    def is_program(self):
        """Whether it is of the program, and not of the library."""
        return self.crate == "pixpaint"


MADE = [
    Made("pix-x86_64.s", "the library, for x86-64-v2 under Linux", "pix_c", X86, "x86-64-v2", ()),
    Made("pix-x86_64-v3.s", "the library, for x86-64-v3 under Linux", "pix_c", X86, "x86-64-v3", ("--cpu=x86-64-v3",)),
    Made("pix-aarch64.s", "the library, for aarch64 under Linux", "pix_c", ARM, "generic", ("--target", ARM)),
    Made("pixpaint-x86_64.s", "the program pixpaint, for x86-64-v2 under Linux", "pixpaint", X86, "x86-64-v2", ()),
    Made("pixpaint-aarch64.s", "the program pixpaint, for aarch64 under Linux", "pixpaint", ARM, "generic", ("--target", ARM)),
]
# For each of these the kit's clang compiles the module of another file anew (packaging/systems.py).
OTHERS = [
    Made("pix-x86_64-windows.s", "the library, for x86-64-v2 under Windows", "pix_c", WINDOWS, "x86-64-v2", (), "pix-x86_64.s"),
    Made("pix-x86_64-windows-v3.s", "the library, for x86-64-v3 under Windows", "pix_c", WINDOWS, "x86-64-v3", ("--cpu=x86-64-v3",), "pix-x86_64-v3.s"),
    Made("pixpaint-x86_64-windows.s", "the program pixpaint, for x86-64-v2 under Windows", "pixpaint", WINDOWS, "x86-64-v2", (), "pixpaint-x86_64.s"),
    Made("pix-arm64-macos.s", "the library, for arm64 under macOS", "pix_c", MACOS, "generic", ("--target", ARM), "pix-aarch64.s"),
]
# The module of the page and of JavaScript, and what the page says of it; a larger one is left out.
MODULE = Made("pix_c.wasm", "the library, for WebAssembly with SIMD and a 32-bit memory", "pix_c", WASM, "lime1", ("--target", WASM))
# How it comes from what is proved; built.json says so, since it is no output of the kit.
HOW = "the module of LLVM that rattle makes for wasm64, compiled by the kit's clang with -msimd128; packaging/wasm.py gave it a 32-bit memory"
SAID = "built.json"
# What JavaScript and the page take from the header, the operators and the examples.
FACTS = "bindings/js/facts.js"
LARGEST = 4_000_000
# What compiles in the place of the kit's clang, and writes the assembly too, or another object, and keeps the module and the words: rattle runs it with no
# environment, so the folder beside it is where that goes. For aarch64 a first call prints the module as text, and a second one compiles what rattle made of
# it: only a call that writes an object counts.
COMPILER = """#!/bin/bash
words=() out= module=
for word in "$@"; do
    case $word in
    -c | -o) ;;
    *.o) out=$word ;;
    *.bc | *.ll) words+=("$word") module=$word ;;
    *) words+=("$word") ;;
    esac
done
case " $* " in *' -c '*) ;; *) out= ;; esac
if [ -n "$out" ]; then
    cat "$module" >"@KEEP@.module" && printf '%s\\n' "$@" >"@KEEP@.words" || exit
    "@REAL@" "${words[@]}" @WORDS@ -o "@KEEP@" &
    written=$!
    (exec -a "$0" "@REAL@" "$@") && wait "$written"
else
    exec -a "$0" "@REAL@" "$@"
fi
"""


def stop(message, status=1):
    """Ends the run with a message."""
    print(f"tools/generate: {message}", file=sys.stderr)
    sys.exit(status)


def run(*words, **more):
    """Runs a command, and returns what it prints; ends the run where it fails."""
    words = [str(word) for word in words]
    done = subprocess.run(words, stdout=subprocess.PIPE, stderr=subprocess.STDOUT, text=True, errors="replace", **more)
    if done.returncode:
        stop(f"{' '.join(words)[:300]} fails:\n{done.stdout[-2000:]}")
    return done.stdout


def kit():
    """Returns the folder of the kit, and its line."""
    return pathlib.Path(run("rt", "doc").strip()).parent, run("rt", "version").strip()


def sum_of(data):
    """Returns the sum of bytes."""
    return hashlib.sha256(data).hexdigest()


@functools.lru_cache(maxsize=None)
def sources_of(crate, line):
    """Returns the sum of the sources of a crate and of those below it, under the kit of this line."""
    return run(TOP / "tools/sources", "--kit", line, "--sum", crate).strip()


def version():
    """Returns the version of all parts."""
    return (TOP / "VERSION").read_text(encoding="utf-8").strip()


def head(made, line, sources, verdict, more=""):
    """Returns what stands at the head of a file of assembly."""
    also = f"""
 * compiled for: {made.target}, which is another system than the target of the verdict, of the module of LLVM by which {made.of} was made{more}""" if made.of else ""
    return f"""/* pix {version()}: {made.what}.
 * The code was proved before it was compiled; generated/README.md says what that means. Nobody edits this file: tools/generate makes it.
 *
 * sources: {sources}, as tools/sources --sum {made.crate} prints it
 * kit: {line}
 * verdict: {verdict}{also}
 * made by: rattle build {' '.join(made.words)}{' ' if made.words else ''}of crates/{made.crate}, with clang -S -fno-verbose-asm -fno-addrsig in the place of clang -c
 * flags: --target={made.target} {march(made)}
 */
"""


def stable(text):
    """Returns assembly whose local labels name their function by a sum of its name, and not by its place in the file. The code is the same; where a
    function is new, the labels of those after it stay, so that git finds more of an earlier version in it."""
    names = {number: sum_of(name.encode())[:6] for number, name in re.findall(r'^\.Lfunc_end(\d+):\n\t\.size\t("[^"]*"|[^,\n]+), ', text, re.M)}
    if len({*names.values()}) != len(names):
        return text
    return re.sub(r"(\.L(?:BB|CPI|JTI|func_end|func_begin))(\d+)(?=_|\b)", lambda match: f"{match[1]}_{names[match[2]]}" if match[2] in names else match[0], text)


def march(made):
    """Returns the flag by which an assembler pads as the compiler of the object did."""
    return f"-march={made.cpu}" if made.target.startswith("x86_64") else "-mcpu=generic"


def facts_of(path):
    """Returns what the head of a file says of it, by its names; the file of the module says it in JSON."""
    if path.name == SAID:
        return json.loads(path.read_text(encoding="utf-8"))
    with path.open("rb") as file:
        text = file.read(HEAD).decode(errors="replace").partition("*/")[0]
    return {"version": (re.search(r"^/\* pix (\S+):", text) or ["", ""])[1], **dict(re.findall(r"^ \* ([a-z ]+): (.*)$", text, re.M))}


def names():
    """Returns the names of the files that stand in generated/ but for its README.md and the list of sums."""
    return sorted(path.name for path in FOLDER.iterdir() if path.name not in ("README.md", SUMS))


def sums(folder, files):
    """Returns the text of the list of sums."""
    return "".join(f"{sum_of((folder / name).read_bytes())}  {name}\n" for name in files)


def stale(line=None):
    """Yields each way in which the files of generated/ are not whole, or not of just these sources; without a line, a file's own kit is taken for this one."""
    lacking = [name for name in [*(made.name for made in [*MADE, *OTHERS]), SUMS] if not (FOLDER / name).is_file()]
    if lacking:
        yield f"generated/ lacks {', '.join(lacking)}: tools/generate makes it"
        return
    listed = dict(reversed(row.split("  ", 1)) for row in (FOLDER / SUMS).read_text(encoding="utf-8").splitlines())
    other = [name for name in sorted({*listed, *names()}) if not (FOLDER / name).is_file() or listed.get(name) != sum_of((FOLDER / name).read_bytes())]
    for name in other:
        yield f"generated/{name} is not the file that generated/{SUMS} lists: a byte of it was changed, or it is missing"
    if not other:
        yield from other_sources(line)


def logic_of(line):
    """Returns the sum of the logic that a kit's line names. Kits of one logic prove the same."""
    return line.partition(" logic ")[2]


def other_sources(line):
    """Yields each file that is not of just these sources, this version and, where a line is given, the logic of this line's kit."""
    for made in [*MADE, *OTHERS, *([MODULE] if (FOLDER / MODULE.name).is_file() else [])]:
        path = FOLDER / (SAID if made is MODULE else made.name)
        said = facts_of(path) if path.is_file() else {}
        if line and logic_of(said.get("kit", "")) != logic_of(line):
            yield f"generated/{path.name} is of the kit {said.get('kit')}, and this one, {line}, has another logic"
        elif said.get("version") != version():
            yield f"generated/{path.name} is of the version {said.get('version')}, and VERSION says {version()}"
        elif not said.get("verdict", "").startswith("logic=proved"):
            yield f"generated/{path.name} has no verdict of the prover"
        elif said.get("sources", "").partition(",")[0] != sources_of(made.crate, said.get("kit", "")):
            yield f"generated/{path.name} was made of other sources than those that stand here: tools/generate makes it anew"


def assembled(made, folder, path, home=FOLDER):
    """Assembles a file as the module of its object was compiled."""
    words = [f"--target={made.target}", march(made), "--no-default-config", "-c", home / made.name]
    run(folder / "toolchain/bin/clang", *words, "-o", path)


def linked_by_gcc(program, made):
    """Returns the words by which the program for aarch64 is linked: the kit has no C library for that processor."""
    return ["aarch64-linux-gnu-gcc", "-O2", "-s", "-o", program, made, TOP / "packaging/kit.c"]


def other_code(made, folder, built):
    """Returns why the code of a file is not that of an archive or, linked as that was, of a program; or nothing where it is."""
    with tempfile.TemporaryDirectory(prefix="pix-code-") as name:
        made_here = pathlib.Path(name) / "made.o"
        assembled(made, folder, made_here)
        if made.is_program:
            linked = pathlib.Path(name) / "linked"
            if made.target == X86:
                words = [folder / "bin/rattle-link", "--target", made.target, "--toolchain", folder / "toolchain", "-o", linked, made_here]
                run(*words, folder / "c/libos_c.a", folder / "c/liblibc_c.a")
            else:
                run(*linked_by_gcc(linked, made_here))
            made_here = linked
        try:
            found = differences(built.read_bytes(), made_here.read_bytes())
        except (OSError, ValueError) as why:
            return f"{built}: {why}"
    return f"generated/{made.name} has other code than {built}: {', '.join(found[:3])}{' and others' if len(found) > 3 else ''}" if found else ""


class Copy:
    """A copy of the crates that the files are made of, in which rt ci proves them, and takes what it kept of the same."""

    def __init__(self, room, folder):
        self.room, self.folder = room, folder
        text = (TOP / "crates.txt").read_text(encoding="utf-8")
        lines = {line.split()[0].rstrip(":"): line for line in text.splitlines() if re.match(r"[a-z]", line)}
        self.below = {name: line.partition(":")[2].split() for name, line in lines.items()}
        wanted = self.all_below("pix_c") | self.all_below("pixpaint")
        (room / ".git").mkdir(parents=True)
        (room / "crates.txt").write_text("".join(f"{line}\n" for name, line in lines.items() if name in wanted))
        shutil.copy(TOP / "HANDLES", room)
        for name in wanted:
            shutil.copytree(TOP / "crates" / name, room / "crates" / name, symlinks=True, ignore=shutil.ignore_patterns("out", "must-fail"))

    def all_below(self, name):
        """Returns a crate and all of the repository that it stands on."""
        return {name}.union(*(self.all_below(each) for each in self.below[name] if each in self.below))

    def prove(self, log):
        """Proves all of it: rt ci leaves the library of each crate."""
        with log.open("w") as said:
            status = subprocess.run(["rt", "ci"], cwd=self.room, stdin=subprocess.DEVNULL, stdout=said, stderr=subprocess.STDOUT).returncode
        if status:
            stop(f"rt ci does not prove the crates: see {log}\n{log.read_text(errors='replace')[-1500:]}")

    def build(self, made, toolchain, output, log):
        """Proves and builds a file's archive or object, and returns the line of its verdict."""
        words = ["--crate-name", made.crate, "src/main.rt" if made.is_program else "src/lib.rt", *([] if made.is_program else ["--crate-type", "staticlib"]), *made.words]
        for name in ["std", *self.below[made.crate]]:
            home = self.room / "crates" / name / "out/rlib" if name in self.below else self.folder / "rlibs"
            words += ["--extern", f"{name}={home / f'{name}.rlib'}"]
        words += ["-L", f"dependency={self.folder / 'rlibs'}"]
        for name in sorted(self.all_below(made.crate) - {made.crate}):
            words += ["-L", f"dependency={self.room / 'crates' / name / 'out/rlib'}"]
        words += ["--antt-project", self.folder / "rattle/logic/antt-project.json", "--logic-built", self.folder / "logic_built"]
        words += ["--toolchain", toolchain, "--links", f"{made.crate}=", "--jobs", os.cpu_count() or 1, "-o", output]
        home = self.room / "crates" / made.crate
        said = run(self.folder / "bin/rattle", "build", *words, cwd=home, stdin=subprocess.DEVNULL)
        with log.open("a") as kept:
            kept.write(f"== {made.name}\n{said}")
        verdict = said.strip().splitlines()[-1]
        if not verdict.startswith("logic=proved"):
            stop(f"{made.name} is not proved: see {log}")
        return verdict


ASSEMBLY, SIMD = "-fno-verbose-asm -fno-addrsig -S", "-msimd128 -c"


def toolchain_in(room, folder, keep, words=ASSEMBLY):
    """Makes a folder in the place of the kit's toolchain, whose compiler also compiles to a file by other words, and returns it."""
    home = room / "toolchain"
    (home / "bin").mkdir(parents=True)
    for path in folder.joinpath("toolchain").iterdir():
        if path.name != "bin":
            (home / path.name).symlink_to(path)
    for path in folder.joinpath("toolchain/bin").iterdir():
        if path.name != "clang":
            (home / "bin" / path.name).symlink_to(path)
    compiler = home / "bin/clang"
    compiler.write_text(COMPILER.replace("@REAL@", str(folder / "toolchain/bin/clang")).replace("@KEEP@", str(keep)).replace("@WORDS@", words))
    compiler.chmod(0o755)
    return home
