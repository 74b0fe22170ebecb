"""Proves and builds what is packed: the archives for each processor, and the program.

A folder of what was built has, for each archive, NAME/libpix_c.a; for each processor, PROCESSOR/pixpaint; VERDICTS, the line by which rt says
what it proved, for each of them; and SOURCES, what tools/sources printed of the crates. The program for aarch64 is linked by gcc with kit.c, since
the kit has no C library for that processor.
"""

import pathlib
import shutil
import subprocess

import generated
from common import CALLS, TOP, call, copy, missing, put, stop

# Each archive, and the flags by which rt builds it. The last one is what crates/pix_c/out keeps.
ARCHIVES = [
    ("aarch64", ["--target", "aarch64-unknown-linux-gnu"]),
    ("x86-64-v3", ["--cpu=x86-64-v3"]),
    ("x86-64-v2", ["--cpu=x86-64-v2"]),
]
# The archive or the program that each file of generated/ has the code of.
BUILT_AS = {
    "pix-x86_64.s": "x86-64-v2/libpix_c.a",
    "pix-x86_64-v3.s": "x86-64-v3/libpix_c.a",
    "pix-aarch64.s": "aarch64/libpix_c.a",
    "pixpaint-x86_64.s": "x86_64/pixpaint",
    "pixpaint-aarch64.s": "aarch64/pixpaint",
}
# Beside these a library may call nothing of C.
MAY_CALL = {"memset", "memcpy", "memmove"}
NEEDED = [
    ("rt", "the command of the Rattle kit, which proves and builds"),
    ("aarch64-linux-gnu-gcc", "links the program for aarch64: the package gcc-aarch64-linux-gnu"),
    ("nm", "reads the archives: the package binutils"),
]


def sources():
    """Returns what the crates are made of."""
    return call(TOP / "tools/sources", "pix_c", "pixpaint")


def kept():
    """Returns what rt had built and kept before the run: of the same text it proves nothing a second time."""
    built = sorted(path.parents[2].name for path in TOP.glob("crates/*/out/rlib/stamp"))
    work = list(pathlib.Path(shutil.which("rt")).resolve().parents[2].glob("rattle-kept/work/*.*"))
    here = f"libraries of {', '.join(built)} stood in crates/" if built else "no library stood in crates/"
    return f"{here}, and rt had {len(work)} notes of work kept by checks in other folders" if work else f"{here}, and rt had kept nothing on this machine"


def prove(name, crate, command, folder):
    """Runs rt on a crate, with what it says in a log; returns its status and the line of its verdict."""
    print(f"tools/release: {name}: {' '.join(command)} in crates/{crate}", flush=True)
    (TOP / "crates" / crate / "out").mkdir(exist_ok=True)
    done = subprocess.run(command, cwd=TOP / "crates" / crate, stdin=subprocess.DEVNULL, stdout=subprocess.PIPE, stderr=subprocess.STDOUT, text=True)
    put(folder / f"{name}.log", done.stdout)
    verdicts = [line for line in done.stdout.splitlines() if line.startswith("logic=")]
    if not verdicts or not verdicts[-1].startswith("logic=proved"):
        stop(f"{name} is not proved: see {folder / f'{name}.log'}", 1)
    print(f"    {verdicts[-1]}", flush=True)
    return done.returncode, verdicts[-1]


def build_archive(name, flags, folder):
    """Proves and builds an archive, and returns its verdict."""
    status, verdict = prove(name, "pix_c", ["rt", "lib", *flags], folder)
    if status:
        stop(f"{name} is not built: see {folder / f'{name}.log'}", 1)
    copy(TOP / "crates/pix_c/out/libpix_c.a", folder / name / "libpix_c.a")
    return verdict


def build_program_aarch64(folder):
    """Proves the program and builds it for aarch64, and returns its verdict. rt links for x86-64 alone, so its status is that of a link which fails."""
    made = TOP / "crates/pixpaint/out/pixpaint.o"
    made.unlink(missing_ok=True)
    _, verdict = prove("pixpaint-aarch64", "pixpaint", ["rt", "run", "--target", "aarch64-unknown-linux-gnu"], folder)
    if not made.is_file():
        stop(f"pixpaint is not built for aarch64: see {folder / 'pixpaint-aarch64.log'}", 1)
    program = folder / "aarch64/pixpaint"
    program.parent.mkdir(exist_ok=True)
    call(*generated.linked_by_gcc(program, made))
    return verdict


def build_program(folder):
    """Proves and builds the program, and returns its verdict."""
    status, verdict = prove("pixpaint-x86_64", "pixpaint", ["rt", "run"], folder)
    if status:
        stop(f"pixpaint is not built: see {folder / 'pixpaint-x86_64.log'}", 1)
    copy(TOP / "crates/pixpaint/out/pixpaint", folder / "x86_64/pixpaint", 0o755)
    return verdict


def make(folder):
    """Proves and builds all that is packed, into a folder."""
    if lacking := missing(NEEDED):
        stop("\n".join(["this machine lacks:", *lacking]))
    shutil.rmtree(folder, ignore_errors=True)
    folder.mkdir(parents=True)
    before = sources()
    print(f"tools/release: before the first proof: {kept()}", flush=True)
    verdicts = [f"{name}: {build_archive(name, flags, folder)}" for name, flags in ARCHIVES]
    verdicts.append(f"pixpaint for aarch64: {build_program_aarch64(folder)}")
    verdicts.append(f"pixpaint for x86_64: {build_program(folder)}")
    if sources() != before:
        stop("a source was changed during the build", 1)
    put(folder / "VERDICTS", "\n".join(verdicts) + "\n")
    put(folder / "SOURCES", before)


def make_stand_in(folder):
    """Makes archives that stand in for the proved ones, of bindings/c/other.c, with no program: they show nothing of what is packed."""
    shutil.rmtree(folder, ignore_errors=True)
    for name, compiler, march in [
        ("x86-64-v2", "x86_64-linux-gnu-gcc", ["-march=x86-64-v2"]),
        ("x86-64-v3", "x86_64-linux-gnu-gcc", ["-march=x86-64-v3"]),
        ("aarch64", "aarch64-linux-gnu-gcc", []),
    ]:
        home = folder / name
        home.mkdir(parents=True)
        options = ["-std=c99", "-O2", "-fPIC", *march, "-I", "bindings/c", "-c", "bindings/c/other.c", "-o", home / "other.o"]
        call(compiler, *options, cwd=TOP)
        call("ar", "rcsD", home / "libpix_c.a", home / "other.o")
        (home / "other.o").unlink()
    put(folder / "VERDICTS", "none: these archives are stand-ins in plain C, of which nothing is proved\n")


def check_generated(folder):
    """Tests that the files of generated/ are of just these sources, and have the code of what was built."""
    if not list(generated.FOLDER.glob("*.s")):
        stop("there is no assembly in generated/, which is compared with what is packed: tools/generate makes it")
    kit, line = generated.kit()
    found = list(generated.stale(line))
    for made in generated.MADE if not found else []:
        print(f"tools/release: generated/{made.name} is compared with what is packed", flush=True)
        why = generated.other_code(made, kit, folder / BUILT_AS[made.name])
        found += [why] if why else []
    if found:
        stop("\n".join(found), 1)


def check(folder):
    """Tests that what was built is of just these sources, that the archives have the documented calls and call nothing else, and that generated/ has their
    code."""
    if not (folder / "SOURCES").is_file() or not (folder / "VERDICTS").is_file():
        stop(f"{folder} has not what tools/release builds: no SOURCES or no VERDICTS")
    if (folder / "SOURCES").read_text() != sources():
        stop(f"{folder} was built of other sources than those of this folder, or by another kit", 1)
    for name, _ in ARCHIVES:
        archive = folder / name / "libpix_c.a"
        if not archive.is_file():
            stop(f"{folder} has no archive for {name}")
        called = {line.split()[-1] for line in call("nm", "-u", archive).splitlines() if " U " in line}
        defined = {line.split()[-1] for line in call("nm", "-g", "--defined-only", archive).splitlines() if " T " in line}
        if called - MAY_CALL or set(CALLS) - defined:
            stop(f"{archive} calls {sorted(called - MAY_CALL)}, and lacks {sorted(set(CALLS) - defined)}", 1)
    check_generated(folder)
