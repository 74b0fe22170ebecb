"""Builds the page: the proved library for WebAssembly, the facts that the page takes from pix.h and from the definitions, and the folder to be served."""

import hashlib
import json
import pathlib
import re
import shutil
import subprocess
import sys

TOP = pathlib.Path(__file__).resolve().parent.parent
sys.path.insert(0, str(TOP / "packaging"))

import wasm  # noqa: E402

HEADER = "bindings/c/pix.h"
OPERATORS = "crates/pix_ops/specs/Operators.antt"
EXAMPLES = TOP / "examples"
PICTURES = ["pictures/triangle.png", "apps/pictures/leaf.png"]
# The JavaScript package: modules of web/page take it from here, those of the assembled page from a folder of theirs.
PACKAGE = TOP / "bindings/js"
# What stands elsewhere in a clone, which is served whole, and where the assembled page has it.
MOVED = {"../../bindings/js/": "./pix/", "../../generated/": "", "../../examples/": "examples/", "../../pictures/": "", "../../apps/pictures/": "", "../../": ""}
# The files that the foot of the page links to.
LINKED = ["README.md", "LICENSE", "docs/THEOREM.md", "docs/tasks/README.md"]
TARGET = "wasm64-unknown-unknown"


def stop(message, status=2):
    """Ends the run with a message."""
    print(f"tools/web: {message}", file=sys.stderr)
    sys.exit(status)


def read(file):
    """Returns the text of a file of the repository."""
    return (TOP / file).read_text(encoding="utf-8")


def macro(header, name):
    """Returns what a macro of the header stands for, on one line."""
    lines = re.search(rf"^#define {name}(?:\(\w+\))?((?: *\\\n|.)*)\n", header, re.M)[1]
    return " ".join(lines.replace("\\\n", " ").split())


def facts(header):
    """Returns the type and the field of each fact that pix_layout answers, in their order; the version of the calls has neither."""
    text, of_command = macro(header, "PIX_FACTS_"), macro(header, "PIX_COMMAND_FACTS_")
    text = re.sub(r"PIX_COMMAND_FACTS_\((\w+)\)", lambda match: re.sub(r"\bcommand\b", match[1], of_command), text)
    named = {"sizeof": lambda words: [words, "size"], "offsetof": lambda words: words.split(", ")}
    found = re.findall(r"(PIX_ABI_VERSION)|(sizeof|offsetof)\(([\w, ]+)\)", text)
    return [["calls", "version"] if version else named[kind](words) for version, kind, words in found]


def numbers(header, enum):
    """Returns the names of an enumeration of the header, without their beginning, and the number of each."""
    body = re.search(rf"typedef enum \{{\n((?:(?!typedef).)*?)\}} pix_{enum};", header, re.S)[1]
    begins = {"status": "PIX_"}.get(enum, f"PIX_{enum.upper()}_")
    return {name: int(number) for name, number in re.findall(rf"\b{begins}(\w+) = (\d+)", body)}


def statuses(header):
    """Returns the sentence of each status, in the order of their numbers."""
    texts = dict(re.findall(r'case PIX_(\w+): return "(.*)";', header))
    return [texts[name] for name, _ in sorted(numbers(header, "status").items(), key=lambda item: item[1])]


def operators(header):
    """Returns the name of each operator with its two coefficients, as the definitions have them, in the order of their numbers."""
    rows = re.findall(r"^row (\w+) = record \{ source = (\w+); dest = (\w+) \}", read(OPERATORS), re.M)
    place = {name.replace("_", "").lower(): number for name, number in numbers(header, "op").items()}
    found = sorted(({"name": name, "source": source, "dest": dest} for name, source, dest in rows), key=lambda row: place[row["name"].lower()])
    if len(found) != len(place):
        stop(f"{OPERATORS} has {len(found)} operators, and {HEADER} {len(place)}")
    return found


def facts_module(header):
    """Returns the module of the page with all that it takes from the header and the definitions."""
    values = {
        "VERSION": read("VERSION").strip(),
        "CALLS": int(re.search(r"^#define PIX_ABI_VERSION (\d+)$", header, re.M)[1]),
        "FACTS": facts(header),
        "KINDS": numbers(header, "kind"),
        "FORMATS": numbers(header, "format"),
        "FILTERS": numbers(header, "filter"),
        "STATUSES": statuses(header),
        "OPERATORS": operators(header),
        "EXAMPLES": sorted(path.stem for path in EXAMPLES.glob("*.paint")),
    }
    lines = [f"export const {name} = {json.dumps(value)};" for name, value in values.items()]
    return "\n".join([f"// Made by tools/web or tools/generate, of {HEADER}, {OPERATORS} and the examples.", *lines]) + "\n"


def run(*words, **more):
    """Runs a command, and returns what it prints; ends the run where it fails."""
    done = subprocess.run([str(word) for word in words], stdout=subprocess.PIPE, stderr=subprocess.STDOUT, text=True, **more)
    if done.returncode:
        stop(f"{' '.join(map(str, words))} fails:\n{done.stdout[-2000:]}", 1)
    return done.stdout


def prove(folder):
    """Proves pix_c and builds it for WebAssembly, into a folder beside the line of its verdict. The archive that stood in crates/pix_c/out stays."""
    out, log = TOP / "crates/pix_c/out", folder / "rt.log"
    archive, aside = out / "libpix_c.a", folder / "aside.a"
    out.mkdir(exist_ok=True)
    if archive.is_file():
        archive.rename(aside)
    try:
        with log.open("w") as said:
            status = subprocess.run(["rt", "lib", "--target", TARGET], cwd=out.parent, stdout=said, stderr=subprocess.STDOUT).returncode
        verdicts = [line for line in log.read_text().splitlines() if line.startswith("logic=")]
        if status or not verdicts or not verdicts[-1].startswith("logic=proved"):
            stop(f"pix_c is not proved, or not built: see {log}", 1)
        archive.rename(folder / "libpix_c.a")
    finally:
        if aside.is_file():
            aside.rename(archive)
    (folder / "VERDICT").write_text(f"{verdicts[-1]}\n")


def kit():
    """Returns the folder of the kit."""
    return pathlib.Path(run("rt", "doc").strip()).parent


def stand_in(archive):
    """Builds an archive that stands in for the proved one, of bindings/c/other.c, by the kit's compiler."""
    made, here = archive.with_suffix(".o"), TOP / "web/stand-in"
    archive.parent.mkdir(parents=True, exist_ok=True)
    options = ["-std=c11", "-O2", "-ffreestanding", "-nostdinc", "-isystem", here, "-I", TOP / "bindings/c"]
    run(kit() / "toolchain/bin/clang", f"--target={TARGET}", *options, "-c", here / "stand-in.c", "-o", made)
    archive.unlink(missing_ok=True)
    run(kit() / "toolchain/bin/llvm-ar", "rcsD", archive, made)


def link(archive, module):
    """Links an archive for WebAssembly into a module, whose memory has 32 bits."""
    run(kit() / "bin/rattle-link", "--target", TARGET, "--toolchain", kit() / "toolchain", "-o", module, archive)
    module.write_bytes(wasm.narrowed(module.read_bytes()))


def build_module(folder):
    """Builds the module of just these sources, where the folder has not one of an earlier run, and returns what the page says of it."""
    sources = run(TOP / "tools/sources", "pix_c")
    if not (folder / "sources").is_file() or (folder / "sources").read_text() != sources:
        shutil.rmtree(folder, ignore_errors=True)
        folder.mkdir(parents=True)
        prove(folder)
        link(folder / "libpix_c.a", folder / "pix_c.wasm")
        (folder / "sources").write_text(sources)
    commit = f"commit {run('git', 'log', '-1', '--format=%H', cwd=TOP).strip()}"
    if run("git", "status", "--porcelain", "--", "crates", "crates.txt", "bindings", "web", cwd=TOP):
        commit += ", with changes that no commit has"
    made = "rt lib, without SIMD; packaging/wasm.py gave it a 32-bit memory"
    return {"commit": commit, "kit": run("rt", "version").strip(), "made": made, "verdict": (folder / "VERDICT").read_text().strip()}


def assemble(module, built, target):
    """Makes the folder to be served: the page, the module, what the page says of it, the examples and the pictures."""
    shutil.rmtree(target, ignore_errors=True)
    shutil.copytree(TOP / "web/page", target)
    (target / "pix").mkdir()
    for path in PACKAGE.glob("*.js"):
        if path.name != "trials.js":
            shutil.copyfile(path, target / "pix" / path.name)
    for path in [*target.glob("*.js"), target / "index.html"]:
        text = path.read_text(encoding="utf-8")
        for here, there in MOVED.items():
            text = re.sub(rf"(['\"`]){re.escape(here)}", rf"\g<1>{there}", text)
        path.write_text(text, encoding="utf-8")
    shutil.copyfile(module, target / "pix_c.wasm")
    data = module.read_bytes()
    built = {**built, "bytes": len(data), "sum": hashlib.sha256(data).hexdigest()}
    (target / "built.json").write_text(json.dumps(built, indent=1) + "\n")
    (target / "pix/facts.js").write_text(facts_module(read(HEADER)))
    (target / "examples").mkdir()
    for path in sorted(EXAMPLES.glob("*.paint")):
        shutil.copyfile(path, target / "examples" / path.name)
    for name in PICTURES:
        shutil.copyfile(TOP / name, target / pathlib.Path(name).name)
    for name in LINKED:
        (target / name).parent.mkdir(parents=True, exist_ok=True)
        shutil.copyfile(TOP / name, target / name)
