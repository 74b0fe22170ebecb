"""What the parts of the packer share: the versions, the processors, and how files are written so that two runs make the same bytes."""

import gzip
import hashlib
import io
import os
import pathlib
import re
import shutil
import subprocess
import sys
import tarfile
from typing import NamedTuple, Optional

TOP = pathlib.Path(__file__).resolve().parent.parent
HERE = TOP / "packaging"
# The calls of the library that others may see: those that the header declares and doesn't define.
CALLS = re.findall(r"^(?!static|typedef)[a-z][\w *]*?\b(pix_\w+)\(", (TOP / "bindings/c/pix.h").read_text(encoding="utf-8"), re.M)


class Processor(NamedTuple):
    """A processor that packages are made for: its name, that of its archive and of a wider one, Debian's name, and the prefix of gcc's tools."""

    name: str
    archive: str
    wide: Optional[str]
    debian: str
    tools: str

    @property
    def triple(self):
        """The name of Linux with glibc on it."""
        return f"{self.name}-linux-gnu"


PROCESSORS = [
    Processor("x86_64", "x86-64-v2", "x86-64-v3", "amd64", "x86_64-linux-gnu-"),
    Processor("aarch64", "aarch64", None, "arm64", "aarch64-linux-gnu-"),
]


class Release(NamedTuple):
    """What is packed: the versions, the commit's hash and time, the folder of what was built, the lines that say where it comes from, and the target."""

    version: str
    calls: str
    commit: str
    epoch: int
    built: pathlib.Path
    said: list
    dist: pathlib.Path


def stop(message, status=2):
    """Ends the run with a message."""
    print(f"tools/release: {message}", file=sys.stderr)
    sys.exit(status)


def call(*words, **more):
    """Runs a command and returns what it prints; ends the run where it fails."""
    words = [str(word) for word in words]
    done = subprocess.run(words, capture_output=True, text=True, **more)
    if done.returncode:
        stop(f"{' '.join(words)} fails:\n{done.stdout}{done.stderr}", 1)
    return done.stdout


def read(file):
    """Returns the text of a file of the repository."""
    return (TOP / file).read_text(encoding="utf-8")


def version_of_calls():
    """Returns the version of the calls, which is the number of the soname."""
    return re.search(r"^#define PIX_ABI_VERSION (\d+)$", read("bindings/c/pix.h"), re.M)[1]


def sum_of(data):
    """Returns the sum of bytes."""
    return hashlib.sha256(data).hexdigest()


def fill(template, **values):
    """Returns the text of a template of this folder, with a value for each @NAME@."""
    text = (HERE / template).read_text(encoding="utf-8")
    text = re.sub(r"@(\w+)@", lambda match: str(values[match[1]]), text)
    return text


def put(path, data, mode=0o644):
    """Writes a file, and its folder where there is none."""
    path.parent.mkdir(parents=True, exist_ok=True)
    path.write_bytes(data.encode() if isinstance(data, str) else data)
    path.chmod(mode)


def copy(source, path, mode=0o644):
    """Copies a file as it is."""
    put(path, pathlib.Path(source).read_bytes(), mode)


def link(path, target):
    """Makes a link."""
    path.parent.mkdir(parents=True, exist_ok=True)
    path.symlink_to(target)


def files_below(root):
    """Returns the paths of all files below a folder, links left out, in their order."""
    return sorted(path for path in root.rglob("*") if path.is_file() and not path.is_symlink())


def provenance(release, root, more=()):
    """Returns what a package says of itself: where it comes from, and the sum of each file below its root, as sha256sum -c reads it."""
    lines = [f"# pix {release.version}, calls {release.calls}", f"# commit: {release.commit}", *[f"# {line}" for line in [*release.said, *more]]]
    lines += [f"{sum_of(path.read_bytes())}  {path.relative_to(root)}" for path in files_below(root)]
    return "\n".join(lines) + "\n"


def pack(release, root):
    """Packs a folder into a file beside it: names in order, no owners, and the commit's time for all of it."""
    made = io.BytesIO()
    with tarfile.open(fileobj=made, mode="w", format=tarfile.GNU_FORMAT) as tar:
        for path in [root, *sorted(root.rglob("*"))]:
            item = tar.gettarinfo(path, str(path.relative_to(root.parent)))
            item.uid = item.gid = 0
            item.uname = item.gname = ""
            item.mtime = release.epoch
            item.mode = 0o755 if path.is_dir() or item.mode & 0o100 else 0o644
            with path.open("rb") if item.isreg() else io.BytesIO() as data:
                tar.addfile(item, data if item.isreg() else None)
    target = release.dist / f"{root.name}.tar.gz"
    target.write_bytes(gzip.compress(made.getvalue(), 9, mtime=release.epoch))
    shutil.rmtree(root)


def missing(needed):
    """Returns a line for each command of these that the machine lacks; each is a command and what it is for."""
    return [f"MISSING {command}: {what}" for command, what in needed if not shutil.which(command)]


def environment(release):
    """Returns the environment of the commands that pack."""
    return {**os.environ, "SOURCE_DATE_EPOCH": str(release.epoch), "LC_ALL": "C", "TZ": "UTC"}
