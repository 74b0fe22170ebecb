"""Makes the wheels: the package pix with the shared library for one processor, and beside it the one for wider processors."""

import base64
import hashlib
import shutil
import time
import zipfile

from common import TOP, copy, files_below, provenance, put, read
from tree import shared

# The library needs of the system what was there in 2014: memcpy of glibc 2.14, and 2.17 on aarch64.
TAG = "py3-none-manylinux_2_17_{0}.manylinux2014_{0}"


def metadata(release):
    """Returns what the package says of itself."""
    return f"""Metadata-Version: 2.1
Name: pix-proved
Version: {release.version}
Summary: Compositing of raster images in the caller's own memory; every function of the library is proved
License: MIT
Requires-Python: >=3.10
Classifier: License :: OSI Approved :: MIT License
Classifier: Operating System :: POSIX :: Linux
Classifier: Operating System :: Microsoft :: Windows
Classifier: Programming Language :: Python :: 3
Classifier: Typing :: Typed
Provides-Extra: pillow
Requires-Dist: pillow; extra == "pillow"
Description-Content-Type: text/markdown

{read("bindings/README.md")}"""


def record(root):
    """Returns the list of the files of a wheel, with their sums."""
    lines = []
    for path in files_below(root):
        sum_ = base64.urlsafe_b64encode(hashlib.sha256(path.read_bytes()).digest()).rstrip(b"=").decode()
        lines.append(f"{path.relative_to(root)},sha256={sum_},{path.stat().st_size}\n")
    return "".join(lines)


def write(release, root, target):
    """Writes a wheel: the files in their order, those that say what it is at the end."""
    moment = time.gmtime(max(release.epoch, 315532800))[:6]
    with zipfile.ZipFile(target, "w", zipfile.ZIP_DEFLATED, compresslevel=9) as wheel:
        for path in sorted(files_below(root), key=lambda path: ("dist-info" in str(path), path)):
            item = zipfile.ZipInfo(str(path.relative_to(root)), moment)
            item.external_attr = (0o100755 if path.suffix == ".so" else 0o100644) << 16
            item.compress_type = zipfile.ZIP_DEFLATED
            item.create_system = 3
            wheel.writestr(item, path.read_bytes())


def put_package(root):
    """Puts Python's package into the tree of a wheel."""
    for path in sorted((TOP / "bindings/python/pix").iterdir()):
        if path.suffix == ".py" or path.name == "py.typed":
            copy(path, root / "pix" / path.name)


def put_about(release, root, tag, maker):
    """Puts what a wheel says of itself into its tree, in which all else stands."""
    info = root / f"pix_proved-{release.version}.dist-info"
    put(info / "PROVENANCE", provenance(release, root))
    copy(TOP / "LICENSE", info / "LICENSE")
    put(info / "METADATA", metadata(release))
    tags = "".join(f"Tag: py3-none-{system}\n" for system in tag.partition("-none-")[2].split("."))
    put(info / "WHEEL", f"Wheel-Version: 1.0\nGenerator: {maker}\nRoot-Is-Purelib: false\n{tags}")
    put(info / "top_level.txt", "pix\n")
    put(info / "RECORD", record(root) + f"{info.name}/RECORD,,\n")


def wheel(release, processor):
    """Makes the wheel for a processor."""
    tag = TAG.format(processor.name)
    root = release.dist / f"wheel-{processor.name}"
    put_package(root)
    shared(release, processor, release.built / processor.archive / "libpix_c.a", root / "pix/libpix_c.so")
    if processor.wide:
        shared(release, processor, release.built / processor.wide / "libpix_c.a", root / "pix/libpix_c-v3.so")
    put_about(release, root, tag, "tools/release")
    write(release, root, release.dist / f"pix_proved-{release.version}-{tag}.whl")
    shutil.rmtree(root)
