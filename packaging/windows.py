"""Makes the wheel for Windows: of the assembly of generated/, which gcc of mingw-w64 assembles and links, since rattle builds no archive for that system."""

import shutil

from backend import WINDOWS, files_for, link
from wheel import put_about, put_package, write

COMPILER = "x86_64-w64-mingw32-gcc"


def windows_wheel(release):
    """Makes the wheel."""
    tag = f"py3-none-{WINDOWS.replace('-', '_')}"
    root = release.dist / "wheel-windows"
    put_package(root)
    for library, file in files_for(WINDOWS).items():
        link(release, [COMPILER], file, root / "pix" / library)
    put_about(release, root, tag, "tools/release")
    write(release, root, release.dist / f"pix_proved-{release.version}-{tag}.whl")
    shutil.rmtree(root)
