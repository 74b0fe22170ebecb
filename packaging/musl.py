"""Makes the packages for Linux with musl: for each processor a tarball of the library and a wheel, and for x86-64 a tarball of the program, linked statically.

The archives are those for Linux with glibc: they call three functions of any C library. The shared libraries name none, so that they take these functions of
the one that their program has; musl's loader knows no builds for wider processors beside a library, and Python takes the other one by itself.
"""

import shutil

from common import TOP, call, copy, environment, pack, provenance, put
from tree import DOCUMENTS, put_documents, put_for_compilers, put_program, shared_by
from wheel import put_about, put_package, write

TAG = "py3-none-musllinux_1_1_{0}"
# The compiler over musl, by the processor: Debian has one for its own alone.
COMPILERS = {"x86_64": "musl-gcc"}


def link(release, compiler, inputs, path):
    """Links a shared library that names no C library."""
    words = [word for word in shared_by(release.calls, compiler, inputs, path) if word not in ("-lm", "-Wl,-z,defs")]
    call(*words, "-nostdlib", env=environment(release))
    (path.parent / "pix.map").unlink()
    path.chmod(0o644)


def shared(release, processor, archive, path):
    """Links the shared library of an archive, without the names that no other program sees."""
    link(release, [f"{processor.tools}gcc"], ["-Wl,--whole-archive", archive, "-Wl,--no-whole-archive"], path)
    call(f"{processor.tools}strip", "--strip-unneeded", path, env=environment(release))


def musl_tarball(release, processor):
    """Makes the tarball of the library."""
    root = release.dist / f"pix-{release.version}-{processor.name}-linux-musl"
    shared(release, processor, release.built / processor.archive / "libpix_c.a", root / "lib" / f"libpix.so.{release.calls}")
    put_for_compilers(release, processor, root / "lib", "../include")
    put_documents(root / "share/doc/pix", DOCUMENTS)
    put(root / "share/doc/pix/PROVENANCE", provenance(release, root))
    pack(release, root)


def musl_wheel(release, processor):
    """Makes the wheel."""
    tag = TAG.format(processor.name)
    root = release.dist / f"wheel-musl-{processor.name}"
    put_package(root)
    shared(release, processor, release.built / processor.archive / "libpix_c.a", root / "pix/libpix_c.so")
    if processor.wide:
        shared(release, processor, release.built / processor.wide / "libpix_c.a", root / "pix/libpix_c-v3.so")
    put_about(release, root, tag, "tools/release")
    write(release, root, release.dist / f"pix_proved-{release.version}-{tag}.whl")
    shutil.rmtree(root)


def musl_program(release, processor):
    """Makes the tarball of the program, where the machine has a compiler over musl: of the assembly of generated/, which has the code of what was built."""
    if processor.name not in COMPILERS:
        return
    root = release.dist / f"pixpaint-{release.version}-{processor.name}-linux-musl"
    root.mkdir(parents=True)
    made = TOP / "generated" / f"pixpaint-{processor.name}.s"
    call(COMPILERS[processor.name], "-O2", "-s", "-static", "-Wl,--build-id=none", made, TOP / "packaging/kit.c", "-o", root / "pixpaint", env=environment(release))
    (root / "pixpaint").chmod(0o755)
    copy(TOP / "tools/picture", root / "pix-picture", 0o755)
    put_program(release, root, ["linked with packaging/kit.c, which is not proved, in the place of the kit's libraries, which are for glibc alone"])
