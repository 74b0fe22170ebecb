"""Makes the packages for C and C++: a tarball to unpack anywhere, and for Debian libpix and libpix-dev; and the tarball of the program."""

import os
import re
import shutil

from common import CALLS, TOP, call, copy, environment, files_below, fill, link, pack, provenance, put, read

# The documents, by the paths by which they name each other.
DOCUMENTS = ["README.md", "CALLING.md", "CHANGELOG.md", "LICENSE", "VERSION", "bindings/README.md"]
DOCUMENTS += sorted(str(path.relative_to(TOP)) for folder in ("docs", "pictures") for path in (TOP / folder).iterdir() if path.is_file())
MANUAL = ["pixpaint.1", "pix-picture.1"]
PATTERNS = {"x86_64": "x86_64|AMD64|amd64", "aarch64": "aarch64|arm64"}
SUMMARY = "compositing of raster images, every function of it proved"


def shared_by(calls, compiler, inputs, path):
    """Returns the words by which a compiler links a shared library: with the number of the calls in its soname, and only the documented calls for others to
    see. The list of these is written beside it."""
    script = path.parent / "pix.map"
    path.parent.mkdir(parents=True, exist_ok=True)
    put(script, fill("pix.map", CALLS=calls, NAMES="\n".join(f"        {name};" for name in CALLS)))
    options = [f"-soname,libpix.so.{calls}", f"--version-script={script}"]
    options += ["-z,defs", "-z,text", "-z,relro", "-z,now", "-z,noexecstack", "--build-id=sha1", "--as-needed"]
    return [*compiler, "-shared", "-nostartfiles", "-o", path, *[f"-Wl,{option}" for option in options], *inputs, "-lm"]


def shared(release, processor, archive, path):
    """Links the shared library of an archive, without the names that no other program sees."""
    words = shared_by(release.calls, [f"{processor.tools}gcc"], ["-Wl,--whole-archive", archive, "-Wl,--no-whole-archive"], path)
    call(*words, env=environment(release))
    call(f"{processor.tools}strip", "--strip-unneeded", path, env=environment(release))
    (path.parent / "pix.map").unlink()
    path.chmod(0o644)


def put_library(release, processor, lib):
    """Puts what runs a program into a folder: the shared library, and beside it the one for wider processors, where the loader looks for it."""
    name = f"libpix.so.{release.calls}"
    shared(release, processor, release.built / processor.archive / "libpix_c.a", lib / name)
    if processor.wide:
        wide = lib / "glibc-hwcaps" / processor.wide / name
        shared(release, processor, release.built / processor.wide / "libpix_c.a", wide)


def put_for_compilers(release, processor, lib, include):
    """Puts what compiles and links a program into a folder: the header into `include`, which is so named from the folder of libraries on."""
    values = {"VERSION": release.version, "CALLS": release.calls, "INCLUDE": include, "PROCESSOR": processor.name}
    values["PATTERN"] = PATTERNS[processor.name]
    copy(TOP / "bindings/c/pix.h", lib.joinpath(*include.split("/")).resolve() / "pix.h")
    copy(release.built / processor.archive / "libpix_c.a", lib / "libpix.a")
    link(lib / "libpix.so", f"libpix.so.{release.calls}")
    put(lib / "pkgconfig/pix.pc", fill("pix.pc.in", **values))
    for name in ("pixConfig.cmake", "pixConfigVersion.cmake"):
        put(lib / "cmake/pix" / name, fill(f"{name}.in", **values))


def pictures_of(documents):
    """Returns the paths of the pictures that documents show."""
    found = set()
    for name in documents:
        if name.endswith(".md"):
            shown = re.findall(r"!\[[^\]]*\]\((?!https?:)([^)\s]+)\)", read(name))
            found |= {os.path.normpath(os.path.join(os.path.dirname(name), path)) for path in shown}
    return sorted(found)


def put_documents(root, documents):
    """Puts documents into a folder, with the pictures that they show."""
    for name in {**dict.fromkeys(documents), **dict.fromkeys(pictures_of(documents))}:
        copy(TOP / name, root / name)


def tarball(release, processor):
    """Makes the tarball of the library."""
    root = release.dist / f"pix-{release.version}-{processor.triple}"
    put_library(release, processor, root / "lib")
    put_for_compilers(release, processor, root / "lib", "../include")
    put_documents(root / "share/doc/pix", DOCUMENTS)
    put(root / "share/doc/pix/PROVENANCE", provenance(release, root))
    pack(release, root)


def operators():
    """Returns the names of the operators, as a page of manual lists them."""
    names = re.findall(r"^row (\w+) =", read("crates/pix_ops/specs/Operators.antt"), re.M)
    return f"{', '.join(names[:-1])} and {names[-1]}"


def program(release, processor):
    """Makes the tarball of the program: beside it pix-picture, which is tools/picture, and a page of manual of each, where man looks for a command."""
    root = release.dist / f"pixpaint-{release.version}-{processor.triple}"
    copy(release.built / processor.name / "pixpaint", root / "pixpaint", 0o755)
    copy(TOP / "tools/picture", root / "pix-picture", 0o755)
    more = ["linked with packaging/kit.c, which is not proved, in the place of the kit's libraries, which are for x86-64 alone"]
    put_program(release, root, more if processor.name == "aarch64" else ())


def put_program(release, root, more):
    """Puts what comes with the program into its folder, and packs it."""
    for name in MANUAL:
        put(root / "share/man/man1" / name, fill(f"man/{name}.in", VERSION=release.version, OPERATORS=operators()))
    put_documents(root, ["LICENSE", "docs/SCRIPTS.md", *[f"examples/{path.name}" for path in sorted((TOP / "examples").iterdir())]])
    put(root / "PROVENANCE", provenance(release, root, more))
    pack(release, root)


def debian_files(release, processor, root, package, depends):
    """Puts what dpkg wants into the tree of a package."""
    size = sum(path.stat().st_size + 1023 for path in files_below(root)) // 1024
    section = "libs" if package != "libpix-dev" else "libdevel"
    values = {"PACKAGE": package, "VERSION": release.version, "DEBIAN": processor.debian, "DEPENDS": depends, "SIZE": size}
    control = fill("control.in", SECTION=section, SUMMARY=SUMMARY, **values)
    doc = root / "usr/share/doc" / package
    put(doc / "copyright", read("LICENSE"))
    # Packages for two processors may stand side by side, so what differs between them has another name.
    put(doc / f"PROVENANCE.{processor.debian}", provenance(release, root))
    sums = [call("md5sum", path.relative_to(root), cwd=root) for path in files_below(root)]
    put(root / "DEBIAN/control", control)
    put(root / "DEBIAN/md5sums", "".join(sums))
    if package != "libpix-dev":
        put(root / "DEBIAN/triggers", "activate-noawait ldconfig\n")
        put(root / "DEBIAN/shlibs", f"libpix {release.calls} {package} (>= {release.version})\n")


def debian(release, processor):
    """Makes Debian's packages: one by which programs run, and one by which they are compiled."""
    runs = f"libpix{release.calls}"
    for package, depends in [(runs, "libc6 (>= 2.17)"), ("libpix-dev", f"{runs} (= {release.version})")]:
        root = release.dist / f"{package}_{release.version}_{processor.debian}"
        lib = root / "usr/lib" / processor.triple
        lib.mkdir(parents=True)
        if package == runs:
            put_library(release, processor, lib)
        else:
            put_for_compilers(release, processor, lib, "../../include")
            put_documents(root / "usr/share/doc/libpix-dev", DOCUMENTS)
        debian_files(release, processor, root, package, depends)
        for path in [root, *root.rglob("*")]:
            if path.is_dir():
                path.chmod(0o755)
            os.utime(path, (release.epoch, release.epoch), follow_symlinks=False)
        words = ["dpkg-deb", "--build", "--root-owner-group", "-Zgzip", "-z9", root, f"{root}.deb"]
        call(*words, env=environment(release))
        shutil.rmtree(root)
