"""Makes the Rust crates as cargo package does, with the archives inside."""

import shutil
import tempfile
from pathlib import Path

from common import PROCESSORS, TOP, call, copy, environment, provenance, put


def crates(release):
    """Makes pix-proved-sys, which has an archive for each processor, and pix-proved."""
    with tempfile.TemporaryDirectory() as name:
        folder = Path(name) / "rust"
        shutil.copytree(TOP / "bindings/rust", folder, ignore=shutil.ignore_patterns("target"))
        for processor in PROCESSORS:
            home = folder / "pix-sys/lib" / f"{processor.name}-unknown-linux-gnu"
            copy(release.built / processor.archive / "libpix_c.a", home / "libpix_c.a")
        for crate in ("pix-sys", "pix"):
            copy(TOP / "LICENSE", folder / crate / "LICENSE")
            copy(TOP / "bindings/README.md", folder / crate / "README.md")
            # cargo package writes a Cargo.toml of its own, and keeps this one beside it.
            said = provenance(release, folder / crate)
            put(folder / crate / "PROVENANCE", said.replace("  Cargo.toml\n", "  Cargo.toml.orig\n"))
        environ = {**environment(release), "CARGO_TARGET_DIR": str(Path(name) / "target")}
        environ.pop("PIX_LIB_DIR", None)
        call("cargo", "package", "--offline", "--locked", "--allow-dirty", "--no-verify", "--workspace", cwd=folder, env=environ)
        for path in sorted((Path(name) / "target/package").glob("*.crate")):
            copy(path, release.dist / path.name)
