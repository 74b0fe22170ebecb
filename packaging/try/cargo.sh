# The Rust crates: a part of tools/try-release.
# shellcheck shell=bash disable=SC2016,SC2154

# cargo's lines of a page, in a new program whose code is the example of bindings/README.md, without a network and by a user who never had one: no index
# of a registry is kept. Then cargo alone does, without --offline.
cargo_lines() {
    local folder=$places/cargo-${1//\//-}
    ran+=("$1 cargo")
    cargo init --quiet --vcs none --name demo "$folder" && cp "$dist"/*.crate "$folder" && cp "$work/main.rs" "$folder/src" \
        && CARGO_HOME=$places/cargo-home run_lines "$1" cargo "$folder" \
        && (cd "$folder" && touch src/main.rs && CARGO_HOME=$places/cargo-home "${alone[@]}" cargo run)
}

# Runs cargo in the program of the lines of docs/INSTALL.md.
in_program() {
    cd "$places/cargo-docs-INSTALL.md" && CARGO_NET_OFFLINE=true "$@"
}

crate_demo() {
    cp "$top/bindings/rust/pix/examples/demo.rs" "$places/cargo-docs-INSTALL.md/src/main.rs" && in_program cargo run --quiet --release -- "$work/rust.ppm"
}

# The crates' own tests, out of the packages.
crate_tests() {
    local crate
    for crate in pix-proved-sys pix-proved; do
        (cd "$places/cargo-docs-INSTALL.md/$crate-$version" && sha256sum -c --quiet PROVENANCE) || return
    done
    cp -r "$places/cargo-docs-INSTALL.md/pix-proved-$version" "$places/tests" && cd "$places/tests" \
        && printf '\n[patch.crates-io]\npix-proved-sys = { path = "../cargo-docs-INSTALL.md/pix-proved-sys-%s" }\n[workspace]\n' "$version" >>Cargo.toml \
        && CARGO_NET_OFFLINE=true CARGO_TARGET_DIR=$places/tests/target cargo test --quiet
}

# Another archive in the place of the package's: each call says so.
crate_with_another() {
    mkdir -p "$work/other-archive" && cc -std=c99 -O1 -fPIC -DOTHER_FACT=0 -I "$top/bindings/c" -c "$top/bindings/c/other.c" -o "$work/other-archive/other.o" \
        && ar rcs "$work/other-archive/libpix_c.a" "$work/other-archive/other.o" || return
    cp "$work/main.rs" "$places/cargo-docs-INSTALL.md/src/main.rs"
    RUSTFLAGS=-lm PIX_LIB_DIR=$work/other-archive refuses 'Library' in_program cargo run --quiet --target-dir "$work/other-target"
}

# A processor without SSE4.1, by an emulator that has none.
crate_on_another() {
    in_program cargo build --quiet --target-dir "$work/narrow" && refuses 'Processor' qemu-x86_64 -cpu core2duo,-sse4.1 "$work/narrow/debug/demo"
}

# A target for which the package has no archive, and the one of aarch64, of which the build script is asked by itself.
crate_targets() {
    local said
    refuses 'there is no proved archive for riscv64gc-unknown-linux-gnu' in_program cargo check --quiet --target riscv64gc-unknown-linux-gnu || return
    said=$(cd "$work" && TARGET=aarch64-unknown-linux-gnu CARGO_MANIFEST_DIR=$places/cargo-docs-INSTALL.md/pix-proved-sys-$version \
        "$(find "$places/cargo-docs-INSTALL.md/target" -path '*pix-proved-sys-*/build-script-build' | head -n 1)") || return
    grep -F "native=$places/cargo-docs-INSTALL.md/pix-proved-sys-$version/lib/aarch64-unknown-linux-gnu" <<<"$said" || return
    tar xzOf "$dist/pix-$version-aarch64-linux-gnu.tar.gz" "pix-$version-aarch64-linux-gnu/lib/libpix.a" \
        | cmp - "$places/cargo-docs-INSTALL.md/pix-proved-sys-$version/lib/aarch64-unknown-linux-gnu/libpix_c.a"
}

crate_aarch64() {
    cp "$top/bindings/rust/pix/examples/demo.rs" "$places/cargo-docs-INSTALL.md/src/main.rs" || return
    local target=aarch64-unknown-linux-gnu
    CARGO_TARGET_AARCH64_UNKNOWN_LINUX_GNU_LINKER=aarch64-linux-gnu-gcc in_program cargo build --quiet --release --target $target \
        && qemu-aarch64 -L /usr/aarch64-linux-gnu "$places/cargo-docs-INSTALL.md/target/$target/release/demo" "$work/rust-aarch64.ppm" && same rust-aarch64
}

if ! have 'the Rust crates' cargo rustc cc; then
    ran+=('README.md cargo' 'docs/INSTALL.md cargo')
elif step 'docs/INSTALL.md: cargo' cargo_lines docs/INSTALL.md; then
    [ -z "$(lines_of README.md cargo)" ] || step 'README.md: cargo' cargo_lines README.md
    step 'Rust: the crates have the files of their PROVENANCE, and their own tests pass' crate_tests
    step 'Rust: demo' crate_demo && step 'its picture' same rust
    step 'Rust: another archive is refused' crate_with_another
    have 'a processor without SSE4.1 for Rust' qemu-x86_64 && step 'Rust: a processor without SSE4.1 is refused' crate_on_another
    step 'Rust: a target without an archive is refused, and that of aarch64 has the one of the tarball' crate_targets
    if rustc --print target-libdir --target aarch64-unknown-linux-gnu 2>/dev/null | { read -r at && [ -d "$at" ]; }; then
        have 'Rust on aarch64' aarch64-linux-gnu-gcc qemu-aarch64 && step 'aarch64: Rust: demo, and its picture' crate_aarch64
    else
        lacks "Rust's library for aarch64 (rustup target add aarch64-unknown-linux-gnu, or Debian's libstd-rust-web-dev:arm64 beside rustc-web and cargo-web)" 'the demo of Rust on aarch64'
    fi
fi
