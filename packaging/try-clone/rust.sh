# The crates of Rust: a part of tools/try-clone.
# shellcheck shell=bash disable=SC2016,SC2154

rust_painted() {
    grep -qx 'first.ppm: done' lines.log && is_first first/first.ppm
}

# Once more nothing is built, and a file of assembly that changed is assembled anew.
rust_again() {
    cd "$places/docs-INSTALL.md-cargo/first" && cargo build --offline 2>&1 | tee again.log && ! grep Compiling again.log
}

# The crates' own tests, in a clone whose path has spaces.
rust_tests() {
    cd "$work/a clone/bindings/rust" && CARGO_TARGET_DIR=$work/rust-tests cargo test --offline --locked
}

# What can't be: no compiler, one that fails, another target, no generated/.
rust_bad() {
    local at=$work/bad-rust build
    cargo new -q --vcs none "$at" && cp "$work/program/first.rs" "$at/src/main.rs" && fresh bare && (cd "$at" && cargo add -q --offline --path "$work/bare/bindings/rust/pix") || return
    build=(cargo check --offline --manifest-path "$at/Cargo.toml")
    refuses 101 "no-such-cc builds the proved code, and doesn't start" env CC=no-such-cc "${build[@]}" && refuses 101 "false can't build the proved code" env CC=false "${build[@]}" \
        && refuses 101 'there is no proved code for riscv64gc-unknown-linux-gnu' "${build[@]}" --target riscv64gc-unknown-linux-gnu \
        && rm -r "$work/bare/generated" && refuses 101 'take a commit or a tag that has it' "${build[@]}"
}

# A processor without SSE4.1, by an emulator that has none.
rust_narrow() {
    refuses 1 'Processor' qemu-x86_64 -cpu core2duo,-sse4.1 "$places/docs-INSTALL.md-cargo/first/target/debug/first"
}

if ! have 'the crates of Rust' cargo rustc ar; then
    ran+=('README.md clone: Rust' 'CALLING.md clone: Rust' 'docs/INSTALL.md clone: cargo')
    skip_tasks Rust
else
    try_lines README.md Rust rust_painted
    try_lines CALLING.md Rust task_painted
    try_tasks Rust
    step 'CALLING.md, docs/tasks: each program of Rust' "$clone/tools/calling" Rust
    if try_lines docs/INSTALL.md cargo rust_painted; then
        step 'Rust: a second build' rust_again
        step 'Rust: the tests of the crates, in a path with spaces' rust_tests
        step 'Rust: no compiler, another target, no generated/' rust_bad
        [ "$(uname -m)" != x86_64 ] || { have 'a processor without SSE4.1 for Rust' qemu-x86_64 && step 'Rust: a processor without SSE4.1' rust_narrow; }
    fi
fi
