# What is for aarch64, from another machine, under qemu: a part of tools/try-clone.
# shellcheck shell=bash disable=SC2016,SC2154

emulated=(qemu-aarch64 -L /usr/aarch64-linux-gnu)

# Each example's picture by the program.
arm_examples() {
    local script wanted status
    aarch64-linux-gnu-gcc -O2 "$clone/generated/pixpaint-aarch64.s" "$clone/packaging/kit.c" -o "$work/pixpaint-aarch64" || return
    for script in "$clone"/examples/*.paint; do
        wanted=${script%.paint}.txt status=0
        "${emulated[@]}" "$work/pixpaint-aarch64" <"$script" >"$work/painted" 2>"$work/report" || status=$?
        if head -c 5 "$wanted" | grep -q '^line '; then
            [ "$status" -eq 1 ] && cmp "$work/report" "$wanted" || return
        else
            [ "$status" -eq 0 ] && cmp "$work/painted" "$wanted" || return
        fi
    done
}

# ./pixpaint as on such a machine: uname says so, and cc makes programs that run here under qemu.
arm_pixpaint() {
    local at=$work/as-aarch64
    mkdir "$at" && printf '#!/bin/sh\necho aarch64\n' >"$at/uname" && cat >"$at/cc" <<'END' && chmod +x "$at/uname" "$at/cc" || return
#!/bin/sh
out=
for word in "$@"; do
    [ "$out" = next ] && out=$word
    [ "$word" != -o ] || out=next
done
aarch64-linux-gnu-gcc "$@" && mv "$out" "$out.real" && printf '#!/bin/sh\nexec qemu-aarch64 -L /usr/aarch64-linux-gnu "%s.real"\n' "$out" >"$out" && chmod +x "$out"
END
    fresh none && paints "$work/none" env PATH="$at:$PATH"
}

arm_cmake() {
    cmake -S "$clone" -B "$work/cmake-aarch64" -DCMAKE_SYSTEM_NAME=Linux -DCMAKE_SYSTEM_PROCESSOR=aarch64 -DCMAKE_C_COMPILER=aarch64-linux-gnu-gcc \
        "-DCMAKE_CROSSCOMPILING_EMULATOR=$(command -v qemu-aarch64);-L;/usr/aarch64-linux-gnu" && cmake --build "$work/cmake-aarch64" \
        && (cd "$work/cmake-aarch64" && ctest --output-on-failure)
}

# The wheel that is built on such a machine: its library, which a Python of this one refuses.
arm_wheel() {
    local folder=$work/wheel-aarch64
    CC=aarch64-linux-gnu-gcc _PYTHON_HOST_PLATFORM=linux-aarch64 "$env_python" - "$clone/packaging" "$folder" <<'END' || return
import os, sys, zipfile

sys.path.insert(0, sys.argv[1])
import backend

os.makedirs(sys.argv[2])
name = backend.build_wheel(sys.argv[2])
print(name)
zipfile.ZipFile(os.path.join(sys.argv[2], name)).extractall(sys.argv[2])
sys.exit(not name.endswith("linux_aarch64.whl"))
END
    cd "$folder" && refuses 1 'is for aarch64, and this processor is x86-64' "$env_python" -c 'import pix' \
        && aarch64-linux-gnu-gcc -O2 "-I$clone/bindings/c" "$work/program/first.c" pix/libpix_c.so -o first \
        && cp pix/libpix_c.so "libpix.so.$(sed -n 's/^#define PIX_ABI_VERSION //p' "$clone/bindings/c/pix.h")" \
        && "${emulated[@]}" -E LD_LIBRARY_PATH="$folder" ./first && is_first first.ppm
}

arm_rust() {
    local target=aarch64-unknown-linux-gnu
    cd "$places/docs-INSTALL.md-cargo/first" && CARGO_TARGET_AARCH64_UNKNOWN_LINUX_GNU_LINKER=aarch64-linux-gnu-gcc cargo build --offline --target $target \
        && "${emulated[@]}" target/$target/debug/first && is_first first.ppm
}

# The build script alone, where Rust's library for the target is not there.
arm_script() {
    local script
    script=$(find "$places/docs-INSTALL.md-cargo/first/target" -path '*pix-proved-sys-*/build-script-build' | head -n 1) && mkdir "$work/arm-out" \
        && TARGET=aarch64-unknown-linux-gnu HOST=x86_64-unknown-linux-gnu OUT_DIR=$work/arm-out CARGO_MANIFEST_DIR=$clone/bindings/rust/pix-sys "$script" \
        && aarch64-linux-gnu-gcc -O2 "-I$clone/bindings/c" "$work/program/first.c" "$work/arm-out/libpix_c.a" -o "$work/arm-first" && cd "$work" && "${emulated[@]}" ./arm-first && is_first first.ppm
}

if [ "$(uname -m)" = aarch64 ]; then
    ran+=('docs/INSTALL.md clone: another processor')
elif ! have 'what is for aarch64' aarch64-linux-gnu-gcc qemu-aarch64; then
    ran+=('docs/INSTALL.md clone: another processor')
else
    try_lines docs/INSTALL.md 'another processor' painted
    step 'aarch64: the program paints its examples' arm_examples
    step 'aarch64: ./pixpaint' arm_pixpaint
    have 'CMake for aarch64' cmake ctest && step 'aarch64: CMake, and its tests' arm_cmake
    [ -z "${env_python-}" ] || [ ! -x "$env_python" ] || step 'aarch64: the library of the wheel' arm_wheel
    if [ -d "$places/docs-INSTALL.md-cargo/first/target" ]; then
        step 'aarch64: what the build script of Rust makes' arm_script
        if rustc --print target-libdir --target aarch64-unknown-linux-gnu 2>/dev/null | { read -r at && [ -d "$at" ]; }; then
            step 'aarch64: Rust' arm_rust
        else
            lacks "Rust's library for aarch64 (rustup target add aarch64-unknown-linux-gnu)" 'Rust on aarch64'
        fi
    fi
fi
