# Windows on wine: a part of tools/systems.
# shellcheck shell=bash disable=SC2154

wine=$(command -v wine64 || command -v wine64-stable || { [ -x /usr/lib/wine/wine64 ] && echo /usr/lib/wine/wine64; })
export WINEPREFIX=$work/wine WINEDEBUG=-all WINEDLLOVERRIDES='mscoree,mshtml='
wineserver=$(dirname "${wine:-/}")/wineserver
# Without a locale of UTF-8, wine opens no path with an umlaut.
if [ -n "$wine" ]; then
    printf '#!/bin/sh\nLC_ALL=C.UTF-8 exec "%s" "$@"\n' "$wine" >"$work/wine64" && chmod +x "$work/wine64" && wine=$work/wine64
fi
mingw=x86_64-w64-mingw32

# What CMake builds by a preset, in a folder whose name has a space and an umlaut.
by_preset() {
    cmake --preset "$1" -S "$top" -B "$place/$1" && cmake --build "$place/$1"
}

# A program of bindings/c over the static library, by gcc and run by wine.
runs() {
    local name=$1
    shift
    "$mingw-gcc" -std=c99 -O2 -Wall -Wextra -Wpedantic -Werror -I "$top/bindings/c" "$top/bindings/c/$name.c" "$place/mingw/libpix.a" -pthread -static -o "$place/$name.exe" \
        && "$wine" "$place/$name.exe" "$@"
}

# The fuzzer prints just what its build for Linux prints, with the sum of all bytes.
fuzzed() {
    cc -std=c99 -O2 -I "$top/bindings/c" "$top/bindings/c/fuzz.c" "$top/generated/pix-x86_64.s" -lm -o "$work/fuzz" && "$work/fuzz" 20000 | tee "$work/linux" \
        && runs fuzz 20000 | tr -d '\r' | tee "$work/windows" && grep -q 'sum ' "$work/linux" && cmp "$work/linux" "$work/windows"
}

# The library for x86-64-v3, where the machine has that.
wide() {
    local name
    for name in worked refusals converted; do
        "$mingw-gcc" -std=c99 -O2 -I "$top/bindings/c" "$top/bindings/c/$name.c" "$top/generated/pix-x86_64-windows-v3.s" -static -o "$work/wide.exe" && "$wine" "$work/wide.exe" || return
    done
}

# The calls that others see of a pix.dll are those of the header, and it asks for no library but those that each Windows has.
shows() {
    local file=$1
    "$mingw-objdump" -p "$file" | awk '/\[Ordinal\/Name Pointer\] Table/ { on = 1; next } on && $NF ~ /^pix_/ { print $NF }' | sort >"$work/shown"
    "$mingw-objdump" -p "$file" | sed -n 's/.*DLL Name: //p' | sort | tee "$work/asked"
    calls | cmp - "$work/shown" && ! grep -vixE 'kernel32.dll|msvcrt.dll|ucrtbase.dll|api-ms-win-.*' "$work/asked"
}

# The demo over the shared library, beside which it stands: its picture is that of the build for Linux.
shared() {
    cc -std=c99 -O2 -I "$top/bindings/c" "$top/bindings/c/demo.c" "$top/generated/pix-x86_64.s" -lm -o "$work/demo" && "$work/demo" "$work/linux.ppm" || return
    cd "$place/mingw" && "$wine" ./try-shared.exe windows.ppm && cmp "$work/linux.ppm" windows.ppm
}

# pixpaint with the cases of a shell.
cases() {
    printf '#!/bin/sh\nexec "%s" "%s"\n' "$wine" "$place/mingw/pixpaint.exe" >"$work/pixpaint" && chmod +x "$work/pixpaint" && "$top/tools/program" --emulated "$work/pixpaint"
}

# The program on a processor that lacks what it needs: a sentence and a status. The answer of the processor is another one here, as the program asks kit.c for it.
narrow() {
    sed 's/__get_cpuid(number == 0/0 \&\& &/' "$top/packaging/kit.c" >"$work/narrow.c" && ! cmp -s "$work/narrow.c" "$top/packaging/kit.c" \
        && "$mingw-gcc" -O2 "$top/generated/pixpaint-x86_64-windows.s" "$work/narrow.c" -static -o "$work/narrow.exe" || return
    "$wine" "$work/narrow.exe" 2>"$work/said"
    [ $? -eq 127 ] && cat "$work/said" && grep -q 'lacks a feature of x86-64-v2' "$work/said"
}

# Rust's build script, which makes the archive for both of Rust's targets under Windows: each has the calls, and MSVC's asks for stack by the name of MSVC.
rust_script() {
    local target archive at=$top/bindings/rust/pix-sys
    rustc --edition 2024 -D warnings "$at/build.rs" -o "$work/build-script" || return
    for target in x86_64-pc-windows-gnu:libpix_c.a x86_64-pc-windows-msvc:pix_c.lib; do
        archive=$work/${target%:*}/${target#*:}
        mkdir "$work/${target%:*}" && env -u CC -u AR CARGO_CFG_TARGET_ENV="$(expr "$target" : '.*-windows-\([a-z]*\):')" OUT_DIR="$work/${target%:*}" CARGO_MANIFEST_DIR="$at" \
            HOST=x86_64-unknown-linux-gnu TARGET="${target%:*}" "$work/build-script" >"$work/said" || return
        cat "$work/said" && ! grep -F cargo::error "$work/said" && "$mingw-nm" "$archive" | grep ' T pix_layout$' && "$mingw-nm" -u "$archive" >"$work/asked" || return
        case $target in *msvc*) ! grep -w ___chkstk_ms "$work/asked" ;; *) ! grep -w __chkstk "$work/asked" ;; esac || return
    done
}

# The wheel for Windows has pix.dll and its name, and the library is found beside the package.
wheel() {
    PYTHONPATH=$top/packaging python3 -B - "$place" <<'END'
import pathlib, sys, zipfile
import backend

name = backend.build_for_windows(sys.argv[1])
wheel = zipfile.ZipFile(pathlib.Path(sys.argv[1]) / name)
print(name, *wheel.namelist())
assert name.endswith("-py3-none-win_amd64.whl") and wheel.testzip() is None
assert "pix/pix.dll" in wheel.namelist() and not [each for each in wheel.namelist() if each.endswith(".so")]
wheel.extract("pix/pix.dll", sys.argv[1])
END
    shows "$place/pix/pix.dll"
}

if [ -z "$wine" ]; then
    echo 'skip    Windows, for want of wine64'
elif have Windows "$mingw-gcc" cmake ninja cc python3; then
    # A server that stays: one that ends with its last program may end just as the next one asks it.
    mkdir -p "$WINEPREFIX"
    [ ! -x "$wineserver" ] || "$wineserver" -p
    step 'Windows: wine starts' "$wine" wineboot -i
    if step 'Windows: CMake by gcc, in a path with spaces and an umlaut' by_preset mingw; then
        step 'Windows: pix.dll shows the documented calls alone' shows "$place/mingw/pix.dll"
        step 'Windows: the demo over pix.dll paints the picture of Linux' shared
        for name in refusals borders fields worked converted bitmaps table rgba joins empty lists tiles threads; do
            step "Windows: $name" runs "$name"
        done
        step 'Windows: 20,000 random lists, with the bytes of the build for Linux' fuzzed
        step 'Windows: each call over the stack that it needs' runs stack
        are_of_these 'Windows: pixpaint as a shell runs it' && step 'Windows: pixpaint as a shell runs it' cases
        step 'Windows: pixpaint on a processor that lacks what it needs' narrow
        step 'Windows: the wheel' wheel
        have "Windows: Rust's build script" rustc clang llvm-ar && step "Windows: Rust's build script" rust_script
    fi
    if [ -f "$top/generated/pix-x86_64-windows-v3.s" ] && grep -qw avx2 /proc/cpuinfo && grep -qw bmi2 /proc/cpuinfo; then
        step 'Windows: the library for x86-64-v3' wide
    fi
    have 'Windows: CMake by clang' clang && step 'Windows: CMake by clang' by_preset mingw-clang \
        && step 'Windows: its pix.dll shows the documented calls alone' shows "$place/mingw-clang/pix.dll"
    [ ! -x "$wineserver" ] || "$wineserver" -k 2>/dev/null
fi
