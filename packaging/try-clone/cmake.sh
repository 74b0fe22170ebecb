# CMake, and C by the compiler alone in other ways: a part of tools/try-clone.
# shellcheck shell=bash disable=SC2016,SC2154

# CMake's lines of a name, with the CMakeLists.txt of the page that has a word.
try_cmake() {
    block cmake docs/INSTALL.md "$2" "$work/program/CMakeLists.txt" && try_lines docs/INSTALL.md "$1" "${@:3}"
    rm -f "$work/program/CMakeLists.txt"
}

# The installed library beside the one of the build: the header, both libraries, and pkg-config.
installed() {
    painted && [ "$(find prefix -name 'libpix*' -o -name pix.h -o -name pix.pc | wc -l)" -ge 5 ] \
        && cc -O2 first.c "-I$PWD/prefix/include" "$(find "$PWD/prefix" -name libpix.a)" -o first && ./first && is_first first.ppm
}

# The loader takes the build for x86-64-v3 where the processor has that, and a loader that doesn't look for it the other one.
takes_wide() {
    local at=$places/docs-INSTALL.md-FetchContent/build/first loader=/lib64/ld-linux-x86-64.so.2
    cd "$work" && LD_DEBUG=libs "$at" 2>&1 | grep 'init: .*/glibc-hwcaps/x86-64-v3/libpix.so' || return
    LD_DEBUG=libs "$loader" --glibc-hwcaps-mask none "$at" >narrow.log 2>&1
    grep 'init: .*/libpix.so' narrow.log && ! grep 'init: .*glibc-hwcaps' narrow.log && is_first first.ppm
}

# The calls that are seen of a shared library are those of the header.
shows() {
    local file wanted
    wanted=$(grep -oP '^(?!static|typedef)[a-z][\w *]*?\bpix_\w+(?=\()' "$top/bindings/c/pix.h" | sed "s/.* //" | sort)
    while read -r file; do
        [ "$(nm -D --defined-only "$file" | awk '$2 != "A" { sub(/@.*/, "", $3); print $3 }' | sort)" = "$wanted" ] || { nm -D "$file"; return 1; }
    done < <(find "$places/docs-INSTALL.md-find_package/prefix" -name 'libpix.so.*' -type f)
}

# CMake in a clone with a space in its path, that can't be written if that can be had, by the compiler that CC names.
by_compiler() {
    local at="$work/cmake $1"
    CC=$1 cmake -S "$work/a clone" -B "$at" && cmake --build "$at" && (cd "$at" && ctest)
}

# Over another C library than glibc the program is built too; it is left out where that is asked for. The library is built, and its tests run.
by_musl() {
    local at="$work/cmake musl"
    CC=musl-gcc cmake -S "$clone" -B "$at" && cmake --build "$at" && (cd "$at" && ctest) && [ -x "$at/pixpaint" ]
}

without_program() {
    local at="$work/cmake alone"
    cmake -S "$clone" -B "$at" -DPIX_PROGRAM=OFF && cmake --build "$at" && cmake --install "$at" --prefix "$at/prefix" && [ ! -e "$at/pixpaint" ] && [ -e "$at/libpix.a" ]
}

# What a preset builds for Windows.
windows_built() {
    ls pix/out/mingw/pix.dll pix/out/mingw/libpix.dll.a pix/out/mingw/libpix.a pix/out/mingw/pixpaint.exe
}

# A project that has CMake name another processor or system, no compiler, or a clone without generated/.
cmake_bad() {
    local at=$work/bad-cmake
    mkdir "$at" && printf 'int main(void) { return 0; }\n' >"$at/empty.c" || return
    refuses 1 'and not for riscv64 under Linux' cmake -S "$clone" -B "$at/riscv64" -DCMAKE_SYSTEM_NAME=Linux -DCMAKE_SYSTEM_PROCESSOR=riscv64 \
        && refuses 1 'under FreeBSD' cmake -S "$clone" -B "$at/bsd" -DCMAKE_SYSTEM_NAME=FreeBSD -DCMAKE_SYSTEM_PROCESSOR=x86_64 \
        && refuses 1 'not found in the PATH' cmake -S "$clone" -B "$at/none" -DCMAKE_C_COMPILER=no-such-cc \
        && fresh bare && rm -r "$work/bare/generated" && refuses 1 'there is no generated/pix-' cmake -S "$work/bare" -B "$at/bare"
}

# Other ways to build the first program by a compiler.
other_builds() {
    local build
    cd "$work/program" || return
    for build in "$@"; do
        echo "$build"
        # shellcheck disable=SC2086 # words
        $build "-I$clone/bindings/c" first.c "$clone/generated/pix-$(uname -m).s" -o "$work/other-first" && (cd "$work" && ./other-first && is_first first.ppm) || return
    done
}

try_lines docs/INSTALL.md C painted
step 'C: without a level, -static, -flto, -no-pie, position-independent' other_builds 'cc' 'cc -O2 -static' 'cc -O2 -flto' 'cc -O2 -no-pie' 'cc -O2 -fPIE -pie'
have 'clang' clang && step 'C: by clang' other_builds 'clang -O2' 'clang -O2 -static'
if have 'CMake' cmake ctest; then
    try_cmake FetchContent FetchContent painted
    try_cmake add_subdirectory add_subdirectory painted
    try_cmake find_package find_package installed && step 'CMake: the shared libraries show the documented calls alone' shows
    if /lib64/ld-linux-x86-64.so.2 --help 2>/dev/null | grep -q 'x86-64-v3 (supported'; then
        step 'CMake: which build the loader takes' takes_wide
    else
        lacks 'a processor of x86-64-v3 with glibc 2.33' 'which build the loader takes'
    fi
    step 'CMake: a path with spaces, by cc' by_compiler cc
    have 'CMake by clang' clang && step 'CMake: a path with spaces, by clang' by_compiler clang
    step 'CMake: without the program' without_program
    have 'CMake by musl-gcc' musl-gcc && step 'CMake: over musl' by_musl
    step 'CMake: another processor and system, no compiler, no generated/' cmake_bad
fi
if have 'Windows' cmake ctest ninja x86_64-w64-mingw32-gcc && { command -v wine64 || [ -x /usr/lib/wine/wine64 ]; } >/dev/null; then
    export WINEPREFIX=$work/wine WINEDEBUG=-all
    try_lines docs/INSTALL.md Windows windows_built
else
    ran+=('docs/INSTALL.md clone: Windows')
fi
