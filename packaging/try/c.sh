# The tarballs, for C and C++: a part of tools/try-release.
# shellcheck shell=bash disable=SC2016,SC2046,SC2054,SC2154,SC2207

# Unpacks the tarball of a processor into a clean prefix.
unpack() {
    mkdir "$work/$1" && tar xzf "$dist/pix-$version-$1-linux-gnu.tar.gz" -C "$work/$1" --strip-components=1 \
        && (cd "$work/$1" && sha256sum -c --quiet share/doc/pix/PROVENANCE)
}

# pkg-config's answer for the prefix of a processor.
pix() {
    PKG_CONFIG_PATH=$work/$1/lib/pkgconfig pkg-config "${@:2}" pix
}

# Each picture that a document of the package shows is in it. Blocks of code aside, every line with ![..](PATH) shows one.
documents() {
    local page path count=0
    cd "$work/$1/share/doc/pix" || return
    while IFS=: read -r page path; do
        count=$((count + 1))
        [ -f "$(dirname "$page")/$path" ] || { echo "$page shows $path, which is not packed"; return 1; }
    done < <(grep -rohP --include='*.md' --with-filename '!\[[^\]]*\]\(\K(?!https?:)[^)\s]+' .)
    echo "$count pictures are shown" && [ "$count" -gt 20 ]
}

# Compiles a program of src against a prefix: its name, the processor, shared or static, the source, the compiler.
compile() {
    local name=$1 processor=$2 how=$3 source=$4
    shift 4
    local link=(-Wl,-rpath-link,"$work/$processor/lib" $(pix "$processor" --libs))
    [ "$how" = shared ] || link=("$(pix "$processor" --variable=libdir)/libpix.a")
    "$@" -O2 -Wall -Wextra -Werror $(pix "$processor" --cflags) "$work/src/$source" "${link[@]}" -o "$work/$name"
}

c() {
    compile "$1" x86_64 "$2" "$3" cc -std=c99 && LD_LIBRARY_PATH=$work/x86_64/lib "$work/$1" "$work/$1.ppm"
}

c_aarch64() {
    compile "$1" aarch64 "$2" "$3" aarch64-linux-gnu-gcc -std=c99 \
        && qemu-aarch64 -L /usr/aarch64-linux-gnu -E LD_LIBRARY_PATH="$work/aarch64/lib" "$work/$1" "$work/$1.ppm"
}

cpp_by_cmake() {
    mkdir "$work/cmake" && cp "$work/src/demo.cpp" "$work/cmake" && cat >"$work/cmake/CMakeLists.txt" <<END
cmake_minimum_required(VERSION 3.13)
project(demo CXX)
find_package(pix ${version%.*} REQUIRED)
foreach(kind "" "_static")
  add_executable(demo\${kind} demo.cpp)
  target_link_libraries(demo\${kind} pix::pix\${kind})
endforeach()
END
    cd "$work/cmake" && cmake -S . -B build -DCMAKE_PREFIX_PATH="$work/x86_64" && cmake --build build \
        && build/demo "$work/cpp-shared.ppm" && build/demo_static "$work/cpp-static.ppm"
}

# The shared libraries of a processor show just the calls that the installed header declares, under the version of the calls, and ask for no glibc
# after 2.17.
shows() {
    local file wanted needed
    wanted=$(grep -oP '^(?!static|typedef)[a-z][\w *]*?\bpix_\w+(?=\()' "$work/$1/include/pix.h" | sed "s/.* //; s/$/@@PIX_$calls/" | sort)
    [ -n "$wanted" ] || return
    while read -r file; do
        [ "$(nm -D --defined-only "$file" | awk '$2 != "A" { print $3 }' | sort)" = "$wanted" ] || { nm -D "$file"; return 1; }
        "$2"readelf -d "$file" | grep -F "soname: [libpix.so.$calls]" || return
        needed=$("$2"readelf -V "$file" | grep -o 'GLIBC_[0-9.]*' | sort -Vu | tail -n 1)
        [ "$(printf '%s\nGLIBC_2.17\n' "$needed" | sort -V | tail -n 1)" = GLIBC_2.17 ] || [ -n "$stand_in" ] || { echo "$file needs $needed"; return 1; }
    done < <(find "$work/$1/lib" -name 'libpix.so.*' -type f)
}

# The loader takes the library for x86-64-v3 on this processor.
takes_wide() {
    LD_DEBUG=libs LD_LIBRARY_PATH=$work/x86_64/lib "$work/c-shared" /dev/null 2>&1 | grep 'init: .*/glibc-hwcaps/x86-64-v3/libpix.so'
}

# On a processor without it, it takes the other one, and the picture is the same.
takes_narrow() {
    local told
    told=$(qemu-x86_64 -cpu Nehalem -E LD_DEBUG=libs -E LD_LIBRARY_PATH="$work/x86_64/lib" "$work/c-shared" "$work/c-narrow.ppm" 2>&1) || return
    grep "init: $work/x86_64/lib/libpix.so" <<<"$told" && same c-narrow
}

# A program that asks pix_check_library takes the library, and refuses one of another version or layout of the same soname.
another_library() {
    mkdir "$work/other" && echo '#include "pix.h"
int main(void) { return pix_check_library() == PIX_OK ? 0 : pix_check_library() == PIX_BAD_LIBRARY ? 7 : 1; }' >"$work/src/check.c"
    compile check x86_64 shared check.c cc -std=c99 && LD_LIBRARY_PATH=$work/x86_64/lib "$work/check" || return
    local options=(-std=c99 -O1 -fPIC -shared -I "$work/x86_64/include" -I "$top/bindings/c" "-Wl,-soname,libpix.so.$calls")
    cc "${options[@]}" "$top/bindings/c/other.c" -o "$work/other/libpix.so.$calls" -lm && LD_LIBRARY_PATH=$work/other "$work/check" || return
    cc "${options[@]}" -DOTHER_FACT=0 "$top/bindings/c/other.c" -o "$work/other/libpix.so.$calls" -lm || return
    LD_LIBRARY_PATH=$work/other "$work/check"
    [ $? -eq 7 ]
}

# A library of other calls has another soname, and isn't loaded in the place of this one.
another_soname() {
    mkdir -p "$work/later" && cp "$work/x86_64/lib/libpix.so.$calls" "$work/later/libpix.so.$((calls + 1))" \
        && refuses "libpix.so.$calls: cannot open shared object file" env LD_LIBRARY_PATH="$work/later" "$work/check"
}

another_version() {
    printf 'cmake_minimum_required(VERSION 3.13)\nproject(demo C)\nfind_package(pix ${WANTED} REQUIRED)\n' >"$work/other/CMakeLists.txt"
    local wanted
    for wanted in 0.1 "${version%.*}.99" 9.0; do
        refuses "version: $version" cmake -S "$work/other" -B "$work/other/build-$wanted" -DCMAKE_PREFIX_PATH="$work/x86_64" -DWANTED="$wanted" || return
    done
    PKG_CONFIG_PATH=$work/x86_64/lib/pkgconfig refuses 'pix >= 9' pkg-config --print-errors --exists 'pix >= 9'
}

another_processor() {
    local options=(-DCMAKE_SYSTEM_NAME=Linux -DCMAKE_SYSTEM_PROCESSOR=aarch64 -DCMAKE_C_COMPILER=aarch64-linux-gnu-gcc -DWANTED="${version%.*}")
    refuses '(for x86_64 under Linux, and not for aarch64' cmake -S "$work/other" -B "$work/other/cross" "${options[@]}" -DCMAKE_PREFIX_PATH="$work/x86_64" \
        && cmake -S "$work/other" -B "$work/other/right" "${options[@]}" -DCMAKE_PREFIX_PATH="$work/aarch64"
}

try_lines docs/INSTALL.md sums
if have 'the tarball for x86-64' cc pkg-config nm readelf && step 'x86-64: the tarball has the files of its PROVENANCE' unpack x86_64; then
    step 'the documents: each picture that they show is packed' documents x86_64
    step 'x86-64: C, static: demo' c c-static static demo.c
    step 'x86-64: C, static: refusals' c refusals-static static refusals.c
    step 'x86-64: C, shared: demo' c c-shared shared demo.c && step 'its picture' same c-shared
    step 'x86-64: C, shared: refusals' c refusals-shared shared refusals.c
    step 'x86-64: the shared libraries show the documented calls alone' shows x86_64 ''
    if /lib64/ld-linux-x86-64.so.2 --help 2>/dev/null | grep -q 'x86-64-v3 (supported'; then
        step 'x86-64-v3: the loader takes its library, by which the picture above was painted' takes_wide
    else
        lacks 'a processor of x86-64-v3 with glibc 2.33' 'the library that its loader takes'
    fi
    have 'a processor without x86-64-v3' qemu-x86_64 && step 'x86-64-v2: the loader takes the other one, and its picture' takes_narrow
    step 'another library is refused by pix_check_library' another_library
    step 'a library of another soname is not loaded' another_soname
    try_lines docs/INSTALL.md pkg-config printed 'first.ppm: done'
    try_lines docs/INSTALL.md provenance
fi
if have 'CMake' cmake c++; then
    step 'x86-64: C++ by CMake, shared and static: demo' cpp_by_cmake && step 'its picture' same cpp-shared && step 'its picture, static' same cpp-static
    try_lines_if_there README.md CMake printed 'first.ppm: done'
    try_lines docs/INSTALL.md CMake printed 'first.ppm: done'
    step 'another version is refused by CMake and pkg-config' another_version
    have 'another processor under CMake' aarch64-linux-gnu-gcc && step 'aarch64: the tarball has the files of its PROVENANCE' unpack aarch64 \
        && step 'another processor is refused by CMake' another_processor
fi
if have 'the tarball for aarch64' aarch64-linux-gnu-gcc qemu-aarch64 \
    && { [ -d "$work/aarch64" ] || step 'aarch64: the tarball has the files of its PROVENANCE' unpack aarch64; }; then
    step 'aarch64: C, static: demo' c_aarch64 aarch64-static static demo.c && step 'its picture' same aarch64-static
    step 'aarch64: C, static: refusals' c_aarch64 aarch64-refusals static refusals.c
    step 'aarch64: C, shared: demo' c_aarch64 aarch64-shared shared demo.c && step 'its picture' same aarch64-shared
    step 'aarch64: C, shared: refusals' c_aarch64 aarch64-refusals-shared shared refusals.c
    step 'aarch64: the shared library shows the documented calls alone' shows aarch64 aarch64-linux-gnu-
    try_lines docs/INSTALL.md 'another processor' printed 'first.ppm: done'
fi
