# macOS, where nothing of it runs: a part of tools/systems.
# shellcheck shell=bash disable=SC2154

target=arm64-apple-macos11
# Debian's lld has a name of its version alone for this linker.
linker=$(command -v ld64.lld || compgen -c ld64.lld- | sort -V | tail -n 1)

assembles() {
    clang --target=$target -c "$top/generated/pix-arm64-macos.s" -o "$work/macos.o" \
        && clang --target=aarch64-unknown-linux-gnu -c "$top/generated/pix-aarch64.s" -o "$work/linux.o"
}

# The functions of both, in order, one by one. Those for which Linux takes registers that macOS keeps were compared when the file was made, without them.
compares() {
    PYTHONPATH=$top/packaging python3 -B - "$work/linux.o" "$work/macos.o" "$top/generated/pix-arm64-macos.s" <<'END'
import pathlib, re, sys
import arm64

found = list(arm64.compare("llvm-objdump", *sys.argv[1:3], arm64.is_without))
same, other, left = ([name for name, why in found if is_such(why)] for is_such in (lambda why: why == "", bool, lambda why: why is None))
said = re.search(r"^ \* compared: (\d+) of (\d+) functions", pathlib.Path(sys.argv[3]).open().read(2000), re.M)
print(f"{len(found)} functions: {len(same)} are the same, and {len(other)} are otherwise scheduled where Linux has two more registers; {len(left)} have those")
for name, why in found:
    if why:
        print(f"{name} {why}")
assert said and int(said[2]) == len(found) and 10 * (len(found) - int(said[1])) <= 3 * len(found), "the head does not say that the functions were compared"
assert not any("stands where" in why or why.startswith("there are") for _, why in found if why) and 10 * len(other) <= len(found)
END
}

# A dylib of the calls of the header, by stubs of what it asks the system for.
links() {
    printf '%s\n' '--- !tapi-tbd' 'tbd-version: 4' 'targets: [ arm64-macos ]' "install-name: '/usr/lib/libSystem.B.dylib'" 'exports:' '  - targets: [ arm64-macos ]' \
        '    symbols: [ _memset, _memcpy, _memmove, _bzero, dyld_stub_binder ]' '...' >"$work/libSystem.tbd"
    calls | sed 's/^/_/' >"$work/exports"
    "$linker" -arch arm64 -platform_version macos 11.0 11.0 -dylib -install_name @rpath/libpix.4.dylib -exported_symbols_list "$work/exports" \
        "$work/macos.o" "$work/libSystem.tbd" -o "$work/libpix.dylib" && llvm-nm --extern-only --defined-only "$work/libpix.dylib" | awk '{ print substr($NF, 2) }' | sort >"$work/shown" \
        && calls | cmp - "$work/shown"
}

# It asks for nothing but these four functions.
asks() {
    llvm-nm --undefined-only "$work/macos.o" | awk '{ print $NF }' | sort -u | tee "$work/asked"
    ! grep -vxE '_(memset|memcpy|memmove|bzero)' "$work/asked"
}

# The header, with the headers of the compiler and stubs of those of the C library.
header() {
    mkdir -p "$work/include" && printf '%s\n' 'void *memcpy(void *, const void *, __SIZE_TYPE__);' 'void *memset(void *, int, __SIZE_TYPE__);' 'int memcmp(const void *, const void *, __SIZE_TYPE__);' >"$work/include/string.h" \
        && printf '#include "pix.h"\nuint32_t version(void) { return pix_check_library(); }\n' >"$work/header.c" \
        && clang --target=$target -ffreestanding -nostdlibinc -std=c11 -Wall -Wextra -Werror -isystem "$work/include" -I "$top/bindings/c" -c "$work/header.c" -o "$work/header.o"
}

if have macOS clang llvm-objdump llvm-nm "${linker:-ld64.lld}" python3; then
    if step 'macOS: clang assembles the library' assembles; then
        step 'macOS: its functions are those of aarch64 under Linux' compares
        step 'macOS: it calls memset, memcpy, memmove and bzero alone' asks
        step 'macOS: ld64.lld links a dylib, which shows the documented calls alone' links
    fi
    step 'macOS: clang compiles the header' header
fi
