# Linux with musl: a part of tools/systems.
# shellcheck shell=bash disable=SC2154

over_musl() {
    local name=$1
    shift
    musl-gcc -std=c99 -O2 -I "$top/bindings/c" "$top/bindings/c/$name.c" "$top/generated/pix-$(uname -m).s" -static -lm -pthread -o "$work/$name-musl" && "$work/$name-musl" "$@"
}

# The shared library as it is packed, which names no C library, under a program that is linked with musl's.
musl_shared() {
    PYTHONPATH=$top/packaging python3 -B - "$top" "$work" <<'END' || return
import pathlib, sys, types
import common, musl

top, work = map(pathlib.Path, sys.argv[1:])
release = types.SimpleNamespace(calls=common.version_of_calls(), epoch=0)
musl.link(release, ["gcc"], [top / f"generated/pix-{__import__('platform').machine()}.s"], work / f"shared-musl/libpix.so.{release.calls}")
END
    cd "$work/shared-musl" && ! readelf -d libpix.so.* | grep NEEDED && ln -s libpix.so.* libpix.so \
        && musl-gcc -std=c99 -O2 -I "$top/bindings/c" "$top/bindings/c/demo.c" -L. -lpix -lm -o demo && LD_LIBRARY_PATH=. ./demo musl.ppm && [ -s musl.ppm ]
}

musl_program() {
    musl-gcc -O2 -static "$top/generated/pixpaint-$(uname -m).s" "$top/packaging/kit.c" -o "$work/pixpaint-musl" && "$top/tools/program" "$work/pixpaint-musl"
}

musl_narrow() {
    qemu-x86_64 -cpu core2duo,-sse4.1 "$work/pixpaint-musl" 2>"$work/said"
    [ $? -eq 127 ] && cat "$work/said" && grep -q 'lacks a feature of x86-64-v2' "$work/said"
}

musl_cmake() {
    CC=musl-gcc cmake -S "$top" -B "$place/musl" && cmake --build "$place/musl" && (cd "$place/musl" && ctest) && [ -x "$place/musl/pixpaint" ]
}

if have musl musl-gcc python3; then
    for name in refusals borders worked converted; do
        step "musl: $name" over_musl "$name"
    done
    step 'musl: 2,000 random lists' over_musl fuzz 2000
    step 'musl: each call in a thread of the stack that it needs' over_musl stack
    have 'musl: the shared library as it is packed' gcc readelf && step 'musl: the shared library as it is packed' musl_shared
    if are_of_these 'musl: pixpaint as a shell runs it' && step 'musl: pixpaint as a shell runs it' musl_program && [ "$(uname -m)" = x86_64 ]; then
        have 'musl: pixpaint on a processor that lacks what it needs' qemu-x86_64 && step 'musl: pixpaint on a processor that lacks what it needs' musl_narrow
    fi
    have 'musl: CMake' cmake ctest && step 'musl: CMake' musl_cmake
fi
