# The wheels: a part of tools/try-release.
# shellcheck shell=bash disable=SC2016,SC2154

# The Python of the environment that pip's lines made.
env_python=$places/lines-docs-INSTALL.md-pip/env/bin/python

# Its tests and its demo against the wheel alone.
wheel_tests() {
    cd "$work/src" && "$env_python" demo.py "$work/python.ppm" && "$env_python" -X dev -m unittest test_pix test_library \
        && "$env_python" -c 'import pix, sys; sys.exit(pix.__version__ != sys.argv[1] or "env" not in pix.__file__)' "$version"
}

# The first library is the one that this processor takes, and a processor that lacks AVX2 gets the other one, with the same picture.
wheel_chooses() {
    local chosen wide
    chosen=$("$env_python" -c 'from pix import _library as it; print(it.path_of_library(it.flags()))') && echo "$chosen" || return
    wide=$(grep -qw avx2 /proc/cpuinfo && echo -v3)
    [ "$(basename "$chosen")" = "libpix_c$wide.so" ] && on_processor x86_64 'fpu sse4_1' '
from pix import _library
assert _library.path_of_library(_library.flags()).endswith("/libpix_c.so")
sys.argv[1:] = [sys.argv[1] + "/narrow.ppm"]
runpy.run_path("demo.py", run_name="__main__")' && same narrow
}

# Runs Python's code as if the system told of another processor: its kind and its instructions.
on_processor() {
    cd "$work/src" && "$env_python" -c '
import builtins, io, platform, runpy, sys
real, kind, flags = builtins.open, sys.argv[2], sys.argv[3]
builtins.open = lambda file, *more, **named: io.StringIO("flags : " + flags) if file == "/proc/cpuinfo" else real(file, *more, **named)
platform.machine = lambda: kind
'"$3" "$work" "$1" "$2"
}

other_processors() {
    refuses 'needs a processor with SSE4.1, which this one lacks' on_processor x86_64 'fpu sse2 ssse3' 'import pix' \
        && refuses 'is built for x86-64 and aarch64, and this processor is riscv64' on_processor riscv64 '' 'import pix'
}

# The wheel for aarch64 is refused by pip here, and where it is put by force, an import says why.
wheel_for_another() {
    local wheel
    wheel=$(echo "$dist"/*manylinux*aarch64.whl)
    refuses 'is not a supported wheel on this platform' "$env_python" -m pip install --no-index --force-reinstall "$wheel" || return
    "$env_python" -m zipfile -e "$wheel" "$work/forced" && cd "$work/forced" \
        && refuses 'is for aarch64, and this processor is x86-64' "$env_python" -c 'import pix'
}

# A library of another version or layout, or none, in the place of the wheel's.
wheel_with_another() {
    local package
    "$env_python" -m zipfile -e "$(echo "$dist"/*manylinux*x86_64.whl)" "$work/another" || return
    package=$work/another/pix && rm "$package"/libpix_c*.so && cd "$work/another" || return
    refuses "no library at $work/another/libpix_c.so" "$env_python" -c 'import pix' || return
    cc -std=c99 -O1 -fPIC -shared -DOTHER_FACT=0 -I "$top/bindings/c" "$top/bindings/c/other.c" -o "$package/libpix_c.so" -lm \
        && refuses 'the library has another version or layout than this package' "$env_python" -c 'import pix'
}

# Each file of a wheel has the sum of its PROVENANCE.
wheel_sums() {
    local wheel folder
    for wheel in "$dist"/*.whl; do
        folder=$work/wheel-$(basename "$wheel")
        "$python" -m zipfile -e "$wheel" "$folder" && (cd "$folder" && sha256sum -c --quiet ./*.dist-info/PROVENANCE) || return
    done
}

# A Python for aarch64: Debian's packages, unpacked in a folder, with apt's own state beside it.
python_aarch64() {
    local at=$work/debian options packages=(libc6 zlib1g libexpat1 libffi8 python3-minimal libpython3-stdlib) version
    mkdir -p "$at"/{lists/partial,archives/partial,files} && : >"$at/status" && chmod 777 "$at" "$at/files" || return
    options=(-qq -o Dir::State="$at" -o Dir::State::status="$at/status" -o Dir::Cache="$at" -o APT::Architecture=arm64 -o APT::Architectures=arm64)
    apt-get "${options[@]}" update || return
    version=$(apt-cache "${options[@]}" depends python3-minimal | grep -om1 'python3\.[0-9]*') || return
    packages+=("$version-minimal" "lib$version-minimal" "lib$version-stdlib")
    (cd "$at/files" && apt-get "${options[@]}" download "${packages[@]}") || return
    find "$at/files" -name '*.deb' -exec dpkg-deb -x '{}' "$at/root" ';'
    chmod 755 "$work" && qemu-aarch64 -L "$at/root" "$at/root/usr/bin/$version" -c 'import ctypes' && echo "$at/root/usr/bin/$version" >"$at/python"
}

wheel_aarch64() {
    local run=(qemu-aarch64 -L "$work/debian/root" "$(cat "$work/debian/python")")
    "$python" -m zipfile -e "$(echo "$dist"/*manylinux*aarch64.whl)" "$work/wheel-aarch64" && cd "$work/src" || return
    export PYTHONPATH=$work/wheel-aarch64
    "${run[@]}" demo.py "$work/python-aarch64.ppm" && same python-aarch64 \
        && "${run[@]}" -m unittest test_pix.Refusals test_pix.Borders test_pix.Paintings \
        && PIX_LIBRARY=$(echo "$work"/wheel-*manylinux*x86_64.whl/pix/libpix_c.so) refuses 'is for x86-64, and this processor is aarch64' "${run[@]}" -c 'import pix'
}

if ! "$python" -c 'import venv, ensurepip' 2>/dev/null; then
    lacks "$python with venv and ensurepip, as in python3-venv" 'the wheels'
    ran+=('README.md pip' 'docs/INSTALL.md pip' 'docs/INSTALL.md which library')
elif step 'the files of the wheels have the sums of their PROVENANCE' wheel_sums && try_lines docs/INSTALL.md pip; then
    step 'Python: demo, refusals, buffers, threads against the wheel' wheel_tests && step 'its picture' same python
    step 'Python: which library is taken' wheel_chooses
    step 'Python: a processor without SSE4.1, and one of another kind' other_processors
    step 'Python: the wheel of another processor' wheel_for_another
    step 'Python: another library in the wheel, or none' wheel_with_another
    try_lines_if_there README.md pip
    ran+=('docs/INSTALL.md which library')
    lines=$(lines_of docs/INSTALL.md 'which library')
    step 'docs/INSTALL.md: which library' sh -c "cd '$places/lines-docs-INSTALL.md-pip' && $lines | grep '/env/lib/.*/pix/libpix_c.*\.so\$'"
    if have 'the wheel for aarch64' qemu-aarch64 apt-get dpkg-deb; then
        if python_aarch64 >"$work/python.log" 2>&1; then
            step 'aarch64: Python: demo and refusals against the wheel, the picture, and a library of x86-64' wheel_aarch64
        else
            tail -n 3 "$work/python.log"
            lacks "Debian's Python for aarch64, which apt-get downloads" 'the wheel for aarch64'
        fi
    fi
fi
