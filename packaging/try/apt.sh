# Debian's packages: a part of tools/try-release.
# shellcheck shell=bash disable=SC2016,SC2154

# Runs a script as root in a layer over this system, without a network, in a folder there that has the files of another one; nothing of this system is
# changed. What the script leaves in its folder is copied to a folder of ours.
in_layer() {
    local folder=$1 script=$2 left=$3
    unshare --mount --net bash -ec '
        mkdir -p "$1/layer" "$4" && mount -t tmpfs tmpfs "$1/layer" && mkdir "$1/layer/upper" "$1/layer/work" "$1/layer/root"
        mount -t overlay overlay -o "lowerdir=/,upperdir=$1/layer/upper,workdir=$1/layer/work" "$1/layer/root"
        for at in proc dev; do mount --rbind "/$at" "$1/layer/root/$at"; done
        mkdir "$1/layer/root/release" && cp -r "$2/." "$1/layer/root/release" && cp "$3" "$1/layer/root/release/script.sh"
        status=0
        chroot "$1/layer/root" sh -c "cd /release && DEBIAN_FRONTEND=noninteractive sh -ex script.sh" 2>&1 || status=$?
        cp -r "$1/layer/root/release/." "$4" && exit "$status"
    ' in-layer "$work" "$folder" "$script" "$left"
}

has_layers() {
    mkdir -p "$work/nothing" && echo 'apt-get --version' >"$work/nothing.sh" && in_layer "$work/nothing" "$work/nothing.sh" "$work/nothing-left" >/dev/null 2>&1
}

# The lines of a page in a layer, and then what a user of the packages has: pkg-config and CMake without a path, the pictures of the demos, and the
# version that is installed.
apt_lines() {
    local folder=$work/apt-${1//\//-}
    ran+=("$1 apt")
    mkdir "$folder" && cp "$dist"/* "$work/program/first.c" "$work/src/refusals.c" "$folder" && cp "$work/src/demo.c" "$folder/painting.c" || return
    lines_of "$1" apt >"$folder/lines.sh" && [ -s "$folder/lines.sh" ] || return
    { echo "calls=$calls" && cat "$folder/lines.sh" -; } >"$folder/script.sh" <<'END'
cc -O2 painting.c -lpix -o painting && ./painting picture.ppm
cc -O2 -DPIX_STATIC refusals.c -lpix -o refusals && ./refusals
dpkg --verify libpix$calls libpix-dev && dpkg -s libpix$calls libpix-dev | grep '^Version' | sort -u >version
(cd / && sha256sum -c --quiet usr/share/doc/libpix$calls/PROVENANCE.amd64 usr/share/doc/libpix-dev/PROVENANCE.amd64)
ldconfig -p | grep "libpix.so.$calls "
apt-get install ./libpix${calls}_*_arm64.deb >refused 2>&1 || echo refused
apt-get remove -y libpix$calls >/dev/null && ! ldconfig -p | grep "libpix.so.$calls "
END
    in_layer "$folder" "$folder/script.sh" "$folder/left" && cp "$folder/left/picture.ppm" "$work/apt.ppm" \
        && [ "$(cat "$folder/left/version")" = "Version: $version" ] && grep 'arm64' "$folder/left/refused"
}

# The package for aarch64, unpacked as dpkg does it, by a program under qemu.
deb_aarch64() {
    local root=$work/arm64 file
    for file in "$dist"/libpix*_"$version"_arm64.deb; do
        dpkg-deb -x "$file" "$root" || return
    done
    (cd "$root" && sha256sum -c --quiet usr/share/doc/libpix$calls/PROVENANCE.arm64 usr/share/doc/libpix-dev/PROVENANCE.arm64) || return
    for file in "$dist"/libpix*_"$version"_amd64.deb; do
        dpkg-deb -x "$file" "$work/amd64" || return
    done
    # What both processors' packages have at one path is the same, so that both can be installed.
    diff -r -x 'PROVENANCE.*' "$root/usr/share" "$work/amd64/usr/share" && diff -r "$root/usr/include" "$work/amd64/usr/include" || return
    local lib=$root/usr/lib/aarch64-linux-gnu
    aarch64-linux-gnu-gcc -O2 -I "$root/usr/include" "$work/src/demo.c" -L "$lib" -lpix -o "$work/deb-aarch64" \
        && qemu-aarch64 -L /usr/aarch64-linux-gnu -E LD_LIBRARY_PATH="$lib" "$work/deb-aarch64" "$work/deb-aarch64.ppm" && same deb-aarch64
}

if have "apt's lines" apt-get dpkg cc pkg-config unshare chroot; then
    if has_layers; then
        step 'docs/INSTALL.md: apt, the demos, and another processor' apt_lines docs/INSTALL.md && step 'its picture' same apt
        [ -z "$(lines_of README.md apt)" ] || step 'README.md: apt' apt_lines README.md
    else
        lacks 'root with layers of overlayfs' "apt's lines"
        ran+=('README.md apt' 'docs/INSTALL.md apt')
    fi
fi
have "Debian's packages for aarch64" dpkg-deb aarch64-linux-gnu-gcc qemu-aarch64 && step 'aarch64: the packages for Debian, and the picture' deb_aarch64
