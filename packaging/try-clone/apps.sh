# The programs of apps/ over what CMake installed, in a path with spaces and an umlaut: a part of tools/try-clone.
# shellcheck shell=bash disable=SC2016,SC2154

# They are built by `make -C apps` of a clone there, find the library where it is installed, and draw.
apps_over_prefix() {
    local at="$places/a clone of apps" prefix=$places/docs-INSTALL.md-find_package/prefix name
    git clone -q --depth 1 "$PIX" "$at" && export PKG_CONFIG_PATH=$prefix/lib/pkgconfig && make -C "$at/apps" && unset PKG_CONFIG_PATH || return
    for name in viewer sprites text; do
        "$at/apps/out/$name" --help | grep "^usage: $name" && ldd "$at/apps/out/$name" | grep "libpix.so.* => $prefix/" || return
    done
    SDL_VIDEODRIVER=dummy "$at/apps/out/sprites" --frames 1 --count 9 --size 90x60 --save "$at/a picture.png" "$at/apps/pictures/atlas.png" && [ -s "$at/a picture.png" ]
}

# A folder with a space in its name from there is refused by a sentence.
apps_elsewhere() {
    refuses 2 'make builds into no folder with a space in its name' make -C "$places/a clone of apps/apps" 'OUT=a b'
}

if [ ! -d "$places/docs-INSTALL.md-find_package/prefix" ]; then
    lacks 'the prefix that CMake installs' 'the programs of apps/ over it'
elif have 'the programs of apps/ over a prefix' make pkg-config c++; then
    if pkg-config --exists sdl2 libpng libjpeg freetype2 harfbuzz; then
        step 'apps: make in a path with spaces, over an installed pix' apps_over_prefix && step 'apps: OUT with a space' apps_elsewhere
    else
        lacks 'libraries that tools/apps names' 'the programs of apps/ over a prefix'
    fi
fi
