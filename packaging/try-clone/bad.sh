# What can't be, at a shell: a part of tools/try-clone.
# shellcheck shell=bash disable=SC2016,SC2154

two=examples/two-pixels.paint

# A clone of its own, as it is after git clone.
fresh() {
    if [ -d "$work/$1" ]; then
        git -C "$work/$1" reset -q --hard && git -C "$work/$1" clean -qxdf
    else
        git clone -q "$PIX" "$work/$1"
    fi
}

# ./pixpaint of a clone answers 4 and says this; the words before it change the environment.
no_program() {
    local sentence=$1 at=$2
    shift 2
    refuses 4 "$sentence" "$@" sh -c '"$1/pixpaint" <"$1/$2"' sh "$at" "$two" && [ ! -e "$at/out/pixpaint-$(uname -m)" ]
}

# A path with these commands alone.
few() {
    local name
    mkdir "$work/$1" && for name in sh env uname find sed cut readlink sha256sum sort awk xargs mkdir rm mv tr dirname grep cat; do
        ln -s "$(command -v "$name")" "$work/$1/$name" || return
    done
}

no_compiler() {
    fresh none && few few && no_program 'this machine lacks cc, a C compiler' "$work/none" env PATH="$work/few" \
        && no_program "the program can't be proved here, since this machine lacks rt" "$work/none" env PATH="$work/few"
}

# A compiler that fails, and one that stops in the midst: nothing stays that looks built.
bad_compiler() {
    fresh none && no_program "false can't build generated/pixpaint-" "$work/none" env CC=false && [ -z "$(ls "$work/none/out")" ]
}

another_processor() {
    mkdir "$work/riscv64" && printf '#!/bin/sh\necho riscv64\n' >"$work/riscv64/uname" && chmod +x "$work/riscv64/uname" && fresh none \
        && no_program 'generated/ has no program for this processor, riscv64' "$work/none" env PATH="$work/riscv64:$PATH"
}

# A compiler whose programs run on a processor without SSE4.1: an emulator that has none.
narrow_processor() {
    cat >"$work/narrow-cc" <<'END'
#!/bin/sh
out=
for word in "$@"; do
    [ "$out" = next ] && out=$word
    [ "$word" != -o ] || out=next
done
cc "$@" && mv "$out" "$out.real" && printf '#!/bin/sh\nexec qemu-x86_64 -cpu core2duo,-sse4.1 "%s.real"\n' "$out" >"$out" && chmod +x "$out"
END
    chmod +x "$work/narrow-cc" && fresh none && no_program 'it needs a processor of x86-64-v2, with SSE4.1 and SSE4.2' "$work/none" env CC="$work/narrow-cc"
}

# What was built on a system of a later glibc does not start here: it is built anew. So it goes with what was proved there.
old_glibc() {
    local it
    fresh none && mkdir -p "$work/none/out" "$work/none/crates/pixpaint/out" || return
    for it in "$work/none/out/pixpaint-$(uname -m)" "$work/none/crates/pixpaint/out/pixpaint"; do
        printf '#!/bin/sh\necho "version GLIBC_2.99 not found" >&2\nexit 1\n' >"$it" && chmod +x "$it" && paints "$work/none" env || return
    done
}

# In a clone that can't be written, the program goes into the user's cache folder; where that can't be written either, that is said.
read_only() {
    fresh only && mkdir -p "$work/cache" || return
    cat >"$work/only.sh" <<'END'
cd "$1" && ./pixpaint <examples/two-pixels.paint && ./pixpaint <examples/two-pixels.paint && [ ! -e out ] && ls "$XDG_CACHE_HOME"/pix/*/pixpaint-* || exit 1
XDG_CACHE_HOME=/proc/none ./pixpaint <examples/two-pixels.paint
[ $? -eq 4 ]
END
    if [ "$(id -u)" -eq 0 ]; then
        XDG_CACHE_HOME=$work/cache unshare --mount sh -c 'mount --bind "$1" "$1" && mount -o remount,ro,bind "$1" && sh "$2" "$1"' sh "$work/only" "$work/only.sh" 2>&1
    else
        chmod -R a-w "$work/only" && XDG_CACHE_HOME=$work/cache sh "$work/only.sh" "$work/only" 2>&1
    fi | tee "$work/only.log"
    [ "${PIPESTATUS[0]}" -eq 0 ] && [ "$(grep -c '^40806080 00000000$' "$work/only.log")" -eq 2 ] && grep -q 'nothing can be written into /proc/none/pix/' "$work/only.log"
}

spaces() {
    fresh 'a clone' && paints "$work/a clone" env && paints "$work/a clone" env && (cd "$work/a clone/docs" && paints .. env) \
        && ln -s "$work/a clone/pixpaint" "$work/a link" && [ "$("$work/a link" <"$work/a clone/$two")" = '40806080 00000000' ] \
        && (cd "$work" && cc -O2 "-Ia clone/bindings/c" program/first.c "a clone/generated/pix-$(uname -m).s" -o 'a first' && './a first' && is_first first.ppm)
}

# Sources that are changed alone, and what a note of theirs says.
stale() {
    fresh stale && paints "$work/stale" env && sleep 1 && echo '// A line.' >>"$work/stale/crates/pixpaint/src/main.rt" || return
    refuses 4 'was made of other sources than those that stand here' sh -c '"$1/pixpaint" <"$1/$2"' sh "$work/stale" "$two" \
        && refuses 1 'was made of other sources than those that stand here' "$work/stale/tools/generate" --sums
}

# A byte of each file that is another one, a file that is missing, one that the list has not, and a list that is.
touched() {
    local file
    fresh touched && cd "$work/touched" || return
    for file in generated/*.s generated/pix_c.wasm generated/built.json; do
        [ -f "$file" ] || continue
        cp "$file" "$work/whole" && "$python" - "$file" <<'END' || return
import sys

with open(sys.argv[1], "r+b") as file:
    data = file.read()
    file.seek(len(data) * 2 // 3)
    file.write(bytes([data[len(data) * 2 // 3] ^ 1]))
END
        refuses 1 "$file is not the file that generated/SHA256SUMS lists" tools/generate --sums && refuses 1 FAILED sh -c 'cd generated && sha256sum -c --quiet SHA256SUMS' || return
        cp "$work/whole" "$file" || return
    done
    echo >>bindings/js/facts.js && refuses 1 'bindings/js/facts.js was made of another' tools/generate --sums && git checkout -q bindings/js/facts.js || return
    rm "$file" && refuses 1 "$(basename "$file")" tools/generate --sums && cp "$work/whole" "$file" && touch generated/more.s \
        && refuses 1 'generated/more.s is not the file' tools/generate --sums && rm generated/more.s && echo 9.9.9 >VERSION && refuses 1 'VERSION says 9.9.9' tools/generate --sums
}

# Without the files of generated/, and without that folder, each says so in a sentence.
nothing_generated() {
    fresh bare && cd "$work/bare" && rm generated/[!R]* && no_program 'there is no assembly in generated/' "$work/bare" env && rm -r generated || return
    no_program 'there is no assembly in generated/' "$work/bare" env && refuses 2 'there is no assembly in generated/' tools/generate --sums \
        && refuses 2 'generated/' tools/try-clone --gcc && refuses 2 'generated/' ./test --built
}

# What takes the kit says so in one line, and names what does not.
without_kit() {
    local said
    fresh bare && cd "$work/bare" && refuses 2 './test --built' ./test && said=$(./test 2>&1 || true) && [ "$(wc -l <<<"$said")" -eq 1 ] \
        && refuses 4 "the program can't be proved here, since this machine lacks rt" ./pixpaint --prove && refuses 2 'MISSING rt' tools/generate
}

step 'no compiler, and no kit' no_compiler
step 'a compiler that fails' bad_compiler
step 'another processor' another_processor
step 'what was built on a later glibc is built anew' old_glibc
if [ "$(uname -m)" = x86_64 ]; then
    have 'a v1 x86-64' qemu-x86_64 && step 'a v1 x86-64' narrow_processor
fi
if [ "$(id -u)" -ne 0 ] || unshare --mount true 2>/dev/null; then
    step 'a read-only clone' read_only
else
    lacks 'leave to mount' 'a read-only clone'
fi
step 'a clone in a path with spaces, and a link to its program' spaces
step 'sources that were changed alone' stale
step 'files of generated/ that were touched' touched
step 'no generated/' nothing_generated
step './test, ./pixpaint --prove and tools/generate without the kit' without_kit
