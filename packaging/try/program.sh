# The program pixpaint: a part of tools/try-release.
# shellcheck shell=bash disable=SC2154

# Each example's picture, by the program of a processor: the command before it runs it.
examples() {
    local root=$work/pixpaint-$1 script status wanted
    shift
    mkdir -p "$root" && tar xzf "$dist/$(basename "$root" | sed "s/pixpaint-/pixpaint-$version-/")-linux-gnu.tar.gz" -C "$root" --strip-components=1 || return
    (cd "$root" && sha256sum -c --quiet PROVENANCE) || return
    for script in "$root"/examples/*.paint; do
        wanted=${script%.paint}.txt
        status=0
        "$@" "$root/pixpaint" <"$script" >"$work/painted" 2>"$work/report" || status=$?
        if head -c 5 "$wanted" | grep -q '^line '; then
            [ "$status" -eq 1 ] && [ ! -s "$work/painted" ] && cmp "$work/report" "$wanted" || return
        else
            [ "$status" -eq 0 ] && [ ! -s "$work/report" ] && cmp "$work/painted" "$wanted" || return
        fi
    done
    echo image 1 1 | "$@" "$root/pixpaint" >/dev/full 2>"$work/report"
    [ $? -eq 3 ] && grep -qx 'write failed' "$work/report"
}

# The pages of manual have no warning of the formatter, and name what they are of. man finds them where the program's folder is on the path.
manual() {
    local page said
    for page in pixpaint pix-picture; do
        said=$(groff -man -Tascii -ww -P-cbou "$work/pixpaint-x86_64/share/man/man1/$page.1" 2>"$work/warnings") || return
        echo "$said" && cat "$work/warnings" && [ ! -s "$work/warnings" ] || return
        grep -q "^ *$page - " <<<"$said" && grep -qF "pix $version" <<<"$said" && ! grep -F '@' <<<"$said" || return
    done
    ! command -v man >/dev/null || PATH=$work/pixpaint-x86_64:$PATH MANPATH='' man -w pix-picture | grep -F "$work/pixpaint-x86_64/share/man/man1/pix-picture.1"
}

# The line by which a picture is made, as the page of manual has it, beside the picture of a clone; what is refused leaves no file.
pictures() {
    local root=$work/pixpaint-x86_64
    cd "$root" && PATH=$root:$PATH sh -ec 'pixpaint < examples/operators.paint | pix-picture operators.png 4' && cmp operators.png "$top/pictures/operators.png" || return
    refuses 'no picture came in: the input is empty' sh -c './pix-picture refused.png </dev/null' \
        && refuses "'clear' in line 1 is no pixel" sh -c 'echo clear | ./pix-picture refused.png' \
        && refuses 'it takes the name of a PNG file' sh -c './pix-picture </dev/null' && [ ! -e refused.png ] && ./pix-picture --help </dev/null | grep -F 'Nothing of this is proved'
}

if [ ! -f "$dist/pixpaint-$version-x86_64-linux-gnu.tar.gz" ]; then
    lacks 'the program in this release, which is a stand-in' 'pixpaint'
    ran+=('docs/INSTALL.md pixpaint' 'docs/INSTALL.md pix-picture')
else
    try_lines docs/INSTALL.md pixpaint printed '40806080 00000000'
    try_lines docs/INSTALL.md pix-picture cmp operators.png "$top/pictures/operators.png"
    if step 'x86-64: pixpaint paints its examples' examples x86_64 env; then
        step 'x86-64: pix-picture makes a picture of them, and says what is no picture' pictures
        have 'the pages of manual' groff && step 'the pages of manual of pixpaint and pix-picture' manual
    fi
    have 'pixpaint for aarch64' qemu-aarch64 && step 'aarch64: pixpaint paints its examples' examples aarch64 qemu-aarch64 -L /usr/aarch64-linux-gnu
fi
