# The program at a shell, and C and C++ by the compiler alone: a part of tools/try-clone.
# shellcheck shell=bash disable=SC2154

# The program of a clone prints two pixels, and nothing else; the words behind it change the environment.
paints() {
    local at=$1 said
    shift
    said=$("$@" "$at/pixpaint" <"$at/examples/two-pixels.paint" 2>&1)
    echo "$said"
    [ "$said" = '40806080 00000000' ]
}

# The program's first picture is right, and another one is that of the page.
shell_pictures() {
    grep -qx '40806080 00000000' lines.log && cmp pix/operators.png "$top/pictures/operators.png"
}

# A second time nothing is built: the program is there, and takes little time.
again() {
    local started=${EPOCHREALTIME/./}
    for _ in 1 2 3 4 5 6 7 8 9 10; do
        "$1/pixpaint" <"$1/examples/two-pixels.paint" >/dev/null || return
    done
    echo "ten runs took $(((${EPOCHREALTIME/./} - started) / 1000)) ms" | tee -a "$work/times"
}

# Each example's picture, by ./pixpaint of a clone; a fault has its line and its status.
examples() {
    local script wanted status
    for script in "$1"/examples/*.paint; do
        wanted=${script%.paint}.txt status=0
        "$1/pixpaint" <"$script" >"$work/painted" 2>"$work/report" || status=$?
        if head -c 5 "$wanted" | grep -q '^line '; then
            [ "$status" -eq 1 ] && [ ! -s "$work/painted" ] && cmp "$work/report" "$wanted" || return
        else
            [ "$status" -eq 0 ] && [ ! -s "$work/report" ] && cmp "$work/painted" "$wanted" || return
        fi
    done
}

# At a terminal a line says which program runs.
at_terminal() {
    "$python" - "$1/pixpaint" <<'END'
import os, pty, subprocess, sys

ours, theirs = pty.openpty()
ran = subprocess.Popen([sys.argv[1]], stdin=subprocess.DEVNULL, stdout=subprocess.DEVNULL, stderr=theirs)
ran.wait(60)
said = os.read(ours, 1000).decode()
print(said)
sys.exit("pixpaint: this is proved code, " not in said or "as cc built it here" not in said or said.count("\n") != 1)
END
}

try_lines README.md shell shell_pictures
clone=$work/clone
step 'a clone' git clone -q "$PIX" "$clone" || finish
step 'the files of generated/ are whole and of these sources' "$clone/tools/generate" --sums
step './pixpaint builds the program' paints "$clone" env
step './pixpaint once more, ten times' again "$clone" && tail -n 1 "$work/times" | sed 's/^/        /'
step './pixpaint paints its examples' examples "$clone"
step './pixpaint at a terminal says which program runs' at_terminal "$clone"
try_lines README.md C painted
try_lines README.md C++ painted
try_lines CALLING.md C task_painted
try_tasks C
step 'CALLING.md, docs/tasks: each program, as it is on the page' "$clone/tools/calling" C Python
try_lines docs/INSTALL.md sums true
