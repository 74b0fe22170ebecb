# The package of Python: a part of tools/try-clone.
# shellcheck shell=bash disable=SC2016,SC2154

# The picture that Python saved is that of the page, and the package is that of the environment, with each library that the processor can have.
python_painted() {
    [ "$(tail -n 1 lines.log)" = 'first.png: done' ] && cat >look.py <<'END'
import os, pix, sys

wanted, saved = (pix.Image.open(file).to_array(pix.SRGB8) for file in sys.argv[1:])
width, height = 240, 160
wanted, saved = bytes(wanted), bytes(saved)
row = 6 * width
small = b"".join(wanted[2 * y * row : (2 * y + 1) * row][6 * x : 6 * x + 3] for y in range(height) for x in range(width))
here = sorted(name for name in os.listdir(os.path.dirname(pix.__file__)) if name.endswith(".so"))
print(here, pix.__file__)
sys.exit(small != saved or "env" not in pix.__file__ or here != sorted(["libpix_c.so", "libpix_c-v3.so"][: 2 if os.uname().machine == "x86_64" else 1]))
END
    env/bin/python look.py "$top/pictures/first.png" first.png
}

# The package's own tests, against the wheel alone.
package_tests() {
    mkdir "$work/tests" && cp "$top"/bindings/python/{demo.py,test_pix.py,test_library.py,test_files.py,odd_files.py} "$work/tests" && cd "$work/tests" \
        && "$env_python" demo.py demo.ppm && "$env_python" -X dev -m unittest test_pix test_library
}

# Two wheels of one clone are the same, in whatever folders; a clone in a path with spaces that can't be written is one.
same_wheels() {
    local at
    cp -r "$clone" "$work/another clone" && chmod -R a-w "$work/another clone" || return
    for at in "$clone" "$work/another clone"; do
        "$env_python" -m pip wheel -q --no-deps --no-build-isolation -w "$work/wheels$([ "$at" = "$clone" ] || echo 2)" "$at" || return
    done
    chmod -R u+w "$work/another clone" && cmp "$work"/wheels/*.whl "$work"/wheels2/*.whl
}

# A program of the clone finds the library that pip has put, though its folder has the package without one.
clone_programs() {
    mkdir "$work/programs" && cd "$work/programs" && "$env_python" "$clone/bindings/python/calling.py" "$clone/pictures/lake.ppm" && [ -s tiles.ppm ]
}

# An archive of sources is built, twice the same, and installed with the extra for Pillow named; and a clone is installed as it stands.
other_installs() {
    local python at=$work/other pip
    python3 -m venv "$at/env" && python=$at/env/bin/python && mkdir "$at/one" "$at/two" || return
    pip=("$python" -m pip install -q --no-index --no-build-isolation)
    (cd "$clone" && PYTHONPATH=packaging "$python" -B -c 'import backend, sys; [backend.build_sdist(each) for each in sys.argv[1:]]' "$at/one" "$at/two") \
        && cmp "$at"/one/*.tar.gz "$at"/two/*.tar.gz && "${pip[@]}" "$at"/one/*.tar.gz && cd "$at" \
        && "$python" -c 'import importlib.metadata as it, pix; pix.Image.new(1, 1).run(pix.clear()); assert "pillow" in it.metadata("pix-proved").get_all("Provides-Extra")' \
        && "$python" -m pip uninstall -q -y pix-proved && "${pip[@]}" -e "$clone" \
        && "$python" -c 'import pix, sys; pix.Image.new(1, 1).run(pix.clear()); sys.exit(not pix.__file__.startswith(sys.argv[1]))' "$clone"
}

# No compiler, one that fails, another processor, no generated/, and what the backend does not make.
python_bad() {
    local pip=("$env_python" -m pip)
    refuses 1 'pix: this machine lacks no-such-cc, a C compiler' env CC=no-such-cc "${pip[@]}" wheel --no-deps -w "$work/none-made" "$clone" \
        && refuses 1 "can't build generated/" env CC=false "${pip[@]}" wheel --no-deps -w "$work/none-made" "$clone" \
        && refuses 1 'this Python is for linux-riscv64' env _PYTHON_HOST_PLATFORM=linux-riscv64 "${pip[@]}" wheel --no-deps -w "$work/none-made" "$clone" \
        && fresh bare && rm -r "$work/bare/generated" && refuses 1 'pix: there is no generated/pix-' "${pip[@]}" wheel --no-deps -w "$work/none-made" "$work/bare" \
        && [ -z "$(ls "$work/none-made" 2>/dev/null)" ]
}

if ! "$python" -c 'import venv, ensurepip' 2>/dev/null; then
    lacks "$python with venv and ensurepip, as in python3-venv" 'the package of Python'
    ran+=('README.md clone: Python' 'CALLING.md clone: Python' 'docs/INSTALL.md clone: pip')
    skip_tasks Python
else
    try_lines README.md Python python_painted
    try_lines CALLING.md Python task_painted
    try_tasks Python
    env_python=$places/docs-INSTALL.md-pip/env/bin/python
    if try_lines docs/INSTALL.md pip python_painted; then
        step 'Python: demo, refusals, buffers, threads against the wheel' package_tests
        step 'Python: two wheels of two clones are the same' same_wheels
        step 'Python: a program of the clone over the library of the wheel' clone_programs
        step 'Python: an archive of sources, and an install of the clone as it stands' other_installs
        step 'Python: no compiler, another processor, no generated/' python_bad
    fi
fi
