# JavaScript: a part of tools/try-clone.
# shellcheck shell=bash disable=SC2154

if [ ! -f "$clone/generated/pix_c.wasm" ]; then
    lacks 'generated/pix_c.wasm' 'JavaScript'
elif have 'JavaScript' node npm; then
    try_lines README.md JavaScript painted
    try_lines docs/INSTALL.md npm painted
    try_lines CALLING.md JavaScript task_painted
    try_lines bindings/js/README.md JavaScript painted
fi
ran+=('README.md clone: JavaScript' 'docs/INSTALL.md clone: npm' 'CALLING.md clone: JavaScript' 'bindings/js/README.md clone: JavaScript')
