#!/usr/bin/env bash
# Makes the package for JavaScript, and calls it from Node, from bundles and, on the page docs/try, from Chromium and Firefox. Prints a line for each check and for
# each program that the machine lacks, and a count at the end.
#
# usage: tools/gate/check_js.sh [FOLDER [MINUTES [WORD..]]]
#
# It makes a package, or checks that of FOLDER and compares it with the library for C, by checksums of 20,000 calls of each export. It calls at
# random for so many minutes, a tenth of one if none is given. The words are for Node, such as --experimental-wasm-memory64, without which
# Node 20 does not read WebAssembly with addresses of 64 bits.
set -uo pipefail
cd "$(dirname "$0")/../.." || exit
source tools/gate/lib.sh
export CELLARCOVE=${1:-$work/package} PYTHONDONTWRITEBYTECODE=1
tests=bindings/js/tests

# A caller has the types of the package, and what is to have none has an error.
has_types() {
    sed "s|'cellarcove'|'$CELLARCOVE/cellarcove.js'|" $tests/types.ts >"$work/types.ts" &&
        tsc --noEmit --strict --target es2022 --module es2022 --moduleResolution node "$work/types.ts"
}

# What a page loads of the package is less than 53 kB with gzip, as docs/JAVASCRIPT.md says.
is_small() {
    local name bytes=0
    for name in cellarcove.js file.js load.js runtime.js table.js cellarcove.wasm; do
        bytes=$((bytes + $(gzip -9 -c "$CELLARCOVE/$name" | wc -c))) || return 1
    done
    echo "$bytes bytes with gzip" && [ "$bytes" -gt 0 ] && [ "$bytes" -lt 53000 ]
}

# What this machine returns, for Node and for the page to compare.
sums() {
    bindings/build && tools/cellarcove make checksums >"$work/checksums.c" &&
        cc -O2 -I bindings/c "$work/checksums.c" bindings/out/libcellarcove_c.a -o "$work/checksums" && "$work/checksums" | grep -v '_each_' >"$SUMS"
}
same() { node "$@" $tests/sums.js | diff "$SUMS" -; }

has node JavaScript || exit 0
if [ $# -gt 0 ]; then
    export SUMS=$work/sums
    check 'the checksums of this machine' sums
    check "what $(wc -l <"$SUMS") exports return in Node, 20,000 times each" same "${@:3}"
else
    check 'the package for JavaScript' bindings/js/build "$CELLARCOVE"
    counted 'what a page loads' is_small
    check 'the lines of the page' lines_return JavaScript "$work/returned_here" cat "$work/returned_here"
fi
check 'the links of its pages' tools/cellarcove check packed "$CELLARCOVE"
if [ -e "$CELLARCOVE/cellarcove.wasm" ]; then
    check "Node $(node --version)" node "${@:3}" --test $tests/test.js
    counted 'random calls' node "${@:3}" $tests/fuzz.js "${2:-0.1}"
    for name in esbuild rollup webpack; do has $name "bundles of $name" || true; done
    check 'bundles of those that are there' node "${@:3}" --test $tests/bundles.js
    export REFERENCE=$work/reference
    check 'the reference beside the page' tools/cellarcove make whole "$REFERENCE"
    ! has "${CHROMIUM:-chromium}" 'the page in Chromium' || check 'the page in Chromium' node --test $tests/page.js
    ! has "${FIREFOX:-firefox-esr}" 'the page in Firefox' || BROWSER=firefox check 'the page in Firefox' node --test $tests/page.js
fi
! has tsc 'the types of JavaScript' || check 'the types of JavaScript' has_types
finish
