#!/usr/bin/env bash
# Checks all that needs no Rattle: the tools and the pages, the tests of plain Rust, and the library that cargo makes for C, with its callers.
# What a machine lacks is named and left out: then the status is 3, if nothing fails. Prints a line for each check, and a count at the end.
#
# usage: tools/gate/check_without_rt.sh
set -uo pipefail
cd "$(dirname "$0")/../.." || exit
source tools/gate/lib.sh
words=() missing=0
! compgen -G '/usr/share/cargo/registry/num-traits-0.2.*' >/dev/null || words=(--offline --config tools/gate/debian.toml)

# The tools and the pages, of which those parts are left out that need a program which is missing.
tools_and_pages() {
    local status=0
    python3 tools/cellarcove check || status=$?
    [ "$status" -ne 3 ] || missing=1
    [ "$status" -eq 0 ] || [ "$status" -eq 3 ]
}

calls_from_c() {
    bindings/build --cargo "$work/library" && cc -std=c11 -I bindings/c bindings/c/test.c "$work"/library/*cellarcove_c.a -o "$work/calls" && "$work/calls"
}

check 'the tools and the pages' tools_and_pages
! grep ' is missing: ' "$work/log" || echo 'what needs them is left out'
if has coqc 'the theorems in Coq on the definitions'; then
    counted 'the theorems in Coq on the definitions' tools/cellarcove check known
fi
if has cargo 'plain Rust and C'; then
    check 'the tests of plain Rust' cargo test ${words[@]+"${words[@]}"} --all-features
    if [ ${#words[@]} -gt 0 ]; then
        counted 'C, C++ and Python' tools/gate/check_bindings.sh --cargo
    else
        check 'the calls from C' calls_from_c
    fi
else
    missing=1
fi
finish || exit
[ "$missing" -eq 0 ] || exit 3
