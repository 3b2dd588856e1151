#!/usr/bin/env bash
# Runs the built program as a shell does: the sessions of the pages, odd arguments, nowhere to print, and each request for memory
# refused. A program that is older than its sources is built again first. Does the same with the program that cargo installs from
# rust/intcalc, and compares the two for the fixed cases of crates/tests and at random. Prints a line for each check, and a count at the end.
#
# usage: tools/gate/check_program.sh [--cargo | COUNT]
#
# It makes COUNT requests at random, 1000 if none is given. With --cargo it looks at cargo's program alone.
set -uo pipefail
cd "$(dirname "$0")/../.." || exit
source tools/gate/lib.sh

proved=$PWD/crates/intcalc/out/intcalc
plain=$work/installed/bin/intcalc
mapfile -t words <crates/intcalc/args # the stored run, a word a line
result=$(<crates/intcalc/stdout)
count=${1:-1000}

# build: `rt run` builds the program again, unless it is newer than its sources.
build() {
    is_current "$proved" intcalc && return
    rm -f "$proved"
    (cd crates/intcalc && rt run -- "${words[@]}") && is_current "$proved" intcalc
}

# by_cargo: cargo installs the program from a copy of the sources, with Debian's packages if they are there.
by_cargo() {
    cp -r rust "$work/rust" && cp -r docs LICENSE-* "$work" || return
    [ ! -d /usr/share/cargo/registry ] || { takes_debian "$work" && rm -f "$work/rust/intcalc/Cargo.lock"; }
    (cd "$work" && cargo install --quiet --path rust/intcalc --root "$work/installed" && cd rust/intcalc && cargo test --quiet)
}

# prints NAME STATUS LINE COMMAND..: the command prints the line alone, and ends with the status.
prints() {
    "${@:4}" >"$work/log" 2>/dev/null
    [ $? -eq "$2" ] && printf '%s\n' "$3" | cmp -s - "$work/log"
    judge "$1" $?
}

# ends NAME STATUS COMMAND..: the command ends with the status.
ends() {
    "${@:3}" 2>"$work/log"
    [ $? -eq "$2" ]
    judge "$1" $?
}

# ---- arguments and outputs

on_a_closed_output() { "$@" >&-; }

on_a_full_device() { "$@" >/dev/full; }

# The reader ends before the program starts.
on_an_unread_pipe() {
    local unread
    exec {unread}> >(:)
    wait $!
    "$@" >&"$unread"
}

# The largest argument that the kernel passes on is 128 KiB with its end. It rejects one of a megabyte before the program
# starts, and passes on a megabyte in eight arguments.
give_arguments() {
    local digits nines
    digits=$(printf '%0131071d' 7)
    nines=$(printf '%0131071d' 0 | tr 0 9)
    prints 'the stored run' 0 "$result" "$program" "${words[@]}"
    prints 'no argument' 2 usage "$program"
    prints 'an empty argument' 2 usage "$program" ''
    prints 'an empty operand' 2 usage "$program" i64 gcd '' 1
    prints 'an argument that is not UTF-8' 2 usage "$program" $'\xff'
    prints 'an operand that is not UTF-8' 2 usage "$program" i64 gcd 1 $'2\xc3'
    prints 'ten thousand arguments' 2 usage "$program" i64 gcd $(seq 10000)
    prints 'an operand of 128 KiB' 0 7 "$program" i64 gcd 0 "$digits"
    prints 'an operand of 128 KiB above the type' 1 'refused 1 OutOfType' "$program" i64 gcd 0 "$nines"
    prints 'a megabyte of arguments' 2 usage "$program" i64 gcd "$nines"{,,,,,,,}
}

refuse_output() {
    ends 'a closed output' 4 on_a_closed_output "$program" "${words[@]}"
    ends 'a full device' 4 on_a_full_device "$program" "${words[@]}"
    ends 'a pipe that nobody reads' 4 on_an_unread_pipe "$program" "${words[@]}"
}

# ---- memory

# without_request NUMBER: runs the program with that request for memory refused.
without_request() { REFUSED_REQUEST=$1 LD_PRELOAD=$work/refused_request.so "$program" "${words[@]}"; }

# docs/TESTING.md gives this number of requests of the proved program.
requests_are_documented() {
    local numbers=(no one two three four five six seven eight nine ten eleven twelve)
    tr -s '\n ' ' ' <docs/TESTING.md | grep -q "each of its ${numbers[$1]} requests for memory is denied"
}

# refuse_memory COUNT: refuses each of so many requests for memory, which the stored run makes. `rt try --fail-alloc N` refuses one
# request too, and needs no built program.
refuse_memory() {
    local request
    check 'what refuses memory is built' "${CC:-cc}" -shared -fPIC -O1 -o "$work/refused_request.so" tools/gate/refused_request.c
    for ((request = 1; request <= $1; request++)); do
        prints "request $request for memory refused" 3 'no memory' without_request "$request"
    done
    prints "no request $(($1 + 1)) for memory" 0 "$result" without_request "$(($1 + 1))"
}

# run_all PROGRAM REQUESTS: all checks of a program, which makes so many requests for memory in the stored run.
run_all() {
    program=$1
    check 'the sessions of the pages' tools/cellarcove check sessions "$program"
    give_arguments
    refuse_output
    refuse_memory "$2"
}

if [ "$count" = --cargo ]; then
    proved=$plain count=1000
else
    check 'the program is as new as its sources' build
    [ "$failed" -eq 0 ] && run_all "$proved" 8 && check 'as many requests as docs/TESTING.md says' requests_are_documented 8
fi
if has cargo 'the program that cargo makes'; then
    check 'cargo installs the program, and its tests pass' by_cargo
    [ "$failed" -eq 0 ] && run_all "$plain" 1 && counted 'the same bytes and status by both' tools/cellarcove check programs "$proved" "$plain" "$count"
fi
finish
