#!/usr/bin/env bash
# Compares other targets with this machine: what each call for C returns for 20,000 random arguments, by checksums of all that it returns.
# The tests in C and those of the crate run there too. The archives are those that bindings/build makes and bindings/install installs, and
# need no more than what stands below; Rattle makes one for ARM64 if `rt ci` has left the proved libraries. The crate is compiled without
# std for bare ARM and for WebAssembly.
#
# usage: tools/gate/check_targets.sh [--all | TARGET..]
#
# With no word it takes i686, which needs no emulator on x86-64. With --all it takes the targets that need qemu too, and compares the table of
# docs/PLATFORMS.md with those that passed; with names of that table it takes those alone. `tools/gate/install_packages.sh --all` installs what
# is missing. Prints a line for each check and for each program that the machine lacks, and a count at the end.
set -uo pipefail
cd "$(dirname "$0")/../.." || exit
source tools/gate/lib.sh
export CARGO_TARGET_DIR=$work/target
cargo=$PWD/bindings/cargo compiler=cc emulator=env tested='the crate, C'
calls=$(tools/cellarcove make symbols | wc -l)
words=("${@:-i686-unknown-linux-gnu}")
for word in "${words[@]}"; do
    [ "$word" = --all ] || grep -q "^| \`$word\` |.*| the crate, C |" docs/PLATFORMS.md || { echo "$word: docs/PLATFORMS.md has no such target" && exit 2; }
done

# is_wanted WORD: it is --all, or the name of a target, which --all takes too.
is_wanted() { [[ " ${words[*]} " = *" $1 "* || " ${words[*]} " = *' --all '* ]]; }

# for_target FOLDER TARGET LIBRARIES COMMAND [WORD..]: cargo runs in a folder of a copy of the sources.
for_target() { (cd "$work/$1" && "$cargo" "${@:2}"); }

# What an archive may need: of the C library, and of the library of the C compiler.
needed=(memcpy memmove memset _GLOBAL_OFFSET_TABLE_ __aeabi_{,u}idivmod __aeabi_{,u}ldivmod __aeabi_mem{cpy,move,set}{,4,8} __aeabi_memclr{,4,8})
needed+=(__{,u}{div,mod}{d,t}i3 __multi3 __{ashl,lshr}ti3 __aeabi_unwind_cpp_pr{0,1})

# by_cargo TARGET [WORD..]: the archive that is installed.
by_cargo() {
    local archiver=ar
    [ "$compiler" = cc ] || archiver=${compiler%gcc}ar
    CC=$compiler AR=$archiver bindings/build --cargo ${2:+--target "$1"} "$work/built/$1" &&
        CELLARCOVE_FOLDER=$work/built/$1 bindings/install "$work/prefix/$1" && cp "$work/prefix/$1/lib/libcellarcove_c.a" "$work/$1.a" &&
        [ -e "$work/prefix/$1/lib/libcellarcove_c.so" ]
}

needs_no_more() { ! nm -u "$work/$1.a" | awk 'NF { print $NF }' | grep -v ':$' | grep -vxF "$(printf '%s\n' "${needed[@]}")"; }

by_rattle() {
    calls_over_proved "$work/rattle.a" --target "$1" && "$compiler" -I bindings/c -c bindings/c/library.c -o "$work/library.o" &&
        ar rs "$work/rattle.a" "$work/library.o"
}

# runs FILE NAME: links a program in C with the archive of this name, and runs it.
runs() {
    "$compiler" -std=c11 -O2 -Wall -Wextra -Werror -static -I bindings/c "$1" "$work/$2.a" -o "$work/program" &&
        "$emulator" "$work/program"
}

sums() { runs "$work/checksums.c" "$1" >"$work/$1.sums" && [ "$(wc -l <"$work/$1.sums")" -eq "$calls" ]; }
same() { sums "$1" && diff "$work/here.sums" "$work/$1.sums"; }

# returns_the_same NAME: the archive of this name does.
returns_the_same() {
    check "what it returns, by $calls calls 20,000 times each" same "$1"
    check 'the tests in C' runs bindings/c/test.c "$1"
}

byte_order_and_bits() { rustc --print cfg --target "$1" | sed -nE 's/^target_(endian|pointer_width)="(.*)"/\2/p' | paste -sd '|' | sed 's/|/ | /'; }

# on TARGET PREFIX EMULATOR: the checks of a target, and the row of a table if they pass.
on() {
    local compiler=$2-gcc emulator=$3 before=$failed key=${1//-/_}
    is_wanted "$1" && has "$compiler" "$1" && has "$emulator" "$1" || return 0
    export "CARGO_TARGET_${key^^}_LINKER=$compiler" "CARGO_TARGET_${key^^}_RUNNER=$emulator" "CARGO_TARGET_${key^^}_RUSTFLAGS=-C target-feature=+crt-static"
    check "the archive for $1" by_cargo "$1" --target
    check 'what it needs' needs_no_more "$1"
    returns_the_same "$1"
    check_tests 'the tests of the crate' for_target rust "$1" std,panic_unwind test --release --all-features --tests
    rm -rf "$CARGO_TARGET_DIR"
    [ "$failed" -ne "$before" ] || echo "| \`$1\` | $(byte_order_and_bits "$1") | ${emulator/env/itself} | the crate, C | yes |" >>"$work/rows"
}

mkdir "$work/docs" && cp docs/ERRORS.md "$work/docs" && cp -r CHANGELOG.md rust "$work"
tools/cellarcove make checksums >"$work/checksums.c"
check 'the crate for bare ARM, without std' for_target rust thumbv7em-none-eabihf core check --lib --no-default-features
check 'the crate for WebAssembly, without std' for_target rust wasm32-unknown-unknown core check --lib --no-default-features
check 'the archive for this machine' by_cargo here
check 'what it needs' needs_no_more here
check 'its checksums' sums here
on i686-unknown-linux-gnu i686-linux-gnu env
on armv7-unknown-linux-gnueabihf arm-linux-gnueabihf qemu-arm-static
on aarch64-unknown-linux-gnu aarch64-linux-gnu qemu-aarch64-static
on riscv64gc-unknown-linux-gnu riscv64-linux-gnu qemu-riscv64-static
on s390x-unknown-linux-gnu s390x-linux-gnu qemu-s390x-static
on powerpc-unknown-linux-gnu powerpc-linux-gnu qemu-ppc-static
if is_wanted aarch64-unknown-linux-gnu && command -v rt >/dev/null; then
    compiler=aarch64-linux-gnu-gcc emulator=qemu-aarch64-static tested="$tested|C" before=$failed
    check "Rattle's archive for ARM64" by_rattle aarch64-unknown-linux-gnu
    returns_the_same rattle
    [ "$failed" -ne "$before" ] || echo "| \`aarch64-unknown-linux-gnu\`, by Rattle | little | 64 | $emulator | C | yes |" >>"$work/rows"
fi
if is_wanted --all; then
    check 'the table of docs/PLATFORMS.md' diff <(grep -E "\| ($tested) \| yes \|\$" docs/PLATFORMS.md) "$work/rows"
fi
finish
