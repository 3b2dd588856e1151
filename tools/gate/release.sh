#!/usr/bin/env bash
# Makes the files of a release for cargo, pip, npm and C, and tries each in an empty folder.
#
# usage: tools/gate/release.sh [--quick | --plain | --slow] [FOLDER]
#
# FOLDER, `dist` if none is given, gets the packages for cargo, the wheel and the source distribution for pip, an archive for C
# and C++, the proved program intcalc, the package for npm with the WebAssembly that Rattle makes too, the page on which a call is
# tried, the crates for Rattle with their proved libraries, an archive of the sources, the verdicts of the proofs, a bill of materials and
# SHA256SUMS, as soon as they are tried, and NOTES.md once all else has passed. They are made of a clean clone of the commit that `.ci/run`
# has passed in this checkout, and once more in another folder: both have the same sums. Rattle has made the static library in the gate,
# or cargo makes it if there is no `rt`. Each file is tried without a net and without `rt`, and the crates for Rattle with it.
#
# Then it runs the slow checks side by side: all targets, the second suite of mutants, the first lines of both suites, for plain Rust
# each guard taken out and 20 small wrong bodies, both programs for 100,000 requests, and where mmdebstrap is there Debian's packages and
# the oldest compiler. out/slow keeps what each printed, and one that has passed at this commit is not run again: --slow runs them before,
# and makes no files. --quick leaves them out and calls less at random, and the notes say so. So does --plain, which needs no `.ci/run`
# and does not use `rt`: cargo makes all, the files that Rattle makes are left out, and the notes say that nothing was proved.
set -uo pipefail
cd "$(dirname "$0")/../.." || exit
source tools/gate/lib.sh

mode=whole
case ${1:-} in
    --quick | --plain | --slow) mode=${1#--} && shift ;;
    -*) sed -n 's/^# usage: /usage: /p' "$0" >&2 && exit 2 ;;
esac
minutes=1
case $mode in quick | plain) minutes=0.05 ;; esac
[ "$mode" != plain ] || ! command -v rt >/dev/null || without_rt
folder=${1:-dist}
commit=$(git rev-parse HEAD)
state="passed: commit $commit, kit $(rt version 2>/dev/null || echo none)"
version=$(sed -nE 's/^version = "(.*)"$/\1/p' rust/Cargo.toml)
original=$(sed -nE 's/^version = "(.*)"$/\1/p' rust/num-integer/Cargo.toml)
machine=$(uname -m)-$(uname -s | tr 'A-Z' 'a-z')
proved=crates/cellarcove_c/out/libcellarcove_c.a
export SOURCE_DATE_EPOCH PYTHONDONTWRITEBYTECODE=1 CARGO_TARGET_DIR=$work/target
SOURCE_DATE_EPOCH=$(git log -1 --format=%ct)

stop() { echo "release.sh: $*" >&2 && exit 1; }

[ -z "$(git status --porcelain)" ] || stop 'the checkout has changes that are not committed'

# ---- the files

# has_rt: the files that Rattle makes are made too.
has_rt() { command -v rt >/dev/null; }

# with_address CLONE: if rust/Cargo.toml has the address of the repository, the other packages get it too.
with_address() {
    local address
    address=$(sed -nE 's/^repository = "(.*)"$/\1/p' "$1/rust/Cargo.toml")
    [ -n "$address" ] || return 0
    printf '\n[project.urls]\nSource = "%s"\n' "$address" >>"$1/bindings/python/pyproject.toml"
    sed -i "s|^  \"license\"|  \"repository\": \"$address\",\n&|" "$1/bindings/js/package.json"
    sed -i "s|^license = .*|&\nrepository = \"$address\"|" "$1/rust/num-integer/Cargo.toml"
}

# clone FOLDER: a clean clone of the commit, with the static library that the gate has built.
clone() {
    git clone -q . "$1" && git -C "$1" checkout -q "$commit" || return 1
    if has_rt; then
        is_current "$proved" cellarcove_c || { echo "$proved is older than its sources" && return 1; }
        mkdir -p "$1/crates/cellarcove_c/out" && cp "$proved" "$1/$proved"
    fi
    with_address "$1" && (cd "$1" && bindings/build)
}

# for_cargo CLONE FOLDER: the package of the crate, and that of num-integer. The packages that cargo finds are Debian's.
for_cargo() {
    local name=cellarcove-$version.crate
    [ -d /usr/share/cargo/registry ] || { echo "there are no sources of Debian: install librust-num-traits-dev" && return 1; }
    rm -rf "$CARGO_TARGET_DIR/package" && takes_debian "$work" && (cd "$1/rust" && cargo package --quiet --offline --no-verify) && cp "$CARGO_TARGET_DIR/package/$name" "$2" &&
        package_num_integer "$1/rust" "$name" "$2"
}

# for_pip CLONE FOLDER: the wheel and the source distribution.
for_pip() {
    local python
    python=$(builder) || { echo 'no Python has hatchling, numpy and pip: run tools/gate/install_packages.sh' && return 1; }
    (cd "$1/bindings/python" && "$python" -m hatchling build -t wheel -t sdist -d "$2")
}

# for_c CLONE FOLDER: the headers, the libraries, what pkg-config and CMake read, and the licences.
for_c() {
    local top=cellarcove-c-$version
    rm -rf "$work/packed" && mkdir -p "$work/packed/$top" && "$1/bindings/install" "$work/packed/$top" &&
        cp "$1"/LICENSE-* "$1/bindings/out/made_by" "$work/packed/$top" && packed "$top" "$2/$top-$machine.tar.gz"
}

# without_other_pages PAGE: the page without its links to others of the folder and to those above, which the package lacks.
without_other_pages() { sed -E 's/\[([^]]*)\]\((\.\.\/)?[A-Z]+\.md[^)]*\)/\1/g' "$1"; }

# proved_wasm: the WebAssembly of the libraries that `rt ci` has proved in this checkout. It is made once, and its name is printed.
proved_wasm() {
    has_rt || return 0
    [ -e "$work/proved/cellarcove.wasm" ] || bindings/js/build --rattle "$work/proved" >&2 || return
    echo "$work/proved/cellarcove.wasm"
}

# for_npm CLONE FOLDER: the package for Node and browsers, and the page with the package and the reference beside it.
for_npm() {
    local top=cellarcove-try-$version wasm
    wasm=$(proved_wasm) || return
    rm -rf "$work/packed" && mkdir -p "$work/packed/package" "$work/packed/$top/try" &&
        "$1/bindings/js/build" "$work/packed/package" ${wasm:+"$wasm"} &&
        cp "$work"/packed/package/* "$work/packed/$top/try" && sed 's|href="\.\./CONTRACTS|href="CONTRACTS|' "$1/docs/try/index.html" >"$work/packed/$top/try/index.html" &&
        "$1/tools/cellarcove" make whole "$work/packed/$top/try/reference" && without_other_pages "$1/docs/CONTRACTS.md" >"$work/packed/$top/try/CONTRACTS.md" && packed package "$2/cellarcove-$version.tgz" && packed "$top" "$2/$top.tar.gz"
}

# for_intcalc CLONE FOLDER: the program that the gate has proved and built in this checkout, its manual page, and what shells complete.
for_intcalc() {
    local top=intcalc-$version-$machine program=crates/intcalc/out/intcalc
    has_rt || return 0
    is_current "$program" intcalc || { echo "$program is older than its sources" && return 1; }
    rm -rf "$work/packed" && mkdir -p "$work/packed/$top/bin" && cp "$program" "$work/packed/$top/bin" &&
        "$1/tools/cellarcove" make manual "$work/packed/$top/share" && cp "$1"/LICENSE-* "$work/packed/$top" &&
        without_other_pages "$1/docs/INTCALC.md" >"$work/packed/$top/INTCALC.md" && packed "$top" "$2/$top.tar.gz"
}

# libraries: the crates of which a page CALLING.md says how they are called, and those below them.
libraries() {
    local page
    for page in crates/*/CALLING.md; do crates_of "$(basename "${page%/*}")"; done | sort -u
}

# lines_of NAME..: which kit has proved these crates, and their lines of crates.txt.
lines_of() {
    echo "# Cellarcove $version, as $(rt version) has proved it"
    grep -E "^($(IFS='|' && echo "$*")): " crates.txt
}

# for_rattle CLONE FOLDER: the crates for Rattle, each with the licences and with the library that
# `rt ci` has left in this checkout, stamped so that `rt check` proves none again.
for_rattle() {
    local name there=$work/packed/crates names=()
    has_rt || return 0
    mapfile -t names < <(libraries)
    rm -rf "$work/packed" && mkdir -p "$there" || return
    for name in "${names[@]}"; do
        was_left "$name" && mkdir -p "$there/$name/out/rlib" &&
            cp -r "$1"/LICENSE-* "$1/crates/$name"/{src,specs,proofs} "$there/$name" &&
            cp -r "crates/$name/out/rlib/$name.rlib" "$there/$name/out/rlib" || return
    done
    lines_of "${names[@]}" >"$there/cellarcove.txt" && cp "$there/cellarcove.txt" "$work/packed/crates.txt" &&
        python3 tools/gate/stamps.py "$work/packed" && packed crates "$2/cellarcove-rattle-$version.tar.xz"
}

sources() {
    git -C "$1" archive --format=tar --prefix="cellarcove-$version/" HEAD | gzip -9n >"$2/cellarcove-$version-source.tar.gz"
}

# make_files NAME: makes the files in a clone of that name, and their sums.
make_files() {
    local here=$work/$1/clone there=$work/$1/files
    mkdir -p "$there" && clone "$here" && for_cargo "$here" "$there" && for_pip "$here" "$there" && for_c "$here" "$there" &&
        for_intcalc "$here" "$there" && for_npm "$here" "$there" && for_rattle "$here" "$there" && sources "$here" "$there" &&
        (cd "$there" && sha256sum -- *) >"$work/$1/SHA256SUMS"
}

# ---- each file, in an empty folder

# alone COMMAND..: a function of this script runs without a net and without `rt`, in a process of its own.
alone() (
    export CARGO_NET_OFFLINE=true CELLARCOVE_ARCHIVE='' files machine minutes root=$PWD version work
    mapfile -t names < <(compgen -A function)
    export -f "${names[@]}"
    unshare -rnm bash -c '{ ! kit=$(rt doc) || mount -t tmpfs none "${kit%/*}"; } && ip link set lo up && "$@"' - "$@"
)

# enters NAME: a folder that has the files and nothing else, and for cargo the packages of Debian.
enters() { mkdir -p "$work/tried/$1" && cp "$files"/* "$work/tried/$1" && takes_debian "$work/tried/$1" && cd "$work/tried/$1" || return; }

# lines NAME LANGUAGE: the first block of a language in a part of README.md. These lines are run word for word.
lines() { block <(sed -n "/^\*\*$1\*\*/,\$p" "$root/README.md") "$2"; }

# The line by which each crate is proved: that of `rt ci`, if the gate has proved the same sources
# here, or else that of `rt verdict` now, which has the same form.
verdicts() {
    local name
    for name in $(sed -nE 's/^(\w+)( staticlib)?:.*/\1/p' crates.txt); do
        echo "== $name" && { verdict_of "$name" || (cd "crates/$name" && rt verdict | grep '^logic=proved ') || return 1; }
    done
}

# What is known of the files, whose sums it adds.
records() {
    { ! has_rt || verdicts >"$files/cellarcove-$version-verdicts.txt"; } &&
        tools/cellarcove make bill "$files" /usr/share/cargo/registry >"$work/bill" && mv "$work/bill" "$files/cellarcove-$version.spdx.json" &&
        (cd "$files" && sha256sum -- *) >"$work/one/SHA256SUMS"
}

# A program over the crate, and then the tests of the crate.
tries_rust() {
    enters rust && cargo init --quiet --name mine && bash -e <(lines Rust sh) && { echo 'fn main() {' && lines Rust rust && echo '}'; } >src/main.rs &&
        cargo run && cd cellarcove-"$version" && cargo test --all-features
}

tries_the_wheel() {
    enters wheel && "$(builder)" -m venv --system-site-packages e && source e/bin/activate && bash -e <(lines Python sh) && lines Python python >mine.py &&
        ! python mine.py 2>error && grep -F 'NotFitting: NOT_FITTING' error && python "$work/one/clone/bindings/python/tests/test_cellarcove.py" &&
        python "$work/one/clone/tools/cellarcove" check fuzz --minutes "$minutes" --small
}

tries_the_source_distribution() {
    enters sources-for-pip && "$(builder)" -m venv --system-site-packages e && source e/bin/activate &&
        pip install --no-build-isolation "cellarcove-$version.tar.gz" && python -c 'import cellarcove; assert cellarcove.BUILT_BY == "cargo"' &&
        tar -xzf "cellarcove-$version.tar.gz" && python "cellarcove-$version/tests/test_cellarcove.py"
}

# By the lines of README.md and docs/C.md, and then by what pkg-config says and nothing else, with the shared library and with the archive.
tries_c() {
    local flags
    enters c && lines C c >mine.c && bash -e <(lines C sh) && ./a.out && block "$root/docs/C.md" cpp >mine.cpp &&
        bash -e <(block "$root/docs/C.md" sh) && ./a.out | grep -x 2024-04-01 && cd cellarcove-c-*/lib || return 1
    flags=$(PKG_CONFIG_PATH=$PWD/pkgconfig pkg-config --cflags --libs cellarcove) && read -ra flags <<<"$flags" &&
        cc "$root/bindings/c/test.c" "${flags[@]}" -o shared && LD_LIBRARY_PATH=. ./shared && rm ./*.so* &&
        cc "$root/bindings/c/test.c" "${flags[@]}" -o static && ./static
}

# The sessions of the page, and the manual page without a warning.
tries_intcalc() {
    enters intcalc && tar -xzf intcalc-*.tar.gz && cd intcalc-*/ && "$root/tools/cellarcove" check sessions bin/intcalc && man --warnings -l share/man/man1/intcalc.1 2>error >page &&
        [ ! -s error ] && grep -q NotFitting page
}

# first_check NAME..: `rt check` proves the function of docs/RATTLE.md over these libraries, none of
# which it proves again, in less than a minute of processor time. What takes longer is stopped.
first_check() {
    local name said=$PWD/said seconds=$PWD/seconds TIMEFORMAT='%U %S'
    rm -rf crates/mine/out && (cd crates/mine && ulimit -S -t 60 && { time rt check >"$said" 2>&1; } 2>"$seconds")
    tail -n 40 "$said" "$seconds"
    grep -qx 'fn mine::hour_after: proved' "$said" && grep -q '^logic=proved functions=1 ' "$said" &&
        awk '{ exit $1 + $2 >= 60 }' "$seconds" && [ "$(echo crates/*/out/incremental)" = crates/mine/out/incremental ] || return
    for name; do grep -q "^statements $name: .* checked=0\$" "$said" || return; done
}

# tries_rattle: what docs/RATTLE.md says, in an empty repository, and then the same over all libraries.
tries_rattle() (
    local names root=$PWD page=$work/page
    sed 's/^   //' docs/RATTLE.md >"$page" && names=$(libraries) && enters rattle && mkdir mine && cd mine && git init -q . &&
        bash -e <(block "$page" sh) && { grep -o '`mine: [^`]*' "$page" | tr -d '`' && block "$page" crates; } >crates.txt || exit
    sed -i '/^#!\[tactic(auto)\]$/q' crates/mine/src/lib.rt && sed '1,/^## First calls/d' "$page" >calls &&
        { block calls rust && sed '1,/^```$/d' calls | block /dev/stdin rust; } >>crates/mine/src/lib.rt &&
        first_check integer_core integer_roots num_integer modular && tar -xf ../cellarcove-rattle-*.tar.xz || exit
    { echo mine: $names && cat crates/cellarcove.txt; } >crates.txt && first_check $names
)

# tries_javascript: the package passes its tests.
tries_javascript() {
    enters javascript && bash -e <(lines JavaScript sh) && lines JavaScript js >mine.mjs && node mine.mjs &&
        "$root/tools/gate/check_js.sh" "$PWD/node_modules/cellarcove" "$minutes"
}

# tries_the_proved_wasm: the same line runs with `cellarcove/proved`, and the tests pass where that file is in the place of the other.
tries_the_proved_wasm() {
    local flag=--experimental-wasm-memory64
    enters proved && bash -e <(lines JavaScript sh) && cd node_modules/cellarcove || return
    lines JavaScript js | sed "s|'cellarcove'|'cellarcove/proved'|" >../../mine.mjs && node $flag ../../mine.mjs &&
        node $flag --input-type=module -e "import {BUILT_BY} from 'cellarcove/proved'; if (BUILT_BY !== 'rattle') throw BUILT_BY" &&
        cp cellarcove-proved.wasm cellarcove.wasm && "$root/tools/gate/check_js.sh" "$PWD" "$minutes" $flag
}

# The page, with the package that lies beside it.
tries_the_page() {
    enters page && tar -xzf cellarcove-try-*.tar.gz && CELLARCOVE=$(echo "$PWD"/cellarcove-try-*/try) node --test "$root/bindings/js/tests/page.js"
}

tries_the_sources() {
    enters sources && tar -xzf cellarcove-*-source.tar.gz && cd "cellarcove-$version" &&
        diff <(find . -type f -o -type l | sort) <(git -C "$root" ls-files | sed 's|^|./|' | sort)
}

# The sources are the repository, whose links `tools/cellarcove check pages` follows.
links_of_pages() {
    find "$files" -type f \( -name '*.crate' -o -name '*.whl' -o -name '*gz' \) ! -name '*-source.tar.gz' -exec tools/cellarcove check packed {} +
}

# ---- the notes

row() { echo "| \`$1\` | $(stat -c %s "$files/$1") | $2 |"; }

# compilers: what the files were made and tested with, a row each.
compilers() {
    local name
    for name in rustc /usr/bin/rustc cc python3 node; do
        ! command -v "$name" >/dev/null || printf -- '- `%s`: %s\n' "$name" "$("$name" --version | sed -n 1p)"
    done
    printf -- '- `num-traits`: %s\n' "$(basename /usr/share/cargo/registry/num-traits-0.2.* | sed 's/.*-//')"
}

# notes: what is in the folder, what was tried, and the part of CHANGELOG.md on this version.
notes() {
    echo "# Cellarcove $version"
    printf '\nOf commit %s. The static library in the archive for C and in the wheel was made by %s.\n\n' "$commit" "$(cat "$work/one/clone/bindings/out/made_by")"
    printf 'Made and tested with:\n\n%s\n\n' "$(compilers)"
    printf '| file | bytes | what it is |\n|---|---|---|\n'
    row "cellarcove-$version.crate" 'the package for cargo'
    row "num-integer-$original.crate" 'the package of the name of the original, over the first one unpacked beside it, for `[patch.crates-io]`'
    row "$(cd "$files" && echo *.whl)" 'the wheel for pip'
    row "cellarcove-$version.tar.gz" 'the source distribution for pip, which cargo builds'
    row "cellarcove-c-$version-$machine.tar.gz" 'headers and libraries for C and C++, for pkg-config and CMake'
    [ ! -e "$files/intcalc-$version-$machine.tar.gz" ] || row "intcalc-$version-$machine.tar.gz" 'the proved program for the command line, with a manual page'
    row "cellarcove-$version.tgz" "the package for npm, of WebAssembly that cargo made$(! has_rt || echo ', and of that which Rattle made')"
    row "cellarcove-try-$version.tar.gz" 'a page on which a call is tried, for any web server'
    [ ! -e "$files/cellarcove-rattle-$version.tar.xz" ] ||
        row "cellarcove-rattle-$version.tar.xz" "the crates for Rattle, with their libraries as \`$(rt version)\` has proved them"
    row "cellarcove-$version-source.tar.gz" 'all sources'
    [ ! -e "$files/cellarcove-$version-verdicts.txt" ] ||
        row "cellarcove-$version-verdicts.txt" 'the line of `rt ci` or of `rt verdict` by which each crate is proved'
    row "cellarcove-$version.spdx.json" 'a bill of materials'
    if [ "$mode" = plain ]; then
        printf '\n`.ci/run` was not asked for: nothing of these files was proved here, and Rattle made none of them.\n'
    else
        printf '\n`.ci/run` has passed:\n\n'
        grep -E '^(rt: ok|gate: |check_[a-z_]+\.sh: )' out/passed | sed 's/^/- /'
    fi
    printf '\nWhat was tried of these files:\n\n'
    sed 's/^/- /' "$work/said"
    [ "$mode" = whole ] || printf -- '- %s: left out\n' \
        'the targets that need qemu, the second suite of mutants, the first lines of both suites, each guard taken out, and small wrong bodies'
    printf '\n## Changes\n'
    sed -n "/^## $version (/,/^## /p" "$work/one/clone/CHANGELOG.md" | sed '/^## /d'
}

# tried NAME COMMAND..: a check whose line is for the notes too.
tried() {
    check "$@" >"$work/line"
    cat "$work/line"
    head -n 1 "$work/line" >>"$work/said"
}

# begins FILE COMMAND..: a slow check runs beside the others, unless it has passed for this commit by this kit. out/slow keeps what it printed.
begins() { has_passed "$1" >"$work/log" 2>&1 || { "${@:2}" >"out/slow/$1" 2>&1 && echo "$state" >>"out/slow/$1"; } & }
has_passed() { grep -qsxF "$state" "out/slow/$1" || { tail -n 40 "out/slow/$1" && return 1; }; }

slow_checks() {
    tools/gate/install_packages.sh --all || true
    mkdir -p out/slow
    begins targets tools/gate/check_targets.sh --all
    begins guards tools/cellarcove check guards
    begins known tools/cellarcove check known --changes
    begins planted tools/cellarcove check planted --count 20
    begins wrong_lines tools/cellarcove check wrong_lines
    begins mutants tools/gate/check_must_fail_release.sh
    begins programs tools/gate/check_program.sh 100000
    if command -v mmdebstrap >/dev/null; then
        begins debian packaging/try_debian.sh
        begins oldest tools/gate/check_oldest.sh
    fi
    wait
    tried 'the tests of the crate, and each call for C, on the targets of docs/PLATFORMS.md' has_passed targets
    tried 'each guard of plain Rust that is taken out or has a wrong condition is missed by a test' has_passed guards
    tried 'a test of plain Rust fails with each of 20 small wrong bodies, or it is listed as equivalent' has_passed planted
    tried 'theorems in Coq say what the definitions are, and refuse a changed one' has_passed known
    tried 'the first line of each mutant of a crate that plain Rust has is true' has_passed wrong_lines
    tried 'both programs print the same bytes, with the same status, for 100,000 random requests' has_passed programs
    if command -v mmdebstrap >/dev/null; then
        tried 'the packages of packaging/debian, in a clean root of Debian 13 with its Rust' has_passed debian
        tried "the tests of the crate with the oldest compiler, $(grep -m 1 '^rustc ' out/slow/oldest)" has_passed oldest
    fi
    tried "the second suite of $(ls crates/*/must-fail-release/*.edit | wc -l) mutants is rejected" has_passed mutants
}

made_again() { make_files other && diff "$work/one/SHA256SUMS" "$work/other/SHA256SUMS"; }

# is_free FOLDER: there is nothing in it, or the files of a run that failed later.
is_free() { [ -z "$(ls -A "$1" 2>/dev/null)" ] || { [ -e "$1/SHA256SUMS" ] && [ ! -e "$1/NOTES.md" ]; }; }

# Copies the files to the folder, in the place of those of a run that failed later.
copy_files() {
    mkdir -p "$folder" && { [ ! -e "$folder/SHA256SUMS" ] || (cd "$folder" && cut -d ' ' -f 3 SHA256SUMS | xargs rm -f SHA256SUMS); } &&
        install -m 644 "$files"/* "$work/one/SHA256SUMS" "$folder"
}

if [ "$mode" = slow ]; then
    slow_checks
    finish
    exit
fi
[ "$mode" = plain ] || grep -q "^gate: commit $commit," out/passed 2>/dev/null || stop "\`.ci/run\` has not passed at $commit in this checkout"
[ -z "$(git tag --list "v$version")" ] || [ "$(git rev-parse "v$version^{commit}")" = "$commit" ] || stop "the tag v$version is that of another commit"
[[ $(grep -m 1 "^## " CHANGELOG.md) = "## $version ("* ]] || stop "CHANGELOG.md does not begin with version $version, which rust/Cargo.toml has"
is_free "$folder" || stop "$folder is not empty"
files=$work/one/files
check 'the files are made' make_files one
[ "$failed" -eq 0 ] || exit 1
tried 'the files are made again in another folder, with the same sums' made_again
tried 'the package for cargo is added by the lines of README.md, and its tests pass' alone tries_rust
tried 'the two packages for cargo replace num-integer, by the lines of their pages' alone replaces_num_integer "$files"
tried 'the wheel is installed by the line of README.md, tested and called at random' alone tries_the_wheel
tried 'the source distribution is installed, and its tests pass' alone tries_the_source_distribution
[ ! -e "$files/intcalc-$version-$machine.tar.gz" ] || tried 'the program prints what its page shows, and has a manual page' alone tries_intcalc
! has_rt || tried 'the crates for Rattle are unpacked by the lines of docs/RATTLE.md, and a first check above them proves none of them again' tries_rattle
tried 'programs in C and C++ are built by the lines of README.md and docs/C.md, and by pkg-config' alone tries_c
tried 'the package for npm is installed by the line of README.md, tested, compared with C and called at random' alone tries_javascript
! has_rt || tried 'so is the WebAssembly that Rattle made, as cellarcove/proved' alone tries_the_proved_wasm
tried 'the page is served, and calls are tried on it' alone tries_the_page
tried 'the sources are those of the commit' alone tries_the_sources
tried 'the links of the pages lead to files of the same package' links_of_pages
check 'the verdicts and the bill of materials' records
if [ "$failed" -ne 0 ] || ! copy_files; then
    stop "no files were copied to $folder"
fi
rm -rf "$work"/{target,tried,other} # which take most of the disk
[ "$mode" != whole ] || slow_checks
finish && notes >"$folder/NOTES.md" && chmod 644 "$folder/NOTES.md" && ls -l "$folder"
