#!/usr/bin/env bash
# Builds the archive for C, looks at its symbols, and calls it from C, C++ and Python. Builds the same archive by cargo, compares what
# both return, and calls that one too. Prints a line for each check, a line for each program that the machine lacks, and a count at the end.
#
# usage: tools/gate/check_bindings.sh [--proved | --cargo]
#
# With --proved it builds the archive over the libraries that `rt ci` has just proved and left, which `rt lib` proves again.
# With --cargo it builds and calls cargo's archive alone.
set -uo pipefail
cd "$(dirname "$0")/../.." || exit
source tools/gate/lib.sh

proved=$PWD/crates/cellarcove_c/out/libcellarcove_c.a
libraries=${1:-}
version=$(sed -nE 's/^version = "(.*)"$/\1/p' rust/Cargo.toml)
archive=$work/by_rattle/libcellarcove_c.a # the one that is looked at
tests=$PWD/bindings/python/tests
builder=$(builder)
calls=$(tools/cellarcove make symbols | wc -l)
languages=0

build() {
    if [ "$libraries" = --proved ]; then
        mkdir -p crates/cellarcove_c/out && calls_over_proved "$proved"
    else
        (cd crates/cellarcove_c && rt lib)
    fi && bindings/build --rattle "$work/by_rattle"
}

# A library that links the archive need not export them.
hides_its_calls() {
    echo '#include "cellarcove.h"
    uint64_t mine(uint64_t x); uint64_t mine(uint64_t x) { return cellarcove_gcd_u64(x, 6).value; }' |
        cc -shared -fPIC -I bindings/c -x c - -x none "$archive" -Wl,--exclude-libs,ALL -o "$work/mine.so" &&
        nm -D --defined-only "$work/mine.so" | grep -q ' mine$' && ! nm -D --defined-only "$work/mine.so" | grep cellarcove
}

# It needs nothing but the division of 128 bits and `memset`, which every compiler for C takes for granted.
needs_the_compiler_alone() {
    ! nm --undefined-only "$archive" | awk '$1 == "U" { print $2 }' | grep -vxE '__u?(div|mod)ti3|memset'
}

# It has no data that is written.
has_no_state() {
    ! nm "$archive" | awk 'NF == 3 && $2 ~ /[BbDd]/' | grep .
}

# A program with one call has at most 2,000 bytes of text if the linker drops what is not called, and 90,000 if it does not.
is_dropped() {
    local text flag
    printf '#include <cellarcove.h>\nint main(int count, char **words) { return words == 0 || cellarcove_gcd_u64((uint64_t)count, 12).status; }\n' >"$work/one.c"
    for flag in --gc-sections,2000 --no-gc-sections,90000; do
        cc -O2 -I bindings/c "$work/one.c" "$archive" "-Wl,${flag%,*}" -o "$work/one" && text=$(size "$work/one" | awk 'NR == 2 { print $1 }') &&
            echo "$flag: $text" && [ "$text" -le "${flag#*,}" ] || return 1
    done
}

# without_exceptions COMPILER: the header for C++ is compiled so, and a value that is not there aborts.
without_exceptions() {
    echo '#include "cellarcove.hpp"
    int main(int count, char **) { return cellarcove::lcm(1ll << 62, count).value() != 1ll << 62; }' >"$work/plain.cpp" &&
        "$1" -std=c++17 -fno-exceptions -fno-rtti -Wall -Wextra -Wpedantic -Werror -I bindings/c "$work/plain.cpp" "$archive" -o "$work/plain" &&
        "$work/plain" x && ! "$work/plain" x x
}

# builds_and_runs COMPILER FLAG..: the program of a file is built with the archive, and runs.
builds_and_runs() { "$@" -Wall -Wextra -Werror -I bindings/c -x none "$archive" -o "$work/lines" && "$work/lines"; }

# lines_with LANGUAGE FILE COMMAND..: what `lines_return` checks, where Node is.
lines_with() { ! has node "the lines of the page in $1" || check "the lines of the page in $1" lines_return "$@"; }

# runs CALLER COMPILER FLAG..: the caller, built so, finds every result right.
runs() {
    "${@:2}" -Wall -Wextra -Wpedantic -Werror -I bindings/c "bindings/c/$1" -x none "$archive" -o "$work/caller" && "$work/caller"
}

# The compiler has the library that the sanitizers need.
sanitizes() {
    echo 'int main(void) { return 0; }' | "$1" -fsanitize=undefined,address -x c - -o "$work/empty" 2>/dev/null && "$work/empty"
}

# c_with COMPILER: the caller in C, once as it is and once with the sanitizers.
c_with() {
    has "$1" "C with $1" || return 0
    languages=$((languages + 1))
    check "C with $1" runs test.c "$1" -std=c11 -O2 -x c
    lines_with C "$work/lines.c" builds_and_runs "$1" -std=gnu11 "$work/lines.c"
    if sanitizes "$1"; then
        check "C with $1 and its sanitizers" runs test.c "$1" -std=c11 -g -fsanitize=undefined,address -fno-sanitize-recover -x c
    else
        echo "C with $1 and its sanitizers: skipped, since it lacks their library"
    fi
}

# cpp_with COMPILER: the caller of the header for C++, and that for C as a program in C++.
cpp_with() {
    has "$1" "C++ with $1" || return 0
    languages=$((languages + 1))
    check "C++ with $1" runs test.cpp "$1" -std=c++17 -Wconversion -O1 -x c++
    check "C++20 with $1" runs test.cpp "$1" -std=c++20 -Wconversion -O1 -x c++
    check "what does not compile in C++ with $1" rejects_conversions "$1"
    check "an older C++ with $1" rejects_older_cpp "$1"
    check "C++ without exceptions with $1" without_exceptions "$1"
    lines_with C++ "$work/lines.cpp" builds_and_runs "$1" -std=c++17 "$work/lines.cpp"
    check "the example of the page in C++ with $1" page_holds docs/C.md cpp "$1" -std=c++17
    check "the header for C in C++ with $1" runs test.c "$1" -std=c++17 -O0 -x c++
}

# compiles COMPILER <EXPRESSIONS: the header for C++ has these expressions, one on each line.
compiles() {
    { echo '#include "cellarcove.hpp"
        namespace cellarcove { void tried(fraction half, date day, std::array<std::uint64_t, 2> choice) {' &&
        sed 's/.*/(void)(&);/' && echo '} }'; } |
        "$1" -std=c++17 -include array -fsyntax-only -I bindings/c -x c++ -
}

# rejects_conversions COMPILER: no first expression of a line of the list compiles, each second one does, and the words are printed.
rejects_conversions() {
    local expressions expression words
    expressions=$(grep -v '^#' bindings/c/rejected.txt) && cut -d '|' -f 2 <<<"$expressions" | compiles "$1" &&
        while IFS='|' read -r expression _ words; do
            ! compiles "$1" <<<"$expression" 2>"$work/refused" || { echo "it compiles: $expression"; return 1; }
            grep -qF -- "${words# }" "$work/refused" || { echo "$expression: the compiler does not print:$words"; return 1; }
        done <<<"$expressions"
}

# The header for C++ says that it needs a newer language.
rejects_older_cpp() {
    ! "$1" -std=c++14 -fsyntax-only -I bindings/c -x c++ bindings/c/cellarcove.hpp 2>"$work/refused" &&
        grep -q 'needs C++17' "$work/refused"
}

# page_holds PAGE LANGUAGE COMPILER FLAG..: the example of a page is compiled, and prints what its comments say.
page_holds() {
    sed -n "/^\`\`\`$2$/,/^\`\`\`$/p" "$1" | grep -v '^```' >"$work/page.$2" &&
        "${@:3}" -Wall -Wextra -Wpedantic -Werror -I bindings/c "$work/page.$2" "$archive" -o "$work/page" &&
        "$work/page" | diff - <(sed -n -e 's|.*/\* \(.*\) \*/|\1|p' -e 's|.*[^:]// ||p' "$work/page.$2")
}

# It is installed, below two folders of libraries, and found there, also after its folder has moved.
installs() {
    local libdir
    rm -rf "$work"/prefix* && for libdir in lib lib/some-linux-gnu; do
        DESTDIR=$work/prefix CELLARCOVE_FOLDER=$(dirname "$archive") bindings/install /usr "$libdir" && mv "$work/prefix/usr" "$work/prefix_moved" &&
            found_by_pkg_config "$libdir" && found_by_cmake "$libdir" && rm -rf "$work/prefix_moved" || return 1
    done
}

found_by_pkg_config() {
    command -v pkg-config >/dev/null || { echo 'no pkg-config'; return 0; }
    local flags libraries=$work/prefix_moved/$1
    flags=$(PKG_CONFIG_PATH=$libraries/pkgconfig pkg-config --cflags --libs cellarcove) && read -ra flags <<<"$flags" &&
        cc bindings/c/test.c "${flags[@]}" -o "$work/found" && LD_LIBRARY_PATH=$libraries "$work/found" &&
        readelf -d "$work/found" | grep -q 'NEEDED.*libcellarcove_c.so.[0-9]' &&
        ! nm -D --undefined-only "$libraries/libcellarcove_c.so" | grep -v ' w '
}

found_by_cmake() {
    command -v cmake >/dev/null || { echo 'no cmake'; return 0; }
    rm -rf "$work/project" && mkdir "$work/project" && cp bindings/c/test.c "$work/project" &&
        cp bindings/c/found.cmake "$work/project/CMakeLists.txt" &&
        cmake -S "$work/project" -B "$work/project/made" -DVERSION="${version%.*}" \
            -Dcellarcove_DIR="$work/prefix_moved/$1/cmake/cellarcove" >/dev/null &&
        cmake --build "$work/project/made" >/dev/null && "$work/project/made/of_cellarcove" && "$work/project/made/of_shared"
}

# What pip needs the net for, it leaves out.
offline=(--quiet --disable-pip-version-check --no-build-isolation --no-deps --no-index)

# wheel_of ARCHIVE FOLDER SOURCES: pip makes a wheel of the sources and the archive, or of one that they make, in a folder.
wheel_of() { rm -rf "$2" && CELLARCOVE_ARCHIVE=$1 "$builder" -m pip wheel "${offline[@]}" --wheel-dir "$2" "$3"; }

makes_a_wheel() { wheel_of "$archive" "$work/wheel" bindings/python; }

# Where there is no numpy, there is no wheel, and what to install is said.
says_what_a_wheel_needs() {
    mkdir -p "$work/no_numpy" && echo 'raise ImportError' >"$work/no_numpy/numpy.py" &&
        ! PYTHONPATH=$work/no_numpy wheel_of "$archive" "$work/refused_wheel" bindings/python >"$work/refused" 2>&1 &&
        grep -F 'install numpy (python3-numpy of Debian)' "$work/refused"
}

# with_package SCRIPT WORD..: the script runs with the package of the wheel, in an empty folder, by the Python of the variable `python`,
# or else by the one that made the wheel, which has numpy.
with_package() { (cd "$work/empty_folder" && PYTHONPATH=$work/site PYTHONDONTWRITEBYTECODE=1 "${python:-$builder}" "$@"); }

# The wheel, unpacked, passes its tests.
passes_its_tests() {
    rm -rf "$work/site" "$work/empty_folder"
    python3 -m zipfile -e "$work"/wheel/*.whl "$work/site" && mkdir "$work/empty_folder" &&
        with_package "$tests/test_cellarcove.py" && with_package "$tests/test_columns.py"
}

# other_pythons: the programs of the other Pythons from 3.9 on, one a line: those in the path, and those of pyenv.
other_pythons() {
    local name found=()
    for name in python3{,.9,.1{0,1,2,3,4}} "${PYENV_ROOT:-$HOME/.pyenv}"/versions/3.*/bin/python3; do
        found+=("$(command -v "$name" || true)")
    done
    for name in "${found[@]}"; do
        [ -z "$name" ] || "$name" -c 'import os, sys; sys.version_info < (3, 9) or print(os.path.realpath(sys.executable))' 2>/dev/null
    done | sort -u | grep -vxF "$("$builder" -c 'import os, sys; print(os.path.realpath(sys.executable))')"
}

# Each other Python calls the same wheel. It may have no numpy: then its calls of arrays say what to install.
passes_on_other_pythons() {
    local python
    for python in $(other_pythons); do
        with_package "$tests/test_cellarcove.py" || return 1
        echo "passed by $("$python" --version)"
    done
    echo "$(other_pythons | wc -l) others"
}

# The names and the signatures of the stubs are those of the extension.
has_stubs() {
    "$builder" -c 'import mypy.stubtest' && (cd "$work/empty_folder" && PYTHONPATH=$work/site MYPYPATH=$work/site "$builder" -m mypy.stubtest cellarcove._calls)
}

# fuzz MINUTES [--small]: all exports return what Python computes, for random arguments and for all small ones.
fuzz() { with_package "$PWD/tools/cellarcove" check fuzz --minutes "$@"; }

# An editable install leads to the sources, and has the licences.
installs_editable() {
    local tree=$work/editable
    rm -rf "$tree" && mkdir -p "$tree/bindings" && cp LICENSE-* "$tree" && cp -r bindings/c bindings/python "$tree/bindings" &&
        "$builder" -m venv --without-pip --system-site-packages "$tree/environment" &&
        CELLARCOVE_ARCHIVE=$archive "$tree/environment/bin/python" -m pip install "${offline[@]}" --editable "$tree/bindings/python" &&
        (cd "$work/empty_folder" && "$tree/environment/bin/python" -c "
import importlib.metadata, pathlib, cellarcove
assert pathlib.Path(cellarcove.__file__).is_relative_to('$tree/bindings/python') and cellarcove.gcd(12, 18) == 6
assert {'LICENSE-APACHE', 'LICENSE-MIT'} <= {file.name for file in importlib.metadata.files('cellarcove')}")
}

# So does one that is built with the sanitizers.
passes_with_sanitizers() {
    CFLAGS='-O1 -g -fsanitize=address,undefined -fno-sanitize-recover' CC=gcc makes_a_wheel || return 1
    local -x ASAN_OPTIONS=detect_leaks=0 PYTHONMALLOC=malloc LD_PRELOAD
    LD_PRELOAD="$(gcc -print-file-name=libasan.so) $(gcc -print-file-name=libubsan.so)"
    passes_its_tests && fuzz 0.02
}

# A source distribution has all that a wheel is built of by cargo, with num-traits, and its tests pass where it is unpacked. There
# `python -m pytest tests` takes the package that is installed, and not the sources beside the tests, which lack the extensions.
makes_a_wheel_of_the_sources() {
    local there=$work/sources
    rm -rf "$there" && mkdir "$there" && (cd bindings/python && "$builder" -m hatchling build -t sdist -d "$there") &&
        tools/cellarcove check packed "$there"/*.tar.gz && tar -xzf "$there"/*.tar.gz -C "$there" && rm "$there"/*.tar.gz && compgen -G "$there/*/vendor/registry/num-traits-*" &&
        wheel_of '' "$work/wheel" "$there"/* && tests=$(echo "$there"/*/tests) passes_its_tests &&
        (cd "$there"/* && PYTHONPATH=$work/site "$builder" -m pytest -q -p no:cacheprovider --collect-only tests)
}

# The package, and a caller of numbers and of arrays, have the types of the stubs. Where the caller says so, they are not those.
has_types() {
    cp "$tests/typed.txt" "$work/typed.py" && MYPYPATH=bindings/python/src mypy --strict --cache-dir="$work/mypy" "$work/typed.py"
}

# checksums ARCHIVE: a line of checksums for each call.
checksums() {
    tools/cellarcove make checksums >"$work/checksums.c" &&
        cc -std=c11 -O2 -Wall -Wextra -Wpedantic -Werror -I bindings/c "$work/checksums.c" "$1" -o "$work/checksums" &&
        "$work/checksums"
}

# Each call returns a status that its comment names, for all arguments that are tried.
returns_its_statuses() { checksums "$archive" >"$work/sums" && [ "$(wc -l <"$work/sums")" -eq "$calls" ]; }

# Each call returns what the examples in its comment say, which the headers have.
returns_its_examples() {
    tools/cellarcove make examples >"$work/examples.c" &&
        cc -std=c11 -O2 -Wall -Wextra -Wpedantic -Werror -I bindings/c "$work/examples.c" "$archive" -o "$work/examples" && "$work/examples"
}

# An archive in which one call is another one returns something else.
other_call_is_found() {
    objcopy --redefine-sym cellarcove_div_floor_i64=cellarcove_div_ceil_i64 \
        --redefine-sym cellarcove_div_ceil_i64=cellarcove_div_floor_i64 "$archive" "$work/other.a" &&
        checksums "$work/other.a" >"$work/other_sums" && [ "$(diff "$work/sums" "$work/other_sums" | grep -c '^<')" -eq 2 ]
}

# The package for cargo and the crate that it needs are there.
builds_by_cargo() {
    has cargo "cargo's archive" && { compgen -G '/usr/share/cargo/registry/num-traits-0.2.*' >/dev/null ||
        { echo "cargo's archive: skipped, since there is no num-traits of Debian"; return 1; }; }
}

# What the archive exports, needs and keeps.
looks_at() {
    check 'the exported symbols' exports_its_calls --extern-only "$archive"
    check 'those of the shared library' exports_its_calls --dynamic "${archive%.a}.so"
    check 'the needed symbols' needs_the_compiler_alone
    check 'no state' has_no_state
    if has cc C; then
        check 'the hidden symbols' hides_its_calls
        check 'the size of a program with one call' is_dropped
        check "the statuses of $calls calls" returns_its_statuses
        counted 'the examples in the comments' returns_its_examples
    fi
}

# python_calls MINUTES [--small]: the wheel, its tests, and so many minutes of random calls.
python_calls() {
    has python3 Python && has cc Python || return
    [ -n "$builder" ] || { echo 'Python: skipped, since no Python has hatchling and pip'; return; }
    languages=$((languages + 1))
    check 'the wheel' makes_a_wheel
    check 'what a wheel needs' says_what_a_wheel_needs
    check 'Python' passes_its_tests
    lines_with Python "$work/lines.py" with_package "$work/lines.py"
    "$builder" -c 'import pandas, distributed' 2>/dev/null || echo "columns of pandas and dask: skipped, since $builder has not both"
    counted 'Python of other versions' passes_on_other_pythons
    check 'the links of the page of the wheel' tools/cellarcove check packed "$work"/wheel/*.whl
    check 'the files and the tags of the wheel' with_package "$tests/test_wheel.py" "$work"/wheel/*.whl
    counted 'random calls' fuzz "$@"
}

if [ "$libraries" != --cargo ]; then
    check 'the archive' build
    looks_at
    cp "$work/sums" "$work/proved_sums" 2>/dev/null
    c_with gcc
    python_calls 0.2 --small
fi
if builds_by_cargo; then
    archive=$work/by_cargo/libcellarcove_c.a
    echo "cargo's archive:"
    check 'the archive' bindings/build --cargo "$work/by_cargo"
    looks_at
    c_with gcc
    if [ "$libraries" = --cargo ]; then
        python_calls 0.2 --small
    else
        check 'the results of both' diff "$work/proved_sums" "$work/sums"
        python_calls 0.05
    fi
fi
if has cc C; then
    check 'a call in the place of another' other_call_is_found
    for page in README.md docs/COOKBOOK.md; do
        check "the example of $page" page_holds "$page" c cc -std=c11
    done
    check 'the installed library' installs
fi
c_with clang
cpp_with g++
cpp_with clang++
if has clang++-19 'std::format of C++20'; then
    check 'std::format of C++20' runs test.cpp clang++-19 -std=c++20 -stdlib=libc++ -DNEEDS_FORMAT -x c++
fi
if has python3 Python && has cc Python && [ -d "$work/site" ]; then
    python=python3 counted "CPython's own tests" with_package "$tests/cpython_tests.py"
    check 'an editable install' installs_editable
fi
if [ -n "$builder" ] && sanitizes gcc; then
    check 'Python with the sanitizers of gcc' passes_with_sanitizers
fi
if [ -n "$builder" ] && builds_by_cargo; then
    check 'the source distribution' makes_a_wheel_of_the_sources
fi
if has mypy 'the types of Python'; then
    check 'the types of Python' has_types
    [ ! -d "$work/site" ] || check 'the stubs of Python' has_stubs
fi
check 'a language ran' test "$languages" -gt 0
finish
