#!/usr/bin/env bash
# Checks the crate of plain Rust in rust/ and the package of exports in rust/c: they build without a warning, the examples and tests of
# the crate and num-integer's own tests pass, a guard that is taken out or has a wrong condition is missed, its package is made, and
# the checksums of compare/ are the same. Then the package num-integer of rust/ replaces the original below packages of other authors,
# and their tests run. Works in a temporary folder, offline, with Debian's packages of these crates, which
# tools/gate/install_packages.sh installs. Prints a line for each check, and a count at the end. `tools/cellarcove check` compares the
# sources with what is made.
set -uo pipefail
cd "$(dirname "$0")/../.." || exit
source tools/gate/lib.sh
registry=/usr/share/cargo/registry
originals=(num-integer num-traits num-rational serde serde_json)
dependents=(num-bigint num-rational bigdecimal num num-iter chrono)
export CARGO_TARGET_DIR=${CARGO_TARGET_DIR:-$work/target}
# Nothing is built twice or debugged, so cargo writes less.
export CARGO_INCREMENTAL=0 CARGO_PROFILE_DEV_DEBUG=0 CARGO_NET_OFFLINE=true

# at FOLDER COMMAND..: runs it in a folder of the copies.
at() { (cd "$work/$1" && "${@:2}"); }

# strictly FOLDER COMMAND..: the same. Each warning is an error.
strictly() { RUSTFLAGS=-Dwarnings RUSTDOCFLAGS=-Dwarnings at "$@"; }

# has_packages NAME..: the sources of these crates are in the registry. If not, a line says so, which is a failure in the gate.
has_packages() {
    local name
    for name in "$@"; do
        compgen -G "$registry/$name-[0-9]*" >/dev/null && continue
        echo "there is no package of $name: what needs it is not checked"
        [ -z "${CI:-}" ] || failed=$((failed + 1))
        return 1
    done
}

# cargo's shared library has the exports alone, a name for the loader, and no need that nothing meets.
is_shared_library() {
    local library=$CARGO_TARGET_DIR/release/libcellarcove_c.so
    exports_its_calls --dynamic "$library" &&
        readelf -d "$library" | grep -q 'SONAME.*libcellarcove_c.so.[0-9]' && ! nm --dynamic --undefined-only "$library" | grep -v ' w '
}

# The examples of the documentation, in a copy of edition 2024, which builds them as one program.
documented_examples() {
    cp -r "$work/rust" "$work/documented"
    sed -i 's/^edition = .*/edition = "2024"/; /^rust-version = /d' "$work/documented/Cargo.toml"
    at documented cargo test --all-features --doc
}

# A package that depends on this crate alone has a type of its own.
own_type() {
    mkdir -p "$work"/own/{src,tests}
    printf '[package]\nname = "own"\nedition = "2021"\n[dependencies]\ncellarcove = { path = "../rust" }\n' \
        >"$work/own/Cargo.toml"
    touch "$work/own/src/lib.rs"
    cp -r rust/tests/boxed_type.rs rust/tests/common "$work/own/tests"
    at own cargo test --test boxed_type
}

# The package has the texts of both licences, as the repository has them, and the changelog, and that of Python both licences.
has_texts() {
    local name
    at rust cargo package --allow-dirty --list >"$work/list" || return 1
    for name in LICENSE-*; do cmp "$name" "bindings/python/$name" && cmp "$name" "rust/$name" || return 1; done
    for name in LICENSE-* CHANGELOG; do
        grep -x "$name" "$work/list" || { echo "the package has no $name" && return 1; }
    done
}

# The lines of code in Rust on the page docs/try are a program over the crate.
lines_in_rust() {
    mkdir -p "$work/lines_of_page/src" && printf '[package]\nname = "lines"\nedition = "2021"\n[dependencies]\ncellarcove = { path = "../rust" }\n' \
        >"$work/lines_of_page/Cargo.toml" && lines_return Rust "$work/lines_of_page/src/main.rs" at lines_of_page cargo run
}

# The package is made and built, and tests of it pass where it is unpacked.
package() {
    strictly rust cargo package --allow-dirty && mkdir "$work/unpacked" &&
        tar -xzf "$CARGO_TARGET_DIR"/package/cellarcove-*.crate -C "$work/unpacked" --strip-components 1 &&
        at unpacked cargo test --test own_type --test modules
}

# The two packages of a release replace num-integer.
from_the_files() {
    local crate
    crate=$(echo "$CARGO_TARGET_DIR"/package/cellarcove-*.crate) && mkdir "$work/files" && cp "$crate" "$work/files" &&
        package_num_integer "$work/rust" "${crate##*/}" "$work/files" && replaces_num_integer "$work/files"
}

# The package num-integer of rust/ is the only one of that name in the tree.
is_replaced() {
    at tree cargo tree --workspace -i num-integer >"$work/list" &&
        head -n 1 "$work/list" | grep -F "($work/rust/num-integer)"
}

# what_rustc_says NAME MANIFEST: of a file of rust/tests/messages one error for each line that has one, which is that one. What rustc
# proposes is no private path. The manifest ends with the words.
what_rustc_says() {
    local calls=rust/tests/messages/$1.rs
    mkdir -p "$work/$1/src" && cp "$calls" "$work/$1/src/lib.rs" || return 1
    printf '[package]\nname = "messages"\nedition = "2021"\n[dependencies]\nnum-bigint = "0.4"\nnum-traits = "0.2"\n%b\n' "$2" \
        >"$work/$1/Cargo.toml"
    ! at "$1" cargo check 2>"$work/full" && ! grep '+ .*integer_core' "$work/full" &&
        ! at "$1" cargo check --message-format short 2>"$work/by_line" &&
        diff <(sed -nE 's|.* // (E[0-9]+ .*)|\1|p' "$calls") \
            <(sed -nE 's/^src.lib.*error\[(E[0-9]+)\]: (.*): (the trait|method) .*/\1 \2/p' "$work/by_line")
}

check_dependents() {
    local name words begin=$SECONDS
    check 'packages that depend on num-integer are taken' \
        tools/cellarcove make dependents "$registry" "$work/rust/num-integer" "$work/tree" "${dependents[@]}"
    cat "$work/log"
    check 'this crate replaces num-integer in each of them' is_replaced
    for name in "${dependents[@]}"; do
        words=()
        [ "$name" != chrono ] || words=(--lib --no-default-features --features 'clock std')
        check_tests "those of $name" at tree cargo test -j "${RT_JOBS:-$(nproc)}" -p "$name" "${words[@]}"
    done
    echo "the packages above took $((SECONDS - begin)) seconds"
}

# The lines of a list: call, and at each type the number of inputs and the checksum.
sums() {
    grep -oE '[A-Z][A-Za-z]+:|[0-9]+ [0-9]+ [0-9]+' "$1" | awk '/:/ { call = $1; next } { print call, $1 + $2, $3 }'
}

checksums() {
    at compare cargo run --release --features cellarcove >"$work/list" || return 1
    [ "$(sums "$work/list" | wc -l)" -gt 0 ] && diff <(sums crates/replay/src/tests/list.rt) <(sums "$work/list")
}

if ! has cargo 'the crate of plain Rust'; then
    [ -z "${CI:-}" ]
    exit
fi
if has_packages "${originals[@]}"; then
    takes_debian "$work"
    mkdir "$work/docs" && cp docs/ERRORS.md "$work/docs" # whose panics the tests see
    cp -r CHANGELOG.md rust compare "$work"
    rm -rf "$work"/{rust,rust/num-integer,rust/c,rust/intcalc,rust/benches,compare}/{target,Cargo.lock}
    check 'the crate is built' strictly rust cargo build --all-targets --all-features
    check_tests 'its tests' strictly rust cargo test --all-features --tests
    check_tests 'its tests in release' strictly rust cargo test --all-features --release --tests
    check_tests 'those of the type of the example own_type, in release' strictly rust cargo test --release --example own_type
    check_tests 'the examples of its documentation and its page' documented_examples
    check 'the example programs print what their heads show' tools/cellarcove check sessions "$CARGO_TARGET_DIR/debug/examples"
    # a few of each kind; tools/gate/release.sh tries all
    check 'a guard that is taken out or has a wrong condition is missed' tools/cellarcove check guards --sample
    check_tests 'a type that is not Copy, of a package that depends on this crate alone' own_type
    ! has node 'the lines of the page' || check 'the lines of the page' lines_in_rust
    check 'the package has the texts of both licences and the changelog' has_texts
    check_tests 'the package is made, and some of its tests where it is unpacked' package
    check 'the links of its pages' tools/cellarcove check packed "$CARGO_TARGET_DIR"/package/cellarcove-*.crate
    check 'the package num-integer without features' strictly rust/num-integer cargo build --no-default-features
    check 'the package num-integer with all features' strictly rust/num-integer cargo build --all-features
    # tools/gate/check_bindings.sh calls them
    check 'the exports for C' strictly rust/c cargo build --release
    # tools/gate/check_program.sh runs it
    check 'the program' strictly rust/intcalc cargo build
    check 'the shared library that cargo makes of them' is_shared_library
    check 'the documentation of the package' strictly unpacked cargo doc --no-deps --all-features
    check 'its links' tools/cellarcove check rust_docs --links "$CARGO_TARGET_DIR/doc/cellarcove"
    if has cargo-clippy clippy; then
        check 'clippy' strictly rust cargo clippy --all-targets --all-features -- -D warnings
        check 'clippy on the exports' strictly rust/c cargo clippy -- -D warnings
        check 'clippy on the program' strictly rust/intcalc cargo clippy --all-targets -- -D warnings
    fi
    upstream=$(compgen -G "$registry/num-integer-*" | tail -n 1)
    check "the tests of ${upstream##*/} are taken" \
        tools/cellarcove make upstream "$upstream" "$work/rust" "$work/upstream"
    cat "$work/log"
    check_tests 'those of its library' at upstream cargo test --lib
    check_tests 'those of averages' at upstream cargo test --test average
    check_tests 'those of roots' at upstream cargo test --test roots
    check_tests 'what num-integer and num-rational return on the front page' at compare cargo test --test front_page
    check_tests 'and without overflow checks' \
        at compare cargo test --test front_page --release --config profile.release.overflow-checks=false
    check "the checksums of compare, $(sums crates/replay/src/tests/list.rt | wc -l) lines" checksums
    check 'the module checked has the calls of each of this name' sh -c '! grep -E "^fn [a-z_]+::checked::" rust/api.txt'
    if has_packages "${dependents[@]}"; then
        check 'the two packages for cargo replace num-integer, by the lines of their pages' from_the_files
        check 'what rustc says of a missing trait' what_rustc_says renamed 'num-integer = { package = "cellarcove", path = "../rust" }'
        check 'what big integers lack' what_rustc_says patched \
            'num-integer = "0.1"\n[patch.crates-io]\nnum-integer = { path = "../rust/num-integer" }'
        check 'the benches' strictly rust/benches cargo check
        check_dependents
    fi
fi

finish
