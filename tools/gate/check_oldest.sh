#!/usr/bin/env bash
# Runs the tests of the crate, and builds the program intcalc, with the oldest compiler that rust/Cargo.toml names: that of Debian 11's package
# rustc-web, in a root of its own, without a net.
#
# usage: tools/gate/check_oldest.sh [ROOT]
#
# It needs mmdebstrap, the rights of root, and Debian's sources of crates. ROOT is a folder with such a root, which stays.
set -euo pipefail
cd "$(dirname "$0")/../.."
work=$(mktemp -d)
root=${1:-$work/root}
trap 'rm -rf "$work"' EXIT
[ -d "$root/usr" ] || mmdebstrap --quiet --variant=buildd --include=cargo-web,rustc-web bullseye "$root" http://deb.debian.org/debian
rm -rf "${root:?}/there" && mkdir -p "$root/there/rust/.cargo" "$root/there/docs"
git archive HEAD rust CHANGELOG.md docs/ERRORS.md | tar -xf - -C "$root/there"
cp -rL /usr/share/cargo/registry "$root/there/registry"
sed 's|/usr/share/cargo/registry|/there/registry|' tools/gate/debian.toml >"$root/there/rust/.cargo/config.toml"
rm -f "$root"/there/rust/*/Cargo.lock

inside() { unshare -n chroot "$root" env -i PATH=/usr/bin:/bin HOME=/root CARGO_TARGET_DIR=/there/target "$@"; }
inside rustc --version
needed=$(sed -nE 's/^rust-version = "(.*)"$/\1/p' rust/Cargo.toml)
inside rustc --version | grep -F "rustc $needed." >/dev/null || { echo "rust/Cargo.toml names Rust $needed" && exit 1; }
inside sh -c 'cd /there/rust && cargo test --offline --release --tests'
inside sh -c 'cd /there/rust/intcalc && cargo build --offline --release'
