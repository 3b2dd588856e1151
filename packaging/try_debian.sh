#!/usr/bin/env bash
# Builds the packages of packaging/debian in a clean root of Debian 13 without a net, and tries each where it is installed.
#
# usage: packaging/try_debian.sh [ROOT]
#
# It needs mmdebstrap and the rights of root. ROOT is a folder with such a root, which stays; without it the script makes one. It builds the
# packages of the commit, once more in another folder, and both have the same sums.
set -euo pipefail
cd "$(dirname "$0")/.."
version=$(sed -nE 's/^version = "(.*)"$/\1/p' rust/Cargo.toml)
needs=debhelper,dh-python,python3-all-dev,python3-hatchling,pybuild-plugin-pyproject,cargo,rustc,librust-num-traits-dev,python3-pytest
needs+=,librust-serde-dev,librust-serde-json-dev,lintian,pkgconf,cmake,g++,python3-numpy,python3-numpy-dev,reuse,git,man-db,bash,zsh,fish
work=$(mktemp -d)
root=${1:-$work/root}
trap 'umount "$root/proc" 2>/dev/null || true; rm -rf "$work"' EXIT
[ -d "$root/usr" ] || mmdebstrap --quiet --variant=buildd --include="$needs" trixie "$root" http://deb.debian.org/debian
mountpoint -q "$root/proc" || mount -t proc proc "$root/proc"

# inside WORD..: in the root, without a net.
inside() { unshare -n chroot "$root" env -i PATH=/usr/sbin:/usr/bin:/sbin:/bin HOME=/build LC_ALL=C.UTF-8 "$@"; }

# build FOLDER: the packages of the commit, in a folder of the root.
build() {
    rm -rf "${root:?}$1" && mkdir -p "$root$1"
    git archive --format=tar.gz --prefix="cellarcove-$version/" HEAD >"$root$1/cellarcove_$version.orig.tar.gz"
    tar -xzf "$root$1/cellarcove_$version.orig.tar.gz" -C "$root$1" && cp -r packaging/debian "$root$1/cellarcove-$version/debian"
    printf 'cellarcove (%s-1) unstable; urgency=medium\n\n  * A new version.\n\n -- The Cellarcove authors <authors@cellarcove.example>  %s\n' \
        "$version" "$(git log -1 --format=%cD)" >"$root$1/cellarcove-$version/debian/changelog"
    inside sh -c "cd $1/cellarcove-$version && dpkg-buildpackage -us -uc" >"$work/log" 2>&1 || { tail -n 60 "$work/log" && return 1; }
    (cd "$root$1" && sha256sum -- *.deb) | tee "$work/sums${1//\//.}"
}

# What the packages are for, in the root where they are installed.
try_packages() {
    cat <<'PROGRAM'
set -e
cd "$(mktemp -d)"
dpkg -i $(find "$1" -name '*.deb' ! -name '*-dbgsym_*') >/dev/null
printf '#include <cellarcove.h>\n#include <stdio.h>\nint main(void) { puts(cellarcove_version()); return 0; }\n' >one.c
cc one.c $(pkg-config --cflags --libs cellarcove) -o shared && ./shared && readelf -d shared | grep libcellarcove_c.so.0
cc one.c "$(pkg-config --variable=libdir cellarcove)/libcellarcove_c.a" -o static && ./static
printf '#include <cellarcove.hpp>\nint main() { return *cellarcove::div_floor(-8, 3) + 3; }\n' >two.cpp && c++ -std=c++17 two.cpp -lcellarcove_c -o two && ./two
printf 'cmake_minimum_required(VERSION 3.16)\nproject(one C)\nfind_package(cellarcove REQUIRED)\nadd_executable(one one.c)\n' >CMakeLists.txt
echo 'target_link_libraries(one cellarcove::shared)' >>CMakeLists.txt && cmake -B out . >/dev/null && cmake --build out >/dev/null && out/one
python3 -c 'import cellarcove; assert cellarcove.div_floor(-8, 3) == -3'
test "$(intcalc i64 div_mod_floor -8 3)" = '-3 1' && man --warnings intcalc 2>&1 >/dev/null | diff - /dev/null
bash -c '. /usr/share/bash-completion/completions/intcalc; COMP_WORDS=(intcalc i64 div_m) COMP_CWORD=2; _intcalc; echo "${COMPREPLY[@]}"' | grep -x div_mod_floor
fish -c 'complete -C "intcalc i64 div_m"' | grep '^div_mod_floor'
zsh -fc 'fpath+=(/usr/share/zsh/vendor-completions); autoload -Uz compinit && compinit -u; _arguments() { _intcalc_calls; }; _describe() { print -rl -- ${(P)2}; }; $_comps[intcalc]' |
    grep '^div_mod_floor:'
mkdir -p mine/src .cargo && printf 'fn main() { assert_eq!(cellarcove::div_floor(-8, 3), -3) }\n' >mine/src/main.rs
printf '[package]\nname = "mine"\nedition = "2021"\n[dependencies]\ncellarcove = "0"\n' >mine/Cargo.toml
printf '[source.crates-io]\nreplace-with = "debian"\n[source.debian]\ndirectory = "/usr/share/cargo/registry"\n' >.cargo/config.toml
(cd mine && cargo run --quiet --offline)
dpkg --purge librust-cellarcove-dev $(dpkg-query -Wf '${Package}\n' 'libcellarcove-c[0-9]*') libcellarcove-dev python3-cellarcove intcalc >/dev/null
test -z "$(find /usr -name '*cellarcove*' -o -name '*intcalc*')"
PROGRAM
}

build /build/one
inside sh -c 'cd /build/one && lintian --fail-on error --profile debian -- *.deb'
try_packages >"$root/build/try.sh" && inside sh /build/try.sh /build/one
build /build/another/place
diff <(sed 's| .*/| |' "$work/sums.build.one") <(sed 's| .*/| |' "$work/sums.build.another.place")
rm -rf "$root/build/lint" && git clone -q . "$root/build/lint" && inside sh -c 'git config --global --add safe.directory /build/lint && cd /build/lint && reuse lint -q'
echo 'packages: built, installed, tried, removed, and the same when built again'
