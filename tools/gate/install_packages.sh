#!/usr/bin/env bash
# Installs the packages of Debian that the gate needs and that this machine lacks: for plain Rust the sources of num-integer and
# num-traits, of the packages that depend on them and whose tests are run, and of serde; for the tools pytest, flake8, mypy, shellcheck and xz; for
# wheels hatchling, with numpy, pandas and dask for its tests; for 32 bits and for WebAssembly compilers, one of them with the sources of its library; and if Node is there, for
# JavaScript the compiler of TypeScript, Chromium, Firefox, and what bundles. With --all it installs what the other targets of a release and
# the theorems in Coq need too, and what makes clean roots of Debian.
# Nothing else installs anything. Without the rights of root it says what is missing.
#
# usage: tools/gate/install_packages.sh [--all]
set -uo pipefail

missing=()
for name in num-integer num-traits num-bigint num-rational bigdecimal num num-iter chrono serde serde-derive serde-json; do
    compgen -G "/usr/share/cargo/registry/${name/serde-/serde_}-[0-9]*" >/dev/null || missing+=("librust-$name-dev")
done
headers=$(python3 -c 'import sysconfig; print(sysconfig.get_path("include"))' 2>/dev/null)
if ! python3 -c 'import hatchling, numpy, pip' 2>/dev/null || [ ! -e "$headers/Python.h" ]; then
    headers=$(/usr/bin/python3 -c 'import sysconfig; print(sysconfig.get_path("include"))' 2>/dev/null)
    [ -e "$headers/Python.h" ] || missing+=(python3-dev)
    /usr/bin/python3 -c 'import hatchling, pip, ensurepip' 2>/dev/null || missing+=(python3-hatchling python3-pip python3-venv)
    for name in numpy pandas dask distributed; do
        /usr/bin/python3 -c "import $name" 2>/dev/null || missing+=("python3-$name")
    done
fi
python3 -c 'import pytest' 2>/dev/null || /usr/bin/python3 -c 'import pytest' 2>/dev/null || missing+=(python3-pytest)
for name in flake8 mypy shellcheck; do
    command -v "$name" >/dev/null || missing+=("$name")
done
command -v xz >/dev/null || missing+=(xz-utils)
[ -d /usr/lib/rustlib/src/rust/library/core ] || missing+=(rustc-web rust-web-src)
command -v i686-linux-gnu-gcc >/dev/null || missing+=(gcc-i686-linux-gnu libc6-dev-i386-cross)
if command -v node >/dev/null; then
    compgen -G "$HOME/.rustup/toolchains/*/lib/rustlib/*/bin/rust-lld" >/dev/null || compgen -G '/usr/lib/llvm-*/bin/wasm-ld' >/dev/null || missing+=(lld-19)
    command -v tsc >/dev/null || missing+=(node-typescript)
    for name in chromium firefox-esr esbuild rollup; do
        command -v "$name" >/dev/null || missing+=("$name")
    done
fi
if [ "${1:-}" = --all ]; then
    command -v mmdebstrap >/dev/null || missing+=(mmdebstrap)
    command -v coqc >/dev/null || missing+=(coq libcoq-mathcomp-ssreflect libcoq-mathcomp-algebra)
    command -v qemu-arm-static >/dev/null || missing+=(qemu-user-static)
    command -v clang++-19 >/dev/null || missing+=(clang-19 libc++-19-dev libc++abi-19-dev)
    for name in arm-linux-gnueabihf=armhf aarch64-linux-gnu=arm64 riscv64-linux-gnu=riscv64 s390x-linux-gnu=s390x powerpc-linux-gnu=powerpc; do
        command -v "${name%=*}-gcc" >/dev/null || missing+=("gcc-${name%=*}" "libc6-dev-${name#*=}-cross")
    done
fi
[ ${#missing[@]} -gt 0 ] || exit 0
if [ "$(id -u)" -ne 0 ]; then
    echo "missing, and only root can install them: ${missing[*]}"
    exit 1
fi
echo "installs ${missing[*]} and what they depend on"
apt-get update -qq && apt-get install -qq -y --no-install-recommends "${missing[@]}" >/dev/null
