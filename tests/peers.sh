#!/usr/bin/env bash
# Compares the proved archive with programs from elsewhere: LLVM's disassembler on every word, QEMU's user mode on random
# states. It takes some minutes, needs Debian packages that nothing else here does, and is no part of the gate.
#   tests/peers.sh [option...]      --help tells of the options
# Build first: bash archive.sh
set -euo pipefail
from=$PWD
cd "$(dirname "$0")/.."
out=target/peers
words=yes
states=yes
llvm=
qemu='qemu-aarch64'

# placed PATH: as it was given, seen from here. A name without a slash is looked for and stays.
placed() {
    case $1 in
    /*) echo "$1" ;;
    */*) echo "$from/$1" ;;
    *) echo "$1" ;;
    esac
}

given=()
while [ $# -gt 0 ]; do
    case $1 in
    --help)
        cat rust/peers/src/help.txt
        exit 0
        ;;
    --words-only) states= ;;
    --states-only) words= ;;
    --llvm | --qemu)
        if [ $# -lt 2 ]; then
            echo "peers.sh: $1: a value is missing" >&2
            exit 2
        fi
        declare "${1#--}=$(placed "$2")"
        shift 2
        continue
        ;;
    esac
    given+=("$1")
    shift
done
if [ "${SME_MOVE_LIB_DIR-}" ]; then
    SME_MOVE_LIB_DIR=$(cd "$from" && realpath -m "$SME_MOVE_LIB_DIR")
    export SME_MOVE_LIB_DIR
fi

# The latest libLLVM that the linker knows, if it is of version 16 or later. Its name was libLLVM-17.so.1 and is
# libLLVM.so.19.1.
latest_llvm() {
    PATH=$PATH:/sbin ldconfig -p | awk '$1 ~ /^libLLVM/ { print $1 }' |
        sed -nE 's/^libLLVM(-|\.so\.)([0-9]+)(\.so)?\.[0-9]+$/\2 &/p' |
        sort -n | awk '$1 >= 16 { name = $2 } END { print name }'
}

missing=()
# need PROGRAM PACKAGE
need() {
    command -v "$1" >/dev/null || missing+=("$2")
}

if [ "$words" ]; then
    need gcc gcc
    [ "$llvm" ] || llvm=$(latest_llvm)
    [ "$llvm" ] || missing+=("libllvm19 (or another libLLVM of version 16 or later)")
fi
if [ "$states" ]; then
    need clang clang
    need ld.lld lld
    need "$qemu" qemu-user
fi
if [ ${#missing[@]} -gt 0 ]; then
    echo "peers.sh: these Debian packages are missing:" >&2
    printf '  %s\n' "${missing[@]}" >&2
    exit 2
fi
archive=${SME_MOVE_LIB_DIR:-target/staticlib}/libsme_move.a
if [ ! -f "$archive" ]; then
    echo "peers.sh: there is no $archive: run 'bash archive.sh'" >&2
    exit 2
fi

mkdir -p "$out"
if [ "$words" ]; then
    gcc -std=c11 -O2 -Wall -Wextra -Wpedantic -Wconversion -Wshadow -Werror tests/peers/disassembler.c -ldl \
        -o "$out/disassembler"
fi
if [ "$states" ]; then
    clang --target=aarch64-linux-gnu -std=c11 -O2 -Wall -Wextra -Werror -ffreestanding -mgeneral-regs-only \
        -fno-stack-protector -fno-pic -nostdlib -static -fuse-ld=lld tests/peers/machine.c tests/peers/execute.S \
        -o "$out/machine"
fi
cargo build --quiet --release --offline --manifest-path rust/Cargo.toml -p peers

# An emulator that aborts, which is a known fault, is not to leave its memory behind.
ulimit -c 0
exec rust/target/release/peers --disassembler "$out/disassembler" --machine "$out/machine" \
    --llvm "$llvm" --qemu "$qemu" "${given[@]}"
