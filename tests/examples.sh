#!/usr/bin/env bash
# Runs the examples: the hosts in C and in Rust, which must print what stands in a file of examples/, and the scripts, in
# each of which every word must be done, or refused as the script expects, and everything be as it expects.
# Build first: bash archive.sh. SME_MOVE_LIB_DIR is the folder of another archive.
set -euo pipefail
root=$(cd "$(dirname "$0")/.." && pwd)
if [ -n "${SME_MOVE_LIB_DIR:-}" ]; then
    # Absolute, as cargo builds in folders of its own.
    SME_MOVE_LIB_DIR=$(cd "$SME_MOVE_LIB_DIR" && pwd)
    export SME_MOVE_LIB_DIR
fi
cd "$root"
archive=${SME_MOVE_LIB_DIR:-target/staticlib}/libsme_move.a
cargo=(--quiet --release --offline --manifest-path rust/Cargo.toml)
out=target/examples
rm -rf "$out"
mkdir -p "$out"

# run NAME EXPECTED COMMAND...: the command must succeed and print what is stored
run() {
    "${@:3}" >"$out/printed" || {
        echo "examples.sh: $1 ends with status $?" >&2
        exit 1
    }
    diff "$2" "$out/printed" || {
        echo "examples.sh: $1 prints something else than $2 has" >&2
        exit 1
    }
    echo "$1: as stored"
}

for host in listing long_buffers tiles transpose; do
    gcc -std=c11 -Wall -Wextra -Werror -pedantic -Iinclude "examples/c/$host.c" "$archive" -o "$out/$host"
    run "examples/c/$host.c" "examples/$host.stdout" "$out/$host"
done
run examples/rust/transpose.rs examples/transpose.stdout cargo run "${cargo[@]}" -p sme_move --example transpose

shopt -s nullglob
scripts=(examples/scripts/*.txt)
if [ ${#scripts[@]} = 0 ]; then
    echo "examples.sh: there is no script in examples/scripts" >&2
    exit 1
fi
cargo build "${cargo[@]}" -p runner
runner=${CARGO_TARGET_DIR:-rust/target}/release/runner
for script in "${scripts[@]}"; do
    expected=${script%.txt}.stdout
    if [ -e "$expected" ]; then
        run "$script" "$expected" "$runner" --strict --quiet "$script"
    else
        "$runner" --strict --quiet "$script" >"$out/printed" || {
            echo "examples.sh: $script ends with status $?" >&2
            cat "$out/printed" >&2
            exit 1
        }
        echo "$script: as it expects"
    fi
done
