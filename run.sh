#!/usr/bin/env bash
# Proves and builds the unit, builds the runner on it, and runs it: `./run.sh --help` says how. What has not changed since
# the last time is not made again.
set -euo pipefail

# The caller's directory stays, so that file names are the caller's. This file may be called by a symbolic link.
root=$(cd "$(dirname "$(readlink -f "${BASH_SOURCE[0]}")")" && pwd)
archive=$root/target/staticlib/libsme_move.a
runner=${CARGO_TARGET_DIR:-$root/rust/target}/release/runner
# Touched when the runner was built on the archive that is proved here: a runner that is newer was built otherwise.
own=$runner.own

# fresh FILE SOURCE...: it is there, and nothing among the sources is newer
fresh() {
    [ -e "$1" ] && [ -z "$(find "${@:2}" -newer "$1" -print -quit)" ]
}

# need COMMAND FROM: it is there, or what it comes with is said
need() {
    command -v "$1" >/dev/null || {
        echo "run.sh: there is no $1 on PATH: it comes with $2 (README.md, 'Toolchain')" >&2
        exit 2
    }
}

# The crates that the archive is made of, by the lines of crates.txt: a crate, perhaps `staticlib`, a colon, those that it uses.
crates() {
    awk -F: '
        !/^#/ && NF > 1 { split($1, words, " "); uses[words[1]] = $2 }
        function take(name, list, i, n) {
            if (name in taken || !(name in uses)) return
            taken[name] = 1
            print name
            n = split(uses[name], list, " ")
            for (i = 1; i <= n; i++) take(list[i])
        }
        END { take("sme_move"); take("sme_listing") }' "$root/crates.txt"
}

# Reads what the prover prints, and tells of each crate that is done and how many are left. Those whose proofs stand from an
# earlier run are only named as libraries of a crate above them: they count as done.
progress() {
    local line name crate='' left
    local -A wanted=()
    for name in $(crates); do
        wanted[$name]=1
    done
    left=${#wanted[@]}
    while IFS= read -r line; do
        name=${line#* }
        name=${name%%:*}
        case $line in
        'crate '*': modules loaded='*) crate=$name ;;
        'library '*': modules loaded='*)
            [ -n "${wanted[$name]:-}" ] || continue
            unset "wanted[$name]"
            left=$((left - 1))
            ;;
        'logic=proved '*)
            { [ -n "$crate" ] && [ -n "${wanted[$crate]:-}" ]; } || continue
            unset "wanted[$crate]"
            left=$((left - 1))
            echo "run.sh: $crate proved, $left left" >&2
            ;;
        esac
    done
}

prove() {
    need rt 'the Rattle kit, a folder that its makers hand out'
    echo 'run.sh: proving and building the unit, which takes some minutes the first time' >&2
    log=$(mktemp)
    trap 'rm -f "$log"' EXIT
    need ar "binutils, as a rule with gcc"
    bash "$root/archive.sh" 2>&1 | tee "$log" | progress || {
        cat "$log" >&2
        exit 1
    }
    # `exec` leaves no shell to do it at the end.
    rm -f "$log"
}

build() {
    need cargo 'Rust, from rustup or from packages of the system'
    cargo build --quiet --release --offline --manifest-path "$root/rust/Cargo.toml" -p runner
}

# With an archive from elsewhere, as the binding takes it, there is nothing to prove here, and cargo knows whether the
# runner was built on it.
if [ -n "${SME_MOVE_LIB_DIR:-}" ]; then
    if [ ! -f "$SME_MOVE_LIB_DIR/libsme_move.a" ]; then
        echo "run.sh: SME_MOVE_LIB_DIR: there is no libsme_move.a in $SME_MOVE_LIB_DIR" >&2
        exit 2
    fi
    SME_MOVE_LIB_DIR=$(cd "$SME_MOVE_LIB_DIR" && pwd)
    export SME_MOVE_LIB_DIR
    rm -f "$own"
    build
else
    # Out of crates/ only what a checkout has: checks leave their work in crates/NAME/out.
    made_of=("$root/crates.txt" "$root/archive.sh" "$root"/crates/*/src "$root"/crates/*/specs "$root"/crates/*/proofs)
    fresh "$archive" "${made_of[@]}" || prove
    sources=("$root/rust/runner" "$root/rust/sme_move" "$root/rust/Cargo.toml" "$archive")
    if [ ! -e "$runner" ] || ! fresh "$own" "$runner" "${sources[@]}"; then
        build
        touch "$own"
    fi
fi
exec "$runner" "$@"
