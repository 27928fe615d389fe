#!/usr/bin/env bash
# Proves the unit and builds the archive that hosts link, target/staticlib/libsme_move.a. It has two objects, one made of the
# crate sme_move and one of sme_listing: each has all of execution compiled into it, so that neither a single word nor a
# listing pays for the other (docs/DECISIONS.md, 'sme_listing').
#   archive.sh              proves, builds and joins them
#   archive.sh --join DIR   only joins DIR/libsme_listing.a to DIR/libsme_move.a, where both are there already
set -euo pipefail
root=$(cd "$(dirname "$(readlink -f "${BASH_SOURCE[0]}")")" && pwd)

# An archive that lacks one of its objects is not left behind.
half=
parts=$(mktemp -d)
trap 'rm -rf "$parts" ${half:+"$half"}' EXIT

# join DIR: the object of listings becomes a part of the archive, in the place of one that it may have
join() {
    (cd "$parts" && ar x "$1/libsme_listing.a")
    half=$1/libsme_move.a
    ar rsD "$half" "$parts"/*.o
    half=
}

case ${1:-} in
'')
    to=$root/target/staticlib
    mkdir -p "$to"
    half=$to/libsme_move.a
    # An archive of an earlier run does not stand for one that is not proved.
    rm -f "$half" "$to/libsme_listing.a"
    for crate in sme_listing sme_move; do
        (cd "$root/crates/$crate" && rt lib)
        cp "$root/crates/$crate/out/lib$crate.a" "$to/"
    done
    join "$to"
    echo 'archive.sh: target/staticlib/libsme_move.a has the function of sme_listing too'
    ;;
--join)
    join "$(cd "${2:?archive.sh: --join takes a folder}" && pwd)"
    ;;
*)
    echo 'archive.sh: without an argument, or with --join DIR' >&2
    exit 2
    ;;
esac
