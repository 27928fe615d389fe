#!/usr/bin/env bash
# Takes tiles and gives them up in the proved archive and in the second program, and compares answer, tile, count and
# every number of the array: from random arrays, most of them bad, and from every set of tiles that can be held; then
# shows that each deliberately wrong second program is noticed. It takes about ten seconds on two cores.
#   tests/tiles.sh [--seed S] [--count N]
# Build first: bash archive.sh, then cargo build --release --manifest-path rust/Cargo.toml
set -euo pipefail
cd "$(dirname "$0")/.."
tiles=rust/target/release/tiles

"$tiles" "$@"
for mistake in NeighbouringVectors HighestFree HeldBeforeSize OverlapOfSizesMissed GivenUpByNumber; do
    "$tiles" "$@" --mistake "$mistake" | tail -1
done
