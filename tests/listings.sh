#!/usr/bin/env bash
# Runs random listings in one call of the proved archive, by its single calls one after another and in the second
# program, and compares answer, address, element, words done and every buffer; then shows that each deliberately wrong
# second program is noticed. It takes about ten seconds on one core.
#   tests/listings.sh [--seed S] [--count N]
# Unless N says otherwise there are 200,000 listings of up to 200 words, among which every answer stops runs at every
# part of a listing where it can, with every kind of allowance, and words of every encoding are done at every vector
# length in buffers for every one that is not below it, with the stack check on and off.
# Build first: bash archive.sh, then cargo build --release --manifest-path rust/Cargo.toml
set -euo pipefail
cd "$(dirname "$0")/.."
listings=rust/target/release/listings

"$listings" "$@"
for mistake in HighestByteFirst StoppingWordCounted AllowanceOneMore AllowanceOneLess NineBeforeTwo EmptyNotChecked \
    ZeroNotChecked NineOnlyWhereReached NoNine GoesOnAfterRefusal LaterWordsUndone AllowanceIn32Bits CountIsOfWords \
    FaultForgotten SwitchesCheckedFirst UndecodableFoundFirst MemoryEndNotChecked; do
    "$listings" "$@" --mistake "$mistake" | tail -1
done
