#!/usr/bin/env bash
# Runs random states through the proved archive and the second program, and compares every buffer,
# answer, address and element, of all words and then of those that each request added; in buffers for
# longer vectors the archive runs each state again with every byte beyond the vector length inverted.
# Then shows that each deliberately wrong second program is noticed.
#   tests/compare.sh [--seed S] [--count N]
# Unless N says otherwise there are 1,000,000 cases of all words, among which every encoding gets every answer that it
# can get at every vector length in buffers for every one that is not below it, and every one with a predicate is done
# on rows under every kind of whole predicate byte and block of eight bytes that its element size can have; loads and
# stores of every element size and direction get answer 7, of every size a third and more for an element above 0. Then
# 310,000 of the words of request 1 and 340,000 of those of request 2, so that of each more than 200,000 are done.
# Build first: bash archive.sh, then cargo build --release --manifest-path rust/Cargo.toml
set -euo pipefail
cd "$(dirname "$0")/.."
compare=rust/target/release/compare

"$compare" "$@"
"$compare" --count 310000 "$@" --request 1
"$compare" --count 340000 "$@" --request 2
for mistake in TileAsBlock SliceModuloVectorLength BaseThirtyOneAsZero OffsetThirtyOneAsStackPointer \
    PredicateBitPerElement StoreBeforeFault IndexAddTrapsAt32Bits InactiveZeroed FourByStrideOfTwo \
    BitNineIgnored LoadKeepsInactive LoadKeepsTrailing OffsetNotScaled FaultAtElement FirstByteChecked BigEndian \
    LongMemoryRefused FarBytesOutside MemoryLengthIn16Bits MemoryOffsetIn16Bits StackSwitchIgnored \
    StackSwitchInverted StackSwitchForStoresOnly RegistersPacked PredicatesPacked ZaVectorsPacked \
    LengthsByVectorLength LargestBelowAccepted BeyondCleared GroupsByLargest SlicesByLargest ElementAsByteOfSlice \
    ElementAsByte ElementAsVector ElementFirstActive ElementAmongActive ElementInactive ElementLowestInMemory \
    ElementLeftOver; do
    "$compare" "$@" --mistake "$mistake" | tail -1
done
