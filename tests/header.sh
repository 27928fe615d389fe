#!/usr/bin/env bash
# Calls the archive through include/sme_move.h from C11 and C++, warnings as errors, with sanitizers; then shows that
# deliberately wrong units and deliberately wrong copies of the header are each noticed.
# Build first: bash archive.sh
set -euo pipefail
cd "$(dirname "$0")/.."
archive=${SME_MOVE_LIB_DIR:-target/staticlib}/libsme_move.a
out=target/header
wrong=$out/wrong
rm -rf "$out"
mkdir -p "$wrong"
sanitize=("-fsanitize=address,undefined" -fno-sanitize-recover=all)
flags=(-O1 -g -Wall -Wextra -Wpedantic -Wconversion -Wshadow -Werror "${sanitize[@]}")

# compile SOURCE OBJECT FOLDER: with the header of that folder
compile() {
    gcc -std=c11 "${flags[@]}" -I"$3" -c "$1" -o "$2"
}

# link OUTPUT OBJECT...: with the archive
link() {
    gcc "${sanitize[@]}" "${@:2}" "$archive" -o "$1"
}

# must_notice NAME COMMAND...: the tests with the mistake of that name must end by a check that fails
must_notice() {
    local status=0
    "${@:2}" >"$out/told" 2>&1 || status=$?
    if [ "$status" != 1 ] || ! grep -q '^tests/c/[a-z_]*\.c:' "$out/told"; then
        echo "header.sh: $1: NOT noticed, status $status" >&2
        tail -20 "$out/told" >&2
        exit 1
    fi
    echo "$1: noticed, $(grep -m 1 '^tests/c/' "$out/told")"
}

# wrong_header NAME SOURCE EDIT: the tests, of which this source is compiled with a copy of the header that sed has changed
wrong_header() {
    local object
    local -a objects=()
    sed "$3" include/sme_move.h >"$wrong/sme_move.h"
    if cmp -s include/sme_move.h "$wrong/sme_move.h"; then
        echo "header.sh: $1: there is no such line to change" >&2
        exit 1
    fi
    compile "tests/c/$2.c" "$wrong/$2.o" "$wrong"
    for object in "${right[@]}"; do
        [ "$object" = "$out/$2.o" ] || objects+=("$object")
    done
    link "$wrong/interface" "$wrong/$2.o" "${objects[@]}"
    must_notice "$1" "$wrong/interface"
}

right=()
for source in tests/c/*.c; do
    object=$out/$(basename "$source" .c).o
    compile "$source" "$object" include
    right+=("$object")
done
link "$out/interface" "${right[@]}"
"$out/interface"
g++ -std=c++11 "${flags[@]}" -Iinclude tests/c/header.cpp "$archive" -o "$out/header"
"$out/header"

# wrong_units SOURCE FUNCTION NAME...: the tests, with this function made wrong by each mistake of the source; with none of
# them they find nothing
wrong_units() {
    local mistake unit=$wrong/$1-unit
    compile "tests/c/wrong/$1.c" "$unit.o" include
    link "$unit" "-Wl,--wrap=$2" "$unit.o" "${right[@]}"
    WRONG=None "$unit" >"$out/told"
    for mistake in "${@:3}"; do
        must_notice "$mistake" env WRONG="$mistake" "$unit"
    done
}

wrong_units execute sme_execute_word \
    XIn16Bits XIn32Bits XBytesIn16Bits XBytesIn32Bits ZIn16Bits ZIn32Bits PIn16Bits PIn32Bits ZaIn16Bits ZaIn32Bits \
    MemoryLengthIn16Bits MemoryLengthIn32Bits MemoryOffsetIn16Bits MemoryOffsetIn32Bits EndOffsetIn16Bits \
    EndOffsetIn32Bits StoreOffsetIn16Bits StoreOffsetIn32Bits StoreTwiceIn16Bits StoreTwiceIn32Bits MemoryEndIn32Bits \
    LongMemoryRefused LargestMissing LargestMissingIfZero LargestIn16Bits LargestIn32Bits LargestBelowPasses PredicatesClose PredicatesLong \
    ClearsBeyondZ ClearsBeyondZa ClearsZaFromB ElementMissing ElementKept ElementWithoutPlace ElementAsByte ElementFromOne \
    ElementFromOneInColumns ElementFromOneInLongStores ElementAsAddress FirstActiveElement FirstElementOutside
wrong_units listing sme_run_listing \
    HighestByteFirst AllowanceOneMore AllowanceOneLess AllowanceIn16Bits AllowanceIn32Bits AllowanceInBytes AllowanceSigned \
    LengthIn16Bits LengthIn32Bits WordsIn16Bits WordsIn32Bits NineBeforeOne NineBeforeTwo NineOnlyWhereReached \
    NineNotWithAllowance0 NineNever EmptyNotChecked Allowance0NotChecked GoesOnAfterRefusal RefusalUndoesAll \
    StoppingWordCounted CountIn16Bits WordsMissing WordsKept WordsWithoutPlace WordsFirst FaultMissing

wrong_header WithZaSetsStreaming wrapper_tests 's/settings\.za_on = on;/& settings.streaming = on;/'
wrong_header WithZaOnlySwitchesOn wrapper_tests 's/settings\.za_on = on;/settings.za_on = settings.za_on || on;/'
wrong_header WithStreamingIgnoresArgument wrapper_tests 's/settings\.streaming = on;/settings.streaming = true, (void)on;/'
wrong_header WithStackCheckInverted wrapper_tests 's/settings\.stack_check_off = !on;/settings.stack_check_off = on;/'
wrong_header GivesStackCheckInverted wrapper_tests 's/= settings\.stack_check_off;/= !settings.stack_check_off;/'
wrong_header StackCheckOffWhenMade settings_tests 's/settings\.stack_check_off = false;/settings.stack_check_off = true;/'
wrong_header WithinIgnoresLargest wrapper_tests 's/settings\.largest_vector_bytes = largest_vector_bytes;/settings.largest_vector_bytes = vector_bytes, (void)largest_vector_bytes;/'
wrong_header NewHasNoLargest wrapper_tests 's/sme_settings_within(vector_bytes, vector_bytes, level)/sme_settings_within(vector_bytes, 0, level)/'
wrong_header NewHasTheLongest wrapper_tests 's/sme_settings_within(vector_bytes, vector_bytes, level)/sme_settings_within(vector_bytes, SME_MAX_VECTOR_BYTES, level)/'
wrong_header WithStreamingForgetsLargest wrapper_tests 's/settings\.streaming = on;/& settings.largest_vector_bytes = settings.vector_bytes;/'
wrong_header GivesLargestAsVectorLength wrapper_tests 's/= settings\.largest_vector_bytes;/= settings.vector_bytes;/'
wrong_header GivesVectorLengthAsLargest wrapper_tests 's/= settings\.vector_bytes;/= settings.largest_vector_bytes;/'
wrong_header MakeWithinIgnoresLargest settings_tests 's/sme_settings_within(vector_bytes, largest_vector_bytes, level);/sme_settings_within(vector_bytes, vector_bytes, level), (void)largest_vector_bytes;/'
wrong_header MakeWithinKeepsRefused settings_tests 's/sme_settings_new(SME_MIN_VECTOR_BYTES, 0)/sme_settings_within(SME_MIN_VECTOR_BYTES, largest_vector_bytes, 0)/'
wrong_header MakeHasTheLongest settings_tests 's/sme_settings_make_within(vector_bytes, vector_bytes, level, settings)/sme_settings_make_within(vector_bytes, SME_MAX_VECTOR_BYTES, level, settings)/'
wrong_header WithMemoryAddressSetsLevel wrapper_tests 's/settings\.memory_address = address;/& settings.level = SME_MAX_LEVEL;/'
wrong_header NewIgnoresVectorLength wrapper_tests 's/settings\.vector_bytes = vector_bytes;/settings.vector_bytes = 16, (void)vector_bytes;/'
wrong_header GivesStreamingAsZa wrapper_tests 's/given\[SME_SETTING_ZA_ON\] = settings\.za_on;/given[SME_SETTING_ZA_ON] = settings.streaming;/'
exchange='s/SME_RESULT_ADDRESS,/SME_RESULT_ONE,/; s/SME_RESULT_ELEMENT,/SME_RESULT_ADDRESS,/; s/SME_RESULT_ONE,/SME_RESULT_ELEMENT,/'
wrong_header ExchangesResults wrapper_tests "$exchange"
wrong_header ExchangesResultsWanted machine "$exchange"
wrong_header ExecuteResultsLendsOne wrapper_tests 's/results, results_count, word)/results, results_count > 1 ? 1 : results_count, word)/'
wrong_header ExecuteResultsLendsAll wrapper_tests 's/results, results_count, word)/results, results_count > 0 ? SME_RESULT_COUNT : 0, word)/'
wrong_header ExecuteLendsTwo wrapper_tests 's/buffers, address, 1)/buffers, address, 2)/'
wrong_header ExecuteLendsNone wrapper_tests 's/buffers, address, 1)/buffers, address, 0)/'
exchange='s/SME_RESULT_WORDS,/SME_RESULT_ONE,/; s/SME_RESULT_ELEMENT,/SME_RESULT_WORDS,/; s/SME_RESULT_ONE,/SME_RESULT_ELEMENT,/'
wrong_header ExchangesWordsAndElement wrapper_tests "$exchange"
wrong_header ExchangesWordsAndElementWanted listing "$exchange"
wrong_header RunLendsTwo wrapper_tests 's/results, results_count, listing,/results, results_count > 2 ? 2 : results_count, listing,/'
wrong_header RunLendsAll wrapper_tests 's/results, results_count, listing,/results, results_count > 0 ? SME_RESULT_COUNT : 0, listing,/'
wrong_header RunExchangesListingAndMemory wrapper_tests 's/buffers\.memory, buffers\.memory_bytes,$/(uint8_t *)listing, listing_bytes,/; s/listing, listing_bytes, allowance)/buffers.memory, buffers.memory_bytes, allowance)/'
wrong_header RunCountsWords wrapper_tests 's/listing, listing_bytes, allowance)/listing, listing_bytes \/ 4, allowance)/'
wrong_header RunForgetsAllowance wrapper_tests 's/listing, listing_bytes, allowance)/listing, listing_bytes, allowance | SME_ALLOWANCE_ALL)/'
wrong_header AllowanceAllIn32Bits wrapper_tests 's/define SME_ALLOWANCE_ALL UINT64_MAX/define SME_ALLOWANCE_ALL UINT32_MAX/'
wrong_header BadListingIsTen wrapper_tests 's/SME_BAD_LISTING = 9/SME_BAD_LISTING = 10/'
wrong_header AnotherTextOfBadListing wrapper_tests 's/"the listing is not made of whole words"/"the listing is cut"/'
wrong_header AnotherText wrapper_tests 's/"the array is off"/"the array is not on"/'
wrong_header TextOfNoAnswer wrapper_tests 's/"no answer of this version"/"done"/'
wrong_header ServesAll wrapper_tests 's/archive >= SME_MOVE_VERSION/archive >= SME_MOVE_VERSION || archive > 0/'
wrong_header ServesOlder wrapper_tests 's/archive >= SME_MOVE_VERSION/archive <= SME_MOVE_VERSION/'
wrong_header MakeKeepsRefused settings_tests 's/sme_settings_new(SME_MIN_VECTOR_BYTES, 0)/sme_settings_new(vector_bytes, 0)/'
wrong_header LengthsOfShortest settings_tests 's/sme_settings_lengths(sme_settings_new(vector_bytes, 0), lengths)/sme_settings_lengths(sme_settings_new(vector_bytes == 256 ? 16 : vector_bytes, 0), lengths)/'
wrong_header ExecuteExchangesSwitches machine 's/settings\.streaming = streaming;/settings.streaming = za_on, za_on = streaming;/'
wrong_header ExecuteAtHighestLevel machine 's/sme_settings settings = sme_settings_new(vector_bytes, level);/sme_settings settings = sme_settings_new(vector_bytes, level < 4 ? 3 : level);/'
wrong_header ExecuteForgetsMemoryAddress machine 's/settings\.memory_address = memory_address;/(void)memory_address;/'
