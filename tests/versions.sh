#!/usr/bin/env bash
# Headers and archives of different versions. A host of the last version before settings became an array (0.4, whose header
# is tests/c/old/0.4/sme_move.h) compiles with the header of today and runs; its object files link only where nothing that
# they call has changed. Object files made with the header of a version since then (0.5 to 0.8) go on linking and run, with
# the settings that came later as new settings have them, and with the results that they lend places for: the element came
# with 0.8 and the words of a listing with 0.9, and nothing is written behind the results that a host knows. Source that makes
# its settings by sme_settings_new goes on too. Source that writes them out, as an array or as a record, is answered 1 until it
# names the largest vector length, which came with 0.7 and is never 0. A host of a later header does not link with the
# archive of today.
# Build first: bash archive.sh
set -euo pipefail
export LC_ALL=C
cd "$(dirname "$0")/.."
archive=${SME_MOVE_LIB_DIR:-target/staticlib}/libsme_move.a
out=target/versions
rm -rf "$out"
mkdir -p "$out/later"
flags=(-std=c11 -O1 -Wall -Wextra -Wpedantic -Werror)

# host SOURCE FOLDER NAME [ARGUMENT...]: compiles it with the header of that folder, and tries to link it with these
host() {
    gcc "${flags[@]}" -I"$2" -c "$1" -o "$out/$3.o"
    gcc "$out/$3.o" "${@:4}" "$archive" -o "$out/$3" 2>"$out/$3.told"
}

# must_link SOURCE FOLDER NAME [ARGUMENT...]
must_link() {
    host "$@" || {
        echo "versions.sh: $3 does not link" >&2
        cat "$out/$3.told" >&2
        exit 1
    }
}

# must_run SOURCE FOLDER NAME: and find what it wants
must_run() {
    local printed
    must_link "$@"
    printed=$("$out/$3") || {
        echo "versions.sh: $3 ends with status $?: $printed" >&2
        exit 1
    }
    echo "$3: links, $printed"
}

# must_be_told SOURCE FOLDER NAME ANSWERS: what its calls with settings are answered, one after another, whatever it makes of
# that
must_be_told() {
    local told
    must_link "$1" "$2" "$3" -Wl,--wrap=sme_check,--wrap=sme_measure,--wrap=sme_execute_word "$out/answers.o"
    "$out/$3" >"$out/$3.printed" 2>"$out/$3.told" || true
    told=$(paste -sd ' ' "$out/$3.told")
    if [ "$told" != "$4" ]; then
        echo "versions.sh: $3 is told '$told', and should be told '$4'" >&2
        exit 1
    fi
    echo "$3: links, and is told '$told'"
}

# must_not_link SOURCE FOLDER NAME SYMBOL: because the archive has no such symbol
must_not_link() {
    if host "$1" "$2" "$3" || ! grep -Eq "undefined (reference to|symbol:) .?$4\b" "$out/$3.told"; then
        echo "versions.sh: $3 should not link for want of $4" >&2
        cat "$out/$3.told" >&2
        exit 1
    fi
    echo "$3: does not link, $4 is missing"
}

for source in words execute stack_check long_buffers results element; do
    must_run "tests/c/old/$source.c" include "old-source-$source"
done
must_run tests/c/old/words.c tests/c/old/0.4 old-object-words
for symbol in sme_execute sme_check_settings sme_lengths; do
    must_not_link tests/c/old/execute.c tests/c/old/0.4 old-object-execute "$symbol"
done

# must_run_all VERSION SOURCE...: object files made with the header of that version
must_run_all() {
    local source
    for source in "${@:2}"; do
        must_run "tests/c/old/$source.c" "tests/c/old/$1" "object-of-$1-$source"
    done
}

must_run_all 0.5 words execute results record array
must_run_all 0.6 words execute results record array stack_check
must_run_all 0.7 words execute results stack_check long_buffers
must_run_all 0.8 words execute results stack_check long_buffers element

# An array and a record that are written out give no largest vector length as object files of before 0.7, and a 0 where they
# are compiled with a header that knows it. It is answered 1, as it was by 0.7, and not taken for a length; with the length
# named, they run.
gcc "${flags[@]}" -Iinclude -c tests/c/old/answers.c -o "$out/answers.o"
must_be_told tests/c/old/array.c tests/c/old/0.6 object-of-0.6-array 'check 0 execute 0 execute 6'
must_be_told tests/c/old/record.c tests/c/old/0.6 object-of-0.6-record 'execute 0 execute 6'
must_be_told tests/c/old/array.c tests/c/old/0.7 object-of-0.7-array 'check 1 execute 1'
must_be_told tests/c/old/record.c tests/c/old/0.7 object-of-0.7-record 'execute 1 execute 1'
must_be_told tests/c/old/array.c tests/c/old/0.8 object-of-0.8-array 'check 1 execute 1'
must_be_told tests/c/old/record.c tests/c/old/0.8 object-of-0.8-record 'execute 1 execute 1'
must_be_told tests/c/old/array.c include source-of-0.5-array 'check 1 execute 1'
must_be_told tests/c/old/record.c include old-source-record 'execute 1 execute 1'
sed 's/\[SME_SETTING_MEMORY_ADDRESS\] = 0x1000,/& [SME_SETTING_LARGEST_VECTOR_BYTES] = B,/' tests/c/old/array.c >"$out/array.c"
sed 's/\.memory_address = 0x1000/&, .largest_vector_bytes = B/' tests/c/old/record.c >"$out/record.c"
for source in array record; do
    must_run "$out/$source.c" tests/c/old/0.7 "object-of-0.7-mended-$source"
    must_run "$out/$source.c" tests/c/old/0.8 "object-of-0.8-mended-$source"
    must_run "$out/$source.c" include "mended-source-$source"
done

# The header of a later version that adds a setting or a result, in hosts that make settings and in those that do not.
sed 's/sme_version_0_9/sme_version_0_10/' include/sme_move.h >"$out/later/sme_move.h"
for source in words execute; do
    must_not_link "tests/c/old/$source.c" "$out/later" "later-header-$source" sme_version_0_10
done

# A program that only wants the header's names needs no archive.
echo '#include "sme_move.h"' | gcc "${flags[@]}" -DSME_MOVE_WITHOUT_ARCHIVE -Iinclude -x c -c - -o "$out/names.o"
if nm "$out/names.o" | grep -q sme_; then
    echo 'versions.sh: the header by itself needs the archive' >&2
    exit 1
fi
