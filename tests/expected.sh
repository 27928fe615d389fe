#!/usr/bin/env bash
# The inputs and expected outputs of the proved programs, made by the second program.
#   tests/expected.sh            writes them beside the programs
#   tests/expected.sh --check    makes them anew and fails where they differ from what is stored
# Build the second program first: cargo build --release --manifest-path rust/Cargo.toml
set -euo pipefail
cd "$(dirname "$0")/.."
second=rust/target/release/second

if [ "${1:-}" = --check ]; then
    made=$(mktemp -d)
    trap 'rm -rf "$made"' EXIT
else
    made=crates
fi
mkdir -p "$made/decode_words" "$made/encode_fields" "$made/count_words"
"$second" words >"$made/decode_words/stdin"
"$second" decode <"$made/decode_words/stdin" >"$made/decode_words/stdout"
"$second" fields >"$made/encode_fields/stdin"
"$second" encode <"$made/encode_fields/stdin" >"$made/encode_fields/stdout"
"$second" count >"$made/count_words/stdout"
[ "${1:-}" = --check ] || exit 0
for file in decode_words/stdin decode_words/stdout encode_fields/stdin encode_fields/stdout count_words/stdout; do
    cmp "$made/$file" "crates/$file" || {
        echo "crates/$file is not what the second program makes: see tests/expected.sh" >&2
        exit 1
    }
done
