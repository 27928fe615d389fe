#!/usr/bin/env bash
# Compares the proved archive with the second program exhaustively: all 2^32 words at all levels, pairs of
# the eleven numbers replaced by all values, and ten million random states. It takes some minutes on all cores.
#   tests/exhaustive.sh [--words] [--fields] [--executions] [option...]      --help tells of the others
# Build first: bash archive.sh, then cargo build --release --manifest-path rust/Cargo.toml
set -euo pipefail
cd "$(dirname "$0")/.."

exec rust/target/release/exhaustive "$@"
