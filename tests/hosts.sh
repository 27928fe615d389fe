#!/usr/bin/env bash
# Takes the kernel and the hosts in C and in Rust out of the README, runs them with the commands that stand there, and
# holds what they print to what stands there.
# Build first: bash archive.sh
set -euo pipefail
cd "$(dirname "$0")/.."
root=$PWD
# Outside the checkout, since it has links, and `rt ci` refuses a checkout that has any.
out=$(mktemp -d)
trap 'rm -rf "$out"' EXIT

# block LANGUAGE N: the N-th fenced block of that language
block() {
    awk -v language="$1" -v wanted="$2" '
        inside && $0 == "```" { inside = 0 }
        inside && count == wanted { print; found = 1 }
        !inside && $0 == "```" language { inside = 1; count++ }
        END { exit !found }' README.md
}

# The commands are to be given in the repository's folder: here a folder that looks like it.
ln -s "$root/include" "$root/rust" "$root/run.sh" "$out/"
mkdir "$out/target"
ln -s "$root/target/staticlib" "$out/target/"

block kernel 1 >"$out/kernel.txt"
block c 1 >"$out/host.c"
block rust 1 >"$out/host.rs"
for host in 1 2 3; do
    block sh "$host" >"$out/commands"
    block text "$host" >"$out/expected"
    (cd "$out" && bash -euo pipefail commands) >"$out/printed"
    diff "$out/expected" "$out/printed" || {
        echo "hosts.sh: example $host of the README prints something else than stands there" >&2
        exit 1
    }
done

# By now all is made, so that run.sh asks neither the prover nor cargo.
mkdir "$out/stubs"
printf '#!/bin/sh\necho "hosts.sh: run.sh makes something again" >&2\nexit 1\n' | tee "$out/stubs/rt" >"$out/stubs/cargo"
chmod +x "$out/stubs/rt" "$out/stubs/cargo"
PATH=$out/stubs:$PATH ./run.sh --help >"$out/help"
diff "$out/help" rust/runner/src/help.txt

# The README shows a part of what the built-in kernel prints.
block output 1 >"$out/part"
awk -v first="$(head -1 "$out/part")" -v lines="$(wc -l <"$out/part")" '
    $0 == first { on = 1 }
    on && count++ < lines' rust/runner/tests/example.stdout | diff - "$out/part"
echo "the kernel and the hosts of the README print what stands there"
