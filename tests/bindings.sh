#!/usr/bin/env bash
# Builds the static library, then both examples and the tests of both bindings, runs them, and compares what the examples
# write with bindings/expected.txt. Needs rt, cc and cargo; nothing is taken from a registry.
set -euo pipefail
cd "$(dirname "$0")/.."
work=$(mktemp -d)
trap 'rm -rf "$work"' EXIT

(cd crates/export && rt lib)

for program in example test; do
    "${CC:-cc}" -std=c11 -Wall -Wextra -Wpedantic -Werror -O2 -I include "bindings/c/$program.c" crates/export/out/libexport.a \
        -o "$work/$program"
done
"$work/test"
"$work/example" >"$work/c.txt"
diff bindings/expected.txt "$work/c.txt"

export LISTOCHUR_LIB=$PWD/crates/export/out
cargo test --offline --quiet --manifest-path bindings/rust/Cargo.toml
cargo run --offline --quiet --manifest-path bindings/rust/Cargo.toml --example mark >"$work/rust.txt"
diff bindings/expected.txt "$work/rust.txt"

echo "bindings: ok"
