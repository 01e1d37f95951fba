#!/bin/sh
# Instructions for a byte of script, by callgrind, of the rows that the benchmark times: both sides on the same inputs. They do
# not depend on the machine's load. `cargo build --release` builds the benchmark.
#
#     ./counts.sh [ROW..]
set -e
cd "$(dirname "$0")"
program=target/release/bench
[ -x "$program" ] || { echo "no $program: run 'cargo build --release'" >&2; exit 2; }
work=$(mktemp -d)
trap 'rm -rf "$work"' EXIT

instructions() { # WORDS of the benchmark
    valgrind --tool=callgrind --callgrind-out-file="$work/out" "$program" "$@" 2>&1 >"$work/said" | sed -n 's/.*Collected : \([0-9]*\).*/\1/p'
}

[ $# -gt 0 ] || set -- 0 1 2 3 4 5 6 7 8 9 10 11
none=$(instructions 1000)
for row in "$@"; do
    ours=$(instructions "$row")
    bytes=$(sed -n 's/ bytes.*//p' "$work/said")
    rust=$(instructions "$row" rust)
    awk -v k="$row" -v n="$none" -v a="$ours" -v b="$rust" -v bytes="$bytes" 'BEGIN {
        a = (a - n) / bytes / 10; b = (b - n) / bytes / 10
        printf "%2d   ours %6.0f   Rust %6.0f   ratio %.2f\n", k, a, b, a / b
    }'
done
