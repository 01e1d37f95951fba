#!/bin/sh
# Instructions of one stack operation, by callgrind, over the program stack_bench: docs/SPEED.md, "Stack operations".
#
#     tools/stack_counts.sh
#
# A count is that of 4,000 repetitions less that of none, for one repetition. `tools/program.sh stack_bench` builds it.
set -e
cd "$(dirname "$0")/.."
program=crates/stack_bench/out/stack_bench
[ -x "$program" ] || { echo "no $program: run 'tools/program.sh stack_bench'" >&2; exit 2; }
work=$(mktemp -d)
trap 'rm -rf "$work"' EXIT

letters() { # FIRST REPEATED TIMES
    printf %s "$1"
    awk -v s="$2" -v n="$3" 'BEGIN { for (i = 0; i < n; i++) printf "%s", s }'
}

instructions() { # FILE
    valgrind --tool=callgrind --callgrind-out-file="$work/out" "$program" <"$1" 2>&1 >"$work/said" | sed -n 's/.*Collected : \([0-9]*\).*/\1/p'
}

count() { # NAME FIRST REPEATED
    letters "$2" "$3" 0 >"$work/none"
    letters "$2" "$3" 4000 >"$work/many"
    none=$(instructions "$work/none")
    many=$(instructions "$work/many")
    printf '%-44s %6d\n' "$1" $(((many - none) / 4000))
}

count 'push 51, drop' '' pd
count 'plain effect (0 and 1), drop' '' ud
count 'plain effect (0 and 1) over exact, drop' '' pdud
count 'DUP of unknown, drop' '' cd
count 'DUP of exact, drop' p cd
count 'plain effect (2 and 1), DUP' '' ec
count 'ROT of unknown' '' r
count 'ROT of exact' ppp r
count 'to alt and from alt of unknown' '' tf
count 'to alt and from alt of exact' p tf
count 'join at 200 items' '' j
