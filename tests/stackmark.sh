#!/bin/sh
# Runs the program stackmark, which `tools/program.sh stackmark` builds, on papers of every kind, and compares what it prints. Says
# how many passed, and exits 1 on a difference.
name=stackmark
. "$(dirname "$0")/common.sh"

# zeros N: so many bytes 00; nothings N: so many bytes 61
zeros() {
    head -c "$1" /dev/zero
}
nothings() {
    head -c "$1" /dev/zero | tr '\000' a
}

# slowly N: standard input in pieces of N bytes, with a pause behind each
slowly() {
    while piece=$(dd bs="$1" count=1 2>/dev/null | od -An -v -tx1) && [ -n "$piece" ]; do
        hex $piece
        sleep 0.02
    done
}

# same NAME TEXT: what was printed into $work/out is TEXT
same() {
    printf "$2" >"$work/expected"
    compare "$1"
}

# on NAME TEXT: the paper on standard input prints TEXT
on() {
    "$program" >"$work/out"
    same "$1" "$2"
}

sample='entry 0 peak 2 end 1 0\naccepted\n'
on "the paper of section 6" "$sample" <"$work/sample"

on "no byte" 'refused 19 at 0 0 0 0\n' </dev/null
head -c 7 "$work/sample" >"$work/paper"
on "seven bytes" 'refused 19 at 0 0 0 0\n' <"$work/paper"

# as many bytes as a paper may have, one more, and many more
(cat "$work/sample" && zeros 7980) >"$work/paper"
on "8,000 bytes" "$sample" <"$work/paper"
(cat "$work/sample" && zeros 7981) >"$work/paper"
on "8,001 bytes" 'refused 21 at 0 0 8001 8000\n' <"$work/paper"
(cat "$work/sample" && zeros 8980) >"$work/paper"
on "9,000 bytes" 'refused 21 at 0 0 8001 8000\n' <"$work/paper"

# short reads
slowly 1 <"$work/sample" | "$program" >"$work/out"
same "a byte at a time" "$sample"
(cat "$work/sample" && zeros 7980) | slowly 999 | "$program" >"$work/out"
same "8,000 bytes in pieces" "$sample"
(cat "$work/sample" && zeros 8980) | slowly 999 2>/dev/null | "$program" >"$work/out"
same "9,000 bytes in pieces" 'refused 21 at 0 0 8001 8000\n'

# a log of 24,000 numbers has room for the longest body
(hex 01 00 00 00 0e 00 00 00 00 00 0e 00 32 1f && nothings 7986) >"$work/paper"
on "a body of 7,986 instructions" 'entry 0 peak 0 end 0 0\naccepted\n' <"$work/paper"

hex 02 00 00 00 14 00 02 00 00 00 16 00 01 00 02 00 17 00 01 00 75 75 51 75 >"$work/paper"
on "an initialiser" 'entry 0 peak 1 end 1 0\nentry 1 peak 2 end 1 0\nstate peak 3 end 0 1\naccepted\n' <"$work/paper"

hex 01 00 00 00 0e 00 00 00 00 00 0e 00 02 00 6a ff >"$work/paper"
on "no end" 'entry 0 peak 0 end none\naccepted\n' <"$work/paper"

hex 02 00 00 00 14 00 00 00 66 00 14 00 01 00 00 00 15 00 03 00 6a 51 75 75 >"$work/paper"
on "refused in entry 1" 'entry 0 peak 102 end none\nrefused 7 at 1 2 1 0\n' <"$work/paper"

hex 01 00 00 00 0e 00 03 00 01 00 11 00 00 00 51 75 ff >"$work/paper"
on "refused in the initialiser" 'entry 0 peak 1 end 1 0\nrefused 11 at 1 2 255 0\n' <"$work/paper"

hex 01 00 01 00 0e 00 00 00 f1 00 0e 00 00 00 >"$work/paper"
on "refused by the dispatch check" 'refused 20 at 0 0 245 244\n' <"$work/paper"

hex 01 00 00 00 0e 00 00 00 01 00 0e 00 0a 00 08 ff ff ff ff ff ff ff 7f 79 >"$work/paper"
on "a figure of 19 digits" 'refused 7 at 0 9 9223372036854775808 1\n' <"$work/paper"

# 32 entries with 241 parameters and an empty body each, and an initialiser of one instruction
hex 20 00 00 00 c8 00 01 00 >"$work/paper"
lines=''
k=0
while [ "$k" -lt 32 ]; do
    hex f1 00 c9 00 00 00 >>"$work/paper"
    lines="${lines}entry $k peak 241 end 241 0\\n"
    k=$((k + 1))
done
hex 61 >>"$work/paper"
on "32 entries and an initialiser" "${lines}state peak 242 end 241 1\\naccepted\\n" <"$work/paper"

# reads and writes that fail
"$program" <"$work" >"$work/out" 2>"$work/said"
fails "a directory" "cannot read standard input"
"$program" <&- >"$work/out" 2>"$work/said"
fails "a closed input" "cannot read standard input"
: >"$work/out"
"$program" <"$work/sample" 2>"$work/said" >/dev/full
fails "a full disk" "cannot write to standard output"
: >"$work/out"
"$program" <"$work/sample" 2>"$work/said" >&-
fails "a closed output" "cannot write to standard output"

finish
