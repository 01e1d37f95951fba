#!/bin/sh
# tests/trial_table.sh: the marker reads the table of classes. In a trial copy whose table calls 61 unmodelled, which no proof
# covers, a body `61` is refused with 11; where 61 is dead code, and in the tree as it is, it is accepted. `rt try` runs a
# program without its proof, on the interpreter and compiled, and compares what it prints.
name=stackmark
. "$(dirname "$0")/common.sh"

# body TREE NAME LINES BYTES..: of a paper of one entry without parameters, with this body, `stackmark` of that tree is to print
# these lines
body() {
    file=$work/$1.bodies/$2
    lines=$3
    shift 3
    hex 01 00 00 00 0e 00 00 00 00 00 0e 00 "$(printf %02x $#)" 00 "$@" >"$file"
    printf "$lines" >"$file.stdout"
}

# prints TREE: it does, of each body, and so does the interpreter
prints() {
    (cd "$work/$1/crates/stackmark" && rt try --cases "$work/$1.bodies") >"$work/out" 2>&1
    for file in "$work/$1.bodies"/*.stdout; do
        tried=${file##*/}
        tried=${tried%.stdout}
        if grep -q "^case=$tried run=ended status=0 runners=2 output=expected " "$work/out"; then
            passed=$((passed + 1))
        else
            failed=$((failed + 1))
            echo "$tried, in the $1 tree:"
            sed 's/^/    /' "$work/out"
        fi
    done
}

for tree in whole trial; do
    mkdir "$work/$tree" "$work/$tree.bodies" && cp "$root/crates.txt" "$work/$tree" || exit 1
    for crate in "$root"/crates/*; do
        mkdir -p "$work/$tree/crates/${crate##*/}" || exit 1
        # without out/, which is rt's own
        for part in "$crate"/*; do
            [ "${part##*/}" = out ] || cp -r "$part" "$work/$tree/crates/${crate##*/}" || exit 1
        done
    done
done
sed -i 's|^    NOTHING, // 61$|    UNMODELLED, // 61|' "$work/trial/crates/opcodes/src/lib.rt"
if cmp -s "$work/whole/crates/opcodes/src/lib.rt" "$work/trial/crates/opcodes/src/lib.rt"; then
    echo "tests/trial_table.sh: the entry of 61 was not found" >&2
    exit 1
fi

body whole live 'entry 0 peak 0 end 0 0\naccepted\n' 61
body trial live 'refused 11 at 0 0 97 0\n' 61
body whole dead 'entry 0 peak 0 end none\naccepted\n' 6a 61
body trial dead 'entry 0 peak 0 end none\naccepted\n' 6a 61
prints whole
prints trial

echo "tests/trial_table.sh: $passed passed, $failed failed"
[ "$failed" -eq 0 ]
