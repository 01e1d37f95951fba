# What the tests of the programs share; the caller has set `name`, the program's, and sources this file.
root=$(cd "$(dirname "$0")/.." && pwd) || exit 1
program=$root/crates/$name/out/$name
if [ ! -x "$program" ]; then
    echo "tests/$name.sh: $program is missing: run tools/program.sh $name" >&2
    exit 1
fi
work=$(mktemp -d) || exit 1
trap 'rm -rf "$work"' EXIT
passed=0
failed=0

# hex BYTES..: the bytes that these hexadecimal numbers stand for
hex() {
    for byte in "$@"; do
        printf "\\$(printf %03o "0x$byte")"
    done
}

# compare NAME: what was printed into $work/out is what $work/expected holds
compare() {
    if cmp -s "$work/out" "$work/expected"; then
        passed=$((passed + 1))
    else
        failed=$((failed + 1))
        echo "$1: expected"
        sed 's/^/    /' "$work/expected"
        echo "and got"
        sed 's/^/    /' "$work/out"
    fi
}

# fails NAME WORDS: what was printed into $work/out is nothing, and what was said into $work/said is these words
fails() {
    : >"$work/expected"
    compare "$1"
    printf '%s: %s\n' "$name" "$2" >"$work/expected"
    cp "$work/said" "$work/out"
    compare "$1, said"
}

# The paper of document 01, section 6
hex 01 00 01 00 0e 00 00 00 01 00 0e 00 06 00 63 51 67 52 68 75 >"$work/sample"

# finish: says how many passed, and fails where one did not
finish() {
    echo "tests/$name.sh: $passed passed, $failed failed"
    [ "$failed" -eq 0 ]
}
