#!/bin/sh
# Runs the program stacklog, which `tools/program.sh stacklog` builds, on papers of every kind, and compares what it prints. Says
# how many passed, and exits 1 on a difference.
name=stacklog
. "$(dirname "$0")/common.sh"

# field N: a number as two bytes, lowest first
field() {
    hex "$(printf %x $(($1 % 256)))" "$(printf %x $(($1 / 256)))"
}

# paper PARAMETERS BYTES..: a paper of one entry with these parameters, no state fields and this body
paper() {
    parameters=$1
    shift
    field 1 && field 0 && field 14 && field 0
    field "$parameters" && field 14 && field $#
    hex "$@"
}

# repeat N TEXT..: the words so many times
repeat() {
    count=$1
    shift
    while [ "$count" -gt 0 ]; do
        printf '%s ' "$@"
        count=$((count - 1))
    done
}

# What a line is made of: `bar N` with so many of 16 places filled, `heading SCALE` over the columns, `dead`
bar() {
    printf "|%.${1}s%.$((16 - $1))s|" "################" "................"
}
heading() {
    printf 'offset main  alt total |%-16s| bytes       instruction\n' "of $1"
}
dead=" dead dead       |                |"

# on NAME: the paper in $work/paper prints what stands on standard input, no line of it over 80 characters
on() {
    cat >"$work/expected"
    "$program" <"$work/paper" >"$work/out"
    compare "$1"
    if awk 'length > 80 { exit 1 }' "$work/out"; then
        passed=$((passed + 1))
    else
        failed=$((failed + 1))
        echo "$1: a line is longer than 80 characters"
    fi
}

# The paper of document 01, section 6

cp "$work/sample" "$work/paper"
on "the paper of section 6" <<END
entry 0: length 6, from main 2 alt 0
offset main  alt total |of 8            | bytes       instruction
     0    2    0     2 |####............| 63          OpIf
     1    1    0     1 |##..............| 51           Op1
     2    2    0     2 |####............| 67          OpElse
     3    1    0     1 |##..............| 52           Op2
     4    2    0     2 |####............| 68          OpEndIf
     5    2    0     2 |####............| 75          OpDrop
accepted: peak 2, end main 1 alt 0

accepted
END

# Refused as a paper

(cat "$work/sample" && head -c 7980 /dev/zero) >"$work/paper"
"$program" <"$work/sample" >"$work/accepted"
on "8,000 bytes" <"$work/accepted"

(cat "$work/sample" && head -c 7981 /dev/zero) >"$work/paper"
on "8,001 bytes" <<END
refused 21, long paper: length 8001, limit 8000

refused 21 at 0 0 8001 8000
END

(cat "$work/sample" && head -c 8980 /dev/zero) >"$work/paper"
on "9,000 bytes: 8,001 of them are read" <<END
refused 21, long paper: length 8001, limit 8000

refused 21 at 0 0 8001 8000
END

paper 242 61 >"$work/paper"
on "242 parameters and 3" <<END
entry 0: refused 20, dispatch: sum 245, limit 244

refused 20 at 0 0 245 244
END

# the second entry: 1 parameter, 241 state fields
hex 02 00 f1 00 14 00 00 00 00 00 14 00 00 00 01 00 14 00 00 00 >"$work/paper"
on "the second entry" <<END
entry 1: refused 20, dispatch: sum 245, limit 244

refused 20 at 1 0 245 244
END

# 19: what is wrong with the header

# header WORDS: the paper in $work/paper is refused with 19 and these words
header() {
    printf 'refused 19, header: %s\n\nrefused 19 at 0 0 0 0\n' "$1" >"$work/text"
    on "19, $1" <"$work/text"
}

: >"$work/paper"
header "0 bytes, fewer than 8"
head -c 7 "$work/sample" >"$work/paper"
header "7 bytes, fewer than 8"
hex 00 00 00 00 08 00 00 00 >"$work/paper"
header "entries 0, 1 to 32 allowed"
(hex 21 00 && head -c 300 /dev/zero) >"$work/paper"
header "entries 33, 1 to 32 allowed"
(hex 03 00 && head -c 18 /dev/zero) >"$work/paper"
header "3 entries need 26 bytes, the paper has 20"
hex 01 00 00 00 0d 00 01 00 00 00 0e 00 01 00 61 >"$work/paper"
header "the initialiser starts in the header"
hex 01 00 00 00 0e 00 02 00 00 00 0e 00 01 00 61 >"$work/paper"
header "the initialiser ends past the paper"
hex 02 00 00 00 14 00 00 00 00 00 14 00 01 00 00 00 13 00 01 00 61 >"$work/paper"
header "the body of entry 1 starts in the header"
hex 02 00 00 00 14 00 00 00 00 00 14 00 02 00 00 00 14 00 00 00 61 >"$work/paper"
header "the body of entry 0 ends past the paper"
hex 03 00 00 00 1a 00 00 00 00 00 1a 00 02 00 00 00 1c 00 01 00 00 00 1b 00 01 00 61 61 61 >"$work/paper"
header "the body of entry 0 shares a byte with the body of entry 2"
hex 01 00 00 00 0e 00 02 00 00 00 0f 00 01 00 61 61 >"$work/paper"
header "the initialiser shares a byte with the body of entry 0"

# Refused before the walk

paper 1 51 05 01 02 >"$work/paper"
on "3, a push cut short" <<END
entry 0: length 4, from main 1 alt 0
refused 3, malformed at 1: 05 01 02

refused 3 at 0 1 0 0
END

paper 1 06 01 02 03 04 >"$work/paper"
on "3, four bytes of it are shown" <<END
entry 0: length 5, from main 1 alt 0
refused 3, malformed at 0: 06 01 02 03 ..

refused 3 at 0 0 0 0
END

paper 0 4d 01 >"$work/paper"
on "3, a length cut short" <<END
entry 0: length 2, from main 0 alt 0
refused 3, malformed at 0: 4d 01

refused 3 at 0 0 0 0
END

# Refused in the walk

# right DEPTH LETTERS: how far a word of so many letters stands to the right, in 26 columns
right() {
    if [ $(($1 + $2)) -gt 26 ]; then
        echo $((26 - $2))
    else
        echo "$1"
    fi
}

# nested N: N times 51 63, one inside the other
nested() {
    depth=0
    while [ $depth -lt "$1" ]; do
        printf '%6d    0    0     0 %s 51          %*sOp1\n' $((2 * depth)) "$(bar 0)" "$(right $depth 3)" ''
        printf '%6d    1    0     1 %s 63          %*sOpIf\n' $((2 * depth + 1)) "$(bar 2)" "$(right $depth 4)" ''
        depth=$((depth + 1))
    done
}

paper 0 $(repeat 25 51 63) >"$work/paper"
{
    echo "entry 0: length 50, from main 0 alt 0"
    heading 8
    nested 25
    echo "     ^ refused 5, nesting: open 24, limit 24"
    echo
    echo "refused 5 at 0 49 24 24"
} >"$work/text"
on "5, 25 open" <"$work/text"

paper 241 51 51 51 51 51 >"$work/paper"
on "6, 245 items; heights to 244" <<END
entry 0: length 5, from main 241 alt 0
$(heading 244)
     0  241    0   241 $(bar 16) 51          Op1
     1  242    0   242 $(bar 16) 51          Op1
     2  243    0   243 $(bar 16) 51          Op1
     3  244    0   244 $(bar 16) 51          Op1
     ^ refused 6, stacks full: total wanted 245, limit 244

refused 6 at 0 3 245 244
END

paper 2 6f >"$work/paper"
on "7, two items for 3" <<END
entry 0: length 1, from main 2 alt 0
$(heading 8)
     0    2    0     2 $(bar 4) 6f          Op3Dup
     ^ refused 7, main dry: needed 3, had 2

refused 7 at 0 0 3 2
END

paper 5 6b 6b 6c 6c 6c >"$work/paper"
on "8, the third from alt" <<END
entry 0: length 5, from main 5 alt 0
$(heading 8)
     0    5    0     5 $(bar 10) 6b          OpToAltStack
     1    4    1     5 $(bar 10) 6b          OpToAltStack
     2    3    2     5 $(bar 10) 6c          OpFromAltStack
     3    4    1     5 $(bar 10) 6c          OpFromAltStack
     4    5    0     5 $(bar 10) 6c          OpFromAltStack
     ^ refused 8, alt dry

refused 8 at 0 4 0 0
END

paper 2 79 >"$work/paper"
on "9, an unknown index" <<END
entry 0: length 1, from main 2 alt 0
$(heading 8)
     0    2    0     2 $(bar 4) 79          OpPick
     ^ refused 9, index: the item is unknown

refused 9 at 0 0 0 0
END

paper 2 02 05 00 79 >"$work/paper"
on "24, a needless 00" <<END
entry 0: length 4, from main 2 alt 0
$(heading 8)
     0    2    0     2 $(bar 4) 02 05 00    <0500>
     3    3    0     3 $(bar 6) 79          OpPick
     ^ refused 24, crooked number: a needless 00 (05 00) or 80 (negative zero)

refused 24 at 0 3 0 0
END

paper 2 4f 7a >"$work/paper"
on "25, minus 1" <<END
entry 0: length 2, from main 2 alt 0
$(heading 8)
     0    2    0     2 $(bar 4) 4f          Op1Negate
     1    3    0     3 $(bar 6) 7a          OpRoll
     ^ refused 25, negative index: top bit of the last byte set (81 is minus 1)

refused 25 at 0 1 0 0
END

paper 2 01 22 a6 >"$work/paper"
on "10, tag 22" <<END
entry 0: length 3, from main 2 alt 0
$(heading 8)
     0    2    0     2 $(bar 4) 01 22       <22>
     2    3    0     3 $(bar 6) a6          OpZkPrecompile
     ^ refused 10, tag

refused 10 at 0 2 0 0
END

paper 0 61 ff >"$work/paper"
on "11, ff" <<END
entry 0: length 2, from main 0 alt 0
$(heading 8)
     0    0    0     0 $(bar 0) 61          OpNop
     1    0    0     0 $(bar 0) ff          0xff
     ^ refused 11, unmodelled: opcode ff

refused 11 at 0 1 255 0
END

paper 0 50 >"$work/paper"
on "11, 50" <<END
entry 0: length 1, from main 0 alt 0
$(heading 8)
     0    0    0     0 $(bar 0) 50          0x50
     ^ refused 11, unmodelled: opcode 50

refused 11 at 0 0 80 0
END

paper 1 63 51 68 >"$work/paper"
on "12, no ELSE: less the item that IF pops" <<END
entry 0: length 3, from main 1 alt 0
$(heading 8)
     0    1    0     1 $(bar 2) 63          OpIf
     1    0    0     0 $(bar 0) 51           Op1
     2    1    0     1 $(bar 2) 68          OpEndIf
     ^ refused 12, arms differ: main 1 alt 0 against main 0 alt 0

refused 12 at 0 2 0 0
END

paper 2 63 51 67 75 68 >"$work/paper"
on "12, the heights at the ELSE" <<END
entry 0: length 5, from main 2 alt 0
$(heading 8)
     0    2    0     2 $(bar 4) 63          OpIf
     1    1    0     1 $(bar 2) 51           Op1
     2    2    0     2 $(bar 4) 67          OpElse
     3    1    0     1 $(bar 2) 75           OpDrop
     4    0    0     0 $(bar 0) 68          OpEndIf
     ^ refused 12, arms differ: main 0 alt 0 against main 2 alt 0

refused 12 at 0 4 0 0
END

paper 2 64 6b 67 61 68 >"$work/paper"
on "12, an item on alt" <<END
entry 0: length 5, from main 2 alt 0
$(heading 8)
     0    2    0     2 $(bar 4) 64          OpNotIf
     1    1    0     1 $(bar 2) 6b           OpToAltStack
     2    0    1     1 $(bar 2) 67          OpElse
     3    1    0     1 $(bar 2) 61           OpNop
     4    1    0     1 $(bar 2) 68          OpEndIf
     ^ refused 12, arms differ: main 1 alt 0 against main 0 alt 1

refused 12 at 0 4 0 0
END

paper 3 63 63 67 68 51 51 68 >"$work/paper"
on "12, behind a conditional that is closed" <<END
entry 0: length 7, from main 3 alt 0
$(heading 8)
     0    3    0     3 $(bar 6) 63          OpIf
     1    2    0     2 $(bar 4) 63           OpIf
     2    1    0     1 $(bar 2) 67           OpElse
     3    1    0     1 $(bar 2) 68           OpEndIf
     4    1    0     1 $(bar 2) 51           Op1
     5    2    0     2 $(bar 4) 51           Op1
     6    3    0     3 $(bar 6) 68          OpEndIf
     ^ refused 12, arms differ: main 3 alt 0 against main 2 alt 0

refused 12 at 0 6 0 0
END

paper 3 63 75 67 63 6a 68 51 68 >"$work/paper"
on "12, the ELSE before a conditional that is closed" <<END
entry 0: length 8, from main 3 alt 0
$(heading 8)
     0    3    0     3 $(bar 6) 63          OpIf
     1    2    0     2 $(bar 4) 75           OpDrop
     2    1    0     1 $(bar 2) 67          OpElse
     3    2    0     2 $(bar 4) 63           OpIf
     4    1    0     1 $(bar 2) 6a            OpReturn
     5$dead 68           OpEndIf
     6    1    0     1 $(bar 2) 51           Op1
     7    2    0     2 $(bar 4) 68          OpEndIf
     ^ refused 12, arms differ: main 2 alt 0 against main 1 alt 0

refused 12 at 0 7 0 0
END

paper 0 67 >"$work/paper"
on "13, ELSE alone" <<END
entry 0: length 1, from main 0 alt 0
$(heading 8)
     0    0    0     0 $(bar 0) 67          OpElse
     ^ refused 13, stray ELSE

refused 13 at 0 0 0 0
END

paper 1 63 67 67 68 >"$work/paper"
on "14, ELSE again" <<END
entry 0: length 4, from main 1 alt 0
$(heading 8)
     0    1    0     1 $(bar 2) 63          OpIf
     1    0    0     0 $(bar 0) 67          OpElse
     2    0    0     0 $(bar 0) 67          OpElse
     ^ refused 14, second ELSE

refused 14 at 0 2 0 0
END

paper 0 6a 68 >"$work/paper"
on "15, ENDIF in dead code" <<END
entry 0: length 2, from main 0 alt 0
$(heading 8)
     0    0    0     0 $(bar 0) 6a          OpReturn
     1$dead 68          OpEndIf
     ^ refused 15, stray ENDIF

refused 15 at 0 1 0 0
END

paper 0 51 63 >"$work/paper"
on "16, IF left open" <<END
entry 0: length 2, from main 0 alt 0
$(heading 8)
     0    0    0     0 $(bar 0) 51          Op1
     1    1    0     1 $(bar 2) 63          OpIf
     ^ refused 16, open IF

refused 16 at 0 1 0 0
END

# What is shown of an instruction

paper 0 4b $(repeat 75 aa) 04 01 02 03 04 03 11 12 13 4c 02 33 44 >"$work/paper"
on "pushes of 75, 4, 3 and 2 bytes" <<END
entry 0: length 89, from main 0 alt 0
$(heading 8)
     0    0    0     0 $(bar 0) 4b aa aa .. <aaaaaaaaaaaa..>
    76    1    0     1 $(bar 2) 04 01 02 .. <01020304>
    81    2    0     2 $(bar 4) 03 11 12 13 <111213>
    85    3    0     3 $(bar 6) 4c 02 33 44 <3344>
accepted: peak 4, end main 4 alt 0

accepted
END

paper 0 00 4c 00 4d 00 00 08 01 02 03 04 05 06 07 08 4c 09 11 12 13 14 15 16 17 18 19 >"$work/paper"
on "pushes of no bytes, 8 and 9" <<END
entry 0: length 26, from main 0 alt 0
$(heading 8)
     0    0    0     0 $(bar 0) 00          Op0
     1    1    0     1 $(bar 2) 4c 00       Op0
     3    2    0     2 $(bar 4) 4d 00 00    Op0
     6    3    0     3 $(bar 6) 08 01 02 .. <0102030405060708>
    15    4    0     4 $(bar 8) 4c 09 11 .. <111213141516..>
accepted: peak 5, end main 5 alt 0

accepted
END

# 24 conditionals, and in the innermost a push of 8 bytes, whose line has 80 characters, and DROP
paper 0 $(repeat 24 51 63) 08 01 02 03 04 05 06 07 08 75 $(repeat 24 68) >"$work/paper"
{
    echo "entry 0: length 82, from main 0 alt 0"
    heading 8
    nested 24
    printf '    48    0    0     0 %s 08 01 02 .. %8s<0102030405060708>\n' "$(bar 0)" ''
    printf '    57    1    0     1 %s 75          %20sOpDrop\n' "$(bar 2)" ''
    depth=23
    while [ $depth -ge 0 ]; do
        printf '%6d    0    0     0 %s 68          %*sOpEndIf\n' $((81 - depth)) "$(bar 0)" "$(right $depth 7)" ''
        depth=$((depth - 1))
    done
    echo "accepted: peak 1, end main 0 alt 0"
    echo
    echo "accepted"
} >"$work/text"
on "24 open" <"$work/text"

# a name of 24 letters in 3 conditionals: it stands 2 to the right
paper 0 $(repeat 3 51 63) 6a d9 68 68 68 >"$work/paper"
{
    echo "entry 0: length 11, from main 0 alt 0"
    heading 8
    nested 3
    echo "     6    0    0     0 $(bar 0) 6a             OpReturn"
    echo "     7$dead d9            OpCheckSigFromStackECDSA"
    echo "     8$dead 68            OpEndIf"
    echo "     9    0    0     0 $(bar 0) 68           OpEndIf"
    echo "    10    0    0     0 $(bar 0) 68          OpEndIf"
    echo "accepted: peak 1, end main 0 alt 0"
    echo
    echo "accepted"
} >"$work/text"
on "a name of 24 letters" <"$work/text"

# The scale of the bars: 8 at least, the peak, the greatest total

paper 16 6d 6d 6d 6d 6d 6d 6d 6d >"$work/paper"
on "of 16" <<END
entry 0: length 8, from main 16 alt 0
$(heading 16)
     0   16    0    16 $(bar 16) 6d          Op2Drop
     1   14    0    14 $(bar 14) 6d          Op2Drop
     2   12    0    12 $(bar 12) 6d          Op2Drop
     3   10    0    10 $(bar 10) 6d          Op2Drop
     4    8    0     8 $(bar 8) 6d          Op2Drop
     5    6    0     6 $(bar 6) 6d          Op2Drop
     6    4    0     4 $(bar 4) 6d          Op2Drop
     7    2    0     2 $(bar 2) 6d          Op2Drop
accepted: peak 16, end main 0 alt 0

accepted
END

paper 8 51 >"$work/paper"
on "the peak, 9, after the last row" <<END
entry 0: length 1, from main 8 alt 0
$(heading 9)
     0    8    0     8 $(bar 15) 51          Op1
accepted: peak 9, end main 9 alt 0

accepted
END

paper 7 51 >"$work/paper"
on "the peak, 8" <<END
entry 0: length 1, from main 7 alt 0
$(heading 8)
     0    7    0     7 $(bar 14) 51          Op1
accepted: peak 8, end main 8 alt 0

accepted
END

paper 240 6b 51 >"$work/paper"
on "240 items, of which one on alt" <<END
entry 0: length 2, from main 240 alt 0
$(heading 241)
     0  240    0   240 $(bar 16) 6b          OpToAltStack
     1  239    1   240 $(bar 16) 51          Op1
accepted: peak 241, end main 240 alt 1

accepted
END

paper 20 75 75 75 ff >"$work/paper"
on "refused: the greatest total, 20" <<END
entry 0: length 4, from main 20 alt 0
$(heading 20)
     0   20    0    20 $(bar 16) 75          OpDrop
     1   19    0    19 $(bar 16) 75          OpDrop
     2   18    0    18 $(bar 15) 75          OpDrop
     3   17    0    17 $(bar 14) ff          0xff
     ^ refused 11, unmodelled: opcode ff

refused 11 at 0 3 255 0
END

# Fragments without rows, with no end, and the initialiser

paper 3 >"$work/paper"
on "an empty body" <<END
entry 0: length 0, from main 3 alt 0
accepted: peak 3, end main 3 alt 0

accepted
END

# two entries of 0 and 2 parameters, 1 state field; `6a ff`, `75`, and the initialiser `6c 6d`
hex 02 00 01 00 17 00 02 00 00 00 14 00 02 00 02 00 16 00 01 00 6a ff 75 6c 6d >"$work/paper"
on "two entries and the initialiser" <<END
entry 0: length 2, from main 1 alt 0
$(heading 8)
     0    1    0     1 $(bar 2) 6a          OpReturn
     1$dead ff          0xff
accepted: peak 1, end none

entry 1: length 1, from main 3 alt 0
$(heading 8)
     0    3    0     3 $(bar 6) 75          OpDrop
accepted: peak 3, end main 2 alt 0

state: length 2, from main 2 alt 1
$(heading 8)
     0    2    1     3 $(bar 6) 6c          OpFromAltStack
     1    3    0     3 $(bar 6) 6d          Op2Drop
accepted: peak 3, end main 1 alt 0

accepted
END

# the same with the initialiser `6c 6c`
hex 02 00 01 00 17 00 02 00 00 00 14 00 02 00 02 00 16 00 01 00 6a ff 75 6c 6c >"$work/paper"
on "a refusal in the initialiser" <<END
entry 0: length 2, from main 1 alt 0
$(heading 8)
     0    1    0     1 $(bar 2) 6a          OpReturn
     1$dead ff          0xff
accepted: peak 1, end none

entry 1: length 1, from main 3 alt 0
$(heading 8)
     0    3    0     3 $(bar 6) 75          OpDrop
accepted: peak 3, end main 2 alt 0

state: length 2, from main 2 alt 1
$(heading 8)
     0    2    1     3 $(bar 6) 6c          OpFromAltStack
     1    3    0     3 $(bar 6) 6c          OpFromAltStack
     ^ refused 8, alt dry

refused 8 at 2 1 0 0
END

# The longest body: a line for each of 7,986 instructions

(field 1 && field 0 && field 14 && field 0 && field 0 && field 14 && field 7986 && head -c 7986 /dev/zero | tr '\000' a) >"$work/paper"
{
    echo "entry 0: length 7986, from main 0 alt 0"
    heading 8
    awk 'BEGIN { for (j = 0; j < 7986; j++) printf "%6d    0    0     0 |................| 61          OpNop\n", j }'
    echo "accepted: peak 0, end main 0 alt 0"
    echo
    echo "accepted"
} >"$work/text"
on "7,986 instructions" <"$work/text"

# Reads and writes that fail

"$program" <"$work" >"$work/out" 2>"$work/said"
fails "a directory" "cannot read standard input"
"$program" <&- >"$work/out" 2>"$work/said"
fails "a closed input" "cannot read standard input"
: >"$work/out"
"$program" <"$work/paper" 2>"$work/said" >/dev/full
fails "a full disk" "cannot write to standard output"
: >"$work/out"
"$program" <"$work/paper" 2>"$work/said" >&-
fails "a closed output" "cannot write to standard output"

finish
