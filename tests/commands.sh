#!/bin/sh
# Tries ./build, ./mark, ./log, ./listochur and .ci/run: in a copy of what they are made of, with programs in the place of rt and
# cargo that say when they were called, and at the end in this repository. Needs a build: ./build. Says how many passed, and
# exits 1 on a failure.
root=$(cd "$(dirname "$0")/.." && pwd) || exit 1
. "$root/tools/command.sh"
if ! is_built || [ -n "$(changed)" ]; then
    echo "tests/commands.sh: nothing is built of these sources: run ./build" >&2
    exit 1
fi
work=$(mktemp -d) || exit 1
trap 'rm -rf "$work"' EXIT
chmod 755 "$work"
passed=0
failed=0

# is NAME WORDS..: the test [ WORDS.. ] holds
is() {
    label=$1
    shift
    if [ "$@" ]; then
        passed=$((passed + 1))
    else
        failed=$((failed + 1))
        echo "$label: [ $* ]"
        sed 's/^/    out: /' "$work/out"
        sed 's/^/    err: /' "$work/err"
    fi
}

# try WORDS..: runs them with standard input from the paper that is refused, and keeps status, output and errors
try() {
    "$@" <"$work/bad" >"$work/out" 2>"$work/err"
    status=$?
    out=$(cat "$work/out")
    err=$(cat "$work/err")
}

# has TEXT PART: PART stands in TEXT
has() {
    case $1 in *"$2"*) return 0 ;; *) return 1 ;; esac
}

# gives NAME STATUS OUT: what the last run gave
gives() {
    is "$1: status" "$status" -eq "$2"
    is "$1: output" "$out" = "$3"
}

# says NAME PART: standard error of the last run has PART
says() {
    has "$err" "$2"
    is "$1: '$2' on standard error" $? -eq 0
}

good=$(printf 'entry 0 peak 2 end 1 0\naccepted')
cp "$root/examples/sample.paper" "$work/good" && cp "$root/examples/main-dry.paper" "$work/bad" || exit 1

# The copy: the scripts, one crate, the sources of the command
tree="$work/a tree"
new_tree() {
    rm -rf "$tree"
    mkdir -p "$tree/.ci" "$tree/tools" "$tree/include" "$tree/crates/one/src" "$tree/crates/one/specs" \
        "$tree/crates/one/proofs/f" "$tree/crates/one/must-fail" "$tree/crates/export" "$tree/crates/stackmark" \
        "$tree/crates/stacklog" "$tree/bindings/rust/src" "$tree/cli/src" || exit 1
    cp "$root/build" "$root/mark" "$root/log" "$root/listochur" "$tree/"
    cp "$root/.ci/run" "$tree/.ci/"
    cp "$root/tools/command.sh" "$root/tools/program.sh" "$tree/tools/"
    cp "$root/include/listochur.h" "$tree/include/"
    cp "$root/cli/Cargo.toml" "$root/cli/Cargo.lock" "$tree/cli/"
    cp "$root/bindings/rust/Cargo.toml" "$tree/bindings/rust/"
    echo 'export staticlib: one' >"$tree/crates.txt"
    for file in crates/one/src/lib.rt crates/one/specs/Lib.antt crates/one/proofs/f/Answers.antt bindings/rust/build.rs \
        bindings/rust/src/lib.rs cli/src/main.rs crates/one/must-fail/x.edit; do
        : >"$tree/$file"
    done
    for name in stackmark stacklog; do
        echo "a paper for $name" >"$tree/crates/$name/stdin"
        echo "$name: a paper for $name" >"$tree/crates/$name/stdout"
    done
    : >"$work/calls"
}

# rt and cargo: they write down how they were called, and take a while
mkdir "$work/bin" "$work/elsewhere"
cat >"$work/bin/rt" <<END
#!/bin/sh
echo "rt \$* in \${PWD##*/}" >>"$work/calls"
! grep -qs "^\$1\$" "$work/during" || { sleep 0.05; touch "$tree/crates/one/src/lib.rt"; rm "$work/during"; }
case \$1 in
version) echo "a kit" ;;
lib)
    echo "rt: chose --jobs 2 for one"
    echo "fn one::f: proved"
    [ ! -f "$work/fail" ] || { echo "why it is not"; echo "logic=not-proved"; exit 1; }
    sleep 0.3
    echo "logic=proved functions=1"
    mkdir -p out && echo library >out/libexport.a
    ;;
run)
    name=\${PWD##*/}
    printf 'rt: chose --jobs 2 for %s\nlogic=proved functions=1\n' "\$name" >&2
    mkdir -p out && : >"out/\$name"
    printf '%s: ' "\$name" && cat && cat "$work/more" 2>/dev/null
    exit 0
    ;;
ci)
    cat "$work/ci"
    exit "\$(cat "$work/ci.status")"
    ;;
esac
END
cat >"$work/bin/cargo" <<END
#!/bin/sh
echo "cargo \$*" >>"$work/calls"
! grep -qs "^cargo\$" "$work/during" || { sleep 0.05; touch "$tree/cli/src/main.rs"; rm "$work/during"; }
case "\$*" in
*compare/Cargo.toml*)
    [ ! -f "$work/fail" ] || { echo "why it is not"; exit 1; }
    mkdir -p "$tree/compare/target/release"
    printf '#!/bin/sh\nwhile read -r line; do echo paper outside; done\n' >"$tree/compare/target/release/driver"
    chmod +x "$tree/compare/target/release/driver"
    ;;
*) mkdir -p "$tree/cli/target/release" && cp "$root/built/listochur" "$tree/cli/target/release/listochur" ;;
esac
END
chmod +x "$work/bin/rt" "$work/bin/cargo"
path=$PATH
PATH=$work/bin:$path
export PATH
unset LISTOCHUR_SHARED

# calls WORD: how many calls began with it
calls() {
    grep -c "^$1" "$work/calls"
}

# Nothing is named: usage, and nothing is built
new_tree
for name in mark log listochur; do
    try "$tree/$name"
    gives "./$name alone" 2 ""
    says "./$name alone" "usage: ./$name"
    try "$tree/$name" --help
    is "./$name --help: status" "$status" -eq 0
done
is "nothing was built" ! -e "$tree/built"
is "nothing was called" "$(calls '')" -eq 0

# The first run builds, with a line for each crate, and marks
try "$tree/mark" "$work/good"
gives "the first run" 0 "$good"
says "the first run" "about a quarter of an hour"
says "the first run" "build: one proved ("
says "the first run" "build: the library is proved and written"
says "the first run" "build: stackmark proved ("
says "the first run" "build: stacklog proved ("
says "the first run" "the folder of the Rust's sources is not here"
is "proved once" "$(calls 'rt lib in export')" -eq 1
is "programs proved too" "$(calls 'rt run in stackmark')$(calls 'rt run in stacklog')" = 11
is "built once" "$(calls 'cargo build --release --offline')" -eq 1

# After that nothing is called and nothing is written
: >"$work/calls"
sleep 0.05
: >"$work/now"
try "$tree/mark" "$work/good"
gives "the second run" 0 "$good"
is "the second run: no errors" -z "$err"
try "$tree/mark" "$work/good" "$work/bad" "$work/none"
is "2 goes before 1" "$status" -eq 2
says "what cannot be read" "cannot read"
try "$tree/mark" "$work/bad"
gives "refused" 1 "refused 7 at 0 5 3 2"
try "$tree/mark" ""
gives "an empty name" 2 ""
try "$tree/mark" "$work/elsewhere"
is "a folder with no paper" "$status" -eq 2
try "$tree/mark" -
gives "standard input" 1 "refused 7 at 0 5 3 2"
try "$tree/log" "$work/good"
is "a log" "$status" -eq 0
is "a log: lines" "$(wc -l <"$work/out")" -gt 8
try "$tree/log" "$work/good" "$work/bad"
gives "two logs" 2 ""
try "$tree/log" --help
is "help of log" "$status" -eq 0
try "$tree/listochur" mark "$work/good"
gives "the whole command" 0 "$good"
try "$tree/listochur" --version
is "version" "$status" -eq 0
# A map and a limit
try "$tree/mark" --limit 4 "$work/good"
gives "a low limit" 1 "refused 20 at 0 0 5 4"
try "$tree/mark" --limit 5 "$work/good"
gives "the least limit" 0 "$good"
try "$tree/mark" --examined "$work/good"
gives "examined, with no long push" 0 "$good"
{ printf '\1\0\0\0\16\0\0\0\0\0\16\0\14\2M\t\2' && head -c 521 /dev/zero; } >"$work/long"
try "$tree/mark" "$work/long"
gives "a push of 521 bytes" 0 "entry 0 peak 1 end 1 0
accepted"
try "$tree/mark" --examined "$work/long"
gives "a push of 521 bytes, examined" 1 "refused 30 at 0 0 521 520"
try "$tree/log" --examined "$work/long"
is "a log, examined" "$status" -eq 1
is "a log, examined: its end" "$(tail -n 1 "$work/out")" = "refused 30 at 0 0 521 520"
try "$tree/log" --limit 4 "$work/good"
is "a log at a low limit" "$status" -eq 1
is "a log at a low limit: its end" "$(tail -n 1 "$work/out")" = "refused 20 at 0 0 5 4"
"$tree/listochur" map >"$work/map" 2>"$work/err"
is "the map" $? -eq 0
is "the map: 260 bytes" "$(wc -c <"$work/map")" -eq 260
try "$tree/mark" --map "$work/map" "$work/good"
gives "the built-in map lent" 0 "$good"
try "$tree/mark" --map "$work/map" --limit 4 --csv "$work/good"
gives "a register at a low limit" 1 "name,number,word,entry,offset,first,second,rows,peak,fragments
$work/good,20,dispatch,0,0,5,4,0,0,"
# 61, the one code of class 2, becomes push
tr '\2' '\1' <"$work/map" >"$work/other map"
for name in mark log; do
    try "$tree/$name" --map "$work/other map" "$work/good"
    gives "./$name by a bad map" 2 ""
    says "./$name by a bad map" "other map: bad map (28): row 61, at offset 101, is push (1)"
    try "$tree/$name" --limit 245 "$work/good"
    gives "./$name at a bad limit" 2 ""
    says "./$name at a bad limit" "--limit 245: bad limit (29)"
done
# without ELSE, 67, of class 5
tr '\5' '\0' <"$work/map" >"$work/other map"
try "$tree/mark" --map "$work/other map" "$work/good"
gives "a map without ELSE" 1 "refused 11 at 0 2 103 0"
try "$tree/mark" "$work/good"
gives "and without the map" 0 "$good"
# the classic year, which leaves 7e unmodelled
try "$tree/mark" --year classic "$work/good"
gives "the classic year" 0 "$good"
for year in classic current; do
    try "$tree/listochur" fragment --year "$year" 2 0 7e
    is "7e in the $year year" "$status" -eq "$([ "$year" = classic ] && echo 1 || echo 0)"
done
try sh -c '"$0" "$1" >/dev/full' "$tree/mark" "$work/good"
is "a full disk" "$status" -eq 2
try sh -c '"$0" "$1" >&-' "$tree/mark" "$work/good"
is "a closed output" "$status" -eq 2
is "nothing was called again" "$(calls '')" -eq 0
is "nothing was written" -z "$(find "$tree" -newer "$work/now")"
try "$tree/build"
is "built already" "$status" -eq 0
is "built already: nothing called" "$(calls '')" -eq 0

# From another folder, by a relative name, through links, by way of PATH
cd "$work/elsewhere" || exit 1
try "../a tree/mark" ../good
gives "a relative name" 0 "$good"
ln -s "../a tree/mark" relative
ln -s "$tree/log" absolute
ln -s "$work/elsewhere/relative" again
ln -s "../a tree" link
try ./relative ../good
gives "a relative link" 0 "$good"
try ./again ../good
gives "a link to a link" 0 "$good"
try ./absolute ../good
is "an absolute link" "$status" -eq 0
try link/mark ../good
gives "a folder that is a link" 0 "$good"
PATH=$work/elsewhere:$PATH
try again ../good
gives "a link in PATH" 0 "$good"
cd "$tree" || exit 1
try sh mark ../good
gives "as an argument of sh" 0 "$good"
cd "$work" || exit 1
mkdir "$work/elsewhere/a tree"
CDPATH=$work/elsewhere
export CDPATH
try "a tree/mark" good
gives "with CDPATH" 0 "$good"
unset CDPATH
rmdir "$work/elsewhere/a tree"

# Several at once, and in little time
began=$(date +%s)
for i in 1 2 3 4 5 6 7 8 9 10; do
    for j in 1 2 3 4 5; do
        "$tree/mark" "$work/good" >"$work/elsewhere/out.$i.$j" 2>&1 || echo failed >>"$work/elsewhere/out.$i.$j" &
    done
    wait
done
is "fifty runs in under 5 s" $(($(date +%s) - began)) -lt 5
same=0
for file in "$work"/elsewhere/out.*; do
    [ "$(cat "$file")" != "$good" ] || same=$((same + 1))
done
is "all fifty are right" "$same" -eq 50

# As another user, who may not write
as=
if [ "$(id -u)" = 0 ] && setpriv --reuid=65534 --regid=65534 --clear-groups true 2>/dev/null; then
    as='setpriv --reuid=65534 --regid=65534 --clear-groups'
    # shellcheck disable=SC2086
    if $as test -x "$root/built/listochur"; then
        try $as "$tree/mark" "$work/good"
        gives "as another user" 0 "$good"
        try $as "$work/elsewhere/again" "$work/good"
        gives "as another user, through a link" 0 "$good"
        cp "$work/good" "$work/secret" && chmod 600 "$work/secret"
        try $as "$tree/mark" "$work/secret" "$work/bad"
        is "a paper of somebody else" "$status" -eq 2
        says "a paper of somebody else" "Permission denied"
        is "and the other is marked" "$(grep -c 'bad: refused 7 at 0 5 3 2' "$work/out")" -eq 1
    fi
fi
[ -n "$as" ] || echo "tests/commands.sh: not root, so nothing was tried as another user"

# A build that is older than its sources marks nothing
for file in crates.txt crates/one/src/lib.rt crates/one/specs/Lib.antt crates/one/proofs/f/Answers.antt bindings/rust/build.rs \
    bindings/rust/src/lib.rs bindings/rust/Cargo.toml cli/src/main.rs cli/Cargo.toml cli/Cargo.lock; do
    touch "$tree/$file"
    for name in mark log; do
        try "$tree/$name" "$work/good"
        gives "./$name after a change of $file" 2 ""
        says "./$name after a change of $file" "older than its sources"
        says "./$name after a change of $file" "$file"
        says "./$name after a change of $file" "$tree/build"
    done
    try "$tree/build"
    is "built after a change of $file" "$status" -eq 0
    try "$tree/mark" "$work/good"
    gives "marked after a change of $file" 0 "$good"
    sleep 0.02
done
rm "$tree/crates/one/proofs/f/Answers.antt"
try "$tree/mark" "$work/good"
gives "after a file is gone" 2 ""
: >"$work/calls"
try "$tree/build"
try "$tree/mark" "$work/good"
gives "built after a file is gone" 0 "$good"
is "proved again after a file is gone" "$(calls 'rt lib')" -eq 1
touch "$tree/crates/one/must-fail/x.edit"
try "$tree/mark" "$work/good"
gives "an edit that must be refused is no source" 0 "$good"

# What is not proved anew where its sources have not changed
: >"$work/calls"
sleep 0.02
touch "$tree/cli/src/main.rs"
try "$tree/build"
is "the command alone" "$(calls 'rt lib')" -eq 0
is "the command alone, built" "$(calls 'cargo')" -eq 1
try "$tree/build" --again
is "all again" "$(calls 'rt lib')" -eq 1
# the gate sets crates/*/out aside
rm -rf "$tree"/crates/*/out
try "$tree/mark" "$work/good"
gives "without out/" 0 "$good"
: >"$work/calls"
sleep 0.02
touch "$tree/cli/src/main.rs"
try "$tree/build"
is "the command alone, without out/" "$(calls 'rt lib')" -eq 0
try "$tree/mark" "$work/good"
gives "built without out/" 0 "$good"

# The Rust's driver is built where its sources come, and again where compare/ changes
: >"$work/calls"
mkdir -p "$work/sources" "$tree/compare/reference" "$tree/compare/stand-ins" "$tree/compare/tools"
: >"$tree/compare/Cargo.toml"
LISTOCHUR_SHARED=$work/sources
export LISTOCHUR_SHARED
try "$tree/build"
is "the driver" "$(calls "cargo build .*compare/Cargo.toml .*--bin driver")" -eq 1
is "the driver: nothing else" "$(calls '')" -eq 1
is "the driver stands beside the command" -x "$tree/built/listochur-driver"
try "$tree/listochur" compare "$work/good"
gives "compared" 0 "$work/good: ours accepted, Rust outside, not compared
papers 1, equal 0, different 0, outside 1"
try "$tree/build"
is "the driver is built once" "$(calls '')" -eq 1
sleep 0.02
touch "$tree/compare/reference"
try "$tree/build"
is "the driver is built again" "$(calls '')" -eq 2
rm "$tree/built/listochur-driver"
: >"$work/fail"
try "$tree/build"
is "a driver that is not built: status" "$status" -eq 0
is "a driver that is not built is said" "$(grep -c 'built/compare.log says why' "$work/out")" -eq 1
rm "$work/fail"
try "$tree/mark" "$work/good"
gives "without a driver" 0 "$good"
unset LISTOCHUR_SHARED

# A source that changes during the build is newer than it
for step in lib run cargo; do
    sleep 0.02
    touch "$tree/crates.txt"
    echo $step >"$work/during"
    try "$tree/build"
    is "changed during $step" ! -e "$work/during"
    try "$tree/mark" "$work/good"
    gives "changed during $step" 2 ""
    : >"$work/calls"
    try "$tree/build"
    try "$tree/mark" "$work/good"
    gives "built after a change during $step" 0 "$good"
    [ $step = cargo ] || is "proved after a change during $step" "$(calls 'rt lib')" -eq 1
done

# First runs at once: one builds, the others wait
new_tree
for i in 1 2 3 4 5 6; do
    "$tree/mark" "$work/good" >"$work/first.$i" 2>"$work/first.$i.err" || echo failed >>"$work/first.$i" &
done
wait
same=0
for i in 1 2 3 4 5 6; do
    [ "$(cat "$work/first.$i")" != "$good" ] || same=$((same + 1))
done
is "six first runs are right" "$same" -eq 6
is "and one of them has built" "$(calls 'rt lib')" -eq 1
cat "$work"/first.*.err >"$work/err"
err=$(cat "$work/err")
says "the others" "another build is under way"

# A build that fails marks nothing
new_tree
: >"$work/fail"
try "$tree/mark" "$work/good"
gives "a build that fails" 2 ""
says "a build that fails" "why it is not"
says "a build that fails" "failed: rt lib"
has "$err" "fn one::f"
is "a build that fails: what is proved is not shown" $? -eq 1
is "a build that fails leaves none" ! -e "$tree/built/listochur"
rm "$work/fail"
echo "a line more" >"$work/more"
try "$tree/mark" "$work/good"
gives "a program that prints something else" 2 ""
says "a program that prints something else" "stackmark prints something else"
is "a program that prints something else: no build" ! -e "$tree/built/listochur"
rm "$work/more"
try "$tree/mark" "$work/good"
gives "the next one" 0 "$good"
sleep 0.02
touch "$tree/crates/one/src/lib.rt"
: >"$work/fail"
try "$tree/build"
is "a later build that fails" "$status" -eq 2
try "$tree/mark" "$work/good"
gives "and nothing is marked by the old one" 2 ""
rm "$work/fail"
if [ -n "$as" ]; then
    new_tree
    # shellcheck disable=SC2086
    try $as "$tree/mark" "$work/good"
    gives "nothing built, and no right to build" 2 ""
    says "nothing built, and no right to build" "cannot write to"
fi

# The words of ./build
try "$tree/build" --help
is "help of build" "$status" -eq 0
try "$tree/build" --instal x
is "a word that is not understood" "$status" -eq 2
says "a word that is not understood" "usage: ./build"
try "$tree/build" --install
is "no folder to install to" "$status" -eq 2

# The gate: the status of rt ci, and 1 where an edit is bad; the last line is rt's
new_tree
# gate STATUS LINE..: rt ci prints these lines and ends so
gate() {
    echo "$1" >"$work/ci.status"
    shift
    printf '%s\n' "$@" >"$work/ci"
    cd "$work/elsewhere" || exit 1
    try "$tree/.ci/run"
    cd "$work" || exit 1
}
passed_line="45 passed, 0 failed"
gate 0 "rt: ok; handles allowed: none; must-fail edits: 45 refused; done" "$passed_line"
is "the gate" "$status" -eq 0
is "the gate: what rt prints" "$out" = "$(cat "$work/ci")"
is "the gate: called" "$(calls 'rt ci in a tree')" -eq 1
gate 0 "rt: ok; handles allowed: none; must-fail edits: 45 refused, 2 of them only by a limit; done" "$passed_line"
is "the gate, two by a limit" "$status" -eq 0
for bad in 1 10; do
    gate 0 "rt: ok; handles allowed: none; must-fail edits: 45 refused, $bad bad; done" "$passed_line"
    is "the gate, $bad bad" "$status" -eq 1
    is "the gate, $bad bad: said" "$(grep -c 'edits are bad' "$work/out")" -eq 1
    is "the gate, $bad bad: the last line" "$(tail -n 1 "$work/out")" = "$passed_line"
done
gate 0 "a line that says: rt: ok; must-fail edits: 45 refused, 1 bad" "$passed_line"
is "the gate, another line" "$status" -eq 0
gate 1 "rt: FAILED: one" "44 passed, 1 failed"
is "the gate fails" "$status" -eq 1
is "the gate fails: the last line" "$(tail -n 1 "$work/out")" = "44 passed, 1 failed"
gate 2 "0 passed, 1 failed"
is "the gate stops" "$status" -eq 2

# In this repository: what is installed works without it
PATH=$path
"$root/build" --install "$work/an installation" >"$work/out" 2>"$work/err"
is "installed" $? -eq 0
try "$work/an installation/bin/listochur" mark "$work/good"
gives "the installed command" 0 "$good"
cmp -s "$root/include/listochur.h" "$work/an installation/include/listochur.h"
is "the installed header" $? -eq 0
if command -v pkg-config >/dev/null; then
    mv "$work/an installation" "$work/installation"
    PKG_CONFIG_PATH=$work/installation/lib/pkgconfig
    export PKG_CONFIG_PATH
    # shellcheck disable=SC2046
    "${CC:-cc}" $(pkg-config --cflags listochur) "$root/bindings/c/example.c" $(pkg-config --libs listochur) -o "$work/example" \
        2>"$work/err"
    is "an example in C" $? -eq 0
    "$work/example" >"$work/out"
    cmp -s "$work/out" "$root/bindings/expected.txt"
    is "what it writes" $? -eq 0
    is "the version" "$(pkg-config --modversion listochur)" = "$("$root/built/listochur" --version | sed -n 's/^listochur //p')"
fi
: >"$work/file"
try "$root/build" --install "$work/file"
is "installed to no folder" "$status" -eq 2

echo "tests/commands.sh: $passed passed, $failed failed"
[ "$failed" -eq 0 ]
