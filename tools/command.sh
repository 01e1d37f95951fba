# What ./mark, ./log, ./listochur and ./build share; the caller has set `root`, the repository's folder, and sources this file.

# What ./build leaves: the command, the library that is linked into it, the time of its sources. Not in crates/*/out, which is
# rt's own, and which `rt ci` sets aside while it runs.
built=$root/built

# proved_newer FILE, command_newer FILE: the sources of the proved library, or those of the command besides, that have changed
# since FILE; a folder changes where a file comes or goes
proved_newer() {
    (cd "$root" && find crates.txt crates/*/src crates/*/specs crates/*/proofs -newer "$1" -print)
}
command_newer() {
    (cd "$root" && find bindings/rust/src bindings/rust/build.rs bindings/rust/Cargo.* cli/src cli/Cargo.* -newer "$1" -print)
}

# is_built: there is a build, of whatever sources
is_built() {
    [ -x "$built/listochur" ] && [ -f "$built/stamp" ]
}

# changed: the sources that have changed since the build; fails where that cannot be told
changed() {
    proved_newer "$built/stamp" && command_newer "$built/stamp"
}

# run NAME USAGE WORDS..: the command with these words, under this name or whole. Nothing is run of a build whose sources have
# changed.
run() {
    name=$1
    usage="usage: ./${name:-listochur} $2"
    shift 2
    if [ $# -eq 0 ]; then
        echo "$usage" >&2
        exit 2
    fi
    if ! is_built; then
        case $1 in --help | -h)
            echo "$usage"
            echo "Nothing is built yet: ./build builds, and then --help says more."
            exit 0
            ;;
        esac
        "$root/build" --first >&2 || exit 2
    else
        if ! newer=$(changed); then
            echo "${name:-listochur}: cannot tell whether the build is of these sources; nothing is done" >&2
            exit 2
        fi
        if [ -n "$newer" ]; then
            echo "${name:-listochur}: the build is older than its sources; nothing is done. $root/build builds anew. Changed:" >&2
            echo "$newer" | head -n 5 | sed 's/^/    /' >&2
            exit 2
        fi
    fi
    exec "$built/listochur" ${name:+"$name"} "$@"
}
