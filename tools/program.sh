#!/bin/sh
# tools/program.sh NAME..: proves and builds these programs where that is due, runs each on its file stdin, and fails where it
# prints anything but its file stdout. A program is left as crates/NAME/out/NAME.
root=$(CDPATH='' cd -- "$(dirname -- "$0")/.." && pwd) || exit 2
printed=$(mktemp) || exit 2
trap 'rm -f "$printed"' EXIT
for name in "$@"; do
    cd "$root/crates/$name" || exit 2
    rt run <stdin >"$printed" || exit 1
    if ! cmp -s "$printed" stdout; then
        echo "tools/program.sh: $name prints something else than crates/$name/stdout" >&2
        exit 1
    fi
done
