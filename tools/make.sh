#!/bin/sh
# make.sh NAME..: proves each crate and what it rests on, and builds it: a program to target/bin/NAME, capi to target/staticlib/libcapi.a.
set -eu
[ $# -ge 1 ] || { echo "usage: make.sh NAME.. (report, replay, matrices, table, capi)" >&2; exit 2; }
command -v rt > /dev/null || { echo "make.sh: rt is missing" >&2; exit 1; }
root=$(cd "$(dirname "$0")/.." && pwd)
mkdir -p "$root/target/bin" "$root/target/staticlib"
for name in "$@"; do
    cd "$root/crates/$name"
    log=$root/target/$name.log
    if [ "$name" = capi ]; then
        rt lib > "$log" 2>&1 || { tail -20 "$log" >&2; exit 1; }
        cp out/libcapi.a "$root/target/staticlib/libcapi.a"
    else
        # a program is built by running it, here on no input
        rt run < /dev/null > "$log" 2>&1 || { tail -20 "$log" >&2; exit 1; }
        cp "out/$name" "$root/target/bin/$name"
    fi
done
