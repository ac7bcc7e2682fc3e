#!/bin/sh
# build.sh SOURCES: builds the oracle from the Rust's sources. Prints the folder of its crates, for others to build on.
#
# SOURCES is a checkout of microsoft/qdk-ec at 6c83709b23, or any folder with the files of sources.sha256: they are looked for in it and
# in its folders. Originals and stand-ins are put side by side into target/oracle/crates; the programs oracle and gen are built into
# target/oracle/built/release. Only cargo is needed, and no network.
set -eu
here=$(cd "$(dirname "$0")" && pwd)
made=$(dirname "$(dirname "$here")")/target/oracle

stop() {
    echo "compare/oracle: $1" >&2
    exit 1
}

[ $# -eq 1 ] || stop "usage: build.sh SOURCES"
command -v cargo > /dev/null || stop "cargo is missing"
sources=
for folder in "$1" "$1"/*; do
    [ -f "$folder/paulimer/src/pauli_group.rs" ] && sources=$folder && break
done
[ -n "$sources" ] || stop "no paulimer/src/pauli_group.rs in $1 or in a folder of it; compare/oracle/README.md says how to get the sources"
while read -r sum name; do
    [ -f "$sources/$name" ] || stop "$sources/$name is missing"
    [ "$(sha256sum < "$sources/$name")" = "$sum  -" ] || stop "$sources/$name is not that of microsoft/qdk-ec at 6c83709b23"
done < "$here/sources.sha256"

[ -x "$made/built/release/oracle" ] || echo "compare/oracle: building, half a minute" >&2
rm -rf "$made/crates"
mkdir -p "$made"
cp -Rp "$here/crates" "$made"  # with their times, so that cargo builds nothing twice
while read -r sum name; do
    mkdir -p "$(dirname "$made/crates/$name")"
    cp -p "$sources/$name" "$made/crates/$name"
done < "$here/sources.sha256"
if ! cargo build --release --offline --locked --manifest-path "$made/crates/Cargo.toml" --target-dir "$made/built" > "$made/build.log" 2>&1
then
    tail -20 "$made/build.log" >&2
    stop "cargo could not build it; the whole log is $made/build.log"
fi
echo "$made/crates"
