#!/bin/sh
# Proves crates/capi, writes target/staticlib/libcapi.a, and builds and runs the example and the tests in C and in Rust.
# The last line is `all equal`.
set -eu
here=$(cd "$(dirname "$0")" && pwd)
root=$(dirname "$here")
made=$root/target/include
for program in rt gcc nm cargo; do
    command -v $program > /dev/null || { echo "include/build.sh: $program is missing" >&2; exit 1; }
done
cd "$root"
mkdir -p "$made"
echo "proving capi and what it rests on: some minutes from nothing, seconds where all is proved; log: target/capi.log"
sh tools/make.sh capi
echo "wrote target/staticlib/libcapi.a"
names=$(nm -u target/staticlib/libcapi.a | awk 'NF == 2 && $1 == "U" { print $2 }' | sort -u)
[ "$names" = memset ] || { echo "include/build.sh: the library takes from outside: $names" >&2; exit 1; }
echo "the library takes memset from outside, and no other name"
for name in example test; do
    gcc -std=c99 -O1 -Wall -Wextra -Werror -I "$here" "$here/$name.c" target/staticlib/libcapi.a -o "$made/$name"
done
"$made/example" > "$made/example.out"
printf 'rank 2\n0 member 0 1 phase 0\n0 claim accepted\n1 not member\n' | cmp - "$made/example.out"
echo "C: the example is right"
"$made/test"
CARGO_TARGET_DIR=$made/cargo cargo test --offline --quiet --manifest-path "$here/rust/Cargo.toml"
echo "all equal"
