#!/bin/sh
# bench/run.sh SOURCES [WORDS..]: builds the driver and measures the static library beside the Rust original and M4RI.
#
# SOURCES is the folder of the Rust's sources (compare/oracle/README.md). WORDS:
#   --quick                                  fewer sizes, fewer and shorter repeats: under half a minute, not a few minutes
#   --only NAME                              one call by its name in include/howhiruke.h without howhiruke_; one_qubit, growth, numbers, windows
#   --record                                 measures everything, and rewrites the figures and plots of docs/PERFORMANCE.md
#   --ours NAME GENERATORS QUBITS KIND N     ours alone, N times, for a profiler; KIND is sparse, dense or commuting; NAME may be
#                                            call,case; for echelon_form, GENERATORS are rows and QUBITS half of the columns
#
# Times are processor times of one thread; both sides run in one process in interleaved repeats. The time of a call is the median of its
# repeats; a ratio is the Rust's time / ours of one repeat: the median of them, and their quartiles. Both sides go from the same rolls to
# the same answer bytes; reading, making the groups and writing are timed, and no group is reused. The Rust's rolls are read and written by
# the oracle's driver, its sets, their merging and single bits are stand-ins (compare/oracle/README.md); joined Paulis and qubits are not
# counted there. Every answer is compared before it is timed, and a difference ends the run;
# but of common parts only those that the Rust gives whole.
#
# Lists: sparse are commuting checks X Z Z X on a ring, dense are random, commuting are random products of the checks. Calls on two lists
# have at most 64 generators in either. A non-member's bits do not solve where such an element is found; else it is a member times i; else
# it has a further qubit (dense lists on few qubits, where every element on them is a member). A closing listing has fewer than 128
# dense generators on 128 qubits, as its input has at most 65,536 bytes. Many elements are members and non-members in turn, and what 40
# cost in times of one is printed, for 40 dense generators on 128 qubits; and what numbers around 2^31 cost in times of numbers around 0. The lists of the centralizers are on 63 qubits where others are on
# 128; their named support is every second qubit of the list and as many further ones, or what 63 together leave room for. check_roll and
# standard_bound are beside the oracle's reader alone; joined_sizes and page_size beside the Rust's own joining and listing, since it has
# no call for sizes; joined_entry and joined_body have no call in the Rust. Nor have the claims: what accepts_membership and accepts_absence
# cost is printed in times of our own membership of the same element. The claim of a member is the one that the Rust's membership tells; an
# absence is shown by one of the Rust's generators of the centralizer, and the element has a further qubit where none shows it. Windows are
# filled, 1, 16 and 64 wide, on 128 qubits; a question is beside the same call on the roll of the checks inside and beside the Rust on that
# roll, a sent check beside joining the roll of the checks that stay with its own. M4RI reduces [A | I]; copying the input into place is timed
# on both sides.
#
# The library is $HOWHIRUKE_LIB/libcapi.a if that is set, else target/staticlib/libcapi.a, which is proved and built.
# Everything is written to target/bench: ratios.csv, tables.md, ratios.svg and growth.svg besides the build.
set -eu
here=$(cd "$(dirname "$0")" && pwd)
root=$(dirname "$here")
made=$root/target/bench

stop() {
    echo "bench: $1" >&2
    exit 1
}

[ $# -ge 1 ] || stop "usage: bench/run.sh SOURCES [WORDS..]"
for program in cc ar python3; do
    command -v $program > /dev/null || stop "$program is missing"
done
if [ -n "${HOWHIRUKE_LIB:-}" ]; then
    [ -f "$HOWHIRUKE_LIB/libcapi.a" ] || stop "no libcapi.a in $HOWHIRUKE_LIB, which HOWHIRUKE_LIB names"
else
    command -v rt > /dev/null || stop "rt is missing, and HOWHIRUKE_LIB names no folder of libcapi.a"
fi
[ -f /usr/include/m4ri/m4ri.h ] || stop "M4RI is missing: install libm4ri-dev (Debian)"
oracle=$(sh "$root/compare/oracle/build.sh" "$1")
shift
mkdir -p "$made/driver"

if [ -n "${HOWHIRUKE_LIB:-}" ]; then
    HOWHIRUKE_LIB=$(cd "$HOWHIRUKE_LIB" && pwd)
    export HOWHIRUKE_LIB
else
    echo "bench: proving capi and building target/staticlib/libcapi.a: some minutes from nothing, seconds where all is proved" >&2
    sh "$root/tools/make.sh" capi
fi

sed -e "s|@BENCH@|$here|g" -e "s|@ROOT@|$root|g" -e "s|@ORACLE@|$oracle|g" "$here/Cargo.toml.in" > "$made/driver/Cargo.new"
cmp -s "$made/driver/Cargo.new" "$made/driver/Cargo.toml" || cp "$made/driver/Cargo.new" "$made/driver/Cargo.toml"
BENCH_FOLDER=$here CARGO_TARGET_DIR=$made cargo build --release --offline --quiet --manifest-path "$made/driver/Cargo.toml"

case " $* " in
    *" --ours "*)
        exec "$made/release/bench" "$@"
        ;;
    " --record ")
        "$made/release/bench" --csv "$made/ratios.csv"
        cp "$made/ratios.csv" "$root/docs/ratios.csv"
        python3 "$here/plot.py" "$root/docs/ratios.csv" "$root/docs"
        python3 "$here/tables.py" "$root/docs/ratios.csv" --into "$root/docs/PERFORMANCE.md"
        ;;
    *)
        "$made/release/bench" --csv "$made/ratios.csv" "$@"
        python3 "$here/plot.py" "$made/ratios.csv" "$made"
        python3 "$here/tables.py" "$made/ratios.csv" > "$made/tables.md"
        ;;
esac
