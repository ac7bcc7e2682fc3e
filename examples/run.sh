#!/bin/sh
# run.sh PROGRAM: gives every NAME.in of this folder to the program and compares what it writes with NAME.out.
set -u
[ $# -eq 1 ] || { echo "usage: run.sh PROGRAM" >&2; exit 2; }
[ -x "$1" ] || { echo "$1 is missing: \`sh tools/make.sh report\` makes target/bin/report" >&2; exit 1; }
program=$(realpath "$1")
cd "$(dirname "$0")" || exit 2
equal=0
different=0
for input in *.in; do
  if "$program" < "$input" | cmp -s - "${input%.in}.out"; then
    equal=$((equal + 1))
  else
    different=$((different + 1))
    echo "differs: $input"
  fi
done
echo "$equal equal, $different different"
[ "$different" -eq 0 ]
