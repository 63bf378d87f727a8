#!/bin/sh
# Times `faultmem check` on the two scripts: the time to read a script, with the start of the program.
# Usage: bench/parse.sh [PROGRAM], from the top of the repository; PROGRAM is ./faultmem where it is not given.
program=${1:-./faultmem}
here=$(cd "$(dirname "$0")" && pwd)
scripts=$(mktemp -d) && trap 'rm -rf "$scripts"' EXIT
for kind in comments steps; do
  "$here/make_$kind.sh" > "$scripts/$kind"
  start=$(date +%s%N)
  "$program" check < "$scripts/$kind" > "$scripts/output"
  status=$?
  end=$(date +%s%N)
  echo "$kind: $(wc -c < "$scripts/$kind") bytes, $(( (end - start) / 1000 )) microseconds, status $status, $(cat "$scripts/output")"
done
