#!/bin/sh
# bench/stack.sh [PROGRAM]: the least stack, in KB, under which the live program answers a session of 256 events as without a limit: reports,
# requests over all events, saves, a loss of power and the start-up after it. The system's own part (the environment, the loader) is in it.
# PROGRAM is crates/faultmem_live/out/faultmem_live where none is named.
set -eu
cd "$(dirname "$0")/.."
program=${1:-crates/faultmem_live/out/faultmem_live}
[ -x "$program" ] || { echo "stack.sh: there is no program $program" >&2; exit 1; }
work=$(mktemp -d)
trap 'rm -rf "$work"' EXIT
awk 'BEGIN { for (i = 0; i < 256; i++) printf "event %d dtc %06X lamp 1\n", i, i + 1; print "did 0 0101"; print "did 0 0103" }' >"$work/config"
awk 'BEGIN {
    print "cycle 0"
    for (i = 0; i < 256; i++) print "fail " i
    for (i = 0; i < 3; i++) { print "t A 19 02 FF"; print "t A 19 0A"; print "t A 19 14"; print "t A 19 04 00 00 01 01"; print "save"; print "pass " i }
    print "post 0 01 02"; print "drain"; print "power"; print "show 0"; print "t B 14 FF FF FF"; print "save"; print "power"
}' >"$work/lines"
"$program" live "$work/config" <"$work/lines" >"$work/due"
! grep -q refused "$work/due" || { echo "stack.sh: a line of the session is refused" >&2; exit 1; }

# Whether the answers are the same under this many KB.
suffices() {
    sh -c 'ulimit -s "$1" && shift && exec env -i "$@"' sh "$1" "$program" live "$work/config" <"$work/lines" 2>/dev/null | cmp -s - "$work/due"
}

low=4
high=8192
while [ $((high - low)) -gt 4 ]; do
    middle=$(((low + high) / 2))
    if suffices "$middle" 2>/dev/null; then high=$middle; else low=$middle; fi
done
echo "$high KB"
