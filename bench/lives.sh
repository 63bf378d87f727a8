#!/bin/sh
# bench/lives.sh [EVENTS]: what a run of 200 lives with 400 saves over this many events (16) costs beside one of 20: wall time (the best of
# five) and, where valgrind is there, instructions.
set -eu
events=${1:-16}
cd "$(dirname "$0")/.."
./faultmem check </dev/null >/dev/null
program=crates/faultmem/out/faultmem
scripts=$(mktemp -d)
trap 'rm -rf "$scripts"' EXIT
for lives in 20 200; do
    script=$scripts/$lives.script
    sh bench/make_lives.sh "$lives" "$events" >"$script"
    best=
    for _ in 1 2 3 4 5; do
        from=$(date +%s%N)
        "$program" run <"$script" >/dev/null
        took=$((($(date +%s%N) - from) / 1000))
        if [ -z "$best" ] || [ "$took" -lt "$best" ]; then
            best=$took
        fi
    done
    echo "$lives lives, $((2 * lives)) saves: $best microseconds"
    if command -v valgrind >/dev/null 2>&1; then
        echo "  instructions: $(valgrind --tool=callgrind --callgrind-out-file=/dev/null "$program" run <"$script" 2>&1 >/dev/null |
            sed -n 's/.*Collected : \([0-9]*\).*/\1/p')"
    fi
done
