#!/bin/sh
# Prints calls a second on the ticket lock and on a plain mutex over the same machine, for 1, 2, 4 and 8 lanes, each the best of
# three runs. The first word is how many calls a run makes in all (800000 where it is left out). To see it on two processors:
# taskset -c 0,1 bench/lock.sh
set -eu
cd "$(dirname "$0")/.."
calls=${1:-800000}
program=crates/bench/out/bench
if [ ! -x "$program" ]; then
    (cd crates/bench && rt run -- lock turn 1 1 >&2)
fi

# The nanoseconds of the shortest of three runs on lock $1 with $2 lanes of $3 calls.
shortest() {
    best=
    for _ in 1 2 3; do
        from=$(date +%s%N)
        "$program" lock "$1" "$2" "$3" >/dev/null
        took=$(($(date +%s%N) - from))
        if [ -z "$best" ] || [ "$took" -lt "$best" ]; then
            best=$took
        fi
    done
    echo "$best"
}

printf '%s processors\n' "$(nproc)"
printf '%5s %12s %12s\n' lanes turn mutex
for lanes in 1 2 4 8; do
    each=$((calls / lanes))
    turn=$(shortest turn "$lanes" "$each")
    mutex=$(shortest mutex "$lanes" "$each")
    printf '%5s %12s %12s\n' "$lanes" $((each * lanes * 1000000000 / turn)) $((each * lanes * 1000000000 / mutex))
done
