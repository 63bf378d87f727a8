#!/bin/sh
# bench/lanes.sh: what a load of 60,000 reports costs in four lanes beside one lane after the other: wall time (the best of five) and
# peak memory, and whether both print the same; and the peak memory of scripts of 65,536 steps, the most that a script has, over 64
# events or as many as the first word says.
set -eu
events=${1:-64}
cd "$(dirname "$0")/.."
./faultmem check </dev/null >/dev/null
program=crates/faultmem/out/faultmem
reports=$(mktemp -d)
trap 'rm -rf "$reports"' EXIT

# The peak memory of a run of the program on these words, with this standard input.
peak() {
    input=$1
    shift
    if command -v /usr/bin/time >/dev/null 2>&1; then
        echo "  peak memory: $(/usr/bin/time -f %M "$program" "$@" <"$input" 2>&1 >/dev/null) KB"
    fi
}

for kind in plain lanes; do
    best=
    for _ in 1 2 3 4 5; do
        from=$(date +%s%N)
        "$program" load 60000 "$kind" </dev/null >"$reports/$kind"
        took=$((($(date +%s%N) - from) / 1000))
        if [ -z "$best" ] || [ "$took" -lt "$best" ]; then
            best=$took
        fi
    done
    echo "load 60000 $kind: $best microseconds, $((best * 1000 / 60000)) nanoseconds a report"
    peak /dev/null load 60000 "$kind"
done
cmp "$reports/plain" "$reports/lanes"
for generator in make_steps.sh make_requests.sh make_jobs.sh; do
    sh "bench/$generator" 65536 "$events" >"$reports/script"
    echo "65536 steps of $generator"
    peak "$reports/script" run
done
