#!/bin/sh
# bench/measure.sh GENERATOR UNIT [EVENTS]: what a run of a script of 65,536 units that GENERATOR makes, over this many events where that
# is given, costs beside one of 4,096: wall time (the best of five), time a unit, peak memory, write calls, and instructions where
# valgrind is there.
set -eu
cd "$(dirname "$0")/.."
generator=$1
unit=$2
events=${3:-}
./faultmem check </dev/null >/dev/null
program=crates/faultmem/out/faultmem
scripts=$(mktemp -d)
trap 'rm -rf "$scripts"' EXIT

# The microseconds of the shortest of five runs of script $1.
shortest() {
    best=
    for _ in 1 2 3 4 5; do
        from=$(date +%s%N)
        "$program" run <"$1" >"$scripts/report"
        took=$((($(date +%s%N) - from) / 1000))
        if [ -z "$best" ] || [ "$took" -lt "$best" ]; then
            best=$took
        fi
    done
    echo "$best"
}

# The instructions of a run of script $1, by callgrind, which gives the same number each time.
instructions() {
    valgrind --tool=callgrind --callgrind-out-file=/dev/null "$program" run <"$1" 2>&1 >/dev/null |
        sed -n 's/.*Collected : \([0-9]*\).*/\1/p'
}

for units in 4096 65536; do
    script=$scripts/$units.script
    sh "bench/$generator" "$units" $events >"$script"
    took=$(shortest "$script")
    echo "$units ${unit}s: $took microseconds, $((took * 1000 / units)) nanoseconds a $unit"
    echo "  report: $(wc -c <"$scripts/report") bytes"
    if command -v /usr/bin/time >/dev/null 2>&1; then
        echo "  peak memory: $(/usr/bin/time -f %M "$program" run <"$script" 2>&1 >/dev/null) KB"
    fi
    if command -v strace >/dev/null 2>&1; then
        echo "  write calls: $(strace -f -e trace=write -o "$scripts/trace" "$program" run <"$script" >/dev/null; grep -c write "$scripts/trace")"
    fi
    if command -v valgrind >/dev/null 2>&1; then
        count=$(instructions "$script")
        echo "  instructions: $count, $((count / units)) a $unit"
    fi
done
