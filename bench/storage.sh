#!/bin/sh
# bench/storage.sh: what calls on the driver and the store cost on the flash in memory, of 1,024 pages a sector and a full log, and on the
# EEPROM in memory, of 1,090 units, start-ups and saves over 64 and 256 events: operations of the device, instructions (where valgrind is
# there) and time, less what the preparation costs. A first save is reported by itself.
set -eu
cd "$(dirname "$0")/.."
program=crates/bench/out/bench
(cd crates/bench && rt run -- storage flash mounts 0 >&2)

# The operations of $3 calls of the kind $2 on the device $1, of $4 events where that is given.
operations() {
    "$program" storage "$@" | sed 's/ .*//'
}

# The instructions of such a run, by callgrind, which gives the same number each time.
instructions() {
    valgrind --tool=callgrind --callgrind-out-file=/dev/null "$program" storage "$@" 2>&1 >/dev/null |
        sed -n 's/.*Collected : \([0-9]*\).*/\1/p'
}

# The microseconds of the shortest of five such runs.
shortest() {
    best=
    for _ in 1 2 3 4 5; do
        from=$(date +%s%N)
        "$program" storage "$@" >/dev/null
        took=$((($(date +%s%N) - from) / 1000))
        if [ -z "$best" ] || [ "$took" -lt "$best" ]; then
            best=$took
        fi
    done
    echo "$best"
}

printf '%-7s %-18s %6s %6s %12s %14s %14s\n' device call events times operations instructions nanoseconds
measure() {
    device=$1
    kind=$2
    times=$3
    events=${4:-}
    made=$(($(operations "$device" "$kind" "$times" $events) - $(operations "$device" "$kind" 0 $events)))
    took=$((($(shortest "$device" "$kind" "$times" $events) - $(shortest "$device" "$kind" 0 $events)) * 1000 / times))
    counted=-
    if command -v valgrind >/dev/null 2>&1; then
        counted=$((($(instructions "$device" "$kind" "$times" $events) - $(instructions "$device" "$kind" 0 $events)) / times))
    fi
    printf '%-7s %-18s %6s %6s %12s %14s %14s\n' "$device" "$kind" "${events:--}" "$times" "$made" "$counted" "$took"
}

for device in flash eeprom; do
    measure "$device" mounts 100
    measure "$device" reads 10000
    measure "$device" writes 10000
    for count in 64 256; do
        made=$(($(operations "$device" saves-of-nothing 0 "$count") - $(operations "$device" first-start-up 0 "$count")))
        printf '%-7s %-18s %6s %6s %12s\n' "$device" first-save "$count" 1 "$made"
        measure "$device" start-ups 200 "$count"
        measure "$device" saves-of-nothing 200 "$count"
        measure "$device" saves-of-one 200 "$count"
        measure "$device" saves-of-all 200 "$count"
    done
done
