#!/bin/sh
# make_lives.sh [LIVES [EVENTS]]: a script of this many lives (200) over this many events (16), each with two saves, on standard output.
lives=${1:-200}
events=${2:-16}
echo "config 1"
event=0
while [ "$event" -lt "$events" ]; do
    printf 'event %d dtc %06X\n' "$event" $((0x100 + event))
    event=$((event + 1))
done
life=0
while [ "$life" -lt "$lives" ]; do
    [ "$life" -eq 0 ] || echo power
    printf 'cycle 0\nfail %d\nsave\npass %d\nsave\n' $((life % events)) $((life % events))
    life=$((life + 1))
done
