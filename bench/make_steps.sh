#!/bin/sh
# make_steps.sh [STEPS [EVENTS]]: a script of this many steps (65536) over this many events (64), on standard output: a cycle, and
# then reports of all four kinds, shows and ticks over all events, half of which debounce by time.
steps=${1:-65536}
events=${2:-64}
awk -v steps="$steps" -v events="$events" 'BEGIN {
    split("pass fail prepass prefail show fail", kinds, " ")
    for (event = 0; event < events; event++)
        printf "event %d dtc %06X%s\n", event, event + 1, event % 2 ? " time 100 50" : " count 10 10 3 2"
    for (step = 0; step < steps; step++) {
        if (step % 4096 == 0) print "cycle 0"
        else if (step % 64 == 1) printf "tick %d\n", 1 + step % 7
        else printf "%s %d\n", kinds[step % 6 + 1], step * 7 % events
    }
}'
