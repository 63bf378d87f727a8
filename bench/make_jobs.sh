#!/bin/sh
# make_jobs.sh [STEPS]: a script of this many steps (65536) on standard output: a job for each of 32 blocks in turn, a question for each,
# and a drain after them, up to the 1,024 drains that a script may have.
steps=${1:-65536}
awk -v steps="$steps" 'BEGIN {
    print "blocks 32"
    drains = 0
    for (step = 0; step < steps; step++) {
        turn = step % 65
        if (turn == 64 && drains < 1024) { drains++; print "drain" }
        else if (turn < 32) printf "post %d %02X\n", turn, step % 256
        else printf "ask %d\n", turn % 32
    }
}'
