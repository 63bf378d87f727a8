#!/bin/sh
# make_requests.sh [STEPS [EVENTS]]: a script of this many steps (65536, the most of a script) on standard output: this many events (64) with
# two data identifiers each, a cycle and a report on each event, which fill the memory, and then each request of the profile in turn, by
# the four testers.
requests=${1:-65536}
events=${2:-64}
awk -v requests="$requests" -v events="$events" 'BEGIN {
    for (event = 0; event < events; event++)
        printf "event %d dtc %06X count 10 10 3 2 jumpup 0\n", event, event + 1
    for (event = 0; event < events; event++)
        printf "did %d 0101\ndid %d 0107\n", event, event
    print "cycle 0"
    for (event = 0; event < events; event++) printf "%s %d\n", event < events / 2 ? "fail" : "prefail", event
    forms = split("10 03|10 01|19 01 FF|19 02 08|19 02 FF|19 03|19 04 N FF|19 06 N FF|19 0A|19 0B|19 0C|19 0D|19 0E|19 14|3E 00|3E 80|10 03|85 02|85 01|14 L", form, "|")
    last = dtc(events)
    for (request = 0; request < requests - events - 1; request++) {
        line = form[request % forms + 1]
        sub(/N/, dtc(request % events + 1), line)
        sub(/L/, last, line)
        printf "t %s %s\n", substr("ABCD", int(request / forms) % 4 + 1, 1), line
    }
}
function dtc(number) {
    return sprintf("%02X %02X %02X", int(number / 65536), int(number / 256) % 256, number % 256)
}'
