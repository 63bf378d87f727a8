#!/bin/sh
# bench/requests.sh [EVENTS]: what a run of 65,536 testers' requests over this many events (64) and a full memory costs beside one of 4,096.
exec sh "$(dirname "$0")/measure.sh" make_requests.sh request "$@"
