#!/bin/sh
# Runs a proved bench program three times with the word `time`; surveys of four sizes each time.
#
# usage: time.sh turn_bench | pivot_bench | listing_bench | decision_bench | session_bench | survey_bench
set -eu
cd "$(dirname "$0")/.."
case ${1-} in
turn_bench | pivot_bench | listing_bench | decision_bench | session_bench) surveys= ;;
survey_bench) surveys='16 17 18 19' ;;
*)
    echo 'usage: time.sh turn_bench | pivot_bench | listing_bench | decision_bench | session_bench | survey_bench' >&2
    exit 2
    ;;
esac
program=crates/$1/out/$1
if [ ! -x "$program" ]; then
    (cd "crates/$1" && rt run) >/dev/null
fi
for _ in 1 2 3; do
    [ -n "$surveys" ] || "$program" time
    for survey in $surveys; do
        "$program" time "$survey" 7
    done
done
