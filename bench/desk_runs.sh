#!/bin/sh
# Runs surveys at which several desks and eliminators work at once, withdrawals among them, with gates that change who comes
# first: the checker has to find each journal valid and complete.
#
# usage: desk_runs.sh [RUNS_OF_EACH]
here=$(cd "$(dirname "$0")" && pwd) || exit 1
bench=$here/../crates/desks_bench/out/desks_bench
runs=${1:-14}
failed=0
if [ ! -x "$bench" ]; then
    (cd "$here/../crates/desks_bench" && rt run) >/dev/null || exit 1
fi

for desks in 2 4; do
    for eliminators in 0 1 2 4; do
        right=0
        run=0
        while [ "$run" -lt "$runs" ]; do
            run=$((run + 1))
            model=$((run % 4 + 1)) # a survey of 6, 3, 108 or 540 classes
            looks=$((run % 5 * 700)) # how long the gate holds whoever comes by, at most
            found=$("$bench" run "$model" "$run" "$desks" "$eliminators" 60 120 0 "$looks")
            case $found in
            *'the checker says valid complete') right=$((right + 1)) ;;
            *) failed=1 ;;
            esac
        done
        echo "$desks desks, $eliminators eliminators: $right of $runs valid complete"
    done
done
exit "$failed"
