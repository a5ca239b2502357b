#!/bin/sh
# Times surveys of one desk, and of four, beside eliminators: the desks' waiting time, processor time, and who eliminated.
#
# usage: desk_times.sh [SEED]
here=$(cd "$(dirname "$0")" && pwd) || exit 1
bench=$here/../crates/desks_bench/out/desks_bench
seed=${1:-7}
if [ ! -x "$bench" ]; then
    (cd "$here/../crates/desks_bench" && rt run) >/dev/null || exit 1
fi

timed() { # a title, and the words of the run
    title=$1
    shift
    echo "$title"
    "$bench" "$@" | sed 's/^/  /'
}

for number in 4 5 6; do # 540, 1,008 and 13,500 classes
    timed "turns on one thread, no jobs: model $number" turns "$number" "$seed" 0
    timed "turns on one thread, all jobs: model $number" turns "$number" "$seed" 1000000
    for thinking in 0 5000; do
        for eliminators in 0 1 2 4; do
            timed "one desk, $eliminators eliminators, $thinking us to think: model $number" \
                run "$number" "$seed" 1 "$eliminators" 1000000 0 "$thinking" 0
        done
    done
    timed "four desks, two eliminators: model $number" run "$number" "$seed" 4 2 1000000 0 0 0
done
