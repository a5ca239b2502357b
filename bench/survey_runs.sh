#!/bin/sh
# Runs surveys by the proved program: the oracle looks at each reply, and `paprika check` at each journal.
#
# usage: survey_runs.sh [SEED..]
here=$(cd "$(dirname "$0")" && pwd) || exit 1
bench=$here/../crates/survey_bench/out/survey_bench
folder=$(mktemp -d) || exit 1
trap 'rm -rf "$folder"' EXIT
failed=0
[ $# -gt 0 ] || set -- 1 7
if [ ! -x "$bench" ]; then
    (cd "$here/../crates/survey_bench" && rt run) >/dev/null || exit 1
fi
"$here/../paprika" check <"$here/../examples/claims.txt" >/dev/null || exit 1
checker=$here/../crates/paprika/out/paprika

judge() { # the pattern of a right answer, who judges, and the words of the run
    wanted=$1
    judge=$2
    shift 2
    "$bench" "$@" >"$folder/run" || failed=1
    case $judge in
    oracle) found=$(python3 "$here/survey_oracle.py" <"$folder/run") ;;
    check) found=$("$checker" check <"$folder/run") ;;
    esac
    case $found in
    $wanted) ;;
    *) failed=1 ;;
    esac
    echo "$*: $found"
}

for seed; do
    for number in 1 2 3 4 5 6 7 8 9 10 11 12 13 14 15 16; do
        judge '* are right' oracle replies "$number" "$seed"
        judge '* are right' oracle mixed "$number" "$seed" 400
        judge 'valid complete' check journal "$number" "$seed" 0
        judge 'valid*' check journal "$number" "$seed" 400
    done
done
exit "$failed"
