#!/bin/sh
# Runs the program on each example, and on words and ends that it refuses, and compares line and status.
here=$(cd "$(dirname "$0")" && pwd) || exit 1
cd "$here/.." || exit 1
failed=0

expect() { # the status and the text that are wanted, the input, and the words
    wanted=$1 text=$2 input=$3
    shift 3
    out=$(./paprika "$@" <"$input")
    status=$?
    if [ "$status" != "$wanted" ] || [ "$out" != "$text" ]; then
        echo "paprika $* < $input: status $status and '$out', not $wanted and '$text'"
        failed=1
    fi
}

usage='usage: paprika check | migrate | rank | sample SEED SHAPE | run [--eliminators N] [--sample SEED --shape SHAPE]'
usage="$usage | serve PORT [--eliminators N] [--connections K]"
sample='sample 1 2x2x2:3 classes 6 questions 4 left 3 right 1 equal 0 eliminated 2 trace 95431 complete'
expect 0 'valid' examples/claims.txt check
expect 0 'valid complete' examples/result.txt check
expect 0 'valid' examples/withdrawn.txt check
expect 1 'invalid 6 sum' examples/unproved.txt check
expect 1 'invalid 4 class' examples/turned_class.txt check
expect 1 'invalid 2 model' examples/too_many_increments.txt check
expect 1 'unfinished 5' examples/unfinished.txt check
expect 1 'unfinished 1' /dev/null check
first_format=$(mktemp) || exit 1
trap 'rm -f "$first_format"' EXIT
sed '1s/2$/1/' examples/result.txt >"$first_format"
expect 0 "$(cat examples/result.txt)" "$first_format" migrate
expect 0 "$(cat examples/withdrawn.txt)" examples/withdrawn.txt migrate
expect 1 'invalid 1 form' examples/claims.txt migrate
expect 0 "$(printf 'rank,name,value\n1,School,5\n2,Bridge,3\n2,Clinic,3')" examples/projects.txt rank
expect 1 'definition form' examples/claims.txt rank
expect 0 "$(printf '%s\n' '{"welcome":{"classes":15,"desk":1}}' \
    '{"question":{"left":[2,1,0],"number":1,"right":[1,2,0]}}' '{"accepted":1}' \
    '{"question":{"left":[2,1,0],"number":2,"right":[1,3,0]}}' '{"bye":true}')" examples/survey.txt run
expect 1 'definition form' examples/claims.txt run
expect 0 "$sample" /dev/null sample 1 2x2x2:3
expect 0 "$sample" /dev/null run --sample 1 --shape 2x2x2:3
expect 0 'sample 1 3x2:2 classes 3 questions 2 left 2 right 0 equal 0 eliminated 1 trace 102 complete' /dev/null sample 1 3x2:2
expect 1 'definition classes 80730' /dev/null sample 1 "$(printf '2x%.0s' $(seq 23))2:4"
expect 1 'definition increments 25' /dev/null sample 1 13x14:2
expect 2 "$usage" examples/claims.txt
expect 2 "$usage" examples/claims.txt check migrate
expect 2 "$usage" examples/claims.txt Check
expect 2 "$usage" examples/claims.txt --help
expect 2 "$usage" examples/claims.txt sample 1
expect 2 "$usage" examples/claims.txt run --eliminators 17
expect 2 "$usage" examples/claims.txt sample 01 2x2:2
expect 2 "$usage" examples/claims.txt serve
expect 2 "$usage" examples/claims.txt serve 65536
expect 1 'definition form' examples/claims.txt serve 7878
expect 2 "$usage" examples/claims.txt "$(printf '\377')"
expect 2 "$usage" examples/claims.txt check "$(printf '\377')"
for word in check migrate run; do
    expect 3 '' examples $word # a folder can't be read
    if [ -w /dev/full ]; then
        ./paprika $word <examples/result.txt >/dev/full
        status=$?
        if [ $status != 4 ]; then echo "paprika $word > /dev/full: status $status, not 4" && failed=1; fi
    fi
done
{
    sleep 1
    ./paprika check <examples/result.txt
    echo $? >"$first_format"
} | : # nobody reads the pipe any more
status=$(cat "$first_format")
if [ "$status" != 4 ]; then echo "paprika check | : has status $status, not 4" && failed=1; fi
if [ $failed = 0 ]; then echo 'all as wanted'; fi
exit $failed
