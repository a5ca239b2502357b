#!/bin/sh
# Refuses the program each of its allocations in turn. It has to end with status 5 and nothing written, or with the status and the
# text that it has with enough memory: a list may do with less room, the caller holds the sessions of a desk that gets no thread,
# and an eliminator is left out.
#
# usage: memory.sh
here=$(cd "$(dirname "$0")" && pwd) || exit 1
cd "$here/.." || exit 1
./paprika check <examples/claims.txt >/dev/null || exit 1
program=crates/paprika/out/paprika
folder=$(mktemp -d) || exit 1
trap 'rm -rf "$folder"' EXIT
failed=0

# The allocator of the C library, but for the one allocation of the number REFUSE, which leaves the file REFUSED.
cc -shared -fPIC -O1 -o "$folder/refuse.so" -x c - <<'EOF' || exit 1
#include <fcntl.h>
#include <stdatomic.h>
#include <stdlib.h>
#include <unistd.h>
void *__libc_malloc(size_t), *__libc_realloc(void *, size_t);
static atomic_long count;
static int refused(void) {
    const char *number = getenv("REFUSE");
    if (!number || atomic_fetch_add(&count, 1) + 1 != atol(number)) return 0;
    close(open(getenv("REFUSED"), O_CREAT | O_WRONLY, 0600));
    return 1;
}
void *malloc(size_t size) { return refused() ? NULL : __libc_malloc(size); }
void *realloc(void *block, size_t size) { return refused() ? NULL : __libc_realloc(block, size); }
EOF

refuse_each() { # the input, and the words
    input=$1
    shift
    "$program" "$@" <"$input" >"$folder/wanted"
    wanted=$?
    number=1 ended=0 same=0
    while :; do
        rm -f "$folder/refused"
        timeout 60 env REFUSE="$number" REFUSED="$folder/refused" LD_PRELOAD="$folder/refuse.so" "$program" "$@" <"$input" >"$folder/out"
        status=$?
        [ -e "$folder/refused" ] || break
        if [ $status = 5 ] && [ ! -s "$folder/out" ]; then
            ended=$((ended + 1))
        elif [ $status = $wanted ] && cmp -s "$folder/out" "$folder/wanted"; then
            same=$((same + 1))
        else
            echo "paprika $*, ${input##*/}: allocation $number refused, status $status"
            failed=1
        fi
        number=$((number + 1))
    done
    [ $number -gt 1 ] || failed=1
    echo "paprika $*, ${input##*/}: $((number - 1)) allocations, $ended end it with status 5, $same change nothing"
}

head -n 4 examples/survey.txt >"$folder/script"
printf '%s\n' '{"ask":"withdraw"}' '{"ask":"next"}' '{"ask":"bye"}' >>"$folder/script"
{
    cat <<'EOF'
{"criteria":[{"levels":["high","low"],"name":"price"},{"levels":["slow","fast"],"name":"speed"},{"levels":["loud","quiet"],"name":"noise"}],"degree":3,"respondents":[{"code":"k1","name":"ana"}]}
{"hello":{"code":"k1","desk":1,"name":"ana"}}
EOF
    for question in 1 2 3 4; do
        printf '%s\n' '{"ask":"next"}' "{\"answer\":{\"question\":$question,\"side\":\"left\"}}"
    done
    printf '%s\n' '{"ask":"next"}' '{"ask":"bye"}'
} >"$folder/always_left"
for file in examples/claims.txt examples/result.txt examples/withdrawn.txt examples/unproved.txt; do
    refuse_each "$file" check
done
refuse_each examples/withdrawn.txt migrate
refuse_each examples/projects.txt rank
refuse_each /dev/null sample 1 2x2x2:3
for eliminators in 0 1 2; do
    refuse_each "$folder/always_left" run --eliminators "$eliminators"
    refuse_each "$folder/script" run --eliminators "$eliminators"
    refuse_each /dev/null run --eliminators "$eliminators" --sample 1 --shape 2x2x2:3
done
exit "$failed"
