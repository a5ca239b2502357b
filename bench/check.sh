#!/bin/sh
# Times `check` on large checked files beside `wc -lw` on the same files, with the peak memory of each.
here=$(cd "$(dirname "$0")" && pwd) || exit 1
folder=$(mktemp -d) || exit 1
trap 'rm -rf "$folder"' EXIT
"$here/../paprika" check <"$here/../examples/claims.txt" >/dev/null || exit 1
program=$here/../crates/paprika/out/paprika

compare() { # the script that writes a file, and its words
    script=$1
    shift
    python3 "$here/$script" "$@" >"$folder/file" || exit 1
    echo "$script $*: $(wc -c <"$folder/file") bytes"
    printf '  wc -lw '
    python3 "$here/measure.py" "$folder/file" /usr/bin/wc -lw
    printf '  check  '
    python3 "$here/measure.py" "$folder/file" "$program" check
}

compare claims.py answers 1000
compare claims.py answers 131072
compare claims.py eliminations 65536
compare results.py 4,4,4,4,4,4 3 30000
