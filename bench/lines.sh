#!/bin/sh
# How fast a text is cut into lines, beside `wc -l` on the same bytes: megabytes a second, and their ratio.
# Usage: bench/lines.sh [PROGRAM]   (PROGRAM: bench_lines as `rt run` builds it)
set -eu
top=$(cd "$(dirname "$0")/.." && pwd)
program=${1:-$top/crates/bench_lines/out/bench_lines}
[ -x "$program" ] || { echo "build it first: cd crates/bench_lines && rt run" >&2; exit 1; }
work=$(mktemp -d)
trap 'rm -rf "$work"' EXIT

# Near 64 MiB each: short lines, long lines, comments.
awk 'BEGIN { for (i = 0; i < 3900000; i++) printf "weight e%07d 5\n", i % 4096 }' > "$work/short"
awk 'BEGIN { s = "1"; while (length(s) < 60000) s = s s; for (i = 0; i < 1000; i++) print "row " substr(s, 1, 60000) }' > "$work/long"
awk 'BEGIN { for (i = 0; i < 2200000; i++) print "# a comment that is read by nobody" }' > "$work/comments"

seconds() { # of the processor, for a command that reads a file
    file=$1; shift
    { TIMEFORMAT='%U %S'; bash -c 'TIMEFORMAT="%U %S"; time "$@" > /dev/null' bash "$@" < "$file"; } 2>&1 | awk '{ print $1 + $2 }'
}

for text in short long comments; do
    bytes=$(wc -c < "$work/$text")
    ours=$(seconds "$work/$text" "$program")
    wc=$(seconds "$work/$text" wc -l)
    awk -v n="$text" -v b="$bytes" -v o="$ours" -v w="$wc" \
        'BEGIN { o = o < 0.001 ? 0.001 : o; w = w < 0.001 ? 0.001 : w; printf "%-9s %7.0f MB/s, wc -l %7.0f MB/s, ratio %.1f\n", n, b / o / 1e6, b / w / 1e6, o / w }'
done
