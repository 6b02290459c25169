#!/bin/sh
# How long a decomposition takes to be built, beside how long the header that it gives takes to be read by `run`: seconds, their
# ratio, and the peak memory of `build` in megabytes. Over GF(2), 1024, 2048 and 4096 columns and half as many rows: each row has
# digits in a window of four columns, two further on than the row before. The shape is a chain of blocks of eight columns.
# Usage: bench/build.sh [PROGRAM]   (PROGRAM: mso as `rt run` builds it)
set -eu
top=$(cd "$(dirname "$0")/.." && pwd)
program=${1:-$top/crates/mso/out/mso}
[ -x "$program" ] || { echo "build it first: cd crates/mso && rt run" >&2; exit 1; }
work=$(mktemp -d)
trap 'rm -rf "$work"' EXIT

decomposition() { # of so many columns
    python3 - "$1" <<'PY'
import random
import sys
n = int(sys.argv[1])
random.seed(n)
lines = []
def block(low, high):
    if high - low == 1:
        lines.append('leaf e%d 1' % low)
        return
    middle = (low + high) // 2
    block(low, middle)
    block(middle, high)
    lines.append('join')
print('mso-build 1\nfield 2')
for k in range(0, n, 500):
    print('elements ' + ' '.join('e%d' % i for i in range(k, min(n, k + 500))))
for i in range(n // 2):
    window = ''.join(str(random.randrange(2)) for _ in range(min(4, n - 2 * i)))
    print('row ' + '0' * (2 * i) + window + '0' * (n - 2 * i - len(window)))
print('shape')
for low in range(0, n, 8):
    block(low, low + 8)
    if low:
        lines.append('join')
print('\n'.join(lines))
print('end')
PY
}

measured() { # COMMAND TEXT OUTPUT: seconds and megabytes
    python3 - "$program" "$@" <<'PY'
import resource
import subprocess
import sys
with open(sys.argv[3]) as text, open(sys.argv[4], 'w') as output:
    subprocess.run([sys.argv[1], sys.argv[2]], stdin=text, stdout=output)
use = resource.getrusage(resource.RUSAGE_CHILDREN)
print(use.ru_utime + use.ru_stime, use.ru_maxrss / 1024)
PY
}

for n in 1024 2048 4096; do
    decomposition "$n" > "$work/text"
    built=$(measured build "$work/text" "$work/job")
    echo 'decide ind(*)' >> "$work/job"
    read=$(measured run "$work/job" "$work/answer")
    echo "$built $read" | awk -v n="$n" -v a="$(cat "$work/answer")" \
        '{ printf "%5d columns: built in %.3f s, read in %.3f s, ratio %.1f, %.0f MB, answers %s\n", n, $1, $3, $1 / ($3 > 0.001 ? $3 : 0.001), $2, a }'
done
