#!/bin/sh
# How long a header of 1000, 4000 and 8000 elements takes to be read and compared, and the peak memory: seconds, the ratio to the
# shortest, and megabytes. Each tree is balanced, over GF(2), with boundaries of three digits; at joins of 32 leaves and more the
# right part's boundary becomes internal, so that the matrix has about 3 rows for each 16 elements.
# Usage: bench/header.sh [PROGRAM]   (PROGRAM: mso as `rt run` builds it)
set -eu
top=$(cd "$(dirname "$0")/.." && pwd)
program=${1:-$top/crates/mso/out/mso}
[ -x "$program" ] || { echo "build it first: cd crates/mso && rt run" >&2; exit 1; }
work=$(mktemp -d)
trap 'rm -rf "$work"' EXIT

header() { # of so many elements
    python3 - "$1" <<'PY'
import random
import sys
n = int(sys.argv[1])
random.seed(n)
lines = []
internal = []
def tree(low, high):
    if high - low == 1:
        v = [random.randrange(2) for _ in range(3)]
        lines.append('elem e%d %s 1' % (low, ''.join(map(str, v))))
        return [str(d) for d in v]
    middle = (low + high) // 2
    left, right = tree(low, middle), tree(middle, high)
    if high - low < 32:
        lines.append('join s')
        return [a + b for a, b in zip(left, right)]
    lines.append('join i')
    internal.extend('0' * middle + b + '0' * (n - high) for b in right)
    return [a + '0' * (high - middle) for a in left]
rows = tree(0, n) + internal
print('mso 1\nfield 2')
for k in range(0, n, 500):
    print('elements ' + ' '.join('e%d' % i for i in range(k, min(n, k + 500))))
for row in rows:
    print('row ' + row)
print('op s 3 3 3 0 100/010/001 100/010/001')
print('op i 3 3 3 3 100000/010000/001000 000100/000010/000001\ntree')
print('\n'.join(lines))
print('end\ndecide ind(*)')
PY
}

first=
for n in 1000 4000 8000; do
    header "$n" > "$work/job"
    measured=$(python3 - "$program" "$work/job" <<'PY'
import resource
import subprocess
import sys
with open(sys.argv[2]) as job:
    out = subprocess.run([sys.argv[1], 'run'], stdin=job, capture_output=True)
use = resource.getrusage(resource.RUSAGE_CHILDREN)
print(use.ru_utime + use.ru_stime, use.ru_maxrss / 1024, out.stdout.decode().strip().replace(' ', '_'))
PY
)
    first=${first:-$(echo "$measured" | cut -d' ' -f1)}
    echo "$measured" | awk -v n="$n" -v f="$first" '{ printf "%5d elements: %.3f s, ratio %.1f, %.0f MB, answers %s\n", n, $1, $1 / (f > 0.001 ? f : 0.001), $2, $3 }'
done
