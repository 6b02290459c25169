#!/bin/sh
# How much stack whole jobs take: the deepest tree, the most leaves, the deepest and the longest formulas, and edits at the deepest
# leaf. Each job is run under smaller and smaller stacks; the least one that serves is printed, in KiB.
# Usage: bench/stack.sh [PROGRAM]   (PROGRAM: mso as `rt run` builds it)
set -eu
top=$(cd "$(dirname "$0")/.." && pwd)
program=${1:-$top/crates/mso/out/mso}
[ -x "$program" ] || { echo "build it first: cd crates/mso && rt run" >&2; exit 1; }
work=$(mktemp -d)
trap 'rm -rf "$work"' EXIT

jobs() { # writes each job into a file of its own
    python3 - "$work" <<'PY'
import sys
work = sys.argv[1]

def write(name, lines):
    with open('%s/%s.mso' % (work, name), 'w') as file:
        file.write('\n'.join(lines) + '\n')

def head(n):
    names = ['e%d' % k for k in range(1, n + 1)]
    lists = ['elements ' + ' '.join(names[k:k + 512]) for k in range(0, n, 512)]
    return names, ['mso 1', 'field 2'] + lists + ['op z 0 0 0 0 . .', 'tree']

def chain(n):
    names, lines = head(n)
    for k, name in enumerate(names):
        lines.append('elem %s - 1' % name)
        if k:
            lines.append('join z')
    return lines + ['end']

def balanced(n):
    names, lines = head(n)
    for k, name in enumerate(names, 1):
        lines.append('elem %s - 1' % name)
        while k % 2 == 0:
            lines.append('join z')
            k //= 2
    return lines + ['end']

leaf = ['mso 1', 'field 2', 'elements a', 'row 1', 'tree', 'elem a 1 5', 'end']
edits = ['weight e1 2', 'replace e1 0', 'elem e1 - 3', 'end', 'replace e1 1023', 'void v 0', 'end']
write('deepest_decide', chain(1024) + ['decide ex X ind(X)'] + edits)
write('deepest_least', chain(1024) + ['least X ind(X) or ex x x in X'] + edits)
write('most_leaves', balanced(8192) + ['least X not ind(X)', 'weight e1 0'])
write('parentheses', leaf + ['decide ' + '(' * 2045 + 'true' + ')' * 2045])
write('nots', leaf + ['decide ' + 'not ' * 511 + 'true'])
write('implications', leaf + ['decide ' + 'true implies ' * 255 + 'true'])
write('binders', leaf + ['decide ' + ' '.join('%s %s%d' % ('ex' if k % 2 else 'all', 'x' if k % 4 < 2 else 'X', k) for k in range(16)) + ' true'])
PY
}

least() { # the least stack under which this job ends as it does under the largest
    least=none
    want=$("$program" run < "$1" | cksum)
    for size in 8192 4096 2048 1024 512 256 128 64; do
        got=$(sh -c 'ulimit -s "$1" && exec "$2" run < "$3"' sh "$size" "$program" "$1" 2> /dev/null | cksum) || break
        [ "$got" = "$want" ] || break
        least=$size
    done
    echo "$least"
}

jobs
for job in "$work"/*.mso; do
    printf '%-16s %s KiB\n' "$(basename "$job" .mso)" "$(least "$job")"
done
