#!/bin/sh
# What an edit of a session costs: 5,000 changes of weights and 3,000 exchanges of leaves, on a deep and on a balanced tree of 1000
# leaves over GF(2) with boundaries of three digits, for the least dependent set. Prints microseconds an edit, nanoseconds for each pair
# of rows at the joins from the leaf to the root (edits that stop early pass over fewer of them), and, where another program is given
# that answers the same lines, the ratio to it. The time of the same job without edits is taken off; the least of five runs counts, both
# programs in turns; the machine should be quiet.
# Usage: bench/edits.sh [PROGRAM [OTHER]]   (PROGRAM: mso as `rt run` builds it)
set -eu
top=$(cd "$(dirname "$0")/.." && pwd)
program=${1:-$top/crates/mso/out/mso}
[ -x "$program" ] || { echo "build it first: cd crates/mso && rt run" >&2; exit 1; }
python3 - "$program" "${2:-}" <<'PY'
import random
import resource
import subprocess
import sys

programs = [p for p in sys.argv[1:] if p]
leaves = 1000

class Job:
    """The text of a tree, and for each leaf the pairs of rows at the joins above it."""
    def __init__(self, cut):
        self.random, self.cut, self.lines, self.pairs = random.Random(leaves), cut, [], [0] * leaves
        rows, _ = self.part(0, leaves)
        self.header = ('mso 1\nfield 2\n' + ''.join('elements %s\n' % ' '.join('e%d' % i for i in range(k, k + 500)) for k in range(0, leaves, 500))
            + ''.join('row %s\n' % row for row in rows) + 'op s 3 3 3 0 100/010/001 100/010/001\ntree\n' + '\n'.join(self.lines)
            + '\nend\nleast X not ind(X)\n')

    def part(self, low, high):
        """The rows of a part, and its types: spans of independent sets, and None for all dependent ones."""
        if high - low == 1:
            vector = self.random.randrange(8)
            self.lines.append('elem e%d %s %d' % (low, format(vector, '03b'), self.random.randint(1, 1000)))
            return list(format(vector, '03b')), {frozenset([0]), frozenset([0, vector]) if vector else None}
        middle = self.cut(low, high)
        (first, left), (second, right) = self.part(low, middle), self.part(middle, high)
        self.lines.append('join s')
        for leaf in range(low, high):
            self.pairs[leaf] += len(left) * len(right)
        types = {None if a is None or b is None or len(a & b) > 1 else frozenset(u ^ v for u in a for v in b) for a in left for b in right}
        return [a + b for a, b in zip(first, second)], types

def edit(job, kind, draw):
    name = draw.randrange(leaves)
    if kind == 'weight':
        return name, 'weight e%d %d\n' % (name, draw.randint(1, 1000))
    vector = format(draw.randrange(8), '03b')
    return name, 'replace e%d 0\nelem e%d %s %d\nend\n' % (name, name, vector, draw.randint(1, 1000))

def seconds(program, text):
    before = resource.getrusage(resource.RUSAGE_CHILDREN)
    answers = subprocess.run([program, 'run'], input=text.encode(), stdout=subprocess.PIPE, check=True).stdout
    after = resource.getrusage(resource.RUSAGE_CHILDREN)
    return after.ru_utime + after.ru_stime - before.ru_utime - before.ru_stime, answers

sys.setrecursionlimit(10000)
for shape, cut in ('deep', lambda low, high: high - 1), ('balanced', lambda low, high: (low + high) // 2):
    job = Job(cut)
    for kind, count in ('weight', 5000), ('replace', 3000):
        draw = random.Random(count)
        edits = [edit(job, kind, draw) for _ in range(count)]
        text, pairs = job.header + ''.join(line for _, line in edits), sum(job.pairs[name] for name, _ in edits)
        cost, answers = {}, {}
        for _ in range(5):
            for p in programs:
                base, _ = seconds(p, job.header)
                whole, answers[p] = seconds(p, text)
                cost[p] = min(cost.get(p, 1e9), whole - base)
        assert all(a == answers[programs[0]] for a in answers.values()), 'the programs answer differently'
        first = cost[programs[0]]
        ratio = ', ratio %.2f' % (first / cost[programs[1]]) if len(programs) > 1 else ''
        print('%d %ss on a %s tree: %.1f us an edit, %.1f ns a pair of rows%s' % (count, kind, shape, first / count * 1e6, first / pairs * 1e9, ratio))
PY
