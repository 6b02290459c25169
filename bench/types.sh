#!/bin/sh
# What a join of types costs in the automaton of a formula, where it is remembered and where it is not: runs of trees over GF(2) with
# boundaries of two digits, each join with one more leaf. Where all joins have one operator nearly all of them are remembered; where
# each has its own none is. `bench_types` is run on a longer and on a shorter tree, with many rounds and with few, and the differences
# are divided: nanoseconds and joins a second, for a leaf and the join with it, and allocations (where valgrind is there). Where another
# program is given that answers jobs, its time for the same jobs stands beside, header and all. The least of three runs counts; the
# machine should be quiet.
# Usage: bench/types.sh [OTHER [PROGRAM]]   (PROGRAM: bench_types as `rt run` builds it)
set -eu
top=$(cd "$(dirname "$0")/.." && pwd)
program=${2:-$top/crates/bench_types/out/bench_types}
[ -x "$program" ] || { echo "build it first: cd crates/bench_types && rt run -- 1 'decide ind(*)' < stdin" >&2; exit 1; }
python3 - "$program" "${1:-}" <<'PY'
import random
import re
import resource
import shutil
import subprocess
import sys

program, other = sys.argv[1:]
short, long = 100, 200
formulas = [
    ('circuit', 'ex X (not ind(X) and all Y (Y sub X implies (Y = X or ind(Y))))'),
    ('basis', 'ex X (ind(X) and all y (y in X or not ind(X|y)))'),
    ('connected', 'all x all y ex C ((x in C and y in C) and not ind(C) and all D (D sub C implies (D = C or ind(D))))'),
    ('two bases', 'ex A ex B (ind(A) and ind(B) and all y (y in A or not ind(A|y)) and all y (y in B or not ind(B|y)) and all z (not z in A or not z in B))'),
    ('separation', 'ex X (ex x x in X and ex y not y in X and all A all B (A sub X and all z (not z in B or not z in X) and ind(A) and ind(B) implies ind(A|B)))'),
]

def regular(draw):
    """A matrix of two rows and columns that has an inverse."""
    while True:
        a, b = draw.randrange(4), draw.randrange(4)
        if a and b and a != b:
            return a, b

def image(v, g):
    return (g[0] if v & 2 else 0) ^ (g[1] if v & 1 else 0)

def header(leaves, own):
    """The text of a header, where each join has an operator of its own, or all have one."""
    draw = random.Random(1)
    matrices, columns, tree = [], [], []
    for k in range(leaves):
        v = draw.randrange(1, 4)
        columns.append(v)
        tree.append('elem e%d %s 1' % (k, format(v, '02b')))
        if k:
            left, right = (regular(draw), regular(draw)) if own else ((2, 1), (2, 1))
            matrices.append((left, right))
            columns = [image(u, left) for u in columns[:-1]] + [image(v, right)]
            tree.append('join s%d' % (k - 1 if own else 0))
    ops = ['op s%d 2 2 2 0 %s %s' % (k, '/'.join(format(v, '02b') for v in a), '/'.join(format(v, '02b') for v in b))
           for k, (a, b) in enumerate(matrices[:None if own else 1])]
    rows = ['row ' + ''.join(str(v >> 1 - i & 1) for v in columns) for i in range(2)]
    names = ['elements ' + ' '.join('e%d' % k for k in range(i, min(i + 100, leaves))) for i in range(0, leaves, 100)]
    return '\n'.join(['mso 1', 'field 2'] + names + rows + ops + ['tree'] + tree + ['end']) + '\n'

def seconds(words, text):
    before = resource.getrusage(resource.RUSAGE_CHILDREN)
    subprocess.run(words, input=text.encode(), stdout=subprocess.DEVNULL, check=True)
    after = resource.getrusage(resource.RUSAGE_CHILDREN)
    return after.ru_utime + after.ru_stime - before.ru_utime - before.ru_stime

def allocations(words, text):
    told = subprocess.run(['valgrind'] + words, input=text.encode(), stdout=subprocess.DEVNULL, stderr=subprocess.PIPE, check=True).stderr.decode()
    return int(re.search(r'total heap usage: ([0-9,]+) allocs', told).group(1).replace(',', ''))

def rounds_in(formula, text):
    """So many rounds that they take a tenth of a second."""
    count = 2
    while count < 5000 and seconds([program, str(count), 'decide', formula], text) < 0.1:
        count *= 3
    return count

def of_a_round(measure, formula, text, rounds, runs):
    words = lambda count: [program, str(count), 'decide', formula]
    return min(measure(words(rounds), text) for _ in range(runs)) / (rounds - 1) - min(measure(words(1), text) for _ in range(runs)) / (rounds - 1)

def of_a_job(formula, text):
    return min(seconds([other, 'run'], text + 'decide %s\n' % formula) for _ in range(5))

for name, formula in formulas:
    for what, own in ('remembered', False), ('new', True):
        texts = header(long, own), header(short, own)
        def a_join(cost):
            most, least = (cost(text) for text in texts)
            return (most - least) / (long - short)
        rounds = rounds_in(formula, texts[0])
        took = a_join(lambda text: of_a_round(seconds, formula, text, rounds, 5))
        line = '%-10s %-10s %8.0f ns, %9.0f a second' % (name, what, took * 1e9, 1 / max(took, 1e-9))
        if shutil.which('valgrind'):
            line += ', %6.1f allocations' % a_join(lambda text: of_a_round(allocations, formula, text, 3, 1))
        if other:
            line += '; the other program %8.0f ns' % (a_join(lambda text: of_a_job(formula, text)) * 1e9)
        print(line, flush=True)
PY
