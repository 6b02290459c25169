#!/bin/sh
# How time and memory grow: with the leaves of a balanced tree, with the boundary, with set quantifiers one inside the other, and with
# edits. Prints for each job its states (cells and rows, found by `run --limit`), seconds of processor time and the most memory in MiB,
# and writes one picture (SVG) for each curve where a folder is given. The machine should be quiet; the least of three runs counts.
# Usage: bench/scale.sh [PROGRAM [FOLDER]]   (PROGRAM: mso as `rt run` builds it)
set -eu
top=$(cd "$(dirname "$0")/.." && pwd)
program=${1:-$top/crates/mso/out/mso}
[ -x "$program" ] || { echo "build it first: cd crates/mso && rt run" >&2; exit 1; }
python3 - "$program" "${2:-}" <<'PY'
import os
import random
import resource
import subprocess
import sys

program, folder = sys.argv[1:]

def tree(leaves, width, cut, draw):
    """A tree over GF(2) whose leaves are vectors of so many digits, joined by one operator that adds the spaces."""
    unit = '/'.join('0' * k + '1' + '0' * (width - 1 - k) for k in range(width))
    vectors = [format(draw.randrange(1, 2 ** width), '0%db' % width) for _ in range(leaves)]
    lines = ['mso 1', 'field 2']
    lines += ['elements ' + ' '.join('e%d' % i for i in range(k, min(k + 500, leaves))) for k in range(0, leaves, 500)]
    lines += ['row ' + ''.join(v[k] for v in vectors) for k in range(width)]
    lines += ['op s %d %d %d 0 %s %s' % (width, width, width, unit, unit), 'tree']

    def part(low, high):
        if high - low == 1:
            lines.append('elem e%d %s %d' % (low, vectors[low], draw.randint(1, 1000)))
            return
        middle = cut(low, high)
        part(low, middle)
        part(middle, high)
        lines.append('join s')
    part(0, leaves)
    return '\n'.join(lines) + '\nend\n'

def half(low, high):
    return (low + high) // 2

def last(low, high):
    return high - 1

def run(text, options=()):
    """Seconds of processor time, MiB, and the answer, of one run."""
    child = subprocess.Popen([program, 'run', *options], stdin=subprocess.PIPE, stdout=subprocess.PIPE)
    if os.fork() == 0:
        child.stdout.close()
        try:
            child.stdin.write(text.encode())
            child.stdin.close()
        finally:
            os._exit(0)
    child.stdin.close()
    answer = child.stdout.read()
    _, _, used = os.wait4(child.pid, 0)
    os.wait()
    return used.ru_utime + used.ru_stime, used.ru_maxrss / 1024, answer

def states(text):
    """The least limit under which the job is not refused."""
    low, high = 0, 1 << 22
    while high - low > 1:
        middle = (low + high) // 2
        if b'refused states' in run(text, ('--limit', str(middle)))[2]:
            low = middle
        else:
            high = middle
    return high

def measure(title, axis, jobs):
    print('%s\n%12s %10s %10s %8s' % (title, axis, 'states', 'seconds', 'MiB'))
    points = []
    for at, header, edits in jobs:
        runs = [run(header + edits) for _ in range(3)]
        seconds, memory = min(r[0] for r in runs), max(r[1] for r in runs)
        points.append((at, seconds))
        own = resource.getrusage(resource.RUSAGE_SELF).ru_maxrss / 1024 + 4  # less cannot be told apart from this script's own memory
        shown = '%.1f' % memory if memory > own else '<%d' % own
        print('%12s %10d %10.3f %8s' % (at, states(header), seconds, shown), flush=True)
    if folder:
        picture(os.path.join(folder, axis.replace(' ', '_') + '.svg'), title, axis, points)

def picture(path, title, axis, points):
    """Seconds over the axis, both from zero."""
    wide, high, edge = 520, 300, 56
    most_x, most_y = max(x for x, _ in points), max(y for _, y in points)
    def place(x, y):
        return edge + (wide - 2 * edge) * x / most_x, high - edge - (high - 2 * edge) * y / most_y
    dots = [place(x, y) for x, y in points]
    text = '<text x="%.0f" y="%.0f" text-anchor="%s">%s</text>'
    with open(path, 'w') as file:
        file.write('<svg xmlns="http://www.w3.org/2000/svg" viewBox="0 0 %d %d" font-family="sans-serif" font-size="12">' % (wide, high))
        file.write('<rect width="100%" height="100%" fill="white"/>')
        file.write('<path d="M%d %d V%d H%d" fill="none" stroke="black"/>' % (edge, edge, high - edge, wide - edge))
        file.write('<polyline points="%s" fill="none" stroke="steelblue" stroke-width="2"/>' % ' '.join('%.1f,%.1f' % d for d in dots))
        file.writelines('<circle cx="%.1f" cy="%.1f" r="3" fill="steelblue"/>' % d for d in dots)
        shown = {}
        for (x, _), (at, _) in zip(points, dots):
            if all(abs(at - other) > 40 for other in shown):
                shown[at] = x
        file.writelines(text % (at, high - edge + 18, 'middle', x) for at, x in shown.items())
        file.write(text % (edge - 6, edge + 4, 'end', '%.2f s' % most_y) + text % (edge - 6, high - edge + 4, 'end', '0'))
        file.write(text % (wide / 2, high - 12, 'middle', axis) + text % (wide / 2, 24, 'middle', title) + '</svg>\n')

sys.setrecursionlimit(10000)
draw = random.Random(1)
dependent = 'least X not ind(X)\n'
measure('Lightest dependent set, boundary 3, balanced trees', 'leaves',
    [(n, tree(n, 3, half, draw) + dependent, '') for n in (250, 500, 1000, 2000, 4000, 8000)])
measure('Lightest dependent set, chains of 500 leaves', 'boundary',
    [(t, tree(500, t, last, draw) + dependent, '') for t in range(1, 7)])
apart = 'all z (not z in %s or not z in %s)'
nested = ['decide ind(*)\n', 'decide ex X not ind(X)\n', 'decide ex X ex Y (not ind(X) and not ind(Y) and %s)\n' % (apart % ('X', 'Y')),
    'decide ex X ex Y ex Z (not ind(X) and not ind(Y) and not ind(Z) and %s and %s)\n' % (apart % ('X', 'Y'), apart % ('Y', 'Z'))]
measure('Set quantifiers, one inside the other, chains of 500 leaves with boundary 1', 'set quantifiers',
    [(k, tree(500, 1, last, draw) + question, '') for k, question in enumerate(nested)])
chain = tree(1000, 3, last, draw) + dependent
measure('Changes of weights, a chain of 1000 leaves with boundary 3', 'edits',
    [(n, chain, ''.join('weight e%d %d\n' % (draw.randrange(1000), draw.randint(1, 1000)) for _ in range(n))) for n in (10, 100, 1000, 10000, 100000)])
PY
