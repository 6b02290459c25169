#!/bin/sh
# Nanoseconds that the algebra of one join takes, by the calls one after another and by one elimination, and their ratio:
# `bench_space` is run with many rounds and with few, and the difference is divided. The least of five runs counts, both ways in
# turns; the machine should be quiet.
# Usage: bench/space.sh [ROUNDS], from the repository's top. The program is proved and built first.
set -eu
rounds=${1:-200000}
few=1000
cd "$(dirname "$0")/../crates/bench_space"
rt run -- 2 2 1 0 > /dev/null 2>&1
python3 - "$rounds" "$few" <<'PY'
import resource, subprocess, sys
rounds, few = int(sys.argv[1]), int(sys.argv[2])

def seconds(q, t, n, mode):
    before = resource.getrusage(resource.RUSAGE_CHILDREN).ru_utime
    out = subprocess.run(["out/bench_space", str(q), str(t), str(n), str(mode)], stdout=subprocess.PIPE, check=True).stdout
    return resource.getrusage(resource.RUSAGE_CHILDREN).ru_utime - before, out.decode().strip()

for q in 2, 3, 4, 5:
    for t in 2, 4, 6:
        assert seconds(q, t, 100, 2)[1] == "100", "the two ways find different keys"
        cost = {}
        for mode in 0, 1:
            low = min(seconds(q, t, few, mode)[0] for _ in range(5))
            high = min(seconds(q, t, rounds, mode)[0] for _ in range(5))
            cost[mode] = (high - low) / (rounds - few) * 1e9
        print(f"GF({q}) boundary {t}: {cost[0]:6.0f} ns by calls, {cost[1]:6.0f} ns by one elimination, ratio {cost[0] / cost[1]:.1f}")
PY
