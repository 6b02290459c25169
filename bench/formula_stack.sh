#!/bin/sh
# How much stack reading, printing and dropping the deepest formula texts takes: runs the test of them in mm_text_tests, as
# `rt test` built them there, under smaller and smaller stacks, and prints the least one that serves, in KiB.
program="$(dirname "$0")/../crates/mm_text_tests/out/mm_text_tests_tests"
[ -x "$program" ] || { echo "first run: cd crates/mm_text_tests && rt test" >&2; exit 1; }
least=none
for size in 4096 2048 1024 512 256 128 64; do
    if sh -c 'ulimit -s "$1" && "$2" formula_text::deep' sh "$size" "$program" >/dev/null 2>&1; then least=$size; else break; fi
done
echo "least stack that serves: $least KiB"
