#!/usr/bin/env bash
# Compares the program with a plain model, where the model lies beside the checkout and python3 is there: a short form, with a seed
# of the day.
set -u
top=$(cd "$(dirname "$0")/../.." && pwd)
check=$top/../shared/conformance/check.py
program=$top/crates/mso/out/mso
if [ ! -f "$check" ] || ! command -v python3 > /dev/null; then
  echo "conformance: skipped, the model or python3 is not there"
  exit 0
fi
if [ ! -x "$program" ]; then
  (cd "$top/crates/mso" && rt run -- run < stdin) > /dev/null || exit 1
fi
python3 "$check" "$program" --commands run,sample,build,dual,minor --random 300 --seed "$(date +%j)" | tail -n 1
exit "${PIPESTATUS[0]}"
