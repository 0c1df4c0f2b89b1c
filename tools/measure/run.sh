#!/usr/bin/env bash
# run.sh [RUNS]: measures the second bench, judged_bench, against baseline.rs on the plans of plans.py, the best of RUNS runs each (5 if not
# said), and prints a table. The status is 1 where the two print different lines. BENCH names another bench to run.
set -eu
here="$(cd "$(dirname "$0")" && pwd)"
top="$(cd "$here/../.." && pwd)"
work="$(mktemp -d)"
trap 'rm -rf "$work"' EXIT
bench="${BENCH:-$top/crates/judged_bench/out/judged_bench}"
if [ ! -x "$bench" ]; then
  (cd "$top/crates/judged_bench" && rt run </dev/null >/dev/null)
fi
# Loops begin at a line of the processor's memory, so that the figures do not depend on where the walk over the rows
# happens to lie: by luck alone it takes half as long again.
(cd "$here" && rustc --edition 2021 -C opt-level=3 -C llvm-args=-align-loops=64 -o "$work/baseline" baseline.rs)
python3 "$here/plans.py" "$work" > "$work/names"
mapfile -t plans < "$work/names"
python3 "$here/compare.py" "${1:-5}" "$bench" "$work/baseline" "${plans[@]}"
