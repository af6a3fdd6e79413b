#!/usr/bin/env bash
# Times a mix of all operations through `pcfs script`: 16,000 nodes are made, and then 200,000 operations run, each under
# procaps that the generator sealed, so that each needs a tag for each of its procaps. Beside it SQLite in memory does
# the same work from Python: a table of nodes, one of attributes, one of events, and an HMAC for each procap. Both have
# to write the same replies. The program is run over the same lines once more with each spoiled, for what a line of no form
# costs, and once by a caller whom every procap denies, for what a line costs with one tag and no effect. What a tag takes
# is the difference of lines that are denied by their third procap and by their first. Then, over 4,096 statements and
# 16,384 issues, operations under an issue before the first withdrawal and after it, and withdrawals; aims: 0.3 us more at
# most, and under a millisecond. Each time is the least of three. It makes its own input, ends by itself and decides no
# test. What memory an event takes is measured by memory.sh.
set -euo pipefail
top=$(cd "$(dirname "$0")/.." && pwd)
parts="$top/bench/script"
work=$(mktemp -d)
trap 'rm -rf "$work"' EXIT

program="$top/crates/pcfs/out/pcfs"
if [ ! -x "$program" ]; then
  (cd "$top/crates/pcfs" && rt run > "$work/build.log" 2>&1 -- load 0 7) || { tail -5 "$work/build.log"; exit 1; }
fi
printf 'seal 0102\n' > "$work/pcfs.secrets"

python3 "$parts/generate.py" "$work/nodes" "$work/mix" "${SCRIPT_BENCH_LINES:-200000}"
python3 "$parts/figures.py" "$program" "$work"
printf 'seal 0102\nkey admin 01\n' > "$work/pcfs.secrets"
python3 "$parts/withdrawals.py" "$program" "$work"
