#!/usr/bin/env bash
# Times `pcfs audit` over a history of 100,000 operations under one procap, over one of 4,096 statements and 60,000 proofs,
# and over the latter with 2,047 withdrawals and 100,000 operations after it; at once, and in 1, 2 and 4 pieces. What is told is the time beyond that of opening the store, which tests each
# event too. Aims: over 100,000 events a second and core on the operations; in 4 pieces on 4 processors 2.5 times as fast as
# in one on statements and proofs. Beside it a Python loop tests the tags of the same procaps with `hmac`. Each time is the
# least of three. It makes its own input in memory, ends by itself and decides no test.
set -euo pipefail
top=$(cd "$(dirname "$0")/.." && pwd)
parts="$top/bench/audit"
work=$(mktemp -d -p /dev/shm)
trap 'rm -rf "$work"' EXIT

program="$top/crates/pcfs/out/pcfs"
if [ ! -x "$program" ]; then
  (cd "$top/crates/pcfs" && rt run > "$work/build.log" 2>&1 -- load 0 7) || { tail -5 "$work/build.log"; exit 1; }
fi
cd "$work"
printf 'seal 0102\nkey admin 01\n' > pcfs.secrets
python3 "$parts/figures.py" "$program"
