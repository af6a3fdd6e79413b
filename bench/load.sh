#!/usr/bin/env bash
# Times `pcfs load 20000 1`: the generated script of 20,000 rounds over a store in memory. Aim: under a second. Beside it
# SQLite in memory keeps a row for each event, and one for each node, from Python, with an HMAC for each procap that the
# same script brings. Each time is the least of three. It makes its own input, ends by itself and decides no test.
set -euo pipefail
top=$(cd "$(dirname "$0")/.." && pwd)
parts="$top/bench/load"
work=$(mktemp -d)
trap 'rm -rf "$work"' EXIT

program="$top/crates/pcfs/out/pcfs"
if [ ! -x "$program" ]; then
  (cd "$top/crates/pcfs" && rt run > "$work/build.log" 2>&1 -- load 0 7) || { tail -5 "$work/build.log"; exit 1; }
fi
cd "$work"
python3 "$parts/figures.py" "$program"
