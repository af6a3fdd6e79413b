#!/usr/bin/env bash
# Times `pcfs script` over 4,096 registrations, 4,096 verifications and 8,000 creations, and tells its greatest memory.
# It makes its own input, ends by itself and decides no test. The program is built first where it is not there.
set -eu
top=$(cd "$(dirname "$0")/.." && pwd)
parts="$top/bench/first_file"
work=$(mktemp -d)
trap 'rm -rf "$work"' EXIT

program="$top/crates/pcfs/out/pcfs"
if [ ! -x "$program" ]; then
  (cd "$top/crates/pcfs" && rt run > "$work/build.log" 2>&1 -- load 0 7) || { tail -5 "$work/build.log"; exit 1; }
fi

python3 "$parts/lines.py" "$work/input"

printf 'seal 00\nkey admin 01\n' > "$work/pcfs.secrets"

python3 "$parts/figures.py" "$program" "$work/input" "$work/output"
