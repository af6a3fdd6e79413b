#!/usr/bin/env bash
# Times stored events: `pcfs script --stored` creates files, each of them an event that is on the disk before its reply is
# written. Beside it SQLite, in WAL mode with full sync, keeps a row for each in a transaction of its own, and a bare loop
# writes two pieces and syncs after each, as an append does. Then an area of 100,000 events is opened again. Each time is
# the least of three. It makes its own input, ends by itself and decides no test.
# usage: bench/stored.sh [FOLDER], which lies on the disk to be timed; by default the current one
set -euo pipefail
top=$(cd "$(dirname "$0")/.." && pwd)
parts="$top/bench/stored"
work=$(mktemp -d -p "${1:-.}")
trap 'rm -rf "$work"' EXIT

program="$top/crates/pcfs/out/pcfs"
if [ ! -x "$program" ]; then
  (cd "$top/crates/pcfs" && rt run > "$work/build.log" 2>&1 -- load 0 7) || { tail -5 "$work/build.log"; exit 1; }
fi
cd "$work"
printf 'seal 0102\nkey admin 01\n' > pcfs.secrets
python3 "$parts/figures.py" "$program"
