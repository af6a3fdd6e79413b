#!/usr/bin/env bash
# Measures the memory that a store takes for an event, and for being opened: five numbers of reads, and of issues, run by
# `pcfs script --stored` over a store in a folder, in memory where the system has /dev/shm; the store with the most reads is
# opened again. What an event takes is the median of the differences of the greatest memory of two of the runs; beside it stands
# what it takes of the area, and how far a run is from that line at most: where that is much, the system took pages back, and the
# figure tells nothing. Aims: 160 bytes a read, 200 an issue, an opening within 4 times the area. It makes its own input, ends by
# itself and decides no test.
set -euo pipefail
top=$(cd "$(dirname "$0")/.." && pwd)
rooms=(${TMPDIR:+"$TMPDIR"} /dev/shm /tmp)
for room in "${rooms[@]}"; do [ -w "$room" ] && break; done
work=$(mktemp -d -p "$room")
trap 'rm -rf "$work"' EXIT

program="$top/crates/pcfs/out/pcfs"
if [ ! -x "$program" ]; then
  (cd "$top/crates/pcfs" && rt run > "$work/build.log" 2>&1 -- load 0 7) || { tail -5 "$work/build.log"; exit 1; }
fi
printf 'seal 0102\nkey admin 01\n' > "$work/pcfs.secrets"
chmod 600 "$work/pcfs.secrets"
python3 "$top/bench/memory/figures.py" "$program" "$work"
