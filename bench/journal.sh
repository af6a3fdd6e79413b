#!/usr/bin/env bash
# Times 1,000 appends of 128 bytes to an area on a file, each with two writes and two syncs, beside a loop in Python with
# the same two writes and syncs on the same disk; and a scan of an area of 60 MB beside reading the file. The appends are
# timed in five rounds, one of each after the other in one run, and the scan is the least of five. It makes its own
# input, works in a folder of its own, prints appends and megabytes a second and ratios, and decides nothing.
set -euo pipefail
here=$(cd "$(dirname "$0")" && pwd)
parts="$here/journal"
work=$(mktemp -d -p "${JOURNAL_BENCH_FOLDER:-.}")
work=$(cd "$work" && pwd)
trap 'rm -rf "$work"' EXIT

mkdir -p "$work/crates/bench_journal/src"
grep -E '^(bl_syntax|pcfs_ports|journal_core):' "$here/../crates.txt" > "$work/crates.txt"
echo 'bench_journal: bl_syntax journal_core pcfs_ports' >> "$work/crates.txt"
cp "$here/../HANDLES" "$work/"
cp -r "$here/../crates/bl_syntax" "$here/../crates/pcfs_ports" "$here/../crates/journal_core" "$work/crates/"
rm -rf "$work"/crates/*/out
sed "s|AREA_PATH|$work/area|" "$parts/main.rattle" > "$work/crates/bench_journal/src/main.rt"
(cd "$work/crates/bench_journal" && rt run > "$work/out" 2> "$work/rt.log") || { tail -n 20 "$work/rt.log" "$work/out"; exit 2; }
python3 "$parts/figures.py" "$work/out" "$work/area" "$work/peer"
