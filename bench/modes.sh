#!/usr/bin/env bash
# Times `pcfs modes 0 100` over two tables with 4,096 statements, and tells its greatest memory over them and over two of some
# 11 MB that have too many; and in a program of its own the parsing of each, the making of its statements, and 10,000 questions what
# it allows. Each time is the least of many. Aims: 4,096 statements in under 20 ms, a question in under a microsecond, and memory of
# three times the table's text. It makes its own input, works in a folder of its own, ends by itself and decides nothing. The program
# is built first where it is not there.
set -euo pipefail
top=$(cd "$(dirname "$0")/.." && pwd)
parts="$top/bench/modes"
work=$(mktemp -d)
trap 'rm -rf "$work"' EXIT

program="$top/crates/pcfs/out/pcfs"
if [ ! -x "$program" ]; then
  (cd "$top/crates/pcfs" && rt run > "$work/build.log" 2>&1 -- load 0 7) || { tail -5 "$work/build.log"; exit 1; }
fi

mkdir -p "$work/crates/bench_modes/src"
# the crates that the benchmark stands on, with all below them
python3 "$top/bench/codec/crates_of.py" "$top/crates.txt" mode_policy > "$work/crates.txt"
for name in $(cut -d: -f1 "$work/crates.txt"); do
    cp -r "$top/crates/$name" "$work/crates/"
    rm -rf "$work/crates/$name/out"
done
echo 'bench_modes: bl_syntax mode_policy' >> "$work/crates.txt"
cp "$parts/main.rattle" "$work/crates/bench_modes/src/main.rt"
(cd "$work/crates/bench_modes" && rt run < /dev/null > "$work/rt.log" 2>&1) || { tail -n 20 "$work/rt.log"; exit 2; }

python3 "$parts/tables.py" "$work"
python3 "$parts/figures.py" "$program" "$work/crates/bench_modes/out/bench_modes" "$work"
