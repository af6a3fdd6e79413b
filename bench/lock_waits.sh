#!/usr/bin/env bash
# Times turns at a tree lock with the wait for each, over 1, 8 and 64 passes, each with a thread of its own: with ten
# microseconds of work in a turn and between turns, the same with a pause between turns, and with one microsecond of each.
# A row has nanoseconds a turn on the clock and of processor time, the share of one pass's throughput that is kept, and of
# the turns' times with their waits the median, the 99th percentile, the 999th permille and the longest. Each figure is the
# median of five runs. It makes its own input, works in a folder of its own, ends by itself and decides nothing. Given a
# second program, as PEER=PROGRAM, it runs both in turns and prints a row for each: so a change of the lock is measured;
# KEEP=FILE keeps the program for that.
set -euo pipefail
here=$(cd "$(dirname "$0")" && pwd)
parts="$here/lock"
work=$(mktemp -d)
trap 'rm -rf "$work"' EXIT

mkdir -p "$work/crates/bench_waits/src" "$work"/crates/bench_waits/proofs/{take_turns,new_passes}
grep -E '^tree_lock:' "$here/../crates.txt" > "$work/crates.txt"
echo 'bench_waits: tree_lock' >> "$work/crates.txt"
cp "$here/../HANDLES" "$work/"
cp -r "$here/../crates/tree_lock" "$work/crates/"
rm -rf "$work"/crates/*/out
cp "$parts/waits.rattle" "$work/crates/bench_waits/src/main.rt"
for name in take_turns new_passes; do
    sed 's/bench_lock/bench_waits/' "$parts/$name.invariants" > "$work/crates/bench_waits/proofs/$name/Invariants.antt"
done
(cd "$work/crates/bench_waits" && rt run -- 1 1 0 0 0 > "$work/out" 2> "$work/rt.log") || { tail -n 20 "$work/rt.log" "$work/out"; exit 2; }
cp "$work/crates/bench_waits/out/bench_waits" "${KEEP:-$work/kept}"
python3 "$parts/waits.py" "$work/crates/bench_waits/out/bench_waits" ${PEER:+"$PEER"}
