#!/usr/bin/env bash
# Times turns at a tree lock beside sections under a mutex of std, with 1, 2, 4, 16 and 64 passes: once with no work in the
# turn, and once with work of about a microsecond. Each pass has a thread of its own and comes again at once. A row has
# nanoseconds a turn on the clock and of processor time, the share of one pass's throughput that is kept, and the lock's
# time beside the mutex's. Each figure is the least of three runs, one after another in one run of this script. It makes its
# own input, works in a folder of its own, ends by itself and decides nothing. On a machine that does other work too, the
# times on the clock say little; those of the processor still do.
set -euo pipefail
here=$(cd "$(dirname "$0")" && pwd)
parts="$here/lock"
work=$(mktemp -d)
trap 'rm -rf "$work"' EXIT

mkdir -p "$work/crates/bench_lock/src" "$work"/crates/bench_lock/proofs/{take_turns,new_passes}
grep -E '^tree_lock:' "$here/../crates.txt" > "$work/crates.txt"
echo 'bench_lock: tree_lock' >> "$work/crates.txt"
cp "$here/../HANDLES" "$work/"
cp -r "$here/../crates/tree_lock" "$work/crates/"
rm -rf "$work"/crates/*/out
cp "$parts/main.rattle" "$work/crates/bench_lock/src/main.rt"
cp "$parts/take_turns.invariants" "$work/crates/bench_lock/proofs/take_turns/Invariants.antt"
cp "$parts/new_passes.invariants" "$work/crates/bench_lock/proofs/new_passes/Invariants.antt"
(cd "$work/crates/bench_lock" && rt run -- lock 1 1 0 > "$work/out" 2> "$work/rt.log") || { tail -n 20 "$work/rt.log" "$work/out"; exit 2; }
python3 "$parts/figures.py" "$work/crates/bench_lock/out/bench_lock"
