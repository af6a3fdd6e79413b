#!/usr/bin/env bash
# Times the reading of formulas at their limit of 512 nodes (nested in 511 binders, a conjunction that leans to one side,
# and predicates with names and texts in them), and of proofs at their limit of 4,096 nodes (without terms, and with two
# names or two long texts at every other node). Beside each the copy of the same formula or proof, which takes the same
# memory, one after another in one run; each time is the least of 1,000. Then the events of the first file, and a write of
# 65,536 bytes, as the payloads of journal records: read, and written into bytes that have room. It makes its own input,
# works in a folder of its own, prints microseconds, ratios and events a second, and decides nothing.
set -euo pipefail
here=$(cd "$(dirname "$0")" && pwd)
parts="$here/codec"
work=$(mktemp -d)
trap 'rm -rf "$work"' EXIT

mkdir -p "$work/crates/bench_codec/src"
# the crates that the benchmark stands on, with all below them
python3 "$parts/crates_of.py" "$here/../crates.txt" bl_codec journal_records > "$work/crates.txt"
for name in $(cut -d: -f1 "$work/crates.txt"); do
    cp -r "$here/../crates/$name" "$work/crates/"
    rm -rf "$work/crates/$name/out"
done
echo 'bench_codec: bl_codec bl_syntax journal_records proof_term' >> "$work/crates.txt"
cp "$parts/main.rattle" "$work/crates/bench_codec/src/main.rt"
(cd "$work/crates/bench_codec" && rt run > "$work/out" 2> "$work/rt.log") || { tail -n 20 "$work/rt.log" "$work/out"; exit 2; }
python3 "$parts/figures.py" "$work/out"
