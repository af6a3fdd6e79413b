#!/usr/bin/env bash
# Times `verify` on the proof of the first file, and on proofs that are as large and as deep as proofs can be: 4,096 nodes,
# most of them conjunctions over 64 conditions on the state, of over 256 bytes each; 196 implications within one another, each of
# which adds two parameters and two constraints, where the innermost node asks what all of them entail; and 200 instances of
# a formula of 512 nodes. Beyond these, two that a stranger could hand in: 1,950 nodes that each ask what 370 constraints
# entail, and 3,990 instances of the formula of 512 nodes. It makes its own input, works in a folder of its own, prints
# microseconds, their ratios to the first proof and the largest resident memory of a process that does this alone, with
# statements and proof twice in it, and decides nothing. Aims: the first file's proof under 1 us, each under 100 ms, and
# under 8 MiB.
set -euo pipefail
here=$(cd "$(dirname "$0")" && pwd)
parts="$here/verifier"
work=$(mktemp -d)
trap 'rm -rf "$work"' EXIT

mkdir -p "$work/crates/bench_verifier/src"
for name in bl_codec bl_constraints bl_rules bl_syntax condition_set proof_term proof_verifier; do
    grep -E "^$name:" "$here/../crates.txt" >> "$work/crates.txt"
    mkdir "$work/crates/$name"
    (cd "$here/../crates/$name" && tar cf - --exclude=out --exclude=must-fail .) | (cd "$work/crates/$name" && tar xf -)
done
echo 'bench_verifier: bl_codec bl_syntax proof_term proof_verifier' >> "$work/crates.txt"
cp "$parts/main.rattle" "$work/crates/bench_verifier/src/main.rt"

python3 "$parts/proofs.py" "$work/input"

(cd "$work/crates/bench_verifier" && rt run < /dev/null > "$work/out" 2> "$work/rt.log") || { tail -n 20 "$work/rt.log" "$work/out"; exit 2; }
for number in 0 1 2 3 4 5; do
    python3 "$here/measured.py" "$work/crates/bench_verifier/out/bench_verifier" "$work/input.$number" >> "$work/rows"
done
python3 "$parts/figures.py" "$work/rows"
