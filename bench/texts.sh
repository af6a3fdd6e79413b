#!/usr/bin/env bash
# Times the parsing and the printing of statements and proofs: the statement of the first file, statements of 512 nodes
# (predicates between `&`, parentheses within one another, `says` within `says`, and binders within one another whose
# outermost variable stands in each argument), and proofs of 4,096 rules (without terms, and with two times at every other
# rule); and each again at an eighth of its size, to see whether the cost grows with the text. Beside each the copy of the
# same value, which takes the same memory; each time is the least of many, in one run. It makes its own input, works in a
# folder of its own, prints microseconds and ratios, and decides nothing. What the crates below keep in `out/` is taken
# along, so that little is proved anew where they are proved already.
set -euo pipefail
here=$(cd "$(dirname "$0")" && pwd)
parts="$here/texts"
work=$(mktemp -d)
trap 'rm -rf "$work"' EXIT

mkdir -p "$work/crates/bench_texts/src"
for name in bl_syntax bl_tokens bl_text proof_term proof_text; do
    grep -E "^$name:" "$here/../crates.txt" >> "$work/crates.txt"
    cp -r "$here/../crates/$name" "$work/crates/"
done
echo 'bench_texts: bl_syntax bl_text proof_term proof_text' >> "$work/crates.txt"
cp "$parts/main.rattle" "$work/crates/bench_texts/src/main.rt"

python3 "$parts/texts.py" > "$work/input"

(cd "$work/crates/bench_texts" && rt run < "$work/input" > "$work/out" 2> "$work/rt.log") || { tail -n 20 "$work/rt.log" "$work/out"; exit 2; }
python3 "$parts/figures.py" "$work/out"
