#!/usr/bin/env bash
# Times entailment at its limit of 512 constraints, in the orders that take longest: a chain that is given from its end,
# asked for its end and for a term that it does not reach; a chain from a constant to a lesser one, which its last
# constraint makes contradict; and 512 constants that each lead elsewhere, of which the last contradicts. Then what it
# takes to push the 512 constraints of each, and an empty stack's answer. Beside the questions a search in C that keeps
# nothing, over pairs of numbers instead of terms. It makes its own input, works in a folder of its own, prints
# microseconds, ratios and the largest resident memory, and decides nothing. C is timed if a compiler is there.
# Aims: an empty stack's answer under 20 ns, any other under 20 us.
set -euo pipefail
here=$(cd "$(dirname "$0")" && pwd)
parts="$here/entailment"
work=$(mktemp -d)
trap 'rm -rf "$work"' EXIT

mkdir -p "$work/crates/bench_entailment/src"
grep -E '^(bl_syntax|bl_constraints):' "$here/../crates.txt" > "$work/crates.txt"
echo 'bench_entailment: bl_constraints bl_syntax' >> "$work/crates.txt"
cp -r "$here/../crates/bl_syntax" "$here/../crates/bl_constraints" "$work/crates/"
rm -rf "$work"/crates/*/out
cp "$parts/main.rattle" "$work/crates/bench_entailment/src/main.rt"
(cd "$work/crates/bench_entailment" && rt run > "$work/rt.log" 2>&1) || { tail -n 20 "$work/rt.log"; exit 2; }

peer=
if cc -O2 -o "$work/peer" "$parts/peer.c" 2> "$work/cc.log"; then
    peer="$work/peer"
fi

for _ in 1 2 3 4 5; do
    python3 "$here/measured.py" "$work/crates/bench_entailment/out/bench_entailment" >> "$work/ours"
    [ -z "$peer" ] || "$peer" >> "$work/theirs"
done
touch "$work/theirs"

echo "processor: $(sed -n 's/^model name[^:]*: //p' /proc/cpuinfo | head -n 1)"
echo "microseconds for one question of 512 constraints, the least of 100 rounds"
awk '
    function keep(i, x) { if (!(i in least) || x < least[i]) least[i] = x }
    FILENAME ~ /ours$/ { for (i = 1; i <= 7; i++) keep("ours" i, $i / 1000); memory = $8 > memory ? $8 : memory }
    FILENAME ~ /theirs$/ { for (i = 1; i <= 4; i++) keep("theirs" i, $i / 1000) }
    END {
        name[1] = "a chain from its end to its end"
        name[2] = "a chain that does not reach the term"
        name[3] = "a chain that its last makes contradict"
        name[4] = "constants, of which the last contradicts"
        for (i = 1; i <= 4; i++) {
            more = ("theirs" i) in least ? sprintf("%.2f of C over numbers, %.1f", least["ours" i] / least["theirs" i], least["theirs" i]) : "C was not built here"
            printf "%-44s %8.1f  %s%s\n", name[i], least["ours" i], more, least["ours" i] <= 20 ? "" : ", over the aim of 20"
        }
        printf "%-44s %8.3f  %s\n", "without constraints", least["ours" 5], least["ours" 5] <= 0.02 ? "aim 0.02" : "over the aim of 0.02"
        printf "%-44s %8.1f\n", "pushing the chain that contradicts", least["ours" 6]
        printf "%-44s %8.1f\n", "pushing the constants", least["ours" 7]
        printf "largest resident memory: %.1f MiB\n", memory / 1024
    }' "$work/ours" "$work/theirs"
