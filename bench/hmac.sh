#!/usr/bin/env bash
# Times HMAC-SHA256 of a text of 41 bytes under a key of 32, beside the digests of sha2 that it is made
# of and beside OpenSSL's, one after another in one run; and a tree of hashes of height 8: its making, a
# signature and an acceptance, beside as many digests of one block as they have compressions, and what the
# tree takes of memory where the built program is there. It makes its own input, works in a folder of its
# own, prints nanoseconds and ratios, and decides nothing. OpenSSL is timed where a C compiler and its
# headers are there, and takes the processor's own SHA instructions where it has them; sha2 does not.
set -euo pipefail
here=$(cd "$(dirname "$0")" && pwd)
parts="$here/hmac"
work=$(mktemp -d)
trap 'rm -rf "$work"' EXIT

mkdir -p "$work/crates/bench_hmac/src" "$work/crates/bench_trees/src"
grep -E '^(bl_syntax|merkle_sig|pcfs_hmac):' "$here/../crates.txt" > "$work/crates.txt"
printf 'bench_hmac: pcfs_hmac sha2\nbench_trees: bl_syntax merkle_sig sha2\n' >> "$work/crates.txt"
for name in bl_syntax merkle_sig pcfs_hmac; do
    cp -r "$here/../crates/$name" "$work/crates/"
    rm -rf "$work/crates/$name/out"
done
cp "$parts/main.rattle" "$work/crates/bench_hmac/src/main.rt"
(cd "$work/crates/bench_hmac" && rt run > "$work/rt.log" 2>&1) || { tail -n 20 "$work/rt.log"; exit 2; }
cp "$parts/trees.rattle" "$work/crates/bench_trees/src/main.rt"
(cd "$work/crates/bench_trees" && rt run > "$work/rt.log" 2>&1) || { tail -n 20 "$work/rt.log"; exit 2; }

peer=
if cc -O2 -Wno-deprecated-declarations -o "$work/openssl" "$parts/openssl.c" -lcrypto 2> "$work/cc.log"; then
    peer="$work/openssl"
fi

for _ in 1 2 3 4 5; do
    "$work/crates/bench_hmac/out/bench_hmac" >> "$work/ours"
    [ -z "$peer" ] || "$peer" >> "$work/theirs"
    "$work/crates/bench_trees/out/bench_trees" >> "$work/trees"
done
touch "$work/theirs"

echo "processor: $(sed -n 's/^model name[^:]*: //p' /proc/cpuinfo | head -n 1)"
echo "nanoseconds for one, the least of 125 rounds"
awk '
    function keep(i, x) { if (!(i in least) || x < least[i]) least[i] = x }
    function line(name, x, more) { printf "%-44s %8.1f  %s\n", name, x, more }
    FILENAME ~ /ours$/ { for (i = 1; i <= 6; i++) keep("ours" i, $i / 10) }
    FILENAME ~ /theirs$/ { for (i = 1; i <= 2; i++) keep("theirs" i, $i) }
    function said(x, many, count, alone) {
        return sprintf("%.3f of %s compressions, %.3f of %s digests, %.3f of sha2 alone",
            x / (count * block), many, x / (count * digest), many, x / alone)
    }
    END {
        block = least["ours1"]; digest = least["ours2"]; whole = least["ours5"]; copied = least["ours6"]
        line("sha2, a compression within a long message", block, "")
        line("sha2, a digest of one block", digest, "")
        line("sha2 alone, the two digests of a tag", least["ours3"], "")
        line("sha2 alone, those from copied hashers", least["ours4"], "")
        line("mac", whole, said(whole, "four", 4, least["ours3"]))
        line("copy of a keyed Mac, update, finish", copied, said(copied, "two", 2, least["ours4"]))
        if (!("theirs1" in least)) { print "OpenSSL was not built here"; exit }
        line("OpenSSL, HMAC", least["theirs1"], sprintf("mac takes %.2f of it", whole / least["theirs1"]))
        line("OpenSSL, under a kept key", least["theirs2"], sprintf("a copied Mac takes %.2f of it", copied / least["theirs2"]))
    }' "$work/ours" "$work/theirs"
awk '
    { for (i = 1; i <= 4; i++) if (!(i in least) || $i < least[i]) least[i] = $i }
    function line(name, x, hashes) { printf "%-44s %8.1f  %.3f of %d digests of one block\n", name, x / 1000, x / (hashes * least[1] / 1000), hashes }
    END {
        print "microseconds for one, the least of 40 rounds"
        line("the making of a tree of height 8", least[2], 328447)
        line("a signature by it", least[3], 769)
        line("an acceptance", least[4], 530)
    }' "$work/trees"

# heap and stack of rootsign by a tree of height 8, and of one that refuses its seed
program="$here/../crates/pcfs/out/pcfs"
[ ! -x "$program" ] || python3 "$parts/memory.py" "$(realpath "$program")" "$work"
