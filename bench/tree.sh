#!/usr/bin/env bash
# Times each operation on a file tree, and on the owners and attributes of its nodes, at 100, 1,000 and 16,000 nodes: all
# in one directory, in a chain of directories of which each holds the next (and 32 files in the last), and in one directory
# with names of 64 bytes that share the first 60. An operation is reserved and applied, 32 of them together, over nodes
# that are spread over all. Beside each the same call on a tmpfs directory of the same shape, in the same run, if there are
# a C compiler and a tmpfs (/dev/shm, or the folder that TREE_BENCH_FOLDER names). A row has nanoseconds for one, the least
# of 40 rounds; what 16,000 nodes cost of what 100 cost; and what that is of the system call's. It makes its own input,
# works in folders of its own, ends by itself and decides nothing.
set -euo pipefail
here=$(cd "$(dirname "$0")" && pwd)
parts="$here/tree"
work=$(mktemp -d)
memory=
trap 'rm -rf "$work" ${memory:+"$memory"}' EXIT

crates="bl_syntax condition_set file_world file_tree attr_state"
mkdir -p "$work/crates/bench_tree/src" "$work/crates/bench_tree/proofs"
for crate in $crates; do
    grep -E "^$crate:" "$here/../crates.txt"
    cp -r "$here/../crates/$crate" "$work/crates/"
done > "$work/crates.txt"
echo 'bench_tree: attr_state bl_syntax condition_set file_tree file_world' >> "$work/crates.txt"
rm -rf "$work"/crates/*/out
cp "$parts/main.rattle" "$work/crates/bench_tree/src/main.rt"
(cd "$work/crates/bench_tree" && rt run -- 0 100 > "$work/out" 2> "$work/rt.log") || { tail -n 20 "$work/rt.log" "$work/out"; exit 2; }

folder=${TREE_BENCH_FOLDER:-/dev/shm}
peer=
if [ "$(stat -f -c %T "$folder" 2> /dev/null)" = tmpfs ] && cc -O2 -o "$work/peer" "$parts/peer.c" 2> "$work/cc.log"; then
    memory=$(mktemp -d -p "$folder")
    peer="$work/peer"
fi
python3 "$parts/figures.py" "$work/crates/bench_tree/out/bench_tree" "$peer" "$memory"
