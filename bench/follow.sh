#!/usr/bin/env bash
# Times the two ends of a link between stores: `pcfs export 1` of 100,000 events, and `pcfs follow` of their messages into a new
# store, on a file system in memory; and `follow` of 10,000 of them with syncs of which two take 100 us, if a C compiler is there.
# What an opening takes is taken off the export. Each time is the least of three. Beside them: `cat` of the same bytes into a pipe;
# a bare loop that writes two pieces and syncs after each, as an append does. Aims: more than 100 MB a second out, more than
# 100,000 events a second in, and more than 5,000 with such syncs. It makes its own input, ends by itself and decides no test.
# usage: bench/follow.sh [PROGRAM], by default crates/pcfs/out/pcfs
set -euo pipefail
top=$(cd "$(dirname "$0")/.." && pwd)
program=$(realpath "${1:-$top/crates/pcfs/out/pcfs}")
place=/dev/shm
[ -w "$place" ] || place=.
work=$(mktemp -d -p "$place")
trap 'rm -rf "$work"' EXIT
if command -v cc > /dev/null; then
  cc -O2 -shared -fPIC -o "$work/slow.so" "$top/bench/follow/slow.c"
fi
cd "$work"
python3 "$top/bench/follow/figures.py" "$program"
