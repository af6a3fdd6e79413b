#!/usr/bin/env bash
# Times a checkpoint of a full tree: 16,384 nodes, 32 MiB of contents, 4,096 statements; once with the contents in 32 files and few
# issues, once with 2,048 bytes in each file and an issue for each. The line `checkpoint` is said to `pcfs script --stored`, which
# has opened such an image, and timed from the line to its reply. Beside it, on the same disk: `cp` and `sync` of a file of the same
# bytes; one write and sync of them; and SQLite's `VACUUM INTO`, and a sync, of rows for nodes, statements and issues of the same
# size, on pages of 16 KiB. Then the greatest memory of it; an opening of the area that it leaves, and its greatest memory; and writes
# of 4,096 bytes in the middle of a file of 1 MiB beside such into one of 8 KiB, over a store in memory. Each time is the least of
# seven. Aims: 1.5 times cp and sync; twice the image of memory; an opening in a second, with three times the image; both writes the
# same. It makes its own input, works in a folder of its own, ends by itself and decides no test.
# usage: bench/checkpoint.sh [FOLDER], which lies on the disk to be timed; by default the current one. PROGRAM is the program, by
# default crates/pcfs/out/pcfs.
set -euo pipefail
top=$(cd "$(dirname "$0")/.." && pwd)
parts="$top/bench/checkpoint"
work=$(mktemp -d -p "${1:-.}")
work=$(cd "$work" && pwd)
memory=
trap 'rm -rf "$work" ${memory:+"$memory"}' EXIT

program=$(realpath "${PROGRAM:-$top/crates/pcfs/out/pcfs}")
if [ ! -x "$program" ]; then
  (cd "$top/crates/pcfs" && rt run > "$work/build.log" 2>&1 -- load 0 7) || { tail -5 "$work/build.log"; exit 1; }
fi
memory=$(mktemp -d -p "$([ -w /dev/shm ] && echo /dev/shm || echo "$work")")
cd "$work"
printf 'seal 0102\nkey admin 01\n' | tee pcfs.secrets > "$memory/pcfs.secrets"
python3 "$parts/figures.py" "$program" "$memory"
