#!/usr/bin/env bash
# Times `pcfs serve` over loopback: 1, 8 and 64 connections, each of which writes 16 bytes and reads them, in turns, and waits
# for each reply; every step is an event, with two syncs. Beside it redis-server, with an append-only file that is synced
# always, does one SET and one GET for each write and read, on the same disk in the same run. First on a folder of a disk, then
# in memory. It prints steps a second, the median and the 99th percentile, and their ratios; then how much one who has the
# largest proofs checked slows others, and what 64 who are idle take of the processor. Each figure is that of the middle one of
# three runs. Last, in memory, `pcfs serve9` beside `pcfs serve`, each over a store of its own with the same files: a reading of 4,096
# bytes and of a file of 1 MiB, by messages and by lines; and what 1,023 fids and 64 procaps cost: a reading under the last of the
# procaps, and a fid before all others, made and ended. With ONLY=nine that alone; with ONLY=memory what is said of `pcfs serve` in
# memory, and nothing else. Each reply is compared, and another than is expected ends all with status 1, and is printed. It makes its
# own input, ends by itself and decides no test; it needs a C compiler, for the client.
# usage: bench/serve.sh [FOLDER [FOLDER]], on the disk and in memory; by default a scratch folder of each, the second in /dev/shm
# PROGRAM is the program, by default crates/pcfs/out/pcfs.
set -euo pipefail
top=$(cd "$(dirname "$0")/.." && pwd)
parts="$top/bench/serve"
program=$(realpath "${PROGRAM:-$top/crates/pcfs/out/pcfs}")
[ -x "$program" ] || { echo "no program $program: rt ci builds it"; exit 1; }
disk=$(mktemp -d -p "${1:-.}")
memory=$(mktemp -d -p "${2:-/dev/shm}")
trap 'rm -rf "$disk" "$memory"' EXIT

cc -O2 -o "$memory/drive" "$parts/drive.c"
export PYTHONPATH="$top/examples" PYTHONDONTWRITEBYTECODE=1
[ "${ONLY:-}" = nine ] || timeout 1200 python3 "$parts/figures.py" "$program" "$disk" "$memory"
[ "${ONLY:-}" = memory ] || timeout 300 python3 "$parts/nine.py" "$program" "$disk" "$memory"
