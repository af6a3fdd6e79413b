#!/usr/bin/env bash
# Runs the built program over the deepest lines of each form on little stack: the one that LLVM builds on 512 KiB, and the
# one that Rattle's own compiler builds, if it is there, on 8 MiB. `rt ci` leaves both in crates/pcfs/out (pcfs and
# pcfs.by-rattle); else the first is built here. With the word `need` it prints the least stack with which each line is
# answered, in KiB, for both. It makes its own input, works in a folder of its own, and ends with status 1 where a line
# is not answered as it should be.
set -eu
top=$(cd "$(dirname "$0")/.." && pwd)
parts="$top/bench/stack"
work=$(mktemp -d)
trap 'rm -rf "$work"' EXIT

if [ ! -x "$top/crates/pcfs/out/pcfs" ]; then
  (cd "$top/crates/pcfs" && rt run > "$work/build.log" 2>&1 -- load 0 7) || { tail -5 "$work/build.log"; exit 1; }
fi
printf 'seal 00\nkey admin 01\n' > "$work/pcfs.secrets"
exec python3 "$parts/lines.py" "$work" "${1:-pass}" "$top/crates/pcfs/out/pcfs:512" "$top/crates/pcfs/out/pcfs.by-rattle:8192"
