#!/usr/bin/env bash
# Refuses the built program one growth of memory at a time, over scripts in memory, a store and sessions, and compares each run
# with one that has ample memory (see README.md here). It works in a folder of its own, ends by itself, and exits 1 at a fault.
# usage: tests/hostile/memory.sh [PART..], by default all: first public stored audit sessions
# PROGRAM is the program, by default crates/pcfs/out/pcfs; FOLDER is where the folder is made, by default /tmp; CC is a C compiler.
set -euo pipefail
here=$(cd "$(dirname "$0")" && pwd)
program=$(realpath "${PROGRAM:-$here/../../crates/pcfs/out/pcfs}")
[ -x "$program" ] || { echo "no program $program"; exit 2; }
work=$(mktemp -d -p "${FOLDER:-/tmp}")
"${CC:-cc}" -O2 -fPIC -shared -fno-builtin -o "$work/refuse.so" "$here/refuse.c"
if PYTHONPATH="$here:$here/../model:$here/../../examples" PYTHONDONTWRITEBYTECODE=1 python3 "$here/memory.py" "$program" "$work" "$@"; then
    rm -rf "$work"
else
    echo "kept: $work"
    exit 1
fi
