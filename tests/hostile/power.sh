#!/usr/bin/env bash
# Cuts the power of the built program at each point of many runs, by the model of disks, and lets each of its syncs fail (see
# README.md here). It works in a folder of its own, ends by itself, and exits 1 at a fault.
# usage: tests/hostile/power.sh [SECONDS [SEED [KIND]]], by default 600 and 1; KIND is a wrong body, which has to be found:
#        no-sync, gate-first, no-folder, retried, early-reply; `wrong` tries all five, each for at most SECONDS
# PROGRAM is the program, by default crates/pcfs/out/pcfs; FOLDER is where the folder is made, by default /dev/shm; CC is a C compiler.
set -euo pipefail
here=$(cd "$(dirname "$0")" && pwd)
program=$(realpath "${PROGRAM:-$here/../../crates/pcfs/out/pcfs}")
[ -x "$program" ] || { echo "no program $program"; exit 2; }
place=${FOLDER:-/dev/shm}
[ -w "$place" ] || place=/tmp
work=$(mktemp -d -p "$place")
"${CC:-cc}" -O2 -fPIC -shared -fno-builtin -o "$work/power.so" "$here/power.c"
try() {
    PYTHONPATH="$here:$here/../../examples:$here/../model" PYTHONDONTWRITEBYTECODE=1 python3 "$here/power.py" "$program" "$work" "$@"
}
if [ "${3:-}" = wrong ]; then
    missed=0
    for kind in no-sync gate-first no-folder retried early-reply; do
        if found=$(try "${1:-60}" "${2:-1}" "$kind"); then echo "$kind: missed"; missed=1; else echo "$kind: $(grep -m 1 FAULT <<< "$found")"; fi
    done
    rm -rf "$work"
    exit $missed
fi
if try "${1:-600}" "${2:-1}" "${3:-}"; then
    rm -rf "$work"
else
    echo "kept: $work"
    exit 1
fi
