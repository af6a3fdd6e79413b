#!/usr/bin/env bash
# Hostile use of the built program, compared with what its definitions promise (see README.md here): random clients over
# loopback, strangers, users of lines and of 9P2000 by turns, areas that are damaged, a server that is killed. It makes its own
# input, works in a folder of its own, ends by itself, and exits 1 at a fault.
# usage: tests/hostile/run.sh [SECONDS [SEED [PART..]]], by default 120, 1 and all parts: clients strangers nine damage kills
# PROGRAM is the program, by default crates/pcfs/out/pcfs; FOLDER is where the folder is made, by default /tmp;
# PHASE is how many seconds at most one server has the store in the part nine, by default 60.
set -euo pipefail
here=$(cd "$(dirname "$0")" && pwd)
program=$(realpath "${PROGRAM:-$here/../../crates/pcfs/out/pcfs}")
[ -x "$program" ] || { echo "no program $program"; exit 2; }
work=$(mktemp -d -p "${FOLDER:-/tmp}")
if PYTHONPATH="$here:$here/../model:$here/../../examples" PYTHONDONTWRITEBYTECODE=1 python3 "$here/hostile.py" "$program" "$work" "${1:-120}" "${2:-1}" "${@:3}"; then
    rm -rf "$work"
else
    echo "kept: $work"
    exit 1
fi
