#!/usr/bin/env bash
# Tries the built program beside a second one over the same store, with something else in the place of its files, on a full file
# system, and ended by signals (see README.md here). It works in a folder of its own, ends by itself, and exits 1 at a fault.
# usage: tests/hostile/files.sh [PART..], by default all: pairs places room signals
# PROGRAM is the program, by default crates/pcfs/out/pcfs; FOLDER is where the folder is made, by default /tmp.
set -euo pipefail
here=$(cd "$(dirname "$0")" && pwd)
program=$(realpath "${PROGRAM:-$here/../../crates/pcfs/out/pcfs}")
[ -x "$program" ] || { echo "no program $program"; exit 2; }
work=$(mktemp -d -p "${FOLDER:-/tmp}")
if PYTHONPATH="$here:$here/../model:$here/../../examples" PYTHONDONTWRITEBYTECODE=1 python3 "$here/files.py" "$program" "$work" "$@"; then
    rm -rf "$work"
else
    echo "kept: $work"
    exit 1
fi
