#!/usr/bin/env bash
# Kills the program at random moments of a stored script with checkpoints in it, and of the command `checkpoint`, with SIGKILL, and
# opens the store again each time (stored_kills.py). Exits 1 if something that was told is not there.
# usage: tests/kill.sh [PROGRAM [TIMES [SEED]]], by default crates/pcfs/out/pcfs, 200 and 1
set -euo pipefail
here=$(cd "$(dirname "$0")" && pwd)
program=$(realpath "${1:-$here/../crates/pcfs/out/pcfs}")
work=$(mktemp -d)
trap 'rm -rf "$work"' EXIT
cp "$here/../examples/pcfs.secrets" "$work/"
cd "$work"
PYTHONPATH="$here/hostile:$here/model:$here/../examples" PYTHONDONTWRITEBYTECODE=1 python3 "$here/stored_kills.py" "$program" "${2:-200}" "${3:-1}"
