#!/usr/bin/env bash
# Times operations under grants that name statements, and openings of stores of earlier programs. Over a store with 4,096 statements
# and 16,384 issues of an earlier program, whose grants name nothing, lines are answered that pass each test of the gate and are
# refused by the tree, so that nothing is written: under an issue that names nothing, and under one that names 64 statements, of which
# each is looked up, since another is withdrawn. Aim: 0.3 us more at most. Then openings of that store with an image that has no
# version, and with the same state in today's image, with grants that name nothing and with grants that name a statement each; and, if
# another program is named, its openings of the second. Aim: none slower than the others. Each time is one of a processor, so other
# work beside it tells little, and the least of three. It makes its own input, ends by itself and decides no test.
# usage: bench/named.sh [PROGRAM [ANOTHER]], by default crates/pcfs/out/pcfs alone
set -euo pipefail
top=$(cd "$(dirname "$0")/.." && pwd)
work=$(mktemp -d)
trap 'rm -rf "$work"' EXIT

program=${1:-$top/crates/pcfs/out/pcfs}
if [ ! -x "$program" ]; then
  (cd "$top/crates/pcfs" && rt run > "$work/build.log" 2>&1 -- load 0 7) || { tail -5 "$work/build.log"; exit 1; }
fi
PYTHONDONTWRITEBYTECODE=1 python3 "$top/bench/named/figures.py" "$work" "$(realpath "$program")" ${2:+"$(realpath "$2")"}
