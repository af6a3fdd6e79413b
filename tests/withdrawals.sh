#!/usr/bin/env bash
# Withdrawals, by the model: its worked lines (of grants that name nothing), areas, images and reports, the example, and random
# scripts, which are drawn and answered twice. If a program that has withdrawals is named, it answers the example and the random scripts too, in
# memory and over a store with checkpoints, and opens the worked areas; and all has to be as the model says. Exits 1 if some differ.
# usage: tests/withdrawals.sh [PROGRAM [SCRIPTS [LINES]]], by default without a program, 3 scripts of 1,000 lines each
set -euo pipefail
here=$(cd "$(dirname "$0")" && pwd)
examples=$here/../examples
export PYTHONDONTWRITEBYTECODE=1
program=${1:+$(realpath "$1")}
scripts=${2:-3}
lines=${3:-1000}
work=$(mktemp -d)
trap 'rm -rf "$work"' EXIT
install -m 600 "$examples/pcfs.secrets" "$work/"
cd "$work"

differ=0
agrees() {
    if "${@:2}"; then echo "agrees $1"; else echo "differs $1"; differ=1; fi
}
model() {
    python3 "$here/model/pcfs_model.py" --withdrawals "$@"
}

NAMES=0 agrees rows model rows "$here/model/withdrawals.rows" > told || { cat told; differ=1; }
grep -v '^agrees in' told || true
# areas with grants that name nothing, by the model alone, and with those that name what they rest on
NAMES=0 agrees "areas of version 1" python3 "$here/model/withdrawal_areas.py" > told || differ=1
agrees areas python3 "$here/model/withdrawal_areas.py" $program >> told || differ=1
grep -v '^agrees in' told || true
model script pcfs.secrets < "$examples/withdrawal.pcfs" > replies
agrees "the example" cmp -s replies "$examples/withdrawal.replies"
[ -z "$program" ] || agrees "the example, by the program" cmp -s <("$program" script < "$examples/withdrawal.pcfs") replies

# the client signs the withdrawal that the example has
agrees "the client" grep -qx "$("$here/../client/pcfs-client" sign --key pcfs.secrets withdrawal 3 'hr says employee(ann) from 2026-03-01 to 2026-09-30T23:59:59Z')" "$examples/withdrawal.pcfs"

for seed in $(seq "$scripts"); do
    model random "$seed" "$lines" pcfs.secrets > drawn.pcfs
    model script pcfs.secrets < drawn.pcfs > drawn.replies
    agrees "random script $seed, twice" cmp -s drawn.pcfs <(model random "$seed" "$lines" pcfs.secrets)
    [ -n "$program" ] || continue
    agrees "random script $seed" cmp -s <("$program" script < drawn.pcfs) drawn.replies
    rm -f pcfs.a pcfs.b
    "$program" init > /dev/null
    agrees "random script $seed, over a store" cmp -s <("$program" script --stored < drawn.pcfs) drawn.replies
done
exit $differ
