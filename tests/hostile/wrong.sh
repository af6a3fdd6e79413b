#!/usr/bin/env bash
# Tries the hostile tests on a plain server (plain_server.py), which they have to pass, and on that server wrong in one way
# each, of which they have to find a fault; once it is found, that run ends. Exits 1 if they do not.
# usage: tests/hostile/wrong.sh [SECONDS [KIND..]], by default 6 for each, and all kinds; `right` is the server as it is, and
# `withdrawn-..` are kinds with withdrawals, of which `withdrawn-right` is as it has to be, and `nine-..` those of 9P2000. On a loaded machine little is said in that
# time: a kind that is not found is tried once more, for five times as long.
set -euo pipefail
here=$(cd "$(dirname "$0")" && pwd)
seconds=${1:-6}
kinds=("${@:2}")
[ ${#kinds[@]} -gt 0 ] || kinds=(right lost twice others-procaps old-clock number other-caller stale nonce login state-conditions no-checkpoint
    old-area image any-checkpoint list-lacks list-exchanged list-spaces too-many
    withdrawn-right withdrawn-untested withdrawn-before withdrawn-cited withdrawn-held withdrawn-registration withdrawn-anybody withdrawn-stays withdrawn-one
    withdrawn-last withdrawn-oldest withdrawn-again withdrawn-image
    nine-right nine-last nine-kind nine-half nine-bad nine-untold nine-early)
work=$(mktemp -d)
trap 'rm -rf "$work"' EXIT
missed=0
try() {
    local kind=$1 long=$2
    shift 2
    case $kind in withdrawn-* | nine-*) set -- "$@" --withdrawals ;; esac
    PYTHONPATH="$here:$here/../model:$here/../../examples" PYTHONPYCACHEPREFIX="$work/cache" WRONG="${kind%-right}" \
        python3 "$here/hostile.py" "$here/plain_server.py" "$work/work" "$long" 1 "$@" 2> "$work/errors"
}
find_fault() {
    local kind=$1 fault=$2 found
    shift 2
    found=$(try "$kind" "$seconds" "$@" | grep -m 1 "$fault" | cut -c 1-160) || true
    [ -n "$found" ] || found=$(try "$kind" $((5 * seconds)) "$@" | grep -m 1 "$fault" | cut -c 1-160) || true
    if [ -n "$found" ]; then echo "$kind: found, $found"; else echo "$kind: missed"; missed=1; fi
}
for kind in "${kinds[@]}"; do
    case $kind in
        nine-right) if try "$kind" $((3 * seconds)) nine > "$work/out"; then echo "$kind: passed"; else echo "$kind: refused"; cat "$work/out" "$work/errors"; missed=1; fi ;;
        nine-*) find_fault "$kind" FAULT nine ;;
        right | *-right) if try "$kind" "$seconds" clients strangers > "$work/out"; then echo "$kind: passed"; else echo "$kind: refused"; cat "$work/out" "$work/errors"; missed=1; fi ;;
        too-many) find_fault "$kind" "FAULT one too many" strangers ;;
        *) find_fault "$kind" FAULT clients ;;
    esac
done
exit $missed
