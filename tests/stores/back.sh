#!/usr/bin/env bash
# The way back to the earlier program: what it says of a store that it made, after the program of today has used a copy of it; and
# that the copy from before opens as it was. The earlier program is one that has withdrawals, and whose grants name no statements.
# Exits 1 if it says something else than docs/RUNNING.md.
# usage: tests/stores/back.sh PROGRAM EARLIER
set -euo pipefail
stores=$(cd "$(dirname "$0")" && pwd)
top=$(dirname "$(dirname "$stores")")
program=$(realpath "$1")
earlier=$(realpath "$2")
work=$(mktemp -d)
trap 'rm -rf "$work"' EXIT
"$stores/make.sh" "$work/made" "$earlier"
install -m 600 "$top/examples/pcfs.secrets" "$work/made/"
before=$(cd "$work/made" && "$earlier" audit)
differ=0

# says NAME WANTED LINE..: the program of today answers these lines over a copy, and then an audit by the earlier one says that
says() {
    rm -rf "$work/used"
    cp -r "$work/made" "$work/used"
    cd "$work/used"
    printf '%s\n' "at 300" "as alice" "${@:3}" | "$program" script --stored > replies
    if grep -qv '^ok' replies; then
        echo "differs $1: $(grep -v '^ok' replies | head -1)"
        differ=1
    fi
    found=$("$earlier" audit 2> /dev/null) || true
    if [ "$found" = "$2" ]; then echo "agrees $1"; else echo "differs $1: $found, and not $2" && differ=1; fi
}

issue='verify alice #1 write 1 saysR(claim(0,init(1)))'
read -r _ events _ statements _ issues _ unissued <<< "$before"
more() {
    echo "events $((events + $1)) statements $((statements + $2)) issues $issues unissued $unissued"
}
says "nothing kept" "$before"
says "an operation and a registration" "$(more 2 1)" 'do create #1 later @1' 'register - admin says p from 0 to 1'
says "a withdrawal" "$(more 1 0)" 'withdraw 1 -'
says "an issue" "damaged 3 2" 'do create #1 later @1' "$issue"
says "a checkpoint without an issue of today" "$(more 1 0)" 'do create #1 later @1' checkpoint
says "a checkpoint with an issue of today" "damaged 0 2" "$issue" checkpoint
found=$(cd "$work/made" && "$earlier" audit)
if [ "$found" = "$before" ]; then echo "agrees the copy"; else echo "differs the copy: $found" && differ=1; fi
exit $differ
