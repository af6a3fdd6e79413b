#!/usr/bin/env bash
# Gives users sessions over one store, on the loopback address. The first logs in from the shell alone. Then each of three has
# a connection of its own (three_users.py): one writes a file of 60,000 bytes in one line, another reads it back once that was
# told, and then all three work at once. The program has to end with status 0 and to tell that four were served, and the store is
# opened again with all events that were told. Exits 1 if something differs.
# usage: tests/sessions.sh [PROGRAM [PORT]], by default crates/pcfs/out/pcfs and 4040
set -euo pipefail
here=$(cd "$(dirname "$0")" && pwd)
program=$(realpath "${1:-$here/../crates/pcfs/out/pcfs}")
port=${2:-4040}
work=$(mktemp -d)
trap 'rm -rf "$work"' EXIT
cp "$here/../examples/pcfs.secrets" "$work/"
cat >> "$work/pcfs.secrets" << 'SECRETS'
key alice 616c696365206b6579
key bob 626f62206b6579
key carol 6361726f6c206b6579
SECRETS
cd "$work"

differs() {
    echo "$1"
    echo "sessions differ"
    exit 1
}

"$program" init > /dev/null
"$program" serve "$port" 4 < /dev/null > told &
server=$!

# a login that is signed in the shell, over the byte 4c, the name after its length, and the nonce
for _ in $(seq 100); do
    exec 3<> "/dev/tcp/127.0.0.1/$port" && break
    sleep 0.05
done 2> /dev/null
read -r hello nonce <&3
signature=$({ printf 'L\5admin'; xxd -r -p <<< "$nonce"; } | openssl dgst -sha256 -mac HMAC -macopt hexkey:61646d696e7320736563726574 -r | cut -c1-64)
echo "login admin $signature" >&3
read -r reply <&3
exec 3>&-
[ "$hello $reply" = "hello ok" ] || differs "the login from the shell: $hello, $reply"

PYTHONPATH="$here/../examples" PYTHONDONTWRITEBYTECODE=1 python3 "$here/three_users.py" "$port" || differs "the three sessions"

wait "$server" || differs "the server ends with status $?"
[ "$(cat told)" = "served 4" ] || differs "the server tells $(cat told)"

# the next opening finds every event that was told: 6 statements, 4 issues, 3 operations, and 12 of two users each
found=$(printf 'as dave\ndo create #1 x @1\n' | "$program" script --stored)
[ "$found" = "$(printf 'ok\ndenied 1 principal at 37')" ] || differs "the next opening: $found"
echo "sessions agree"
