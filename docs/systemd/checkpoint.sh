#!/usr/bin/env bash
# Logs in as admin at a server on this machine, and has it make a checkpoint; the secrets file is in the current folder.
# usage: checkpoint.sh PORT      ends with 0 if the server answers `ok checkpoint`, and else says what it answers
set -euo pipefail
key=$(sed -n 's/^key admin //p' pcfs.secrets)
exec 3<> "/dev/tcp/127.0.0.1/$1"
read -r -t 60 _ nonce <&3
tag=$({ printf 'L\5admin'; xxd -r -p <<< "$nonce"; } | openssl dgst -sha256 -mac HMAC -macopt "hexkey:$key" -r | cut -c1-64)
echo "login admin $tag" >&3
read -r -t 60 reply <&3
[ "$reply" = ok ] || { echo "login: $reply" >&2; exit 1; }
echo checkpoint >&3
read -r -t 600 reply <&3
[ "$reply" = "ok checkpoint" ] || { echo "checkpoint: $reply" >&2; exit 1; }
