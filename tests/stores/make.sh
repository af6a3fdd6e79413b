#!/usr/bin/env bash
# Makes a store by a program of today, for the programs after it to live on: its disks, and the replies that it gave.
# It has two areas: that before a checkpoint, and that after it, with operations in each, and procaps by their numbers. If the
# program has withdrawals, a statement was withdrawn before the checkpoint.
# usage: tests/stores/make.sh FOLDER [PROGRAM], by default crates/pcfs/out/pcfs; the folder must not be there
set -euo pipefail
stores=$(cd "$(dirname "$0")" && pwd)
top=$(dirname "$(dirname "$stores")")
program=$(realpath "${2:-$top/crates/pcfs/out/pcfs}")
mkdir "$1"
cd "$1"
cp "$top/examples/pcfs.secrets" .
{
    "$program" init
    "$program" script --stored < "$stores/before.pcfs"
    if [ "$(echo 'withdraw 9 00' | "$program" script)" = 'absent 9' ]; then
        "$program" script --stored < "$stores/withdrawn.pcfs"
    fi
    "$program" checkpoint
    "$program" script --stored < "$stores/after.pcfs"
    "$program" audit
} > replies
rm pcfs.secrets
chmod 644 pcfs.a pcfs.b replies
