#!/usr/bin/env bash
# Opens copies of the stores that programs before this one made, uses them, makes a checkpoint, audits them, and opens them once
# more; and compares the replies with those that are kept. Their procaps stay as they were, by number and by their bytes. Exits 1
# if something differs.
# usage: tests/stores/check.sh [PROGRAM], by default crates/pcfs/out/pcfs
set -euo pipefail
stores=$(cd "$(dirname "$0")" && pwd)
top=$(dirname "$(dirname "$stores")")
program=$(realpath "${1:-$top/crates/pcfs/out/pcfs}")
work=$(mktemp -d)
trap 'rm -rf "$work"' EXIT
differ=0
for store in "$stores"/*/; do
    name=$(basename "$store")
    mkdir "$work/$name"
    cd "$work/$name"
    cp "$store/pcfs.a" "$store/pcfs.b" "$top/examples/pcfs.secrets" .
    {
        "$program" audit
        "$program" script --stored < "$stores/lives.pcfs"
        "$program" audit
        cmp -s pcfs.a "$store/pcfs.a" && echo "the other area is as it was"
        "$program" checkpoint
        "$program" script --stored < "$stores/again.pcfs"
        "$program" audit --pieces 3
    } > replies || true
    if cmp -s replies "$store/lives.replies"; then
        echo "agrees $name"
    else
        echo "differs $name"
        diff "$store/lives.replies" replies || true
        differ=1
    fi
done
exit $differ
