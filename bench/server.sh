#!/usr/bin/env bash
# Times the serving loop with a small service that echoes, beside a plain echo server in C with a thread for each
# connection, both driven by the same client over the loopback: connections a second, one after another; the time from
# connecting to the first echo while 32 others wait; requests of 16 bytes a second over 1, 8 and 64 connections; threads,
# memory and processor time while 64 wait. Then it tries clients that send nothing, reset, close one half, are slow, or
# are too many. It works in a folder of its own, ends by itself and decides nothing.
set -euo pipefail
here=$(cd "$(dirname "$0")" && pwd)
parts="$here/server"
work=$(mktemp -d)
trap 'rm -rf "$work"' EXIT

mkdir -p "$work/crates/bench_server/src"
printf 'bl_syntax: byteorder\npcfs_ports: bl_syntax\npcfs_server: bl_syntax pcfs_ports slab\nbench_server: pcfs_ports pcfs_server\n' > "$work/crates.txt"
cp "$here/../HANDLES" "$work/"
cp -r "$here/../crates/bl_syntax" "$here/../crates/pcfs_ports" "$here/../crates/pcfs_server" "$work/crates/"
rm -rf "$work"/crates/*/out
cp "$parts/main.rattle" "$work/crates/bench_server/src/main.rt"
cc -O2 -pthread -o "$work/peer" "$parts/peer.c"
cc -O2 -pthread -o "$work/client" "$parts/client.c"
(cd "$work/crates/bench_server" && rt ${BENCH_RT:-run} -- 4040 0 1 > "$work/rt.log" 2>&1) || { tail -n 20 "$work/rt.log"; exit 2; }
timeout 300 python3 "$parts/figures.py" "$work"
