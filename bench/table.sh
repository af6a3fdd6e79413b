#!/usr/bin/env bash
# Measures all that has an aim of speed or memory in a step, an opening, a checkpoint and an audit, in one run of some four minutes, and
# prints one table: the work, its aim, the figure, its peer's figure, and whether the aim is met. It runs script.sh, serve.sh (in memory),
# memory.sh, stored.sh, checkpoint.sh and audit.sh one after another, and reads what they print; beside them it counts the bytes that a
# step of `pcfs serve` copies or zeroes, and the calls of its disks that a stored event takes. The machine should have nothing else to do:
# load and other processes are printed first. Each part has a limit, 20 minutes in all; a part that fails leaves its rows without a
# figure. What each printed is kept, with INTO=FOLDER there. It makes its own input, ends by itself and decides no test.
# It needs python3 with its sqlite3, a C compiler, strace and redis-server: apt-get install -y gcc strace redis-server. What is not there
# is said first, and its rows have no figure. PARTS="serve copies" runs these alone, to see that they work.
# usage: bench/table.sh [FOLDER], which lies on the disk to be timed; by default the current one. PROGRAM is the program, by default
# crates/pcfs/out/pcfs.
set -uo pipefail
top=$(cd "$(dirname "$0")/.." && pwd)
program=$(realpath "${PROGRAM:-$top/crates/pcfs/out/pcfs}")
[ -x "$program" ] || { echo "no program $program: rt ci builds it"; exit 1; }
disk=$(cd "${1:-.}" && pwd)
work=$(mktemp -d)
memory=$(mktemp -d -p /dev/shm)
kept=${INTO:-$work/printed}
trap 'rm -rf "$work" "$memory"' EXIT
mkdir -p "$kept"
kept=$(cd "$kept" && pwd)

# the scripts look for the program beside their folder
mkdir -p "$work/crates/pcfs/out"
cp -r "$top/bench" "$work/bench"
ln -s "$top/examples" "$top/tests" "$work/"
cp "$program" "$work/crates/pcfs/out/pcfs"
program="$work/crates/pcfs/out/pcfs"
bench="$work/bench"
export PROGRAM="$program" PYTHONDONTWRITEBYTECODE=1

# part NAME SECONDS COMMAND..: runs a part, if it is wanted, and keeps what it prints
part() {
    local name=$1 seconds=$2 begun=$SECONDS
    shift 2
    [[ " ${PARTS:-$name} " == *" $name "* ]] || return 0
    if timeout "$seconds" "$@" > "$kept/$name.log" 2> "$kept/$name.err"; then
        echo "$name: $((SECONDS - begun)) s"
    else
        echo "$name: status $? after $((SECONDS - begun)) s; $(tail -n 1 "$kept/$name.err")"
    fi
}

copies() {
    cc -O2 -o "$memory/drive" "$bench/serve/drive.c" &&
        cc -O2 -fPIC -shared -fno-builtin -o "$memory/copies.so" "$bench/table/copies.c" &&
        PYTHONPATH="$bench/serve:$top/examples" python3 "$bench/table/copies.py" "$program" "$memory" "$memory"
}

{
    date -u
    echo "processor: $(sed -n 's/^model name[^:]*: //p' /proc/cpuinfo | head -n 1), $(nproc) of them; Linux $(uname -r); load $(cut -d ' ' -f 1-3 /proc/loadavg)"
    echo "program: $(sha256sum < "$program" | cut -c 1-16), $(stat -c %s "$program") bytes; text $(git -C "$top" rev-parse --short HEAD 2> /dev/null)"
    ps -eo pcpu,comm --sort=-pcpu --no-headers | awk '$1 >= 5 && NR <= 5 { print "beside it: " $2 " has " $1 " % of a processor" }'
    for tool in cc python3 strace redis-server; do
        command -v "$tool" > /dev/null || echo "not here: $tool"
    done
    python3 -c 'import sqlite3' 2> /dev/null || echo "not here: sqlite3 of python3"
} | tee "$kept/head.log"
export -f copies
export bench memory program top
cd "$disk"
part script 240 "$bench/script.sh"
part serve 240 env ONLY=memory "$bench/serve.sh" "$disk" /dev/shm
part memory 150 "$bench/memory.sh"
part stored 90 "$bench/stored.sh" "$disk"
part checkpoint 150 "$bench/checkpoint.sh" "$disk"
part audit 150 "$bench/audit.sh"
part copies 120 bash -c copies
part calls 40 bash -c 'cd "$memory" && python3 "$bench/table/calls.py" "$program"'
python3 "$bench/table/rows.py" "$kept" | tee "$kept/table.log"
grep '^  .* in ' "$kept/copies.log" 2> /dev/null | head -n 12
echo "load at the end $(cut -d ' ' -f 1-3 /proc/loadavg), after $SECONDS s${INTO:+; all is in $kept}"
