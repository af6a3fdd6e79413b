#!/usr/bin/env bash
# Runs each example by the built program, in a folder with the secrets of the examples beside it, and compares the replies
# with those that are kept; so too three scripts over one store, and what the documents show (documents.py); then random
# scripts, tables of modes and statements to be signed, whose replies are compared with those of the model; secrets files
# (secrets.py), sessions of three users (sessions.sh), messages of 9P2000 (nine.py), and what users do by the client
# (client.py). Exits 1 if some differ.
# usage: tests/examples.sh [PROGRAM], by default crates/pcfs/out/pcfs
set -euo pipefail
tests=$(cd "$(dirname "$0")" && pwd)
top=$(dirname "$tests")
here=$top/examples
export PYTHONDONTWRITEBYTECODE=1
program=$(realpath "${1:-$top/crates/pcfs/out/pcfs}")
work=$(mktemp -d)
trap 'rm -rf "$work"' EXIT
install -m 600 "$here/pcfs.secrets" "$work/"
cd "$work"

agree=0
differ=0
for script in "$here"/*.pcfs; do
    name=$(basename "$script" .pcfs)
    if "$program" script < "$script" > replies && cmp -s replies "$here/$name.replies"; then
        echo "agrees $name"
        agree=$((agree + 1))
    else
        echo "differs $name"
        differ=$((differ + 1))
    fi
done

# a file is made, written and read by three programs over one store
"$program" init > replies || true
for script in first-file stored/write stored/read; do
    "$program" script --stored < "$here/$script.pcfs" >> replies || true
done
if cmp -s replies <(echo ok; cat "$here/first-file.replies" "$here/stored/write.replies" "$here/stored/read.replies"); then
    echo "agrees stored"
    agree=$((agree + 1))
else
    echo "differs stored"
    differ=$((differ + 1))
fi

# with a folder in the place of a disk, or a file that may not be opened, the program stops, and nothing is lost
stops() {
    "$program" "$@" < "$here/stored/read.pcfs" > replies && return 1
    [ $? -eq 5 ] && cmp -s replies <(echo stopped)
}
refused=0
for disk in pcfs.a pcfs.b; do
    mkdir kept
    mv $disk kept/ 2> /dev/null || true
    mkdir $disk
    stops init && stops script --stored || refused=1
    rmdir $disk
    mv kept/* . 2> /dev/null || true
    rmdir kept
    if [ "$(id -u)" -ne 0 ] && [ -f $disk ]; then
        chmod 0 $disk
        stops init && stops script --stored || refused=1
        chmod 600 $disk
    fi
done
printf 'at 160\nas alice\ndo read #2 0 10 @3\n' | "$program" script --stored > replies || refused=1
if [ "$refused" -eq 0 ] && [ "$(tail -1 replies)" = "ok bytes 6869" ]; then
    echo "agrees disks that cannot be opened"
    agree=$((agree + 1))
else
    echo "differs disks that cannot be opened"
    differ=$((differ + 1))
fi

# a closed output or input leaves its descriptor to no disk: the run fails, and nothing is written into the store
closed=0
"$program" script --stored < "$here/stored/read.pcfs" >&- 2> /dev/null || closed=$?
silent=0
"$program" script --stored <&- > replies || silent=$?
if [ "$closed" -eq 7 ] && [ "$silent" -eq 6 ] && [ "$(cat replies)" = readfault ] && "$program" script --stored < /dev/null \
    && mkdir closed && (cd closed && cp ../pcfs.secrets . && ! "$program" init >&- 2> /dev/null && "$program" script --stored < /dev/null); then
    echo "agrees closed streams"
    agree=$((agree + 1))
else
    echo "differs closed streams"
    differ=$((differ + 1))
fi

# each reply is out before the next line is sent
coproc served { "$program" script; }
late=0
for second in 1 2 3; do
    echo "at $second" >&"${served[1]}"
    read -r -t 20 reply <&"${served[0]}" && [ "$reply" = ok ] || late=1
done
input=${served[1]} pid=$served_PID
exec {input}>&-
wait "$pid" || late=1
# a line that is too long ends the script, and the lines before it are answered
long=0
{ echo at 1; head -c 262145 /dev/zero | tr '\0' a; echo; echo at 2; } | "$program" script > replies || long=$?
if [ "$late" -eq 0 ] && [ "$long" -eq 2 ] && cmp -s replies <(printf 'ok\nbad 3\n'); then
    echo "agrees lines as they come"
    agree=$((agree + 1))
else
    echo "differs lines as they come"
    differ=$((differ + 1))
fi

# secrets files that are right, or wrong in one line
if python3 "$tests/secrets.py" "$program" > told 2>&1; then
    echo "agrees secrets files"
    agree=$((agree + 1))
else
    cat told
    echo "differs secrets files"
    differ=$((differ + 1))
fi

# what the client signs is registered
while read -r statement; do
    "$top/client/pcfs-client" sign statement "$statement" --key pcfs.secrets
done > signed.pcfs << 'END'
admin says may(alice,#1,write) from 0 to 200
hr says forall K:principal. (exists F:file. owner(F,K) & in_dir(F,#1)) | p @ [0,+inf] => K says q("a b",K) from -inf to 2026-12-31T23:59:59Z
END
if "$program" script < signed.pcfs | cmp -s - <(printf 'ok statement 1\nok statement 2\n'); then
    echo "agrees signed statements"
    agree=$((agree + 1))
else
    echo "differs signed statements"
    differ=$((differ + 1))
fi

# what the documents show is so
if python3 "$tests/documents.py" "$program" > told 2>&1; then
    echo "agrees documents"
    agree=$((agree + 1))
else
    cat told
    echo "differs documents"
    differ=$((differ + 1))
fi

# random scripts are answered as by the model
for seed in 1 2 3 4 5; do
    python3 "$tests/model/pcfs_model.py" random "$seed" 2000 > random.pcfs
    python3 "$tests/model/pcfs_model.py" script pcfs.secrets < random.pcfs > random.replies
    if "$program" script < random.pcfs | cmp -s - random.replies; then
        echo "agrees random script $seed"
        agree=$((agree + 1))
    else
        echo "differs random script $seed"
        differ=$((differ + 1))
    fi
done

# a table of modes becomes the statements of the example, and random tables are answered as by the model
tables=0
"$program" modes 0 200 < "$here/modes.table" | cmp -s - <(grep '^register - .*class(' "$here/modes.pcfs") || tables=1
for seed in {1..40}; do
    python3 "$tests/model/modes_model.py" random "$seed" > random.table
    ended=0
    "$program" modes 0 200 < random.table > replies 2> /dev/null || ended=$?
    wanted=0
    python3 "$tests/model/modes_model.py" lines 0 200 < random.table > random.replies || wanted=$?
    [ "$ended" -eq "$wanted" ] && cmp -s replies random.replies || tables=1
done
if [ "$tables" -eq 0 ]; then
    echo "agrees tables of modes"
    agree=$((agree + 1))
else
    echo "differs tables of modes"
    differ=$((differ + 1))
fi

# statements are signed as by the model; and a ring with a root takes what its client signs, each leaf of which signs once
signed=0
for seed in {1..8}; do
    python3 "$tests/model/root_model.py" random "$seed" > random.statements
    for words in "0 0" "1 0" "2 1"; do
        ended=0
        "$program" rootsign $words < random.statements > replies 2> /dev/null || ended=$?
        wanted=0
        python3 "$tests/model/root_model.py" lines $words < random.statements > random.replies || wanted=$?
        [ "$ended" -eq "$wanted" ] && cmp -s replies random.replies || signed=1
    done
done
client() {
    python3 "$here/root_client.py" "$@"
}
mkdir rooted
root=$(client new zoe.tree 1)
{ cat "$here/pcfs.secrets"; client root zoe.tree zoe; } > rooted/pcfs.secrets
[ "$(tail -n 1 rooted/pcfs.secrets)" = "root zoe 1 $root" ] && [ "$(client left zoe.tree)" = 2 ] || signed=1
{
    echo "at 100"
    for permission in read write; do
        client statement zoe.tree "zoe says may(bob,#1,$permission) from 0 to 200"
    done
    echo "register - zoe says may(bob,#1,govern) from 0 to 200"
} > signed.pcfs
(cd rooted && "$program" script < ../signed.pcfs) | cmp -s - <(printf 'ok\nok statement 1\nok statement 2\nrejected 1\n') || signed=1
client login zoe.tree zoe 00000000000000000000000000000000 > login 2> /dev/null && signed=1
[ "$(client left zoe.tree)" = 0 ] && [ ! -s login ] || signed=1
if [ "$signed" -eq 0 ]; then
    echo "agrees statements signed by a tree of hashes"
    agree=$((agree + 1))
else
    echo "differs statements signed by a tree of hashes"
    differ=$((differ + 1))
fi

# of generated scripts the program counts the replies that the model gives, and those that it gives itself to the lines that the model makes
counted() {
    awk '{ count[$1]++ } END { print NR, count["ok"] + 0, count["denied"] + 0, count["refused"] + 0 }'
}
mkdir load
printf 'seal 02\nkey admin 01\n' > load/pcfs.secrets
for numbers in "0 7" "1 0" "1 7" "500 1"; do
    read -r rounds seed <<< "$numbers"
    line=$("$program" load "$rounds" "$seed") || true
    replies=$(cd load && python3 "$tests/model/pcfs_model.py" generated "$rounds" "$seed" | "$program" script | counted)
    if [ "$line" = "$(python3 "$tests/model/pcfs_model.py" load "$rounds" "$seed")" ] && [ "$(cut -d " " -f 2,4,6,8 <<< "$line")" = "$replies" ]; then
        echo "agrees load $numbers"
        agree=$((agree + 1))
    else
        echo "differs load $numbers"
        differ=$((differ + 1))
    fi
done

# and so are the lines of worked runs, by what they want
if python3 "$tests/model/pcfs_model.py" rows "$top"/crates/pcfs_rows/data/*.rows > rows; then
    echo "agrees rows"
    agree=$((agree + 1))
else
    grep -A 3 differs rows || true
    differ=$((differ + 1))
fi

# stores that earlier programs made live on
if bash "$tests/stores/check.sh" "$program" > told 2>&1; then
    echo "agrees stores"
    agree=$((agree + 1))
else
    cat told
    echo "differs stores"
    differ=$((differ + 1))
fi

# users have sessions over one store, over the loopback address, on a port that is free
free_port() {
    python3 -c 'import socket; it = socket.create_server(("127.0.0.1", 0)); print(it.getsockname()[1])' 2> /dev/null
}
if ! port=$(free_port) || ! command -v openssl > /dev/null || ! command -v xxd > /dev/null; then
    echo "not run: sessions, for want of a loopback address, openssl or xxd"
elif bash "$tests/sessions.sh" "$program" "$port" > told 2>&1; then
    echo "agrees sessions"
    agree=$((agree + 1))
else
    cat told
    echo "differs sessions"
    differ=$((differ + 1))
fi

# messages of 9P2000 are answered as by the model, and the client for them does what it says
if ! port=$(free_port); then
    echo "not run: 9P2000, for want of a loopback address"
elif python3 "$tests/nine.py" "$program" 5 > told 2>&1; then
    echo "agrees 9P2000"
    agree=$((agree + 1))
else
    cat told
    echo "differs 9P2000"
    differ=$((differ + 1))
fi

# what users do by the client
client=$top/crates/pcfs_client/out/pcfs_client
if ! port=$(free_port); then
    echo "not run: the client, for want of a loopback address"
elif python3 "$tests/client.py" "$program" "$client" refusals drawn first modes machine withdrawals states signed wrong strangers documents > told 2>&1; then
    echo "agrees client"
    agree=$((agree + 1))
else
    cat told
    echo "differs client"
    differ=$((differ + 1))
fi
echo "$agree passed, $differ failed"
[ "$differ" -eq 0 ]
