#!/usr/bin/env bash
# Installs the programs that `rt ci` built, pcfs, pcfs-prove, pcfs-history and pcfs-client with the script that starts it, their manual
# pages and completions, and the script of the nightly checkpoint. Nothing is installed if one of the programs was not built.
# usage: ./install.sh [PREFIX]     by default /usr/local
set -euo pipefail
cd "$(dirname "$0")"
prefix=${1:-/usr/local}
programs=(pcfs pcfs-prove pcfs-history pcfs-client)

built() {
    echo "crates/${1//-/_}/out/${1//-/_}"
}

for program in "${programs[@]}"; do
    if [ ! -x "$(built "$program")" ]; then
        echo "install.sh: $(built "$program") is not there: run rt ci first" >&2
        exit 1
    fi
done
for program in pcfs pcfs-prove pcfs-history; do
    install -D "$(built "$program")" "$prefix/bin/$program"
done
install -D "$(built pcfs-client)" "$prefix/lib/pcfs/pcfs_client"
install -D client/pcfs-client "$prefix/bin/pcfs-client"
for program in "${programs[@]}"; do
    install -D -m 644 "docs/$program.1" "$prefix/share/man/man1/$program.1"
    install -D -m 644 "docs/$program.bash" "$prefix/share/bash-completion/completions/$program"
done
install -D docs/systemd/checkpoint.sh "$prefix/share/pcfs/checkpoint.sh"
