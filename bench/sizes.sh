#!/usr/bin/env bash
# Prints the table of sizes by crate, in the order of crates.txt: lines of source (without files of tests), of definitions and
# of proofs, comments included; and, from a log of the gate, the processor seconds of its proofs, tests and wrong bodies.
# docs/ARCHITECTURE.md keeps one such table, with its date.
# usage: bench/sizes.sh [LOG]                  the table
#        bench/sizes.sh --into FILE [LOG]       puts it into FILE, as docs/ARCHITECTURE.md; seconds that the log has not stay as they are
#        bench/sizes.sh --gate LOG [COMMAND..]  runs the gate, by default `rt ci --anew`, and writes what its processes took to LOG
set -euo pipefail
exec python3 "$(dirname "$0")/sizes.py" "$@"
