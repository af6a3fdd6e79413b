#!/usr/bin/env bash
# Audits a history of about 10,000 events with one byte changed, for 1,000 changes (or as many as the word says): at once and
# in 1, 2, 3, 7 and 64 pieces, each time against the report that the plain model gives. It ends with status 1 if one differs.
# usage: bench/audit_changes.sh [COUNT [ROUNDS]]
set -euo pipefail
top=$(cd "$(dirname "$0")/.." && pwd)
work=$(mktemp -d)
trap 'rm -rf "$work"' EXIT

program="$top/crates/audit_rows/out/audit_rows"
if [ ! -x "$program" ]; then
  (cd "$top/crates/audit_rows" && cp data/audit.rows "$work" && rt run > "$work/build.log" 2>&1 -- "$work/audit.rows") || { tail -5 "$work/build.log"; exit 1; }
fi
cd "$work"
export PYTHONDONTWRITEBYTECODE=1
python3 "$top/tests/model/pcfs_audit_model.py" changes "${1:-1000}" 1 < <(python3 "$top/tests/model/pcfs_model.py" generated "${2:-9700}" 1) > changes.rows
"$program" changes.rows > told || { grep -v '^agrees' told | head; exit 1; }
grep -c '^agrees' told
