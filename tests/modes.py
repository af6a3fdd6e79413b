#!/usr/bin/env python3
"""Compares random tables of modes with a plain model of them: the statements, the first fault, what is allowed, and that the
verifier accepts the proof of it with one condition on the state and two on time.

usage: modes.py [COUNT] [SEED]      (default: 10,000 tables from seed 1)

It needs the program of the crate mode_rows, as the gate leaves it, or the one that PROGRAM names.
"""

import os
import random
import subprocess
import sys
import tempfile

HERE = os.path.dirname(os.path.abspath(__file__))
sys.path.insert(0, os.path.join(HERE, "model"))
import modes_model  # noqa: E402

PROGRAM = os.environ.get("PROGRAM", os.path.join(HERE, "..", "crates", "mode_rows", "out", "mode_rows"))
PERMISSIONS = ("read", "write", "execute", "identity", "govern")


def told(text):
    """What the program has to tell of a table."""
    printed, status = modes_model.lines(text, 0, 200)
    if status == 0:
        table = modes_model.Table(text)
        for file in table.files:
            for who in table.who:
                for permission in PERMISSIONS:
                    if table.allows(who, file, permission):
                        first, second, _ = table.proof(who, file, permission)
                        printed.append(f"allowed {who.decode()} #{file} {permission} by {first},{second} time 2 state 1")
    return printed + ["="]


def drawn(count, seed):
    draw = random.Random(seed)
    tables = [modes_model.draw_table(draw) for _ in range(count)]
    return [table if table.endswith(b"\n") or not table else table + b"\n" for table in tables]


def large():
    """A table with 4,096 statements, and one with one more."""
    who = [f"who u{number}" for number in range(63)]
    files = [f"mode #{number} u{number % 63} staff 400" for number in range(2, 66)]
    more = files[:-1] + ["mode #65 u2 staff 600"]
    return ["\n".join(who + files).encode() + b"\n", "\n".join(who + more).encode() + b"\n"]


def main(words):
    count = int(words[0]) if words else 10_000
    seed = int(words[1]) if len(words) > 1 else 1
    tables = drawn(count, seed) + large()
    with tempfile.NamedTemporaryFile() as file:
        for table in tables:
            file.write(table + b"=\n")
        file.flush()
        found = subprocess.run([PROGRAM, file.name], stdout=subprocess.PIPE, check=True).stdout.decode().splitlines()
    wanted, owner = [], []
    for number, table in enumerate(tables):
        lines = told(table)
        wanted += lines
        owner += [number] * len(lines)
    for place, (one, other) in enumerate(zip(wanted, found)):
        if one != other:
            print(f"table {owner[place]} differs: wanted {one!r}, found {other!r}\n{tables[owner[place]].decode()}")
            return 1
    if len(wanted) != len(found):
        print(f"{len(wanted)} lines wanted, {len(found)} found")
        return 1
    faults = sum(line.startswith(("line ", "mode ")) for line in wanted)
    allowed = sum(line.startswith("allowed ") for line in wanted)
    print(f"{len(tables)} tables agree: {faults} faults, {allowed} permissions that are allowed and proved")
    return 0


if __name__ == "__main__":
    sys.exit(main(sys.argv[1:]))
