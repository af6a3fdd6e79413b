#!/usr/bin/env python3
"""Runs the examples and the worked rows once more, with a checkpoint after each line, and compares what they are told.

usage: between.py [PCFS [PCFS_ROWS]], by default crates/pcfs/out/pcfs and crates/pcfs_rows/out/pcfs_rows, as `rt ci` leaves them

The examples run in memory and over a store; beside `ok checkpoint` their replies are those of a run without checkpoints. Of the
rows, those cases are taken that are lines of a script alone. Exits with 1 if anything differs.
"""
import shutil
import subprocess
import sys
import tempfile
from pathlib import Path

TOP = Path(__file__).resolve().parents[2]
EXAMPLES = TOP / "examples"
ROWS = TOP / "crates/pcfs_rows/data"
# rows by which a case is more than lines and their replies
OTHER = ("reads", "writes", "pieces", "times", "calls", "fuse", "stops", "shows", "status", "again", "a ", "b ", ">.")
# after these replies nothing is answered, or the line was none
LAST = ("< bad 3", "< stopped", "< nomemory")


def told(program, folder, words, lines):
    """What a script is told over the store in this folder."""
    given = "".join(f"{line}\n" for line in lines).encode()
    return subprocess.run([program, *words], cwd=folder, input=given, stdout=subprocess.PIPE, check=False).stdout.decode().splitlines()


def example_agrees(program, example, is_stored):
    """Whether an example is told the same with a checkpoint after each line."""
    lines = example.read_text().splitlines()
    with tempfile.TemporaryDirectory() as plain, tempfile.TemporaryDirectory() as between:
        for folder in (plain, between):
            shutil.copy(EXAMPLES / "pcfs.secrets", folder)
        words = ["script"]
        if is_stored:
            told(program, between, ["init"], [])
            words = ["script", "--stored"]
        wanted = told(program, plain, ["script"], lines)
        found = told(program, between, words, [row for line in lines for row in (line, "checkpoint")])
    others = [line for line in found if line != "ok checkpoint"]
    return others == wanted and len(found) == len(others) + len(lines)


def cases_of(text):
    """The rows before the first case, and those of each case."""
    blocks = [[]]
    for row in text.split("\n"):
        if row.startswith("= "):
            blocks.append([])
        blocks[-1].append(row)
    return blocks[0], blocks[1:]


def with_checkpoints(case):
    """The case with a checkpoint after each line that has one reply."""
    rows = []
    for before, row, after in zip(["", *case], case, [*case[1:], ""]):
        rows.append(row)
        is_only = row.startswith("< ") and before.startswith("> ") and not after.startswith(("< ", "<< "))
        if is_only and not row.startswith(LAST):
            rows += ["> checkpoint", "< ok checkpoint"]
    return rows


def is_of_lines(first, case):
    """Whether a case is lines of a script, and what they are told."""
    words = [row for row in [*first, *case] if row.startswith("words ")]
    return words[-1:] == ["words script"] and not any(row.startswith(OTHER) for row in [*first, *case])


def rows_agree(program, file, folder):
    """How many cases of a file agree with a checkpoint after each line, and how many there are."""
    first, cases = cases_of(file.read_text(encoding="utf-8", errors="surrogateescape"))
    taken = [with_checkpoints(case) for case in cases if is_of_lines(first, case)]
    rows = "\n".join("\n".join(block) for block in [first, *taken])
    (folder / file.name).write_text(rows, encoding="utf-8", errors="surrogateescape")
    said = subprocess.run([program, file.name], cwd=folder, stdout=subprocess.PIPE, check=False).stdout.decode(errors="replace")
    return sum(line.startswith("agrees") for line in said.splitlines()), len(taken)


def main():
    given = [Path(word).resolve() for word in sys.argv[1:]]
    program, rows = [*given, *[TOP / "crates/pcfs/out/pcfs", TOP / "crates/pcfs_rows/out/pcfs_rows"][len(given) :]]
    agree = total = 0
    for example in sorted(EXAMPLES.glob("*.pcfs")):
        for is_stored in (False, True):
            total += 1
            if example_agrees(program, example, is_stored):
                agree += 1
            else:
                print(f"differs: {example.name}{', over a store' if is_stored else ''}")
    with tempfile.TemporaryDirectory() as folder:
        for file in sorted(ROWS.glob("*.rows")):
            found, wanted = rows_agree(rows, file, Path(folder))
            agree, total = agree + found, total + wanted
            if found != wanted:
                print(f"differs: {file.name}, {wanted - found} cases")
    print(f"{agree} of {total} examples and cases agree with a checkpoint after each line")
    return 0 if agree == total else 1


sys.exit(main())
