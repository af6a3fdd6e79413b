#!/usr/bin/env python3
"""Runs a script with secrets files that are right, or wrong in one line, and compares what is answered with docs/PROTOCOL.md.

usage: secrets.py [PROGRAM], by default crates/pcfs/out/pcfs. Prints each difference and their number, and ends with 1 if there is one.
"""
import os
import subprocess
import sys
import tempfile
from pathlib import Path

TOP = Path(__file__).resolve().parents[1]
ROOT = "07" * 32

# The number of the first bad line, and the text.
BAD = [
    (1, ""),
    (1, "\n"),
    (1, "key admin 01"),
    (1, "key admin 01\nseal 00"),
    (1, "seal 0"),
    (1, "seal 0G"),
    (1, "seal AA"),
    (1, "seal "),
    (1, "seal"),
    (1, "seal  00"),
    (1, "seal 00 "),
    (1, " seal 00"),
    (1, "seal 00\r\nkey admin 01"),
    (1, "seal " + "00" * 1025),
    (2, "seal 00\nseal 00"),
    (2, "seal 00\n\nkey admin 01"),
    (3, "seal 00\nkey admin 01\n\n"),
    (3, "seal 00\nkey admin 01\nkey admin 02"),
    (3, "seal 00\nkey admin 01\nkey admin 01\nkey true 01"),
    (2, "seal 00\nkey admin"),
    (2, "seal 00\nkey admin "),
    (2, "seal 00\nkey true 01"),
    (2, "seal 00\nkey Admin 01"),
    (2, f"seal 00\nroot hr 9 {ROOT}"),
    (2, f"seal 00\nroot hr 1 {ROOT[2:]}"),
    (3, f"seal 00\nroot hr 1 {ROOT}\nkey hr 01"),
    (3, f"seal 00\nkey hr 01\nroot hr 1 {ROOT}"),
]

# The text, and the names that have a key there; the ring signs for no other.
GOOD = [
    ("seal 00", ()),
    ("seal -\n", ()),
    ("seal " + "00" * 1024, ()),
    ("seal 00\nkey admin 01", ("admin",)),
    ("seal 00\nkey admin 01\n", ("admin",)),
    ("seal 0aff\nkey hr -\nkey admin 01", ("admin", "hr")),
    (f"seal 00\nroot hr 8 {ROOT}\nkey admin 01", ("admin",)),
]


def ran(program, text, given):
    """What the program prints of these lines beside this secrets file, and its status."""
    with tempfile.TemporaryDirectory() as folder:
        Path(folder, "pcfs.secrets").write_bytes(text.encode())
        done = subprocess.run([program, "script"], cwd=folder, input=given.encode(), stdout=subprocess.PIPE, stderr=subprocess.DEVNULL, check=False)
    return done.stdout.decode(), done.returncode


def differences(program):
    for number, text in BAD:
        found = ran(program, text, "at 1\n")
        if found != (f"secrets line {number}\n", 19):
            yield f"{text[:60]!r}: {found} and not line {number}"
    for text, names in GOOD:
        for name in ("admin", "hr"):
            found = ran(program, text, f"register - {name} says true from 0 to 200\n")
            wanted = ("ok statement 1\n" if name in names else "rejected 1\n", 0)
            if found != wanted:
                yield f"{text[:60]!r}: {found} and not {wanted}"


def main():
    program = os.path.realpath(sys.argv[1] if len(sys.argv) > 1 else TOP / "crates/pcfs/out/pcfs")
    found = list(differences(program))
    print(*found, sep="\n", end="\n" if found else "")
    print(f"{len(found)} differences")
    return 1 if found else 0


if __name__ == "__main__":
    sys.exit(main())
