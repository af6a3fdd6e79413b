#!/usr/bin/env python3
"""Signs statements, withdrawals and logins by the leaves of a tree of hashes (docs/PROTOCOL.md has the format), each leaf once.

    root_client.py new FOLDER H              makes a seed in FOLDER, for 2^H signatures, H from 0 to 8, and prints the root
    root_client.py root FOLDER NAME          prints the line of the server's secrets file that gives NAME the root
    root_client.py statement FOLDER TEXT     prints the line that registers the statement TEXT
    root_client.py withdraw FOLDER N TEXT    prints the line that withdraws the statement TEXT, which has the number N
    root_client.py login FOLDER NAME NONCE   prints the line by which NAME logs in; NONCE is hexadecimal
    root_client.py left FOLDER               prints how many leaves are left

FOLDER has `seed`, the line `H SEED`, which nobody else may read, and `next`, the number of the next leaf. A leaf that signs
twice gives others what they need to sign for you: so the next number is on the disk before a signature is printed, and one
program at a time has the folder. Never copy the folder to use both, and never put an old `next` back: if one is lost, make a
new seed. `pcfs rootsign H FROM` signs by the same leaves: write its FROM and what it used into `next` first.
"""
import fcntl
import functools
import hashlib
import os
import secrets
import sys
from pathlib import Path

sys.path.append(str(Path(__file__).resolve().parent))
from pcfs_formats import Text, number_of, short  # noqa: E402


# ---- the tree ------------------------------------------------------------------------------------------------------


def digest(*parts):
    return hashlib.sha256(b"".join(parts)).digest()


def secret(seed, leaf, bit, value):
    return digest(b"\0", seed, leaf.to_bytes(4, "big"), bit.to_bytes(2, "big"), bytes([value]))


def public(hidden):
    return digest(b"\1", hidden)


@functools.cache
def node(seed, level, place):
    """The node at a place of a level, from the left; the leaves are level 0."""
    if level == 0:
        return digest(b"\2", *[public(secret(seed, place, bit, value)) for bit in range(256) for value in (0, 1)])
    return digest(b"\3", node(seed, level - 1, 2 * place), node(seed, level - 1, 2 * place + 1))


def signature(seed, height, leaf, message):
    """What the leaf signs of the message."""
    bits = int.from_bytes(digest(b"\4", message), "big")
    parts = [leaf.to_bytes(4, "big")]
    for bit in range(256):
        value = bits >> (255 - bit) & 1
        parts += [secret(seed, leaf, bit, value), public(secret(seed, leaf, bit, 1 - value))]
    parts += [node(seed, level, (leaf >> level) ^ 1) for level in range(height)]
    return b"".join(parts)


# ---- the folder ----------------------------------------------------------------------------------------------------


def write_synced(folder, name, text, mode=0o600):
    """The file has this text, and so it has after a crash."""
    path = os.path.join(folder, name)
    with os.fdopen(os.open(path + ".new", os.O_WRONLY | os.O_CREAT | os.O_TRUNC, mode), "w") as file:
        file.write(text)
        file.flush()
        os.fsync(file.fileno())
    os.rename(path + ".new", path)
    there = os.open(folder, os.O_RDONLY)
    os.fsync(there)
    os.close(there)


def seed_of(folder):
    with open(os.path.join(folder, "seed"), encoding="ascii") as file:
        height, seed = file.read().split()
    return int(height), bytes.fromhex(seed)


def next_of(folder):
    with open(os.path.join(folder, "next"), encoding="ascii") as file:
        return int(file.read())


def new(folder, height):
    if not 0 <= height <= 8:
        sys.exit("a height is from 0 to 8")
    os.mkdir(folder, 0o700)
    seed = secrets.token_bytes(32)
    write_synced(folder, "seed", f"{height} {seed.hex()}\n")
    write_synced(folder, "next", "0\n")
    print(node(seed, height, 0).hex())


def sign(folder, message):
    """The signature of the message by the next leaf, which is spent before this returns."""
    with open(os.path.join(folder, "seed"), "rb") as lock:
        fcntl.flock(lock, fcntl.LOCK_EX)
        height, seed = seed_of(folder)
        leaf = next_of(folder)
        if leaf >= 2**height:
            sys.exit(f"all {2**height} leaves are spent: make a new seed, and give its root to the server")
        write_synced(folder, "next", f"{leaf + 1}\n")
    return signature(seed, height, leaf, message).hex()


def main():
    sys.setrecursionlimit(10_000)  # a text may have 512 parentheses within one another, each of several calls
    match sys.argv[1:]:
        case ["new", folder, height]:
            new(folder, int(height))
        case ["root", folder, name]:
            height, seed = seed_of(folder)
            print("root", name, height, node(seed, height, 0).hex())
        case ["statement", folder, text]:
            try:
                message = b"S" + Text(text).statement()
            except (ValueError, RecursionError) as fault:
                sys.exit(f"no statement: {fault}")
            print("register", sign(folder, message), text)
        case ["withdraw", folder, number, text]:
            try:
                number, message = number_of(number), b"W" + Text(text).statement()
            except (ValueError, RecursionError) as fault:
                sys.exit(f"no withdrawal: {fault}")
            print("withdraw", number, sign(folder, message))
        case ["login", folder, name, nonce]:
            print("login", name, sign(folder, b"L" + short(name) + bytes.fromhex(nonce)))
        case ["left", folder]:
            print(2 ** seed_of(folder)[0] - next_of(folder))
        case _:
            sys.exit(__doc__)


if __name__ == "__main__":
    main()
