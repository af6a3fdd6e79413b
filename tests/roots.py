#!/usr/bin/env python3
"""Hands the built programs signatures by trees of hashes that are wrong in one way, and seeds, heights and secrets files that
are, and compares what comes with the definitions; a store whose ring has a root is checkpointed, audited and opened.

usage: roots.py [PCFS] [SEED]      (default: crates/pcfs/out/pcfs, bytes that change drawn from seed 1)

It needs the program of the crate merkle_rows too, as the gate leaves it, or the one that PROGRAM names.
"""

import os
import random
import re
import subprocess
import sys
import tempfile
from itertools import combinations

HERE = os.path.dirname(os.path.abspath(__file__))
sys.path[:0] = [os.path.join(HERE, "model"), os.path.join(HERE, "..", "examples")]
import hash_trees  # noqa: E402
import root_model  # noqa: E402
from pcfs_formats import Text  # noqa: E402

PCFS = os.path.join(HERE, "..", "crates", "pcfs", "out", "pcfs")
ROWS = os.environ.get("PROGRAM", os.path.join(HERE, "..", "crates", "merkle_rows", "out", "merkle_rows"))
HIGHEST = 8
FIXED = 16388
KEEPS = "seal 00\nkey admin 01\n"
SAID = "zoe says may(bob,#1,read) from 0 to 200"
SEED = bytes(range(32))


class Differs(Exception):
    """What was wanted, and what came."""


def agree(what, wanted, found):
    for number, (one, other) in enumerate(zip(wanted, found), 1):
        if one != other:
            raise Differs(f"{what}, line {number}: wanted {one!r}, found {other!r}")
    if len(wanted) != len(found):
        raise Differs(f"{what}: {len(wanted)} lines wanted, {len(found)} found")


def run(words, folder=None, given=b""):
    """The lines that a program writes, and its status."""
    ran = subprocess.run(words, cwd=folder, input=given, stdout=subprocess.PIPE, stderr=subprocess.DEVNULL, check=False)
    return ran.stdout.decode().splitlines(), ran.returncode


# ---- the rows of merkle_rows ---------------------------------------------------------------------------------------


def leaf_rows(height):
    """One change of a signature at a time, for each height."""
    full = 2**height
    own = full * 5 // 8
    for number in sorted({0, own, own ^ 1, full - 1, full, full + 1, full + own, 2 * full, 2**31, 2**32 - 1}):
        yield f"leaf 7 {height} {own} {number} abc"
    for word in ("whole", "cut", "height", "message", "siblings"):
        for leaf in sorted({0, own, full - 1, full, full + 1}):
            yield f"{word} 7 {height} {leaf} 0 abc"
    yield f"root 7 {height} 0 0 -"
    yield f"calls 7 {height} {max(0, full - 2)} 4 abc"


def of_rows():
    rows = [row for height in range(HIGHEST + 1) for row in leaf_rows(height)]
    rows += [f"{word} 7 {height} 0 1 abc" for word in ("root", "whole", "calls", "flips") for height in (9, 10, 255)]
    wanted = [line for row in rows for line in hash_trees.told(row)]
    # one bit of each byte: a model of each of them would take minutes, and no other signature leads to the root
    for height in (0, HIGHEST):
        rows.append(f"flips 9 {height} {2**height * 3 // 4} 1 abc")
        length = FIXED + 32 * height
        wanted.append(f"flips: 0 of {length} accepted")
    with tempfile.NamedTemporaryFile("w") as file:
        file.write("\n".join(rows) + "\n")
        file.flush()
        found, status = run([ROWS, file.name])
    agree("rows", [*wanted, "0"], [*found, str(status)])
    return f"{len(rows)} rows of {os.path.basename(ROWS)}"


# ---- signatures in lines `register` --------------------------------------------------------------------------------


def signed(height, leaf):
    return hash_trees.sign(SEED, height, leaf, b"S" + Text(SAID).statement())


def set_leaf(signature, number):
    return number.to_bytes(4, "big") + signature[4:]


def other_lengths(signature):
    """Lengths one off, and those of the next heights."""
    more = signature + bytes(range(64))
    lengths = {1, 3, 4, 5, 36, FIXED - 1, FIXED, FIXED + 1}
    lengths |= {len(signature) + step for step in (-33, -32, -31, -1, 1, 31, 32, 33, 64)}
    return [more[:length] for length in sorted(lengths)]


def other_leaves(signature, height, leaf):
    numbers = {leaf ^ 1 << bit for bit in range(32)} | {2**height + step for step in (-1, 0, 1, leaf)} | {2**32 - 1}
    return [set_leaf(signature, number) for number in sorted(numbers)]


def other_siblings(signature, height, leaf):
    """Two of them exchanged; one by its own node of the way, by zeros, and by its bytes in reverse."""
    ways = [signature[FIXED + 32 * level : FIXED + 32 * level + 32] for level in range(height)]
    changed = []
    for one, other in combinations(range(height), 2):
        nodes = list(ways)
        nodes[one], nodes[other] = nodes[other], nodes[one]
        changed.append(nodes)
    for level in range(height):
        for node in (hash_trees.node(SEED, level, leaf >> level), bytes(32), ways[level][::-1]):
            changed.append([*ways[:level], node, *ways[level + 1 :]])
    return [signature[:FIXED] + b"".join(nodes) for nodes in changed]


def other_pairs(signature):
    """What is shown of a bit in the other order, and what is shown of two bits exchanged."""
    parts = [signature[at : at + 64] for at in range(4, FIXED, 64)]
    for bit in (0, 1, 7, 8, 127, 255):
        turned = parts[bit][32:] + parts[bit][:32]
        yield signature[:4] + b"".join([*parts[:bit], turned, *parts[bit + 1 :]]) + signature[FIXED:]
    yield signature[:4] + b"".join([parts[1], parts[0], *parts[2:]]) + signature[FIXED:]


def changes(height, leaf):
    """Signatures that are as they are, or wrong in one way."""
    whole = signed(height, leaf)
    yield whole
    yield from other_lengths(whole)
    yield from other_leaves(whole, height, leaf)
    yield from other_siblings(whole, height, leaf)
    yield from other_pairs(whole)
    yield signed(height, (leaf + 1) % 2**height)
    yield hash_trees.sign(SEED, height, leaf, Text(SAID).statement())
    yield hash_trees.sign(bytes(32), height, leaf, b"S" + Text(SAID).statement())
    yield whole


def flipped(signature, draw):
    """Each byte changed, one at a time."""
    for at in range(len(signature)):
        yield signature[:at] + bytes([signature[at] ^ draw.randrange(1, 256)]) + signature[at + 1 :]


def registered(program, folder, signatures):
    """The replies to lines that register the statement by each of these; `-` is one that the server makes."""
    with open(os.path.join(folder, "lines"), "w", encoding="ascii") as file:
        for signature in signatures:
            file.write(f"register {signature.hex() or '-'} {SAID}\n")
    with open(os.path.join(folder, "lines"), "rb") as file:
        ran = subprocess.run([program, "script"], cwd=folder, stdin=file, stdout=subprocess.PIPE, check=True)
    return ran.stdout.decode().splitlines()


def keep_secrets(folder, text):
    with open(os.path.join(folder, "pcfs.secrets"), "w", encoding="ascii") as file:
        file.write(text)


def root_line(height, name="zoe"):
    return f"root {name} {height} {hash_trees.node(SEED, height, 0).hex()}\n"


def of_registrations(program, draw):
    """Signatures of a statement that are as they are, or wrong in one way, at three heights; and each byte of one changed."""
    tried = 0
    message = b"S" + Text(SAID).statement()
    with tempfile.TemporaryDirectory() as folder:
        for height in (0, 1, HIGHEST):
            leaf = 2**height * 5 // 8
            keep_secrets(folder, KEEPS + root_line(height))
            given = [b"", *changes(height, leaf)]
            root = hash_trees.node(SEED, height, 0)
            wanted = ["rejected 1", "ok statement 1"]
            for signature in given[2:]:
                wanted.append("rejected 3 1" if hash_trees.accepts(root, height, message, signature) else "rejected 1")
            agree(f"signatures of height {height}", wanted, registered(program, folder, given))
            tried += len(given)
        found = registered(program, folder, flipped(signed(HIGHEST, leaf), draw))
        length = FIXED + 32 * HIGHEST
        agree("changed bytes", ["rejected 1"] * length, found)
    return f"{tried} signatures in lines `register`, and each of {length} bytes of one changed"


# ---- seeds, heights and leaves of rootsign -------------------------------------------------------------------------


def seeds():
    """Lines of a seed, of which one is right."""
    for digits in [*range(0, 131), 256, 1024, 262139, 262140]:
        yield "seed " + "07" * (digits // 2) + "a" * (digits % 2)
    for word in ("", " " + "07" * 32, "07" * 32 + " ", "0G" * 32, "0A" * 32, "-"):
        yield f"seed {word}"
    yield "seed"


def of_seeds(program):
    tried = 0
    for line in seeds():
        given = f"{line}\nstatement {SAID}\n".encode()
        for height, leaf in ((0, 0), (0, 1)):
            wanted, ended = root_model.lines(given, height, leaf)
            found, status = run([program, "rootsign", str(height), str(leaf)], given=given)
            agree(f"rootsign {height} {leaf} of {line[:80]!r}", [*wanted, str(ended)], [*found, str(status)])
            tried += 1
    return f"{tried} seeds"


def of_words(program):
    """Heights and leaves as words; leading zeros are none of them."""
    given = f"seed {SEED.hex()}\nstatement {SAID}\n".encode()
    tried = 0
    for height in ("0", "1", "8", "9", "10", "08", "-1", "", "256", str(2**64)):
        full = 2 ** int(height) if re.fullmatch("[0-8]", height) else 1
        for leaf in ("0", str(full - 1), str(full), str(full + 1), "-1", "", "x", "00", str(2**32), str(2**64)):
            if re.fullmatch("[0-8]", height) and re.fullmatch("0|[1-9][0-9]*", leaf) and int(leaf) <= full:
                wanted, ended = root_model.lines(given, int(height), int(leaf))
            else:
                wanted, ended = ["usage"], 1
            found, status = run([program, "rootsign", height, leaf], given=given)
            agree(f"rootsign {height!r} {leaf!r}", [*wanted, str(ended)], [*found, str(status)])
            tried += 1
    return f"{tried} heights and leaves"


# ---- secrets files -------------------------------------------------------------------------------------------------


def secrets_files():
    """Lines after the first, and the first of them that is wrong, or 0: a key and a root in both orders, at any distance."""
    key, root = "key zoe 02", root_line(1).strip()
    others = ["key admin 01", "root yan 0 " + "1f" * 32]
    for one in (key, root):
        for other in (key, "key zoe -", root, "root zoe 8 " + "2e" * 32):
            for between in (0, 1, 2):
                lines = [one, *others[:between], other]
                yield lines, len(lines) + 1
                yield [*others[:between], one], 0
    for height in range(9):
        yield [f"root zoe {height} " + "5d" * 32], 0
    for height in ("9", "00", "08", "10", "-1", "", "a", "255", "256"):
        yield [key.replace("zoe", "yan"), f"root zoe {height} " + "5d" * 32], 3
    for length in (0, 1, 16, 31, 33, 64):
        yield ["root zoe 8 " + "5d" * length], 2
    for word in ("5D" * 32, "5d" * 31 + "5", "5d" * 32 + " ", " " + "5d" * 32, "-", ""):
        yield [*others, f"root zoe 8 {word}"], 4
    for line in ("root", "root zoe", "root zoe 8", "root  zoe 8 " + "5d" * 32, "root Zoe 8 " + "5d" * 32):
        yield [*others, line], 4


def of_secrets(program):
    tried = 0
    with tempfile.TemporaryDirectory() as folder:
        for lines, wrong in secrets_files():
            keep_secrets(folder, "".join(f"{line}\n" for line in ["seal 00", *lines]))
            wanted = [f"secrets line {wrong}", "19"] if wrong else ["0"]
            found, status = run([program, "script"], folder)
            agree(f"secrets {lines}", wanted, [*found, str(status)])
            tried += 1
    return f"{tried} secrets files"


# ---- a store whose ring has a root ---------------------------------------------------------------------------------


def of_store(program):
    """A statement by a root is kept, in a record and then in an image; without its root the store does not open."""
    line = f"register {signed(HIGHEST, 200).hex()} {SAID}\n".encode()
    good = KEEPS + root_line(HIGHEST)
    others = [KEEPS + line for line in ("", "key zoe 02\n", root_line(7), root_line(HIGHEST, "yan"))]
    with tempfile.TemporaryDirectory() as folder:
        keep_secrets(folder, good)
        agree("init", ["ok", "0"], told(run([program, "init"], folder)))
        agree("script", ["ok statement 1", "0"], told(run([program, "script", "--stored"], folder, line)))
        for number, kept in ((1, "record"), (0, "image")):
            report = ["events 1 statements 1 issues 0 unissued 0", "0"]
            agree(f"audit of a {kept}", report, told(run([program, "audit"], folder)))
            for secrets in others:
                keep_secrets(folder, secrets)
                agree(f"a {kept} without its root", [f"damaged {number} 3", "3"], told(run([program, "audit"], folder)))
            keep_secrets(folder, good)
            if number == 1:
                agree("checkpoint", ["ok checkpoint", "0"], told(run([program, "checkpoint"], folder)))
        agree("script", ["rejected 3 1", "0"], told(run([program, "script", "--stored"], folder, line)))
    return "a store that is checkpointed, audited and opened"


def told(ran):
    lines, status = ran
    return [*lines, str(status)]


def main(words):
    program = os.path.realpath(words[0] if words else PCFS)
    draw = random.Random(int(words[1]) if len(words) > 1 else 1)
    try:
        print("agree:", of_rows(), flush=True)
        print("agree:", of_registrations(program, draw), flush=True)
        for part in (of_seeds, of_words, of_secrets, of_store):
            print("agree:", part(program), flush=True)
    except Differs as fault:
        print(f"differs: {fault}")
        return 1
    return 0


if __name__ == "__main__":
    sys.exit(main(sys.argv[1:]))
