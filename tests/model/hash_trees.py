"""Trees of hashes and the signatures of their leaves, slowly and by the definitions alone.

It reads rows as `crates/merkle_rows/README.md` says, and writes what the program of rows must print for them.
"""
import functools
import hashlib
import sys


def digest(*parts):
    return hashlib.sha256(b"".join(parts)).digest()


def secret(seed, leaf, bit, value):
    return digest(b"\0", seed, leaf.to_bytes(4, "big"), bit.to_bytes(2, "big"), bytes([value]))


def public(hidden):
    return digest(b"\1", hidden)


@functools.cache
def node(seed, level, place):
    if level == 0:
        return digest(b"\2", *[public(secret(seed, place, bit, value)) for bit in range(256) for value in (0, 1)])
    return digest(b"\3", node(seed, level - 1, 2 * place), node(seed, level - 1, 2 * place + 1))


def bits_of(message):
    whole = int.from_bytes(digest(b"\4", message), "big")
    return [whole >> (255 - bit) & 1 for bit in range(256)]


def sign(seed, height, leaf, message):
    parts = [leaf.to_bytes(4, "big")]
    for bit, value in enumerate(bits_of(message)):
        parts += [secret(seed, leaf, bit, value), public(secret(seed, leaf, bit, 1 - value))]
    place = leaf
    for level in range(height):
        parts.append(node(seed, level, place ^ 1))
        place //= 2
    return b"".join(parts)


def accepts(root, height, message, signature):
    if len(signature) != 16388 + 32 * height:
        return False
    leaf = int.from_bytes(signature[:4], "big")
    if leaf >= 2**height:
        return False
    pairs = []
    for bit, value in enumerate(bits_of(message)):
        at = 4 + 64 * bit
        own, other = public(signature[at : at + 32]), signature[at + 32 : at + 64]
        pairs += [own, other] if value == 0 else [other, own]
    here, place = digest(b"\2", *pairs), leaf
    for level in range(height):
        beside = signature[16388 + 32 * level : 16420 + 32 * level]
        here = digest(b"\3", here, beside) if place % 2 == 0 else digest(b"\3", beside, here)
        place //= 2
    return here == root


def verdict(accepted):
    return "accepted" if accepted else "refused"


def flips(root, height, message, signature, every):
    places = range(0, len(signature), every)
    changed = (signature[:at] + bytes([signature[at] ^ 1]) + signature[at + 1 :] for at in places)
    accepted = sum(accepts(root, height, message, bytes_) for bytes_ in changed)
    return f"flips: {accepted} of {len(places)} accepted"


def changed(word, root, height, message, signature, number):
    if word == "flips":
        return flips(root, height, message, signature, number)
    if word == "cut":
        signature = signature[:-1]
    elif word == "leaf":
        signature = number.to_bytes(4, "big") + signature[4:]
    elif word == "height":
        height += 1
    elif word == "message":
        message = b"another"
    elif word == "siblings":
        signature = signature[:16388] + signature[16388:][::-1]
    return f"{word}: {verdict(accepts(root, height, message, signature))}"


def told(row):
    word, seed, height, leaf, number, message = row.split(" ")
    seed, height, leaf, number, message = bytes([int(seed)] * 32), int(height), int(leaf), int(number), message.encode()
    if height > 8 or leaf > 2**height:
        return [f"{word}: no signer"]
    root = node(seed, height, 0)
    if word == "root":
        return [f"root {root.hex()}"]
    if word == "calls":
        lines = []
        for at in range(leaf, leaf + number):
            if at >= 2**height:
                lines.append("spent")
                continue
            signature = sign(seed, height, at, message)
            accepted = verdict(accepts(root, height, message, signature))
            lines.append(f"signature {len(signature)} {digest(signature).hex()} {accepted}")
        return lines
    if leaf >= 2**height:
        return [f"{word}: spent"]
    return [changed(word, root, height, message, sign(seed, height, leaf, message), number)]


def main():
    for row in sys.stdin.read().splitlines():
        print("\n".join(told(row)))


if __name__ == "__main__":
    main()
