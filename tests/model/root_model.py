"""A plain model of `rootsign`: the root of a seed's tree, and the lines that register statements by its leaves.

Written from the description of the command alone. It shares no code with the server; the bytes of statements are those of
examples/pcfs_formats.py. Of a text that is no statement it knows that, and not its fault: the line ends with `?`.

    root_model.py lines H FROM < INPUT     the lines that the command prints; the status is the exit status
    root_model.py random SEED              an input, often with a line that is wrong
"""

import random
import re
import sys
from pathlib import Path

from hash_trees import node, sign

sys.path.append(str(Path(__file__).resolve().parents[2] / "examples"))

from pcfs_formats import Text

LONGEST = 262_144


class Wrong(Exception):
    """The fault of a line."""


def after(line, word):
    """What stands after the word and a space."""
    if line == word:
        raise Wrong("2 0")
    if not line.startswith(word + b" "):
        raise Wrong("1 0")
    return line[len(word) + 1 :]


def first_word(text):
    """The word in front: a space ends it, but none that stands after a quote in front and before the next quote."""
    closing = text.find(b'"', 1) if text.startswith(b'"') else 0
    if closing < 0:
        return text
    return text[:closing] + text[closing:].split(b" ", 1)[0]


def seed_of(line):
    word = after(line, b"seed")
    if first_word(word) != word:
        raise Wrong("2 0")
    if not re.fullmatch(rb"[0-9a-f]{64}", word):
        raise Wrong("1 5")
    return bytes.fromhex(word.decode())


def message_of(text):
    try:
        return b"S" + Text(text.decode("ascii")).statement()
    except (ValueError, UnicodeDecodeError, IndexError, OverflowError):
        raise Wrong("?") from None


def lines(text, height, leaf):
    """The lines, and the status."""
    given = text.split(b"\n")
    if given[-1] == b"":
        given.pop()
    if any(len(line) > LONGEST for line in given):
        return ["bad 3"], 2
    printed, seed = [], None
    try:
        for line in given or [b""]:
            if seed is None:
                seed = seed_of(line)
                printed.append(f"root {node(seed, height, 0).hex()}")
                continue
            said = after(line, b"statement")
            message = message_of(said)
            if leaf == 2**height:
                return [*printed, f"leaves {leaf}"], 18
            printed.append(f"register {sign(seed, height, leaf, message).hex()} {said.decode()}")
            leaf += 1
    except Wrong as fault:
        return [*printed, f"line {len(printed) + 1} bad {fault}"], 12
    return printed, 0


def draw_input(draw):
    """A seed and statements, and sometimes a line that is wrong."""
    seed = "".join(draw.choice("0123456789abcdef") for _ in range(64))
    given = [f"seed {seed}"]
    for number in range(draw.randrange(0, 5)):
        given.append(f"statement zoe says may(bob,#{number},read) from 0 to {draw.randrange(1000)}")
    if draw.random() < 0.4:
        wrong = ["seed", "seed 00", f"seed {seed} ", f'seed "{seed} x"', f'seed "{seed} x', f'seed "{seed}" x', f'seed x"{seed} x"', f"seed {seed[:-1]}", f"SEED {seed}", "statement", "goal zoe #1 read init(1)", "", " ", f"seed {seed.upper()}x", "statements", "register - x"]
        given.insert(draw.choice((0, draw.randrange(len(given) + 1))), draw.choice(wrong))
    text = "\n".join(given)
    return (text + "\n" if draw.random() < 0.8 else text).encode()


def main(words):
    if words[:1] == ["lines"] and len(words) == 3:
        printed, status = lines(sys.stdin.buffer.read(), int(words[1]), int(words[2]))
        for line in printed:
            print(line)
        return status
    if words[:1] == ["random"] and len(words) == 2:
        sys.stdout.buffer.write(draw_input(random.Random(int(words[1]))))
        return 0
    print(__doc__.strip(), file=sys.stderr)
    return 2


if __name__ == "__main__":
    sys.exit(main(sys.argv[1:]))
