"""Runs a stored script with checkpoints in it, or the command `checkpoint`, again and again, kills it, and compares what the next
opening finds: every event whose reply was written is there, and at most one more; the area begins with the image of the last
checkpoint that was told, or of one more, and leads to the same state by the plain model.

usage: stored_kills.py PROGRAM TIMES SEED, in a folder with pcfs.secrets
"""
import os
import random
import signal
import subprocess
import sys
import time
from collections import Counter

from areas import bytes_of, generation, image_in, newest, opened
from images import count_in

POLICY = ["at 100", "register - admin says may(alice,#1,write) from 0 to 200", "verify alice #1 write 1 saysR(claim(0,init(1)))", "as alice"]
KEPT = 2  # of the lines of the policy, so many are events
ENOUGH = 4000  # events of one store
# the number of the last event, as a line tells it that is denied
PROBE = b"as bob\ndo create #1 x @1\n"


class Store:
    """A new store, and what it has to have: its events, the names that were made, its generation, and the events before its image."""

    def __init__(self, program):
        self.program, self.secrets = program, bytes_of("pcfs.secrets").decode()
        for name in ("pcfs.a", "pcfs.b"):
            if os.path.exists(name):
                os.unlink(name)
        subprocess.run([program, "init"], check=True, stdout=subprocess.DEVNULL)
        subprocess.run([program, "script", "--stored"], input="\n".join(POLICY).encode() + b"\n", check=True, stdout=subprocess.DEVNULL)
        self.events, self.names, self.generation, self.before = KEPT, set(), 1, 0

    def made(self, name):
        self.events += 1
        self.names.add(name)

    def checkpointed(self):
        self.generation += 1
        self.before = self.events

    def compare(self, turn, next_line):
        """What stands there is what was told, or that and what the line asks for that was not answered: whether it is more."""
        area = newest(bytes_of("pcfs.a"), bytes_of("pcfs.b"))
        is_more = False
        if next_line.startswith("do create") and found(self.program) == self.events + 1:
            is_more = True
            self.made(next_line.split(" ")[3])
        elif next_line == "checkpoint" and generation(area) == self.generation + 1:
            is_more = True
            self.checkpointed()
        state = opened(area, self.secrets)
        there = found(self.program), generation(area), count_in(image_in(area)), state.count, len(state.statements), len(state.issues), set(state.nodes[1].children)
        wanted = self.events, self.generation, self.before, self.events, 1, 1, self.names
        if there != wanted or len(state.nodes) != 1 + len(self.names):
            sys.exit(f"turn {turn}: {str(there)[:500]} is found, and not {str(wanted)[:500]}")
        return is_more


def found(program):
    """How many events the next opening finds."""
    run = subprocess.run([program, "script", "--stored"], input=PROBE, stdout=subprocess.PIPE)
    if run.returncode != 0:
        sys.exit(f"the store does not open: status {run.returncode}, {run.stdout!r}")
    last = run.stdout.decode().splitlines()[-1]
    if not last.startswith("denied 1 principal at "):
        sys.exit(f"no count: {last}")
    return int(last.split()[-1])


def run_and_kill(program, words, lines, after):
    """The replies that were written before the program was killed."""
    with open("lines", "w") as out:
        out.write("".join(line + "\n" for line in lines))
    with open("lines") as lines_in, open("replies", "wb") as replies:
        child = subprocess.Popen([program, *words], stdin=lines_in, stdout=replies)
        time.sleep(after)
        child.send_signal(signal.SIGKILL)
        child.wait()
    with open("replies", "rb") as replies:
        written = replies.read()
    return written[: written.rfind(b"\n") + 1].decode().splitlines(), child.returncode == -signal.SIGKILL


def seconds_of_opening(program):
    begin = time.monotonic()
    found(program)
    return time.monotonic() - begin


def script(draw, number):
    """Lines that make files, from this number on, and checkpoints."""
    often = draw.choice([0.3, 0.05, 0.02, 0])
    lines = ["at 100", "as alice"]
    for one in range(400):
        lines += ["checkpoint"] * (draw.random() < often) + [f"do create #1 n{number + one} @1"]
    return lines


def compare_after_kills(program, times, draw):
    """Kills so many runs, and says what was seen."""
    store, counts = Store(program), Counter()
    for turn in range(times):
        if store.events > ENOUGH:
            store = Store(program)
        is_command = turn % 4 == 3
        words, lines = (["checkpoint"], ["checkpoint"]) if is_command else (["script", "--stored"], script(draw, turn * 400))
        after = draw.random() * (seconds_of_opening(program) * 1.5 + (0 if is_command else 0.15))
        replies, was_killed = run_and_kill(program, words, lines, after)
        for line, reply in zip(lines, replies):
            if reply == "ok checkpoint":
                store.checkpointed()
                counts["checkpoints"] += 1
            elif reply.startswith("ok node"):
                store.made(line.split(" ")[3])
            elif reply != "ok":
                sys.exit(f"turn {turn}: {line} is told {reply}")
        next_line = lines[len(replies)] if len(replies) < len(lines) else ""
        is_more = store.compare(turn, next_line)
        counts["killed"] += was_killed
        counts["in a checkpoint"] += was_killed and next_line == "checkpoint"
        counts["events more"] += is_more and next_line != "checkpoint"
        counts["checkpoints more"] += is_more and next_line == "checkpoint"
    return counts


def main():
    program, times, seed = sys.argv[1], int(sys.argv[2]), int(sys.argv[3])
    counts = compare_after_kills(program, times, random.Random(seed))
    print(
        f"{times} runs, {counts['killed']} killed before their end, {counts['events more']} with one event more than told; {counts['checkpoints']} checkpoints told, "
        f"{counts['in a checkpoint']} killed before one was told, {counts['checkpoints more']} of which had been made"
    )


if __name__ == "__main__":
    main()
