#!/usr/bin/env python3
"""Runs two stores, a leader and a follower, with a link between them that drops, repeats and reorders messages at random, ends in
the middle of one, and carries wrong ones; and kills the follower at random. After each run it compares what `follow` wrote with what
a plain list of numbers says, and what the follower has with what the leader exported: each event of the follower is that of the
leader under its number, everything that was told is there, and at most one event more. Both make checkpoints now and then. At the
end the follower catches up, has all that the leader has, is audited as the leader is, and takes the leader's place.

usage: follower.py [PROGRAM [RUNS [SEED]]], by default crates/pcfs/out/pcfs, 200 and 1
"""
import os
import random
import shutil
import signal
import subprocess
import sys
import tempfile
import time
from collections import Counter

HERE = os.path.dirname(os.path.realpath(__file__))
sys.path[:0] = [f"{HERE}/hostile", f"{HERE}/model", f"{HERE}/../examples"]
from areas import bytes_of, image_in, newest  # noqa: E402

MODEL = f"{HERE}/model/pcfs_model.py"
FIRST = b"\x52"
POLICY = ["at 100", "register - admin says may(alice,#1,write) from 0 to 2000", "verify alice #1 write 1 saysR(claim(0,init(1)))", "as alice"]


def messages_in(stream):
    """The messages of an export: number, payload."""
    place, found = 0, []
    while place < len(stream):
        if stream[place : place + 1] != FIRST:
            sys.exit(f"an export has no message at {place}")
        number, size = int.from_bytes(stream[place + 1 : place + 9], "big"), int.from_bytes(stream[place + 9 : place + 13], "big")
        payload = stream[place + 13 : place + 13 + size]
        if len(payload) != size:
            sys.exit(f"an export ends within the message at {place}")
        found.append((number, payload))
        place += 13 + size
    return found


def message(number, payload):
    return FIRST + number.to_bytes(8, "big") + len(payload).to_bytes(4, "big") + payload


class Store:
    """A store in a folder of its own."""

    def __init__(self, program, folder, secrets):
        self.program, self.folder, self.base = program, folder, 0
        os.mkdir(folder)
        shutil.copy(secrets, f"{folder}/pcfs.secrets")
        self.run("init")

    def run(self, *words, given=b"", wanted=(0,)):
        """The output of a command, whose status has to be one of these."""
        ran = subprocess.run([self.program, *words], cwd=self.folder, input=given, stdout=subprocess.PIPE, stderr=subprocess.PIPE)
        if ran.returncode not in wanted:
            sys.exit(f"{' '.join(words)} in {self.folder}: status {ran.returncode}, {ran.stdout[-300:]!r} {ran.stderr[-300:]!r}")
        return ran.stdout

    def script(self, lines):
        return self.run("script", "--stored", given="".join(f"{line}\n" for line in lines).encode()).decode().splitlines()

    def export(self, number):
        return messages_in(self.run("export", str(number)))

    def checkpoint(self, count):
        """Puts all events into the image; none of them can be exported any more."""
        if self.run("checkpoint", wanted=(0, 14)) == b"full\n":
            return
        self.base = count
        for number in {1, count} - {0}:
            told = self.run("export", str(number), wanted=(17,))
            if told != f"gone {count}\n".encode():
                sys.exit(f"export {number} after a checkpoint of {count} events: {told!r}")


class Plain:
    """What a follower answers, from the number of its last event alone."""

    def __init__(self, count):
        self.count = count

    def answer(self, number, is_whole):
        if number <= self.count:
            return f"known {number}"
        if self.count + 1 < number:
            return f"missing {self.count + 1}"
        if not is_whole:
            return f"damaged {number} 2"
        self.count += 1
        return f"kept {number}"


class Trial:
    def __init__(self, program, work, secrets, seed):
        self.draw = random.Random(seed)
        self.leader = Store(program, f"{work}/leader", secrets)
        self.follower = Store(program, f"{work}/follower", secrets)
        self.secrets, self.lines, self.sent = secrets, [], {}
        self.kept = 0
        self.seen = Counter()
        self.leader.script(POLICY)
        self.collect()

    def collect(self):
        """All that the leader has since its base."""
        for number, payload in self.leader.export(self.leader.base + 1):
            if self.sent.setdefault(number, payload) != payload:
                sys.exit(f"event {number} was exported once more, and is another")

    def lead(self, turn):
        """The leader answers some random lines."""
        count = self.draw.choice((0, 1, 3, 10, 40))
        drawn = subprocess.run([sys.executable, MODEL, "random", str(self.draw.randrange(10**6)), str(count), self.secrets], stdout=subprocess.PIPE, check=True)
        lines = [line for line in drawn.stdout.decode().splitlines() if line != "checkpoint"]  # what it has before is exported first
        self.leader.script([*POLICY[:1], *lines, *POLICY[3:], f"do create #1 n{turn} @1"])
        self.collect()
        if self.draw.random() < 0.05:
            self.leader.checkpoint(max(self.sent))

    def delivered(self):
        """What the link delivers: number, payload, whether the payload is whole."""
        near = range(max(1, self.kept - 3), min(max(self.sent), self.kept + self.draw.choice((2, 5, 30, 200))) + 1)
        lost = self.draw.choice((0, 0, 0.01, 0.1))
        chosen = [number for number in near if self.draw.random() >= lost]
        chosen += [number for number in chosen if self.draw.random() < 0.2]
        chosen.sort(key=lambda number: number + (self.draw.random() * 8 if self.draw.random() < 0.2 else 0))
        found = [(number, self.sent[number], True) for number in chosen]
        if found and self.draw.random() < 0.2:
            at = self.draw.randrange(len(found))
            found.insert(at, (found[at][0], found[at][1][:-1], False))
        if self.draw.random() < 0.1:
            found.append((self.draw.choice((0, 2**48, 2**64 - 1)), b"", False))
        return found

    def stream(self, found):
        """The bytes of what is delivered, and the place of a bad frame, if there is one."""
        stream = b"".join(message(number, payload) for number, payload, _ in found)
        kind = self.draw.random()
        if kind < 0.1:
            return stream + self.draw.choice((b"\x00", b"\x53", FIRST + bytes(8) + b"\x00\x10\x00\x01")), len(stream)
        if kind < 0.2 and found:
            last = len(message(*found[-1][:2]))
            return stream[: -self.draw.randrange(1, last)], len(stream) - last
        return stream, None

    def follow(self, turn):
        found = self.delivered()
        stream, bad = self.stream(found)
        taken = found[:-1] if bad is not None and bad < len(b"".join(message(n, p) for n, p, _ in found)) else found
        plain = Plain(self.kept)
        wanted = [plain.answer(number, is_whole) for number, _, is_whole in taken]
        told = self.killed(stream) if self.draw.random() < 0.3 else None
        if told is None:
            lines = self.follower.run("follow", given=stream, wanted=(0,) if bad is None else (16,)).decode().splitlines()
            last = [] if bad is None else [f"frame {bad}"]
            if lines != wanted + last:
                sys.exit(f"turn {turn}: follow wrote {str(lines)[:600]}, and not {str(wanted + last)[:600]}")
            self.seen.update(line.split()[0] for line in lines)
            self.compare(turn, plain.count, plain.count)
        else:
            lines = [line for line in told if not line.startswith("frame")]
            if lines != wanted[: len(lines)]:
                sys.exit(f"turn {turn}: follow, killed, wrote {str(lines)[:600]}, and not {str(wanted)[:600]}")
            self.seen["killed within" if len(lines) < len(wanted) else "killed at the end"] += 1
            least = self.kept + sum(line.startswith("kept") for line in lines)
            self.compare(turn, least, min(least + 1, plain.count))

    def killed(self, stream):
        """The whole lines that `follow` wrote before it was killed."""
        path = f"{self.follower.folder}/told"
        with open(path, "wb") as out:
            child = subprocess.Popen([self.follower.program, "follow"], cwd=self.follower.folder, stdin=subprocess.PIPE, stdout=out, stderr=subprocess.DEVNULL)
            cut = self.draw.randrange(len(stream) + 1)
            try:
                child.stdin.write(stream[:cut])
                child.stdin.flush()
                time.sleep(self.draw.random() * 0.02)
                child.send_signal(signal.SIGKILL)
            except BrokenPipeError:
                pass
            child.wait()
            try:
                child.stdin.close()
            except BrokenPipeError:
                pass
        with open(path, encoding="ascii") as read:
            return read.read().split("\n")[:-1]

    def compare(self, turn, least, most):
        """The follower has the first events of the leader: from so many to so many."""
        has = self.follower.export(self.follower.base + 1)
        if [number for number, _ in has] != list(range(self.follower.base + 1, self.follower.base + 1 + len(has))):
            sys.exit(f"turn {turn}: the follower's numbers do not rise by one")
        for number, payload in has:
            if self.sent.get(number) != payload:
                sys.exit(f"turn {turn}: event {number} of the follower is not that of the leader")
        self.kept = self.follower.base + len(has)
        if not least <= self.kept <= most:
            sys.exit(f"turn {turn}: the follower has {self.kept} events, and not {least} to {most}")
        if self.draw.random() < 0.05:
            self.follower.checkpoint(self.kept)

    def end(self):
        """Catches up from the next number, compares both, and has the follower take the leader's place."""
        rest = b"".join(message(number, self.sent[number]) for number in range(self.kept + 1, max(self.sent) + 1))
        lines = self.follower.run("follow", given=rest).decode().splitlines()
        if lines != [f"kept {number}" for number in range(self.kept + 1, max(self.sent) + 1)]:
            sys.exit(f"catching up: {str(lines)[:600]}")
        self.compare("the last", max(self.sent), max(self.sent))
        self.leader.checkpoint(max(self.sent))
        self.follower.checkpoint(self.kept)
        images = [self.image(store) for store in (self.leader, self.follower)]
        if images[0] != images[1]:
            sys.exit("after a checkpoint of each the images differ")
        if self.leader.run("audit") != self.follower.run("audit"):
            sys.exit("the audits differ")
        more = [*POLICY[:1], *POLICY[3:], "do create #1 taken-over @1", "do list #1 @1"]
        if self.leader.script(more) != self.follower.script(more):
            sys.exit("in the leader's place the follower answers otherwise")

    @staticmethod
    def image(store):
        """The image with which the area begins that counts."""
        return image_in(newest(*(bytes_of(f"{store.folder}/{name}") for name in ("pcfs.a", "pcfs.b"))))


def main():
    program = os.path.realpath(sys.argv[1] if len(sys.argv) > 1 else f"{HERE}/../crates/pcfs/out/pcfs")
    runs, seed = int((sys.argv + [""] * 3)[2] or 200), int((sys.argv + [""] * 3)[3] or 1)
    with tempfile.TemporaryDirectory() as work:
        trial = Trial(program, work, os.path.realpath(f"{HERE}/../examples/pcfs.secrets"), seed)
        for turn in range(runs):
            trial.lead(turn)
            trial.follow(turn)
        trial.end()
        print(f"{runs} runs, {max(trial.sent)} events, {dict(trial.seen)}: the follower was a prefix each time, and equal at the end")


main()
