#!/usr/bin/env python3
"""Random scripts, stores, sessions and damaged areas, with withdrawals, and with grants that name statements beside those of earlier
programs, which name none; compared with the plain model. One process has the model.

usage: versions.py PROGRAM [LINES [AREAS [SEED]]], by default 20,000 lines and 100 areas by seed 1

Each round draws lines, which the model answers, and then the program, in one of four ways:

- a script in memory;
- scripts over a new store, which is opened for each. After each of them both areas have the bytes that the model makes (behind the
  end of a shorter area anything may stand), and most often an audit reports what the model does;
- the same over an area as earlier programs left it: its grants name nothing, maybe something was withdrawn, and its image has no
  version or is of version 2;
- sessions of three users over such a store, whose lines come one after another; then an audit.

Then areas are damaged, whose records and images have grants of both kinds, and of which half have an image without a version; an opening
finds what the model finds. It ends with the counts, also if it is told to by SIGTERM, and with status 1 if anything differs, of which it
shows the first twenty.
"""
import os
import random
import re
import shutil
import signal
import sys
import tempfile
import time
from collections import Counter
from contextlib import suppress
from itertools import islice
from pathlib import Path

TESTS = Path(__file__).resolve().parent
sys.path[:0] = [str(TESTS / "model"), str(TESTS / "hostile"), str(TESTS.parent / "examples")]

import switches

switches.switch_names_on()

from areas import fresh, generation
from damage import Damages, area_of, try_damage
from history import Reader
from images import VERSION, counted, node_bytes, withdrawn_in_order
from pcfs_audit_model import Recorder
from pcfs_formats import sign_login, sign_statement
from pcfs_model import DrawnWithdrawals, Reply, grant_bytes, tag_of
from serving import AREAS, Running, Store
from talking import GREETING, connected

USERS = ("alice", "bob", "admin")
KEYS = {who: f"the key of {who}".encode() for who in (*USERS, "hr", "loc")}
SECRETS = "seal 6f6e65206b657920666f7220746865207365616c\n" + "".join(f"key {who} {key.hex()}\n" for who, key in KEYS.items())
COUNT = 2000  # lines of a round after its policy
SHOWN = 20  # differences


class Kept(Recorder):
    """The model, which keeps what it needs for areas and audits."""

    def __init__(self, makes_areas):
        super().__init__(SECRETS)
        self.makes_areas, self.in_session, self.is_earlier, self.reply = makes_areas, False, False, None
        self.said, self.granted = [], []  # what an image has of each statement and issue
        self.areas, self.current, self.generation, self.image, self.first = [b"", b""], 0, 1, fresh(), 0
        self.unissued = []  # the operations after the image under a grant that was never issued

    def answer(self, line):
        self.reply = super().answer(line)
        return self.reply

    def register(self, given, text):
        before, reply = len(self.events), super().register(given, text)
        self.said += [payload[1:] for payload in self.events[before:]]
        return reply

    def verify(self, *words):
        reply = super().verify(*words)
        self.granted.append(self.events[-1][1:])
        return reply

    def procap(self, number):
        if self.in_session and number <= len(self.issues) and self.issues[number - 1].who != self.caller:
            raise Reply(f"absent {number}")
        return super().procap(number)

    def do(self, operation, words):
        before, reply = self.count, super().do(operation, words)
        if self.count > before:
            grants = [self.issues[one - 1] if isinstance(one, int) else one[0] for one in words if isinstance(one, tuple)]
            if any(grant_bytes(grant) not in self.bearers for grant in grants):
                self.unissued.append(self.count)
        return reply

    def image_now(self):
        head = self.moment.to_bytes(8, "big", signed=True) + self.count.to_bytes(8, "big") + self.next.to_bytes(8, "big")
        nodes = counted([node_bytes(number, node) for number, node in sorted(self.nodes.items())])
        return VERSION + head + counted(self.said) + counted(self.granted) + nodes + counted([one.to_bytes(4, "big") for one in withdrawn_in_order(self)])

    def begin(self, image):
        """From here on events follow this image."""
        self.image, self.first, self.unissued = image, len(self.events), []

    def checkpoint(self):
        """Nothing, of an earlier program."""
        if self.is_earlier:
            return "ok checkpoint"
        if self.makes_areas:
            self.areas = self.areas_now()
            self.current, self.generation = 1 - self.current, self.generation + 1
        self.begin(self.image_now() if self.makes_areas else b"")
        return "ok checkpoint"

    def area(self):
        return area_of(self.generation, self.image, b"".join(b"\x01" + len(one).to_bytes(4, "big") + one for one in self.events[self.first :]))

    def areas_now(self):
        return [self.area() if place == self.current else area for place, area in enumerate(self.areas)]

    def report(self):
        """What an audit writes, and its status."""
        first = f"events {self.count} statements {len(self.statements)} issues {len(self.issues)} unissued {len(self.unissued)}"
        return "".join(f"{row}\n" for row in [first, *(f"unissued {one}" for one in self.unissued)]).encode(), 11 if self.unissued else 0

    def opened_anew(self):
        """Who begins a script."""
        self.clock, self.caller = 0, "admin"


class Told(DrawnWithdrawals):
    """Draws lines, and keeps each with the reply that the model gives."""

    def __init__(self, seed, makes_areas=False):
        super().__init__(seed, SECRETS)
        self.server, self.told, self.users = Kept(makes_areas), [], None

    def count_of_others(self):
        return self.draw.choice([20, 62, 66]) if self.draw.random() < 0.03 else super().count_of_others()

    def tell(self, line):
        if self.users is not None:
            return self.say(line)
        super().tell(line)
        self.told.append((line, self.server.reply))
        return line

    def taken(self):
        """The lines since the last time, with their replies."""
        told, self.told = self.told, []
        return told

    # -- in sessions

    def line_broken(self):
        return self.operation() if self.users else super().line_broken()

    def say(self, line):
        """Says a line in the session of the caller, if sessions have such lines; `as` is another session."""
        word, _, rest = line.partition(" ")
        if word == "as" and rest in self.users:
            self.server.caller = rest
        said = None if word in ("as", "at", "check") else self.in_session(line)
        if said is not None:
            self.server.clock = int(time.time())
            super().tell(said)
            found = self.users["admin" if said == "checkpoint" else self.server.caller].ask(said)
            self.told.append((said, self.server.reply, found))
        return line

    def in_session(self, line):
        """The line as a session has it, with signatures and with the bytes of procaps; none if some procap is not there."""
        words = line.split(" ")
        if line.startswith("register - "):
            text = line[len("register - ") :]
            return f"register {sign_statement(KEYS[text.split(' ')[0]], text).hex()} {text}"
        if words[0] == "withdraw" and words[-1] == "-":
            is_there = re.fullmatch("[1-9][0-9]*", words[1]) and int(words[1]) <= len(self.texts)
            words[-1] = self.signed(int(words[1])) if is_there else "00"
        for place, word in enumerate(words):
            if words[0] == "do" and word.startswith("@"):
                if not 1 <= int(word[1:]) <= len(self.server.issues):
                    return None
                data = grant_bytes(self.server.issues[int(word[1:]) - 1])
                words[place] = (data + tag_of(self.server.seal, data)).hex()
        return " ".join(words)


class User:
    """A session."""

    def __init__(self, port, name):
        self.connection = connected(port)
        self.replies = self.connection.makefile("rb")
        nonce = bytes.fromhex(GREETING.fullmatch(self.replies.readline()[:-1])[1].decode())
        self.welcome = self.ask(f"login {name} {sign_login(KEYS[name], name, nonce).hex()}")

    def ask(self, line):
        self.connection.sendall(line.encode("latin-1") + b"\n")
        return self.replies.readline().decode("latin-1").rstrip("\n")

    def leave(self):
        self.replies.close()
        self.connection.close()


class Comparing:
    """Counts what was compared, and shows what differs."""

    def __init__(self, program, folder, seed):
        self.store, self.seed, self.counts, self.differ = Store(program, f"{folder}/store", SECRETS), seed, Counter(), 0
        self.words = Counter()

    def fault(self, text):
        self.differ += 1
        if self.differ <= SHOWN:
            print(f"differs: {text}"[:600], flush=True)

    def same(self, what, found, wanted):
        self.counts[what] += 1
        if found != wanted:
            self.fault(f"{what}: {str(found)[:250]} and not {str(wanted)[:250]}")

    def compare(self, what, told):
        """Lines, each with its reply by the model, and the program's."""
        self.counts[what] += len(told)
        for number, (line, wanted, found) in enumerate(told):
            self.words[wanted.split(" ")[0]] += 1
            if found != wanted and not (wanted == "?" and found.startswith("bad 4")):
                self.fault(f"{what}, line {number} {line[:160]!r}: {found[:160]!r} and not {wanted[:160]!r}")
                return

    def script(self, what, told, *more):
        """Has the program answer these lines."""
        written, status = self.store.run("script", *more, given="".join(f"{line}\n" for line, _ in told).encode("latin-1"), patience=3600)
        replies = written.decode("latin-1").split("\n")[:-1]
        self.compare(what, [(*pair, reply) for pair, reply in zip(told, [*replies, *[""] * len(told)])])
        if (len(replies), status) != (len(told), 0):
            self.fault(f"{what}: {len(replies)} replies to {len(told)} lines, and status {status}")

    def in_memory(self, seed):
        told = Told(seed)
        for _ in told.lines(COUNT):
            pass
        self.script("lines of scripts", told.taken())

    def earlier(self, told, lines, draw):
        """Draws the first lines as an earlier program answers them, and puts its area: grants name nothing, and the image, which is
        new, after the policy or later, has no version if nothing is withdrawn, or is of version 2."""
        server, switches.names = told.server, draw.random() < 0.1
        server.is_earlier = True
        server.generation, server.current = draw.choice([1, 1, 2, 900]), draw.randrange(2)
        has_version = draw.random() < 0.2
        server.begin(server.image_now() if has_version else server.image_now()[1:-4])
        next(line for line in lines if line == "as alice")
        if draw.random() < 0.7:
            for _ in islice(lines, draw.choice([0, draw.randrange(20), draw.randrange(300)])):
                pass
            image = server.image_now()
            server.begin(image if server.withdrawn or has_version else image[1:-4])
        self.counts["areas without a version"] += server.image[:1] != VERSION
        for _ in islice(lines, draw.randrange(400)):
            pass
        switches.names, server.is_earlier = True, False
        told.taken()
        server.opened_anew()
        server.areas = server.areas_now()
        self.store.put(*server.areas)

    def audit(self, server):
        self.same("audits", self.store.run("audit"), server.report())

    def stored(self, seed, is_old):
        draw, told = random.Random(seed), Told(seed, True)
        lines, server = told.lines(COUNT), told.server
        what = "lines over areas of earlier programs" if is_old else "lines over new stores"
        self.store.put(b"")
        if is_old:
            self.earlier(told, lines, draw)
            self.audit(server)
        else:
            self.same("new stores", self.store.run("init"), (b"ok\n", 0))
        while True:
            for _ in islice(lines, draw.choice([1, 10, draw.randrange(1, 1000), COUNT])):
                pass
            if not told.told:
                return
            self.script(what, told.taken(), "--stored")
            for name, area in zip(AREAS, server.areas_now()):
                found = self.store.area(name)
                self.same("areas, byte by byte", found[: len(area)] if area else found, area)
            if draw.random() < 0.7:
                self.audit(server)
            server.opened_anew()

    def sessions(self, seed):
        draw, told = random.Random(seed), Told(seed, True)
        lines, server = told.lines(COUNT), told.server
        self.store.put(b"")
        self.earlier(told, lines, draw)
        server.makes_areas, server.in_session = False, True
        running = Running(self.store, len(USERS))
        told.users = {name: User(running.port, name) for name in USERS}
        self.same("logins", [user.welcome for user in told.users.values()], ["ok"] * len(USERS))
        for _ in lines:
            pass
        for user in told.users.values():
            user.leave()
        self.compare("lines of sessions", told.taken())
        self.same("servers", running.ended(), (f"served {len(USERS)}\n".encode(), 0))
        self.audit(server)

    def lines(self):
        return sum(count for what, count in self.counts.items() if what.startswith("lines"))

    def rounds(self, most):
        """Rounds until there were so many lines."""
        number = self.seed * 1_000_000
        while self.lines() < most and self.differ < SHOWN:
            number += 1
            kind = number % 10
            if kind < 4:
                self.in_memory(number)
            elif kind < 9:
                self.stored(number, kind >= 6)
            else:
                self.sessions(number)
            if number % 50 == 0:
                print(f"{self.lines()} lines, {self.differ} differ", flush=True)

    def damages(self, most):
        """Damages so many areas, of a history whose grants name nothing at first."""
        kinds, found = Counter(), Counter()
        with suppress(KeyboardInterrupt):
            for number in range(most):
                if number % 100 == 0:
                    damages = self.damages_of(self.seed + number)
                kind, what, fault = try_damage(self.store, damages.draw, damages, damages.reader)
                kinds[kind] += 1
                found[what] += 1
                self.counts["damaged areas"] += 1
                if fault:
                    self.fault(fault)
                    kept = tempfile.mkdtemp()
                    shutil.copytree(self.store.folder, kept, dirs_exist_ok=True)
                    print(f"kept: {kept}")
        print("damaged areas:", ", ".join(f"{kind} {count}" for kind, count in sorted(kinds.items())))
        print("what was found:", ", ".join(f"{what} {count}" for what, count in sorted(found.items())))

    def damages_of(self, seed):
        draw, told = random.Random(seed), Told(seed)
        switches.names = False
        lines = told.lines(900)
        for _ in islice(lines, draw.randrange(300, 1100)):
            pass
        switches.names = True
        for _ in lines:
            pass
        told.server.image = fresh()
        told.server.first = 0
        return OfBoth(draw, told.server.area(), SECRETS, Reader(told.server.seal))


class OfBoth(Damages):
    """Damages of areas of which half have an image without a version, if nothing is withdrawn in it."""

    def whole(self):
        area, ends = super().whole()
        image = area[24 : ends[0]]
        if image[-4:] == bytes(4) and self.draw.random() < 0.5:
            return area_of(generation(area), image[1:-4], area[ends[0] : -1]), [end - 5 for end in ends]
        return area, ends


def main():
    if not 2 <= len(sys.argv) <= 5:
        sys.exit(__doc__)
    sys.setrecursionlimit(20_000)  # proofs may be deep
    lines, areas, seed = given(sys.argv[2:])
    begun = time.time()
    with tempfile.TemporaryDirectory() as folder:
        comparing = Comparing(os.path.realpath(sys.argv[1]), folder, seed)
        signal.signal(signal.SIGTERM, signal.default_int_handler)
        with suppress(KeyboardInterrupt):
            comparing.rounds(lines)
            comparing.damages(areas)
    for what, count in sorted(comparing.counts.items()):
        print(f"{count} {what}")
    print("replies:", ", ".join(f"{word} {count}" for word, count in comparing.words.most_common()))
    print(f"{comparing.lines()} lines and {comparing.counts['damaged areas']} damaged areas compared, {comparing.differ} differ; {time.time() - begun:.0f} s")
    return 1 if comparing.differ else 0


def given(words):
    """The numbers of lines and of areas, and the seed."""
    usual = ["20000", "100", "1"]
    return [int(word) for word in [*words, *usual[len(words) :]]]


if __name__ == "__main__":
    sys.exit(main())
