"""Power cuts and failing syncs, tried on the built program.

    power.py PROGRAM FOLDER SECONDS SEED [KIND]     KIND is one of the wrong bodies of power.c, which has to be found

FOLDER has power.so. Runs of the program write down what they do to the areas, and from that log it is made what the areas may
be after a cut at each point. The program opens each of them.
"""
import os
import random
import shutil
import struct
import subprocess
import sys
import threading
import time
from collections import Counter

import switches
from areas import Damaged, generation, image_in, newest, records
from images import count_in
from said import login, owner_verify, root_verify, secrets_of
from serving import AREAS, free_port
from talking import Session, Unanswered

HEAD = struct.Struct("=BBxxiQQ")
FOLDER = 2
SECTOR = 512
PATIENCE = 60  # seconds
ENOUGH = 10  # faults that are shown
MARK = "pcfs.fault"
MODES = ("all", "none", "zeros", "even", "odd", "last sector", "last alone", "first alone", "ones", "random", "random too")
FEW_MODES = ("all", "none", "even", "random")
STOPPED = 5


class Fault(Exception):
    """Something that must not be."""


# ---- what a disk may leave ---------------------------------------------------------------------------------------------


class Area:
    """The file of an area: what is durable of it, and what was written since; whether its name is durable."""

    def __init__(self, durable=None, is_named=False):
        self.durable, self.is_named, self.loose, self.failed, self.name_failed = durable, is_named, [], [], False

    def pending(self):
        return self.failed + self.loose

    def now(self):
        """What a read gives; none if there is no file."""
        pending = self.pending()
        if self.durable is None and not pending:
            return None
        left = bytearray(self.durable or b"")
        for at, piece in pending:
            put(left, at, piece)
        return bytes(left)

    def sync(self):
        """All that was written since is durable, but what a sync has failed on before: nobody knows of that."""
        if self.failed:
            left = bytearray(self.durable or b"")
            for at, piece in self.loose:
                put(left, at, piece)
            self.durable = bytes(left)
        else:
            self.durable = self.now()
        self.loose = []

    def fail(self):
        self.failed, self.loose = self.failed + self.loose, []

    def left(self, mode, draw):
        """What a cut may leave of it; none if there is no file."""
        pending = self.pending()
        if self.durable is None and (not pending or (not self.is_named and mode == "none")):
            return None
        if not self.is_named and mode == "none":
            return None
        left = bytearray(self.durable or b"")
        for number, (at, piece) in enumerate(pending):
            if piece is None or len(piece) == 1:
                if is_kept(mode, number, len(pending), draw):
                    put(left, at, piece)
            else:
                tear(left, at, piece, mode, number, len(pending), draw)
        return bytes(left)


def put(left, at, piece):
    """Writes a piece, or if there is none makes the file so long."""
    if piece is None:
        del left[at:]
    left.extend(bytes(max(0, at - len(left))))
    if piece is not None:
        left[at : at + len(piece)] = piece


def is_kept(mode, number, count, draw):
    """Whether a write of one byte, or a length, is left."""
    if mode in ("random", "random too"):
        return draw.random() < 0.5
    return mode in ("all", "ones") or (mode == "odd" and number % 2 == 1) or (mode == "even" and number % 2 == 0) \
        or (mode == "last alone" and number == count - 1) or (mode == "first alone" and number == 0)


def tear(left, at, piece, mode, number, count, draw):
    """Leaves some of the bytes of a write; in the place of the others those that were there, or any."""
    end = at + len(piece)
    is_last, is_first = number == count - 1, number == 0
    if mode == "none" or (mode in ("last alone", "last sector") and not is_last) or (mode == "first alone" and not is_first):
        return
    old = (bytes(left[at:end]) + bytes(len(piece)))[: len(piece)]
    if mode in ("all", "last alone", "first alone"):
        new = piece
    elif mode == "zeros":
        new = old
    elif mode in ("even", "odd"):
        rest = 0 if mode == "even" else 1
        new = bytes(piece[k] if k % 2 == rest else old[k] for k in range(len(piece)))
    elif mode == "last sector":
        begin = max(at, (end - 1) // SECTOR * SECTOR)
        new = old[: begin - at] + piece[begin - at :]
    elif mode == "ones":
        new = b"\x01" * len(piece)
    else:
        new = bytes(draw.choice((piece[k], old[k], 1, draw.randrange(256))) for k in range(len(piece)))
    put(left, at, new)


# ---- what a log says ---------------------------------------------------------------------------------------------------


def records_of(path):
    """The records of a log: kind, area, descriptor, place, bytes."""
    with open(path, "rb") as file:
        log = file.read()
    at = 0
    while at + HEAD.size <= len(log):
        kind, area, who, place, count = HEAD.unpack_from(log, at)
        at += HEAD.size
        yield chr(kind), area, who, place, log[at : at + count]
        at += count


def standing(first, second):
    """What the newest of two areas says: its generation, image and payloads; none if neither is open."""
    area = newest(first or b"", second or b"")
    if area is None:
        return None
    return generation(area), image_in(area), tuple(payload for payload, _ in records(area))


class Telling:
    """Which of the states that a store has had are known to who was told."""

    def __init__(self):
        self.states, self.told, self.begun = [None], 0, 0
        self.places = {}  # of each kind of event, at which states they came
        self.lines, self.pieces = Counter(), {}
        self.script = []

    def add_state(self, state):
        """A gate was opened."""
        self.states.append(state)
        if not state[2]:
            kind = "made" if state[0] == 1 else "checkpoint"
        else:
            kind = {1: "statement", 2: "issue", 3: "acted", 4: "withdrawn"}.get(state[2][-1][0], "?")
        self.places.setdefault(kind, []).append(len(self.states) - 1)
        if kind == "acted" and state[2][-1][1 + 1 + state[2][-1][1]] == 6:
            self.places.setdefault("node", []).append(len(self.states) - 1)

    def expect(self, lines):
        """The lines of a script, or the words of a command, whose replies come next."""
        self.script, self.pieces = list(lines), {}

    def add_reply(self, who, piece):
        text = self.pieces.get(who, b"") + piece
        *whole, self.pieces[who] = text.split(b"\n")
        for line in whole:
            self.take(who, line)

    def take(self, who, line):
        """A reply is out."""
        asked = self.script.pop(0) if who == 1 and self.script else b""
        if not line.startswith(b"ok"):
            return
        words = line.split()
        if asked == b"init":
            self.know("made", 1)
        elif line == b"ok checkpoint":
            self.lines["checkpoint"] += 1
            self.know("checkpoint", self.lines["checkpoint"])
        elif len(words) > 2 and words[1] in (b"statement", b"issue"):
            self.know(words[1].decode(), int(words[2]))
        elif asked.startswith(b"do "):
            self.lines["acted"] += 1
            self.know("acted", self.lines["acted"])
        elif asked.startswith(b"withdraw "):
            self.lines["withdrawn"] += 1
            self.know("withdrawn", self.lines["withdrawn"])
        elif len(words) == 3 and words[1] == b"node":
            self.know("node", int(words[2][1:]) - 2)

    def know(self, kind, number):
        """Somebody was told of the event of a kind with this number; of nodes the first has the number 0."""
        places = self.places.get(kind, [])
        number -= kind != "node"
        if number >= len(places):
            self.told = len(self.states)  # it is not even begun
        else:
            self.told = max(self.told, places[number])


# ---- runs of the program -----------------------------------------------------------------------------------------------


class Trial:
    """The program with a store, its runs, and what a cut may leave of them."""

    def __init__(self, program, folder, seed, kind=""):
        self.program, self.folder, self.kind = program, folder, kind
        self.draw = random.Random(seed)
        self.secrets = secrets_of(["alice", "bob"])
        self.counts, self.faults = Counter(), []
        self.known, self.numbers = {}, 0
        self.look = f"{folder}/look"
        self.new_folder(self.look)

    def new_folder(self, folder, areas=()):
        shutil.rmtree(folder, ignore_errors=True)
        os.makedirs(folder)
        with open(f"{folder}/pcfs.secrets", "w", encoding="ascii") as file:
            file.write(self.secrets)
        for name, area in zip(AREAS, areas):
            if area is not None:
                with open(f"{folder}/{name}", "wb") as file:
                    file.write(area)

    def environment(self, folder, **more):
        more = {name: value for name, value in more.items() if value}
        if self.kind:
            more["POWER_WRONG"] = self.kind
        return dict(os.environ, LD_PRELOAD=f"{self.folder}/power.so", POWER_LOG=f"{folder}/log", **more)

    def run(self, folder, *words, given=b"", logged=True, **more):
        """What the program writes, on both streams, and its status."""
        environment = self.environment(folder, **more) if logged else None
        try:
            done = subprocess.run([self.program, *words], cwd=folder, env=environment, input=given, capture_output=True, timeout=PATIENCE, check=False)
        except subprocess.TimeoutExpired:
            raise Fault(f"{' '.join(words)} does not end") from None
        return done.stdout, done.stderr, done.returncode

    def script(self, folder, lines, **more):
        return self.run(folder, "script", "--stored", given=b"".join(line + b"\n" for line in lines), **more)

    def serve(self, folder, speakers, **more):
        """Sessions at the same time, one for each speaker."""
        port = free_port()
        environment = self.environment(folder, **more)
        with subprocess.Popen([self.program, "serve", str(port), str(len(speakers))], cwd=folder, env=environment,
                              stdin=subprocess.DEVNULL, stdout=subprocess.PIPE, stderr=subprocess.PIPE) as process:
            threads = [threading.Thread(target=speak, args=(speaker, process, port)) for speaker in speakers]
            for thread in threads:
                thread.start()
            for thread in threads:
                thread.join()
            try:
                written, said = process.communicate(timeout=PATIENCE)
            except subprocess.TimeoutExpired:
                process.kill()
                raise Fault("the server does not end") from None
        return written, said, process.returncode

    # ---- cuts ----------------------------------------------------------------------------------------------------------

    def replayed(self, folder, areas, telling, modes, lowest=0):
        """Goes through the log of a run, and tries each cut in it; `lowest` is what was told before."""
        telling.told = max(telling.told, lowest)
        path = f"{folder}/log"
        if not os.path.exists(path):
            return
        for kind, area, who, place, piece in records_of(path):
            if kind == "R":
                telling.add_reply(who, piece)
            elif kind in "WL":
                areas[area].loose.append((place, piece if kind == "W" else None))
                if kind == "W" and piece == b"\x01":
                    self.note_state(areas, telling)
            elif kind == "S" and area == FOLDER:
                for one in areas:
                    one.is_named = one.is_named or (one.now() is not None and not one.name_failed)
            elif kind == "S":
                areas[area].sync()
            elif kind == "X" and area == FOLDER:
                for one in areas:
                    one.name_failed = one.name_failed or not one.is_named
            elif kind == "X":
                areas[area].fail()
            self.cut(areas, telling, modes)
        os.unlink(path)

    def note_state(self, areas, telling):
        try:
            state = standing(*(area.now() for area in areas))
        except Damaged as damaged:
            raise Fault(f"a gate is open over what is no record: {damaged}") from None
        if state != telling.states[-1] or not telling.places:  # a remedy may make again what was begun before it
            telling.add_state(state)

    def cut(self, areas, telling, modes):
        """Each way in which a cut at this point may leave the areas."""
        seen = set()
        for mode in modes:
            left = tuple(area.left(mode, self.draw) for area in areas)
            if left not in seen:
                seen.add(left)
                self.check(left, telling, mode)

    def check(self, left, telling, mode):
        self.counts["cuts"] += 1
        found = self.found(left)
        if found not in telling.states[telling.told :]:
            place = telling.states.index(found) if found in telling.states else None
            raise Fault(f"a cut that leaves {mode} finds {told_of(found, place)}, and state {telling.told} of {len(telling.states) - 1} was told")

    def found(self, left):
        """The state that the areas say, after the program was heard to open them with just that."""
        key = tuple(None if one is None else hash(one) for one in left)
        if key in self.known:
            return self.known[key]
        self.counts["openings"] += 1
        for name, area in zip(AREAS, left):
            path = f"{self.look}/{name}"
            if area is None:
                if os.path.exists(path):
                    os.unlink(path)
            else:
                with open(path, "wb") as file:
                    file.write(area)
        written, said, status = self.run(self.look, "audit", logged=False)
        try:
            state = standing(*left)
        except Damaged as damaged:
            state = f"damaged: {damaged}"
        if state is None:
            wanted = (b"nostore\n", 4)
        elif isinstance(state, str):
            wanted = (state[len("damaged: ") :].encode() + b"\n", 3)
        else:
            wanted = (b"events %d " % (count_in(state[1]) + len(state[2])), 0)
            written = written[: written.index(b"statements")] if written.endswith(b" unissued 0\n") else written
        if (written, status) != wanted:
            raise Fault(f"an audit writes {written!r} and ends with {status} after {said!r}, and not as {wanted}")
        if self.counts["openings"] % 50 == 0 and isinstance(state, tuple):
            self.goes_on(state)
        self.known[key] = state
        return state

    def goes_on(self, state):
        """A store that was opened takes one event more."""
        self.counts["gone on"] += 1
        line = b"register - admin says p%d from 0 to 1" % self.counts["gone on"]
        written, said, status = self.run(self.look, "script", "--stored", given=line + b"\n", logged=False)
        after = [bytes_or_none(f"{self.look}/{name}") for name in AREAS]
        if status or not written.startswith(b"ok statement ") or standing(*after)[2][:-1] != state[2]:
            raise Fault(f"a store that was opened after a cut does not go on: {written!r}, {status}, {said!r}")

    # ---- parts ---------------------------------------------------------------------------------------------------------

    def fresh(self):
        self.numbers += 1
        folder = f"{self.folder}/run"
        self.new_folder(folder)
        self.known.clear()
        return folder, [Area(), Area()], Telling()

    def work(self, size):
        """What is done to a store, as steps: each a command, lines, or speakers."""
        draw, steps = self.draw, [("init",)]
        files, at, taken = 0, 100, 0
        lines = [b"at 100", *(b"register - " + text.encode() for text in STATEMENTS), *(root_verify(who, "write").encode() for who in ("alice", "bob"))]
        lines += [b"as alice"]
        for _ in range(size):
            if switches.withdrawals and draw.random() < 0.15:
                taken += 1
                lines += [b"register - admin says taken%d from 0 to 1" % taken, b"withdraw %d -" % (len(STATEMENTS) + taken)]
            kind = draw.randrange(8)
            if kind < 4 or files == 0:
                lines.append(b"do create #1 f%d @1" % (self.numbers * 1000 + files))
                files += 1
                if files == 1:
                    lines.append(owner_verify("alice", 2, "write", 2).encode())
            elif kind < 6:
                length = draw.choice((1, 3, 40, 300, 511, 513, 2000))
                lines.append(b"do write #2 %d %s @3" % (draw.randrange(900), draw.randbytes(length).hex().encode()))
            elif kind == 6:
                at += draw.randrange(5)
                lines.append(b"at %d" % at)
            elif draw.randrange(3) == 0:
                lines.append(b"checkpoint")
            else:
                lines.append(b"do truncate #2 %d @3" % draw.randrange(900))
        half = len(lines) // 2 + 4
        steps += [("script", lines[:half]), ("checkpoint",), ("script", [b"at %d" % at, b"as alice", *lines[half:]])]
        return steps

    def sessions(self):
        base = self.numbers * 1000 + 500

        def user(name, first, issue):
            def speak_as(session):
                session.ask(login(name, session.nonce).encode())
                procap = session.ask(b"procap %d" % issue)
                for number in range(6):
                    session.ask(b"do create #1 %s%d %s" % (name.encode(), first + number, procap[10:]))
                session.leave()

            return speak_as

        def admin(session):
            session.ask(login("admin", session.nonce).encode())
            for _ in range(2):
                session.ask(b"checkpoint")
            session.leave()

        return [user("alice", base, 1), user("bob", base + 50, 2), admin]

    def cuts(self, size, modes):
        """Scripts, checkpoints and sessions over one store, with a cut at each point."""
        folder, areas, telling = self.fresh()
        for step in self.work(size):
            telling.expect([step[0].encode()] if len(step) == 1 else step[1])
            written, said, status = self.run(folder, step[0]) if len(step) == 1 else self.script(folder, step[1])
            if status or b"denied" in written or b"bad" in written:
                raise Fault(f"{step[0]} writes {written[-300:]!r} and ends with {status}: {said!r}")
            self.replayed(folder, areas, telling, modes)
            if len(step) == 1 or step[0] == "script":
                self.alone(telling)
        telling.expect([])
        written, said, status = self.serve(folder, self.sessions())
        if (written, status) != (b"served 3\n", 0):
            raise Fault(f"serve writes {written!r} and ends with {status}: {said!r}")
        self.replayed(folder, areas, telling, modes)
        self.alone(telling)
        if tuple(area.now() for area in areas) != tuple(bytes_or_none(f"{folder}/{name}") for name in AREAS):
            raise Fault("the log is not what was done to the areas")
        self.counts["stores"] += 1
        self.counts["states"] += len(telling.states) - 1

    def alone(self, telling):
        """All that was begun was told, once a run has ended."""
        if telling.told != len(telling.states) - 1:
            raise Fault(f"{len(telling.states) - 1} states were begun, and {telling.told} told")

    # ---- syncs that fail -----------------------------------------------------------------------------------------------

    def count_syncs(self, size):
        """The steps of a store, and how many syncs each makes."""
        folder, _, _ = self.fresh()
        steps, syncs = self.work(size), []
        steps.append(("serve", self.sessions()))
        for step in steps:
            self.do(folder, step)
            syncs.append(sum(1 for kind, *_ in records_of(f"{folder}/log") if kind == "S"))
            os.unlink(f"{folder}/log")
        return steps, syncs

    def do(self, folder, step, **more):
        if len(step) == 1:
            return self.run(folder, step[0], **more)
        return self.script(folder, step[1], **more) if step[0] == "script" else self.serve(folder, step[1], **more)

    def one_sync(self, steps, place, number, is_lasting, modes):
        """The sync of this number in one step fails. Then nothing told is lost, whatever the device has of what it was for, and
        however the remedy is cut."""
        folder, areas, telling = self.fresh()
        for one, step in enumerate(steps[: place + 1]):
            telling.expect([step[0].encode()] if len(step) == 1 else step[1] if step[0] == "script" else [])
            fail = f"{number}{'+' * is_lasting}" if one == place else ""
            written, said, status = self.do(folder, step, POWER_FAIL=fail)
            has_failed = any(kind == "X" for kind, *_ in records_of(f"{folder}/log")) if fail else False
            self.replayed(folder, areas, telling, modes if one == place else ())
        if not has_failed:
            return  # sessions made fewer syncs this time
        self.counts["failed syncs"] += 1
        if status != STOPPED or not written.endswith(b"stopped\n") or b"pcfs." not in said or b"Input/output error" not in said:
            raise Fault(f"sync {number} of {step[0]} fails, and it writes {written[-100:]!r}, ends with {status}, and says {said!r}")
        if not os.path.exists(f"{folder}/{MARK}"):
            raise Fault(f"sync {number} of {step[0]} fails, and there is no mark")
        self.refused(folder)
        lowest = telling.told
        for mode in modes:
            self.remedied(folder, areas, telling, lowest, mode, modes)

    def refused(self, folder):
        for words in (("audit",), ("script", "--stored"), ("serve", str(free_port()), "1")):
            written, said, status = self.run(folder, *words, logged=False)
            if (written, status) != (b"stopped\n", STOPPED) or b"pcfs checkpoint" not in said:
                raise Fault(f"after a failed sync {words} writes {written!r}, ends with {status}, and says {said!r}")

    def remedied(self, folder, areas, telling, lowest, mode, modes):
        """The device has kept this of what the sync was for. After the remedy the store goes on with all that was told."""
        left = tuple(area.left(mode, self.draw) for area in areas)
        state = standing(*left)
        there, device = f"{self.folder}/remedy", f"{self.folder}/device"
        stood = [bytes_or_none(f"{folder}/{name}") for name in AREAS]
        self.new_folder(there, stood)
        self.new_folder(device, [area if area is not None else b"" for area in left])
        shutil.copy(f"{folder}/{MARK}", f"{there}/{MARK}")
        after = [Area(b"" if one is None and was is not None else one, one is not None) for one, was in zip(left, stood)]
        again = Telling()
        again.states = list(telling.states)
        again.told = lowest
        words = "checkpoint" if state else "init"
        again.expect([words.encode()])
        written, said, status = self.run(there, words, POWER_DROP=device)
        if status or os.path.exists(f"{there}/{MARK}"):
            raise Fault(f"after a failed sync that left {mode}, {words} writes {written!r}, ends with {status}, and says {said!r}")
        self.replayed(there, after, again, FEW_MODES, lowest)
        if state is None and lowest > 0:
            raise Fault(f"after a failed sync that left {mode} nothing is there")
        self.counts["remedies"] += 1
        written, said, status = self.run(there, "audit", logged=False)
        if status:
            raise Fault(f"after the remedy an audit writes {written!r}, and ends with {status}")

    def syncs(self, size, until, modes):
        steps, syncs = self.count_syncs(size)
        cases = [(place, number, is_lasting) for place, count in enumerate(syncs) for number in range(1, count + 1) for is_lasting in (False, True)]
        self.draw.shuffle(cases)
        for number, case in enumerate(cases):
            if time.monotonic() > until:
                return f"{number} of {len(cases)} cases of failing syncs"
            self.one_sync(steps, *case, modes)
        return f"all {len(cases)} cases of failing syncs"


STATEMENTS = (
    "admin says forall K:principal. may(K,#1,write) from 0 to +inf",
    "admin says forall F:file. forall K:principal. owner(F,K) => may(K,F,write) from 0 to +inf",
)


def told_of(found, place):
    if isinstance(found, tuple):
        return f"state {place}, of generation {found[0]} with {len(found[2])} events"
    return str(found or "no store")


def bytes_or_none(path):
    try:
        with open(path, "rb") as file:
            return file.read()
    except FileNotFoundError:
        return None


def speak(speaker, process, port):
    """A session, as far as the server goes along."""
    until = time.monotonic() + PATIENCE
    while process.poll() is None and time.monotonic() < until:
        try:
            session = Session(port, 10)
        except (OSError, Unanswered):
            time.sleep(0.01)
            continue
        session.connection.settimeout(PATIENCE)
        try:
            speaker(session)
        except (OSError, Unanswered):
            session.connection.close()
        return


def main(program, folder, seconds, seed, kind=""):
    begin = time.monotonic()
    end = begin + float(seconds)
    trial = Trial(program, folder, seed, kind)
    syncs = ""
    try:
        trial.cuts(6, MODES)
        syncs = trial.syncs(5, begin + 0.5 * float(seconds), FEW_MODES[:3] if float(seconds) < 200 else FEW_MODES)
        while time.monotonic() < end:
            trial.cuts(trial.draw.choice((10, 20, 40)), MODES)
    except Fault as fault:
        print(f"FAULT {fault}")
        trial.faults.append(fault)
    counts = trial.counts
    print(
        f"{counts['cuts']} cuts of {counts['stores']} stores with {counts['states']} states, {counts['openings']} openings, "
        f"{counts['gone on']} went on, {syncs}, {counts['remedies']} remedies, {len(trial.faults)} faults, "
        f"{time.monotonic() - begin:.0f} seconds"
    )
    return 1 if trial.faults else 0


if __name__ == "__main__":
    sys.exit(main(*switches.taken(sys.argv[1:])))
