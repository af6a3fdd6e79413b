"""Checkpoints in the middle of sessions: one who says `checkpoint` as admin, and the areas that counted one after another."""
import os
import shutil
import threading
import time

from areas import begin_of, bytes_of
from said import SHARED, login, registration
from serving import Store
from talking import Session, Unanswered

AT_ONCE = 4  # who say it together, once nobody else says anything
EACH = 5


class Generations:
    """The areas of a store that counted one after another. A checkpoint overwrites the one before the last, so whoever has made one
    takes it before the next."""

    def __init__(self, store):
        self.store, self.folder, self.until = store, f"{store.folder}.areas", None
        shutil.rmtree(self.folder, ignore_errors=True)
        os.makedirs(self.folder)

    def last(self):
        """The generation of the area that counts, 0 if none does."""
        return max(self.store.heads(), default=0)

    def keep(self, number):
        """Keeps the area of this generation as it is."""
        shutil.copyfile(f"{self.store.folder}/{self.store.heads()[number]}", self.path(number))

    def take(self):
        """Keeps the area that counted before the one that counts now: nothing is written to it any more."""
        if self.last() - 1 in self.store.heads():
            self.keep(self.last() - 1)

    def path(self, number):
        return f"{self.folder}/{number}"

    def all(self):
        """The areas in their order, up to the last with events."""
        for number in range(1, 1 + (self.until or self.last())):
            yield self.area(number)

    def area(self, number):
        return self.store.newest() if number == self.last() else bytes_of(self.path(number))

    def memory(self):
        """How many KiB of memory an opening of the last image takes, and more than that the records of all areas, and the largest image
        with a copy of its nodes."""
        store = Store(self.store.program, f"{self.store.folder}.opened", self.store.secrets)
        alone = records = largest = 0
        for area in self.all():
            begin = begin_of(area)
            alone = store.memory_of(area[:begin] + b"\0")
            records += store.memory_of(area) - alone
            largest = max(largest, begin)
        return alone + records + 2 * largest // 1024


class Operator(threading.Thread):
    """One who says `checkpoint` after each of these pauses, and other lines with it. Nobody else says it as admin at that time."""

    def __init__(self, port, draw, generations, pauses, patience=60):
        super().__init__()
        self.port, self.draw, self.generations, self.pauses, self.patience = port, draw, generations, pauses, patience
        self.logs, self.faults = [], []

    def run(self):
        try:
            session = Session(self.port, self.patience)
            session.log.generation = self.generations.last()
            self.logs.append(session.log)
            self.speak(session)
        except (OSError, Unanswered) as fault:
            self.faults.append(f"who makes checkpoints: {fault!r}")

    def speak(self, session):
        session.ask(b"checkpoint")
        session.ask(login("admin", session.nonce).encode())
        for pause in self.pauses:
            time.sleep(pause)
            for lines in self.around(session):
                self.say(session, lines)
        session.leave(b"checkpoint" if self.draw.random() < 0.5 else b"")
        self.generations.take()

    def say(self, session, lines):
        """Says some lines at once or in pieces, of which one asks for a checkpoint at most, and keeps what the next would overwrite."""
        size = sum(map(len, lines)) + len(lines)
        session.say(lines, sorted(self.draw.randrange(size) for _ in range(self.draw.choice([0, 0, 1, 3]))))
        replies = [session.told() for _ in lines]
        if b"ok checkpoint" in replies:
            self.generations.take()

    def mark(self):
        """The registration of one statement more."""
        return registration(f"admin says marked_{self.draw.getrandbits(60)} from 0 to +inf").encode()

    def around(self, session):
        """What is said at once, and then."""
        kind = self.draw.randrange(6)
        if kind == 0:
            return [[self.mark(), b"checkpoint", self.mark()]]
        if kind == 1:
            return [[b"checkpoint x", b"checkpoint ", b"checkpoint", b"procap 1"]]
        if kind == 2:
            return [[b"checkpoint"], [b"checkpoint"]]
        if kind == 3:
            other, mine = login(SHARED, session.nonce).encode(), login("admin", session.nonce).encode()
            return [[other, b"checkpoint", b"checkpoint x"], [mine, b"checkpoint"]]
        if kind == 4:
            return [[login("admin", bytes(16)).encode(), b"checkpoint"]]
        return [[b"checkpoint"]]


def all_at_once(port, generations):
    """Some say it at once, again and again, while nobody else says anything: the one reply to all of them. What counted before is
    kept as the last: nothing happens any more."""
    before = generations.last()
    generations.keep(before)
    generations.until = before
    sessions = [Session(port) for _ in range(AT_ONCE)]
    for session in sessions:
        session.ask(login("admin", session.nonce).encode())
        session.say([b"checkpoint"] * EACH)
    for session in sessions:
        session.leave()
    replies = [reply for session in sessions for reply, *_ in session.log.replies[1:]]
    if len(set(replies)) > 1 or generations.last() != before + replies.count(b"ok checkpoint"):
        raise Unanswered(f"checkpoints at once lead from generation {before} to {generations.last()}, and are told {replies}")
    return replies[0]
