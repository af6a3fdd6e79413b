"""Random clients of one server: threads in a few processes, each with one session after another."""
import gc
import multiprocessing
import os
import pickle
import random
import threading
import time
from dataclasses import dataclass

from lines import LONGEST
from said import Board, Speaker
from several import PROCESSES
from talking import Session, Unanswered, moment, spoken_of


@dataclass
class Plan:
    """What the clients do: each has so many sessions, one after another, until the end."""

    port: int
    seed: str
    folder: str
    begin: float
    end: float
    clients: int
    turns: int
    label: str = "u"  # with which the names of its sessions begin
    wild: bool = False
    killed: bool = False  # the server will be, and then no end of a connection is a fault
    patience: float = 60  # seconds for a greeting or a reply
    think: float = 0  # how many seconds are waited between lines, in the middle
    more: object = None  # how many bytes some writes have, so that the area is full in time

    def names(self):
        return [self.name(client, turn) for client in range(self.clients) for turn in range(self.turns)]

    def name(self, client, turn):
        """Each session has a name of its own."""
        return f"{self.label}{client}c{turn}"

    def prefix(self):
        return f"{self.folder}/said.{self.seed}"


class Client:
    """One who has sessions."""

    def __init__(self, number, plan, board):
        self.number, self.plan, self.board = number, plan, board
        self.draw = random.Random(f"{plan.seed} {number}")
        self.logs, self.faults = [], []

    def live(self):
        share = (self.plan.end - self.plan.begin) / self.plan.turns
        for turn in range(self.plan.turns):
            try:
                session = Session(self.plan.port, self.plan.patience)
            except (OSError, Unanswered) as fault:
                self.tell(turn, fault)
                return
            self.logs.append(session.log)
            try:
                self.talk(session, turn, self.plan.begin + (turn + 1) * share)
            except (OSError, Unanswered) as fault:
                self.tell(turn, fault)

    def tell(self, turn, fault):
        if not self.plan.killed:
            self.faults.append(f"client {self.number}, session {turn}: {fault!r}")

    def talk(self, session, turn, until):
        speaker = Speaker(self.draw, self.plan.name(self.number, turn), session.nonce, self.board, self.plan.wild, self.plan.more)
        while time.monotonic() < until:
            if self.draw.random() < (0.0005 if self.plan.wild else 0.00002):
                return self.say_long(session)
            self.say_some(session, speaker)
            if self.plan.think:
                time.sleep(self.draw.random() * 2 * self.plan.think)
        return self.end(session, speaker)

    def draw_some(self, speaker, count):
        """Some lines and their notes; none after a login, which changes what may be said."""
        drawn = []
        while len(drawn) < count and not (drawn and drawn[-1][1] and drawn[-1][1][0] == "login"):
            drawn.append(speaker.line())
        return drawn

    def say_some(self, session, speaker):
        """Says some lines at once or one, in pieces or not, and hears their replies."""
        draw, kind = self.draw, self.draw.random()
        drawn = self.draw_some(speaker, draw.randint(2, 8) if kind < 0.15 else 1)
        lines = [line for line, _ in drawn]
        size = sum(map(len, lines)) + len(lines)
        cuts = sorted(draw.randrange(size) for _ in range(draw.randint(1, 4))) if 0.15 <= kind < 0.25 else ()
        session.say(lines, cuts)
        for _, note in drawn:
            speaker.learn(note, session.told())

    def say_long(self, session):
        """Says a line that is as long as lines may be, and one that is longer, which ends the session."""
        for length in (LONGEST, LONGEST + 1):
            session.log.lines.append((b"a" * length, *moment()))
            session.send(b"a" * length + (b"\n" if length == LONGEST else b""))
            session.told()
        self.hear_end(session)

    def hear_end(self, session):
        try:
            if session.line() is not None:
                raise Unanswered("a reply after the last")
        except ConnectionError:
            pass
        session.connection.close()
        session.log.end = "left"

    def end(self, session, speaker):
        """Leaves, mostly; or is gone within some lines."""
        draw = self.draw
        drawn = [line for line, _ in self.draw_some(speaker, draw.randint(0, 4))]
        last = drawn.pop() if drawn else b""
        last = last[: draw.randint(0, len(last))]
        if draw.random() < (0.5 if self.plan.wild else 0.8):
            if drawn:
                session.say(drawn)
            return session.leave(last)
        if drawn:
            session.say(drawn)
        return session.vanish(last, draw.random() < 0.5)


def work(numbers, plan):
    """The clients of one process, each in a thread of its own; what each said is left in a file."""
    board = Board()
    clients = [Client(number, plan, board) for number in numbers]
    threads = [threading.Thread(target=client.live) for client in clients]
    for thread in threads:
        thread.start()
    for thread in threads:
        thread.join()
    for client in clients:
        with open(f"{plan.prefix()}.{client.number}", "wb") as file:
            pickle.dump(([log.plain() for log in client.logs], client.faults), file)


def begun(plan):
    """The processes of all clients."""
    context = multiprocessing.get_context("fork")
    parts = [list(range(first, plan.clients, PROCESSES)) for first in range(min(PROCESSES, plan.clients))]
    processes = [context.Process(target=work, args=(part, plan)) for part in parts]
    for process in processes:
        process.start()
    return processes


def said(plan):
    """What was said, session by session, and what went wrong; the files go."""
    for number in range(plan.clients):
        logs, faults = said_by(plan, number)
        yield None, faults
        for log in logs:
            yield log, []


def said_by(plan, number):
    """What one client said, session by session, and what went wrong; its file goes."""
    path = f"{plan.prefix()}.{number}"
    if not os.path.exists(path):
        return [], [f"client {number} left nothing"]
    with open(path, "rb") as file:
        logs, faults = pickle.load(file)
    os.unlink(path)
    return map(spoken_of, logs), faults


looking = None  # in a process that looks at sessions: the plan, and where they are to be placed


def look_with(plan, placing):
    """Begins a process that looks at sessions."""
    global looking
    gc.disable()
    looking = plan, placing


def look_at(number):
    """What was found of the sessions of one client, and what went wrong."""
    plan, placing = looking
    logs, faults = said_by(plan, number)
    return [placing.look(log) for log in logs], faults


def look_at_all(plan, placing):
    """What was found of what was said, client by client, and what went wrong: several processes look at it. It is in the order of
    the clients."""
    gc.freeze()
    with multiprocessing.get_context("fork").Pool(PROCESSES, look_with, (plan, placing)) as pool:
        yield from pool.imap(look_at, range(plan.clients))
    gc.unfreeze()
