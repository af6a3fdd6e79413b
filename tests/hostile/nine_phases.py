"""Users who have sessions of lines and connections of 9P2000 over one store, in turns: no two servers can have a store at once, and each
serves either. While `serve` has it, every user has a session, makes files, and wins procaps; then the same users have connections to
`serve9`, each with the procaps that it won, and so on. Among them are some who speak the other language than the server's."""
import multiprocessing
import os
import pickle
import random
import threading
import time

from checkpoints import Generations, Operator
from clients import Client, Plan
from kills import keeper
from nine_placing import NinePlacing, whole_messages
from nine_said import NineSpeaker, bad, opening
from nine_talking import Closed, NineSession
from said import SHARED, Board, Speaker, login, secrets_of
from serving import Running, Store
from several import PROCESSES
from talking import Session, Unanswered, connected

USERS = 64
PHASE = float(os.environ.get("PHASE", 60))  # seconds with one server, at most
PATIENCE = 180  # seconds for a greeting or a reply
MOST_SAID = 300_000  # how often users say something in all, at most
STRAYS = 4  # who speak the other language, in each phase
LINES, NINE = "serve", "serve9"


class NineBoard(Board):
    """What the users of one process know of each other; also where the nodes of all stand."""

    def __init__(self):
        super().__init__()
        self.places = {}


class User(Client):
    """One who has a session of lines and then a connection of 9P2000, again and again."""

    def live(self):
        for turn in range(self.plan.turns):
            speaker = self.visit(2 * turn, turn, self.say_lines)
            self.visit(2 * turn + 1, turn, lambda turn, until: self.say_messages(turn, until, speaker))

    def visit(self, phase, turn, say):
        """Says something in this phase, which lasts until a moment; mostly as long as it lasts."""
        while self.plan.phase.value < phase:
            time.sleep(0.05)
        if self.plan.phase.value > phase:
            return None
        self.plan.port = self.plan.port_now.value
        seconds = self.plan.until.value - time.monotonic()
        try:
            return say(turn, time.monotonic() + seconds * (1 if self.draw.random() < 0.8 else self.draw.random()))
        except (OSError, Unanswered, Closed) as fault:
            self.faults.append(f"user {self.number}, phase {phase}: {fault!r}")
        finally:
            with self.plan.done.get_lock():
                self.plan.done.value += 1
        return None

    def rest(self):
        time.sleep(self.draw.random() * 2 * self.plan.think)

    # ---- lines ----

    def say_lines(self, turn, until):
        """A session of lines; who had it, with what was won, if all was answered."""
        session = Session(self.plan.port, self.plan.patience)
        self.logs.append(session.log)
        speaker = Speaker(self.draw, self.plan.name(self.number, turn), session.nonce, self.board)
        while time.monotonic() < until:
            self.say_some(session, speaker)
            self.rest()
        self.end(session, speaker)
        self.board.places.update(speaker.places)
        return speaker if session.log.end == "left" else None

    # ---- messages ----

    def say_messages(self, turn, until, speaker):
        """A connection under the same name; or, if not all was answered to that, under another one, which has no right."""
        name = self.plan.name(self.number, turn)
        rights = {(file, perm): procap for (who, file, perm), procap in speaker.held.items() if who == name} if speaker else {}
        session = NineSession(self.plan.port, self.plan.patience)
        self.logs.append(session.log)
        nine = NineSpeaker(self.draw, name if speaker else name + "v", session.known, rights, self.board.places, self.board.procaps[-20:])
        for message in nine.begin():
            session.ask(message)
        while time.monotonic() < until:
            messages = self.draw_messages(nine, self.draw.choice([1, 1, 1, 1, 2, 8]))
            if self.say_together(session, messages):
                return
            self.rest()
        self.end_messages(session, nine)

    def draw_messages(self, nine, count):
        """Some messages, of which only the last may be none."""
        drawn = [nine.next() for _ in range(count)]
        good, has_bad = whole_messages([(message,) for message in drawn], nine.known.msize)
        return drawn[: len(good) + has_bad]

    def say_together(self, session, messages):
        """Says messages at once, in pieces or not, and hears the replies; whether the connection is over."""
        size = sum(map(len, messages))
        good, has_bad = whole_messages([(message,) for message in messages], session.known.msize)
        session.say(messages, sorted(self.draw.randrange(size) for _ in range(self.draw.choice([0, 0, 0, 1, 4]))))
        for _ in good:
            session.told()
        if has_bad:
            session.end()
        return has_bad

    def end_messages(self, session, nine):
        """Leaves, also within a message; or says what is no message; or is gone, also before replies came."""
        draw, kind = self.draw, self.draw.random()
        if kind < 0.25:
            self.say_together(session, [bad(draw, session.known.msize)])
        elif kind < 0.6:
            message = nine.next()
            session.leave(message[: draw.randrange(len(message))])
        else:
            some = self.draw_messages(nine, draw.randint(0, 4))
            walks = [at for at, message in enumerate(some) if message[4] == 110]
            session.say(some[: walks[0] + 1] if walks else some)
            message = nine.next()
            session.vanish(message[: draw.randrange(len(message))], draw.random() < 0.5)


def work(numbers, plan):
    """The users of one process, each in a thread of its own; what each said is left in a file."""
    board = NineBoard()
    users = [User(number, plan, board) for number in numbers]
    threads = [threading.Thread(target=user.live) for user in users]
    for thread in threads:
        thread.start()
    for thread in threads:
        thread.join()
    for user in users:
        with open(f"{plan.prefix()}.{user.number}", "wb") as file:
            pickle.dump(([log.plain() for log in user.logs], user.faults), file)


class Phases:
    """Servers of one store, one after the other, and those who speak to them. It has the most memory, threads and files of them all."""

    def __init__(self, run, part, seconds):
        self.run, self.part, self.draw = run, part, random.Random(f"{run.seed} {part}")
        self.turns = max(2, round(seconds / 2 / PHASE))
        self.seconds = seconds / 2 / self.turns
        self.plan = Plan(0, f"{run.seed}.{part}", run.folder, 0, 0, USERS, self.turns, label="n", patience=PATIENCE, think=USERS * seconds / MOST_SAID)
        self.plan.phase, self.plan.done, self.plan.port_now = (multiprocessing.Value("i", one) for one in (-1, 0, 0))
        self.plan.until = multiprocessing.Value("d", 0.0)
        names = [name + more for name in self.plan.names() for more in ("", "v")]
        self.store = Store(run.program, f"{run.folder}/{part}", secrets_of(["keeper", *names]))
        self.logs, self.memory, self.threads, self.files = [], 0, 0, 0

    def fault(self, text):
        self.run.fault(self.part, text)

    def go(self):
        """All phases; the generations of the store."""
        if self.store.run("init") != (b"ok\n", 0):
            self.fault("init does not make a store")
            return None
        generations = Generations(self.store)
        parts = [list(range(first, USERS, PROCESSES)) for first in range(PROCESSES)]
        processes = [multiprocessing.get_context("fork").Process(target=work, args=(part, self.plan)) for part in parts]
        for process in processes:
            process.start()
        try:
            for phase in range(2 * self.turns):
                self.one_phase(phase, NINE if phase % 2 else LINES, generations)
        finally:
            self.plan.phase.value = 2 * self.turns
            for process in processes:
                process.join()
        return generations

    def one_phase(self, phase, word, generations):
        """A server, and all who speak to it, until it ends by itself."""
        keepers, operators = int(phase == 0), int(word == LINES)
        server = Running(self.store, USERS + keepers + operators + STRAYS, word=word)
        try:
            server.wait()
            if keepers:
                self.logs.append(keeper(server, PATIENCE))
            self.plan.done.value, self.plan.port_now.value = 0, server.port
            self.plan.until.value = time.monotonic() + self.seconds
            self.plan.phase.value = phase
            others = [threading.Thread(target=self.stray, args=(server.port, word, random.Random(f"{phase} {number} {self.part}"))) for number in range(STRAYS)]
            if operators:
                others.append(Operator(server.port, random.Random(f"{phase} operator"), generations, [self.draw.random() * self.seconds], PATIENCE))
            for one in others:
                one.start()
            self.watch(server, others)
            for one in others:
                one.join()
            for operator in others[STRAYS:]:
                self.logs += operator.logs
                for fault in operator.faults:
                    self.fault(fault)
            self.end(phase, server)
        finally:
            if server.runs():
                server.kill()

    def watch(self, server, others):
        """Watches the server until all have said what they wanted to."""
        last = time.monotonic() + self.seconds + 3 * PATIENCE
        while self.plan.done.value < USERS or any(one.is_alive() for one in others):
            server.watch()
            if not server.runs() or time.monotonic() > last:
                return
            time.sleep(0.1)

    def end(self, phase, server):
        ended = server.ended(PATIENCE)
        if ended != (f"served {server.count}\n".encode(), 0):
            self.fault(f"in phase {phase} the server ends with {ended}, and not after {server.count}")
        self.memory, self.threads, self.files = max(self.memory, server.memory), max(self.threads, server.threads), max(self.files, server.files)

    def stray(self, port, word, draw):
        """One who speaks the other language."""
        try:
            if word == LINES:
                self.messages_to_lines(port)
            else:
                self.lines_to_messages(port, draw)
        except (OSError, Unanswered) as fault:
            self.fault(f"one who does not speak as {word} does: {fault!r}")

    def messages_to_lines(self, port):
        """Messages to a server of lines, to which they are a line."""
        session = Session(port, PATIENCE)
        session.leave(b"".join(opening()))
        self.logs.append(session.log)

    def lines_to_messages(self, port, draw):
        """Lines to a server of 9P2000: it ends the connection at their first bytes, whose size is no message's, and says nothing."""
        connection = connected(port, PATIENCE)
        connection.sendall(draw.choice([login("keeper", bytes(16)), "procap 1\n", "checkpoint\n", "do list #1 00\n" * 100]).encode())
        try:
            told = connection.recv(65536)
        except ConnectionResetError:
            told = b""
        if told:
            raise Unanswered(f"lines are told {told[:200]!r}")
        connection.close()


def place(phases, generations):
    """Places all that was told, lines and messages, in the one history."""
    phases.run.tell(phases.part, f"{2 * phases.turns} servers, of {phases.seconds:.1f} s, each with {USERS} users and {STRAYS} who spoke the other language")
    phases.run.place(phases.part, phases.plan, generations, phases, phases.logs, NinePlacing)

