"""Kills the server at random moments while clients have sessions, and opens the store again each time."""
import random
import time
from collections import Counter

from areas import Damaged, image_in, records
from checkpoints import Generations, Operator
from clients import Plan, begun, said
from images import count_in
from placing import Placing
from said import POLICY, SHARED, login, registration, secrets_of
from serving import Running, Store
from talking import PATIENCE, Session

CLIENTS = 16
ROUNDS = 20  # with one store
LONGEST_ROUND = 1.0  # seconds
ENOUGH = 10  # faults


def keeper(server, patience=PATIENCE):
    """What the one said who registers the policy."""
    session = Session(server.port, patience)
    session.ask(login("keeper", session.nonce).encode())
    for text in POLICY:
        session.ask(registration(text).encode())
    session.leave()
    return session.log


def pauses(draw):
    """Pauses between checkpoints, without end."""
    longest = draw.choice([0, 0.02, 0.1, 0.3])
    while True:
        yield draw.random() * longest


class Kills:
    """Rounds of killed servers over stores."""

    def __init__(self, program, folder, draw):
        self.program, self.folder, self.draw = program, folder, draw
        self.counts, self.faults, self.memory, self.threads = Counter(), [], 0, 0
        self.opening_seconds = 0

    def until(self, end):
        number = 0
        while time.monotonic() < end and len(self.faults) < ENOUGH:
            self.one_store(number, end)
            number += 1

    def plan(self, port, number):
        begin = time.monotonic()
        label = f"k{number}u"
        return Plan(port, f"{self.draw.random()}", self.folder, begin, begin + 60, CLIENTS, 1, label, killed=True, patience=5)

    def one_store(self, number, end):
        """Some rounds over one store; then every reply is placed."""
        names = [name for one in range(ROUNDS) for name in self.plan(0, one).names()]
        store = Store(self.program, f"{self.folder}/killed", secrets_of(["keeper", *names]))
        self.kill_init(store)
        logs, generations, commanded = [], Generations(store), []
        for one in range(ROUNDS):
            logs += self.one_round(store, one, generations)
            commanded += self.kill_checkpoint(store, generations)
            if time.monotonic() > end:
                break
        placing = Placing(generations.all(), store.secrets, {SHARED})
        placing.makers.update(dict.fromkeys(commanded))
        for log in logs:
            placing.add(log)
            self.counts["lines"] += len(log.lines)
            self.counts["replies"] += len(log.replies)
        placing.check()
        self.counts["sessions"] += len(logs)
        self.counts["events"] += placing.last
        self.counts["more"] += placing.counts["events that were not told"]
        self.counts["checkpoints"] += len(placing.images) - 2
        self.counts["checkpoints more"] += placing.counts["checkpoints that were not told"]
        self.faults += [f"store {number} of the kills: {fault}" for fault in placing.shown]

    def kill_init(self, store):
        """`init` is killed too: it has made the store, or it has not."""
        for _ in range(5):
            making = store.start("init")
            time.sleep(self.draw.random() * 0.004)
            making.kill()
            making.communicate()
            self.counts["kills"] += 1
            found = store.found()
            if found == (0, 0):
                store.put(b"")
            elif found != ("nostore", 4):
                self.faults.append(f"after a killed init an opening finds {found}")
        done = store.run("init")
        if done != (b"ok\n", 0):
            self.faults.append(f"after killed ones init is told {done}")

    def kill_checkpoint(self, store, generations):
        """The command `checkpoint`, mostly killed too: it has made one, or it has not. The generations that it made."""
        before = generations.last()
        if self.draw.random() < 0.3:
            done = store.run("checkpoint")
            if done != (b"ok checkpoint\n", 0) or generations.last() != before + 1:
                self.faults.append(f"a checkpoint is told {done}, and leads from {before} to {generations.last()}")
        else:
            making = store.start("checkpoint")
            time.sleep(self.draw.random() * self.opening_seconds * 1.5)
            making.kill()
            written = making.communicate()[0]
            self.counts["kills"] += 1
            if not before + (written != b"") <= generations.last() <= before + 1:
                self.faults.append(f"a killed checkpoint has told {written}, and leads from {before} to {generations.last()}")
        generations.take()
        self.compare(store)
        return range(before + 1, generations.last() + 1)

    def one_round(self, store, number, generations):
        """A server is killed while clients have sessions, and one makes checkpoints; what these said."""
        server = Running(store, 1_000_000)
        logs = [keeper(server)] if number == 0 else []
        plan = self.plan(server.port, number)
        processes = begun(plan)
        draw = random.Random(plan.seed)
        operator = Operator(server.port, draw, generations, pauses(draw), plan.patience)
        operator.start()
        stop = time.monotonic() + 0.05 + self.draw.random() * LONGEST_ROUND
        while time.monotonic() < stop:
            server.watch()
            time.sleep(min(0.05, max(0, stop - time.monotonic())))
        if not server.runs():
            self.faults.append(f"the server ended by itself: {server.ended()}")
        server.kill()
        for process in processes:
            process.join()
        operator.join()
        generations.take()
        self.counts["kills"] += 1
        self.memory, self.threads = max(self.memory, server.memory), max(self.threads, server.threads)
        self.compare(store)
        return logs + operator.logs + [log for log, _ in said(plan) if log]

    def compare(self, store):
        """An opening finds as many events as the image and the whole records have."""
        area = store.newest()
        try:
            wanted = count_in(image_in(area)) + sum(1 for _ in records(area)), 0
        except Damaged as damaged:
            wanted = str(damaged), 3
        begin = time.monotonic()
        found = store.found()
        self.opening_seconds = time.monotonic() - begin
        if found != wanted or found[1] != 0:
            self.faults.append(f"after a kill an opening finds {found}, and the records are {wanted}")
