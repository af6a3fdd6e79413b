"""Hostile use of the built program, compared with what the definitions promise.

    hostile.py PROGRAM FOLDER SECONDS SEED [PART..]     the parts are clients, strangers, nine, damage and kills: all, if none is named

With WITHDRAWALS=0 in the environment the program is one from before withdrawals.
"""
import gc
import multiprocessing
import random
import sys
import time
from collections import Counter
from itertools import chain

import switches
from areas import LIMIT, image_in, records
from checkpoints import AT_ONCE as OPERATORS
from checkpoints import Generations, Operator, all_at_once
from clients import Plan, begun, look_at_all
from damage import damage_until
from history import Reader
from images import image_of
from kills import Kills, keeper
from nine_phases import Phases, place
from pcfs_model import DRAWN_SECRETS, drawn
from placing import Placing
from said import SHARED, secrets_of
from serving import Running, Store
from strangers import AT_ONCE, Scene, all_strangers, words_and_ports
from talking import Session, Unanswered

SHARES = {"clients": 0.4, "strangers": 0.15, "nine": 0.2, "damage": 0.125, "kills": 0.125}
SESSION_SECONDS = 15  # of a client, before it begins another
STRANGERS = 1500  # names for them, and as many connections at most
SILENT = 300  # more connections, which say nothing
MOST_SAID = 1_000_000  # how often clients say something in one part, at most
LONG = 240  # seconds in which an area is filled
CHECKPOINTS = 12  # in the first half of the clients' time; if that is long, there is one more in a full area
SESSIONS_MEMORY = 96 * 1024  # KiB, one and a half MiB for each
OWN_THREADS = 4  # of the server, beside one for each session


def pauses(begin, seconds):
    """The pauses before each checkpoint of the clients' time."""
    moments = [(one + 1) / (CHECKPOINTS + 1) / 2 for one in range(CHECKPOINTS)] + ([0.95] if seconds >= LONG else [])
    for moment in moments:
        yield max(0, begin + seconds * moment - time.monotonic())


class Run:
    """The parts, their figures and their faults."""

    def __init__(self, program, folder, seconds, seed, parts):
        self.program, self.folder, self.seed = program, folder, seed
        together = sum(SHARES[part] for part in parts)
        self.shares = {part: seconds * SHARES[part] / together for part in parts}
        self.faults, self.total = [], Counter()
        self.area = self.secrets = self.at_once = None

    def tell(self, part, text):
        print(f"{part}: {text}", flush=True)

    def fault(self, part, text):
        self.faults.append(text)
        self.tell(part, f"FAULT {text}")

    def most(self, memory, threads):
        self.total["memory"], self.total["threads"] = max(self.total["memory"], memory), max(self.total["threads"], threads)

    # ---- clients, tame and wild ----

    def clients(self, part="clients", wild=False):
        """Random clients, whose replies are placed in the history; before wild ones there are strangers."""
        seconds = self.shares[part]
        plan = Plan(0, f"{self.seed}.{part}", self.folder, 0, 0, AT_ONCE - 1, max(2, round(seconds / SESSION_SECONDS)), wild=wild)
        strangers = [f"s{number}" for number in range(STRANGERS)] if wild else []
        store = Store(self.program, f"{self.folder}/{part}", secrets_of(["keeper", *plan.names(), *strangers]))
        if store.run("init") != (b"ok\n", 0):
            self.fault(part, "init does not make a store")
            return
        generations = Generations(store)
        server = Running(store, 2 + len(plan.names()) + (STRANGERS + SILENT + OPERATORS if wild else 0))
        try:
            logs = [keeper(server)]
            idle = server.watch()
            begin = time.monotonic()
            if wild:
                logs += self.strange(part, server, strangers)
            logs += self.live(part, plan, server, generations, begin + seconds)
            self.quiet(part, server, idle)
            if wild:
                self.together(part, server, generations)
                self.fill(server)
            self.end(part, server)
        finally:
            if server.runs():
                server.kill()
        self.place(part, plan, generations, server, logs)

    def strange(self, part, server, names):
        scene = Scene(server, names)
        all_strangers(scene, random.Random(f"{self.seed} strangers"))
        for what, figure in scene.figures.items():
            self.tell(part, f"{what}: {figure}")
        for fault in scene.faults:
            self.fault(part, fault)
        return scene.logs

    def live(self, part, plan, server, generations, end):
        """The clients' time, with checkpoints in its first half. If it is long, they write so much that the area is full after nine
        tenths of it, and then there is a checkpoint more. What was said by who makes them."""
        plan.port, plan.begin, plan.more = server.port, time.monotonic(), multiprocessing.Value("d", 0.0)
        plan.end = max(end, plan.begin + 2)
        seconds = plan.end - plan.begin
        plan.think = AT_ONCE * seconds / MOST_SAID
        processes = begun(plan)
        operator = Operator(server.port, random.Random(f"{plan.seed} operator"), generations, pauses(plan.begin, seconds))
        operator.start()
        while any(process.is_alive() for process in processes):
            server.watch()
            done = (time.monotonic() - plan.begin) / seconds
            is_behind = seconds >= LONG and generations.store.size() < LIMIT * (done - 0.5) / 0.4
            plan.more.value = min(32_000, 2 * plan.more.value + 16) if is_behind else plan.more.value // 2
            if not server.runs() and done < 1:
                self.fault(part, f"the server ended by itself: {server.ended()}")
                break
            time.sleep(0.2)
        for process in processes:
            process.join()
        operator.join()
        for fault in operator.faults:
            self.fault(part, fault)
        return operator.logs

    def together(self, part, server, generations):
        """Some make checkpoints at once, at the end."""
        try:
            self.at_once = all_at_once(server.port, generations)
        except (OSError, Unanswered) as fault:
            self.fault(part, f"checkpoints at once: {fault!r}")

    def quiet(self, part, server, idle):
        """Once all have left, there are no more threads than before they came, and no more files but that of the second area."""
        until, threads, files = time.monotonic() + 10, idle[1], idle[2] + 1
        now = server.watch()
        while now and (now[1] > threads or now[2] > files) and time.monotonic() < until:
            time.sleep(0.05)
            now = server.watch()
        if now and (now[1] > threads or now[2] > files):
            self.fault(part, f"{now[1]} threads and {now[2]} files are left, and there were {threads} and {files}, with the second area's")

    def fill(self, server):
        """Connections that say nothing, until the server has had as many as it was to have."""
        for _ in range(server.count):
            if not server.runs():
                return
            try:
                Session(server.port, 1).connection.close()
            except (OSError, Unanswered):
                pass

    def end(self, part, server):
        """The server ends by itself, and tells how many it served."""
        ended = server.ended()
        if ended != (f"served {server.count}\n".encode(), 0):
            self.fault(part, f"the server ends with {ended}, and not after {server.count}")
        if server.threads > AT_ONCE + OWN_THREADS:
            self.fault(part, f"there were {server.threads} threads")
        self.most(server.memory, server.threads)

    # ---- what is compared after them ----

    def place(self, part, plan, generations, server, logs, placing=Placing):
        """Compares all that was told with what the areas have. What is read for that stays, and is not looked through again and again."""
        gc.disable()
        self.compare(part, plan, generations, server, logs, placing)
        gc.enable()

    def compare(self, part, plan, generations, server, logs, placing):
        store = generations.store
        placing, nonces, lines = placing(generations.all(), store.secrets, {SHARED}), Counter(), 0
        for sessions, faults in chain([(map(placing.look, logs), [])], look_at_all(plan, placing)):
            for fault in faults:
                self.fault(part, fault)
            for session in sessions:
                placing.take(session)
                nonces[session.nonce] += 1
                lines += session.lines
        state = placing.check()
        for fault in placing.shown:
            self.fault(part, fault)
        if len(nonces) < nonces.total():
            self.fault(part, "a nonce was given twice")
        self.open_again(part, store, state, placing)
        self.figures(part, placing, server, generations, nonces.total(), lines)
        if self.area is None:
            self.area, self.secrets = generations.area(1), store.secrets

    def open_again(self, part, store, state, placing):
        """A fresh opening finds the same events, and so does an audit, if the program has one."""
        found, unissued = store.found(), placing.unissued
        if found != (state.count, 0):
            self.fault(part, f"an opening finds {found}, and not {state.count} events")
        if self.at_once:
            unissued = 0 if self.at_once == b"ok checkpoint" else unissued
            self.compare_at_once(part, store.newest(), image_of(state))
        done = store.run("audit")
        wanted = f"events {state.count} statements {len(state.statements)} issues {len(state.issues)} unissued {unissued}\n".encode()
        if done == (b"usage\n", 1):
            self.tell(part, "the program has no audit")
        elif done != (wanted, 0):
            self.fault(part, f"an audit writes {done[0][:300]!r}, {done[1]}, and not {wanted!r}")

    def compare_at_once(self, part, area, image):
        """After the checkpoints at the end the area has the state as its image, and nothing else; or it was full."""
        if self.at_once == b"full":
            is_right = len(image) + 25 > LIMIT
        else:
            is_right = self.at_once == b"ok checkpoint" and image_in(area) == image and not any(True for _ in records(area))
        if not is_right:
            self.fault(part, f"checkpoints at the end are told {self.at_once!r}, over a state whose image has {len(image)} bytes, and leave another area")
        self.at_once = None

    def figures(self, part, placing, server, generations, sessions, lines):
        events, told = placing.last, placing.told_words
        self.tell(part, f"{sessions} sessions, {lines} lines, {placing.counts['events that were not told']} events that were not told")
        self.tell(part, "told " + ", ".join(f"{told[kind]} {kind}" for kind in sorted(told)))
        images = [image.length for image in placing.images[1:]]
        self.tell(part, f"{len(images) - 1} checkpoints, with images of up to {max(images)} bytes")
        opened = generations.memory()
        memory = f"{server.memory} KiB at most, and {opened} for what its areas have"
        self.tell(part, f"{events} events in {sum(map(len, generations.all()))} bytes; {memory}; {server.threads} threads, {server.files} files at most")
        if server.memory > opened + SESSIONS_MEMORY:
            self.fault(part, f"history and sessions explain {opened + SESSIONS_MEMORY} KiB of memory, and not {server.memory}")
        self.total.update(sessions=sessions, lines=lines, events=events)

    def nine(self):
        """Users by turns with lines and with messages of 9P2000, over one store."""
        phases = Phases(self, "nine", self.shares["nine"])
        generations = phases.go()
        if generations:
            self.most(phases.memory, phases.threads)
            place(phases, generations)

    # ---- the other parts ----

    def strangers(self):
        try:
            for fault in words_and_ports(self.program, self.folder):
                self.fault("strangers", fault)
        except (OSError, Unanswered) as fault:
            self.fault("strangers", f"words and ports: {fault!r}")
        self.clients("strangers", wild=True)

    def damage(self):
        """Areas that were damaged are opened."""
        if self.area is None:
            self.draw_store()
        store = Store(self.program, f"{self.folder}/damaged", self.secrets)
        reader = Reader(bytes.fromhex(self.secrets.split()[1]))
        until = time.monotonic() + self.shares["damage"]
        kinds, found, faults = damage_until(store, random.Random(f"{self.seed} damage"), self.area, reader, until)
        for fault in faults:
            self.fault("damage", fault)
        self.tell("damage", f"{kinds.total()} damages: " + ", ".join(f"{count} {kind}" for kind, count in kinds.most_common()))
        self.tell("damage", "found " + ", ".join(f"{count} {what}" for what, count in found.most_common()))
        self.total["damages"] += kinds.total()

    def draw_store(self):
        """A store by a random script, if no part before has left one."""
        self.secrets = DRAWN_SECRETS
        store = Store(self.program, f"{self.folder}/drawn", self.secrets)
        store.run("init")
        lines = [line for line in drawn(self.seed).lines(2000) if line != "checkpoint"]  # so the first area has all events
        store.run("script", "--stored", given="".join(line + "\n" for line in lines).encode("latin-1"))
        self.area = store.area()

    def kills(self):
        kills = Kills(self.program, self.folder, random.Random(f"{self.seed} kills"))
        kills.until(time.monotonic() + self.shares["kills"])
        for fault in kills.faults:
            self.fault("kills", fault)
        counts = kills.counts
        self.tell("kills", f"{counts['kills']} kills in {counts['sessions']} sessions of {counts['lines']} lines, {counts['replies']} of them told")
        self.tell("kills", f"{counts['events']} events, of which {counts['more']} were not told; {counts['checkpoints']} checkpoints, {counts['checkpoints more']} of sessions not told")
        self.tell("kills", f"{kills.memory} KiB, {kills.threads} threads at most")
        self.total.update(kills=counts["kills"], lines=counts["lines"], sessions=counts["sessions"], events=counts["events"])
        self.most(kills.memory, kills.threads)


def main():
    sys.setrecursionlimit(20_000)  # formulas and proofs may be deep
    program, folder, seconds, seed, *parts = switches.taken(sys.argv[1:])
    run = Run(program, folder, float(seconds), int(seed), parts or list(SHARES))
    begin = time.monotonic()
    for part in run.shares:
        getattr(run, part)()
    total = run.total
    print(
        f"{total['lines']} lines in {total['sessions']} sessions, {total['events']} events, {total['damages']} damages, {total['kills']} kills; "
        f"{total['memory']} KiB of memory and {total['threads']} threads at most; {time.monotonic() - begin:.0f} s, seed {run.seed}: {len(run.faults)} faults"
    )
    sys.exit(1 if run.faults else 0)


if __name__ == "__main__":
    main()
