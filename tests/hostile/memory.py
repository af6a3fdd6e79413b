"""Growths of memory that are refused to the built program, one at a time.

    memory.py PROGRAM FOLDER [PART..]     the parts are first, public, stored, audit and sessions: all, if none is named

FOLDER has refuse.so, which refuses the growth of a number. A part is run for each number from 1 on, until a run has made fewer
growths and so is as with ample memory.
"""
import os
import re
import shutil
import socket
import subprocess
import sys
import threading
import time
from collections import Counter
from concurrent.futures import ThreadPoolExecutor

import switches
from areas import generation, is_open, records
from placing import Placing
from said import POLICY, login, registration, root_verify, secrets_of, withdrawal
from serving import AREAS, Store, free_port
from talking import Session, Unanswered

HERE = os.path.dirname(os.path.abspath(__file__))
EXAMPLES = f"{HERE}/../../examples"
OUT_OF_MEMORY = 9
AT_ONCE = os.cpu_count() or 1
MOST = 200_000  # growths of one run
PATIENCE = 60  # seconds
NAMES = ("keeper", "alice")
ENOUGH = 20  # faults that are shown
WITHDRAWING = [b"withdraw 1 -", b"as alice", b"do create #1 more @1", b"withdraw 1 -", b"checkpoint", b"do create #1 more @1"]  # after first-file
SUMMARY = re.compile(rb"lines (\d+) ok (\d+) denied (\d+) refused (\d+) other (\d+) events \d+\n")


def example(name):
    with open(f"{EXAMPLES}/{name}.pcfs", "rb") as file:
        return file.read().splitlines()


class Fault(Exception):
    """A run that is not as it has to be."""


class Refusing:
    """The program, with a growth refused."""

    def __init__(self, program, folder):
        self.program, self.folder = program, folder
        self.runs = self.ports = 0
        self.taking = threading.Lock()

    def new_folder(self, like):
        """A folder for one run, which has what another has."""
        with self.taking:
            self.runs += 1
            folder = f"{self.folder}/run.{self.runs}"
        shutil.copytree(like, folder)
        return folder

    def start(self, folder, number, *words, given=subprocess.PIPE):
        """A run. None begins while a port is looked for, since it would have that too until its program begins."""
        environment = dict(os.environ, LD_PRELOAD=f"{self.folder}/refuse.so", REFUSE=str(number), REFUSED=f"{folder}/refused")
        with self.taking:
            return subprocess.Popen(
                [self.program, *words], cwd=folder, env=environment, stdin=given, stdout=subprocess.PIPE, stderr=subprocess.DEVNULL
            )

    def run(self, folder, number, *words, given=b""):
        """What the program writes, its status, and whether a growth was refused; number 0 refuses none."""
        with self.start(folder, number, *words) as process:
            try:
                written = process.communicate(given, timeout=PATIENCE)[0]
            except subprocess.TimeoutExpired:
                process.kill()
                raise Fault("does not end") from None
            return written, process.returncode, os.path.exists(f"{folder}/refused")

    def each(self, tell, check):
        """Runs `check` for each number, several at once, until one says that no growth was refused; counts what it says."""
        counts, faults, number = Counter(), [], 1
        with ThreadPoolExecutor(AT_ONCE) as pool:
            while number < MOST:
                numbers = range(number, number + 4 * AT_ONCE)
                for one, found in zip(numbers, pool.map(lambda one: self.outcome(check, one), numbers)):
                    if found is None:
                        tell(f"{one - 1} growths: " + ", ".join(f"{counts[kind]} {kind}" for kind in sorted(counts)))
                        return faults if one > 1 else ["no growth is seen"]
                    if isinstance(found, Fault):
                        faults.append(f"growth {one}: {found}")
                    else:
                        counts[found] += 1
                number = numbers.stop
        return [*faults, f"there is no end of growths at {number}"]

    def outcome(self, check, number):
        try:
            return check(number)
        except Fault as fault:
            return fault


# ---- scripts -----------------------------------------------------------------------------------------------------------


class Script:
    """A script, in memory or over a store that a folder has, beside the same with ample memory."""

    def __init__(self, refusing, base, lines, words):
        self.refusing, self.base, self.lines, self.words = refusing, base, lines, words
        self.is_stored = "--stored" in words
        self.known, self.knowing = {}, threading.Lock()
        self.ample = self.reference(tuple(lines))

    def reference(self, lines):
        """With ample memory: the replies to these lines, and the areas after them."""
        with self.knowing:
            if lines not in self.known:
                folder = self.refusing.new_folder(self.base)
                written, status, _ = self.refusing.run(folder, 0, *self.words, given=joined(lines))
                if status:
                    raise Fault(f"with ample memory it ends with status {status}")
                self.known[lines] = written.splitlines(), areas(folder)
                shutil.rmtree(folder)
            return self.known[lines]

    def check(self, number):
        """How the run ends in which this growth is refused; none if no growth was."""
        folder = self.refusing.new_folder(self.base)
        written, status, is_refused = self.refusing.run(folder, number, *self.words, given=joined(self.lines))
        replies, left = written.splitlines(), areas(folder)
        shutil.rmtree(folder)
        if not is_refused and (replies, left) == self.ample and status == 0:
            return None
        if not is_refused:
            raise Fault("it differs, and no growth was refused")
        self.compare(written, replies, status, left)
        if status == 0 and b"nomemory" not in replies:
            return "as with ample memory"
        return "with status 9" if status else "with nomemory"

    def compare(self, written, replies, status, left):
        if status not in (0, OUT_OF_MEMORY) or (written and not written.endswith(b"\n")):
            raise Fault(f"it ends with status {status}, after {replies[-1:]}")
        if status and not self.is_stored and replies[-1:] == [b"stopped"]:
            replies.pop()
        if status == 0 and len(replies) != len(self.lines):
            raise Fault(f"{len(replies)} replies to {len(self.lines)} lines")
        told = tuple(line for line, reply in zip(self.lines, replies) if reply != b"nomemory")
        rest = tuple(self.lines[len(replies) :])
        wanted, kept = self.reference(told)
        if [reply for reply in replies if reply != b"nomemory"] != wanted:
            raise Fault(f"it is told {replies}, and not {wanted}")
        if self.is_stored and left != kept and (not rest or left != self.reference((*told, rest[0]))[1]):
            raise Fault(f"the store has other events than those of the replies {replies}")


def joined(lines):
    return b"".join(line + b"\n" for line in lines)


def areas(folder):
    return tuple(bytes_at(f"{folder}/{name}") for name in AREAS)


def bytes_at(path):
    if not os.path.exists(path):
        return b""
    with open(path, "rb") as file:
        return file.read()


# ---- parts -------------------------------------------------------------------------------------------------------------


class Parts:
    """What is tried, with its figures and its faults."""

    def __init__(self, program, folder):
        self.folder, self.refusing, self.faults = folder, Refusing(program, folder), []
        self.empty = f"{folder}/empty"
        os.makedirs(self.empty)
        shutil.copy(f"{EXAMPLES}/pcfs.secrets", self.empty)
        self.program = program

    def each(self, what, check):
        for fault in self.refusing.each(lambda text: print(f"{what}: {text}", flush=True), check):
            self.faults.append(fault)
            if len(self.faults) <= ENOUGH:
                print(f"{what}: FAULT {fault}", flush=True)

    def first(self):
        self.each("the first file, in memory", Script(self.refusing, self.empty, example("first-file"), ["script"]).check)
        if switches.withdrawals:
            self.each("a withdrawal, in memory", Script(self.refusing, self.empty, example("first-file") + WITHDRAWING, ["script"]).check)

    def public(self):
        self.each("a public class, in memory", Script(self.refusing, self.empty, example("public"), ["script"]).check)

    def stored(self):
        """`init`, and then scripts over what the ones before have left."""
        self.each("init", self.check_init)
        base = self.made()
        for name in ("first-file", "stored/write", "stored/read", "public"):
            script = Script(self.refusing, base, example(name), ["script", "--stored"])
            self.each(f"{name}, over a store", script.check)
            base = self.after(base, "script", "--stored", given=joined(example(name)))
            self.opens(base)
        if switches.withdrawals:
            self.each("a withdrawal, over a store", Script(self.refusing, base, WITHDRAWING, ["script", "--stored"]).check)
        lines = [b"checkpoint", *example("stored/read"), b"checkpoint", *example("stored/read"), b"checkpoint"]
        self.each("checkpoints in a script", Script(self.refusing, base, lines, ["script", "--stored"]).check)
        events = self.refusing.run(base, 0, "audit")[:2]
        self.each("checkpoint", lambda number: self.check_checkpoint(base, number, events))
        self.each("script over a checkpoint", Script(self.refusing, self.after(base, "checkpoint"), example("first-file"), ["script", "--stored"]).check)

    def made(self):
        return self.after(self.empty, "init")

    def after(self, base, *words, given=b""):
        """The folder as it is after a run with ample memory."""
        folder = self.refusing.new_folder(base)
        self.refusing.run(folder, 0, *words, given=given)
        return folder

    def opens(self, folder):
        """An audit finds as many events as the area has."""
        written, status, _ = self.refusing.run(folder, 0, "audit")
        count = sum(1 for _ in records(areas(folder)[0]))
        if status or not written.startswith(b"events %d " % count):
            self.faults.append(f"an audit of {count} events writes {written}, {status}")

    def check_checkpoint(self, base, number, events):
        """A checkpoint is made, or none is; an audit finds the same events."""
        folder = self.refusing.new_folder(base)
        written, status, is_refused = self.refusing.run(folder, number, "checkpoint")
        found = self.refusing.run(folder, 0, "audit")[:2]
        shutil.rmtree(folder)
        if found != events:
            raise Fault(f"after {written}, {status} an audit finds {found}, and not {events}")
        if (written, status) == (b"ok checkpoint\n", 0):
            return "as with ample memory" if is_refused else None
        if (written, status) == (b"", OUT_OF_MEMORY) and is_refused:
            return "with status 9"
        raise Fault(f"a checkpoint ends with {written}, {status}")

    def check_init(self, number):
        """A store is made, or none is; if it is told, then it is made."""
        folder = self.refusing.new_folder(self.empty)
        written, status, is_refused = self.refusing.run(folder, number, "init")
        opened = self.refusing.run(folder, 0, "script", "--stored")[:2]
        again = self.refusing.run(folder, 0, "init")[:2]
        shutil.rmtree(folder)
        is_made = opened == (b"", 0) and again == (b"exists\n", 10)
        if not is_made and not (opened == (b"nostore\n", 4) and again == (b"ok\n", 0)):
            raise Fault(f"after {written}, {status} an opening finds {opened}, and another init {again}")
        if (written, status) == (b"ok\n", 0) and is_made:
            return "as with ample memory" if is_refused else None
        if (written, status) == (b"", OUT_OF_MEMORY) and is_refused:
            return "with status 9"
        raise Fault(f"init ends with {written}, {status}")

    def audit(self):
        """An audit of a store, a check of a proof, a large run, a table of modes, and statements that are signed."""
        base = self.made()
        for name in ("first-file", "public"):
            base = self.after(base, "script", "--stored", given=joined(example(name)))
        with open(f"{EXAMPLES}/modes.table", "rb") as file:
            table = file.read()
        signed = joined([b"seed " + b"5a" * 32, b"statement zoe says true from 0 to 1", b"statement zoe says true from 0 to 2"])
        inquiry = [b"statement admin says may(alice,#1,write) from 0 to 200", b"goal alice #1 write saysR(claim(0,init(1)))"]
        for words, given in ((["audit"], b""), (["audit", "--pieces", "3"], b""), (["check"], joined(inquiry)), (["load", "1", "7"], b""), (["modes", "0", "200"], table), (["rootsign", "1", "0"], signed)):
            wanted = self.refusing.run(self.refusing.new_folder(base), 0, *words, given=given)[:2]
            self.each(" ".join(words), lambda number: self.check_report(base, number, words, given, wanted))

    def check_report(self, base, number, words, given, wanted):
        """The whole report, or status 9, or the summary of a run in which replies were `nomemory`; the store is as it was."""
        folder = self.refusing.new_folder(base)
        written, status, is_refused = self.refusing.run(folder, number, *words, given=given)
        left = areas(folder)
        shutil.rmtree(folder)
        if left != areas(base):
            raise Fault("the store is changed")
        if (written, status) == wanted:
            return "as with ample memory" if is_refused else None
        if status == OUT_OF_MEMORY and is_refused and wanted[0].startswith(written):
            return "with status 9"
        if status == 0 and is_refused and tells_other_replies(written):
            return "with other replies"
        raise Fault(f"it ends with {written[:300]}, {status}")

    # ---- sessions ----

    def sessions(self):
        """Two sessions, one after the other, over a new store; in the first admin makes a checkpoint."""
        base = f"{self.folder}/sessions"
        store = Store(self.program, base, secrets_of(NAMES))
        if store.run("init") != (b"ok\n", 0):
            self.faults.append("init does not make a store")
            return
        self.secrets = store.secrets
        self.each("two sessions", lambda number: self.check_sessions(base, number))

    def check_sessions(self, base, number):
        folder = self.refusing.new_folder(base)
        port = self.port()
        process = self.refusing.start(folder, number, "serve", str(port), "2", given=subprocess.DEVNULL)
        logs = [log for log in (talk(process, port, keeper), talk(process, port, alice)) if log]
        try:
            written, status = process.communicate(timeout=PATIENCE)[0], process.returncode
        except subprocess.TimeoutExpired:
            process.kill()
            process.communicate()
            raise Fault(f"the server does not end after {[log.replies for log in logs]}") from None
        is_refused = os.path.exists(f"{folder}/refused")
        is_said = any(reply == b"nomemory" for log in logs for reply, *_ in log.replies)
        self.place(folder, logs)
        shutil.rmtree(folder)
        return "with nomemory" if is_said else kind_of_end(written, status, logs, is_refused)

    def port(self):
        """A port that no other run was given."""
        with self.refusing.taking:
            port = free_port()
            while port == self.refusing.ports:
                port = free_port()
            self.refusing.ports = port
            return port

    def place(self, folder, logs):
        """Each reply but `nomemory` has its place among the events, and each event is that of a line that was answered, or that
        was the first without an answer. A fresh opening and an audit find as many events."""
        placing = Placing(sorted(filter(is_open, areas(folder)), key=generation), self.secrets)
        for log in logs:
            placing.add(without_memory_replies(log))
        state = placing.check()
        if placing.shown:
            raise Fault("; ".join(placing.shown))
        written, status, _ = self.refusing.run(folder, 0, "audit")
        if status or not written.startswith(b"events %d " % state.count):
            raise Fault(f"an audit of {state.count} events writes {written}, {status}")


def tells_other_replies(written):
    """Whether a summary counts each line once, and some replies as other."""
    found = SUMMARY.fullmatch(written)
    lines, *replies = map(int, found.groups()) if found else (0, 0)
    return found is not None and lines == sum(replies) and replies[-1] > 0


def keeper(session):
    session.ask(login("keeper", session.nonce).encode())
    for text in POLICY[:2]:
        session.ask(registration(text).encode())
    if switches.withdrawals:
        text = "admin says taken_back from 0 to 1"
        session.ask(registration(text).encode())
        session.ask(withdrawal(3, text).encode())
    session.log.generation = 1
    session.ask(login("admin", session.nonce).encode())
    session.ask(b"checkpoint")
    session.leave()


def alice(session):
    session.ask(login("alice", session.nonce).encode())
    session.ask(root_verify("alice", "write").encode())
    session.ask(root_verify("alice", "read").encode())
    for number, operation in ((1, "create #1 notes"), (2, "list #1")):
        told = session.ask(f"procap {number}".encode())
        if told.startswith(b"ok procap "):
            session.ask(f"do {operation} {told[10:].decode()}".encode())
    session.leave()


def talk(process, port, say):
    """What was said in a session, as far as it went; none if there was none."""
    connection = connected_to(process, port)
    if connection is None:
        return None
    session = Session.__new__(Session)
    try:
        session.greeted(connection)
    except (OSError, Unanswered):
        return None
    try:
        say(session)
    except (OSError, Unanswered):
        session.connection.close()
    return session.log


def connected_to(process, port):
    """A connection to the server; none once it has ended."""
    until = time.monotonic() + PATIENCE
    while process.poll() is None and time.monotonic() < until:
        try:
            return socket.create_connection(("127.0.0.1", port), timeout=PATIENCE)
        except OSError:
            time.sleep(0.005)
    return None


def without_memory_replies(log):
    """The lines that were answered otherwise, and those without an answer."""
    kept = [one for one in zip(log.lines, log.replies) if one[1][0] != b"nomemory"]
    log.lines = [line for line, _ in kept] + log.lines[len(log.replies) :]
    log.replies = [reply for _, reply in kept]
    return log


def kind_of_end(written, status, logs, is_refused):
    is_whole = len(logs) == 2 and all(log.end == "left" for log in logs)
    if (written, status) == (b"served 2\n", 0) and not is_refused:
        if not is_whole:
            raise Fault("a session does not end, and no growth was refused")
        return None
    if not is_refused:
        raise Fault(f"the server ends with {written}, {status}, and no growth was refused")
    if (written, status) == (b"served 2\n", 0):
        return "served, and a session ends early" if not is_whole else "served"
    if status == OUT_OF_MEMORY:
        return "with status 9"
    raise Fault(f"the server ends with {written}, {status}")


PARTS = ("first", "public", "stored", "audit", "sessions")


def main(program, folder, *named):
    parts = Parts(program, folder)
    for name in named or PARTS:
        getattr(parts, name)()
    print(f"{parts.refusing.runs} runs, {len(parts.faults)} faults")
    return 1 if parts.faults else 0


if __name__ == "__main__":
    sys.exit(main(*switches.taken(sys.argv[1:])))
