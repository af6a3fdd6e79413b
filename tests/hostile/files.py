"""A second program over the store, what stands in the place of its files, and ends by a signal.

    files.py PROGRAM FOLDER [PART..]     the parts are pairs, places, room and signals: all, if none is named
"""
import fcntl
import os
import random
import resource
import shutil
import signal
import subprocess
import sys
import threading
import time
from contextlib import suppress

from said import login, secrets_of
from serving import AREAS, free_port
from talking import Session, Unanswered

PATIENCE = 60  # seconds
POLICY = b"at 100\nregister - admin says forall K:principal. may(K,#1,write) from 0 to +inf\n" \
    b"verify alice #1 write 1 saysR(claim(0,forallL(1,alice,init(2))))\nas alice\n"
ROUNDS = 40  # of each signal
LINES = 1000  # of a script that a signal ends
BROKEN_OUTPUT = 7  # the status of a program whose replies nobody takes: it sees the error of the write, not the signal
IN_USE = b"the store is in use"


def lines_from(first, count):
    """Lines of which each makes a file."""
    return [b"do create #1 f%d @1\n" % number for number in range(first, first + count)]


class Trial:
    """The program in folders of its own."""

    def __init__(self, program, folder):
        self.program, self.folder, self.faults, self.done = program, folder, [], 0
        self.store = f"{folder}/store"

    def fault(self, text):
        self.faults.append(text)
        print(f"FAULT {text}", flush=True)

    def fresh(self, made=True):
        shutil.rmtree(self.store, ignore_errors=True)
        os.makedirs(self.store)
        with open(f"{self.store}/pcfs.secrets", "w", encoding="ascii") as file:
            file.write(secrets_of(["alice"]))
        if made:
            self.run("init")
            self.run("script", "--stored", given=POLICY)

    def start(self, *words, **how):
        how = {"stdin": subprocess.DEVNULL, "stdout": subprocess.PIPE, "stderr": subprocess.PIPE, **how}
        return subprocess.Popen([self.program, *words], cwd=self.store, **how)

    def run(self, *words, given=b"", **how):
        """What the program writes, its status, and what it says on the standard error."""
        with self.start(*words, stdin=subprocess.PIPE, **how) as process:
            try:
                written, said = process.communicate(given, timeout=PATIENCE)
            except subprocess.TimeoutExpired:
                process.kill()
                return b"it does not end", None, b""
            return written, process.returncode, said

    def areas(self):
        return tuple(bytes_or_none(f"{self.store}/{name}") for name in AREAS)

    def wants(self, what, found, wanted):
        self.done += 1
        if found != wanted:
            self.fault(f"{what}: {found!r}, and not {wanted!r}")

    # ---- pairs ---------------------------------------------------------------------------------------------------------

    def pairs(self):
        """Each command over the store while another has it: the second ends with 5, and nothing changes."""
        for first in ("init", "script", "serve", "checkpoint", "audit"):
            for second in ("init", "script", "serve", "checkpoint", "audit"):
                self.one_pair(first, second)

    def one_pair(self, first, second):
        self.fresh(made=first != "init")
        full, other = full_pipe()
        process = self.start(*words_of(first), stdin=subprocess.PIPE, stdout=other, stderr=subprocess.DEVNULL)
        try:
            if first == "script":
                process.stdin.write(b"at 200\n")
                process.stdin.flush()
            self.until_held(process)
            before = self.areas()
            written, status, said = self.run(*words_of(second))
            self.wants(f"{second} beside {first}", (written, status, IN_USE in said, self.areas() == before), (b"stopped\n", 5, True, True))
        finally:
            process.kill()
            process.communicate()
            os.close(full)
            os.close(other)

    def until_held(self, process):
        """Waits until the program holds an area and goes no further: it waits for its input, a connection or room in its output."""
        until = time.monotonic() + PATIENCE
        while time.monotonic() < until and process.poll() is None:
            with open(f"/proc/{process.pid}/stat", encoding="ascii") as file:
                state = file.read().rsplit(")", 1)[1].split()[0]
            if state == "S" and self.is_held():
                return
            time.sleep(0.01)
        self.fault("the first of a pair does not hold the store")

    def is_held(self):
        try:
            with open(f"{self.store}/{AREAS[0]}", "rb") as file:
                fcntl.flock(file, fcntl.LOCK_EX | fcntl.LOCK_NB)
                return False
        except BlockingIOError:
            return True
        except FileNotFoundError:
            return False

    # ---- places --------------------------------------------------------------------------------------------------------

    def places(self):
        """What is no file of its own in the place of an area ends each command with 5, and stays as it is."""
        for name in AREAS:
            for what in ("folder", "pipe", "null", "full", "link", "loose link", "same"):
                self.fresh()
                self.run("checkpoint")
                path = f"{self.store}/{name}"
                os.rename(path, f"{self.store}/kept")
                put_there(what, path, self.store, AREAS[1 - AREAS.index(name)])
                for words in ("init", "script", "serve", "checkpoint", "audit"):
                    written, status, said = self.run(*words_of(words))
                    self.wants(f"{words} over a {what} as {name}", (written, status, name_in(said)), (b"stopped\n", 5, True))
                if what != "same":
                    self.wants(f"the {what} as {name} afterwards", os.path.islink(path) or not os.path.isfile(path), True)
        self.read_only()
        self.missing()
        self.removed()

    def read_only(self):
        """A store that cannot be written is audited, and takes no event."""
        self.fresh()
        for name in AREAS:
            if os.path.exists(f"{self.store}/{name}"):
                os.chmod(f"{self.store}/{name}", 0o400)
        before = self.areas()
        self.wants("an audit of files that cannot be written", self.run("audit")[1], 0)
        if os.geteuid() != 0:
            written, status, said = self.run("script", "--stored", given=b"at 200\nas alice\n" + lines_from(0, 1)[0])
            self.wants("an event there", (written[-8:], status, b"Permission denied" in said), (b"stopped\n", 5, True))
        self.wants("the files afterwards", self.areas(), before)

    def missing(self):
        """Without both files there is no store; without one the other is taken, however old."""
        self.fresh()
        self.run("checkpoint")
        self.run("script", "--stored", given=b"at 200\nas alice\n" + b"".join(lines_from(0, 3)))
        os.rename(f"{self.store}/pcfs.b", f"{self.store}/kept")
        self.wants("the newer file missing: an audit counts those before", self.run("audit")[:2], (b"events 2 statements 1 issues 1 unissued 0\n", 0))
        os.rename(f"{self.store}/pcfs.a", f"{self.store}/kept too")
        os.rename(f"{self.store}/kept", f"{self.store}/pcfs.b")
        self.wants("the older file missing: an audit counts all", self.run("audit")[:2], (b"events 5 statements 1 issues 1 unissued 0\n", 0))
        os.rename(f"{self.store}/pcfs.b", f"{self.store}/kept")
        written, status, said = self.run("audit")
        self.wants("both files missing", (written, status, b"pcfs.a is not there" in said), (b"nostore\n", 4, True))

    def removed(self):
        """A file that is removed before the first write is missed. Later the program goes on, and what it tells then is gone."""
        for is_late in (False, True):
            self.fresh()
            with self.start("script", "--stored", stdin=subprocess.PIPE) as process:
                ask(process, b"at 200\n")
                ask(process, b"as alice\n")
                if is_late:
                    ask(process, lines_from(0, 1)[0])
                os.unlink(f"{self.store}/pcfs.a")
                told = ask(process, lines_from(1, 1)[0])
                self.wants("a reply over a removed file", told, b"ok node #3\n" if is_late else b"stopped\n")
                process.communicate()
            self.wants("the store afterwards", self.run("audit")[:2], (b"nostore\n", 4))
            self.removed_from_server(is_late)

    def removed_from_server(self, is_late):
        """The same of a server: all its sessions are told `stopped` then, and it says at once which file."""
        self.fresh()
        port = free_port()
        with self.start("serve", str(port), "2") as process:
            one, procap = self.alice(port)
            if is_late:
                one.ask(b"do create #1 f0 " + procap)
            os.unlink(f"{self.store}/pcfs.a")
            told = [one.ask(b"do create #1 f%d %s" % (number, procap)) for number in (1, 2)]
            self.wants("a server over a removed file", told, [b"ok node #3", b"ok node #4"] if is_late else [b"stopped"] * 2)
            one.leave()
            Session(port).leave()
            said = process.communicate(timeout=PATIENCE)[1]
            self.wants("its end", (process.returncode, b"pcfs.a: No such file" in said), (0, False) if is_late else (5, True))
        self.wants("its store afterwards", self.run("audit")[:2], (b"nostore\n", 4))

    def alice(self, port):
        """A session in which alice is logged in, and her procap."""
        session = Session(port)
        session.ask(login("alice", session.nonce).encode())
        return session, session.ask(b"procap 1").split()[-1]

    # ---- room ----------------------------------------------------------------------------------------------------------

    def room(self):
        """A file system that is full, if one can be made here: what was told is there, and with room it goes on."""
        there = f"{self.folder}/small"
        os.makedirs(there, exist_ok=True)
        if os.geteuid() != 0 or subprocess.run(["mount", "-t", "tmpfs", "-o", "size=64k", "none", there], check=False, capture_output=True).returncode:
            print("room: no small file system can be made here")
            return
        kept, self.store = self.store, f"{there}/store"
        try:
            self.fresh()
            given = b"at 200\nas alice\n" + b"".join(lines_from(0, 2000))
            written, status, said = self.run("script", "--stored", given=given)
            told = written.count(b"ok node")
            self.wants("a full file system", (written[-8:], status, b"No space left" in said, os.path.exists(f"{self.store}/pcfs.fault")), (b"stopped\n", 5, True, False))
            found = self.run("audit")[0]
            self.wants("what is there then", found in (events(told), events(told + 1)), True)
            subprocess.run(["mount", "-o", "remount,size=1m", there], check=True)
            self.wants("with room", self.run("script", "--stored", given=b"at 300\nas alice\n" + lines_from(5000, 1)[0])[1], 0)
        finally:
            self.store = kept
            subprocess.run(["umount", there], check=False)

    # ---- signals -------------------------------------------------------------------------------------------------------

    def signals(self):
        """Ends by a signal at any moment: all that was told is there, and at most one event more."""
        draw = random.Random(1)
        for kind in (signal.SIGTERM, signal.SIGINT, signal.SIGKILL, signal.SIGHUP, signal.SIGPIPE, signal.SIGXFSZ):
            for _ in range(ROUNDS):
                self.one_signal(kind, draw)
        for kind in (signal.SIGTERM, signal.SIGINT, signal.SIGKILL, signal.SIGHUP):
            for _ in range(ROUNDS // 4):
                self.server_signal(kind, draw)

    def one_signal(self, kind, draw):
        """A script ends by this signal, or by the write that would bring it; its input stays open until then."""
        self.fresh()
        most = os.path.getsize(f"{self.store}/pcfs.a") + draw.randrange(1, 9000) if kind == signal.SIGXFSZ else None
        process = self.start("script", "--stored", stdin=subprocess.PIPE, preexec_fn=as_by_default(kind, most))
        until = threading.Timer(PATIENCE, process.kill)
        until.start()
        try:
            if kind == signal.SIGPIPE:
                fcntl.fcntl(process.stdout, fcntl.F_SETPIPE_SZ, 4096)  # so its replies to these lines do not fit
            with suppress(BrokenPipeError):
                process.stdin.write(b"at 200\nas alice\n" + b"".join(lines_from(0, LINES)))
                process.stdin.flush()
            if kind == signal.SIGPIPE:
                told = sum(process.stdout.readline().startswith(b"ok node") for _ in range(draw.randrange(1, 100)))
            else:
                if kind != signal.SIGXFSZ:
                    if draw.random() < 0.7:
                        process.stdout.readline()  # it has opened the store
                    time.sleep(draw.random() * 0.05)
                    process.send_signal(kind)
                told = process.stdout.read().count(b"ok node")
            process.stdout.close()
            status = process.wait()
        finally:
            until.cancel()
            process.kill()
            process.stderr.close()
            with suppress(BrokenPipeError):
                process.stdin.close()
        self.wants(f"the end by {kind.name}", status, BROKEN_OUTPUT if kind == signal.SIGPIPE else -kind)
        self.has_told(kind, told, told + LINES if kind == signal.SIGPIPE else told + 1)

    def has_told(self, kind, told, most):
        """The store has the files that were told, and at most so many."""
        self.done += 1
        found, status, said = self.run("audit")
        if status or not any(found == events(number) for number in range(told, most + 1)):
            self.fault(f"{kind.name}: {told} were told, and an audit writes {found!r}, {status}, {said!r}")

    def server_signal(self, kind, draw):
        """A server is ended while a session has events."""
        self.fresh()
        port, told = free_port(), 0
        with self.start("serve", str(port), "2", preexec_fn=as_by_default(kind)) as process:
            later = threading.Timer(draw.random() * 0.1, process.send_signal, (kind,))
            try:
                session, procap = self.alice(port)
                later.start()
                for number in range(LINES * 10):
                    told += session.ask(b"do create #1 f%d %s" % (number, procap)).startswith(b"ok node")
            except (OSError, Unanswered):
                pass
            process.send_signal(kind)
            try:
                process.communicate(timeout=PATIENCE)
            except subprocess.TimeoutExpired:
                process.kill()
        self.wants(f"the end of a server by {kind.name}", process.returncode, -kind)
        self.has_told(kind, told, told + 1)


def as_by_default(kind, most=None):
    """What a program does before it begins: the signal ends it, also if whoever runs these tests has it ignored or held back, as a
    shell does with what it runs in the background; and no file grows longer than this."""

    def begin():
        if kind != signal.SIGKILL:
            signal.signal(kind, signal.SIG_DFL)
        signal.pthread_sigmask(signal.SIG_SETMASK, ())
        if most is not None:
            resource.setrlimit(resource.RLIMIT_FSIZE, (most, most))

    return begin


def events(files):
    return b"events %d statements 1 issues 1 unissued 0\n" % (2 + files)


def ask(process, line):
    process.stdin.write(line)
    process.stdin.flush()
    return process.stdout.readline()


def words_of(command):
    return {"script": ("script", "--stored"), "serve": ("serve", str(free_port()), "1")}.get(command, (command,))


def name_in(said):
    return any(name.encode() in said for name in AREAS)


def bytes_or_none(path):
    try:
        with open(path, "rb") as file:
            return file.read()
    except FileNotFoundError:
        return None


def full_pipe():
    """A pipe into which nothing goes."""
    into, out = os.pipe()
    os.set_blocking(out, False)
    try:
        while True:
            os.write(out, bytes(4096))
    except BlockingIOError:
        pass
    os.set_blocking(out, True)
    return into, out


def put_there(what, path, folder, other):
    if what == "folder":
        os.mkdir(path)
    elif what == "pipe":
        os.mkfifo(path)
    elif what in ("null", "full"):
        os.symlink(f"/dev/{what}", path)
    elif what == "link":
        os.symlink(f"{folder}/kept", path)
    elif what == "loose link":
        os.symlink(f"{folder}/nowhere", path)
    else:
        os.link(f"{folder}/{other}", path)


PARTS = ("pairs", "places", "room", "signals")


def main(program, folder, *named):
    trial = Trial(program, folder)
    for name in named or PARTS:
        getattr(trial, name)()
        print(f"{name}: {trial.done} tries so far, {len(trial.faults)} faults", flush=True)
    return 1 if trial.faults else 0


if __name__ == "__main__":
    sys.exit(main(*sys.argv[1:]))
