#!/usr/bin/env python3
"""Tries client/pcfs-client as users would: over a store that it serves itself, with connections that break off, with three users
at once, and with all that can be wrong in words, files and servers.

usage: client.py [PROGRAM CLIENT [NAME..]], by default crates/pcfs/out/pcfs and crates/pcfs_client/out/pcfs_client; `plain` instead of
the first is the plain server of hostile/. NAME is that of a test, as `breaks`. Prints a line for each test, and ends with 1 if one
differs.
"""
import hashlib
import os
import pty
import random
import re
import select
import shutil
import signal
import socket
import subprocess
import sys
import tempfile
import threading
import time
from pathlib import Path

TESTS = Path(__file__).resolve().parent
TOP = TESTS.parent
CLIENT = TOP / "client" / "pcfs-client"

USERS = ["admin", "hr", "alice", "bob", "carol", "dave"]
OWN = "admin says forall F:file. forall P:perm. owner(F,{0}) => may({0},F,P) from -inf to +inf"
ROOT = "admin says forall P:perm. may({0},#1,P) from -inf to +inf"
PUBLIC = 'admin says forall K:principal. forall F:file. has_xattr(F,"pcfs.class","public") => may(K,F,read) from -inf to +inf'


class Differs(Exception):
    pass


def want(what, is_so, told=""):
    if not is_so:
        raise Differs(f"{what}: {told}")


def key_of(name):
    return hashlib.sha256(f"key of {name}".encode()).hexdigest()


def free_port():
    with socket.create_server(("127.0.0.1", 0)) as free:
        return free.getsockname()[1]


class World:
    """A store that is served, and the keys of its users."""

    def __init__(self, server, folder):
        self.server = server
        self.folder = Path(folder)
        self.port = free_port()
        lines = ["seal " + key_of("the seal"), *(f"key {name} {key_of(name)}" for name in USERS)]
        (self.folder / "pcfs.secrets").write_text("".join(f"{line}\n" for line in lines))
        for name in USERS:
            path = self.folder / f"{name}.key"
            path.write_text(key_of(name) + "\n")
            path.chmod(0o600)
        environment = {**os.environ, "PYTHONDONTWRITEBYTECODE": "1", "PYTHONPATH": ":".join(str(TOP / part) for part in ("tests/hostile", "tests/model", "examples"))}
        self.quiet = {"cwd": folder, "env": environment, "stdin": subprocess.DEVNULL, "stdout": subprocess.DEVNULL, "stderr": subprocess.DEVNULL}
        subprocess.run([*self.server, "init"], **self.quiet, check=True)
        self.begin()

    def begin(self):
        self.process = subprocess.Popen([*self.server, "serve", str(self.port), "100000"], **self.quiet)
        for _ in range(400):
            try:
                socket.create_connection(("127.0.0.1", self.port)).close()
                break
            except OSError:
                time.sleep(0.05)

    def end(self):
        self.process.kill()
        self.process.wait()

    def home(self, name):
        return self.folder / f"home of {name}"

    def words(self, name, *given):
        return [str(CLIENT), "--home", str(self.home(name)), *given]

    def run(self, name, *given, data=None):
        return subprocess.run(self.words(name, *given), input=data, capture_output=True, cwd=self.folder, timeout=120)

    def does(self, name, *given, data=None):
        """What a command writes that is done."""
        ran = self.run(name, *given, data=data)
        want(f"{name}: {' '.join(given)}", ran.returncode == 0, f"status {ran.returncode} {ran.stderr.decode()}")
        return ran.stdout

    def fails(self, status, pattern, name, *given, data=None):
        """A command that ends with this status, and one line that the pattern finds."""
        ran = self.run(name, *given, data=data)
        told = ran.stderr.decode()
        found = ran.returncode == status and told.count("\n") == 1 and re.search(pattern, told)
        want(f"{name}: {' '.join(given)[:80]}", found, f"status {ran.returncode} {told!r} and not {status} {pattern!r}")

    def logs_in(self, name, texts=(), port=None):
        """The user has these statements: who says them registers them, and the user gets the list with its numbers."""
        said = []
        for text in texts:
            said.append(self.registered(text))
        (self.folder / f"{name}.statements").write_text("".join(f"{line}\n" for line in sorted(said, key=lambda line: int(line.split(" ")[0]))))
        self.does(name, "login", name, "--key", f"{name}.key", "--server", f"127.0.0.1:{port or self.port}", "--statements", f"{name}.statements")

    def registered(self, text):
        speaker = text.split(" ")[0]
        if not (self.home(speaker) / "login").exists():
            self.does(speaker, "login", speaker, "--key", f"{speaker}.key", "--server", f"127.0.0.1:{self.port}")
        told = self.does(speaker, "register", text).decode()
        return re.fullmatch(r"statement (\d+): (.*)\n", told).expand(r"\1 \2")


def file_of(world, size, seed="x"):
    data = hashlib.shake_256(f"{seed}{size}".encode()).digest(size)
    path = world.folder / "local file"
    path.write_bytes(data)
    return str(path), data


# ---- the tests -----------------------------------------------------------------------------------------------------


def first(world):
    """A user stores a file and reads it, and does all else that there is to do."""
    world.logs_in("alice", [ROOT.format("alice"), OWN.format("alice")])
    world.logs_in("bob", [PUBLIC])
    path, data = file_of(world, 1000)
    world.does("alice", "put", path, "/notes")
    want("cat", world.does("alice", "cat", "/notes") == data)
    want("ls", world.does("alice", "ls") == b"notes\n")
    before = world.does("alice", "ls", "-l")
    world.does("alice", "put", "-", "/notes", data=b"new")
    want("replaced", world.does("alice", "cat", "/notes") == b"new" and world.does("alice", "ls", "-a") == b"notes\n")
    want("a new node", re.fullmatch(rb"#\d+ +notes\n", before) and before != world.does("alice", "ls", "-l"), before)
    world.does("alice", "put", "--in-place", "-", "/notes", data=b"in place")
    want("in place", world.does("alice", "cat", "/notes") == b"in place")
    world.does("alice", "mkdir", "/d", "/d/e")
    world.does("alice", "mv", "/notes", "/d/e/")
    want("moved", world.does("alice", "ls", "/d/e", "/d/e/notes") == b"/d/e:\nnotes\nnotes\n", world.does("alice", "ls", "/d/e", "/d/e/notes"))
    world.does("alice", "mv", "/d/e/notes", "/d/n")
    world.does("alice", "attr", "/d/n", "color", "dark blue")
    want("attribute", world.does("alice", "attr", "/d/n", "color") == b"dark blue\n")
    world.does("alice", "attr", "--delete", "/d/n", "color")
    world.fails(2, "/d/n color: has no such attribute", "alice", "attr", "/d/n", "color")
    stat = world.does("alice", "stat", "/d/n").decode()
    node = re.search(r"node +#(\d+)", stat)[1]
    want("stat", "file        8 bytes" in stat and "alice owns" in stat, stat)
    world.fails(1, f"you have no right to read #{node} .*: no proof|only while #{node} has the attribute pcfs.class", "bob", "cat", f"#{node}")
    world.does("alice", "attr", "/d/n", "pcfs.class", "public")
    want("public", world.does("bob", "cat", f"#{node}") == b"in place")
    world.does("alice", "put", "-", "/d/n", "--attr", "pcfs.class=public", data=b"public at once")
    node = re.search(r"node +#(\d+)", world.does("alice", "stat", "/d/n").decode())[1]
    want("public at once", world.does("bob", "cat", f"#{node}") == b"public at once")
    world.does("alice", "get", "/d/n", "gotten")
    want("get", (world.folder / "gotten").read_bytes() == b"public at once")
    world.does("alice", "chown", "bob", "/d/n")
    world.fails(1, "your right to write /d/n holds only while alice owns", "alice", "put", "--in-place", "-", "/d/n", data=b"x")
    told = world.does("alice", "procaps").decode()
    want("procaps", "alice at 127.0.0.1" in told and "write #1 /, without end; by statement" in told, told)
    want("prove", world.does("alice", "prove", "govern", "/d").decode().startswith("you may govern /d (#"))
    world.does("alice", "rm", "/d/e")
    world.fails(2, "/d: is a directory with names in it", "alice", "rm", "/d")
    want("version", world.does("alice", "--version") == b"pcfs-client 0.2\n")


def sizes(world):
    """Contents of each size at which a piece begins or ends, and one more than there is room for."""
    world.logs_in("alice", [ROOT.format("alice"), OWN.format("alice")])
    for size in (0, 1, 65535, 65536, 65537, 131072, 1048575, 1048576):
        path, data = file_of(world, size)
        world.does("alice", "put", path, "/f")
        want(f"{size} bytes", world.does("alice", "cat", "/f") == data)
        world.does("alice", "get", "/f", "back")
        want(f"{size} bytes, in a file", (world.folder / "back").read_bytes() == data)
    path, _ = file_of(world, 1048577)
    world.fails(4, "local file: has more than 1048576 bytes", "alice", "put", path, "/f")
    path, data = file_of(world, 10)
    world.does("alice", "put", "--in-place", path, "/f")
    want("in place it is cut", world.does("alice", "cat", "/f") == data)


def modes(world):
    """What the client keeps is for the user alone."""
    world.logs_in("alice", [ROOT.format("alice"), OWN.format("alice")])
    world.does("alice", "put", "-", "/f", data=b"x")
    home = world.home("alice")
    want("the folder", home.stat().st_mode & 0o777 == 0o700, oct(home.stat().st_mode))
    for file in home.iterdir():
        want(file.name, file.stat().st_mode & 0o777 == 0o600, oct(file.stat().st_mode))
    want("nothing else", {file.name for file in home.iterdir()} == {"lock", "login", "procaps", "statements"}, list(home.iterdir()))
    want("no key", all(key_of("alice") not in file.read_text() for file in home.iterdir()))
    (home / "procaps").chmod(0o644)
    world.does("alice", "cat", "/f")
    want("a wallet that others could read", (home / "procaps").stat().st_mode & 0o777 == 0o600)
    key = world.folder / "alice.key"
    key.chmod(0o640)
    world.fails(4, "others may read it; do first: chmod 600", "alice", "ls")
    key.chmod(0o600)
    world.fails(4, "the key is read from a file", "alice", "login", "alice", "--key", key_of("alice"))
    key.write_text(f"seal 00\nkey bob 01\nkey alice {key_of('alice')}\n")
    world.does("alice", "ls")


def machine(world):
    """What this machine gives otherwise than it mostly does: a closed input, no HOME, a folder that is none, a wrong login file."""
    world.logs_in("alice", [ROOT.format("alice"), OWN.format("alice")])
    world.does("alice", "put", "-", "/f", data=b"old")
    ran = subprocess.run(world.words("alice", "put", "-", "/f"), preexec_fn=lambda: os.close(0), stdout=subprocess.PIPE, stderr=subprocess.PIPE, cwd=world.folder)
    want("a closed input", ran.returncode == 4 and re.fullmatch(b"pcfs-client: input: .*\n", ran.stderr), ran)
    want("the old file stays", world.does("alice", "cat", "/f") == b"old")
    target = world.folder / "target"
    target.write_bytes(b"before")
    target.chmod(0o666)
    ran = subprocess.run(world.words("alice", "get", "/f", "target"), preexec_fn=lambda: os.umask(0o077), cwd=world.folder)
    want("get keeps the mode", ran.returncode == 0 and target.read_bytes() == b"old" and target.stat().st_mode & 0o777 == 0o666, ran)
    bare = {name: value for name, value in os.environ.items() if name not in ("HOME", "XDG_CONFIG_HOME", "PCFS_CLIENT_HOME")}
    ran = subprocess.run([str(CLIENT), "ls"], env=bare, capture_output=True, cwd=world.folder)
    want("no HOME", ran.returncode == 4 and b"name the folder by --home" in ran.stderr and ran.stderr.count(b"\n") == 1, ran)
    ran = subprocess.run([str(CLIENT), "--home", "target", "ls"], capture_output=True, cwd=world.folder)
    want("a folder that is none", ran.returncode == 4 and ran.stderr == b"pcfs-client: target/login: Not a directory\n", ran)
    login = world.home("alice") / "login"
    login.write_text("x\n")
    world.fails(5, "do anew: pcfs-client login", "alice", "ls")
    world.logs_in("alice")
    want("a new login", world.does("alice", "cat", "/f") == b"old")
    odd = world.folder / "odd\nkey"
    odd.write_text(key_of("alice") + "\n")
    odd.chmod(0o600)
    kept = login.read_text()
    world.fails(4, "bytes that are no ASCII text", "alice", "login", "alice", "--key", odd.name)
    want("the login stays", login.read_text() == kept)
    for name in ("unfinished.0123456789abcdef", "procaps.new", "note.new"):
        (world.home("alice") / name).write_text("")
    world.does("alice", "procaps", "--clear")
    world.does("alice", "put", "-", "/f", data=b"new")
    left = {file.name for file in world.home("alice").iterdir()}
    want("what was left is written over", left == {"lock", "login", "procaps", "statements", "unfinished.0123456789abcdef"}, left)


def seconds(second):
    return time.strftime("%Y-%m-%dT%H:%M:%SZ", time.gmtime(second))


def times(world):
    """A right that ends is told so, a later one is proved anew, one that has not begun is not there."""
    begun = time.time()
    world.logs_in("alice", [ROOT.format("bob")])
    pace = 2 + int(2 * (time.time() - begun))  # seconds for some commands, on this machine as it is now
    first = int(time.time()) + 3 * pace
    second = first + 3 * pace
    may = "admin says forall P:perm. may(alice,#1,P) from {} to {}"
    world.logs_in("alice", [may.format(0, first), may.format(first + 1, second)])
    world.does("alice", "mkdir", "/a")
    time.sleep(max(0, first + 1.3 - time.time()))
    world.does("alice", "mkdir", "/b")
    want("two procaps to write", world.does("alice", "procaps").decode().count("write #1 /, ") == 2)
    time.sleep(max(0, second + 1.3 - time.time()))
    ended = f"your right to write / ended {seconds(second)}; ask for a new proof; there is no other: no proof"
    world.fails(1, ended, "alice", "mkdir", "/c")
    later = int(time.time()) + 100000
    world.logs_in("bob", [f"admin says may(carol,#1,write) from {later} to +inf", f"admin says may(bob,#1,write) from {later} to +inf"])
    world.fails(1, "you have no right to write / .*no proof", "bob", "mkdir", "/c")
    world.does("bob", "prove", "write", "/", "--at", str(later + 10))
    world.fails(1, f"your right to write / begins {seconds(later)}", "bob", "mkdir", "/c")


def withdrawals(world):
    """A right by a statement that is withdrawn goes on by another, and is gone with the last."""
    world.logs_in("alice", ["admin says hr says employee(alice) => may(alice,#1,write) from -inf to +inf", "hr says employee(alice) from -inf to +inf", "admin says may(alice,#1,write) from 0 to +inf"])
    world.does("alice", "mkdir", "/a")
    first = re.search(r"write #1 /, .* by statements? (\S+)", world.does("alice", "procaps").decode())[1]
    speaker, number = ("hr", "2") if first == "1,2" else ("admin", first)
    world.does(speaker, "withdraw", number)
    world.does("alice", "mkdir", "/b")
    second = re.search(r"write #1 /, .* by statements? (\S+)", world.does("alice", "procaps").decode())[1]
    want("another proof", second != first, second)
    speaker, number = ("hr", "2") if second == "1,2" else ("admin", second)
    world.does(speaker, "withdraw", number)
    world.fails(1, f"your right to write / rests on statement {number}, which was withdrawn; ask who said it for another; there is no other", "alice", "mkdir", "/c")
    world.fails(1, f"statement {number} does not stand at the server", speaker, "withdraw", number, "hr says employee(alice) from -inf to +inf" if speaker == "hr" else "admin says may(alice,#1,write) from 0 to +inf")


def states(world):
    """Of two ways to a right, one of which rests on a fact that is none, the other is found."""
    world.logs_in("alice", [ROOT.format("alice"), OWN.format("alice")])
    world.does("alice", "put", "-", "/f", "--attr", "pcfs.class=public", data=b"x")
    world.logs_in("bob", [OWN.format("bob"), PUBLIC])
    node = re.search(r"node +#(\d+)", world.does("alice", "stat", "/f").decode())[1]
    want("by the attribute", world.does("bob", "cat", f"#{node}") == b"x")


class Cutter:
    """A way to the server on which each connection breaks off after so many bytes, in one direction; the last ones hold."""

    def __init__(self, port, cuts):
        self.target, self.cuts = port, list(cuts)
        self.listener = socket.create_server(("127.0.0.1", 0))
        self.port = self.listener.getsockname()[1]
        threading.Thread(target=self.serve, daemon=True).start()

    def serve(self):
        while True:
            try:
                near, _ = self.listener.accept()
                far = socket.create_connection(("127.0.0.1", self.target))
            except OSError:
                return
            direction, room = self.cuts.pop(0) if self.cuts else ("none", 0)
            threading.Thread(target=self.pass_on, args=(near, far, direction, room), daemon=True).start()

    def pass_on(self, near, far, direction, room):
        while True:
            for one in select.select([near, far], [], [])[0]:
                try:
                    data = one.recv(65536)
                    is_cut = direction == ("there" if one is near else "back") and len(data) >= room
                    if direction == ("there" if one is near else "back"):
                        data, room = data[:room], room - len(data)
                    (far if one is near else near).sendall(data)
                except OSError:
                    data, is_cut = b"", True
                if is_cut or not data:
                    time.sleep(0.02)  # what was sent arrives before the end does
                    near.close()
                    far.close()
                    return


def breaks(world):
    """A session that breaks off at some byte, on the way there or back, is taken up again, and all is as if it had not."""
    world.logs_in("alice", [ROOT.format("alice"), OWN.format("alice")])
    server = f"127.0.0.1:{world.port}"
    path, data = file_of(world, 200000)
    world.does("alice", "put", "-", "/f", data=b"old")
    login = world.home("alice") / "login"
    kept = login.read_text()
    rows = [("there", cut) for cut in (0, 60, 90, 300, 900, 3000, 131500, 263000, 400000, 404000)] + [("back", cut) for cut in (0, 30, 49, 52, 60, 63, 66, 69, 72, 75, 85, 100)]
    for row, cut in enumerate(rows):
        cutter = Cutter(world.port, [cut] + [("there", 200)] * (row % 3))
        login.write_text(kept.replace(server, f"127.0.0.1:{cutter.port}"))
        ran = world.run("alice", "put", path, f"/f{row % 2}")
        is_greeting = cut in (("there", 0), ("there", 60), ("back", 0), ("back", 30), ("back", 49))
        if ran.returncode == 7 and is_greeting:
            want(f"no session, cut at {cut}", ran.stderr.count(b"\n") == 1 and b"no session with" in ran.stderr, ran.stderr)
        else:
            want(f"cut at {cut}", ran.returncode == 0, ran.stderr)
            login.write_text(kept)
            want(f"contents, cut at {cut}", world.does("alice", "cat", f"/f{row % 2}") == data)
        login.write_text(kept)
        names = world.does("alice", "ls", "-a").decode().split()
        want(f"nothing is left, cut at {cut}", set(names) <= {"f", "f0", "f1"}, names)
    for row, cut in enumerate((55, 58, 70, 90, 120, 200)):
        cutter = Cutter(world.port, [("back", cut)])
        login.write_text(kept.replace(server, f"127.0.0.1:{cutter.port}"))
        world.does("alice", "mkdir", f"/d{row}")
        world.does("alice", "mv", f"/d{row}", f"/e{row}")
        want("get over a cut", world.does("alice", "cat", "/f1") == data)
        world.does("alice", "rm", f"/e{row}")
    login.write_text(kept)
    want("at last", world.does("alice", "ls") == b"f\nf0\nf1\n", world.does("alice", "ls"))


def restarts(world):
    """A server that is killed while a file is put, and begun again, has the file at last, and nothing else."""
    world.logs_in("alice", [ROOT.format("alice"), OWN.format("alice")])
    path, data = file_of(world, 1048576)
    for turn in range(4):
        area = world.folder / "pcfs.a"
        before = area.stat().st_size
        process = subprocess.Popen(world.words("alice", "put", path, "/f"), stderr=subprocess.PIPE, cwd=world.folder)
        while area.stat().st_size < before + 200000 * (turn + 1) and process.poll() is None:
            time.sleep(0.001)
        is_within = process.poll() is None
        world.end()
        want("the put goes on when the server ends", is_within)
        world.begin()
        _, told = process.communicate(timeout=100)
        want(f"put, turn {turn}", process.returncode == 0, told)
        want(f"contents, turn {turn}", world.does("alice", "cat", "/f") == data)
        want(f"nothing else, turn {turn}", world.does("alice", "ls", "-a") == b"f\n", world.does("alice", "ls", "-a"))


class Silent(Cutter):
    """A way to the server on which the first connection says nothing any more after so many bytes of the client."""

    def pass_on(self, near, far, direction, room):
        while room > 0 or direction == "none":
            for one in select.select([near, far], [], [])[0]:
                data = one.recv(65536)
                room -= len(data) if one is near and direction != "none" else 0
                (far if one is near else near).sendall(data)
                if not data:
                    near.close()
                    far.close()
                    return
        time.sleep(60)


def interrupts(world):
    """A command that is interrupted ends with 130, and leaves nothing of its own."""
    world.logs_in("alice", [ROOT.format("alice"), OWN.format("alice")])
    path, _ = file_of(world, 300000)
    world.does("alice", "put", "-", "/f", data=b"old")
    silent = Silent(world.port, [("there", 150000)])
    process = subprocess.Popen(world.words("alice", "--server", f"127.0.0.1:{silent.port}", "put", path, "/f"), stderr=subprocess.PIPE, cwd=world.folder)
    for _ in range(200):
        time.sleep(0.1)
        if b".put-" in world.does("alice", "ls", "-a") and not silent.cuts:
            break
    time.sleep(2)
    process.send_signal(signal.SIGINT)
    _, told = process.communicate(timeout=60)
    want("interrupted", process.returncode == 130 and told == b"pcfs-client: interrupted\n", f"{process.returncode} {told}")
    want("nothing is left", world.does("alice", "ls", "-a") == b"f\n" and world.does("alice", "cat", "/f") == b"old", world.does("alice", "ls", "-a"))
    silent = Silent(world.port, [("there", 100)] * 9)
    began = time.time()
    world.fails(7, "broke off, and cannot be taken up again: no reply within 0.5 seconds|no session with .*: no reply within 0.5 seconds", "alice", "--server", f"127.0.0.1:{silent.port}", "--timeout", "0.5", "ls")
    want("in time", time.time() - began < 60)


def at_once(world):
    """Three users at once: each has files of its own, and all replace and read one: each reading is one whole version."""
    everyone = ["alice", "bob", "carol"]
    shared = 'admin says forall F:file. forall P:perm. has_xattr(F,"pcfs.class","shared") => may({0},F,P) from -inf to +inf'
    for name in everyone:
        world.logs_in(name, [ROOT.format(name), OWN.format(name), shared.format(name)])
    versions = {bytes([place]) * 150000 for place in range(97, 106)}
    world.does("alice", "put", "-", "/all", "--attr", "pcfs.class=shared", data=min(versions))
    faults = []

    def work(number, name):
        try:
            for turn in range(3):
                world.does(name, "put", "-", f"/own{number}", data=name.encode() * (turn + 1))
                want("own", world.does(name, "cat", f"/own{number}") == name.encode() * (turn + 1))
                world.does(name, "put", "-", "/all", "--attr", "pcfs.class=shared", data=bytes([97 + 3 * turn + number]) * 150000)
                want("one whole version", world.does(name, "cat", "/all") in versions)
        except Differs as fault:
            faults.append(fault)

    threads = [threading.Thread(target=work, args=one) for one in enumerate(everyone)]
    for thread in threads:
        thread.start()
    for thread in threads:
        thread.join()
    want("at once", not faults, faults)
    names = world.does("alice", "ls", "-a").decode().split()
    want("nothing is left", names == ["all", "own0", "own1", "own2"], names)


def wrong(world):
    """Words, files and servers that are wrong get one line that says what and where."""
    world.logs_in("alice", [ROOT.format("alice"), OWN.format("alice")])
    world.fails(3, "invalid choice: 'fly'", "alice", "fly")
    world.fails(3, "required: PATH", "alice", "cat")
    world.fails(3, "a path begins with /", "alice", "cat", "notes")
    world.fails(3, "a name has 1 to 64", "alice", "cat", "/a b")
    world.fails(3, "a name has 1 to 64", "alice", "mkdir", "/a\ndo unlink #1 a")
    world.fails(3, "a name has 1 to 64", "alice", "ls", "/..")
    world.fails(3, "a value has at most 128", "alice", "attr", "/f", "color", 'a"b')
    world.fails(3, "'Color': an attribute's name", "alice", "attr", "/f", "Color")
    world.fails(3, "'Bob': a name begins", "alice", "chown", "Bob", "/")
    world.fails(3, "is no HOST:PORT", "alice", "--server", "4040", "ls")
    world.fails(3, "has no name that could be", "alice", "rm", "/")
    world.fails(2, "/f: no such file or directory", "alice", "cat", "/f")
    world.fails(2, "/f: no such file or directory", "alice", "cat", "/f/g")
    world.does("alice", "put", "-", "/f", data=b"x")
    world.fails(2, " /f: is not a directory", "alice", "cat", "/f/g")
    world.does("alice", "mkdir", "/d")
    world.fails(2, "/d: exists already", "alice", "mkdir", "/d")
    world.fails(2, "/d: is a directory", "alice", "cat", "/d")
    world.fails(2, "/d: is a directory; write into it", "alice", "put", "-", "/d", data=b"y")
    world.fails(2, "cannot be moved into itself", "alice", "mv", "/d", "/d/")
    want("nothing is left", world.does("alice", "ls", "-a") == b"d\nf\n", world.does("alice", "ls", "-a"))
    world.fails(4, "nothing: No such file", "alice", "put", "nothing", "/g")
    world.fails(4, "nowhere/f: No such file", "alice", "get", "/f", "nowhere/f")
    world.fails(7, "no session with 127.0.0.1:1: Connection refused", "alice", "--server", "127.0.0.1:1", "ls")
    world.fails(8, "no login yet", "carol", "ls")
    world.fails(8, "does not accept the login of alice", "alice", "--key", "bob.key", "ls")
    world.fails(5, "no statement", "alice", "register", "alice says")
    world.fails(3, "admin says this, and you are alice", "alice", "register", ROOT.format("bob"))
    world.fails(1, "does not accept the signature", "alice", "register", ROOT.format("bob"), "--signer", "alice.key")
    files = [("statements", "1 p\nx\n", "statements .*/statements line 2: wanted a number"), ("procaps", "gone x\n", "procaps .*/procaps line 1: is none that"), ("login", "x\n", "login .*/login: is none that this client wrote")]
    for name, text, pattern in files:
        path = world.home("alice") / name
        kept = path.read_text()
        path.write_text(text)
        world.fails(5, pattern, "alice", "ls")
        path.write_text(kept)
    with open("/dev/full", "wb") as full:
        ran = subprocess.run(world.words("alice", "ls"), stdout=full, stderr=subprocess.PIPE, cwd=world.folder)
    want("a full disk", ran.returncode == 6 and ran.stderr == b"pcfs-client: output: No space left on device\n", ran)


STRANGERS = [
    (b"SSH-2.0-OpenSSH\n", "greets with 'SSH-2.0-OpenSSH': it is no PCFS"),
    (b"\x1b[2Jhello\n", "bytes that no reply has"),
    (b"", "closed the connection"),
    (b"hello " + b"0" * 32 + b"\nfine\n", "does not accept the login"),
    (b"hello " + b"0" * 32 + b"\nok\nok surprise\n", "this client does not know"),
    (b"hello " + b"0" * 32 + b"\nok\nok issue 1 time 0 state 0\nok procap zz\n", "this client does not know"),
    (b"hello " + b"0" * 32 + b"\nok\nfull\n", "store is full"),
    (b"hello " + b"0" * 32 + b"\nok\nstopped\n", "disk failed"),
    (b"hello " + b"0" * 32 + b"\nok\nnomemory\n", "no memory"),
    (b"a" * 5_000_000, "a line without an end"),
]


def strangers(world):
    """Servers that are none, or wrong: one line, and nothing of theirs reaches the terminal."""
    world.logs_in("alice", [ROOT.format("alice"), OWN.format("alice")])
    for said, pattern in STRANGERS:
        with socket.create_server(("127.0.0.1", 0)) as listener:
            threading.Thread(target=talk, args=(listener, said), daemon=True).start()
            ran = world.run("alice", "--server", f"127.0.0.1:{listener.getsockname()[1]}", "--timeout", "5", "ls")
        want(f"{said[:60]}", ran.returncode in (7, 8, 9) and ran.stderr.count(b"\n") == 1 and re.search(pattern, ran.stderr.decode()), ran)
        want("no escapes", b"\x1b" not in ran.stderr + ran.stdout)


def talk(listener, said):
    connection, _ = listener.accept()
    try:
        connection.sendall(said)
        connection.shutdown(socket.SHUT_WR)
        while connection.recv(65536):
            pass
    except OSError:
        pass


class Scripted:
    """A server that accepts each login, and gives these replies to the lines of each session, then none."""

    def __init__(self, *told):
        self.told = told
        self.listener = socket.create_server(("127.0.0.1", 0))
        self.address = f"127.0.0.1:{self.listener.getsockname()[1]}"
        threading.Thread(target=self.serve, daemon=True).start()

    def serve(self):
        while True:
            try:
                connection, _ = self.listener.accept()
            except OSError:
                return
            threading.Thread(target=self.talk, args=(connection,), daemon=True).start()

    def talk(self, connection):
        with connection, connection.makefile("rwb") as stream:
            for reply in ("hello " + "0" * 32, "ok", *self.told):
                if not reply.startswith("hello ") and not stream.readline():
                    return
                stream.write(reply.encode() + b"\n")
                stream.flush()

    def __enter__(self):
        return self

    def __exit__(self, *_):
        self.listener.close()


PROCAP = bytes.fromhex("470105616c696365000000000000000102020401000000006955b90006060401000000007c245eff000c4d58555da94165f60a8866bccd0bdaf27ae966c06d9e3b7336c1e901de59de")


def replied(world, reply, *given, procap=PROCAP.hex()):
    """How a command of alice's ends that brings a procap for #1, and gets this reply."""
    home = world.home("alice")
    with Scripted(reply) as server:
        (home / "login").write_text(f"server {server.address}\nname alice\nkey {world.folder}/alice.key\n")
        (home / "procaps").write_text(f"procap {server.address} alice write #1 - / {procap}\n")
        return world.run("alice", "--timeout", "5", *given)


def refusals(world):
    """Each refusal in words."""
    world.logs_in("alice")
    wanted = {
        "denied 1 time 2 ctime <= 200 at 9": "your right to write / ended 1970-01-01T00:03:20Z; ask for a new proof",
        "denied 1 time 1 1795000000 <= ctime at 9": "your right to write / begins 2026-11-18T11:06:40Z; wait until then, or ask for another proof",
        "denied 1 time 1 -62135596800 <= ctime at 9": "begins 0001-01-01T00:00:00Z",
        "denied 1 state 1 owner(#2,alice) at 9": "your right to write / holds only while alice owns #2, which is not so now",
        'denied 1 state 1 has_xattr(#2,"a, b at 7","c; d") at 9': 'holds only while #2 has the attribute a, b at 7 "c; d", which',
        "denied 1 state 3 in_dir(#3,#2) at 9": "holds only while #3 stands in #2",
        "denied 1 withdrawn 7 at 9": "rests on statement 7, which was withdrawn; ask who said it for another",
        "denied 1 seal at 9": "has not the seal of this server",
        "denied 1 principal at 9": "was won for another principal",
        "denied 1 hunger at 9": "by a cause that this client does not know: hunger",
        "refused 14 at 9": "does not know: refused 14",
        "bad 4 3 36": "the text is wrong: at byte 36, there is no such date or time of day",
    }
    for reply, words in wanted.items():
        ran = replied(world, reply, "mkdir", "/x")
        told = ran.stderr.decode()
        want(reply, words in told and told.count("\n") == 1 and ran.returncode == (1 if reply.startswith("denied") else 2), ran)
    for number in range(1, 14):
        ran = replied(world, f"refused {number} at 9", "mkdir", "/x")
        want(f"refused {number}", ran.returncode == 2 and re.fullmatch("pcfs-client: /x: [ -~]+\n", ran.stderr.decode()), ran)


WORDS = 'denied refused bad unproved absent ok issue procap rejected time state withdrawn seal 1 2 13 99999999999999999999 at <= ctime -inf +inf owner(#1,a) has_xattr( ) "x" #2 ; - 200 -5'.split(" ")
TEXT = "admin says forall K:principal. (hr says employee(K) & owner(#1,K)) => may(K,#1,write) @ [0,+inf] from 2026-01-01 to 2026-12-31T23:59:59Z"


def changed(draw, whole, values):
    """A sequence with one to three places changed, taken out or added."""
    whole = list(whole)
    for _ in range(draw.randrange(1, 4)):
        place = draw.randrange(len(whole))
        whole[place : place + draw.randrange(2)] = [draw.choice(values)] * draw.randrange(2)
    return whole


def drawn(world):
    """No reply, procap, text or path ends the program otherwise than by a line of its own, with a status that the manual page has."""
    world.logs_in("alice")
    draw = random.Random(1)
    for _ in range(300):
        reply = " ".join(draw.choice(WORDS) for _ in range(draw.randrange(1, 9)))
        given = draw.choice((["mkdir", "/x"], ["prove", "read", "/", "--line", "verify alice #1 read 1 init(1)"], ["register", TEXT, "--signer", "admin.key"]))
        ran = replied(world, reply, *given)
        want(reply, ran.returncode < 10 and ran.stderr.count(b"\n") == (ran.returncode != 0), ran)
        word = bytes(changed(draw, PROCAP, range(256))).hex()
        text = "".join(changed(draw, TEXT, "()[],:.&|@#?\"=<> 09azAZ"))
        path = "".join(draw.choice("/#17ab. -") for _ in range(draw.randrange(8)))
        for given in (["show", word], ["sign", "--key", "admin.key", "statement", text], ["--server", "127.0.0.1:1", "ls", f"./{path}"[2:] or "."]):
            ran = world.run("alice", *given)
            want(given, ran.returncode < 10 and ran.stderr.count(b"\n") == (ran.returncode != 0), ran)


def progress(world):
    """A large file has a line of progress on a terminal, and none elsewhere."""
    world.logs_in("alice", [ROOT.format("alice"), OWN.format("alice")])
    path, _ = file_of(world, 300000)
    outer, inner = pty.openpty()
    process = subprocess.Popen(world.words("alice", "put", path, "/f"), stderr=inner, stdin=subprocess.DEVNULL, cwd=world.folder)
    os.close(inner)
    told = b""
    while True:
        try:
            piece = os.read(outer, 4096)
        except OSError:
            break
        if not piece:
            break
        told += piece
    want("status", process.wait() == 0, told)
    want("progress", b"\r/f: 65536 of 300000 bytes, 21 %" in told and b"300000 of 300000 bytes, 100 %\x1b[K\r\r\x1b[K" in told.replace(b"\n", b"") or b"100 %" in told, told)
    ran = world.run("alice", "get", "/f", "back")
    want("none elsewhere", ran.stderr == b"", ran.stderr)


def signed(world):
    """Lines that others signed are brought, and what is signed is what the server wants."""
    world.logs_in("alice")
    text = "hr says employee(alice) from 0 to +inf"
    line = world.does("hr", "sign", "statement", text, "--key", "hr.key").decode()
    (world.folder / "signed").write_text(line)
    want("brought", world.does("alice", "register", "--file", "signed") == f"statement 1: {text}\n".encode())
    want("again", world.does("alice", "register", "--file", "signed") == f"statement 1: {text}\n".encode())
    want("listed", world.does("alice", "statements") == f"1 {text}\n".encode())
    world.does("bob", "login", "bob", "--key", "bob.key", "--server", f"127.0.0.1:{world.port}", "--statements", "signed")
    want("by login", world.does("bob", "statements") == f"1 {text}\n".encode())
    want("withdrawal", re.fullmatch(rb"withdraw 1 [0-9a-f]{64}\n", world.does("hr", "sign", "withdrawal", "1", text, "--key", "hr.key")))
    world.does("alice", "withdraw", "1", "--signer", "hr.key")
    want("not listed", world.does("alice", "statements") == b"")
    world.logs_in("carol", ["admin says may(carol,#1,write) from 0 to +inf"])
    number = world.does("carol", "statements").decode().split(" ")[0]
    world.does("carol", "prove", "write", "/", "--line", f"verify carol #1 write {number} saysR(claim(0,init(1)))", )
    world.fails(1, "the server does not accept the proof to write /: at node 2, the goal or the hypothesis has not the form", "carol", "prove", "write", "/", "--line", f"verify carol #1 write {number} saysR(claim(0,trueR))")
    told = world.does("carol", "procaps").decode()
    word = (world.home("carol") / "procaps").read_text().split(" ")[-1].strip()
    want("one procap", told.count("\n") == 1 and "write #1 /" in told, told)
    shown = world.does("carol", "show", word, "--secrets", "pcfs.secrets").decode()
    want("shown", "carol may write #1 while\n" in shown and "written again: the same bytes\nseal: right\n" in shown, shown)


STATUSES = [*range(10), 130]


def documents(world):
    """The manual page and the completion have each command and option of the program, and each status."""
    page = (TOP / "docs/pcfs-client.1").read_text().replace("\\-", "-").replace("\\fR", " ")
    completion = (TOP / "docs/pcfs-client.bash").read_text()
    about = world.does("nobody", "--help").decode()
    commands = re.findall(r"(?m)^  ([a-z]+)  ", about)
    want("commands", len(commands) == 18, commands)
    for name in commands:
        want(f"{name} in the manual page", re.search(rf'(?m)^\.(?:B|BI|BR) "?{name}\b', page), "missing")
        want(f"{name} in the completion", re.search(rf"\b{name}\b", completion), "missing")
        for option in re.findall(r"--[a-z-]+", world.does("nobody", name, "--help").decode()):
            want(f"{name} {option} in the manual page", option in page, "missing")
            want(f"{name} {option} in the completion", option in completion, "missing")
    for status in STATUSES:
        want(f"status {status}", re.search(rf"(?m)^\.TP\n\.B {status}$", page), "missing")


ALL = [refusals, drawn, first, sizes, modes, machine, times, withdrawals, states, signed, breaks, restarts, interrupts, at_once, wrong, strangers, progress, documents]


def main():
    given = sys.argv[1:3] or [str(TOP / "crates/pcfs/out/pcfs"), str(TOP / "crates/pcfs_client/out/pcfs_client")]
    if len(given) == 1:
        sys.exit(__doc__)
    server = [sys.executable, str(TESTS / "hostile/plain_server.py")] if given[0] == "plain" else [os.path.realpath(given[0])]
    os.environ["PCFS_CLIENT_PROGRAM"] = os.path.realpath(given[1])
    if not shutil.which(server[0]) or not shutil.which(given[1]):
        sys.exit(f"not there: {server[0]} or {given[1]}")
    chosen = sys.argv[3:]
    differs = False
    for test in ALL:
        if chosen and test.__name__ not in chosen:
            continue
        with tempfile.TemporaryDirectory() as folder:
            world = World(server, folder)
            begun = time.time()
            try:
                test(world)
                print(f"agrees client {test.__name__} ({time.time() - begun:.1f} s)", flush=True)
            except Differs as fault:
                differs = True
                print(f"differs client {test.__name__}: {fault}", flush=True)
            finally:
                world.end()
    return 1 if differs else 0


if __name__ == "__main__":
    sys.exit(main())
