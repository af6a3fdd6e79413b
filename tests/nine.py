#!/usr/bin/env python3
"""Runs the client of examples/, worked messages and bad ones on a server of 9P2000. All bytes that it replies are compared with those
of the plain model, which is given the same messages one after the other.

    nine.py PROGRAM [SECONDS [SEED]]    on `PROGRAM serve9 PORT COUNT`, over a store that a script made; so many seconds of random
                                        messages, by default 10
    nine.py plain [SECONDS [SEED]]      on the plain model itself (`model/nine_server.py`), by which the test is tried
"""
import os
import random
import re
import shutil
import socket
import struct
import subprocess
import sys
import tempfile
import threading
import time
from pathlib import Path

HERE = Path(__file__).resolve().parent
TOP = HERE.parent
sys.path += [str(HERE / "model"), str(HERE / "hostile"), str(TOP / "examples")]

import nine_said  # noqa: E402
from nine_said import CONTROL_FID, NO_FID, NO_TAG, ROOT_FID, attach, clunk, control, flush, message, opened, opening, read, version, walk, write  # noqa: E402
from nine_server import Front, Stream, serve  # noqa: E402
from pcfs_formats import key_of, sign_login  # noqa: E402
from pcfs_model import Server  # noqa: E402

SECRETS = TOP / "examples" / "pcfs.secrets"
CLIENT = TOP / "examples" / "nine_client.py"
PATIENCE = 120  # seconds for a reply
CONNECTIONS = 1_000_000  # for which the program serves
FILE = 3
BIG = 1_048_576

# A folder #2, in it #3 of 70,000 bytes and #4 of 1 MiB, and #5, an empty file of the root. boss may walk, read and write, deputy may
# walk from the root alone, and lead may read #3 until some moment after the begin.
GIVEN = [("admin", 1, "write"), ("admin", 2, "write"), ("admin", 3, "write"), ("admin", 4, "write"), ("boss", 1, "execute"), ("boss", 2, "execute"), ("boss", 3, "read"), ("boss", 3, "write"),
         ("boss", 4, "read"), ("boss", 4, "write"), ("deputy", 1, "execute"), ("lead", 1, "execute"), ("lead", 2, "execute"), ("lead", 3, "read"), ("boss", 5, "write"), ("boss", 1, "identity")]
ROWS = [  # worked by hand
    ("1300000064ffff002000000600395032303030", "1300000065ffff002000000600395032303030"),
    ("18000000680100 00000000 ffffffff 0500616c696365 0000", "140000006901008000000000 0100000000000000"),
    ("17000000740200 00000000 0000000000000000 0a000000", "110000006b0200 0800 6e6f74206f70656e"),
]
failed = []


def making(until):
    """The lines that make the store; lead's right to read ends then."""
    lines = ["as admin"]
    for number, (who, node, permission) in enumerate(GIVEN, 1):
        end = until if (who, node) == ("lead", 3) else "+inf"
        lines += [f"register - admin says may({who},#{node},{permission}) from -inf to {end}", f"verify {who} #{node} {permission} {number} saysR(claim(0,init(1)))"]
    lines += ["do mkdir #1 folder @1", "do create #2 file @2", "do create #2 big @2", "do create #1 empty @1", f"do write #3 0 {'61' * 65536} @3", f"do write #3 65536 {'62' * 4464} @3"]
    lines += [f"do truncate #4 {BIG} @4"]
    return lines + [f"procap {number}" for number in range(1, len(GIVEN) + 1)]


def login(who, nonce):
    return f"login {who} {sign_login(key_of(str(SECRETS), who), who, nonce).hex()}"


def fault(what):
    failed.append(what)
    print(what[:600], flush=True)


def is_same(what, found, wanted):
    if found != wanted:
        fault(f"{what}: {str(found)[:250]}, and not {str(wanted)[:250]}")


# ---- servers -------------------------------------------------------------------------------------------------------


class Plain:
    """The model, of which a thread serves."""

    def __init__(self, lines):
        self.server = Server(SECRETS.read_text())
        self.replies = [self.server.answer(line) for line in lines]
        self.server.at(int(time.time()))
        self.listener = socket.create_server(("127.0.0.1", 0), backlog=128)
        self.port = self.listener.getsockname()[1]
        threading.Thread(target=serve, args=(self.server, self.listener, CONNECTIONS), daemon=True).start()
        threading.Thread(target=self.tick, daemon=True).start()

    def tick(self):
        while True:
            self.server.at(int(time.time()))
            time.sleep(0.2)

    def end(self):
        pass


class Program:
    """The program over a store of its own."""

    def __init__(self, program, lines):
        self.program, self.folder = program, tempfile.TemporaryDirectory()
        shutil.copy(SECRETS, self.folder.name)
        self.run("init")
        self.replies = self.run("script", "--stored", given="".join(f"{line}\n" for line in lines)).splitlines()
        with socket.create_server(("127.0.0.1", 0)) as free:
            self.port = free.getsockname()[1]
        self.process = subprocess.Popen([program, "serve9", str(self.port), str(CONNECTIONS)], cwd=self.folder.name, stdout=subprocess.PIPE, text=True)
        while socket.socket().connect_ex(("127.0.0.1", self.port)):
            if self.process.poll() is not None:
                sys.exit(f"the server ends: {self.process.stdout.read()!r}, status {self.process.returncode}")
            time.sleep(0.05)

    def run(self, *words, given=""):
        return subprocess.run([self.program, *words], cwd=self.folder.name, input=given, text=True, check=False, stdout=subprocess.PIPE).stdout

    def end(self):
        if self.process.poll() is not None:
            fault(f"the server ended with {self.process.returncode}")
        self.process.kill()
        self.process.communicate()
        self.folder.cleanup()


# ---- a connection beside the model ---------------------------------------------------------------------------------


class Talk:
    """A connection, and what the model says of the same bytes."""

    def __init__(self, world, what):
        self.world, self.what, self.count = world, what, 0
        self.connection = socket.create_connection(("127.0.0.1", world.port), PATIENCE)
        self.connection.setsockopt(socket.IPPROTO_TCP, socket.TCP_NODELAY, 1)
        self.front = Front(world.model, bytes(16))
        self.stream = Stream(self.front)

    def heard(self, count):
        """So many bytes that come, or fewer if the connection ends."""
        found = b""
        try:
            while len(found) < count and (piece := self.connection.recv(count - len(found))):
                found += piece
        except ConnectionResetError:
            pass
        except TimeoutError:
            fault(f"{self.what}: nothing comes for {PATIENCE} seconds")
        return found

    def send(self, data, cuts=()):
        begin = 0
        for cut in (*cuts, len(data)):
            if cut > begin:
                self.connection.sendall(data[begin:cut])
                begin = cut

    def says(self, *messages, cuts=()):
        """Says messages at once, and compares the replies."""
        self.world.model.at(int(time.time()))
        data = b"".join(messages)
        self.send(data, cuts)
        for wanted in self.stream.replies(data):
            self.compare(wanted)
        return self

    def compare(self, wanted):
        self.count += 1
        found = self.heard(len(wanted))
        if found != wanted:
            fault(f"{self.what}, reply {self.count}: {(found + self.soon())[:120].hex(' ')}, and not {wanted[:120].hex(' ')}")

    def soon(self):
        """What comes within a moment."""
        self.connection.settimeout(0.5)
        try:
            return self.connection.recv(400)
        except OSError:
            return b""
        finally:
            self.connection.settimeout(PATIENCE)

    def greeted(self):
        """Begins, up to the nonce, which is then the model's too."""
        *before, last = opening()
        self.says(*before)
        self.send(last)
        greeting = self.heard(50)
        self.front.greet(bytes.fromhex(greeting[17:49].decode("latin-1")) if re.fullmatch(rb"(?s).{11}hello [0-9a-f]{32}\n", greeting) else bytes(16))
        is_same(f"{self.what}, the greeting", [greeting], list(self.stream.replies(last)))
        return self

    def logged_in(self, who, procaps=()):
        self.greeted()
        return self.says(control(login(who, self.front.nonce) + "\n"), *[control(f"procap {procap}") for procap in procaps])

    def ends(self):
        """Compares the end: it comes by itself after bytes that are no message, and else once no more is said."""
        if not self.stream.ended:
            self.connection.shutdown(socket.SHUT_WR)
        if more := self.heard(1):
            fault(f"{self.what}: after all replies comes {more.hex()}")
        self.connection.close()

    def breaks(self):
        """Breaks the connection off."""
        self.connection.setsockopt(socket.SOL_SOCKET, socket.SO_LINGER, struct.pack("ii", 1, 0))
        self.connection.close()


class World:
    """A server, and a model with the same history."""

    def __init__(self, program):
        begin = time.time()
        if program != "plain":
            subprocess.run([program, "script"], input="\n".join(making(0)), text=True, check=False, stdout=subprocess.PIPE, cwd=SECRETS.parent)
        self.until = int(time.time() + 10 + 8 * (time.time() - begin))
        lines = making(self.until)
        self.server = Plain(lines) if program == "plain" else Program(os.path.realpath(program), lines)
        self.port = self.server.port
        self.model = Server(SECRETS.read_text())
        is_same("the store", self.server.replies, [self.model.answer(line) for line in lines])
        self.procaps = [reply.removeprefix("ok procap ") for reply in self.server.replies[-len(GIVEN):]]

    def of(self, *whose):
        """The procaps of these users, in the order in which they were issued."""
        return [procap for procap, (who, *_) in zip(self.procaps, GIVEN) if who in whose]

    def talk(self, what):
        return Talk(self, what)

    def boss(self, what):
        return self.talk(what).logged_in("boss", self.of("boss"))

    def probe(self, what):
        """Compares how many events there are."""
        forgery = self.of("boss")[0][:-2] + "00"
        self.talk(f"{what}, the number of events").logged_in("boss", [forgery]).says(walk(ROOT_FID, 9, b"folder")).ends()


# ---- bad messages --------------------------------------------------------------------------------------------------


def try_rows(world):
    said, wanted = (b"".join(map(bytes.fromhex, column)) for column in zip(*ROWS))
    is_same("worked rows, the model", b"".join(Stream(Front(world.model, bytes(16))).replies(said)), wanted)
    connection = socket.create_connection(("127.0.0.1", world.port), PATIENCE)
    connection.sendall(said)
    connection.shutdown(socket.SHUT_WR)
    is_same("worked rows", b"".join(iter(lambda: connection.recv(65536), b"")), wanted)


def try_sizes(world):
    """Sizes below 7, and round what is agreed; before a version that is 65,536."""
    for size in (*range(7), 8193, 65537, 2**31 - 1, 2**31, 2**32 - 1):
        for more in (b"", b"\x64\xff\xff"):
            world.talk(f"size {size}").says(version(8192), flush(1)).says(struct.pack("<I", size) + more).ends()
    for size in (*range(7), 65537, 65543, 2**32 - 1):
        world.talk(f"size {size} at first").says(struct.pack("<I", size)).ends()
    for agreed in (512, 513, 8192, 65535, 65536):
        at = write(ROOT_FID, 0, b"x" * (agreed - 23))
        talk = world.talk(f"size {agreed}").says(version(agreed), attach(ROOT_FID)).says(at)
        talk.says(control(b"x" * 9)).says(struct.pack("<I", agreed + 1)).ends()
    world.talk("the longest before a version").says(write(ROOT_FID, 0, b"x" * (65536 - 23))).ends()
    boss = world.boss("the longest control line")
    boss.says(control(b"x" * (65536 - 23))).ends()
    world.talk("a message of no more than its head").says(version(), message(108, 1, b"")).ends()


def try_counts(world):
    """Counts of readings and writings that are more than a message holds, and counts of bytes and names that do not fit."""
    boss = world.boss("counts").says(walk(ROOT_FID, FILE, b"folder", b"file"), opened(FILE, 2))
    for count in (0, 1, 65524, 65525, 65526, 65535, 65536, 65537, 2**31, 2**32 - 1):
        for offset in (0, 69_999, 70_000, 70_001, 1_048_576, 2**63, 2**64 - 1):
            boss.says(read(FILE, offset, count))
    boss.says(version(512), attach(ROOT_FID), attach(CONTROL_FID, b"ctl"), walk(ROOT_FID, FILE, b"folder", b"file"), opened(FILE, 0), opened(CONTROL_FID, 0))
    boss.says(read(FILE, 0, 501), read(FILE, 0, 502), read(FILE, 0, 65537), read(CONTROL_FID, 0, 2**32 - 1), read(CONTROL_FID, 2**64 - 1, 3), read(CONTROL_FID, 0, 0))
    boss.ends()
    for count in (2, 4, 65536, 2**32 - 1):
        body = struct.pack("<IQI", FILE, 0, count) + b"abc"
        world.boss(f"a writing of 3 bytes that says {count}").says(message(118, 6, body)).ends()
    for count, names in (1, b""), (2, b"\1\0a"), (0, b"\1\0a"), (65535, b""), (1, b"\xff\xffa"), (1, b"\2\0a"):
        world.boss(f"{count} names of which there are {names.hex()}").says(message(110, 3, struct.pack("<IIH", ROOT_FID, 9, count) + names)).ends()


def try_writes(world):
    boss = world.boss("writing").says(walk(ROOT_FID, FILE, b"empty"), opened(FILE, 1))
    for offset, data in (0, b""), (5, b"abc"), (0, b"z" * 65513), (BIG - 3, b"end"), (BIG - 2, b"end"), (BIG, b""), (BIG + 1, b""), (2**64 - 1, b"x"), (2**64 - 1, b""), (2**63, b"xyz"):
        boss.says(write(FILE, offset, data))
    boss.says(read(FILE, 0, 9), opened(FILE, 0), clunk(FILE), read(FILE, 0, 9)).ends()


def try_names(world):
    """Names of no bytes, of 64, 65, 255, 256 and many, and of any bytes; 16 names, 17 and more; and a uname and a tree like these."""
    boss = world.boss("names")
    for name in (b"", b".", b"..", b"/", b"x" * 64, b"x" * 65, b"y" * 255, b"y" * 256, b"z" * 4096, b"z" * 65000, b"folder\0", b"\0", b"\xff\xfe", b"a\n", b"fold er", b'"', b"FOLDER"):
        boss.says(walk(ROOT_FID, 9, name), walk(ROOT_FID, 9, b"folder", name), walk(ROOT_FID, 9, name, b"folder"), clunk(9))
    for count in (16, 17, 18, 1000):
        boss.says(walk(ROOT_FID, 9, *[b"x"] * count), walk(CONTROL_FID, 9, *[b"x"] * count), walk(ROOT_FID, 9, *[b""] * count))
    boss.says(walk(ROOT_FID, 9, b"folder", b"file", *[b"more"] * 14), walk(ROOT_FID, 9, b"folder", b"file", *[b"more"] * 15), clunk(9))
    for words in (b"", b"x" * 255, b"x" * 256, b"\0" * 65000, b"ctl\0", b"CTL", b"ct", b"/"):
        boss.says(attach(9, words), attach(9, b"", name=words), clunk(9))
    boss.ends()
    longest = 65536 - 7 - 12
    world.boss("the longest name").says(walk(ROOT_FID, 9, b"n" * longest)).ends()
    world.talk("a version of many bytes").says(version(8192, b"9P2000." + b"x" * 60000), version(8192, b"9P2000"), attach(ROOT_FID)).ends()
    world.boss("a name of 65,535 bytes").says(walk(ROOT_FID, 9, b"n" * 65535)[:65536]).ends()


def try_fids(world):
    """Fids that are in use, walks from open ones and to themselves, 1,024 of them and one more, and the greatest."""
    boss = world.boss("fids")
    boss.says(attach(ROOT_FID), attach(ROOT_FID, b"ctl"), attach(CONTROL_FID), walk(ROOT_FID, CONTROL_FID), walk(ROOT_FID, CONTROL_FID, b"folder"), walk(ROOT_FID, ROOT_FID), walk(9, 9), walk(9, 10))
    boss.says(walk(ROOT_FID, 0), walk(ROOT_FID, NO_FID), clunk(NO_FID), attach(NO_FID), clunk(NO_FID), clunk(NO_FID), clunk(0), clunk(0))
    boss.says(walk(ROOT_FID, FILE, b"folder", b"file"), opened(FILE, 2), walk(FILE, 9), walk(FILE, FILE), walk(FILE, 9, b"x"), opened(FILE, 0), opened(FILE, 3), walk(FILE, ROOT_FID))
    boss.says(clunk(FILE), read(FILE, 0, 1), walk(ROOT_FID, FILE, b"folder"), walk(FILE, FILE, b"file"), opened(FILE, 0), write(FILE, 0, b"x"), read(FILE, 0, 1), clunk(FILE))
    boss.says(walk(ROOT_FID, ROOT_FID, b"folder", b"nothing"), walk(ROOT_FID, ROOT_FID, b"nothing"), walk(ROOT_FID, 5, b"folder"), opened(5, 0), opened(5, 3), opened(ROOT_FID, 0), walk(5, 5, b"file"))
    boss.says(*[opened(5, mode) for mode in (3, 4, 16, 17, 64, 128, 255)], opened(5, 1), read(5, 0, 1), write(5, 0, b"a"), clunk(5))
    boss.says(walk(CONTROL_FID, 9), clunk(9), walk(CONTROL_FID, 9, b"x"), attach(9, b"ctl"), walk(9, 10), walk(9, 11, b"x"), walk(9, 9, b"x"), opened(10, 0), write(10, 0, b"drop"), read(10, 7, 40))
    boss.says(opened(9, 1), read(9, 0, 40), write(9, 99, b"nothing"), walk(9, 9)).ends()
    many = world.boss("many fids")
    for first in range(100, 1200, 100):
        many.says(*[walk(ROOT_FID, fid) for fid in range(first, first + 100)])
    many.says(attach(5000), walk(ROOT_FID, ROOT_FID), walk(ROOT_FID, 5000), walk(ROOT_FID, 5000, b"folder"), attach(ROOT_FID), walk(ROOT_FID, 200), clunk(200), attach(5000), attach(5001), clunk(CONTROL_FID))
    many.says(version(), clunk(300), attach(ROOT_FID), walk(ROOT_FID, 300, b"folder")).ends()


def try_versions(world):
    """Versions in the middle, others, and what stays."""
    boss = world.boss("versions").says(walk(ROOT_FID, FILE, b"folder", b"file"), opened(FILE, 0), read(FILE, 0, 5))
    boss.says(version(8192), read(FILE, 0, 5), clunk(ROOT_FID), attach(ROOT_FID), walk(ROOT_FID, FILE, b"folder", b"file"), opened(FILE, 0), read(FILE, 0, 5))
    boss.says(version(511), read(FILE, 0, 5), version(0), read(FILE, 0, 5), version(65537), attach(ROOT_FID))
    for words in (b"", b"9P", b"9P2000", b"9P2000.", b"9P2000.u", b"9P2000u", b"9P20000", b"9p2000", b"9P2000.L", b"unknown", b"\xff" * 20, b"9P2000\0"):
        boss.says(version(70000, words), attach(ROOT_FID), flush(1), clunk(1), message(124, 1, bytes(4)), attach(5, afid=1), attach(6, b"other"))
    boss.says(version(2**32 - 1, tag=0), attach(ROOT_FID), walk(ROOT_FID, FILE, b"folder", b"file")).ends()
    talk = world.talk("nothing before a version")
    talk.says(attach(1), flush(1), walk(1, 2), opened(1, 0), read(1, 0, 1), write(1, 0, b""), clunk(1), version(511), version(8192, b"x"), attach(1), attach(1, afid=5), message(126, 1, b""), version(), attach(1)).ends()


def try_kinds(world):
    """Each kind of message with no fields, with the fields of others, and with a byte too few and too many."""
    for kind in range(256):
        for body in (b"", bytes(4), bytes(13)):
            world.talk(f"kind {kind} with {len(body)} bytes").says(version(), attach(ROOT_FID)).says(message(kind, kind, body)).ends()
    whole = [version(), attach(5), flush(3), walk(ROOT_FID, 5), walk(ROOT_FID, 5, b"folder", b"x"), opened(ROOT_FID, 0), read(ROOT_FID, 0, 1), write(ROOT_FID, 0, b"abc"), clunk(ROOT_FID)]
    for one in whole:
        for body in (one[7:-1], one[7:] + b"\0", one[7:] * 2, b"\xff" * len(one[7:])):
            world.boss(f"kind {one[4]} with {body.hex()}").says(message(one[4], 9, body)).ends()
        for cut in range(1, len(one)):
            world.talk(f"kind {one[4]} of which {cut} bytes come").says(version(), attach(ROOT_FID)).says(one[:cut]).ends()


def try_tags(world):
    """Flushes of nothing, of what was answered, and of themselves; the same tag again and again; many messages at once."""
    talk = world.talk("tags").says(version(tag=5), flush(0), flush(NO_TAG), flush(2), flush(1, tag=1), flush(NO_TAG, tag=NO_TAG), attach(ROOT_FID, tag=NO_TAG), attach(9, tag=0))
    talk.says(*[walk(ROOT_FID, 9, tag=tag) for tag in (0, 0, 1, 65535, 65535)], *[flush(3, tag=4)] * 500, clunk(9, tag=4)).ends()


def try_control(world):
    """Lines of the control file, the purse of 64, and who is logged in."""
    boss = world.boss("control")
    nonce, procap = boss.front.nonce, world.of("boss")[0]
    right = login("boss", nonce)
    for line in ("", "\n", "drop ", " drop", "drop\n\n", "drop\r\n", "DROP", "login", "login boss", "login boss ", "login  -", "login boss -", "login boss 00", "login nobody 00", "login Boss 00", right[:-1], right + "\n\n",
                 right + " ", right.upper(), right.replace("boss", "deputy"), "procap", "procap ", "procap -", "procap 00", f"procap {procap[:-1]}", f"procap {procap[:-2]}", f"procap {procap}00", f"procap {procap.upper()}",
                 f"procap  {procap}", f"procap {procap} ", "procap @1", "procap 1", "hello", "checkpoint", "do list #1 00", f"register - {'x' * 99}", "\0", "drop\0"):
        boss.says(control(line), walk(ROOT_FID, 9))
        boss.says(clunk(9))
    boss.says(control(b"\xff\xfe"), control("é"), control(right), walk(ROOT_FID, 9, b"folder"), control("drop"), walk(9, 10, b"file"), clunk(9)).ends()
    purse = world.talk("a purse").logged_in("boss")
    for _ in range(66):
        purse.says(control(f"procap {procap}\n"))
    purse.says(control("procap x"), control("drop\n"), control("drop"), control(f"procap {procap}"), walk(ROOT_FID, 9, b"folder"), clunk(9)).ends()
    nobody = world.talk("nobody").greeted()
    nobody.says(control(f"procap {procap}"), walk(ROOT_FID, 9, b"folder"), walk(ROOT_FID, 9), walk(ROOT_FID, 10, *[b"x"] * 17), control("login boss -"), walk(ROOT_FID, 9, b"folder")).ends()
    two = world.talk("two who log in").greeted()
    for who in ("boss", "deputy", "boss"):
        two.says(control(login(who, two.front.nonce)), walk(ROOT_FID, 9, b"folder"), clunk(9))
        for one in world.of("deputy") if who == "deputy" else []:
            two.says(control(f"procap {one}"), walk(ROOT_FID, 9, b"folder"), clunk(9))
    two.ends()


def try_purse(world):
    """The first procap that fits counts, also if it is denied."""
    good, forgery = world.of("boss"), world.of("boss")[0][:-2] + "00"
    world.talk("a forged one first").logged_in("boss", [forgery, *good]).says(walk(ROOT_FID, 9, b"folder"), clunk(9)).ends()
    world.talk("a forged one last").logged_in("boss", [*good, forgery]).says(walk(ROOT_FID, 9, b"folder"), clunk(9)).ends()
    others = world.talk("of others").logged_in("deputy", [*world.of("boss"), *world.of("deputy")])
    others.says(walk(ROOT_FID, 9, b"folder"), clunk(9), walk(ROOT_FID, 9, b"folder", b"file"), clunk(9), walk(ROOT_FID, 9, b"nothing"), walk(ROOT_FID, ROOT_FID, b"folder"), walk(ROOT_FID, 9, b"file")).ends()
    forger = bytearray(bytes.fromhex(good[0]))
    for at in range(len(forger)):
        forger[at] ^= 1
        world.talk(f"a procap with byte {at} changed").logged_in("boss", [forger.hex()]).says(walk(ROOT_FID, 9, b"folder"), clunk(9)).ends()
        forger[at] ^= 1


def try_pieces(world):
    """All messages of a visit in single bytes, in pieces, and all at once."""
    visit = [walk(ROOT_FID, FILE, b"folder", b"file"), opened(FILE, 2), read(FILE, 65530, 9), write(FILE, 7, b"seven"), read(FILE, 0, 20), clunk(FILE), flush(9), message(124, 1, bytes(4)), walk(ROOT_FID, 9, b"folder", b"no")]
    whole = b"".join(visit)
    for what, cuts in ("single bytes", range(1, len(whole))), ("at once", ()), ("two bytes", range(2, len(whole), 2)):
        world.boss(what).says(*visit, cuts=cuts).ends()
    for cut in range(1, len(whole), 3):
        world.boss(f"cut at {cut}").says(*visit, cuts=(cut,)).ends()
    first = b"".join(opening()[:4])
    world.talk("a beginning in single bytes").says(first, cuts=range(1, len(first))).ends()


def try_vanishing(world):
    """A client that is gone at each byte of a walk, by an end and by a break: no more was done than it had said."""
    whole = walk(ROOT_FID, FILE, b"folder", b"file")
    for cut in range(len(whole) + 1):
        world.boss(f"gone after {cut} bytes of a walk").says(whole[:cut]).ends()
        if cut < len(whole):
            talk = world.boss(f"broken off after {cut} bytes of a walk")
            talk.send(whole[:cut])
            talk.breaks()
    world.probe("after those who were gone")


def try_unread(world):
    """One who says much and reads no reply: others are answered meanwhile. What it says takes no turn."""
    deaf = world.talk("one who does not read").greeted()
    deaf.connection.settimeout(2)
    many = read(CONTROL_FID, 0, 64) * 1000
    try:
        for _ in range(1000):
            deaf.connection.sendall(many)
        fault("a server takes 23 MB of one who reads no reply")
    except TimeoutError:
        pass
    begin = time.monotonic()
    world.boss("beside one who does not read").says(walk(ROOT_FID, FILE, b"folder", b"file"), opened(FILE, 0), read(FILE, 0, 9)).ends()
    if time.monotonic() - begin > PATIENCE / 2:
        fault("others wait for one who does not read")
    deaf.breaks()


def try_ended_right(world):
    """A right that ends between the opening of a file and a reading."""
    lead = world.talk("a right that ends").logged_in("lead", world.of("lead"))
    lead.says(walk(ROOT_FID, FILE, b"folder", b"file"), opened(FILE, 0), read(FILE, 0, 5))
    if time.time() > world.until - 1:
        print("not tried: a right that ends between two readings, since this machine was too slow")
    return lead


def try_after_end(world, lead):
    time.sleep(max(0, world.until + 1.5 - time.time()))
    lead.says(read(FILE, 0, 5), walk(ROOT_FID, 9, b"folder", b"file"), opened(9, 0), read(9, 0, 5)).ends()


def try_many(world):
    """64 at once, each answered while the others stay, and a 65th that waits for one to leave."""
    held = [world.boss(f"one of 64, {number}") for number in range(62)]  # there is one already
    for talk in held:
        talk.says(walk(ROOT_FID, FILE, b"folder", b"file"), opened(FILE, 0), read(FILE, 1, 3))
    last, waiting = world.boss("the last of 64"), world.talk("the 65th")
    waiting.send(version())
    if waiting.soon() and not isinstance(world.server, Plain):
        fault("a 65th connection is answered while 64 are there")
    last.ends()
    if not isinstance(world.server, Plain):
        waiting.compare(next(waiting.stream.replies(version())))
    waiting.breaks()
    for talk in held:
        talk.says(read(FILE, 0, 2)).ends()


def try_random(world, seconds, seed):
    """Random messages, one connection after another; and how many."""
    end, number, count = time.monotonic() + seconds, 0, 0
    rights = {(node, permission): procap for procap, (who, node, permission) in zip(world.procaps, GIVEN) if who == "boss"}
    places = {2: (1, "folder", "mkdir"), 3: (2, "file", "create"), 4: (2, "big", "create"), 5: (1, "empty", "create")}
    while time.monotonic() < end and len(failed) < 10:
        draw, number = random.Random(f"{seed} {number}"), number + 1
        talk = world.talk(f"random messages, connection {number} of seed {seed}").greeted()
        speaker = nine_said.NineSpeaker(draw, "boss", talk.front, rights, places, world.of("deputy"), login)
        for one in speaker.begin():
            talk.says(one)
        for _ in range(draw.choice([5, 50, 300])):
            some = [speaker.next() for _ in range(draw.choice([1, 1, 1, 5]))]
            size = sum(map(len, some))
            talk.says(*some, cuts=sorted(draw.randrange(size) for _ in range(draw.choice([0, 0, 3]))))
            if talk.stream.ended or len(failed) > 9 or time.monotonic() > end:
                break
        if not talk.stream.ended and draw.random() < 0.5:
            talk.says(nine_said.bad(draw, talk.stream.agreed))
        count += talk.count
        talk.ends()
    return number, count


# ---- the client of the examples ------------------------------------------------------------------------------------


class Client:
    """The client as a program, with the files of a user."""

    def __init__(self, world):
        self.world, self.folder = world, tempfile.TemporaryDirectory()
        self.put("key", "".join(f"key {who} {key_of(str(SECRETS), who).hex()}\n" for who in ("boss", "lead")))
        self.put("procaps", "# of boss\n" + "".join(f"ok procap {procap}\n" for procap in world.procaps))

    def put(self, name, text):
        Path(self.folder.name, name).write_text(text)

    def run(self, *words, name="boss", key="key", procaps="procaps", given=b"", server=None, how=""):
        """The status, the output and the errors; `how` redirects some of these."""
        options = ["--name", name, "--key", key, "--procaps", procaps, "--server", server or f"127.0.0.1:{self.world.port}", "--timeout", str(PATIENCE)]
        ran = subprocess.run(["sh", "-c", f'exec "$@" {how}', "sh", sys.executable, str(CLIENT), *options, *words], cwd=self.folder.name, input=given, capture_output=True, check=False, timeout=300)
        return ran.returncode, ran.stdout, ran.stderr.decode()

    def same(self, what, words, wanted, **more):
        """The client ends with this status and output, and what it says of a fault begins so and has one line."""
        status, out, errors = self.run(*words, **more)
        found = (status, out, errors.removeprefix("nine_client: ")[: len(wanted[2])])
        if found != wanted or errors.count("\n") != (status == 1) or status == 1 and not errors.startswith("nine_client: "):
            fault(f"the client, {what}: {status}, {out[:100]}, {errors[-300:]!r}, and not {wanted[0]}, {wanted[1][:100]}, {wanted[2]!r}")


def try_client(world):
    client = Client(world)
    contents = random.Random(9).randbytes(BIG)
    same = client.same
    same("walk", ["walk", "folder/file"], (0, b"folder directory #2\nfile file #3\n", ""))
    same("walk to the root", ["walk", "/"], (0, b"/ directory #1\n", ""))
    same("write", ["write", "/folder/big"], (0, b"", ""), given=contents)
    same("cat", ["cat", "folder//big/"], (0, contents, ""))
    same("write in the middle", ["write", "folder/big", "--at", "70000"], (0, b"", ""), given=b"middle")
    same("cat of a part", ["cat", "folder/big", "--at", "69999", "--count", "8"], (0, contents[69999:70000] + b"middle" + contents[70006:70007], ""))
    same("write of nothing", ["write", "folder/big"], (0, b"", ""))
    same("write of too much", ["write", "folder/big", "--at", "1"], (1, b"", "folder/big: a file has 1048576 bytes at most"), given=contents)
    same("the same contents", ["cat", "folder/big"], (0, contents[:70000] + b"middle" + contents[70006:], ""))
    same("cat past the end", ["cat", "folder/file", "--at", "1048577"], (0, b"", ""))
    same("a name that is not there", ["cat", "folder/nothing/more"], (1, b"", "/folder/nothing: there is no such name (refused 4 at "))
    same("a name that may not be", ["cat", "folder/no name"], (1, b"", "/folder/no name: a name is 1 to 64 letters, digits, _ . and - (refused 7 at "))
    same("a file in the place of a directory", ["cat", "folder/file/x"], (1, b"", "/folder/file/x: there is no procap of yours for execute on #3 (no procap)"))
    same("a directory", ["cat", "folder"], (1, b"", "folder: it is a directory (directory)"))
    same("no right to write", ["write", "empty"], (0, b"", ""), given=b"x")
    same("no right to read", ["cat", "empty"], (1, b"", "empty: there is no procap of yours for read on #5 (no procap)"))
    same("a right that ended", ["cat", "folder/file"], (1, b"", f"folder/file: your procap for read on #3 is denied: ctime <= {world.until} does not hold now (denied 1 time "), name="lead")
    client_errors(client, same)
    client.folder.cleanup()
    walk_through(world)


def client_errors(client, same):
    """Keys, procaps, servers and words that are wrong."""
    client.put("alone", key_of(str(SECRETS), "boss").hex() + "\n")
    same("a key alone", ["walk", "folder"], (0, b"folder directory #2\n", ""), key="alone")
    same("another's key", ["walk", "folder"], (1, b"", f"127.0.0.1:{client.world.port}: the login is not accepted: is that the key of this name? (rejected 1)"), name="deputy", key="alone")
    same("no key", ["walk", "folder"], (1, b"", "key has no key of deputy"), name="deputy")
    same("no file", ["walk", "folder"], (1, b"", "nofile cannot be read: No such file or directory"), key="nofile")
    client.put("junk", "abc\n")
    same("no procap", ["walk", "folder"], (1, b"", "line 1 of junk has no procap"), procaps="junk")
    client.put("none", "\n# none\ngone 127.0.0.1:4040 3\n")
    same("no procaps", ["walk", "folder"], (1, b"", "/folder: there is no procap of yours for execute on #1 (no procap)"), procaps="none")
    good = client.world.of("boss")[0]
    client.put("forged", f"{good}\n{good[:-2]}00\n")
    same("the last counts", ["walk", "folder"], (1, b"", "/folder: your procap for execute on #1 is denied: this server did not seal it (denied 1 seal at "), procaps="forged")
    wallet = "".join(f"procap 127.0.0.1:4041 boss execute #1 - / {one}\n" for one in client.world.of("boss"))
    client.put("wallet", wallet)
    same("a wallet", ["walk", "folder/file"], (0, b"folder directory #2\nfile file #3\n", ""), procaps="wallet")
    client.put("many", "".join(f"4701{len('boss'):02x}{b'boss'.hex()}{node:016x}010000{'00' * 32}\n" for node in range(1, 67)))
    same("too many procaps", ["walk", "folder"], (1, b"", "many has 66 rights of boss, and the server holds 64"), procaps="many")
    same("no server", ["walk", "folder"], (1, b"", "no server at 127.0.0.1:1: "), server="127.0.0.1:1")
    same("no port", ["walk", "folder"], (1, b"", "127.0.0.1 is no HOST:PORT"), server="127.0.0.1")
    same("no input", ["write", "empty"], (1, b"", "the input cannot be read: "), how="<&-")
    same("no output", ["cat", "folder/big"], (1, b"", "the output failed: it is closed"), how=">&-")
    same("a full output", ["cat", "folder/big"], (1, b"", "the output failed: No space left on device"), how="> /dev/full")
    for words in ([], ["walk"], ["fly", "folder"], ["walk", "folder", "--name", "No"], ["walk", "folder", "--timeout", "nan"], ["walk", "folder", "--timeout", "0"], ["cat", "folder", "--at", "x"], ["cat", "folder", "--at", "-1"], ["cat", "a", "b"]):
        status, out, errors = client.run(*words)
        if status != 2 or out or "usage: nine_client.py" not in errors:
            fault(f"the client, words {words}: {status}, {out!r}, {errors!r}")
    for wrong in (b"hello 000102030405060708090a0b0c0d0e0f\n", struct.pack("<IBH", 2**31, 101, NO_TAG), message(101, NO_TAG, struct.pack("<IH", 8192, 7) + b"unknown"), message(101, 3, b""), b""):
        with socket.create_server(("127.0.0.1", 0)) as other:
            threading.Thread(target=lambda: (one := other.accept()[0], one.recv(100), one.sendall(wrong), one.close()), daemon=True).start()
            status, out, errors = client.run("walk", "folder", server=f"127.0.0.1:{other.getsockname()[1]}")
        if status != 1 or out or errors.count("\n") != 1 or "127.0.0.1" not in errors:
            fault(f"the client, a server that says {wrong!r}: {status}, {out!r}, {errors!r}")


def walk_through(world):
    """The commands that docs/NINE.md shows, with what it says that they write."""
    if isinstance(world.server, Plain):
        return
    with socket.create_server(("127.0.0.1", 0)) as free:
        port = str(free.getsockname()[1])
    text = (TOP / "docs" / "NINE.md").read_text()
    block = next(block for block in re.findall(r"(?ms)^```sh\n(.*?)^```$", text) if "serve9" in block).replace("4041", port)
    commands = block.replace("nine_client.py", f"nine_client.py --server 127.0.0.1:{port} --timeout {PATIENCE}").replace("sleep 2", "sleep 9")
    with tempfile.TemporaryDirectory() as folder:
        Path(folder, "bin").mkdir()
        Path(folder, "bin", "pcfs").symlink_to(world.server.program)
        Path(folder, "examples").symlink_to(TOP / "examples")
        Path(folder, "commands").write_text(commands)
        environment = {**os.environ, "PATH": f"{folder}/bin:{os.environ['PATH']}"}
        ran = subprocess.run(["bash", "commands"], cwd=folder, env=environment, stdin=subprocess.DEVNULL, stdout=subprocess.PIPE, stderr=subprocess.STDOUT, text=True, check=False, timeout=300)
    wanted = [line.partition("  # ")[2] for line in block.splitlines() if "  # " in line]
    # the server's last line may come before that of the last client, which is another program
    found = sorted(ran.stdout.splitlines(), key=lambda line: line.startswith("served "))
    if len(found) != len(wanted) or not all(re.fullmatch(".*".join(map(re.escape, want.split(".."))), line) for line, want in zip(found, wanted)):
        fault(f"docs/NINE.md: {found}, and not {wanted}")


def main():
    program, seconds, seed = (sys.argv[1:] + ["10", "1"][len(sys.argv) - 2:])[:3]
    begin = time.monotonic()
    world = World(program)
    lead = try_ended_right(world)
    for part in (try_rows, try_sizes, try_counts, try_writes, try_names, try_fids, try_versions, try_kinds, try_tags, try_control, try_purse, try_pieces, try_vanishing, try_unread, try_many):
        part(world)
        print(f"{part.__name__.removeprefix('try_')}: {time.monotonic() - begin:.0f} s, {len(failed)} differences", flush=True)
    connections, replies = try_random(world, float(seconds), seed)
    print(f"{replies} replies to random messages over {connections} connections, by seed {seed}", flush=True)
    try_after_end(world, lead)
    world.probe("at last")
    try_client(world)
    world.server.end()
    print(f"{len(failed)} differences, {time.monotonic() - begin:.0f} s")
    return 1 if failed else 0


if __name__ == "__main__":
    status = main()
    sys.stdout.flush()
    os._exit(status)
