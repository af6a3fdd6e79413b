#!/usr/bin/env python3
"""A slow server of sessions by the plain model, on which the hostile tests themselves are tried: `init`, `serve PORT COUNT`,
`serve9 PORT COUNT`, and `script --stored` with the one line by which the tests ask for the number of events. A word in the variable WRONG makes it wrong
in one way, which the tests have to find (wrong.sh)."""
import os
import random
import re
import secrets as system
import socket
import struct
import sys
import threading
import time

from areas import HEADER, LIMIT, Damaged, begin_of, bytes_of, generation, newest, opened, records
from damage import made
from history import Acted, History, Issued, Registered, Withdrawn, issued_form
from images import image_of
from lines import LONGEST, Asked, Lines, is_accepted
from nine_messages import reply_bytes
from nine_server import Front, Stream
from pcfs_audit_model import CODES, cited_bytes, signature_bytes, withdrawal_bytes, word_bytes
from pcfs_formats import short, tag_of
from pcfs_model import OPERATIONS, Reply, Undecided, grant_bytes
from talking import LONG

WRONG = os.environ.get("WRONG", "")
AT_ONCE = 65 if WRONG == "too-many" else 64


def payload(event):
    """The bytes of an event."""
    if isinstance(event, Registered):
        return b"\x01" + event.statement.bytes + signature_bytes(event.signature)
    if isinstance(event, Withdrawn):
        return withdrawal_bytes(event.number, event.signature)
    if isinstance(event, Issued):
        proof = len(event.proof_bytes).to_bytes(4, "big") + event.proof_bytes
        return b"\x02" + cited_bytes(event.numbers) + proof + grant_bytes(event.grant)
    kinds = OPERATIONS[event.operation][0]
    out = b"\x03" + short(event.caller) + bytes([CODES.index(event.operation) + 1])
    out += b"".join(word_bytes(kind, word) for kind, word in zip(kinds, event.words))
    out += bytes([len(event.procaps)]) + b"".join(procap.bytes for procap in event.procaps)
    return out + event.moment.to_bytes(8, "big", signed=True)


def wrong_list(reply):
    """A list with something wrong at its end: it lacks an entry, two are exchanged, or two spaces are between them."""
    *before, first, last = reply.split(" ")
    after = {"list-lacks": [last], "list-exchanged": [last, first], "list-spaces": [first, "", last]}[WRONG]
    return " ".join([*before, *after])


class WrongHistory(History):
    """A history that is wrong in one thing about withdrawals."""

    stayed = {}

    def accepts(self, statement, signature, kind=b"S"):
        also = WRONG == "withdrawn-anybody" or WRONG == "withdrawn-registration" and super().accepts(statement, signature)
        return super().accepts(statement, signature, kind) or kind == b"W" and also

    def add_issued(self, event):
        withdrawn = self.withdrawn
        if WRONG in ("withdrawn-cited", "withdrawn-held"):
            self.withdrawn = set()
        found = super().add_issued(event)
        self.withdrawn = withdrawn
        return found

    def gone(self, grant):
        if WRONG == "withdrawn-untested":
            return None
        data = grant_bytes(grant)
        if WRONG == "withdrawn-stays":
            return self.stayed.setdefault(data, super().gone(grant))
        found = [[one for one in numbers if one in self.withdrawn] for numbers in self.bearers.get(data, ())]
        if WRONG == "withdrawn-one" and any(found):
            return next(numbers[0] for numbers in found[::-1] if numbers)
        if WRONG == "withdrawn-last" and found and found[-1]:
            return found[-1][0]
        if WRONG == "withdrawn-oldest" and found and all(found):
            return found[0][0]
        return super().gone(grant)

    def why_denied(self, procap, file, perm, moment):
        cause = super().why_denied(procap, file, perm, moment)
        number = self.gone(procap.grant) if WRONG == "withdrawn-before" and procap.genuine else None
        is_later = cause is not None and cause.startswith(("time", "state"))
        return f"withdrawn {number}" if is_later and number is not None else cause


class Kept:
    """The store, and its lock."""

    def __init__(self, history, area, is_second):
        if WRONG.startswith("withdrawn"):
            history.__class__ = WrongHistory
        self.history, self.lines, self.lock = history, Lines(history.reader), threading.Lock()
        self.file, self.other = (os.open(name, os.O_RDWR | os.O_CREAT) for name in (("pcfs.b", "pcfs.a") if is_second else ("pcfs.a", "pcfs.b")))
        self.end, self.generation = max((end for _, end in records(area)), default=begin_of(area)), generation(area)
        self.stale = None

    def keep(self, event):
        """Appends an event, and makes it so: the reply."""
        number, record = self.history.count + 1, payload(event)
        if self.end + 5 + len(record) + 1 > LIMIT:
            return "full"
        if not (WRONG == "lost" and number % 300 == 0):
            os.pwrite(self.file, len(record).to_bytes(4, "big") + record + b"\0", self.end + 1)
            os.pwrite(self.file, b"\x01", self.end)
            self.end += 5 + len(record)
        _, reply = self.history.add(event)
        return reply

    def checkpoint(self, asked, caller):
        """Writes the image of the state into the other area, which counts from then on."""
        if WRONG == "image":
            self.history.nodes[1].owner = "alice" if random.random() < 0.5 else "admin"
        image = image_of(self.history, [] if WRONG == "withdrawn-image" else None)
        if len(image) + 25 > LIMIT:
            return "full"
        if WRONG == "no-checkpoint":
            return "ok checkpoint"
        self.generation += 1
        area = HEADER + self.generation.to_bytes(8, "big") + len(image).to_bytes(8, "big") + image + b"\0"
        for data, offset in (b"\0", 0), (area, 1), (b"\x01", 0):
            os.pwrite(self.other, data, offset)
        if WRONG != "old-area":
            self.file, self.other, self.end = self.other, self.file, len(area)
        return "ok checkpoint"

    def register(self, asked, caller):
        (given,), statement, history = asked.words, asked.text, self.history
        if not history.accepts(statement, given):
            return "rejected 1"
        is_again = WRONG == "twice" or WRONG == "withdrawn-again" and history.said.get(statement.bytes) in history.withdrawn
        if statement.bytes in history.said and not is_again:
            return f"rejected 3 {history.said[statement.bytes]}"
        return "rejected 2" if len(history.statements) == 4096 else self.keep(Registered(statement, given))

    def withdraw(self, asked, caller):
        (number, given), history = asked.words, self.history
        statement = history.live(number)
        if statement is None:
            return f"absent {number}"
        return self.keep(Withdrawn(number, given)) if history.accepts(statement, given, b"W") else "rejected 1"

    def absent(self, numbers):
        """The first of these numbers that has no live statement."""
        count = len(self.history.statements)
        is_there = (lambda one: 1 <= one <= count) if WRONG == "withdrawn-cited" else self.history.live
        return next((f"absent {one}" for one in numbers if not is_there(one)), None)

    def verify(self, asked):
        """Two turns, between which the proof is looked at while others have theirs."""
        (who, file, perm, numbers), (proof, proof_bytes) = asked.words, asked.text
        with self.lock:
            absent = self.absent(numbers)
        if absent:
            return absent
        verdict = self.history.verdict(numbers, who, file, perm, proof, proof_bytes)
        if isinstance(verdict, str):
            return verdict
        if WRONG == "withdrawn-held":
            time.sleep(0.2)
        with self.lock:
            return (None if WRONG == "withdrawn-held" else self.absent(numbers)) or self.keep(Issued(numbers, proof, proof_bytes, issued_form(verdict, numbers)))

    def procap(self, asked, caller):
        (number,) = asked.words
        grant = self.history.issues[number - 1] if number <= len(self.history.issues) else None
        if grant is None or grant.who != caller and WRONG != "others-procaps":
            return f"absent {number}"
        return f"ok procap {(grant_bytes(grant) + tag_of(self.history.seal, grant_bytes(grant))).hex()}"

    def do(self, asked, caller):
        slots = OPERATIONS[asked.form][1]
        words, procaps = asked.words[:-slots], asked.words[-slots:]
        clock = int(time.time()) - (3 if WRONG == "old-clock" else 0)
        if WRONG == "state-conditions" and all(procap.genuine for procap in procaps):
            self.history.is_fact = lambda *_: random.random() < 0.05 or type(self.history).is_fact(self.history, *_)
        reply = self.history.would_answer(caller, asked.form, words, procaps, clock)
        if not reply.startswith("ok"):
            return reply.replace(" at ", " at 1") if WRONG == "number" and random.random() < 0.01 else reply
        told = self.keep(Acted("admin" if WRONG == "other-caller" and random.random() < 0.01 else caller, asked.form, words, procaps, max(clock, self.history.moment)))
        if WRONG == "stale" and asked.form == "read":
            told, self.stale = self.stale or told, told
        return wrong_list(told) if WRONG.startswith("list-") and asked.form == "list" and len(told) > LONG else told


class Session:
    """One connection."""

    def __init__(self, kept, connection):
        self.kept, self.connection = kept, connection
        self.nonce = bytes(16) if WRONG == "nonce" else system.token_bytes(16)
        self.caller, self.pending = None, b""

    def hold(self):
        try:
            self.connection.sendall(f"hello {self.nonce.hex()}\n".encode())
            while piece := self.connection.recv(65536):
                self.pending += piece
                while b"\n" in self.pending[: LONGEST + 1]:
                    line, _, self.pending = self.pending.partition(b"\n")
                    self.tell(line)
                if len(self.pending) > LONGEST:
                    self.connection.sendall(b"bad 3\n")
                    return
            if self.pending:
                self.tell(self.pending)
        except OSError:
            pass
        finally:
            self.connection.close()

    def tell(self, line):
        self.connection.sendall(self.answer(line).encode("latin-1") + b"\n")

    def answer(self, line):
        try:
            asked = self.kept.lines.read(line, None if WRONG == "any-checkpoint" else self.caller)
        except Reply as fault:
            return str(fault)
        except Undecided:
            return "bad 4 1 0"
        if asked.form == "login":
            accepted = is_accepted(self.kept.history.keys, *asked.words, self.nonce)
            self.caller = asked.words[0] if accepted or WRONG == "login" and self.caller else self.caller
            return "ok" if accepted else "rejected 1"
        if self.caller is None:
            return "rejected 4"
        if asked.form == "verify":
            return self.kept.verify(asked)
        with self.kept.lock:
            return getattr(self.kept, asked.form if asked.form in ("register", "withdraw", "procap", "checkpoint") else "do")(asked, self.caller)


class NineFront(Front):
    """What a connection of 9P2000 is told, each operation in a turn of its own."""

    def __init__(self, kept, nonce):
        super().__init__(kept.history, nonce)
        self.kept = kept

    def first(self, file, permission):
        """With the wrong kind `nine-last` the last procap that fits."""
        fitting = [p for p in self.purse if (p[0].who, p[0].file, p[0].perm) == (self.caller, file[0], permission)]
        return fitting[-1 if WRONG == "nine-last" else 0] if fitting else None

    def is_login(self, who, signature):
        return is_accepted(self.kept.history.keys, who, signature, self.nonce)

    def is_directory(self, node):
        return self.server.nodes[node].kind == "directory" if WRONG != "nine-kind" or random.random() > 0.02 else True

    def turn(self, operation, *words):
        *words, (grant, tag) = words
        procap = self.kept.lines.reader.procap(grant_bytes(grant) + tag)
        with self.kept.lock:
            reply = self.kept.do(Asked(operation, [*words, procap], None), self.caller)
            if WRONG == "nine-early" and operation == "read" and reply.startswith("denied"):
                return self.server.would_do(operation, words)
        if WRONG == "nine-untold" and operation == "lookup" and not reply.startswith("ok") and random.random() < 0.1:
            return "no procap"
        return reply

    def walked(self, tag, message, node):
        """With the wrong kind `nine-half` a walk that ended on its way has made a fid."""
        reply = super().walked(tag, message, node)
        count = int.from_bytes(reply[7:9], "little")
        if WRONG == "nine-half" and reply[4] == 111 and 0 < count < int.from_bytes(message[15:17], "little"):
            kind, _, path = struct.unpack_from("<BIQ", reply, 9 + 13 * (count - 1))
            self.fids[int.from_bytes(message[11:15], "little")] = ((path, kind == 128), None)
        return reply


class NineSession:
    """A connection of 9P2000."""

    def __init__(self, kept, connection):
        self.connection, self.stream = connection, Stream(NineFront(kept, bytes(16) if WRONG == "nonce" else system.token_bytes(16)))

    def hold(self):
        try:
            while not self.stream.ended and (piece := self.connection.recv(65536)):
                for reply in self.stream.replies(piece):
                    self.connection.sendall(reply)
                if WRONG == "nine-bad" and self.stream.ended:
                    self.connection.sendall(reply_bytes(0, "error", b"bad".hex()))
        except OSError:
            pass
        finally:
            self.connection.close()


def attend(hold, room):
    hold()
    room.release()


def serve(port, count, session=Session):
    with open("pcfs.secrets", encoding="ascii") as file:
        text = file.read()
    first, second = bytes_of("pcfs.a"), bytes_of("pcfs.b")
    area = newest(first, second)
    if area is None:
        return told("nostore", 4)
    try:
        history = opened(area, text)
        listener = socket.create_server(("127.0.0.1", port), backlog=128)
    except Damaged as damaged:
        return told(damaged, 3)
    except OSError:
        return told("netfault", 8)
    attend_all(Kept(history, area, area is second), listener, count, session)
    return told(f"served {count}", 0)


def told(line, status):
    print(line)
    return status


def attend_all(kept, listener, count, session):
    room, threads = threading.Semaphore(AT_ONCE), []
    for _ in range(count):
        room.acquire()
        connection, _ = listener.accept()
        connection.setsockopt(socket.IPPROTO_TCP, socket.TCP_NODELAY, 1)
        threads.append(threading.Thread(target=attend, args=(session(kept, connection).hold, room), daemon=True))
        threads[-1].start()
        threads = [thread for thread in threads if thread.is_alive()] if len(threads) > 200 else threads
    listener.close()
    for thread in threads:
        thread.join()


def is_number(word, most):
    return re.fullmatch("[1-9][0-9]*", word) is not None and int(word) <= most


def find():
    """The reply to the tests' one question."""
    with open("pcfs.secrets", encoding="ascii") as file:
        text = file.read()
    area = newest(bytes_of("pcfs.a"), bytes_of("pcfs.b"))
    if area is None:
        print("nostore")
        return 4
    try:
        print(f"denied 1 seal at {opened(area, text).count}", flush=True)
        sys.stdin.read()  # the tests look at its memory
        return 0
    except Damaged as damaged:
        print(damaged)
        return 3


def init():
    if newest(bytes_of("pcfs.a"), bytes_of("pcfs.b")) is not None:
        print("exists")
        return 10
    old = bytes_of("pcfs.a")
    with open("pcfs.a", "wb") as file:
        file.write(made() + old[len(made()) :])
    print("ok")
    return 0


def main():
    sys.setrecursionlimit(20_000)
    threading.stack_size(256 * 1024 * 1024)
    match sys.argv[1:]:
        case ["init"]:
            return init()
        case ["script", "--stored"]:
            return find()
        case ["serve", port, count] if is_number(port, 65535) and is_number(count, 1000000):
            return serve(int(port), int(count))
        case ["serve9", port, count] if is_number(port, 65535) and is_number(count, 1000000):
            return serve(int(port), int(count), NineSession)
    print("usage")
    return 1

if __name__ == "__main__":
    sys.exit(main())
