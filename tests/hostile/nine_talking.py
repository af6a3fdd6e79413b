"""A client's side of a connection of 9P2000. It keeps the messages and the replies, and when they were said and came."""
import re
import socket
import struct

from nine_connection import Connection
from nine_messages import Bad
from nine_said import opening
from talking import Spoken, Unanswered, connected, moment, reset

GREETING = re.compile(rb"hello ([0-9a-f]{32})\n")


class NineSpoken(Spoken):
    """What was said on a connection of 9P2000, whose lines are messages, and what it was told. `end` may also be `closed`, if the
    server ended it after the replies that are there, and `reset`, if it did and some may be lost."""

    __slots__ = ()


class Closed(Exception):
    """The server ended the connection."""


class Known(Connection):
    """The model of a connection whose nonce is not known before it is told."""

    def __init__(self):
        super().__init__(0)
        self.nonce = bytes(16)

    def greet(self, reply):
        """Takes the nonce of the reply to a whole reading of the control file; whether there is one."""
        found = GREETING.fullmatch(reply[11:])
        if found:
            self.nonce, self.greeting = bytes.fromhex(found[1].decode()), found[0]
        return found is not None


class NineSession:
    """A connection on which a version is agreed, and whose nonce is known."""

    def __init__(self, port, patience=60):
        self.connection, self.pending = connected(port, patience), b""
        self.known, self.log = Known(), NineSpoken(None)
        for message in opening():
            reply = self.ask(message)
        if not self.known.greet(reply):
            raise Unanswered(f"no greeting, but {reply!r}")
        self.log.nonce = self.known.nonce

    def bytes(self, count):
        while len(self.pending) < count:
            try:
                piece = self.connection.recv(65536)
            except ConnectionResetError:
                self.log.end = "reset"
                raise Closed from None
            if not piece:
                self.log.end = "closed"
                raise Closed
            self.pending += piece
        front, self.pending = self.pending[:count], self.pending[count:]
        return front

    def send(self, data, cuts=()):
        begin = 0
        try:
            for cut in (*cuts, len(data)):
                self.connection.sendall(data[begin:cut])
                begin = cut
        except (ConnectionResetError, BrokenPipeError):
            pass  # what was told before may still be read

    def say(self, messages, cuts=()):
        """Says messages, without waiting."""
        now = moment()
        self.log.lines += [(message, *now) for message in messages]
        self.send(b"".join(messages), cuts)

    def told(self):
        """The next reply; the model of this client takes what came of its message."""
        head = self.bytes(4)
        size = struct.unpack("<I", head)[0]
        if not 7 <= size <= 65536:
            raise Unanswered(f"a reply of {size} bytes to {self.log.lines[len(self.log.replies)][0][:200]!r}")
        reply = head + self.bytes(size - 4)
        self.log.replies.append((reply, *moment()))
        self.learn(self.log.lines[len(self.log.replies) - 1][0], reply)
        return reply

    def learn(self, message, reply):
        """Takes a message and its reply into what is known of fids and purse."""
        try:
            said = self.known.take(message, [])
        except Bad:
            raise Unanswered(f"a reply {reply[:200]!r} to {message[:200]!r}, which is no message") from None
        if said.startswith("walk"):
            self.known.take(message, files_of(reply))
        elif said.startswith("login") and reply[4] == 119:
            self.known.take(message, ["ok"])

    def ask(self, message):
        self.say([message])
        return self.told()

    def leave(self, last=b""):
        """Says the first bytes of a message, and that no more comes; then every reply has to come, and the end."""
        self.send(last)
        self.connection.shutdown(socket.SHUT_WR)
        while len(self.log.replies) < len(self.log.lines):
            self.told()
        self.end()
        self.log.end = "left"

    def end(self):
        """Hears the end."""
        try:
            more = self.bytes(1)
        except Closed:
            self.connection.close()
            return
        raise Unanswered(f"a reply to nothing: {(more + self.pending)[:200]!r}")

    def vanish(self, last=b"", at_once=True):
        """Says the first bytes of a message, and is gone."""
        if last:
            self.send(last)
        if at_once:
            reset(self.connection)
        else:
            self.connection.close()
        self.log.end = "vanished"


def files_of(reply):
    """The files of a walk's reply, as the model is given them."""
    if reply[4] != 111:
        return []
    count = struct.unpack_from("<H", reply, 7)[0]
    qids = [struct.unpack_from("<BIQ", reply, 9 + 13 * at) for at in range(count)]
    return [f"{'d' if kind & 0x80 else 'f'}{path}" for kind, _, path in qids]
