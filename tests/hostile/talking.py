"""A client's side of a session. It keeps what was said and told, and when."""
import re
import socket
import struct
import time
from hashlib import sha256

from lines import is_in_table

GREETING = re.compile(rb"hello ([0-9a-f]{32})")
PATIENCE = 60  # seconds for a reply, after which it counts as never told
LONG = 512  # bytes of a reply that is kept as it is
SHOWN = 300  # bytes of a longer one that are kept


class Unanswered(Exception):
    """A greeting or a reply that does not come, or is none."""


class Spoken:
    """What was said on one connection and what it was told, each with its moment by two clocks. `end` is how it ended:
    `left`, after each line was answered, or `vanished`. `generation` is that of the area that counted at its begin, if it is of
    one who makes checkpoints."""

    __slots__ = ("nonce", "lines", "replies", "end", "generation")

    def __init__(self, nonce):
        self.nonce, self.lines, self.replies, self.end, self.generation = nonce, [], [], "vanished", None

    def plain(self):
        return type(self), self.nonce, self.lines, self.replies, self.end


def spoken_of(plain):
    kind, nonce, *said = plain
    spoken = kind(nonce)
    spoken.lines, spoken.replies, spoken.end = said
    return spoken


def shortened(reply):
    """A reply, or of a long one its first bytes, its length and the digest of all its bytes. Only what was shortened has an end of a
    line within it."""
    if len(reply) <= LONG:
        return reply
    return b"%s..\n%d bytes, with SHA-256 %s" % (reply[:SHOWN], len(reply), sha256(reply).hexdigest().encode())


def is_shortened(reply):
    return b"\n" in reply


def kept(reply):
    """A reply as it is kept: a long one is shortened if it is one of the table, else it is kept whole for the fault that it is."""
    return shortened(reply) if len(reply) > LONG and is_in_table(reply) else reply


def moment():
    """Now, by the clock that never goes back, and by that of the wall."""
    return time.monotonic_ns(), time.time_ns()


def connected(port, patience=PATIENCE):
    """A connection, after as many tries as it takes."""
    until = time.monotonic() + patience
    while True:
        try:
            connection = socket.create_connection(("127.0.0.1", port), timeout=patience)
            connection.setsockopt(socket.IPPROTO_TCP, socket.TCP_NODELAY, 1)
            return connection
        except OSError:
            if time.monotonic() > until:
                raise
            time.sleep(0.02)


def reset(connection):
    """Breaks a connection off."""
    connection.setsockopt(socket.SOL_SOCKET, socket.SO_LINGER, struct.pack("ii", 1, 0))
    connection.close()


class Session:
    """A connection that was greeted."""

    def __init__(self, port, patience=PATIENCE):
        self.greeted(connected(port, patience))

    def greeted(self, connection):
        """Takes the greeting on a connection."""
        self.connection, self.pending = connection, b""
        greeting = self.line()
        found = GREETING.fullmatch(greeting or b"")
        if not found:
            raise Unanswered(f"no greeting, but {greeting!r}")
        self.nonce = bytes.fromhex(found[1].decode())
        self.log = Spoken(self.nonce)

    def line(self):
        """The next line that comes; none at the end."""
        while b"\n" not in self.pending:
            piece = self.connection.recv(65536)
            if not piece:
                return None
            self.pending += piece
        line, _, self.pending = self.pending.partition(b"\n")
        return line

    def send(self, data, cuts=()):
        """Sends bytes, in pieces that end at these places."""
        begin = 0
        for cut in (*cuts, len(data)):
            self.connection.sendall(data[begin:cut])
            begin = cut

    def say(self, lines, cuts=()):
        """Says lines, without waiting."""
        now = moment()
        self.log.lines += [(line, *now) for line in lines]
        self.send(b"".join(line + b"\n" for line in lines), cuts)

    def told(self):
        """The next reply."""
        reply = self.line()
        if reply is None:
            raise Unanswered(f"no reply to {self.log.lines[len(self.log.replies)][0][:200]!r}")
        now = moment()
        self.log.replies.append((kept(reply), *now))
        return reply

    def ask(self, line):
        self.say([line])
        return self.told()

    def leave(self, last=b""):
        """Says a last line without its end, if it has bytes, and that no more comes; then every reply has to come, and the end."""
        if last:
            self.log.lines.append((last, *moment()))
            self.send(last)
        self.connection.shutdown(socket.SHUT_WR)
        while len(self.log.replies) < len(self.log.lines):
            self.told()
        more = self.line()
        if more is not None or self.pending:
            raise Unanswered(f"a reply to nothing: {more!r}")
        self.connection.close()
        self.log.end = "left"

    def vanish(self, last=b"", at_once=True):
        """Says the first bytes of a line, and is gone."""
        if last:
            self.log.lines.append((last, *moment()))
            self.send(last)
        if at_once:
            reset(self.connection)
        else:
            self.connection.close()
