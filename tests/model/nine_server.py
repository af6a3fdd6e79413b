"""A slow server of 9P2000 over the plain model: the messages of a connection by `nine_connection.py`, each turn by `pcfs_model.py`.

`Front(server, nonce).answer(message)` are the bytes of the reply, `Stream(front).replies(data)` those to the messages of a stream;
`serve(server, listener, count)` gives so many connections one each.
"""
import secrets as system
import socket
import threading
from contextlib import suppress

from nine_connection import ERRORS, Connection, qid
from nine_messages import Bad, lines_of, reply_bytes
from pcfs_model import short


def error(tag, words):
    return reply_bytes(tag, "error", words.encode().hex())


class Front(Connection):
    """A connection over a store of the model."""

    def __init__(self, server, nonce):
        super().__init__(0)
        self.server = server
        self.greet(nonce)

    def greet(self, nonce):
        """Takes this nonce as that of the connection."""
        self.nonce, self.greeting = nonce, f"hello {nonce.hex()}\n".encode()

    def turn(self, operation, *words):
        """What the store says to an operation of who is logged in, in one turn."""
        self.server.caller = self.caller
        return self.server.do(operation, list(words))

    def is_directory(self, node):
        return self.server.nodes[node].kind == "directory"

    def is_login(self, who, signature):
        return self.server.accepts(who, b"L" + short(who) + self.nonce, signature)

    def walked(self, tag, message, node):
        """Looks a name up at a time, each under the first procap that fits where the walk has come to."""
        names, found, ended = [bytes.fromhex(line.partition(" ")[2]).decode("latin-1") for line in lines_of(message)[1:]], [], None
        for name in names:
            procap = self.first((node, True), "execute")
            said = "no procap" if procap is None else self.turn("lookup", node, name, procap)
            if not said.startswith("ok node #"):
                ended = said
                break
            node = int(said.removeprefix("ok node #"))
            found.append((node, self.is_directory(node)))
        self.take(message, [f"{'d' if is_directory else 'f'}{node}" for node, is_directory in found])
        if ended and not found:
            return error(tag, ended)
        return reply_bytes(tag, "walk", *(word for file in found for word in qid(file)))

    def answer(self, message):
        tag, said = int.from_bytes(message[5:7], "little"), self.take(message, [])
        words = said.split(" ")
        if words[0] == "walk":
            return self.walked(tag, message, int(words[1]))
        if words[0] == "login":
            who, signature = bytes.fromhex(words[1]).decode(), bytes.fromhex(words[2])
            if not self.is_login(who, signature):
                return error(tag, "rejected 1")
            self.take(message, ["ok"])
            return reply_bytes(tag, "write", str(int.from_bytes(message[19:23], "little")))
        if words[0] not in ("read", "write"):
            return bytes.fromhex(said)
        node, offset, procap = int(words[1]), int(words[2]), self.first((int(words[1]), False), words[0])
        if words[0] == "read":
            said = self.turn("read", node, offset, int(words[3]), procap)
            return reply_bytes(tag, "read", said.removeprefix("ok bytes ").strip("-")) if said.startswith("ok") else error(tag, said)
        said = self.turn("write", node, offset, message[23:], procap)
        return reply_bytes(tag, "write", str(len(message) - 23)) if said == "ok" else error(tag, said)


class Stream:
    """The messages of a connection as their bytes come, each answered by a front. `ended` says that bytes came which begin no message,
    after which nothing is answered."""

    def __init__(self, front):
        self.front, self.agreed, self.pending, self.ended = front, 65536, b"", False

    def next(self):
        """The next whole message; None if there is none."""
        size = int.from_bytes(self.pending[:4], "little")
        if len(self.pending) < 4 or self.ended:
            return None
        if size < 7 or size > self.agreed:
            self.ended = True
            return None
        if len(self.pending) < size:
            return None
        message, self.pending = self.pending[:size], self.pending[size:]
        try:
            lines_of(message)
        except Bad:
            self.ended = True
            return None
        if message[4] == 100:
            msize = int.from_bytes(message[7:11], "little")
            self.agreed = self.agreed if msize < 512 else min(msize, 65536)
        return message

    def replies(self, data):
        """The replies to all messages that are whole with these bytes, one by one."""
        self.pending += data
        while message := self.next():
            yield self.front.answer(message)


def attend(server, lock, connection):
    """Answers the messages of a connection, up to its end or to one that is none."""
    stream = Stream(Front(server, system.token_bytes(16)))
    with connection, suppress(OSError):
        while not stream.ended and (piece := connection.recv(65536)):
            with lock:
                replies = b"".join(stream.replies(piece))
            connection.sendall(replies)


def serve(server, listener, count):
    lock, threads = threading.Lock(), []
    for _ in range(count):
        connection, _ = listener.accept()
        connection.setsockopt(socket.IPPROTO_TCP, socket.TCP_NODELAY, 1)
        threads.append(threading.Thread(target=attend, args=(server, lock, connection)))
        threads[-1].start()
    for thread in threads:
        thread.join()
