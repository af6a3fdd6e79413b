#!/usr/bin/env python3
"""Reads and writes files of a PCFS server that speaks 9P2000, `pcfs serve9 PORT COUNT`.

    nine_client.py [OPTION].. walk PATH     prints what each name of PATH leads to
    nine_client.py [OPTION].. cat PATH      writes the file's bytes to the standard output
    nine_client.py [OPTION].. write PATH    writes the standard input into the file, over what is there

    --name NAME            who logs in
    --key FILE             NAME's key: hexadecimal digits alone, or a line `key NAME HEX` among others
    --procaps FILE         NAME's procaps: in each line one, which is its last word, in hexadecimal
    --server HOST:PORT     the server, by default 127.0.0.1:4041
    --at OFFSET            where cat and write begin, by default 0
    --count COUNT          how many bytes cat writes at most, by default all
    --timeout SECONDS      how long a reply may take, by default 30

A PATH is names with slashes between them, from the root; / alone is the root. A name takes a procap for `execute` on its
directory, cat one for `read` on the file, and write one for `write`. The file with the procaps may be the one that pcfs-client
keeps, or the replies `ok procap HEX` of a script or a session: lines that begin with # or `gone` and empty ones are passed over,
and so is what is another's. Of several procaps for one right the last counts. The server holds 64.

A file has 1,048,576 bytes at most. write makes no file and cuts none: what stands after the bytes that come stays. A file of
more than 65,513 bytes is read and written in pieces, between which others may write.

The status is 0 if all was done, 2 if the words are wrong, and else 1, with one line on the standard error.
"""
import argparse
import hashlib
import hmac
import os
import re
import socket
import struct
import sys

NO_TAG, NO_FID = 0xFFFF, 0xFFFFFFFF
ROOT, CONTROL, FILE = 1, 2, 3
TVERSION, TATTACH, RERROR, TWALK, TOPEN, TREAD, TWRITE, TCLUNK = 100, 104, 107, 110, 112, 116, 118, 120
READING, WRITING, BOTH = 0, 1, 2
LONGEST, SHORTEST = 65536, 512  # messages
MOST_NAMES, MOST_PROCAPS, MOST_FILE = 16, 64, 1_048_576
PERMISSIONS = ("read", "write", "execute", "identity", "govern")
LOGIN = b"L"  # with which the message of a login begins
GRANT, TAG = 0x47, 32  # the first byte of a procap, and how many its tag has

REFUSALS = {
    1: "there is no such node any more", 2: "it is a file, and no directory", 3: "it is a directory", 4: "there is no such name",
    7: "a name is 1 to 64 letters, digits, _ . and -", 8: f"a file has {MOST_FILE} bytes at most", 9: "the store is full: 32 MiB in all",
}
REPLIES = {
    "directory": "it is a directory", "full": "the server's history is full, until it makes a checkpoint", "purse full": f"the server holds {MOST_PROCAPS} procaps",
    "stopped": "a disk of the server failed", "nomemory": "the server has no memory for it", "rejected 1": "the login is not accepted: is that the key of this name?",
    "rejected 4": "nobody has logged in", "control": "it takes no such line",
}


class Fault(Exception):
    """Why something was not done."""


class Refused(Fault):
    """What the server says in place of doing it."""


def meaning(words, right):
    """What the words of a refusal say to a user who wanted to use this right."""
    if words == "no procap":
        return f"there is no procap of yours for {right}"
    if found := re.fullmatch(r"denied \d+ (.*) at \d+", words):
        cause = re.sub(r"^(time|state) \d+ (.*)", r"\2 does not hold now", found[1])
        cause = re.sub(r"^withdrawn (\d+)$", r"statement \1 was withdrawn", cause)
        return f"your procap for {right} is denied: {'this server did not seal it' if cause == 'seal' else cause}"
    if found := re.fullmatch(r"refused (\d+) at \d+", words):
        return REFUSALS.get(int(found[1]), "it cannot be done")
    return REPLIES.get(words, "the server does not do that")


# ---- procaps and keys ----------------------------------------------------------------------------------------------


def right_of(procap):
    """Whom a procap names, and the node and the permission; None if these bytes are none."""
    if len(procap) < 3 or procap[0] != GRANT or len(procap) < 3 + procap[2] + 9 + TAG:
        return None
    at = 3 + procap[2]
    file, permission = struct.unpack_from(">QB", procap, at)
    return (procap[3:at].decode("latin-1"), file, PERMISSIONS[permission - 1]) if 1 <= permission <= len(PERMISSIONS) else None


def procaps_in(text, name, path):
    """The procaps in the lines of a text that are this name's, of each right the last."""
    found = {}
    for number, line in enumerate(text.splitlines(), 1):
        if not line.strip() or line.startswith(("#", "gone ")):
            continue
        word = line.split()[-1]
        right = right_of(bytes.fromhex(word)) if re.fullmatch("([0-9a-f]{2})+", word) else None
        if right is None:
            raise Fault(f"line {number} of {path} has no procap")
        if right[0] == name:
            found[right] = word
    if len(found) > MOST_PROCAPS:
        raise Fault(f"{path} has {len(found)} rights of {name}, and the server holds {MOST_PROCAPS}: leave those out that you do not need")
    return list(found.values())


def key_in(text, name, path):
    """A name's key: what the text is, or a line of it."""
    alone = text.strip()
    for word in [alone] + [line.split()[2] for line in text.splitlines() if line.split()[:2] == ["key", name] and len(line.split()) == 3]:
        if re.fullmatch("([0-9a-f]{2})+", word):
            return bytes.fromhex(word)
    raise Fault(f"{path} has no key of {name}")


def contents_of(path):
    try:
        with open(path, encoding="ascii") as file:
            return file.read()
    except (OSError, UnicodeDecodeError) as fault:
        raise Fault(f"{path} cannot be read: {getattr(fault, 'strerror', None) or 'it is no text'}") from None


# ---- a connection --------------------------------------------------------------------------------------------------


def text(words):
    return struct.pack("<H", len(words)) + words


class Connection:
    """Messages to a server and its replies, one after the other."""

    def __init__(self, server, timeout=30, msize=LONGEST):
        self.server, self.timeout, self.pending, self.tag, self.msize = server, timeout, b"", 0, msize
        host, _, port = server.rpartition(":")
        if not host or not port.isdecimal() or int(port) > 65535:
            raise Fault(f"{server} is no HOST:PORT")
        try:
            self.socket = socket.create_connection((host.strip("[]"), int(port)), timeout)
            self.socket.setsockopt(socket.IPPROTO_TCP, socket.TCP_NODELAY, 1)
        except (OSError, UnicodeError) as fault:
            raise Fault(f"no server at {server}: {getattr(fault, 'strerror', None) or fault}") from None

    def close(self):
        self.socket.close()

    def bytes(self, count):
        """The next bytes that the server says."""
        while len(self.pending) < count:
            piece = self.socket.recv(LONGEST)
            if not piece:
                raise Fault(f"{self.server} closed the connection")
            self.pending += piece
        front, self.pending = self.pending[:count], self.pending[count:]
        return front

    def message(self):
        """The next message of the server: its kind, its tag and its fields."""
        size, kind, tag = struct.unpack("<IBH", self.bytes(7))
        if not 7 <= size <= self.msize:
            raise Fault(f"{self.server} does not speak 9P2000: a message of {size} bytes")
        return kind, tag, self.bytes(size - 7)

    def ask(self, kind, fields, tag=None):
        """The fields of the reply to a request."""
        self.tag = (self.tag + 1) % NO_TAG
        tag = self.tag if tag is None else tag
        try:
            self.socket.sendall(struct.pack("<IBH", 7 + len(fields), kind, tag) + fields)
            told, same, body = self.message()
        except socket.timeout:
            raise Fault(f"{self.server} says nothing for {self.timeout:g} seconds: it may have as many connections as it takes") from None
        except OSError as fault:
            raise Fault(f"the connection to {self.server} broke: {fault.strerror or fault}") from None
        if told == RERROR and same == tag and len(body) >= 2:
            raise Refused(body[2:].decode("latin-1"))
        if told != kind + 1 or same != tag:
            raise Fault(f"{self.server} does not speak 9P2000: it answers kind {told}, tag {same} to kind {kind}, tag {tag}")
        return body

    def fields(self, form, body):
        """The fields of a reply that has these, and no other bytes."""
        if len(body) != struct.calcsize(form):
            raise Fault(f"{self.server} does not speak 9P2000: a reply with {len(body)} bytes of fields")
        return struct.unpack(form, body)

    # ---- the requests

    def agree(self):
        """Agrees on the version, and on the size of messages."""
        body = self.ask(TVERSION, struct.pack("<I", self.msize) + text(b"9P2000"), NO_TAG)
        size, version = int.from_bytes(body[:4], "little"), body[6:]
        if version != b"9P2000" or not SHORTEST <= size <= self.msize:
            raise Fault(f"{self.server} does not speak 9P2000: it offers {version.decode('latin-1')!r} with messages of {size} bytes")
        self.msize = size

    def attach(self, fid, tree, name=""):
        self.fields("<BIQ", self.ask(TATTACH, struct.pack("<II", fid, NO_FID) + text(name.encode()) + text(tree)))

    def walk(self, fid, newfid, names):
        """Whether each name is a directory, and its node, up to the first name that leads nowhere."""
        body = self.ask(TWALK, struct.pack("<IIH", fid, newfid, len(names)) + b"".join(map(text, names)))
        count = int.from_bytes(body[:2], "little")
        found = self.fields("<" + "BIQ" * count, body[2:])
        return [(kind & 0x80 != 0, path) for kind, path in zip(found[::3], found[2::3])]

    def open(self, fid, mode):
        self.fields("<BIQI", self.ask(TOPEN, struct.pack("<IB", fid, mode)))

    def read(self, fid, offset, count):
        body = self.ask(TREAD, struct.pack("<IQI", fid, offset, min(count, self.msize - 11)))
        if int.from_bytes(body[:4], "little") != len(body) - 4 or len(body) - 4 > count:
            raise Fault(f"{self.server} does not speak 9P2000: a reading with {len(body)} bytes of fields")
        return body[4:]

    def write(self, fid, offset, data):
        """Writes bytes, as many as fit into a message at most: how many those are."""
        data = data[: self.msize - 23]
        (count,) = self.fields("<I", self.ask(TWRITE, struct.pack("<IQI", fid, offset, len(data)) + data))
        if count != len(data):
            raise Fault(f"{self.server} does not speak 9P2000: it wrote {count} of {len(data)} bytes")
        return count

    def clunk(self, fid):
        self.ask(TCLUNK, struct.pack("<I", fid))


class Nine(Connection):
    """A connection with somebody logged in, whose procaps are in the purse."""

    def __init__(self, server, name, key, procaps, timeout=30, msize=LONGEST):
        super().__init__(server, timeout, msize)
        self.agree()
        self.attach(ROOT, b"", name)
        self.attach(CONTROL, b"ctl", name)
        self.open(CONTROL, BOTH)
        greeting = re.fullmatch(rb"hello ([0-9a-f]{32})\n", self.read(CONTROL, 0, 64))
        if not greeting:
            raise Fault(f"{server} is no server of PCFS")
        self.login(name, key, bytes.fromhex(greeting[1].decode()))
        for procap in procaps:
            self.say(f"procap {procap}")

    def say(self, line):
        """Writes a line to the control file."""
        if len(line) > self.msize - 23:
            raise Fault(f"a procap of {len(line) // 2} bytes does not fit into a message")
        self.write(CONTROL, 0, line.encode())

    def login(self, name, key, nonce):
        message = LOGIN + bytes([len(name)]) + name.encode() + nonce
        self.say(f"login {name} {hmac.new(key, message, hashlib.sha256).hexdigest()}")

    # ---- files

    def told(self, path, right, call, *words):
        """What a request about a file gives, or what is wrong in words for a user."""
        try:
            return call(*words)
        except Refused as refused:
            raise Fault(f"{path}: {meaning(str(refused), right)} ({refused})") from None

    def find(self, path, newfid=FILE):
        """Makes the fid stand for the file at a path: whether each name is a directory, and its node."""
        names, found = [os.fsencode(name) for name in path.split("/") if name], []
        self.walk(ROOT, newfid, [])
        while len(found) < len(names):
            node = found[-1][1] if found else 1
            some = names[len(found):][:MOST_NAMES]
            here = "/" + "/".join(map(os.fsdecode, names[: len(found) + 1]))
            more = self.told(here, f"execute on #{node}", self.walk, newfid, newfid, some)
            if len(more) < len(some):
                # it ended on its way, and the fid is where it was: to where it came, and then the name that failed is asked for alone
                more = self.told(here, f"execute on #{node}", self.walk, newfid, newfid, some[: len(more)])
            if not more:
                raise Fault(f"{self.server} does not speak 9P2000: a walk of names that leads nowhere")
            found += more
        return found

    def ready(self, path, mode, right):
        """Opens the file at a path: its node."""
        found = self.find(path)
        node = found[-1][1] if found else 1
        self.told(path, f"{right} on #{node}", self.open, FILE, mode)
        return node

    def cat(self, path, offset=0, count=MOST_FILE):
        """The bytes of a file, piece by piece."""
        node = self.ready(path, READING, "read")
        end = offset + count
        while offset < end and (piece := self.told(path, f"read on #{node}", self.read, FILE, offset, end - offset)):
            yield piece
            offset += len(piece)
        self.clunk(FILE)

    def put(self, path, data, offset=0):
        """Writes bytes into a file."""
        if offset + len(data) > MOST_FILE:
            raise Fault(f"{path}: {REFUSALS[8]}")
        node, sent = self.ready(path, WRITING, "write"), 0
        while True:
            sent += self.told(path, f"write on #{node}", self.write, FILE, offset + sent, data[sent:])
            if sent == len(data):
                break
        self.clunk(FILE)


# ---- the command ---------------------------------------------------------------------------------------------------


def user(word):
    if not re.fullmatch("[a-z][a-z0-9_]{0,31}", word):
        raise argparse.ArgumentTypeError(f"{word} is no name of a user")
    return word


def seconds(word):
    if not re.fullmatch(r"[0-9]{1,6}(\.[0-9]{1,6})?", word) or float(word) == 0:
        raise argparse.ArgumentTypeError(f"{word} is no time to wait")
    return float(word)


def natural(word):
    if not re.fullmatch("[0-9]{1,19}", word):
        raise argparse.ArgumentTypeError(f"{word} is no number from 0 on")
    return int(word)


def words_of(given):
    reader = argparse.ArgumentParser(prog="nine_client.py", description=__doc__, formatter_class=argparse.RawDescriptionHelpFormatter,
                                     usage="nine_client.py --name NAME --key FILE --procaps FILE [OPTION].. walk|cat|write PATH", add_help=False)
    reader.add_argument("--help", action="help", help=argparse.SUPPRESS)
    reader.add_argument("--name", type=user, required=True, help=argparse.SUPPRESS)
    reader.add_argument("--key", required=True, help=argparse.SUPPRESS)
    reader.add_argument("--procaps", required=True, help=argparse.SUPPRESS)
    reader.add_argument("--server", default="127.0.0.1:4041", help=argparse.SUPPRESS)
    reader.add_argument("--at", type=natural, default=0, help=argparse.SUPPRESS)
    reader.add_argument("--count", type=natural, default=MOST_FILE, help=argparse.SUPPRESS)
    reader.add_argument("--timeout", type=seconds, default=30, help=argparse.SUPPRESS)
    reader.add_argument("command", choices=("walk", "cat", "write"), help=argparse.SUPPRESS)
    reader.add_argument("path", help=argparse.SUPPRESS)
    return reader.parse_args(given)


def given_input():
    """The standard input, or so much of it that it is more than a file holds."""
    try:
        return sys.stdin.buffer.read(MOST_FILE + 1)
    except (OSError, AttributeError) as fault:
        raise Fault(f"the input cannot be read: {getattr(fault, 'strerror', None) or 'it is closed'}") from None


def put_out(data):
    """Writes bytes to the standard output."""
    try:
        sys.stdout.buffer.write(data)
        sys.stdout.buffer.flush()
    except (OSError, AttributeError) as fault:
        sys.stdout = None  # it is not tried again at the end
        raise Fault(f"the output failed: {getattr(fault, 'strerror', None) or 'it is closed'}") from None


def walk(nine, path):
    names = [name for name in path.split("/") if name]
    for name, (is_directory, node) in zip(names or ["/"], nine.find(path) or [(True, 1)]):
        put_out(os.fsencode(f"{name} {'directory' if is_directory else 'file'} #{node}\n"))


def run(words):
    key = key_in(contents_of(words.key), words.name, words.key)
    procaps = procaps_in(contents_of(words.procaps), words.name, words.procaps)
    given = given_input() if words.command == "write" else b""
    try:
        nine = Nine(words.server, words.name, key, procaps, words.timeout)
    except Refused as refused:
        raise Fault(f"{words.server}: {meaning(str(refused), 'this')} ({refused})") from None
    if words.command == "walk":
        walk(nine, words.path)
    elif words.command == "write":
        nine.put(words.path, given, words.at)
    else:
        for piece in nine.cat(words.path, words.at, words.count):
            put_out(piece)
    nine.close()


def main():
    words = words_of(sys.argv[1:])
    try:
        run(words)
    except Fault as fault:
        sys.stderr.write(f"nine_client: {fault}\n")  # in one piece, since a server may write to the same place
        sys.exit(1)
    except KeyboardInterrupt:
        sys.exit(130)


if __name__ == "__main__":
    main()
