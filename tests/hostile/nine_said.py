"""What a random client of 9P2000 says: messages that are right, and messages that are not, drawn from what it knows of its fids."""
import struct

from nine_connection import CONTROL
from said import forged, key_of, login

NO_TAG, NO_FID = 0xFFFF, 0xFFFFFFFF
TVERSION, TATTACH, TFLUSH, TWALK, TOPEN, TREAD, TWRITE, TCLUNK = 100, 104, 108, 110, 112, 116, 118, 120
SERVED = (TVERSION, TATTACH, TFLUSH, TWALK, TOPEN, TREAD, TWRITE, TCLUNK)
ROOT_FID, CONTROL_FID = 1, 2
FIDS = [*range(1, 12), 0, NO_FID]  # of which one is drawn
FEW = 9  # fids above the two that everybody has


def text(words):
    return struct.pack("<H", len(words)) + words


def message(kind, tag, fields):
    return struct.pack("<IBH", 7 + len(fields), kind, tag) + fields


def version(msize=65536, words=b"9P2000", tag=NO_TAG):
    return message(TVERSION, tag, struct.pack("<I", msize) + text(words))


def attach(fid, tree=b"", afid=NO_FID, name=b"someone", tag=1):
    return message(TATTACH, tag, struct.pack("<II", fid, afid) + text(name) + text(tree))


def flush(old, tag=2):
    return message(TFLUSH, tag, struct.pack("<H", old))


def walk(fid, newfid, *names, tag=3):
    return message(TWALK, tag, struct.pack("<IIH", fid, newfid, len(names)) + b"".join(map(text, names)))


def opened(fid, mode, tag=4):
    return message(TOPEN, tag, struct.pack("<IB", fid, mode))


def read(fid, offset, count, tag=5):
    return message(TREAD, tag, struct.pack("<IQI", fid, offset, count))


def write(fid, offset, data, tag=6):
    return message(TWRITE, tag, struct.pack("<IQI", fid, offset, len(data)) + data)


def clunk(fid, tag=7):
    return message(TCLUNK, tag, struct.pack("<I", fid))


def control(line, tag=8):
    return write(CONTROL_FID, 0, line if isinstance(line, bytes) else line.encode(), tag)


def opening():
    """The messages with which a client begins; the last is told the nonce."""
    return [version(), attach(ROOT_FID), attach(CONTROL_FID, b"ctl"), opened(CONTROL_FID, 2), read(CONTROL_FID, 0, 64)]


# ---- bytes that begin no message, and messages whose fields do not fill them ---------------------------------------


def bad(draw, agreed):
    """Bytes that begin no message; a message may have at most so many."""
    kind = draw.randrange(5)
    if kind == 0:
        return struct.pack("<I", draw.choice([*range(7), agreed + 1, 65537, 2**31, 2**32 - 1]))
    if kind == 1:
        return message(draw.choice(SERVED), 9, b"")
    whole = draw.choice([walk(1, 3, b"a"), attach(5), read(1, 0, 9), write(1, 0, b"abc"), clunk(1), opened(1, 0), flush(1)])
    if kind == 2:
        return message(whole[4], 9, whole[7:-1])
    if kind == 3:
        return message(whole[4], 9, whole[7:] + draw.randbytes(draw.randint(1, 9)))
    return message(*draw.choice([(TWALK, 9, struct.pack("<IIHH", 1, 3, 1, 65535)), (TWALK, 9, struct.pack("<IIH", 1, 3, 65535)), (TWRITE, 9, struct.pack("<IQI", 1, 0, 2**32 - 1))]))


def changed(draw, whole):
    """The message with a byte of its fields changed; it may be one, or none."""
    if len(whole) < 8:
        return whole
    at = draw.randrange(7, len(whole))
    return whole[:at] + bytes([draw.randrange(256)]) + whole[at + 1 :]


# ---- a client ------------------------------------------------------------------------------------------------------

KINDS = {
    "go": 26, "use": 44, "name_walk": 6, "odd_walk": 6, "odd_fid": 6, "leave_fid": 6, "control_line": 5, "right_again": 2, "again": 1,
    "other_tree": 2, "not_served": 3, "flushed": 2, "changed_one": 0.5, "many_fids": 0.1,
}


class NineSpeaker:
    """Draws messages of a user with a purse. `known` is the model of the connection; `rights` has the procaps of the user by node and
    permission, `places` the directory and the name of each node that the user made; `login` gives the line of a login."""

    def __init__(self, draw, name, known, rights, places, others=(), login=login):
        self.draw, self.name, self.known, self.login = draw, name, known, login
        self.rights, self.places, self.others = rights, places, list(others)
        self.kinds, self.weights = zip(*KINDS.items())
        self.tag = 10

    def begin(self):
        """The login, the purse, and then what random lines may follow."""
        yield control(self.login(self.name, self.known.nonce))
        rights = list(self.rights.items())
        self.draw.shuffle(rights)
        rights.sort(key=lambda one: one[0][1] not in ("execute", "read", "write"))
        some = [procap for _, procap in rights[: self.draw.choice([64, 70, 20])]]
        if self.others and self.draw.random() < 0.5:
            some.insert(self.draw.randrange(len(some) + 1), self.draw.choice(self.others))
        if some and self.draw.random() < 0.4:
            some.insert(self.draw.randrange(len(some) + 1), self.draw.choice(some)[:-2] + "00")
        for procap in some:
            yield control(f"procap {procap}" + self.draw.choice(["", "\n"]))

    def next(self):
        """The next message, which is not too long for what is agreed."""
        kind = self.lacking() if self.draw.random() < 0.3 else None
        whole = (kind or getattr(self, self.draw.choices(self.kinds, self.weights)[0]))()
        if len(whole) > self.known.msize:
            whole = flush(9)
        self.tag = (self.tag + 1) % 65536
        return whole[:5] + struct.pack("<H", self.tag) + whole[7:]

    def lacking(self):
        """How to get what one has to have for most, if something of it is lacking."""
        known = self.known
        if not known.is_agreed:
            return version
        for fid, tree in (ROOT_FID, b""), (CONTROL_FID, b"ctl"):
            if fid not in known.fids:
                return lambda: attach(fid, tree)
        if known.fids[CONTROL_FID] == (CONTROL, None):
            return lambda: opened(CONTROL_FID, 2)
        return self.right_again if known.caller != self.name or not known.purse and self.rights else None

    # -- what is known

    def fids(self, wanted):
        return [fid for fid, (file, mode) in self.known.fids.items() if wanted(file, mode)]

    def some_fid(self):
        held = [fid for fid in self.known.fids if fid not in (ROOT_FID, CONTROL_FID)]
        return self.draw.choice(held) if held and self.draw.random() < 0.8 else self.draw.choice(FIDS)

    def free_fid(self):
        free = [fid for fid in FIDS if fid not in self.known.fids]
        return self.draw.choice(free or FIDS)

    def way(self, node):
        """The names from the root to a node of one's own."""
        names = []
        while node in self.places and len(names) < 16:
            node, name, *_ = self.places[node]
            names.insert(0, name.encode())
        return names if node == 1 else None

    # -- what is said

    def go(self):
        """A walk to a node of one's own, mostly one that may be used."""
        near = [node for node, perm in self.rights if node in self.places and perm in ("read", "write")]
        names = self.way(self.draw.choice(near)) if near else None
        if len(self.known.fids) > FEW:
            return self.leave_fid()
        if not names:
            return self.name_walk() if (1, "execute") in self.rights else walk(ROOT_FID, self.free_fid())
        return walk(ROOT_FID, self.free_fid(), *names)

    def use(self):
        """An opening, a reading or a writing of a file that a fid stands for."""
        draw = self.draw
        closed = self.fids(lambda file, mode: file != CONTROL and not file[1] and mode is None)
        if closed and draw.random() < 0.5:
            return opened(draw.choice(closed), draw.choice([0, 1, 2, 2]))
        ready = self.fids(lambda file, mode: file != CONTROL and mode is not None)
        if not ready:
            return self.go()
        fid = draw.choice(ready)
        if self.known.fids[fid][1] == 0 or self.known.fids[fid][1] == 2 and draw.random() < 0.5:
            return read(fid, self.offset(), draw.choice([0, 1, 20, 100, 4096, 65536, 65537, 2**32 - 1]))
        return write(fid, self.offset(), draw.randbytes(draw.choice([0, 1, 4, 16, 40, 200])))

    def offset(self):
        draw = self.draw
        return draw.randrange(40) if draw.random() < 0.98 else draw.choice([1000, 65536, 1048576, 1048577, 2**63, 2**64 - 1])

    def odd_name(self):
        draw = self.draw
        own = [name.encode() for _, name, *_ in self.places.values()]
        return draw.choice([*own[:5], *own[-5:], b"a", b"b", b"nobody", b"", b".", b"..", b"x" * 64, b"y" * 65, b"z" * 255, b"w" * 300, b"a/b", b"a b", b"\0", b"\xff\xfe", b"a\n"])

    def name_walk(self):
        return walk(self.draw.choice([ROOT_FID, self.some_fid()]), self.free_fid(), self.odd_name())

    def odd_walk(self):
        """A walk of any names from any fid to any."""
        draw = self.draw
        count = draw.choice([0, 0, 1, 2, 3, 16, 17])
        return walk(self.some_fid(), draw.choice([self.some_fid(), self.free_fid()]), *[self.odd_name() for _ in range(count)])

    def odd_fid(self):
        draw, fid = self.draw, self.some_fid()
        return draw.choice([opened(fid, draw.choice([0, 1, 2, 3, 16, 255])), read(fid, 0, 64), write(fid, 0, b"?"), clunk(draw.choice(FIDS)), walk(fid, fid)])

    def leave_fid(self):
        return clunk(self.some_fid())

    def control_line(self):
        """A write to the control file that asks for something else, or a reading of it."""
        draw, forgery = self.draw, forged(self.draw)
        if draw.random() < 0.2:
            return read(CONTROL_FID, draw.choice([0, 5, 2**64 - 1]), draw.choice([0, 3, 64, 70000]))
        return control(draw.choice([
            b"drop", b"drop\n", b"", b"\n", b"drop ", b"login", b"procap", f"login {self.name} -", self.login(self.name, bytes(16)), self.login("hr", self.known.nonce), f"login {self.name} {key_of('hr').hex()}",
            f"procap {forgery}", f"procap {forgery}\n", f"procap {forgery[:-2]}", "procap -", "procap 1", f"do list #1 {forgery}", b"checkpoint", b"drop\ndrop", b"\xff" * 9, b"x" * 3000,
        ]))

    def right_again(self):
        """Who is logged in as another, or has an empty purse, is again who it was."""
        if self.known.caller != self.name:
            return control(self.login(self.name, self.known.nonce))
        return control(f"procap {self.draw.choice(list(self.rights.values()))}") if self.rights else clunk(NO_FID)

    def again(self):
        """A version in the middle, of which few are agreed on so that nothing goes on."""
        return version(self.draw.choice([65536, 65536, 8192, 512, 511, 0, 2**32 - 1]), self.draw.choice([b"9P2000"] * 6 + [b"9P2000.u", b"9P2000.L", b"9P", b"", b"unknown"]))

    def other_tree(self):
        draw = self.draw
        return attach(draw.choice(FIDS), draw.choice([b"", b"ctl", b"other", b"x" * 300]), draw.choice([NO_FID] * 4 + [0, 1]), draw.randbytes(draw.choice([0, 5, 255])))

    def not_served(self):
        kind = self.draw.choice([102, 106, 114, 122, 124, 126, 101, 105, 107, 0, 255, self.draw.randrange(256)])
        return message(kind, 9, self.draw.randbytes(self.draw.choice([0, 4, 30]))) if kind not in SERVED else flush(9)

    def flushed(self):
        return flush(self.draw.choice([0, self.tag, self.tag + 1 & 0xFFFF, NO_TAG]))

    def changed_one(self):
        return changed(self.draw, self.draw.choice([self.go, self.use, self.name_walk, self.odd_fid])())

    def many_fids(self):
        """A fid more of the root."""
        return walk(ROOT_FID, self.draw.randrange(100, 2**32))
