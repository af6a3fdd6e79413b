"""What a connection of 9P2000 makes of its messages, by the rules of the front alone, without a store.

It reads rows as `crates/nine_rows/README.md` says, and writes what the program of rows must print for them.
"""
import struct
import sys

from nine_messages import Fields, bytes_of, reply_bytes
from pcfs_model import Bad as NoWord
from pcfs_model import hexadecimal, principal, read_procap

ERRORS = ["not served", "msize", "version first", "no fid", "fid in use", "too many fids", "no such tree", "too many names", "open", "directory", "mode", "not open",
          "control", "purse full", "rejected 4", "no procap"]
CONTROL = ("control",)


def control_line(data):
    """The login or the procap of a line of the control file, or `drop`, or nothing."""
    try:
        word, _, rest = data.removesuffix(b"\n").decode("ascii").partition(" ")
        if data.removesuffix(b"\n") == b"drop":
            return "drop", None
        if word == "login":
            who, _, signature = rest.partition(" ")
            return "login", (principal(who), hexadecimal(signature, 32768))
        if word == "procap":
            return "procap", read_procap(hexadecimal(rest, 2**20))
    except (NoWord, UnicodeDecodeError):
        pass
    return None


def qid(file):
    return ("0", "0", "0") if file == CONTROL else ("128" if file[1] else "0", "0", str(file[0]))


class Connection:
    def __init__(self, byte):
        self.greeting = f"hello {bytes([byte] * 16).hex()}\n".encode()
        self.caller, self.purse, self.is_agreed, self.msize, self.fids = None, [], False, 65536, {}

    def refuse(self, *tests):
        """The first of the errors, in their one order, whose test holds."""
        held = [error for error, holds in tests if holds]
        return min(held, key=ERRORS.index) if held else None

    def first(self, file, permission):
        return next((p for p in self.purse if (p[0].who, p[0].file, p[0].perm) == (self.caller, file[0], permission)), None)

    def lacks(self, fid, permission):
        """The tests of an operation on what the fid stands for."""
        file = self.fids[fid][0] if fid in self.fids else CONTROL
        is_node = file != CONTROL
        return ("rejected 4", is_node and self.caller is None), ("no procap", is_node and self.caller is not None and self.first(file, permission) is None)

    def version(self, fields, given):
        msize, version = fields.number(4), fields.take(fields.number(2))
        if error := self.refuse(("msize", msize < 512)):
            return error
        served = version == b"9P2000" or version.startswith(b"9P2000.")
        self.is_agreed, self.msize, self.fids = served, min(msize, 65536), {}
        return ["version", str(self.msize), (b"9P2000" if served else b"unknown").hex()]

    def attach(self, fields, given):
        fid, afid = fields.number(4), fields.number(4)
        fields.text()
        aname = bytes.fromhex(fields.text())
        error = self.refuse(("no such tree", aname not in (b"", b"ctl")), ("too many fids", len(self.fids) >= 1024), ("fid in use", fid in self.fids),
                            ("version first", not self.is_agreed), ("not served", afid != 0xffffffff))
        if error:
            return error
        self.fids[fid] = (CONTROL if aname else (1, True), None)
        return ["attach", *qid(self.fids[fid][0])]

    def walk(self, fields, given):
        fid, newfid = fields.number(4), fields.number(4)
        names = [fields.text() for _ in range(fields.number(2))]
        file, mode = self.fids.get(fid, (CONTROL, None))
        lacks = self.lacks(fid, "execute") if names else ()
        error = self.refuse(*lacks, ("control", names and fid in self.fids and file == CONTROL), ("open", mode is not None), ("too many names", len(names) > 16),
                            ("too many fids", fid != newfid and len(self.fids) >= 1024), ("fid in use", fid != newfid and newfid in self.fids),
                            ("no fid", fid not in self.fids), ("version first", not self.is_agreed))
        if error:
            return error
        if not names:
            self.fids[newfid] = (file, None)
            return ["walk"]
        found = [(int(one[1:]), one[0] == "d") for one in given]
        if len(found) == len(names):
            self.fids[newfid] = (found[-1], None)
        return f"walk {file[0]}"

    def open(self, fields, given):
        fid, mode = fields.number(4), fields.number(1)
        file, opened = self.fids.get(fid, (CONTROL, None))
        error = self.refuse(("mode", mode > 2), ("directory", file != CONTROL and file[1]), ("open", opened is not None), ("no fid", fid not in self.fids),
                            ("version first", not self.is_agreed))
        if error:
            return error
        self.fids[fid] = (file, mode)
        return ["open", *qid(file)]

    def read(self, fields, given):
        fid, offset, count = fields.number(4), fields.number(8), fields.number(4)
        file, mode = self.fids.get(fid, (CONTROL, None))
        error = self.refuse(*self.lacks(fid, "read"), ("not open", mode not in (0, 2)), ("no fid", fid not in self.fids), ("version first", not self.is_agreed))
        if error:
            return error
        if file == CONTROL:
            return ["read", self.greeting[:count].hex()]
        return f"read {file[0]} {offset} {min(count, 65536, self.msize - 11)} {self.first(file, 'read')[1].hex()}"

    def write(self, fields, given):
        fid, offset = fields.number(4), fields.number(8)
        data = fields.take(fields.number(4))
        file, mode = self.fids.get(fid, (CONTROL, None))
        writes_control = fid in self.fids and file == CONTROL
        line = control_line(data) if writes_control else None
        error = self.refuse(*self.lacks(fid, "write"), ("purse full", line is not None and line[0] == "procap" and len(self.purse) >= 64),
                            ("control", writes_control and line is None), ("not open", mode not in (1, 2)), ("no fid", fid not in self.fids), ("version first", not self.is_agreed))
        if error:
            return error
        if not writes_control:
            return f"write {file[0]} {offset} {self.first(file, 'write')[1].hex()}"
        if line[0] == "login":
            who, signature = line[1]
            if given == ["ok"]:
                self.caller = who
            return f"login {who.encode().hex()} {signature.hex()}"
        self.purse = [*self.purse, line[1]] if line[0] == "procap" else []
        return ["write", str(len(data))]

    def clunk(self, fields, given):
        fid = fields.number(4)
        error = self.refuse(("no fid", fid not in self.fids), ("version first", not self.is_agreed))
        if error:
            return error
        del self.fids[fid]
        return ["clunk"]

    def flush(self, fields, given):
        return self.refuse(("version first", not self.is_agreed)) or ["flush"]

    def take(self, message, given):
        kind, tag = message[4], struct.unpack("<H", message[5:7])[0]
        calls = {100: self.version, 104: self.attach, 108: self.flush, 110: self.walk, 112: self.open, 116: self.read, 118: self.write, 120: self.clunk}
        what = calls[kind](Fields(message[7:]), given) if kind in calls else "not served"
        if isinstance(what, list):
            return reply_bytes(tag, *what).hex()
        return reply_bytes(tag, "error", what.encode().hex()).hex() if what in ERRORS else what


def main():
    for row in sys.stdin.read().splitlines():
        print(row)
        kind, number, *words = row.split(" ")
        connection = Connection(int(number))
        for word in words:
            message, _, given = word.partition("/")
            print(connection.take(bytes_of(message), given.split(",") if given else []))


if __name__ == "__main__":
    main()
