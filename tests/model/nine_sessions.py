"""Writes rows of sessions of 9P2000 (`crates/session_rows/data/nine.rows`): what connections say, and what they are told by the plain model.

    python3 tests/model/nine_sessions.py > crates/session_rows/data/nine.rows
"""
import struct
import sys
from pathlib import Path

HERE = Path(__file__).resolve().parent
sys.path += [str(HERE), str(HERE.parents[1] / "examples")]
from nine_server import Front  # noqa: E402
from pcfs_formats import sign_login  # noqa: E402
from pcfs_model import Server  # noqa: E402

SECRETS = {"admin": "61646d696e7320736563726574", "boss": "626f7373206b6579", "deputy": "646570757479206b6579", "alice": "616c696365206b6579"}
SEAL = "6f6e65206b657920666f7220746865207365616c"
# A folder, and a file in it: boss walks, reads and writes it, and deputy may walk from the root alone.
GIVEN = [("admin", 1, "write"), ("admin", 2, "write"), ("admin", 3, "write"), ("boss", 1, "execute"), ("boss", 2, "execute"), ("boss", 3, "read"), ("boss", 3, "write"),
         ("deputy", 1, "execute")]
MAKING = ["as admin"]
for number, (who, node, permission) in enumerate(GIVEN, 1):
    MAKING += [f"register - admin says may({who},#{node},{permission}) from -inf to +inf", f"verify {who} #{node} {permission} {number} saysR(claim(0,init(1)))"]
MAKING += ["do mkdir #1 folder @1", "do create #2 file @2", "do write #3 0 746865206f6c642074657874 @3"]
# The file of the case `offsets` of pcfs_rows, as that case leaves it; alice may also look up names in the root.
OFFSETS = [("alice", 1, "write"), ("alice", 2, "write"), ("alice", 2, "read"), ("alice", 1, "execute")]
WRITING = ["at 100", "as alice"]
for number, (who, node, permission) in enumerate(OFFSETS, 1):
    WRITING += [f"register - admin says may({who},#{node},{permission}) from 0 to 200", f"verify {who} #{node} {permission} {number} saysR(claim(0,init(1)))"]
WRITING += ["do create #1 notes @1", "do write #2 3 6869 @2", "do truncate #2 4 @2"]
ROOT, CONTROL, FILE, NO_FID = 1, 2, 3, 0xFFFFFFFF


def text(words):
    return struct.pack("<H", len(words)) + words


def message(kind, tag, fields):
    return struct.pack("<IBH", 7 + len(fields), kind, tag) + fields


def version(msize=8192, words=b"9P2000"):
    return message(100, 0xFFFF, struct.pack("<I", msize) + text(words))


def attach(fid, tree=b""):
    return message(104, 1, struct.pack("<II", fid, NO_FID) + text(b"someone") + text(tree))


def flush(tag):
    return message(108, 2, struct.pack("<H", tag))


def walk(fid, newfid, *names):
    return message(110, 3, struct.pack("<IIH", fid, newfid, len(names)) + b"".join(map(text, names)))


def opened(fid, mode):
    return message(112, 4, struct.pack("<IB", fid, mode))


def read(fid, offset, count):
    return message(116, 5, struct.pack("<IQI", fid, offset, count))


def write(fid, offset, data):
    return message(118, 6, struct.pack("<IQI", fid, offset, len(data)) + data)


def clunk(fid):
    return message(120, 7, struct.pack("<I", fid))


def stat(fid):
    return message(124, 8, struct.pack("<I", fid))


class Case:
    """A case over a store of its own, which these lines make, and which many connections may be given."""

    def __init__(self, name, count, lines=MAKING, issues=len(GIVEN)):
        self.server = Server("\n".join([f"seal {SEAL}", *(f"key {who} {key}" for who, key in SECRETS.items())]))
        print(f"\n= {name}\nwords serve9 4040 {count}")
        for line in lines:
            print(f"> {line}")
        self.replies = [self.server.answer(line) for line in lines]
        assert all(reply.startswith("ok") for reply in self.replies), self.replies
        self.procaps = [self.server.answer(f"procap {number}").removeprefix("ok procap ") for number in range(1, issues + 1)]
        self.server.at(0)
        self.fronts = [Front(self.server, bytes([byte] * 16)) for byte in range(count)]
        for byte in range(count):
            print(f"nonce {byte}")

    def says(self, connection, *messages):
        for said in messages:
            print(f"say {connection} {said.hex()}\ntold {self.fronts[connection - 1].answer(said).hex()}")

    def at(self, second):
        self.server.at(second)
        print(f"at {second}")

    def login(self, connection, who, key=None):
        signature = sign_login(bytes.fromhex(key or SECRETS[who]), who, bytes([connection - 1] * 16)).hex()
        self.says(connection, write(CONTROL, 0, f"login {who} {signature}\n".encode()))

    def begins(self, connection, who, first, last):
        """A connection agrees on a version, logs in, and has procaps of these numbers in its purse."""
        self.says(connection, version(), attach(ROOT), attach(CONTROL, b"ctl"), opened(CONTROL, 2), read(CONTROL, 0, 64))
        self.login(connection, who)
        for number in range(first, last + 1):
            self.says(connection, write(CONTROL, 0, f"procap {self.procaps[number - 1]}\n".encode()))

    def then(self, *lines):
        for line in lines:
            print(f"then {line}\nis {self.server.answer(line)}")


def main():
    print("# What connections of 9P2000 are told. `tests/model/nine_sessions.py` writes these rows.")
    print(f"secret seal {SEAL}")
    for who, key in SECRETS.items():
        print(f"secret key {who} {key}")

    case = Case("a file is walked to, read and written", 1)
    case.begins(1, "boss", 4, 7)
    case.says(1, walk(ROOT, FILE, b"folder", b"file"), opened(FILE, 2), read(FILE, 0, 4096), read(FILE, 4, 3), read(FILE, 12, 9), write(FILE, 4, b"new"), read(FILE, 0, 4096), clunk(FILE),
              read(FILE, 0, 1), flush(9))
    case.then("as boss", f"do read #3 0 64 {case.procaps[5]}")

    case = Case("a walk ends where a name leads nowhere, or where the purse has nothing", 2)
    case.begins(1, "boss", 4, 7)
    case.begins(2, "deputy", 4, 8)
    case.says(1, walk(ROOT, 9, b"nothing"), walk(ROOT, 9, b"folder", b"nothing"), clunk(9), walk(ROOT, 9), clunk(9), walk(ROOT, 9, b"folder", b"file", b"more"), clunk(9))
    case.says(2, walk(ROOT, 9, b"folder", b"file"), clunk(9), walk(ROOT, ROOT, b"folder"), walk(ROOT, 9, b"file"))
    case.says(1, write(CONTROL, 0, b"drop\n"), walk(ROOT, 9, b"folder"))
    case.then("as boss", f"do read #3 0 64 {case.procaps[5]}")

    case = Case("what is not served", 1)
    case.says(1, attach(ROOT), flush(1), version(511), version(8192, b"9P1999"), attach(ROOT), version(100000, b"9P2000.u"), attach(ROOT), attach(ROOT), attach(CONTROL, b"other"), stat(ROOT),
              clunk(7), opened(ROOT, 0), opened(ROOT, 3), walk(ROOT, 5, *[b"x"] * 17), walk(ROOT, 5, b"x"), read(ROOT, 0, 9), attach(CONTROL, b"ctl"), walk(CONTROL, 5, b"x"),
              read(CONTROL, 0, 9), opened(CONTROL, 1), read(CONTROL, 0, 9), write(CONTROL, 0, b"nothing"), version(512), clunk(ROOT))

    case = Case("a login of another, and none", 1)
    case.begins(1, "boss", 4, 7)
    case.says(1, walk(ROOT, FILE, b"folder", b"file"), opened(FILE, 0))
    case.login(1, "deputy", SECRETS["boss"])
    case.says(1, read(FILE, 0, 3))
    case.login(1, "deputy")
    case.says(1, read(FILE, 0, 3), write(CONTROL, 0, b"login deputy -"), walk(ROOT, 9, b"folder"), write(CONTROL, 0, f"procap {case.procaps[7]}".encode()), walk(ROOT, 9, b"folder"))

    case = Case("the file of offsets", 1, WRITING, len(OFFSETS))
    case.at(100)
    case.begins(1, "alice", 3, 4)
    case.says(1, walk(ROOT, FILE, b"notes"), opened(FILE, 0), read(FILE, 0, 10), read(FILE, 9, 1), write(FILE, 0, b"x"), clunk(FILE))
    case.at(201)
    case.says(1, walk(ROOT, FILE, b"notes"))
    case.then("at 200", "as alice", f"do read #2 0 10 {case.procaps[2]}")

    for name, words in ("9P2000 on no port", "0 1"), ("9P2000 on a port with a zero before it", "04040 1"), ("9P2000 for too many", "4040 1000001"), ("9P2000 for nobody", "4040 0"):
        print(f"\n= {name}\nwords serve9 {words}\nstatus 1\ntells usage")


if __name__ == "__main__":
    main()
