"""Three clients of one server that has a new store, and what each is told.

usage: three_users.py PORT, in a folder with the server's pcfs.secrets, which has keys of the three
"""
import socket
import sys
import threading

from pcfs_formats import key_of, sign_login, sign_statement

SECRETS = "pcfs.secrets"
PROOF = "saysR(claim(0,init(1)))"
TURNS = 12  # operations that each client asks for while the others do
CONTENT = bytes(range(250)) * 240
POLICY = [
    "admin says may(alice,#1,write) from -inf to +inf",
    "admin says may(alice,#2,write) from -inf to +inf",
    "admin says may(bob,#2,read) from -inf to +inf",
    "admin says may(carol,#2,read) from 2020-01-01 to 2020-12-31",
    "hr says employee(bob) from -inf to +inf",
    "hr says employee(carol) from -inf to +inf",
]


class Session:
    """A connection, and who has logged in on it."""

    def __init__(self, port, name, faults):
        self.name, self.faults = name, faults
        self.socket = socket.create_connection(("127.0.0.1", port))
        self.lines = self.socket.makefile("rwb")
        hello, nonce = self.told().split(" ")
        self.wants("the greeting", hello, "hello")
        key = key_of(SECRETS, name)
        self.says("procap 1", "rejected 4")
        self.says(f"login {name} 00", "rejected 1")
        self.says(f"login {name} {sign_login(key, name, bytes.fromhex(nonce)).hex()}", "ok")
        self.says("at 5", "bad 1 0")

    def told(self):
        return self.lines.readline().decode().rstrip("\n")

    def asks(self, line):
        self.lines.write(line.encode() + b"\n")
        self.lines.flush()
        return self.told()

    def wants(self, what, reply, wanted):
        if reply != wanted:
            self.faults.append(f"{self.name}: {what[:60]}: {reply[:80]} instead of {wanted[:80]}")

    def says(self, line, wanted):
        self.wants(line, self.asks(line), wanted)

    def registers(self, text, number):
        key = key_of(SECRETS, text.split(" ")[0])
        self.says(f"register {sign_statement(key, text).hex()} {text}", f"ok statement {number}")

    def may(self, node, permission, statement, issue, conditions):
        """Verifies that it may, and returns the procap."""
        self.says(f"verify {self.name} #{node} {permission} {statement} {PROOF}", f"ok issue {issue} time {conditions} state 0")
        return self.asks(f"procap {issue}").split(" ")[2]

    def leaves(self):
        self.lines.close()
        self.socket.close()


def one_after_another(alice, bob, carol):
    """Policy, a file that is written and read back, and who may not read it: procaps to create, to read, and the one that is too late."""
    for number, text in enumerate(POLICY, 1):
        alice.registers(text, number)
    create = alice.may(1, "write", 1, 1, 0)
    alice.says(f"do create #1 notes {create}", "ok node #2")
    write = alice.may(2, "write", 2, 2, 0)
    alice.says(f"do write #2 0 {CONTENT.hex()} {write}", "ok")
    read = bob.may(2, "read", 3, 3, 0)
    bob.says(f"do read #2 0 60000 {read}", f"ok bytes {CONTENT.hex()}")
    late = carol.may(2, "read", 4, 4, 2)
    refused = carol.asks(f"do read #2 0 1 {late}")
    if not refused.startswith("denied 1 time") or "ctime <= 1609372800" not in refused:
        carol.faults.append(f"carol: {refused}")
    return create, read, late


def at_once(alice, bob, carol, create, read, late):
    """All three work at the same time."""

    def writes(turn):
        alice.says(f"do create #1 n{turn} {create}", f"ok node #{turn + 3}")

    def reads(turn):
        bob.says(f"do read #2 {turn} 10 {read}", f"ok bytes {CONTENT[turn : turn + 10].hex()}")

    def is_denied(turn):
        if not carol.asks(f"do read #2 0 1 {late}").startswith("denied 1 time"):
            carol.faults.append("carol is not denied")

    def work(ask):
        for turn in range(TURNS):
            ask(turn)

    threads = [threading.Thread(target=work, args=(ask,)) for ask in (writes, reads, is_denied)]
    for thread in threads:
        thread.start()
    for thread in threads:
        thread.join()


def main():
    faults = []
    users = [Session(int(sys.argv[1]), name, faults) for name in ("alice", "bob", "carol")]
    at_once(*users, *one_after_another(*users))
    for user in users:
        user.leaves()
    for fault in faults:
        print(fault)
    return 1 if faults else 0


if __name__ == "__main__":
    sys.exit(main())
