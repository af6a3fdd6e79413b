"""What a random client says: lines that are right, and lines that are not, drawn from what it was told."""
import hashlib
import re
import time

import switches
from pcfs_formats import PERMISSIONS, grant_bytes, sign_login, sign_statement, sign_withdrawal

SEAL = "6f6e65206b657920666f7220746865207365616c"
SHARED = "office"
ISSUERS = ("admin", "hr", "loc")
ROOT = ("write", "read", "execute")

# The policy, whose statements are the first of the store.
POLICY = [
    *(f"admin says forall K:principal. may(K,#1,{perm}) from 0 to +inf" for perm in ROOT),
    *(f"admin says forall F:file. forall K:principal. owner(F,K) => may(K,F,{perm}) from 0 to +inf" for perm in PERMISSIONS),
    'admin says forall F:file. forall K:principal. has_xattr(F,"pcfs.class","public") => may(K,F,read) from 0 to +inf',
    "admin says forall F:file. forall D:file. forall K:principal. in_dir(F,D) & owner(D,K) => may(K,F,identity) from 0 to +inf",
    "admin says forall K:principal. forall F:file. hr says employee(K) => may(K,F,read) from 0 to +inf",
]
PUBLIC, BELOW, EMPLOYEES = len(ROOT) + len(PERMISSIONS) + 1, len(ROOT) + len(PERMISSIONS) + 2, len(ROOT) + len(PERMISSIONS) + 3
OWN, HALF = "saysR(claim(0,init(1)))", "saysR(claim(0,andL(1,init(2))))"


def key_of(name):
    """The key that this name shares with the server."""
    return hashlib.sha256(name.encode()).digest()[:16]


def secrets_of(names):
    """The text of a secrets file."""
    return "".join([f"seal {SEAL}\n", *(f"key {name} {key_of(name).hex()}\n" for name in (*ISSUERS, SHARED, *names))])


def login(name, nonce):
    return f"login {name} {sign_login(key_of(name), name, nonce).hex()}"


def registration(text):
    return f"register {sign_statement(key_of(text.split(' ')[0]), text).hex()} {text}"


def withdrawal(number, text, who=None):
    """The withdrawal of the statement of that number, signed by who says it, or by somebody."""
    return f"withdraw {number} {sign_withdrawal(key_of(who or text.split(' ')[0]), text).hex()}"


def root_verify(who, perm):
    return f"verify {who} #1 {perm} {1 + ROOT.index(perm)} saysR(claim(0,forallL(1,{who},init(2))))"


def owner_verify(who, file, perm, number=None):
    number = number or len(ROOT) + 1 + PERMISSIONS.index(perm)
    return f"verify {who} #{file} {perm} {number} saysR(claim(0,forallL(1,#{file},forallL(2,{who},impL(3,ctime,ctime,interR,init(4))))))"


def below_verify(who, file, directory):
    premise = "impL(4,ctime,ctime,andR(interR,interR),init(5))"
    return f"verify {who} #{file} identity {BELOW} saysR(claim(0,forallL(1,#{file},forallL(2,#{directory},forallL(3,{who},{premise})))))"


def employee_verify(who, file, number):
    premise = "impL(4,ctime,ctime,saysR(claim(1,init(5))),init(5))"
    return f"verify {who} #{file} read {EMPLOYEES},{number} saysR(claim(0,forallL(2,{who},forallL(3,#{file},{premise}))))"


def forged(draw):
    """The bytes of a procap that nobody sealed."""
    grant = {"principal": "alice", "file": draw.randint(1, 9), "permission": draw.choice(PERMISSIONS), "times": [], "states": []}
    return (grant_bytes(grant) + draw.randbytes(32)).hex()


# ---- random formulas, lines that were broken, and junk -------------------------------------------------------------

VARIABLES = {"principal": "K", "file": "F", "perm": "P", "time": "T", "text": "X"}
TERMS = {
    "principal": ["alice", "bob", "hr"], "file": ["#1", "#2", "#18446744073709551615"], "perm": PERMISSIONS,
    "time": ["0", "-inf", "+inf", "2026-01-01", "1999-12-31T23:59:59Z"], "text": ['"a b"', '""', '"pcfs.class"'],
}


def term(draw, sort, bound):
    return VARIABLES[sort] if sort in bound and draw.random() < 0.6 else draw.choice(TERMS[sort])


def formula(draw, depth, bound=()):
    """The text of a formula that is well sorted."""
    kind = draw.randrange(12) if depth else draw.randrange(5)

    def below(*more):
        return "(" + formula(draw, depth - 1, (*bound, *more)) + ")"

    if kind == 0:
        return f"p{draw.randrange(9)}" + draw.choice(["", f"({term(draw, draw.choice(list(TERMS)), bound)},{term(draw, 'file', bound)})"])
    if kind == 1:
        return f"{term(draw, 'time', bound)} <= {term(draw, 'time', bound)}"
    if kind == 2:
        return f"owner({term(draw, 'file', bound)},{term(draw, 'principal', bound)})"
    if kind == 3:
        return f"may({term(draw, 'principal', bound)},{term(draw, 'file', bound)},{term(draw, 'perm', bound)})"
    if kind == 4:
        return draw.choice(["true", "false"])
    if kind in (5, 6):
        sort = draw.choice(list(TERMS))
        return f"{draw.choice(['forall', 'exists'])} {VARIABLES[sort]}:{sort}. {below(sort)}"
    if kind == 7:
        return f"{term(draw, 'principal', bound)} says {below()}"
    if kind == 8:
        return f"{below()} @ [{term(draw, 'time', bound)},{term(draw, 'time', bound)}]"
    return f"{below()} {draw.choice(['&', '|', '=>'])} {below()}"


def broken(draw, line):
    """The line with a byte taken out, put in or exchanged, or a word more or less, or cut."""
    at, byte = draw.randrange(len(line) + 1), bytes([draw.choice(b' #@"-,0123456789abz()') if draw.random() < 0.8 else draw.randrange(256)])
    byte = b" " if byte == b"\n" else byte
    words = line.split(b" ")
    word = draw.randrange(len(words))
    return draw.choice([
        line[:at] + line[at + 1 :],
        line[:at] + byte + line[at:],
        line[:at] + byte + line[at + 1 :],
        b" ".join(words[:word] + words[word + 1 :]),
        b" ".join(words[: word + 1] + words[word:]),
        line[:at],
    ])


WORDS = (
    "login register verify procap do at as check checkpoint read write truncate list lookup create mkdir unlink rename getattr setattr "
    'delattr chown alice admin #1 #0 #2 - 00 1 0 65536 65537 1,2 "a" "a b" " @1 hello saysR(claim(0,init(1))) true from to says 4701'
).split(" ")


def junk(draw):
    """Bytes without an end of a line that ask for nothing, mostly."""
    if draw.random() < 0.5:
        words = [*WORDS, "withdraw", "withdraw", "4294967296"] if switches.withdrawals else WORDS
        return " ".join(draw.choice(words) for _ in range(draw.randint(0, 7))).encode()
    return draw.randbytes(draw.randint(0, 80)).replace(b"\n", b"\r")


# ---- a client ------------------------------------------------------------------------------------------------------


class Board:
    """What the clients of one process know of each other."""

    def __init__(self):
        self.procaps, self.nodes, self.statements, self.issues, self.turn = [], [1], [], 1, 0
        self.numbered, self.withdrawn = [], []  # statements and their numbers

    def note(self, kept, one):
        if len(kept) >= 2000:
            self.turn = (self.turn + 1) % len(kept)
            kept[self.turn] = one
        else:
            kept.append(one)


TAME = {
    "fitting": 50, "attribute_more": 3, "unfitting": 8, "verify": 5, "odd_verify": 3, "any_procap": 3, "statement": 1, "statement_again": 2,
    "forged_statement": 1, "other_login": 1, "broken_line": 10, "junk_line": 4, "operator_line": 1, "odd_statement": 1,
}
WILD = {**TAME, "fitting": 12, "broken_line": 45, "junk_line": 25, "odd_verify": 8, "odd_statement": 8, "operator_line": 4}
WITHDRAWING = {"withdrawal": 2, "odd_withdrawal": 4, "other_statement": 4, "statement": 3}


class Speaker:
    """Draws what is said in one session under a name of its own. A line comes with a note of what its reply will tell."""

    def __init__(self, draw, name, nonce, board, wild=False, more=None):
        self.draw, self.name, self.nonce, self.board, self.more = draw, name, nonce, board, more
        weights = {**(WILD if wild else TAME), **(WITHDRAWING if switches.withdrawals else {})}
        self.kinds, self.weights = zip(*weights.items())
        self.own = []  # the intervals of statements that give one a right, and which
        self.caller, self.number, self.attributes = None, 0, 0
        self.held, self.places, self.directories = {}, {}, [1]
        self.next = [(root_verify(name, perm), ("issue", name, 1, perm)) for perm in ROOT]

    # -- what is learned

    def learn(self, note, reply):
        """Takes note of a reply to a line with that note."""
        if note and reply.startswith(b"ok"):
            getattr(self, "learn_" + note[0])(reply.split(b" "), *note[1:])

    def learn_login(self, words, who):
        self.caller = who

    def learn_statement(self, words, text, line):
        self.board.note(self.board.statements, text)
        if switches.withdrawals:
            self.board.note(self.board.numbered, (int(words[2]), text))
        if line:
            who, file, perm, verify = line
            self.next.append((verify.replace("NUMBER", words[2].decode()), ("issue", who, file, perm)))

    def learn_withdrawn(self, words, number, text):
        self.board.note(self.board.withdrawn, (number, text))

    def learn_issue(self, words, who, file, perm):
        self.board.issues = max(self.board.issues, int(words[2]))
        self.next.append((f"procap {int(words[2])}", ("procap", who, file, perm)))

    def learn_procap(self, words, who, file, perm):
        self.held[who, file, perm] = words[2].decode()
        self.board.note(self.board.procaps, words[2].decode())

    def learn_node(self, words, directory, name, kind):
        number = int(words[2][1:])
        self.places[number] = (directory, name, kind)
        self.board.note(self.board.nodes, number)
        if kind == "mkdir":
            self.directories.append(number)
        for perm in self.draw.sample(PERMISSIONS, self.draw.choice([1, 2, 2, 5])):
            self.next.append((owner_verify(self.caller, number, perm), ("issue", self.caller, number, perm)))

    def learn_gone(self, words, number):
        self.places.pop(number, None)

    def learn_moved(self, words, number, directory, name):
        if number in self.places:
            self.places[number] = (directory, name, self.places[number][2])

    # -- what is said

    def line(self):
        """The next line, as bytes, and its note."""
        if self.caller is None:
            line, note = self.as_guest()
        elif self.caller == SHARED:
            line, note = self.as_shared()
        elif self.next and self.draw.random() < 0.5:
            line, note = self.next.pop(0)
        else:
            line, note = getattr(self, self.draw.choices(self.kinds, self.weights)[0])()
        return (line if isinstance(line, bytes) else line.encode()), note

    def as_guest(self):
        if switches.withdrawals and self.draw.random() < 0.1:
            return self.odd_withdrawal()
        kind = self.draw.randrange(10)
        if kind == 0:
            return "procap 1", None
        if kind == 1:
            return login(self.name, self.draw.randbytes(16)), None
        if kind == 2:
            return f"login {self.name} {self.draw.choice(['-', '00', 'ff' * 32])}", None
        if kind == 3:
            return broken(self.draw, root_verify(self.name, "read").encode()), None
        if kind == 4:
            return f"do list #1 {forged(self.draw)}", None
        return login(self.name, self.nonce), ("login", self.name)

    def as_shared(self):
        """As one whose name others have too nothing is asked twice."""
        self.number += 1
        mine = f"{self.name}.{self.number}"
        write = self.held.get((SHARED, 1, "write"))
        files = [file for who, file, perm in self.held if (who, perm) == (SHARED, "write") and file != 1]
        kind = self.draw.randrange(6)
        if kind == 0:
            return login(self.name, self.nonce), ("login", self.name)
        if self.next and (kind < 4 or not write):
            return self.next.pop(0)
        if not write:
            return root_verify(SHARED, "write"), ("issue", SHARED, 1, "write")
        if not files or kind == 1:
            return f"do create #1 {mine} {write}", ("node", 1, mine, "create")
        file = self.draw.choice(files)
        return f"do write #{file} {self.draw.randrange(40)} {mine.encode().hex()} {self.held[SHARED, file, 'write']}", None

    def any_node(self):
        draw = self.draw
        kind = draw.random()
        if kind < 0.5 and self.places:
            return draw.choice(list(self.places))
        return draw.choice(self.board.nodes) if kind < 0.95 else draw.choice([0, 1, 2, 2**64 - 1])

    def any_held(self):
        """Some procap."""
        draw = self.draw
        kind = draw.random()
        if kind < 0.6 and self.held:
            return draw.choice(list(self.held.values()))
        return draw.choice(self.board.procaps) if kind < 0.95 and self.board.procaps else forged(draw)

    def procap_for(self, file, perm):
        return self.held.get((self.name, file, perm)) or self.any_held()

    def new_name(self):
        self.number += 1
        return self.draw.choice([f"{self.name}.{self.number}"] * 6 + ["a", "b", "x" * 64, "y" * 65, "..", "q/r"])

    def offset(self):
        draw = self.draw
        return draw.randrange(40) if draw.random() < 0.99 else draw.choice([1000, 65536, 1048576, 1048577, 2**64 - 1])

    def data(self):
        draw = self.draw
        if self.more and self.more.value and draw.random() < 0.3:
            return draw.randbytes(draw.randint(1, int(self.more.value))).hex()
        return "-" if draw.random() < 0.05 else draw.randbytes(draw.choice([1, 4, 16, 16, 40, 200])).hex()

    def fitting(self):
        """An operation that one of the procaps at hand may allow."""
        mine = [(file, perm) for who, file, perm in self.held if who == self.name]
        near = [(file, perm) for file, perm in mine if file == 1 or file in self.places]
        if not near:
            return root_verify(self.name, "write"), ("issue", self.name, 1, "write")
        file, perm = self.draw.choice(near if self.draw.random() < 0.9 else mine)
        return self.operation(file, perm, file in self.directories or file == 1)

    def attribute_more(self):
        """One attribute more of one's first file."""
        for who, file, perm in self.held:
            if (who, perm) == (self.name, "write") and file in self.places and file not in self.directories:
                self.attributes += 1
                return f'do setattr #{file} more.{self.attributes} "" {self.held[who, file, perm]}', None
        return self.fitting()

    def unfitting(self):
        """An operation on some node under some procap."""
        self.number += 1
        file, perm = self.any_node(), self.draw.choice(PERMISSIONS)
        line, note = self.operation(file, perm, self.draw.random() < 0.5)
        words = line.split(" ")
        words[-1] = self.any_held()
        return " ".join(words), note if note and note[0] == "node" else None

    def operation(self, file, perm, is_directory):
        draw, held = self.draw, self.procap_for(file, perm)
        if perm == "read":
            kinds = ["list", "getattr"] if is_directory else ["read"] * 4 + ["getattr", "list"]
        elif perm == "write":
            kinds = ["create", "create", "mkdir", "setattr", "unlink", "rename"] if is_directory else ["write"] * 6 + ["truncate", "setattr", "delattr", "create"]
        else:
            kinds = {"execute": ["lookup"], "govern": ["chown", "class", "class", "delattr_class"], "identity": ["unlink", "rename"]}[perm]
        return getattr(self, "do_" + draw.choice(kinds))(file, held)

    def do_list(self, file, held):
        return f"do list #{file} {held}", None

    def do_getattr(self, file, held):
        return f"do getattr #{file} {self.attribute()} {held}", None

    def do_read(self, file, held):
        return f"do read #{file} {self.offset()} {self.draw.choice([0, 1, 20, 100, 65536])} {held}", None

    def do_write(self, file, held):
        return f"do write #{file} {self.offset()} {self.data()} {held}", None

    def do_truncate(self, file, held):
        return f"do truncate #{file} {self.offset()} {held}", None

    def do_create(self, file, held):
        name = self.new_name()
        return f"do create #{file} {name} {held}", ("node", file, name, "create")

    def do_mkdir(self, file, held):
        name = self.new_name()
        return f"do mkdir #{file} {name} {held}", ("node", file, name, "mkdir")

    def attribute(self):
        return self.draw.choice(["color", "b.c", "pcfs.class", "pcfs.x", "A", "z" * 65, *(f"a{one}" for one in range(4))])

    def do_setattr(self, file, held):
        return f'do setattr #{file} {self.attribute()} "{self.draw.choice(["", "a b", "open", str(self.number)])}" {held}', None

    def do_class(self, file, held):
        return f'do setattr #{file} pcfs.class "{self.draw.choice(["public", "public", "staff"])}" {held}', None

    def do_delattr(self, file, held):
        return f"do delattr #{file} {self.attribute()} {held}", None

    def do_delattr_class(self, file, held):
        return f"do delattr #{file} pcfs.class {held}", None

    def do_chown(self, file, held):
        return f"do chown #{file} {self.draw.choice([self.name, self.name, self.name, 'carol'])} {held}", None

    def do_lookup(self, file, held):
        names = [name for directory, name, _ in self.places.values() if directory == file]
        return f"do lookup #{file} {self.draw.choice([*names, 'a', 'b', 'nobody'])} {held}", None

    def child(self):
        """A node of one's own, with its directory and name."""
        if not self.places:
            return 2, 1, "a"
        number = self.draw.choice(list(self.places))
        return (number, *self.places[number][:2])

    def do_unlink(self, file, held):
        number, directory, name = self.child()
        return f"do unlink #{directory} {name} {self.procap_for(directory, 'write')} {self.procap_for(number, 'identity')}", ("gone", number)

    def do_rename(self, file, held):
        number, directory, name = self.child()
        target, new = self.draw.choice(self.directories), self.new_name()
        procaps = f"{self.procap_for(directory, 'write')} {self.procap_for(target, 'write')} {self.procap_for(number, 'identity')}"
        return f"do rename #{directory} {name} #{target} {new} {procaps}", ("moved", number, target, new)

    # -- proofs and statements

    def verify(self):
        draw, who, file = self.draw, self.name, self.any_node()
        kind = draw.randrange(4)
        if kind == 0:
            return owner_verify(who, file, "read", PUBLIC), ("issue", who, file, "read")
        if kind == 1:
            return below_verify(who, file, draw.choice(self.directories)), ("issue", who, file, "identity")
        if kind == 2:
            return root_verify(who, draw.choice(ROOT)), None
        perm = draw.choice(PERMISSIONS)
        return owner_verify(who, file, perm), ("issue", who, file, perm)

    def odd_verify(self):
        """A proof in which something was exchanged."""
        draw = self.draw
        line, _ = self.verify()
        kind = draw.randrange(6)
        words = line.split(" ")
        if kind == 0:
            words[4] = draw.choice(["0", "1", "2", "4096", "4097", "1,2", "2,1", "1,4294967295", "4294967296", "3,5000"])
        elif kind == 1:
            words[5] = re.sub(r"\d+", lambda found: str(int(found[0]) + draw.choice([0, 0, 1])), words[5])
        elif kind == 2:
            words[5] = draw.choice(["init(0)", "saysR(init(0))", "trueR", "saysR(claim(0,falseL(1)))", "saysR(saysR(consR))", "saysR(claim(0,andR(trueR,consR)))"])
        elif kind == 3:
            words[5] = words[5].replace("ctime", draw.choice(["?0", "-inf", "2026-01-01", "2026-02-30", "#1"]))
        elif kind == 4:
            words[draw.choice([1, 2, 3])] = draw.choice(["alice", "#1", "write", "#7"])
        else:
            words[5] = words[5].replace("interR", draw.choice(["trueR", "consR", "init(3)", "interR()"]))
        return " ".join(words), None

    def any_procap(self):
        return f"procap {self.draw.choice([self.draw.randint(1, self.board.issues), self.board.issues + 5, 2**64 - 1, 2**64, 0])}", None

    def statement(self):
        """One that holds for some seconds, for oneself or as an employee; or any."""
        draw, now = self.draw, int(time.time())
        kind, end = draw.randrange(3), now + draw.choice([1, 3, 10, 60])
        if kind == 0:
            text, perm = f"admin says may({self.name},#1,write) from {draw.choice([0, now - 1, now])} to {end}", "write"
            self.own.append(text.split(" from ")[1])
            return registration(text), ("statement", text, (self.name, 1, perm, f"verify {self.name} #1 write NUMBER {OWN}"))
        if kind == 1:
            text, file = f"hr says employee({self.name}) from {draw.choice([0, now, now + 1])} to {end}", self.any_node()
            return registration(text), ("statement", text, (self.name, file, "read", employee_verify(self.name, file, "NUMBER")))
        text = f"{draw.choice(ISSUERS)} says {formula(draw, draw.randint(0, 4))} from 0 to {draw.choice(['+inf', end, '2030-01-01'])}"
        return registration(text), ("statement", text, None)

    def other_statement(self):
        """One that gives the same right as another did, under the same conditions."""
        draw = self.draw
        if not self.own:
            return self.statement()
        who, interval, half = draw.choice(["admin", "loc"]), draw.choice(self.own[-3:]), draw.random() < 0.7
        self.number += 1
        text = f"{who} says may({self.name},#1,write){f' & again{self.number}' if half else ''} from {interval}"
        return registration(text), ("statement", text, (self.name, 1, "write", f"verify {self.name} #1 write NUMBER {HALF if half else OWN}"))

    def withdrawal(self):
        """A right one, seldom of a statement of the policy; others may have withdrawn it before."""
        draw, board = self.draw, self.board
        if draw.random() < 0.005 or not board.numbered:
            number = draw.choice([PUBLIC, BELOW, EMPLOYEES])
            text = POLICY[number - 1]
        else:
            number, text = draw.choice(board.numbered[-20:] if draw.random() < 0.7 else board.numbered)
        return withdrawal(number, text), ("withdrawn", number, text)

    def odd_withdrawal(self):
        """One of no statement, of one that was withdrawn before, or under another signature."""
        draw, board = self.draw, self.board
        policy = [(number, text) for number, text in enumerate(POLICY, 1)]
        number, text = draw.choice(board.numbered if board.numbered and draw.random() < 0.7 else policy)
        kind = draw.randrange(8)
        if kind == 0:
            return withdrawal(draw.choice([0, 4096, 4097, 2**32 - 1, 2**32, 2**64]), text), None
        if kind == 1:
            return withdrawal(*draw.choice(board.withdrawn or policy[:1]), who=None if board.withdrawn else SHARED), None
        if kind == 2:
            return withdrawal(number, text, who=draw.choice([self.name, SHARED, *(one for one in ISSUERS if not text.startswith(f"{one} "))])), None
        if kind == 3:
            return f"withdraw {number} {registration(text).split(' ')[1]}", None
        if kind == 4:
            other = draw.choice([one for _, one in (board.numbered or policy)[-30:] + policy[:2] if one != text])
            return withdrawal(number, other), None
        if kind == 5:
            return f"withdraw {number} {draw.choice(['-', '00', draw.randbytes(32).hex(), withdrawal(number, text).split(' ')[2] + '00'])}", None
        if kind == 6:
            return f"withdraw {draw.choice(['-', '01', '#1', '@1', ''])} {withdrawal(number, text).split(' ')[2]}", None
        return broken(draw, withdrawal(number, text, who=SHARED).encode()), None

    def statement_again(self):
        text = self.draw.choice(self.board.statements) if self.board.statements and self.draw.random() < 0.6 else self.draw.choice(POLICY)
        line = registration(text)
        return line.replace(" says ", "  says " if self.draw.random() < 0.3 else " says ", 1), None

    def forged_statement(self):
        text = f"{self.draw.choice([*ISSUERS, self.name, 'nobody'])} says true from 0 to {self.draw.randrange(99)}"
        return f"register {self.draw.choice(['-', '00', self.draw.randbytes(32).hex()])} {text}", None

    def odd_statement(self):
        """One whose text was broken, under the signature of the right one."""
        text = f"{self.draw.choice(ISSUERS)} says {formula(self.draw, 2)} from 0 to 2030-01-01"
        signature = registration(text).split(" ")[1]
        return b"register " + signature.encode() + b" " + broken(self.draw, text.encode()), None

    # -- and the rest

    def other_login(self):
        kind = self.draw.randrange(4)
        if kind == 0:
            return login(SHARED, self.nonce), ("login", SHARED)
        if kind == 1:
            return login(self.name, self.nonce), ("login", self.name)
        return login(self.name, bytes(16)) if kind == 2 else "login admin -", None

    def broken_line(self):
        kinds = ["fitting", "fitting", "verify", "statement", "any_procap"] + (["withdrawal"] if switches.withdrawals else [])
        line, _ = getattr(self, self.draw.choice(kinds))()
        return broken(self.draw, line.encode()), None

    def junk_line(self):
        return junk(self.draw), None

    def operator_line(self):
        return self.draw.choice(["at 5", "as admin", "check alice #1 write 1 trueR", "checkpoint", "do list #1 @1", "statement p", "goal p", "load 1 1"]), None
