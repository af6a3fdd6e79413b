"""The bytes of statements, grants and procaps, the reader of statements' texts, and signatures (docs/PROTOCOL.md has the formats).

The reader of texts takes what the grammar allows and tests neither sorts nor limits: the server does.
"""
import hashlib
import hmac
import re
from datetime import datetime, timezone

PERMISSIONS = ["read", "write", "execute", "identity", "govern"]
SORTS = ["principal", "file", "perm", "time", "text"]
STATE = {"owner": 0x12, "has_xattr": 0x13, "in_dir": 0x14}
BINDERS = {"forall": b"\x1a", "exists": b"\x1b"}

DATE = r"\d{4}-\d\d-\d\d(?:T\d\d:\d\d:\d\dZ)?"
TOKEN = re.compile(
    rf' *([-+]inf|{DATE}|-?\d{{1,18}}|[#?](?:0|[1-9]\d*)(?!\d)|"[^"\\]*"|[a-z][a-z0-9_]*|[A-Z][A-Za-z0-9_]*|=>|<=|[()\[\],:.&|@])'
)


# ---- writing bytes -------------------------------------------------------------------------------------------------


def short(text):
    """A name or a text: one byte of length, and its bytes."""
    return bytes([len(text)]) + text.encode("ascii")


def point(token):
    """A point in time, from its text."""
    if token == "-inf":
        return b"\x00"
    if token == "+inf":
        return b"\x02"
    if re.fullmatch(DATE, token):
        form = "%Y-%m-%dT%H:%M:%SZ" if "T" in token else "%Y-%m-%d"
        second = int(datetime.strptime(token, form).replace(tzinfo=timezone.utc).timestamp())
    else:
        second = int(token)
    return b"\x01" + second.to_bytes(8, "big", signed=True)


class Text:
    """Reads the text of a statement into its canonical bytes, token by token."""

    def __init__(self, text):
        self.tokens = []
        at = 0
        text = text.rstrip(" ")
        while at < len(text):
            match = TOKEN.match(text, at)
            if not match:
                raise ValueError(f"no token at byte {at}")
            self.tokens.append(match[1])
            at = match.end()
        self.at = 0
        self.binders = []

    def ahead(self, distance=0):
        place = self.at + distance
        return self.tokens[place] if place < len(self.tokens) else ""

    def take(self, wanted=None):
        token = self.ahead()
        if not token or (wanted and token != wanted):
            raise ValueError(f"{wanted or 'more'} expected, and not {token or 'the end'}")
        self.at += 1
        return token

    def statement(self):
        who = short(self.take())
        self.take("says")
        said = self.formula()
        self.take("from")
        begin = point(self.take())
        self.take("to")
        end = point(self.take())
        if self.ahead():
            raise ValueError(f"{self.ahead()} after the end")
        return who + said + begin + end

    def formula(self):
        if self.ahead() in BINDERS:
            tag = BINDERS[self.take()]
            name = self.take()
            if not name[0].isupper():
                raise ValueError(f"a variable expected, and not {name}")
            self.take(":")
            sort = bytes([SORTS.index(self.take()) + 1])
            self.take(".")
            self.binders.append(name)
            body = self.formula()
            self.binders.pop()
            return tag + sort + body
        left = self.joined("|", b"\x16", lambda: self.joined("&", b"\x15", self.unary))
        if self.ahead() != "=>":
            return left
        self.take("=>")
        return b"\x17" + left + self.formula()

    def joined(self, sign, tag, operand):
        left = operand()
        while self.ahead() == sign:
            self.take(sign)
            left = tag + left + operand()
        return left

    def unary(self):
        if self.ahead(1) == "says":
            who = self.term()
            self.take("says")
            return b"\x1c" + who + self.unary()
        left = self.primary()
        while self.ahead() == "@":
            self.take("@")
            self.take("[")
            begin = self.term()
            self.take(",")
            end = self.term()
            self.take("]")
            left = b"\x1d" + left + begin + end
        return left

    def primary(self):
        token = self.ahead()
        if token == "(":
            self.take()
            inner = self.formula()
            self.take(")")
            return inner
        if self.ahead(1) == "<=" or not token[:1].islower():
            low = self.term()
            self.take("<=")
            return b"\x11" + low + self.term()
        if token in ("true", "false"):
            self.take()
            return b"\x18" if token == "true" else b"\x19"
        return self.predicate()

    def predicate(self):
        name = self.take()
        terms = []
        if self.ahead() == "(":
            self.take()
            terms.append(self.term())
            while self.ahead() == ",":
                self.take()
                terms.append(self.term())
            self.take(")")
        if name in STATE:
            return bytes([STATE[name]]) + b"".join(terms)
        return b"\x10" + short(name) + bytes([len(terms)]) + b"".join(terms)

    def term(self):
        token = self.take()
        if token[0] == "#":
            if int(token[1:]) >= 2**64:
                raise ValueError(f"{token} is no file")
            return b"\x02" + int(token[1:]).to_bytes(8, "big")
        if token in PERMISSIONS:
            return bytes([3, PERMISSIONS.index(token) + 1])
        if token[0] == '"':
            return b"\x05" + short(token[1:-1])
        if token[0].isupper():
            # the number of binders between the variable and its own, the nearest of its name
            return b"\x08" + self.binders[::-1].index(token).to_bytes(4, "big")
        if token[0].islower():
            return b"\x01" + short(token)
        return b"\x04" + point(token)


# ---- reading and writing a procap ----------------------------------------------------------------------------------


class Bytes:
    """Reads the bytes of a grant from the left."""

    def __init__(self, data):
        self.data = data
        self.at = 0

    def take(self, count):
        if self.at + count > len(self.data):
            raise ValueError("the bytes are cut short")
        self.at += count
        return self.data[self.at - count : self.at]

    def number(self, count, signed=False):
        return int.from_bytes(self.take(count), "big", signed=signed)

    def short(self):
        return self.take(self.number(1)).decode("ascii")

    def term(self):
        tag = self.number(1)
        if tag == 1:
            return self.short()
        if tag == 2:
            return f"#{self.number(8)}"
        if tag == 3:
            return PERMISSIONS[self.number(1) - 1]
        if tag == 4:
            kind = self.number(1)
            return str(self.number(8, signed=True)) if kind == 1 else {0: "-inf", 2: "+inf"}[kind]
        if tag == 5:
            return f'"{self.short()}"'
        if tag == 6:
            return "ctime"
        raise ValueError(f"{tag:02x} begins no term of a grant")

    def time_condition(self):
        return (self.term(), self.term())

    def state_condition(self):
        tag = self.number(1)
        name = next(name for name in STATE if STATE[name] == tag)
        return (name, *[self.term() for _ in range(3 if name == "has_xattr" else 2)])

    def grant(self):
        kind, version = self.take(2)
        if kind != 0x47 or version not in (1, 2):
            raise ValueError("no grant of version 1 or 2")
        grant = {"principal": self.short(), "file": self.number(8), "permission": PERMISSIONS[self.number(1) - 1]}
        grant["times"] = [self.time_condition() for _ in range(self.number(1))]
        grant["states"] = [self.state_condition() for _ in range(self.number(1))]
        grant["cited"] = [self.number(4) for _ in range(self.number(1))] if version == 2 else []
        return grant


def term_bytes(term):
    return b"\x06" if term == "ctime" else Text(term).term()


def grant_bytes(grant):
    """The one spelling of a grant."""
    cited = grant.get("cited", [])
    out = bytes([0x47, 2 if cited else 1]) + short(grant["principal"]) + grant["file"].to_bytes(8, "big")
    out += bytes([PERMISSIONS.index(grant["permission"]) + 1, len(grant["times"])])
    for condition in grant["times"]:
        out += b"".join(term_bytes(term) for term in condition)
    out += bytes([len(grant["states"])])
    for name, *terms in grant["states"]:
        out += bytes([STATE[name]]) + b"".join(term_bytes(term) for term in terms)
    if cited:
        out += bytes([len(cited)]) + b"".join(number.to_bytes(4, "big") for number in cited)
    return out


def read_procap(data):
    """The grant and the tag of a procap's bytes."""
    reading = Bytes(data)
    grant = reading.grant()
    tag = reading.take(32)
    if reading.at != len(data):
        raise ValueError("bytes after the tag")
    return grant, tag


# ---- keys and signatures ---------------------------------------------------------------------------------------------


def tag_of(key, message):
    return hmac.new(key, message, hashlib.sha256).digest()


def sign_statement(key, text):
    return tag_of(key, b"S" + Text(text).statement())


def sign_withdrawal(key, text):
    return tag_of(key, b"W" + Text(text).statement())


def sign_login(key, name, nonce):
    return tag_of(key, b"L" + short(name) + nonce)


def hex_bytes(word):
    return b"" if word == "-" else bytes.fromhex(word)


def number_of(word):
    """A statement's number, as it stands in a line."""
    if not re.fullmatch("0|[1-9][0-9]*", word) or int(word) >= 2**32:
        raise ValueError(f"{word} is no number of a statement")
    return word


def secrets_of(path):
    """The key of the seal, and the keys of those who sign by their names."""
    with open(path, encoding="ascii") as file:
        (_, seal), *lines = map(str.split, file)
    return hex_bytes(seal), {words[1]: hex_bytes(words[2]) for words in lines if words[0] == "key"}


def key_of(path, name):
    """A name's key in a secrets file."""
    _, keys = secrets_of(path)
    if name not in keys:
        raise ValueError(f"{name} has no key in {path}")
    return keys[name]
