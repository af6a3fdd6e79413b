#!/usr/bin/env python3
"""Answers a script by a slow and plain model of PCFS, which shares nothing with the server but docs/PROTOCOL.md, docs/GENERATED.md
and docs/LOGIC.md, and with examples/pcfs_formats.py the texts and bytes of statements.

    pcfs_model.py script SECRETS < SCRIPT       prints the reply to each line
    pcfs_model.py rows FILE..                   compares the replies that files of rows want (crates/pcfs_rows) with its own
    pcfs_model.py random SEED COUNT [SECRETS]   prints a script with COUNT random lines, most of them operations; what is signed in
                                                them is signed by the keys of SECRETS
    pcfs_model.py generated ROUNDS SEED         prints the script that `load ROUNDS SEED` runs
    pcfs_model.py load ROUNDS SEED              prints the line that `load ROUNDS SEED` writes

There are withdrawals, unless WITHDRAWALS=0 in the environment says that the program is one from before them (switches.py).

It reads right texts alone: a line whose statement or proof has a fault, one of its limits included, is answered `?`.
"""
import datetime
import random
import re
import sys
from collections import namedtuple
from pathlib import Path

import hash_trees
import modes_model
import root_model

sys.path.append(str(Path(__file__).resolve().parents[2] / "examples"))

import switches
from pcfs_formats import PERMISSIONS, STATE, Text, short, tag_of

INF = float("inf")
FIRST, LAST = -62135596800, 253402300799
RESERVED = set("forall exists says from to true false ctime inf principal file perm time text".split() + PERMISSIONS)
SORTS = ["principal", "file", "perm", "time", "text"]
CTIME = ("ctime",)
MOST_BYTES, MOST_FILE, MOST_TOGETHER, MOST_NODES, MOST_ATTRIBUTES = 65536, 1048576, 33554432, 16384, 32


class Bad(Exception):
    """The line asks for nothing."""


class Undecided(Exception):
    """A text has a fault, which this model does not name."""


class Reply(Exception):
    """A reply that ends the answer to a line."""


def need(condition, otherwise=Bad):
    if not condition:
        raise otherwise()


def is_principal(word):
    return re.fullmatch("[a-z][a-z0-9_]{0,31}", word) is not None and word not in RESERVED


def is_text(text):
    return len(text) <= 128 and re.fullmatch(r"[\x20-\x7e]*", text) is not None and not set(text) & set('"\\')


# ---- terms and formulas: tuples that begin with their kind ---------------------------------------------------------


class Bytes:
    """Reads canonical bytes from the left."""

    def __init__(self, data):
        self.data = data
        self.at = 0

    def take(self, count):
        need(self.at + count <= len(self.data))
        self.at += count
        return self.data[self.at - count : self.at]

    def number(self, count):
        return int.from_bytes(self.take(count), "big")

    def short(self):
        return self.take(self.number(1)).decode("latin-1")

    def name(self):
        name = self.short()
        need(is_principal(name))
        return name

    def point(self):
        kind = self.number(1)
        need(kind <= 2)
        if kind != 1:
            return -INF if kind == 0 else INF
        second = int.from_bytes(self.take(8), "big", signed=True)
        need(FIRST <= second <= LAST)
        return second

    def perm(self):
        code = self.number(1)
        need(1 <= code <= 5)
        return PERMISSIONS[code - 1]

    def term(self):
        tag = self.number(1)
        need(1 <= tag <= 8)
        if tag == 5:
            text = self.short()
            need(is_text(text))
            return ("text", text)
        read = [self.name, lambda: self.number(8), self.perm, self.point, None, None, lambda: self.number(4), lambda: self.number(4)]
        return CTIME if tag == 6 else ((SORTS + [None, "parameter", "bound"])[tag - 1], read[tag - 1]())

    def state(self, tag):
        name = next(name for name in STATE if STATE[name] == tag)
        return ("state", name, *[self.term() for _ in range(3 if name == "has_xattr" else 2)])

    def formula(self):
        tag = self.number(1)
        if tag == 0x10:
            name = self.short()
            return ("atom", name, *[self.term() for _ in range(self.number(1))])
        if tag == 0x11:
            return ("cons", self.term(), self.term())
        if tag in STATE.values():
            return self.state(tag)
        if tag in (0x15, 0x16, 0x17):
            return ({0x15: "and", 0x16: "or", 0x17: "imp"}[tag], self.formula(), self.formula())
        if tag in (0x18, 0x19):
            return ("true",) if tag == 0x18 else ("false",)
        if tag in (0x1A, 0x1B):
            return ("forall" if tag == 0x1A else "exists", SORTS[self.number(1) - 1], self.formula())
        if tag == 0x1C:
            return ("says", self.term(), self.formula())
        need(tag == 0x1D)
        return ("at", self.formula(), self.term(), self.term())


def put(part, term, depth=0):
    """The formula, or term, with the term in the place of the variable of the binder just outside."""
    if part == ("bound", depth):
        return term
    inside = depth + 1 if part[0] in ("forall", "exists") else depth
    return tuple(put(piece, term, inside) if isinstance(piece, tuple) else piece for piece in part)


def sort_of(term, scope):
    if term == CTIME:
        return "time"
    if term[0] == "parameter":
        return scope[term[1]] if term[1] < len(scope) else None
    return None if term[0] == "bound" else term[0]


def is_stated(formula, binders=()):
    """Whether the formula is well sorted, closed under these binders, and without `ctime` and parameters."""
    kind = formula[0]

    def sort(term):
        if term[0] == "bound":
            return binders[-1 - term[1]] if term[1] < len(binders) else None
        return None if term[0] in ("ctime", "parameter") else term[0]

    if kind == "atom":
        sorts = [sort(term) for term in formula[2:]]
        return None not in sorts and len(sorts) <= 8 and (formula[1] != "may" or sorts == SORTS[:3]) and is_principal(formula[1])
    if kind == "cons":
        return sort(formula[1]) == sort(formula[2]) == "time"
    if kind == "state":
        wanted = {"owner": ["file", "principal"], "has_xattr": ["file", "text", "text"], "in_dir": ["file", "file"]}
        return [sort(term) for term in formula[2:]] == wanted[formula[1]]
    if kind in ("and", "or", "imp"):
        return is_stated(formula[1], binders) and is_stated(formula[2], binders)
    if kind in ("forall", "exists"):
        return is_stated(formula[2], (*binders, formula[1]))
    if kind == "says":
        return sort(formula[1]) == "principal" and is_stated(formula[2], binders)
    return kind in ("true", "false") or (is_stated(formula[1], binders) and sort(formula[2]) == sort(formula[3]) == "time")


def nodes_of(part):
    """How many nodes a formula has: formulas and terms."""
    return 1 + sum(nodes_of(piece) for piece in part if isinstance(piece, tuple))


def term_bytes(term):
    kind, *value = term
    if kind == "principal":
        return b"\x01" + short(value[0])
    if kind == "file":
        return b"\x02" + value[0].to_bytes(8, "big")
    if kind == "perm":
        return bytes([3, PERMISSIONS.index(value[0]) + 1])
    if kind == "time":
        return b"\x04" + (b"\x00" if value[0] == -INF else b"\x02" if value[0] == INF else b"\x01" + value[0].to_bytes(8, "big", signed=True))
    if kind == "text":
        return b"\x05" + short(value[0])
    return b"\x06" if kind == "ctime" else bytes([7 if kind == "parameter" else 8]) + value[0].to_bytes(4, "big")


def term_text(term):
    kind, *value = term
    if kind == "time":
        return {-INF: "-inf", INF: "+inf"}.get(value[0]) or str(value[0])
    return {"file": "#{}", "text": '"{}"', "ctime": "ctime", "parameter": "?{}"}.get(kind, "{}").format(*value)


def condition_text(condition):
    if condition[0] == "cons":
        return f"{term_text(condition[1])} <= {term_text(condition[2])}"
    return f"{condition[1]}({','.join(map(term_text, condition[2:]))})"


# ---- grants and procaps --------------------------------------------------------------------------------------------

Grant = namedtuple("Grant", "who file perm times states cited", defaults=[()])  # `cited` are the numbers of the statements that it names
MOST_NAMED = 64


def grant_bytes(grant):
    out = bytes([0x47, 2 if grant.cited else 1]) + short(grant.who) + grant.file.to_bytes(8, "big")
    out += bytes([PERMISSIONS.index(grant.perm) + 1, len(grant.times)])
    out += b"".join(term_bytes(low) + term_bytes(high) for _, low, high in grant.times)
    out += bytes([len(grant.states)])
    out += b"".join(bytes([STATE[name]]) + b"".join(map(term_bytes, terms)) for _, name, *terms in grant.states)
    return out + (bytes([len(grant.cited)]) + b"".join(one.to_bytes(4, "big") for one in grant.cited) if grant.cited else b"")


def read_version(reading):
    """The version of the grant that begins here."""
    need(reading.take(1) == b"\x47")
    version = reading.number(1)
    need(version == 1 or version == 2 and switches.names)
    return version


def read_named(reading, version):
    """The numbers of the statements that a grant of this version names: none, or 1 to 64 from 1 on, which rise."""
    if version == 1:
        return ()
    numbers = [reading.number(4) for _ in range(reading.number(1))]
    need(1 <= len(numbers) <= MOST_NAMED and all(a < b for a, b in zip([0, *numbers], numbers)))
    return tuple(numbers)


def is_constant(term):
    return term[0] in SORTS


def read_procap(data):
    reading = Bytes(data)
    version = read_version(reading)
    who, file, perm = reading.name(), reading.number(8), reading.perm()
    times = [("cons", reading.term(), reading.term()) for _ in range(reading.number(1))]
    states = []
    for _ in range(reading.number(1)):
        tag = reading.number(1)
        need(tag in STATE.values())
        states.append(reading.state(tag))
    cited = read_named(reading, version)
    tag = reading.take(32)
    need(reading.at == len(data) and len(times) + len(states) <= 64)
    need(len(set(times)) == len(times) and len(set(states)) == len(states))
    need(all(CTIME in condition and all(term == CTIME or is_constant(term) for term in condition[1:]) for condition in times))
    need(all(all(map(is_constant, condition[2:])) for condition in states))
    return Grant(who, file, perm, times, states, cited), tag


# ---- proofs --------------------------------------------------------------------------------------------------------

FIELDS = {"consR": "", "interR": "", "trueR": "", "init": "h", "falseL": "h", "existsR": "tp", "forallL": "htp", "andR": "pp", "orL": "hpp", "impL": "httpp"}
FIELDS.update({rule: "p" for rule in "orR1 orR2 impR forallR saysR atR".split()})
FIELDS.update({rule: "hp" for rule in "consL interL andL existsL saysL claim atL".split()})
MOST_RULES, MOST_DEPTH = 4096, 200
PROOF_TOKEN = re.compile(r" *([(),]|[-+]inf\b|-?[0-9][0-9:TZ-]*|#\d+|\?\d+|\"[^\"\\]*\"|[A-Za-z][A-Za-z0-9_]*)")
Proof = namedtuple("Proof", "rule number terms premises size")


class ProofText:
    """Reads the text of a proof."""

    def __init__(self, text):
        self.tokens = []
        at = 0
        text = text.rstrip(" ")
        while at < len(text):
            match = PROOF_TOKEN.match(text, at)
            need(match, Undecided)
            self.tokens.append(match[1])
            at = match.end()
        self.at = 0

    def take(self, wanted=None):
        need(self.at < len(self.tokens) and wanted in (None, self.tokens[self.at]), Undecided)
        self.at += 1
        return self.tokens[self.at - 1]

    def term(self):
        token = self.take()
        if token[0] == "?":
            need(re.fullmatch("0|[1-9][0-9]{0,9}", token[1:]) and int(token[1:]) < 2**32, Undecided)
            return ("parameter", int(token[1:]))
        reading = Text(token)
        need(not token[0].isupper() and len(reading.tokens) == 1, Undecided)
        try:
            return CTIME if token == "ctime" else Bytes(reading.term()).term()
        except Bad as fault:
            raise Undecided() from fault

    def proof(self, depth=1):
        rule = self.take()
        need(rule in FIELDS and depth <= MOST_DEPTH, Undecided)
        number, terms, premises = None, [], []
        for place, field in enumerate(FIELDS[rule]):
            self.take("," if place else "(")
            if field == "h":
                digits = self.take()
                need(re.fullmatch("0|[1-9][0-9]{0,4}", digits) and int(digits) < 65536, Undecided)
                number = int(digits)
            elif field == "t":
                terms.append(self.term())
                need(rule != "impL" or terms[-1][0] in ("time", "ctime", "parameter"), Undecided)
            else:
                premises.append(self.proof(depth + 1))
        if FIELDS[rule]:
            self.take(")")
        return Proof(rule, number, terms, premises, 1 + sum(premise.size for premise in premises))

    def whole(self):
        proof = self.proof()
        need(self.at == len(self.tokens) and proof.size <= MOST_RULES, Undecided)
        return proof


# A hypothesis is (`truth` or `claim`, who, formula, begin, end), or None once it was struck out.
Sequent = namedtuple("Sequent", "scope psi facts hypotheses view goal begin end")
RIGHT = {"consR": "cons", "interR": "state", "andR": "and", "orR1": "or", "orR2": "or", "trueR": "true", "impR": "imp"}
RIGHT.update({"forallR": "forall", "existsR": "exists", "saysR": "says", "atR": "at"})
LEFT = {"consL": "cons", "interL": "state", "andL": "and", "orL": "or", "falseL": "false", "impL": "imp", "forallL": "forall"}
LEFT.update({"existsL": "exists", "saysL": "says", "atL": "at"})


def entails(psi, low, high):
    """Whether the constraints entail that the one time is not after the other."""
    known = {low, high, ("time", -INF), ("time", INF)}.union(*psi)

    def is_link(a, b):
        return a == b or (a, b) in psi or a == ("time", -INF) or b == ("time", INF) or (a[0] == b[0] == "time" and a[1] <= b[1])

    def reached(start):
        found, ahead = {start}, [start]
        while ahead:
            a = ahead.pop()
            new = [b for b in known - found if is_link(a, b)]
            found.update(new)
            ahead += new
        return found

    times = [term for term in known if term[0] == "time"]
    return high in reached(low) or any(b in reached(a) for a in times for b in times if a[1] > b[1])


class Verdict:
    """The verdict on a proof: the conditions that are left over, or the fault and its node."""

    def __init__(self):
        self.times = []
        self.states = []

    def fault(self, code, node):
        raise Reply(f"unproved {code} {node}")

    def leave_over(self, conditions, condition, node):
        if condition not in conditions:
            if len(self.times) + len(self.states) == 64:
                self.fault(7, node)
            conditions.append(condition)

    def ask_time(self, s, low, high, node):
        if entails(s.psi, low, high):
            return
        if CTIME not in (low, high) or "parameter" in (low[0], high[0]):
            self.fault(3, node)
        self.leave_over(self.times, ("cons", low, high), node)

    def ask_fact(self, s, fact, node):
        if fact in s.facts:
            return
        if any(term[0] == "parameter" for term in fact[2:]):
            self.fault(4, node)
        self.leave_over(self.states, fact, node)

    def check(self, s, proof, node=0):
        rule, number, terms = proof.rule, proof.number, proof.terms
        kind = truth = None
        if number is not None:
            hypothesis = s.hypotheses[number] if number < len(s.hypotheses) else None
            if hypothesis is None:
                self.fault(1, node)
            kind, who, truth, low, high = hypothesis
        fits = {
            "claim": kind == "claim",
            "init": kind == "truth" and s.goal[0] == "atom" and truth == s.goal,
        }.get(rule, s.goal[0] == RIGHT[rule] if rule in RIGHT else kind == "truth" and truth[0] == LEFT.get(rule))
        if not fits:
            self.fault(2, node)
        bound = truth if rule == "forallL" else s.goal
        if any(sort_of(term, s.scope) != ("time" if rule == "impL" else bound[1]) for term in terms):
            self.fault(6, node)

        def ask(premise, **changed):
            at = node + 1 + sum(other.size for other in proof.premises[:premise])
            self.check(s._replace(**changed), proof.premises[premise], at)

        def ask_with(premise, *formulas, on=None, kind="truth", who=None, **changed):
            begin, end = on or (low, high)
            ask(premise, hypotheses=s.hypotheses + [(kind, who, formula, begin, end) for formula in formulas], **changed)

        if rule == "init":
            self.ask_time(s, low, s.begin, node)
            self.ask_time(s, s.end, high, node)
        elif rule == "consR":
            self.ask_time(s, s.goal[1], s.goal[2], node)
        elif rule == "interR":
            self.ask_fact(s, s.goal, node)
        elif rule == "andR":
            ask(0, goal=s.goal[1])
            ask(1, goal=s.goal[2])
        elif rule in ("orR1", "orR2"):
            ask(0, goal=s.goal[int(rule[-1])])
        elif rule == "impR":
            new = [("parameter", len(s.scope)), ("parameter", len(s.scope) + 1)]
            psi = s.psi + [(s.begin, new[0]), (new[1], s.end)]
            ask_with(0, s.goal[1], on=new, scope=s.scope + ["time", "time"], psi=psi, goal=s.goal[2], begin=new[0], end=new[1])
        elif rule == "forallR":
            ask(0, scope=s.scope + [s.goal[1]], goal=put(s.goal[2], ("parameter", len(s.scope))))
        elif rule == "existsR":
            ask(0, goal=put(s.goal[2], terms[0]))
        elif rule == "saysR":
            kept = [other if other and other[0] == "claim" else None for other in s.hypotheses]
            ask(0, hypotheses=kept, view=(s.goal[1], s.begin, s.end), goal=s.goal[2])
        elif rule == "atR":
            ask(0, goal=s.goal[1], begin=s.goal[2], end=s.goal[3])
        elif rule == "consL":
            ask(0, psi=s.psi + [truth[1:]])
        elif rule == "interL":
            ask(0, facts=s.facts + [truth])
        elif rule == "andL":
            ask_with(0, truth[1], truth[2])
        elif rule == "orL":
            ask_with(0, truth[1])
            ask_with(1, truth[2])
        elif rule == "impL":
            self.ask_time(s, low, terms[0], node)
            self.ask_time(s, terms[1], high, node)
            ask(0, goal=truth[1], begin=terms[0], end=terms[1])
            ask_with(1, truth[2], on=terms)
        elif rule == "forallL":
            ask_with(0, put(truth[2], terms[0]))
        elif rule == "existsL":
            ask_with(0, put(truth[2], ("parameter", len(s.scope))), scope=s.scope + [truth[1]])
        elif rule == "saysL":
            ask_with(0, truth[2], kind="claim", who=truth[1])
        elif rule == "claim":
            if who not in (s.view[0], ("principal", "loc")):
                self.fault(5, node)
            self.ask_time(s, low, s.view[1], node)
            self.ask_time(s, s.view[2], high, node)
            ask_with(0, truth)
        elif rule == "atL":
            ask_with(0, truth[1], on=truth[2:])


def grant_of(statements, who, file, perm, proof):
    goal = ("says", ("principal", "admin"), ("atom", "may", ("principal", who), ("file", file), ("perm", perm)))
    claims = [("claim", ("principal", one.who), one.body, ("time", one.begin), ("time", one.end)) for one in statements]
    verdict = Verdict()
    verdict.check(Sequent([], [], [], claims, (("principal", "loc"), CTIME, CTIME), goal, CTIME, CTIME), proof)
    return Grant(who, file, perm, verdict.times, verdict.states)


# ---- the words of lines --------------------------------------------------------------------------------------------


def first_word(line):
    """The first word, and what stands after it: a space and the rest, or nothing."""
    quoted = 0
    if line.startswith('"'):
        quoted = line.find('"', 1)
        quoted = len(line) if quoted < 0 else quoted
    end = line.find(" ", quoted)
    end = len(line) if end < 0 else end
    return line[:end], line[end:]


def number(word, limit):
    need(re.fullmatch("0|[1-9][0-9]{0,19}", word) and int(word) < limit)
    return int(word)


def node(word):
    need(word[:1] == "#")
    return number(word[1:], 2**64)


def offset(word):
    return number(word, 2**64)


def most(word):
    return number(word, MOST_BYTES + 1)


def name(word):
    need(re.fullmatch(r"[\x21-\x7e]{1,255}", word) and word[0] != '"')
    return word


def hexadecimal(word, limit):
    if word == "-":
        return b""
    need(word and len(word) % 2 == 0 and re.fullmatch("[0-9a-f]*", word) and len(word) <= 2 * limit)
    return bytes.fromhex(word)


def data(word):
    return hexadecimal(word, MOST_BYTES)


def value(word):
    need(len(word) >= 2 and word[0] == word[-1] == '"' and is_text(word[1:-1]))
    return word[1:-1]


def principal(word):
    need(is_principal(word))
    return word


def permission(word):
    need(word in PERMISSIONS)
    return word


def dated(word):
    """The second with which a date begins, or that of a date with a time of day."""
    form = "%Y-%m-%d" if len(word) == 10 else "%Y-%m-%dT%H:%M:%SZ"
    need(re.fullmatch("[0-9]{4}-[0-9]{2}-[0-9]{2}(T[0-9]{2}:[0-9]{2}:[0-9]{2}Z)?", word))
    try:
        moment = datetime.datetime.strptime(word, form)
    except ValueError:
        raise Bad() from None
    return (moment - datetime.datetime(1970, 1, 1)) // datetime.timedelta(seconds=1)


def second(word):
    if re.fullmatch("-?[0-9]{1,18}", word) is None:
        return dated(word)
    need(FIRST <= int(word) <= LAST)
    return int(word)


def issue(word):
    need(word != "0")
    return number(word, 2**64)


def cited(word):
    numbers = [statement_number(one) for one in word.split(",")]
    need(len(numbers) <= 64 and all(a < b for a, b in zip(numbers, numbers[1:])))
    return numbers


def statement_number(word):
    return number(word, 2**32)


def signature(word):
    return None if word == "-" else hexadecimal(word, 32768)


def procap(word):
    return number(word[1:], 2**64) if word[:1] == "@" else read_procap(hexadecimal(word, 32768))


# for each operation the kinds of its words and the number of its procaps
OPERATIONS = {
    "read": ([node, offset, most], 1),
    "write": ([node, offset, data], 1),
    "truncate": ([node, offset], 1),
    "list": ([node], 1),
    "lookup": ([node, name], 1),
    "create": ([node, name], 1),
    "mkdir": ([node, name], 1),
    "unlink": ([node, name], 2),
    "rename": ([node, name, node, name], 3),
    "getattr": ([node, name], 1),
    "setattr": ([node, name, value], 1),
    "delattr": ([node, name], 1),
    "chown": ([node, principal], 1),
}
GOAL = [principal, node, permission, cited]
FORMS = {"at": [second], "as": [principal], "register": [signature], "procap": [issue], "checkpoint": [], "verify": GOAL, "check": GOAL}
WITHDRAWAL = [statement_number, signature]


def kinds_of(form):
    """The kinds of the words of a form; none if there is no such form."""
    return WITHDRAWAL if form == "withdraw" and switches.withdrawals else FORMS.get(form)


def fault(text):
    """The first fault of a line, as its reply."""
    return lambda: Reply(text)


def read_line(line):
    """The form of a line, what its words write, and its text; for `do` the operation is its form. First its form is known,
    then the number of its words is right, then each word is of its kind; a fault of the text comes after these."""
    form, behind = first_word(line)
    kinds = kinds_of(form)
    if form == "do":
        need(behind, fault("bad 2"))
        form, behind = first_word(behind[1:])
        need(form in OPERATIONS, fault("bad 1 3"))
        kinds = OPERATIONS[form][0] + [procap] * OPERATIONS[form][1]
    need(kinds is not None, fault("bad 1 0"))
    words = []
    for kind in kinds:
        need(behind, fault("bad 2"))
        place = len(line) - len(behind) + 1
        word, behind = first_word(behind[1:])
        words.append((kind, word, place))
    need((behind != "") == (form in ("register", "verify", "check")), fault("bad 2"))
    return form, [written(*word) for word in words], behind[1:]


def written(kind, word, place):
    """What a word of the kind writes, or its fault, which is the place of its first byte."""
    try:
        return kind(word)
    except Bad:
        raise fault(f"bad 1 {place}")() from None


# ---- the server ----------------------------------------------------------------------------------------------------

Statement = namedtuple("Statement", "who body begin end bytes")
MOST_NAME, MOST_OPEN, MOST_PARTS = 32, 512, 512


class StatementText(Text):
    """Reads the text of a statement within the limits of variables and of parentheses that group."""

    def __init__(self, text):
        super().__init__(text)
        need(all(len(token) <= MOST_NAME for token in self.tokens if token[0].isupper()), Undecided)
        self.open = 0

    def primary(self):
        grouping = self.ahead() == "("
        self.open += grouping
        need(self.open <= MOST_OPEN, Undecided)
        read = super().primary()
        self.open -= grouping
        return read


def statement_of(text):
    data = StatementText(text).statement()
    reading = Bytes(data)
    try:
        statement = Statement(reading.name(), reading.formula(), reading.point(), reading.point(), data)
    except Bad as fault:
        raise Undecided() from fault
    need(reading.at == len(data) and is_stated(statement.body) and nodes_of(statement.body) <= MOST_PARTS, Undecided)
    return statement


class Node:
    def __init__(self, kind, owner, parent, name):
        self.kind, self.owner, self.parent, self.name = kind, owner, parent, name
        self.attributes, self.contents, self.children = {}, bytearray(), {}


class Server:
    def __init__(self, secrets):
        lines = [line.split() for line in secrets.splitlines()]
        self.seal = bytes.fromhex(lines[0][1].replace("-", "")) if lines else b""
        self.keys = {words[1]: bytes.fromhex(words[2].replace("-", "")) for words in lines[1:] if words[0] == "key"}
        self.roots = {words[1]: (int(words[2]), bytes.fromhex(words[3])) for words in lines[1:] if words[0] == "root"}
        self.clock, self.moment, self.caller, self.count = 0, FIRST, "admin", 0
        self.statements, self.issues = [], []
        self.withdrawn = set()  # the numbers of statements that their issuers took back
        self.bearers = {}  # by the bytes of a grant, the numbers that each issue of it cites, in the order of the issues
        self.nodes, self.next, self.together = {1: Node("directory", "admin", 0, "")}, 2, 0

    def answer(self, line):
        try:
            form, words, text = read_line(line)
            return self.do(form, words) if form in OPERATIONS else getattr(self, form)(*words, *([text] if form in ("register", "verify", "check") else []))
        except (Bad, Undecided, ValueError, IndexError, OverflowError, RecursionError):
            return "?"
        except Reply as reply:
            return str(reply)

    def at(self, second):
        self.clock = second
        return "ok"

    def as_(self, who):
        self.caller = who
        return "ok"

    def accepts(self, who, message, given):
        if who in self.roots:
            height, root = self.roots[who]
            return given is not None and hash_trees.accepts(root, height, message, given)
        return who in self.keys and given in (None, tag_of(self.keys[who], message))

    def register(self, given, text):
        statement = statement_of(text)
        if not self.accepts(statement.who, b"S" + statement.bytes, given):
            return "rejected 1"
        for place, other in enumerate(self.statements):
            if other.bytes == statement.bytes:
                return f"rejected 3 {place + 1}"
        if len(self.statements) == 4096:
            return "rejected 2"
        self.statements.append(statement)
        self.count += 1
        return f"ok statement {len(self.statements)}"

    def live(self, number):
        """The statement of that number, if it is there and was not withdrawn."""
        is_live = 1 <= number <= len(self.statements) and number not in self.withdrawn
        return self.statements[number - 1] if is_live else None

    def withdraw(self, number, given):
        statement = self.live(number)
        if statement is None:
            return f"absent {number}"
        if not self.accepts(statement.who, b"W" + statement.bytes, given):
            return "rejected 1"
        self.withdrawn.add(number)
        self.count += 1
        return "ok"

    def cite(self, numbers):
        """The statements of these numbers, which are all live."""
        for one in numbers:
            if self.live(one) is None:
                raise Reply(f"absent {one}")
        return [self.live(one) for one in numbers]

    def check(self, who, file, perm, numbers, text):
        proof = ProofText(text).whole()
        grant = grant_of(self.cite(numbers), who, file, perm, proof)
        conditions = "; ".join(map(condition_text, grant.times + grant.states))
        return f"ok checked time {len(grant.times)} state {len(grant.states)} {conditions}".rstrip(" ")

    def verify(self, who, file, perm, numbers, text):
        proof = ProofText(text).whole()
        statements = self.cite(numbers)
        return self.issue(numbers, statements, grant_of(statements, who, file, perm, proof))

    def issue(self, numbers, statements, grant):
        """Issues the grant of a proof from these statements, which had these numbers before the proof was looked at, and must still."""
        for number, statement in zip(numbers, statements):
            if self.live(number) != statement:
                raise Reply(f"absent {number}")
        self.keep_issue(grant._replace(cited=tuple(numbers)) if switches.names else grant, numbers)
        self.count += 1
        return f"ok issue {len(self.issues)} time {len(grant.times)} state {len(grant.states)}"

    def keep_issue(self, grant, numbers):
        self.issues.append(grant)
        self.bearers.setdefault(grant_bytes(grant), []).append(numbers)

    def gone(self, grant):
        """The number for which the grant is gone. Of one that names statements it is the first of these that was withdrawn. One that names
        none is gone if it was issued, and each issue of it cites a withdrawn statement; then it is the first of these that the last
        issue cites. None if it is not gone."""
        if grant.cited:
            return next((one for one in grant.cited if one in self.withdrawn), None)
        found = [[one for one in numbers if one in self.withdrawn] for numbers in self.bearers.get(grant_bytes(grant), ())]
        return found[-1][0] if found and all(found) else None

    def issued(self, number):
        if not 1 <= number <= len(self.issues):
            raise Reply(f"absent {number}")
        grant = self.issues[number - 1]
        return grant, tag_of(self.seal, grant_bytes(grant))

    def procap(self, number):
        grant, tag = self.issued(number)
        return f"ok procap {(grant_bytes(grant) + tag).hex()}"

    def checkpoint(self):
        return "ok checkpoint"

    # -- operations

    def do(self, operation, words):
        slots = OPERATIONS[operation][1]
        words, procaps = words[:-slots], [self.issued(one) if isinstance(one, int) else one for one in words[-slots:]]
        moment = max(self.clock, self.moment)
        for place, file, perm in self.needs(operation, *words):
            cause = self.denial(*procaps[place - 1], file, perm, moment)
            if cause:
                return f"denied {place} {cause} at {self.count}"
        try:
            refusal = getattr(self, operation)(*words)
        except Reply as reply:
            refusal = str(reply)
        if isinstance(refusal, int):
            return f"refused {refusal} at {self.count}"
        self.count += 1
        self.moment = moment
        return refusal

    def child(self, directory, name):
        return self.nodes[directory].children.get(name) if directory in self.nodes else None

    def needs(self, operation, file, *words):
        perm = {"read": "read", "list": "read", "getattr": "read", "lookup": "execute", "chown": "govern"}.get(operation, "write")
        if operation in ("setattr", "delattr") and words[0].startswith("pcfs."):
            perm = "govern"
        needs = [(1, file, perm)]
        if operation == "rename":
            needs.append((2, words[1], "write"))
        if operation in ("unlink", "rename") and self.child(file, words[0]):
            needs.append((len(needs) + 1, self.child(file, words[0]), "identity"))
        return needs

    def denial(self, grant, tag, file, perm, moment):
        if tag != tag_of(self.seal, grant_bytes(grant)):
            return "seal"
        for cause, holds in ("principal", grant.who == self.caller), ("file", grant.file == file), ("permission", grant.perm == perm):
            if not holds:
                return cause
        for place, condition in enumerate(grant.times):
            low, high = [("time", moment) if term == CTIME else term for term in condition[1:]]
            if not (condition[1] == condition[2] or low[0] == high[0] == "time" and low[1] <= high[1]):
                return f"time {place + 1} {condition_text(condition)}"
        for place, condition in enumerate(grant.states):
            if not self.is_fact(*condition[1:]):
                return f"state {place + 1} {condition_text(condition)}"
        number = self.gone(grant)
        return None if number is None else f"withdrawn {number}"

    def is_fact(self, name, file, *terms):
        found = self.nodes.get(file[1]) if file[0] == "file" else None
        if not found:
            return False
        if name == "has_xattr":
            return terms[0][0] == terms[1][0] == "text" and found.attributes.get(terms[0][1]) == terms[1][1]
        return terms[0] == (("principal", found.owner) if name == "owner" else ("file", found.parent)) and (name, file[1]) != ("in_dir", 1)

    # Each operation returns the number of its first refusal, or does its work and returns its reply.

    def first_of(self, *tests):
        return next((number for number, test in tests if test()), None)

    def file_tests(self, file):
        return (1, lambda: file not in self.nodes), (3, lambda: self.nodes[file].kind == "directory")

    def directory_tests(self, directory):
        return (1, lambda: directory not in self.nodes), (2, lambda: self.nodes[directory].kind == "file")

    def name_tests(self, directory, name):
        return *self.directory_tests(directory), (7, lambda: not re.fullmatch("[A-Za-z0-9_.-]{1,64}", name) or name in (".", ".."))

    def attribute_tests(self, file, name):
        return (1, lambda: file not in self.nodes), (13, lambda: not re.fullmatch("[a-z][a-z0-9_.]{0,63}", name))

    def read(self, file, offset, most):
        refusal = self.first_of(*self.file_tests(file))
        return refusal or f"ok bytes {self.nodes[file].contents[offset : offset + most].hex() or '-'}"

    def size_tests(self, file, end, size):
        others = lambda: self.together - len(self.nodes[file].contents)
        return *self.file_tests(file), (8, lambda: end > MOST_FILE), (9, lambda: others() + size() > MOST_TOGETHER)

    def write(self, file, offset, data):
        old = lambda: len(self.nodes[file].contents)
        size = lambda: max(old(), offset + len(data)) if data else old()
        return self.first_of(*self.size_tests(file, offset + len(data), size)) or self.fill(file, offset, data)

    def fill(self, file, offset, data):
        contents = self.nodes[file].contents
        if data:
            self.together -= len(contents)
            contents.extend(bytes(max(0, offset - len(contents))))
            contents[offset : offset + len(data)] = data
            self.together += len(contents)
        return "ok"

    def truncate(self, file, size):
        return self.first_of(*self.size_tests(file, size, lambda: size)) or self.resize(file, size)

    def resize(self, file, size):
        contents = self.nodes[file].contents
        self.together += size - len(contents)
        self.nodes[file].contents = contents[:size] + bytes(max(0, size - len(contents)))
        return "ok"

    def list(self, directory):
        refusal = self.first_of(*self.directory_tests(directory))
        return refusal or "ok list" + "".join(f" {name}#{number}" for name, number in sorted(self.nodes[directory].children.items()))

    def lookup(self, directory, name):
        refusal = self.first_of(*self.name_tests(directory, name), (4, lambda: not self.child(directory, name)))
        return refusal or f"ok node #{self.child(directory, name)}"

    def make(self, kind, directory, name):
        full = lambda: len(self.nodes) >= MOST_NODES or self.next == 2**64 - 1
        refusal = self.first_of(*self.name_tests(directory, name), (5, lambda: self.child(directory, name)), (9, full))
        if refusal:
            return refusal
        self.nodes[self.next] = Node(kind, self.caller, directory, name)
        self.nodes[directory].children[name] = self.next
        self.next += 1
        return f"ok node #{self.next - 1}"

    def create(self, directory, name):
        return self.make("file", directory, name)

    def mkdir(self, directory, name):
        return self.make("directory", directory, name)

    def unlink(self, directory, name):
        has_names = lambda: self.nodes[self.child(directory, name)].children
        refusal = self.first_of(*self.name_tests(directory, name), (4, lambda: not self.child(directory, name)), (6, has_names))
        if refusal:
            return refusal
        number = self.nodes[directory].children.pop(name)
        self.together -= len(self.nodes.pop(number).contents)
        return "ok"

    def is_within(self, number, above):
        while number not in (above, 0):
            number = self.nodes[number].parent
        return number == above

    def rename(self, directory, name, target, new):
        child = lambda: self.child(directory, name)
        tests = (4, lambda: not child()), (10, lambda: self.is_within(target, child())), (5, lambda: self.child(target, new))
        refusal = self.first_of(*self.name_tests(directory, name), *self.name_tests(target, new), *tests)
        if refusal:
            return refusal
        number = self.nodes[directory].children.pop(name)
        self.nodes[target].children[new] = number
        self.nodes[number].parent, self.nodes[number].name = target, new
        return "ok"

    def getattr(self, file, name):
        refusal = self.first_of(*self.attribute_tests(file, name), (11, lambda: name not in self.nodes[file].attributes))
        return refusal or f'ok text "{self.nodes[file].attributes[name]}"'

    def setattr(self, file, name, value):
        full = lambda: name not in self.nodes[file].attributes and len(self.nodes[file].attributes) >= MOST_ATTRIBUTES
        refusal = self.first_of(*self.attribute_tests(file, name), (12, full))
        if refusal:
            return refusal
        self.nodes[file].attributes[name] = value
        return "ok"

    def delattr(self, file, name):
        refusal = self.first_of(*self.attribute_tests(file, name), (11, lambda: name not in self.nodes[file].attributes))
        if refusal:
            return refusal
        del self.nodes[file].attributes[name]
        return "ok"

    def chown(self, file, owner):
        refusal = self.first_of((1, lambda: file not in self.nodes))
        if refusal:
            return refusal
        self.nodes[file].owner = owner
        return "ok"


setattr(Server, "as", Server.as_)


# ---- rows ----------------------------------------------------------------------------------------------------------


def written_out(text, texts):
    """The bytes of a row's text, with its short forms written out."""

    def form(match):
        inner = match[1]
        if inner.startswith("x "):
            return bytes.fromhex(inner[2:]).decode("latin-1")
        if "|" in inner:
            ends, piece = inner.split("|", 1)
            low, high = map(int, ends.split(".."))
            return "".join(piece.replace("%", str(one)) for one in range(low, high + 1))
        if "*" in inner:
            count, piece = inner.split("*", 1)
            return int(count) * piece
        return texts[inner]

    return re.sub(r"\{([^}]*)\}", form, text)


def numbered(text):
    low, high, line = text.split(" ", 2)
    return [line.replace("%", str(one)) for one in range(int(low), int(high) + 1)]


LONGEST_LINE = 262_144


def replies(server, lines):
    """The replies to the lines, up to one that is too long."""
    for line in lines:
        if len(line) > LONGEST_LINE:
            yield "bad 3"
            return
        yield server.answer(line)


def run_case(rows):
    """The replies to the case's lines, those that it wants, and whether it is a plain run of a script, of a table of modes, or of statements to be signed."""
    texts, given, wanted, secrets, plain, rest, seconds, leaves = {}, [], [], "", True, "", None, None
    for row in rows:
        kind, _, text = row.partition(" ")
        if kind == ">":
            given.append(rest + written_out(text, texts))
            rest = ""
        elif kind == ">.":
            rest += written_out(text, texts)
        elif kind == ">>":
            given += numbered(text)
        elif kind == "<":
            wanted.append(written_out(text, texts))
        elif kind == "<<":
            wanted += numbered(text)
        elif kind == "let":
            key, _, value = text.partition(" ")
            texts[key] = written_out(value, texts)
        elif kind == "secret":
            secrets += text + "\n"
        elif kind == "words":
            seconds = re.fullmatch(r"modes (\d+) (\d+)", text)
            leaves = re.fullmatch(r"rootsign ([0-8]) (\d+)", text)
            plain &= text == "script" or seconds is not None or leaves is not None
        elif kind == "status":
            plain &= text in ("0", "2", "12", "15", "18")
        elif kind == "pieces":
            pass  # the replies are those of the whole input
        elif kind not in ("", "#"):
            plain = False
    lines = "\n".join([*given, rest]).split("\n") if rest else "\n".join([*given, ""]).split("\n")[:-1]
    if plain and seconds:
        return modes_model.lines("".join(f"{line}\n" for line in lines).encode(), *map(int, seconds.groups()))[0], wanted, plain
    if plain and leaves:
        return root_model.lines("".join(f"{line}\n" for line in lines).encode(), *map(int, leaves.groups()))[0], wanted, plain
    return list(replies(Server(secrets), lines)) if plain else [], wanted, plain


def compare_rows(path):
    with open(path, encoding="latin-1") as file:
        beginning, *cases = file.read().split("\n= ")
    agrees = True
    for case in cases:
        name, *rows = case.split("\n")
        found, wanted, plain = run_case(beginning.split("\n") + rows)
        if not plain:
            print(f"not of lines alone: {name}")
            continue
        pairs = list(zip(found, wanted))
        untold = re.compile(r"bad 4|line \d+ bad 1[1-5] ")  # the fault of a text
        faults = sum(untold.match(row) is not None for row in wanted)
        differ = [(place, mine, row) for place, (mine, row) in enumerate(pairs) if mine != row and not untold.match(row)]
        if differ or len(found) != len(wanted):
            agrees = False
            print(f"differs: {name}: {len(found)} replies, {len(wanted)} wanted")
            for place, mine, row in differ[:3]:
                print(f"  reply {place}, from 0: {mine[:200]}\n  and the row has: {row[:200]}")
        else:
            print(f"agrees in {len(wanted)} lines{f', but for {faults} faults of texts' if faults else ''}: {name}")
    return agrees


# ---- random scripts ------------------------------------------------------------------------------------------------


MOST_DRAWN = 20
NAMES = ["a", "b", "c", "d.e", "F-1", "..", "x" * 64, "y" * 65, "q/r"]
ATTRIBUTES = ["pcfs.class", "pcfs.ti", "color", "b.c", "A", "pcfs.X", "z" * 64, "z" * 65]


DRAWN_SECRETS = "seal 00\nkey admin 01\n"


class Drawn:
    """Draws lines, and has the model answer them, so that most name nodes that are there."""

    KINDS = ["operation"] * 12 + ["as", "at", "broken", "checkpoint"]

    def __init__(self, seed, secrets=DRAWN_SECRETS):
        self.draw = random.Random(seed)
        self.server = Server(secrets)
        self.issues = {}

    def tell(self, line):
        self.server.answer(line)
        return line

    def policies(self):
        """Alice and bob may do everything with the first nodes, some of it for a time or under a condition on the state."""
        number = 0
        for who, file, perm in ((who, file, perm) for who in ("alice", "bob") for file in range(1, MOST_DRAWN + 1) for perm in PERMISSIONS):
            number += 1
            end = self.draw.choice(["+inf", "+inf", "+inf", "+inf", "300"])
            facts = [f"owner(#{file},{who})", f'has_xattr(#{file},"pcfs.class","open")', f"in_dir(#{file},#1)"]
            condition = self.draw.choice(["", "", "", "", "", "", *(fact + " => " for fact in facts)])
            yield f"register - admin says {condition}may({who},#{file},{perm}) from 0 to {end}"
            yield f"verify {who} #{file} {perm} {number} saysR(claim(0,{'impL(1,ctime,ctime,interR,init(2))' if condition else 'init(1)'}))"
            self.issues[who, file, perm] = number

    def node(self, operation=""):
        """Mostly one that is there, and of the kind that the operation asks for."""
        kind = "file" if operation in ("read", "write", "truncate") else "directory"
        there = [number for number, one in self.server.nodes.items() if number <= MOST_DRAWN]
        fitting = [number for number in there if self.server.nodes[number].kind == kind]
        if not operation or self.draw.random() < 0.1:
            return self.draw.randint(1, MOST_DRAWN)
        return self.draw.choice(there if "attr" in operation or operation == "chown" or self.draw.random() < 0.2 else fitting or there)

    def word(self, kind, operation, before):
        draw = self.draw
        if kind is name:
            directory = self.server.nodes.get(int(before[-1][1:]))
            there = list(directory.children) if directory and len(before) == 1 else []
            return draw.choice(ATTRIBUTES if "attr" in operation else there if there and draw.random() < 0.6 else NAMES)
        return {
            node: lambda: f"#{self.node(operation)}",
            offset: lambda: str(draw.choice([draw.randint(0, 20)] * 8 + [1048575, 1048576, 1048577, 2**64 - 1])),
            most: lambda: str(draw.choice([0, 1, 10, 65536])),
            data: lambda: draw.choice(["-", "00", "6869", "ff" * 20]),
            value: lambda: draw.choice(['"open"', '"closed"', '""', '"a b"']),
            principal: lambda: draw.choice(["alice", "bob", "carol"]),
        }[kind]()

    def issue_for(self, who, file, perm):
        return self.issues.get((who, file, perm), 1)

    def operation(self):
        draw, server = self.draw, self.server
        operation = draw.choice([*OPERATIONS, "create", "create", "mkdir", "rename", "setattr"])
        words = []
        for kind in OPERATIONS[operation][0]:
            words.append(self.word(kind, operation, words))
        read = [kind(word) for kind, word in zip(OPERATIONS[operation][0], words)]
        needs = server.needs(operation, *read)
        needs += [(0, self.node(), "identity")] * (OPERATIONS[operation][1] - len(needs))
        procaps = [self.issue_for(server.caller, file, perm) for _, file, perm in needs]
        if draw.random() < 0.05:
            procaps[draw.randrange(len(procaps))] = draw.randint(0, len(self.issues) + 1)
        return " ".join(["do", operation, *words, *(f"@{one}" for one in procaps)])

    def broken(self, line):
        """The line with one byte taken out, put in or exchanged, or with one word more or less; mostly it asks for nothing then."""
        at, byte = self.draw.randrange(len(line)), self.draw.choice(' #@"-,0123456789abz')
        words = line.split(" ")
        word = self.draw.randrange(len(words))
        return self.draw.choice([
            line[:at] + line[at + 1 :],
            line[:at] + byte + line[at:],
            line[:at] + byte + line[at + 1 :],
            " ".join(words[:word] + words[word + 1 :]),
            " ".join(words[:word] + words[word:][:1] + words[word:]),
        ])

    def lines(self, count):
        yield self.tell("at 100")
        for line in self.policies():
            yield self.tell(line)
        yield self.tell("as alice")
        for _ in range(count):
            yield self.tell(getattr(self, "line_" + self.draw.choice(self.KINDS))())

    def line_as(self):
        return f"as {self.draw.choice(['alice', 'bob'])}"

    def line_broken(self):
        return self.broken(self.draw.choice([self.operation(), "as alice", "at 150", "checkpoint"]))

    def line_checkpoint(self):
        return "checkpoint"

    def line_at(self):
        seldom = [0, 100, 150, 290, 301, "1970-01-01T00:01:40Z", "1970-01-01", "1970-02-30"]
        return f"at {self.draw.choice(seldom if self.draw.random() < 0.2 else [100, 150, 200])}"

    def line_operation(self):
        return self.operation()


RIGHT_TEXT = re.compile(r"\w+ says (.* => )?may\(([a-z]+),(#\d+),(\w+)\)( & \w+)? from .*")
RULE_TEXT = re.compile(r"\w+ says forall K:principal\. hr says employee\(K\) => may\(K,(#\d+),(\w+)\) from .*")
EMPLOYEE_TEXT = re.compile(r"\w+ says employee\((\w+)\) from .*")
TO_ALL = ("alice", "bob")

# A statement that gives a right: its number, and how a proof from it goes on.
Source = namedtuple("Source", "number shape")


class DrawnWithdrawals(Drawn):
    """Draws withdrawals too, right ones and wrong ones of each kind, and what makes them matter: grants that several statements give,
    issues that cite others besides, statements that come in the place of withdrawn ones, and procaps that were never issued."""

    KINDS = Drawn.KINDS + ["withdrawal"] * 2 + ["wrong_withdrawal", "statement", "statement", "issue", "issue", "issue", "check", "again", "procap", "held"]

    def __init__(self, seed, secrets=DRAWN_SECRETS):
        super().__init__(seed, secrets)
        self.signers = [who for who in ("admin", "loc") if who in self.server.keys]
        self.sources, self.employees, self.issued, self.texts = {}, {}, {}, []

    def tell(self, line):
        """Takes note of what the line comes to."""
        reply, words = self.server.answer(line), line.split(" ")
        if reply.startswith("ok issue "):
            self.issued.setdefault(tuple(words[1:4]), []).append(int(reply.split(" ")[2]))
        elif reply.startswith("ok statement "):
            self.learn(line.split(" ", 2)[2], int(reply.split(" ")[2]))
        return line

    def learn(self, text, number):
        self.texts.append(text)
        right, rule, employee = (form.fullmatch(text) for form in (RIGHT_TEXT, RULE_TEXT, EMPLOYEE_TEXT))
        if right:
            shape = "fact" if right[1] else "half" if right[5] else "whole"
            self.sources.setdefault(right.groups()[1:4], []).append(Source(number, shape))
        elif rule:
            for who in TO_ALL:
                self.sources.setdefault((who, *rule.groups()), []).append(Source(number, "rule"))
        elif employee:
            self.employees.setdefault(employee[1], []).append(number)

    def policies(self):
        yield from super().policies()
        yield from (f"register - {self.rule()}" for _ in range(20))
        yield from (f"register - {self.employee(who)}" for who in TO_ALL for _ in range(2))

    # -- statements

    def end(self):
        return self.draw.choice(["+inf", "+inf", "+inf", "300"])

    def any_right(self):
        """A right that matters: of somebody, in a node that is there."""
        return self.draw.choice(TO_ALL), f"#{self.node(self.draw.choice(list(OPERATIONS)))}", self.draw.choice(PERMISSIONS)

    def rule(self):
        _, file, perm = self.any_right()
        return f"{self.draw.choice(self.signers)} says forall K:principal. hr says employee(K) => may(K,{file},{perm}) from 0 to {self.end()}"

    def employee(self, who):
        begin = self.draw.choice([0, 0, 0, self.draw.randint(1, 100)])
        return f"{self.draw.choice(['hr', *self.signers[1:]])} says employee({who}) from {begin} to {self.end()}"

    def right(self):
        """One that gives a right which others may give too, mostly under the same conditions."""
        who, file, perm = self.any_right()
        more = f" & again{len(self.texts)}" if self.draw.random() < 0.7 else ""
        return f"{self.draw.choice(self.signers)} says may({who},{file},{perm}){more} from 0 to {self.end()}"

    def line_statement(self):
        draw = self.draw
        kind = draw.random()
        return f"register - {self.right() if kind < 0.7 else self.rule() if kind < 0.9 else self.employee(draw.choice(TO_ALL))}"

    def line_again(self):
        """One that is there, whether it was withdrawn or not."""
        withdrawn = sorted(self.server.withdrawn)
        number = self.draw.choice(withdrawn) if withdrawn and self.draw.random() < 0.6 else self.draw.randint(1, len(self.texts))
        return f"register {self.draw.choice(['-', '-', '00'])} {self.texts[number - 1]}"

    # -- issues

    def one_of(self, numbers):
        """One of the statements of these numbers, mostly one that is live."""
        live = [one for one in numbers if self.server.live(one)]
        return self.draw.choice(live if live and self.draw.random() < 0.9 else numbers)

    def proof(self):
        """The words of `verify` for a right that some statement gives, and maybe others are cited besides."""
        draw = self.draw
        who, file, perm = self.any_right() if draw.random() < 0.5 else draw.choice(list(self.sources))
        sources = {source.number: source.shape for source in self.sources.get((who, file, perm), [Source(1, "whole")])}
        number = self.one_of(list(sources))
        needed = [number]
        if sources[number] == "rule":
            needed.append(self.one_of(self.employees.get(who, [1])))
        others = [draw.randint(1, len(self.texts)) for _ in range(self.count_of_others())]
        cited = sorted({*needed, *(one for one in others if draw.random() < 0.2 or self.server.live(one))})
        text = self.proof_text(sources[number], who, len(cited), *map(cited.index, needed))
        return f"{who} {file} {perm} {','.join(map(str, cited))} {text if draw.random() < 0.93 else draw.choice(['trueR', 'saysR(trueR)'])}"

    def count_of_others(self):
        return self.draw.choice([0, 0, 0, 0, 1, 1, 2, 3])

    def proof_text(self, shape, who, count, place, other=0):
        """A proof from the statement at that place among so many, of which a rule needs one other."""
        employed = f"saysR(claim({other},init({count + 2})))"
        goes_on = {
            "whole": f"init({count})",
            "half": f"andL({count},init({count + 1}))",
            "fact": f"impL({count},ctime,ctime,interR,init({count + 1}))",
            "rule": f"forallL({count},{who},impL({count + 1},ctime,ctime,{employed},init({count + 2})))",
        }
        return f"saysR(claim({place},{goes_on[shape]}))"

    def line_issue(self):
        return f"verify {self.proof()}"

    def line_check(self):
        return f"check {self.proof()}"

    def line_procap(self):
        return f"procap {self.draw.randint(1, len(self.server.issues) + 2)}"

    # -- procaps

    def issue_for(self, who, file, perm):
        """An issue of that right, mostly the last, or one whose grant is not gone."""
        numbers, kind = self.issued.get((who, f"#{file}", perm), [1]), self.draw.random()
        living = [one for one in numbers if self.server.gone(self.server.issues[one - 1]) is None]
        return self.draw.choice(living) if kind < 0.5 and living else numbers[-1] if kind < 0.8 else self.draw.choice(numbers)

    def line_held(self):
        """An operation under the bytes of procaps, of which some were sealed and never issued."""
        words = []
        for word in self.operation().split(" "):
            number = int(word[1:]) if word[0] == "@" else 0
            if 1 <= number <= len(self.server.issues):
                grant, _ = self.server.issued(number)
                if self.draw.random() < 0.3:
                    grant = grant._replace(times=[*grant.times, ("cons", CTIME, ("time", 250 + self.draw.randrange(3)))])
                word = (grant_bytes(grant) + tag_of(self.server.seal, grant_bytes(grant))).hex()
            words.append(word)
        return " ".join(words)

    # -- withdrawals

    def signed(self, number, kind=b"W", who=None):
        """The signature of a withdrawal of that statement by its issuer, or another signature over it; in hexadecimal."""
        statement = self.server.statements[number - 1]
        return tag_of(self.server.keys.get(who or statement.who, b""), kind + statement.bytes).hex()

    def line_withdrawal(self):
        """A right one, mostly of a statement on which issues rest."""
        live = [one for one in range(1, len(self.texts) + 1) if self.server.live(one)]
        cited = {one for lists in self.server.bearers.values() for numbers in lists for one in numbers}
        resting = [one for one in live if one in cited]
        number = self.draw.choice(resting if resting and self.draw.random() < 0.8 else live or [1])
        return f"withdraw {number} {self.draw.choice(['-', self.signed(number)])}"

    def line_wrong_withdrawal(self):
        """One that is not accepted, of each kind in turn by chance."""
        draw, count = self.draw, len(self.texts)
        number, other = draw.randint(1, count), draw.randint(1, count)
        before = draw.choice(sorted(self.server.withdrawn) or [count + 1])
        right = self.signed(number)
        somebody = draw.choice([who for who in [*self.server.keys, "nobody"] if who != self.server.statements[number - 1].who])
        numbers = [0, count + 1, count + draw.randint(2, 99), 2**32 - 1, 2**32, 2**64, "01", f"#{number}", f"@{number}", "-1", ""]
        line = draw.choice([
            lambda: f"withdraw {draw.choice(numbers)} {draw.choice(['-', '00', right])}",
            lambda: f"withdraw {before} -",
            lambda: f"withdraw {before} {self.signed(before) if before <= count else '00'}",
            lambda: f"withdraw {number} {self.signed(number, who=somebody)}",
            lambda: f"withdraw {number} {self.signed(number, b'S')}",
            lambda: f"withdraw {number} {self.signed(number, b'L')}",
            lambda: f"withdraw {number} {self.signed(other) if other != number else '00'}",
            lambda: f"withdraw {number} {right[:-1]}{'0' if right[-1] == '1' else '1'}",
            lambda: f"withdraw {number} {draw.choice([right[:-2], right + '00', right[:-1], right.upper(), '00', 'ff' * 32])}",
            lambda: f"withdraw {number} {draw.choice(['00' * 32768, '00' * 32769]) if draw.random() < 0.05 else '00' * 33}",
            lambda: draw.choice(["withdraw", "withdraw ", f"withdraw {number}", f"withdraw {number} ", f"withdraw {number} {right} -", f"withdraw - {number}"]),
        ])
        return line()

    def line_broken(self):
        return super().line_broken() if self.draw.random() < 0.6 else self.broken(self.line_withdrawal())


def drawn(seed, secrets=DRAWN_SECRETS):
    """Draws the lines that the program knows."""
    return (DrawnWithdrawals if switches.withdrawals else Drawn)(seed, secrets)


# ---- generated scripts ---------------------------------------------------------------------------------------------


LOAD_SECRETS = "seal 02\nkey admin 01"


def generated(rounds, seed):
    """The lines of the script of so many rounds with that seed."""
    state, issues = seed, 8

    def draw(limit):
        nonlocal state
        state = (state * 6364136223846793005 + 1442695040888963407) % 2**64
        return (state >> 33) % limit

    yield "at 1000"
    for user in range(8):
        yield f"register - admin says may(u{user},#1,write) from 0 to 100000"
        yield f"verify u{user} #1 write {user + 1} saysR(claim(0,init(1)))"
    yield "register - admin says forall F:file. forall K:principal. owner(F,K) => may(K,F,write) from 0 to 100000"
    yield "register - admin says forall F:file. may(admin,F,govern) from 0 to 100000"
    for place in range(1, rounds + 1):
        user, file, kind, choice = draw(8), 2 + draw(16), draw(4), draw(8)
        yield f"at {1000 + 10 * place}"
        if kind == 0 or (kind == 2 and issues == 8):
            yield f"as u{user}"
            yield f"do create #1 f{place} @{user + 1}"
        elif kind == 3:
            yield f"verify admin #{file} govern 10 saysR(claim(0,forallL(1,#{file},init(2))))"
            issues += 1
            yield "as admin"
            yield f"do chown #{file} u{choice} @{issues}"
        else:
            if kind == 1:
                yield f"verify u{user} #{file} write 9 saysR(claim(0,forallL(1,#{file},forallL(2,u{user},impL(3,ctime,ctime,interR,init(4))))))"
                issues += 1
            yield f"as u{user}"
            yield f"do write #{file} 0 {place:08} @{issues if kind == 1 else 9 + choice % (issues - 8)}"


def load(rounds, seed):
    """How many of the replies to the generated script begin with each word, and the number of the last event."""
    server = Server(LOAD_SECRETS)
    words = [server.answer(line).split(" ")[0] for line in generated(rounds, seed)]
    done, denied, refused = (words.count(word) for word in ("ok", "denied", "refused"))
    others = len(words) - done - denied - refused
    return f"lines {len(words)} ok {done} denied {denied} refused {refused} other {others} events {server.count}"


def main():
    sys.setrecursionlimit(20_000)  # formulas and proofs may be deep
    match switches.taken(sys.argv[1:]):
        case ["script", path]:
            with open(path, encoding="ascii") as file:
                server = Server(file.read())
            lines = sys.stdin.buffer.read().decode("latin-1").split("\n")
            for reply in replies(server, lines if lines[-1] else lines[:-1]):
                print(reply)
        case ["rows", *paths]:
            agree = [compare_rows(path) for path in paths]
            sys.exit(0 if all(agree) else 1)
        case ["random", seed, count, *path] if len(path) <= 1:
            secrets = Path(path[0]).read_text(encoding="ascii") if path else DRAWN_SECRETS
            for line in drawn(int(seed), secrets).lines(int(count)):
                print(line)
        case ["generated", rounds, seed]:
            for line in generated(int(rounds), int(seed)):
                print(line)
        case ["load", rounds, seed]:
            print(load(int(rounds), int(seed)))
        case _:
            sys.exit(__doc__)


if __name__ == "__main__":
    main()
