"""Events as docs/DISK.md writes them, and the state that they lead to, by the plain model of tests/model/pcfs_model.py."""
from bisect import bisect_left
from collections import namedtuple

import pcfs_model
import switches
from pcfs_audit_model import CODES, procap_at, proof_bytes, read_proof, read_word
from pcfs_formats import STATE, short, tag_of
from pcfs_model import CTIME, FIRST, LAST, MOST_BYTES, MOST_PARTS, MOST_RULES, OPERATIONS, SORTS
from pcfs_model import Bad, Bytes, Reply, Server, Statement, Undecided
from pcfs_model import condition_text, grant_bytes, grant_of, is_stated, need, nodes_of, read_named, read_procap, read_version, term_bytes

MOST_STATEMENTS = 4096

Procap = namedtuple("Procap", "grant tag bytes genuine")
Registered = namedtuple("Registered", "statement signature")
Issued = namedtuple("Issued", "numbers proof proof_bytes grant")
Acted = namedtuple("Acted", "caller operation words procaps moment")
Withdrawn = namedtuple("Withdrawn", "number signature")

FORMULAS = {"cons": 0x11, "and": 0x15, "or": 0x16, "imp": 0x17, "true": 0x18, "false": 0x19, "says": 0x1C, "at": 0x1D}
BINDERS = {"forall": 0x1A, "exists": 0x1B}


def formula_bytes(formula):
    """The one spelling of a formula."""
    kind, *parts = formula
    if kind == "atom":
        return b"\x10" + short(parts[0]) + bytes([len(parts) - 1]) + b"".join(map(term_bytes, parts[1:]))
    if kind == "state":
        return bytes([STATE[parts[0]]]) + b"".join(map(term_bytes, parts[1:]))
    if kind in BINDERS:
        return bytes([BINDERS[kind], SORTS.index(parts[0]) + 1]) + formula_bytes(parts[1])
    return bytes([FORMULAS[kind]]) + b"".join(map(part_bytes, parts))


def part_bytes(part):
    is_formula = part[0] in FORMULAS or part[0] in BINDERS or part[0] in ("atom", "state")
    return formula_bytes(part) if is_formula else term_bytes(part)


def statement_bytes(statement):
    """The one spelling of a statement."""
    begin, end = (term_bytes(("time", point))[1:] for point in (statement.begin, statement.end))
    return short(statement.who) + formula_bytes(statement.body) + begin + end


def names_state(formula):
    """Whether a plain predicate has the name of one on the state, which has bytes of its own."""
    if formula[0] == "atom":
        return formula[1] in STATE
    return any(names_state(part) for part in formula[1:] if isinstance(part, tuple))


def grant_at(reading):
    """The grant at the front."""
    start = reading.at
    version = read_version(reading)
    reading.name(), reading.number(8), reading.perm()
    for _ in range(reading.number(1)):
        reading.term(), reading.term()
    for _ in range(reading.number(1)):
        tag = reading.number(1)
        need(tag in STATE.values())
        reading.state(tag)
    read_named(reading, version)
    grant, _ = read_procap(reading.data[start : reading.at] + bytes(32))
    return grant


def plain(grant):
    """The grant without the statements that it names."""
    return grant._replace(cited=())


def issued_form(verdict, numbers):
    """The grant of a proof from the statements of these numbers, as it is issued."""
    return verdict._replace(cited=tuple(numbers)) if switches.names else verdict


def is_same(one, other):
    """Whether two grants have the same bytes."""
    return one == other or grant_bytes(one) == grant_bytes(other)


class Reader:
    """Reads events, and the bytes of a grant, of a procap or of a statement but once each."""

    def __init__(self, seal):
        self.seal = seal
        self.procaps, self.grants = {}, {}
        self.lengths = []  # of grants
        self.canonical = set()

    def procap(self, data):
        """The procap of these bytes; Bad if they are none."""
        if data not in self.procaps:
            grant, tag = self.grants.get(data[:-32]), data[-32:]
            if grant is None:
                grant, tag = read_procap(data)
                self.keep_grant(data[:-32], grant)
            self.procaps[data] = Procap(grant, tag, data, tag == tag_of(self.seal, grant_bytes(grant)))
        return self.procaps[data]

    def keep_grant(self, data, grant):
        """Keeps a grant and its bytes, which are the begin of no other grant's."""
        self.grants[data] = grant
        if len(data) not in self.lengths:
            self.lengths.append(len(data))
        return grant

    def grant_at(self, reading):
        """The grant at the front."""
        start = reading.at
        for length in self.lengths:
            data = reading.data[start : start + length]
            if data in self.grants:
                reading.at += len(data)
                return self.grants[data]
        grant = grant_at(reading)
        return self.keep_grant(reading.data[start : reading.at], grant)

    def same(self, procap):
        """This procap, or the one with the same bytes that was read before."""
        return self.procaps.setdefault(procap.bytes, procap)

    def procap_at(self, reading):
        """The procap at the front."""
        start = reading.at
        for length in self.lengths:
            found = self.procaps.get(reading.data[start : start + length + 32])
            if found:
                reading.at += len(found.bytes)
                return found
        procap_at(reading)
        return self.procap(reading.data[start : reading.at])

    def event(self, payload):
        """The event of these bytes; Bad if they are none."""
        try:
            reading = Bytes(payload)
            kind = reading.number(1)
            need(1 <= kind <= (4 if switches.withdrawals else 3))
            event = [self.registered, self.issued, self.acted, self.withdrawn][kind - 1](reading)
            need(reading.at == len(payload))
            return event
        except (Undecided, ValueError, IndexError, RecursionError, OverflowError) as fault:
            raise Bad() from fault

    def registered(self, reading):
        start = reading.at
        said = reading.name(), reading.formula(), reading.point(), reading.point()
        statement = Statement(*said, reading.data[start : reading.at])
        if statement.bytes not in self.canonical:
            need(is_stated(statement.body) and nodes_of(statement.body) <= MOST_PARTS and not names_state(statement.body))
            need(statement_bytes(statement) == statement.bytes)
            self.canonical.add(statement.bytes)
        return Registered(statement, reading.take(reading.number(4)))

    def withdrawn(self, reading):
        return Withdrawn(reading.number(4), reading.take(reading.number(4)))

    def issued(self, reading):
        numbers = [reading.number(4) for _ in range(reading.number(1))]
        end = reading.number(4) + reading.at
        start = reading.at
        proof = read_proof(reading)
        need(reading.at == end and proof.size <= MOST_RULES)
        return Issued(numbers, proof, reading.data[start:end], self.grant_at(reading))

    def acted(self, reading):
        caller = reading.name()
        code = reading.number(1)
        need(1 <= code <= len(CODES))
        operation = CODES[code - 1]
        words = [read_word(kind, reading) for kind in OPERATIONS[operation][0]]
        procaps = [self.procap_at(reading) for _ in range(reading.number(1))]
        moment = int.from_bytes(reading.take(8), "big", signed=True)
        need(FIRST <= moment <= LAST)
        return Acted(caller, operation, words, procaps, moment)


class Names(dict):
    """The children of a directory, which keep their entries of a list in its order, and the reply until a name changes."""

    def __init__(self, children):
        super().__init__(children)
        self.order = sorted(children)
        self.entries = [f" {name}#{children[name]}" for name in self.order]
        self.reply = None

    def __setitem__(self, name, number):
        self.pop(name, None)
        super().__setitem__(name, number)
        place = bisect_left(self.order, name)
        self.order.insert(place, name)
        self.entries.insert(place, f" {name}#{number}")
        self.reply = None

    def pop(self, name, *otherwise):
        if name in self:
            place = bisect_left(self.order, name)
            del self.order[place], self.entries[place]
            self.reply = None
        return super().pop(name, *otherwise)

    def listed(self):
        """The reply to `list`."""
        if self.reply is None:
            self.reply = "ok list" + "".join(self.entries)
        return self.reply


class Before:
    """What a node was before an operation, but for the children that have none of these names."""

    def __init__(self, node, names, with_contents):
        self.node, self.attributes = node, dict(node.attributes)
        self.said = node.owner, node.parent, node.name
        self.contents = bytearray(node.contents) if with_contents else node.contents
        self.children = [(name, node.children.get(name)) for name in names]

    def again(self):
        """The node, which is again as it was."""
        node = self.node
        node.owner, node.parent, node.name = self.said
        node.attributes, node.contents = self.attributes, self.contents
        for name, child in self.children:
            node.children.pop(name, None)
            if child is not None:
                node.children[name] = child
        return node


class History(Server):
    """The state after some events."""

    verdicts = {}  # of proofs, by all that they depend on

    def __init__(self, secrets, reader=None):
        super().__init__(secrets)
        self.reader = reader or Reader(self.seal)
        self.said = {}  # the number of each statement, by its bytes
        self.registrations, self.grantings = [], []  # the events of the statements, and of the issues

    def accepts(self, statement, signature, kind=b"S"):
        """Whether this is the issuer's signature over the statement; of a withdrawal, if that is the kind."""
        key = self.keys.get(statement.who)
        return key is not None and signature == tag_of(key, kind + statement.bytes)

    def verdict(self, numbers, who, file, perm, proof, bytes_of_proof):
        """The grant of a proof from statements that are there, or the reply that tells its fault."""
        case = self.case(numbers, who, file, perm, bytes_of_proof)
        if case not in self.verdicts:
            try:
                self.verdicts[case] = grant_of([self.statements[one - 1] for one in numbers], who, file, perm, proof)
            except Reply as reply:
                self.verdicts[case] = str(reply)
        return self.verdicts[case]

    def case(self, numbers, who, file, perm, bytes_of_proof):
        """All that a verdict depends on."""
        return tuple(self.statements[one - 1].bytes for one in numbers), bytes_of_proof, who, file, perm

    def take_verdict(self, event):
        """Takes the grant of an issue as the verdict on its proof, as another process has found it to be."""
        grant = event.grant
        self.verdicts.setdefault(self.case(event.numbers, grant.who, grant.file, grant.perm, event.proof_bytes), plain(grant))

    def add(self, event):
        """Adds an event: the cause for which it is damage, or else none, and the reply to who asked for it."""
        make = {Registered: self.add_registered, Withdrawn: self.add_withdrawn, Issued: self.add_issued, Acted: self.add_acted}[type(event)]
        cause, reply = make(event)
        if cause is None:
            self.count += 1
        return cause, reply

    def add_registered(self, event):
        if not self.accepts(event.statement, event.signature):
            return 3, None
        if event.statement.bytes in self.said or len(self.statements) == MOST_STATEMENTS:
            return 7, None
        self.registrations.append(event)
        self.statements.append(event.statement)
        self.said[event.statement.bytes] = len(self.statements)
        return None, f"ok statement {len(self.statements)}"

    def add_withdrawn(self, event):
        statement = self.live(event.number)
        if statement is None:
            return 2, None
        if not self.accepts(statement, event.signature, b"W"):
            return 3, None
        self.withdrawn.add(event.number)
        return None, "ok"

    def gives(self, event):
        """Whether the proof of an issue gives its grant from statements that are there."""
        numbers, grant = event.numbers, event.grant
        rising = all(a < b for a, b in zip(numbers, numbers[1:]))
        if not 1 <= len(numbers) <= 64 or not rising or numbers[0] < 1 or numbers[-1] > len(self.statements):
            return False
        verdict = self.verdict(numbers, grant.who, grant.file, grant.perm, event.proof, event.proof_bytes)
        return not isinstance(verdict, str) and grant.cited in ((), tuple(numbers)) and is_same(verdict, plain(grant))

    def add_issued(self, event):
        if not self.gives(event) or None in map(self.live, event.numbers):
            return 4, None
        grant = event.grant
        self.grantings.append(event)
        self.keep_issue(grant, event.numbers)
        return None, f"ok issue {len(self.issues)} time {len(grant.times)} state {len(grant.states)}"

    def add_acted(self, event):
        if event.moment < self.moment:
            return 6, None
        if len(event.procaps) != OPERATIONS[event.operation][1]:
            return 5, None
        if any(isinstance(word, bytes) and len(word) > MOST_BYTES for word in event.words):
            return 5, None
        reply = self.admitted(event.caller, event.operation, event.words, event.procaps, event.moment)
        if not reply.startswith("ok"):
            return 5, None
        self.moment = event.moment
        return None, reply

    def admitted(self, caller, operation, words, procaps, moment):
        """The reply to an operation, which is done if that begins with `ok`; it is not counted."""
        return self.denial_of(caller, operation, words, procaps, moment) or self.done(operation, words)

    def denial_of(self, caller, operation, words, procaps, moment):
        """The reply to an operation that is denied; None to another."""
        self.caller = caller
        for place, file, perm in self.needs(operation, *words):
            cause = self.why_denied(procaps[place - 1], file, perm, moment)
            if cause:
                return f"denied {place} {cause} at {self.count}"
        return None

    def done(self, operation, words):
        """The reply to an operation that is allowed."""
        done = getattr(self, operation)(*words)
        return f"refused {done} at {self.count}" if isinstance(done, int) else done

    def list(self, directory):
        """As the model, from names that are in order already."""
        refusal = self.first_of(*self.directory_tests(directory))
        return refusal or self.names_of(self.nodes[directory]).listed()

    def names_of(self, directory):
        if not isinstance(directory.children, Names):
            directory.children = Names(directory.children)
        return directory.children

    def why_denied(self, procap, file, perm, moment):
        """The first cause for which the procap does not give the caller the permission."""
        if not procap.genuine:
            return "seal"
        grant = procap.grant
        for cause, holds in ("principal", grant.who == self.caller), ("file", grant.file == file), ("permission", grant.perm == perm):
            if not holds:
                return cause
        for place, condition in enumerate(grant.times, 1):
            low, high = [("time", moment) if term == CTIME else term for term in condition[1:]]
            if not (condition[1] == condition[2] or low[0] == high[0] == "time" and low[1] <= high[1]):
                return f"time {place} {condition_text(condition)}"
        for place, condition in enumerate(grant.states, 1):
            if not self.is_fact(*condition[1:]):
                return f"state {place} {condition_text(condition)}"
        number = self.gone(grant) if self.withdrawn else None
        return None if number is None else f"withdrawn {number}"

    def would_answer(self, caller, operation, words, procaps, clock):
        """The reply that an operation would get now; nothing changes."""
        caller_before = self.caller
        denial = self.denial_of(caller, operation, words, procaps, max(clock, self.moment))
        reply = denial or self.would_do(operation, words)
        self.caller = caller_before
        return reply

    def would_do(self, operation, words):
        """The reply to an operation that is allowed; nothing changes."""
        kinds = OPERATIONS[operation][0]
        near = [word for kind, word in zip(kinds, words) if kind is pcfs_model.node]
        names = [word for kind, word in zip(kinds, words) if kind is pcfs_model.name]
        near += [self.child(directory, name) for directory in near for name in names]
        writes = operation in ("write", "truncate")
        before = {number: Before(self.nodes[number], names, writes) for number in near if number in self.nodes}
        new, together = self.next, self.together
        reply = self.done(operation, words)
        if reply.startswith("ok"):
            self.nodes.update((number, one.again()) for number, one in before.items())
            self.nodes.pop(new, None)
            self.next, self.together = new, together
        return reply


def acted_bytes(caller, operation, words, procaps):
    """How many bytes the payload of such an event has."""
    size = 1 + 1 + len(caller) + 1 + 1 + 8 + sum(len(procap.bytes) for procap in procaps)
    for word in words:
        size += 8 if isinstance(word, int) else 4 + len(word) if isinstance(word, bytes) else 1 + len(word)
    return size


def registered_bytes(statement, signature):
    return 1 + len(statement.bytes) + 4 + len(signature)


def withdrawn_bytes(signature):
    return 1 + 4 + 4 + len(signature)


def issued_bytes(numbers, proof, grant):
    return 1 + 1 + 4 * len(numbers) + 4 + len(proof_bytes(proof)) + len(grant_bytes(grant))
