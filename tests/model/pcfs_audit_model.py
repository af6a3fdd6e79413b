#!/usr/bin/env python3
"""Makes histories with one changed byte, each with the report that an audit owes it, by the plain model of pcfs_model.py.

    pcfs_audit_model.py changes COUNT SEED [SECRETS] < SCRIPT
                                                      prints rows for crates/audit_rows: the history that the script makes under
                                                      the secrets of `load`, or under these, and COUNT cases, each with one byte
                                                      of it changed
    pcfs_audit_model.py moved SEED [SECRETS] < SCRIPT
                                                      prints such rows for one case: some events of the history moved, repeated or
                                                      left out

The script may have withdrawals, unless WITHDRAWALS=0 (switches.py).
A change counts if the event is still one that a journal could hold. Where it is found wrong the report ends there; where not,
the events after it are replayed over the changed world.
"""
import copy
import random
import sys
from pathlib import Path

import pcfs_model
import switches
from pcfs_model import Bad, Bytes, FIELDS, LAST, LOAD_SECRETS, OPERATIONS, Proof, Reply, Server, Undecided
from pcfs_model import data, grant_bytes, grant_of, is_stated, is_text, most, name, need, node, nodes_of, offset, principal, read_line, read_procap, term_bytes, value
from pcfs_formats import short, tag_of

RULES = {rule: 0x01 + place for place, rule in enumerate("init consR interR andR orR1 orR2 trueR impR forallR existsR saysR atR".split())}
RULES.update({rule: 0x11 + place for place, rule in enumerate("consL interL andL orL falseL impL forallL existsL saysL claim atL".split())})
NAMED = {tag: rule for rule, tag in RULES.items()}
CODES = "read write truncate list lookup create mkdir unlink rename getattr setattr delattr chown".split()


# ---- bytes of events -----------------------------------------------------------------------------------------------


def proof_bytes(proof):
    out = bytes([RULES[proof.rule]])
    if proof.number is not None:
        out += proof.number.to_bytes(2, "big")
    return out + b"".join(map(term_bytes, proof.terms)) + b"".join(map(proof_bytes, proof.premises))


def read_proof(reading, depth=1):
    tag = reading.number(1)
    need(tag in NAMED and depth <= pcfs_model.MOST_DEPTH)
    rule = NAMED[tag]
    number, terms, premises = None, [], []
    for field in FIELDS[rule]:
        if field == "h":
            number = reading.number(2)
        elif field == "t":
            terms.append(reading.term())
        else:
            premises.append(read_proof(reading, depth + 1))
    return Proof(rule, number, terms, premises, 1 + sum(premise.size for premise in premises))


def word_bytes(kind, word):
    if kind in (node, offset, most):
        return word.to_bytes(8, "big")
    return len(word).to_bytes(4, "big") + word if kind is data else short(word)


def read_word(kind, reading):
    if kind in (node, offset, most):
        return reading.number(8)
    if kind is data:
        return reading.take(reading.number(4))
    word = reading.short()
    need(kind is not principal or pcfs_model.is_principal(word))
    need(kind is not value or is_text(word))
    return word


def cited_bytes(numbers):
    return bytes([len(numbers)]) + b"".join(one.to_bytes(4, "big") for one in numbers)


def signature_bytes(signature):
    return len(signature).to_bytes(4, "big") + signature


def withdrawal_bytes(number, signature):
    """The payload of a withdrawal."""
    return b"\x04" + number.to_bytes(4, "big") + signature_bytes(signature)


class Recorder(Server):
    """The model, which keeps the bytes of its events."""

    def __init__(self, secrets):
        super().__init__(secrets)
        self.events = []

    def register(self, given, text):
        reply = super().register(given, text)
        if reply.startswith("ok"):
            said = self.statements[-1]
            tag = tag_of(self.keys[said.who], b"S" + said.bytes)
            self.events.append(b"\x01" + said.bytes + signature_bytes(tag))
        return reply

    def withdraw(self, number, given):
        reply = super().withdraw(number, given)
        if reply == "ok":
            said = self.statements[number - 1]
            self.events.append(withdrawal_bytes(number, tag_of(self.keys[said.who], b"W" + said.bytes)))
        return reply

    def verify(self, who, file, perm, numbers, text):
        reply = super().verify(who, file, perm, numbers, text)
        proof = proof_bytes(pcfs_model.ProofText(text).whole())
        self.events.append(b"\x02" + cited_bytes(numbers) + len(proof).to_bytes(4, "big") + proof + grant_bytes(self.issues[-1]))
        return reply

    def do(self, operation, words):
        before = self.count
        kinds, slots = OPERATIONS[operation]
        procaps = [self.issued(one) if isinstance(one, int) else one for one in words[len(kinds) :]]
        reply = super().do(operation, words)
        if self.count > before:
            out = b"\x03" + short(self.caller) + bytes([CODES.index(operation) + 1])
            out += b"".join(word_bytes(kind, word) for kind, word in zip(kinds, words))
            out += bytes([len(procaps)]) + b"".join(grant_bytes(grant) + tag for grant, tag in procaps)
            self.events.append(out + self.moment.to_bytes(8, "big", signed=True))
        return reply


def read_event(payload):
    """The event of these bytes; Bad if a journal could not hold it."""
    reading = Bytes(payload)
    kind = reading.number(1)
    if kind == 1:
        start = reading.at
        said = (reading.name(), reading.formula(), reading.point(), reading.point())
        statement = pcfs_model.Statement(*said, payload[start : reading.at])
        need(is_stated(statement.body) and nodes_of(statement.body) <= pcfs_model.MOST_PARTS)
        event = ("registered", statement, reading.take(reading.number(4)))
    elif kind == 2:
        numbers = [reading.number(4) for _ in range(reading.number(1))]
        end = reading.number(4) + reading.at
        start = reading.at
        proof = read_proof(reading)
        need(reading.at == end and proof.size <= pcfs_model.MOST_RULES)
        proof_data = payload[start:end]
        grant, _ = read_procap(payload[reading.at :] + bytes(32))
        reading.at = len(payload)
        event = ("issued", numbers, proof, proof_data, grant)
    elif kind == 4:
        need(switches.withdrawals)
        event = ("withdrawn", reading.number(4), reading.take(reading.number(4)))
    else:
        need(kind == 3)
        caller = reading.name()
        code = reading.number(1)
        need(1 <= code <= len(CODES))
        operation = CODES[code - 1]
        words = [read_word(kind, reading) for kind in OPERATIONS[operation][0]]
        procaps = [procap_at(reading) for _ in range(reading.number(1))]
        moment = int.from_bytes(reading.take(8), "big", signed=True)
        need(pcfs_model.FIRST <= moment <= LAST)
        event = ("acted", caller, operation, words, procaps, moment)
    need(reading.at == len(payload))
    return event


def procap_at(reading):
    """The procap at the front: the shortest part that is one."""
    start = reading.at
    version = pcfs_model.read_version(reading)
    reading.name(), reading.number(8), reading.perm()
    for _ in range(reading.number(1)):
        reading.term(), reading.term()
    for _ in range(reading.number(1)):
        tag = reading.number(1)
        need(tag in pcfs_model.STATE.values())
        reading.state(tag)
    pcfs_model.read_named(reading, version)
    reading.take(32)
    return read_procap(reading.data[start : reading.at])


# ---- the audit -----------------------------------------------------------------------------------------------------


class Auditor(Server):
    """The state before an event, and the rows so far."""

    verdicts = {}
    tags = {}

    def __init__(self, secrets):
        super().__init__(secrets)
        self.rows, self.number = [], 0
        self.said = set()

    def find(self, event):
        """What is found with the event; if it is nothing wrong, its change is made."""
        return getattr(self, "find_" + event[0])(*event[1:])

    def find_registered(self, statement, signature):
        key = self.keys.get(statement.who)
        if key is None or signature != tag_of(key, b"S" + statement.bytes) or statement.bytes in self.said or len(self.statements) == 4096:
            return "unsigned"
        self.statements.append(statement)
        self.said.add(statement.bytes)
        return None

    def find_withdrawn(self, number, signature):
        statement = self.live(number)
        key = self.keys.get(statement.who) if statement else None
        if key is None or signature != tag_of(key, b"W" + statement.bytes):
            return "unsigned"
        self.withdrawn.add(number)
        return None

    def find_issued(self, numbers, proof, proof_data, grant):
        if not 1 <= len(numbers) <= 64 or any(a >= b for a, b in zip(numbers, numbers[1:])) or None in map(self.live, numbers):
            return "unproved"
        cited = [self.live(one) for one in numbers]
        case = (tuple(one.bytes for one in cited), proof_data, grant.who, grant.file, grant.perm)
        if case not in self.verdicts:
            try:
                self.verdicts[case] = grant_bytes(grant_of(cited, grant.who, grant.file, grant.perm, proof))
            except Reply:
                self.verdicts[case] = None
        if grant.cited not in ((), tuple(numbers)) or self.verdicts[case] != grant_bytes(grant._replace(cited=())):
            return "unproved"
        self.keep_issue(grant, numbers)
        return None

    def find_acted(self, caller, operation, words, procaps, moment):
        if moment < self.moment:
            return "momentfalls"
        kinds, slots = OPERATIONS[operation]
        if len(procaps) != slots or any(kind is data and len(word) > 65536 for kind, word in zip(kinds, words)):
            return "notadmitted"
        self.caller = caller
        for place, file, perm in self.needs(operation, *words):
            if self.denial(*procaps[place - 1], file, perm, moment):
                return "notadmitted"
        try:
            if isinstance(getattr(self, operation)(*words), int):
                return "notadmitted"
        except Reply:
            pass
        self.moment = moment
        return None if all(grant_bytes(grant) in self.bearers for grant, _ in procaps) else "unissued"

    def go_on(self, event):
        """Whether nothing is wrong with one more event."""
        self.number += 1
        found = self.find(event)
        if found:
            self.rows.append(f"{found} {self.number}")
        return found in (None, "unissued")


def first_line(events, rows):
    kinds = [event[0] for event in events]
    unissued = sum(row.startswith("unissued") for row in rows)
    return f"events {len(kinds)} statements {kinds.count('registered')} issues {kinds.count('issued')} unissued {unissued}"


def changed_at(payload, draw):
    """The place and the value of a changed byte with which it is still an event."""
    for _ in range(1000):
        place, bit = draw.randrange(len(payload)), 1 << draw.randrange(8)
        changed = payload[:place] + bytes([payload[place] ^ bit]) + payload[place + 1 :]
        try:
            return place, changed[place], read_event(changed)
        except (Bad, Undecided, ValueError, IndexError, RecursionError, OverflowError):
            continue
    return None


def changes(script, count, seed, secrets):
    recorder = Recorder(secrets)
    for line in script:
        recorder.answer(line)
    payloads = recorder.events
    events = [read_event(payload) for payload in payloads]
    draw = random.Random(seed)
    print(f"# A history of {len(events)} events, with one byte changed in each case.\n")
    print(secrets.rstrip("\n"))
    for payload in payloads:
        print(f"event {payload.hex()}")
    at = sorted(draw.randrange(len(events)) for _ in range(count))
    auditor = Auditor(secrets)
    for place, event in enumerate(events):
        for number in range(at.count(place)):
            case = changed_at(payloads[place], draw)
            if case is None:
                continue
            byte, value, changed = case
            copied = copy.deepcopy(auditor)
            goes_on = copied.go_on(changed)
            for later in events[place + 1 :]:
                if not goes_on:
                    break
                goes_on = copied.go_on(later)
            print(f"\n= event {place + 1}, byte {byte}, {number}\nchange {place + 1} {byte} {value}")
            print("\n".join("< " + row for row in [first_line([*events[:place], changed, *events[place + 1 :]], copied.rows), *copied.rows]))
        need(auditor.go_on(event))
    print("\n= as it is\n" + "< " + first_line(events, auditor.rows))


def moved_events(payloads, draw):
    """The payloads with some moved, repeated or left out, more often those of which there are few of a kind."""
    payloads = list(payloads)
    for _ in range(draw.randint(1, 3)):
        kind = draw.choice([payload[0] for payload in payloads] + list({payload[0] for payload in payloads}) * len(payloads))
        place = draw.choice([place for place, payload in enumerate(payloads) if payload[0] == kind])
        what, other = draw.choice(["moved", "moved", "repeated", "left out"]), draw.randrange(len(payloads))
        payload = payloads[place] if what == "repeated" else payloads.pop(place)
        if what != "left out":
            payloads.insert(other, payload)
    return payloads


def moved(script, seed, secrets):
    recorder = Recorder(secrets)
    for line in script:
        recorder.answer(line)
    payloads = moved_events(recorder.events, random.Random(seed))
    events, auditor = [read_event(payload) for payload in payloads], Auditor(secrets)
    print(f"# A history of {len(events)} events, some moved, repeated or left out.\n")
    print(secrets.rstrip("\n"))
    for payload in payloads:
        print(f"event {payload.hex()}")
    for event in events:
        if not auditor.go_on(event):
            break
    print("\n= as it is")
    print("\n".join("< " + row for row in [first_line(events, auditor.rows), *auditor.rows]))


def main():
    sys.setrecursionlimit(20_000)
    match switches.taken(sys.argv[1:]):
        case ["changes", count, seed, *path] if len(path) <= 1:
            secrets = Path(path[0]).read_text(encoding="ascii") if path else LOAD_SECRETS
            changes(sys.stdin.read().splitlines(), int(count), int(seed), secrets)
        case ["moved", seed, *path] if len(path) <= 1:
            secrets = Path(path[0]).read_text(encoding="ascii") if path else LOAD_SECRETS
            moved(sys.stdin.read().splitlines(), int(seed), secrets)
        case _:
            sys.exit(__doc__)


if __name__ == "__main__":
    main()
