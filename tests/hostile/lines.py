"""Lines of sessions, as docs/PROTOCOL.md has them: what a line asks for, or the reply that tells its first fault."""
import re
from collections import namedtuple

import switches
from pcfs_audit_model import proof_bytes
from pcfs_formats import short, tag_of
from pcfs_model import GOAL, OPERATIONS, Bad, ProofText, Reply, Undecided
from pcfs_model import fault, first_word, hexadecimal, issue, need, principal, statement_number, statement_of, written
from texts import fault_of

LONGEST = 262_144
MOST_SIGNATURE = 32_768

NUMBER = "(?:0|[1-9][0-9]*)"
HEX = "(?:[0-9a-f]{2})+"
ENTRY = f"[A-Za-z0-9_.-]{{1,64}}#{NUMBER}"
CONDITION = r"(?:[ -~]+ <= [ -~]+|(?:owner|has_xattr|in_dir)\([ -~]+\))"
CAUSE = f"(?:seal|principal|file|permission|(?:time|state) {NUMBER} {CONDITION}|withdrawn {NUMBER})"
REPLIES = [
    "ok",
    "ok checkpoint",
    f"ok statement {NUMBER}",
    f"ok issue {NUMBER} time {NUMBER} state {NUMBER}",
    f"ok procap {HEX}",
    f"ok bytes (?:-|{HEX})",
    f"ok list(?: {ENTRY})*",
    f"ok node #{NUMBER}",
    r'ok text "[ !#-\[\]-~]{0,128}"',
    "rejected [124]",
    f"rejected 3 {NUMBER}",
    f"absent {NUMBER}",
    f"unproved [1-7] {NUMBER}",
    f"denied [1-3] {CAUSE} at {NUMBER}",
    f"refused (?:[1-9]|1[0-3]) at {NUMBER}",
    f"bad 1 {NUMBER}",
    "bad [23]",
    f"bad 4 [1-5] {NUMBER}",
    "full",
    "stopped",
    "nomemory",
]
IN_TABLE = re.compile("|".join(REPLIES).encode())

# What a line asks for: the words after its form, and what its text writes. For `do` the form is the operation.
Asked = namedtuple("Asked", "form words text")


def signature(word):
    return hexadecimal(word, MOST_SIGNATURE)


FORMS = {"login": [principal, signature], "register": [signature], "procap": [issue], "verify": GOAL, "checkpoint": []}
WITHDRAWAL = [statement_number, signature]
WITH_TEXT = ("register", "verify")
OF_ADMIN = ("checkpoint",)  # to others who are logged in they are no form


def kinds_of(form, caller):
    """The kinds of the words of a form; none if this caller has no such form."""
    if form == "withdraw":
        return WITHDRAWAL if switches.withdrawals else None
    return FORMS.get(form) if form not in OF_ADMIN or caller in (None, "admin") else None


class Lines:
    """Reads lines, and each text and each word for a procap but once."""

    def __init__(self, reader):
        self.reader = reader
        self.held = {}
        self.texts = {}

    def procap(self, word):
        if word not in self.held:
            self.held[word] = self.reader.procap(hexadecimal(word, MOST_SIGNATURE))
        return self.held[word]

    def head(self, form, behind, caller):
        """The form of a line, the kinds of its words, and what stands after those that name the form."""
        if form != "do":
            kinds = kinds_of(form, caller)
            need(kinds is not None, fault("bad 1 0"))
            return form, kinds, behind
        need(behind, fault("bad 2"))
        operation, behind = first_word(behind[1:])
        need(operation in OPERATIONS, fault("bad 1 3"))
        kinds, slots = OPERATIONS[operation]
        return operation, kinds + [self.procap] * slots, behind

    def read(self, line, caller):
        """What a line asks for that this caller says, None if nobody is logged in. A Reply tells its first fault."""
        line = line.decode("latin-1")
        form, kinds, behind = self.head(*first_word(line), caller)
        words = []
        for kind in kinds:
            need(behind, fault("bad 2"))
            place = len(line) - len(behind) + 1
            word, behind = first_word(behind[1:])
            words.append((kind, word, place))
        need((behind != "") == (form in WITH_TEXT), fault("bad 2"))
        words = [written(*word) for word in words]
        return Asked(form, words, self.text(form, behind[1:]) if behind else None)

    def text(self, form, text):
        """The statement, or the proof and its bytes, that a text writes. A Reply tells its first fault; Undecided, that one of the two
        who read it finds one and the other does not."""
        if (form, text) not in self.texts:
            try:
                self.texts[form, text] = statement_of(text) if form == "register" else with_bytes(ProofText(text).whole())
            except (Undecided, Bad, ValueError, IndexError, OverflowError, RecursionError):
                self.texts[form, text] = None
            first = fault_of(form, text)
            need((first is None) == (self.texts[form, text] is not None), Undecided)
            if first:
                self.texts[form, text] = "bad 4 {} {}".format(*first)
        found = self.texts[form, text]
        if isinstance(found, str):
            raise Reply(found)
        need(found is not None, Undecided)
        return found


def with_bytes(proof):
    return proof, proof_bytes(proof)


def is_accepted(keys, who, given, nonce):
    """Whether the signature of a login is accepted."""
    return who in keys and given == tag_of(keys[who], b"L" + short(who) + nonce)


def is_in_table(reply):
    return IN_TABLE.fullmatch(reply) is not None
