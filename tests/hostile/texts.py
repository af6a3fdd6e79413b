"""The first fault of the text of a statement or of a proof, by docs/PROTOCOL.md: its number and its place."""
import calendar
import re

from pcfs_formats import PERMISSIONS, STATE
from pcfs_model import FIELDS, FIRST, LAST, MOST_DEPTH, MOST_NAME, MOST_OPEN, MOST_PARTS, MOST_RULES, RESERVED, SORTS

UNEXPECTED, UNKNOWN_NAME, BAD_DATE, SORT, TOO_LARGE = range(1, 6)
MOST_ARGUMENTS = 8
ARGUMENTS = {"may": ["principal", "file", "perm"], "owner": ["file", "principal"], "has_xattr": ["file", "text", "text"], "in_dir": ["file", "file"]}
SIGN = re.compile(r"[()\[\],:.&|@]|=>|<=")
TIME = re.compile(r"[-+]inf|\d{4}-\d\d-\d\d(?:T\d\d:\d\d:\d\dZ)?|-?\d+")
NAMED = re.compile(r"[a-z][a-z0-9_]*|[A-Z][A-Za-z0-9_]*")
NUMBERED = re.compile(r"[#?]\d*")
QUOTED = re.compile(r'"[\x20\x21\x23-\x5b\x5d-\x7e]{0,128}"')
RULE = re.compile(r"[A-Za-z][A-Za-z0-9_]*")
SORT_OF = {"name": "principal", "FILE": "file", "PERM": "perm", "TEXT": "text", "TIME": "time", "ctime": None, "PARAMETER": None}
TERMS = ("variable", *SORT_OF)


class Fault(Exception):
    """A fault of a text: its number and its place."""


def is_number(digits, limit):
    return re.fullmatch("0|[1-9][0-9]*", digits) is not None and int(digits) < limit


def is_time(text):
    """Whether a point in time is one that exists."""
    if text in ("-inf", "+inf"):
        return True
    if not re.match(r"\d{4}-", text):
        return FIRST <= int(text) <= LAST
    year, month, day = int(text[:4]), int(text[5:7]), int(text[8:10])
    if year == 0 or not 1 <= month <= 12 or not 1 <= day <= calendar.monthrange(year, month)[1]:
        return False
    return len(text) == 10 or int(text[11:13]) <= 23 and int(text[14:16]) <= 59 and int(text[17:19]) <= 59


class Tokens:
    """Reads a text token by token. A token is its kind, its text and its place. A reserved word is a kind of its own, but for the
    permissions; what begins no token, or is outside its grammar, is `bad`, and a word that is too long `long`."""

    def __init__(self, text):
        self.text = text
        self.ahead = self.read(0)

    def read(self, at):
        while self.text[at : at + 1] == " ":
            at += 1
        if at == len(self.text):
            return "end", "", at
        for take, pattern in ((self.named, NAMED), (self.numbered, NUMBERED), (self.quoted, QUOTED), (self.timed, TIME), (self.signed, SIGN)):
            found = pattern.match(self.text, at)
            if found:
                return take(found[0]), found[0], at
        return "bad", self.text[at], at

    def named(self, text):
        if text[0].isupper():
            return "variable" if len(text) <= MOST_NAME else "bad"
        if text in PERMISSIONS:
            return "PERM"
        if text in RESERVED:
            return text
        return "name" if len(text) <= MOST_NAME else "long"

    def numbered(self, text):
        is_file = text[0] == "#"
        if not is_number(text[1:], 2**64 if is_file else 2**32):
            return "bad"
        return "FILE" if is_file else "PARAMETER"

    def quoted(self, text):
        return "TEXT"

    def timed(self, text):
        return "TIME" if len(text.lstrip("-")) <= 18 or "T" in text else "bad"

    def signed(self, text):
        return text

    @property
    def kind(self):
        return self.ahead[0]

    @property
    def place(self):
        return self.ahead[2]

    def after(self):
        """The kind of the token behind the one ahead."""
        return self.read(self.place + len(self.ahead[1]))[0]

    def take(self, *kinds):
        """Takes a token of one of these kinds."""
        if self.kind not in kinds:
            raise Fault(UNEXPECTED, self.place)
        taken = self.ahead
        self.ahead = self.read(taken[2] + len(taken[1]))
        return taken


class StatementText:
    """Reads the text of a statement for its first fault."""

    def __init__(self, text):
        self.tokens = Tokens(text)
        self.nodes = self.open = 0
        self.binders = []

    def statement(self):
        self.tokens.take("name")
        self.tokens.take("says")
        self.formula()
        for word in ("from", "to"):
            self.tokens.take(word)
            self.time_of(self.tokens.take("TIME"))
        self.tokens.take("end")

    def node(self, place):
        self.nodes += 1
        if self.nodes > MOST_PARTS:
            raise Fault(TOO_LARGE, place)

    def time_of(self, token):
        if not is_time(token[1]):
            raise Fault(BAD_DATE, token[2])

    def sort_of(self, token):
        """The sort of a term; the faults that are met at it, but for those of sorts and of size."""
        kind, text, place = token
        if kind == "variable":
            found = [sort for name, sort in reversed(self.binders) if name == text]
            if not found:
                raise Fault(UNKNOWN_NAME, place)
            return found[0]
        if kind == "TIME":
            self.time_of(token)
        return SORT_OF[kind]

    def formula(self):
        if self.tokens.kind not in ("forall", "exists"):
            self.disjunction()
            if self.tokens.kind == "=>":
                self.node(self.tokens.take("=>")[2])
                self.formula()
            return
        self.node(self.tokens.take("forall", "exists")[2])
        name = self.tokens.take("variable")[1]
        self.tokens.take(":")
        self.binders.append((name, self.sort()))
        self.tokens.take(".")
        self.formula()
        self.binders.pop()

    def sort(self):
        kind, text, place = self.tokens.ahead
        if NAMED.fullmatch(text) and text[0].islower() and text not in SORTS:
            raise Fault(UNKNOWN_NAME, place)
        return self.tokens.take(*SORTS)[1]

    def disjunction(self):
        self.conjunction()
        while self.tokens.kind == "|":
            self.node(self.tokens.take("|")[2])
            self.conjunction()

    def conjunction(self):
        self.unary()
        while self.tokens.kind == "&":
            self.node(self.tokens.take("&")[2])
            self.unary()

    def unary(self):
        if self.tokens.kind in ("name", "variable") and self.tokens.after() == "says":
            who = self.tokens.take("name", "variable")
            sort = self.sort_of(who)
            self.node(who[2])
            says = self.tokens.take("says")
            if sort != "principal":
                raise Fault(SORT, who[2])
            self.node(says[2])
            return self.unary()
        self.primary()
        while self.tokens.kind == "@":
            self.node(self.tokens.take("@")[2])
            self.tokens.take("[")
            self.time_term()
            self.tokens.take(",")
            self.time_term()
            self.tokens.take("]")
        return None

    def time_term(self):
        token = self.tokens.take(*TERMS)
        if self.sort_of(token) != "time":
            raise Fault(SORT, token[2])
        self.node(token[2])

    def primary(self):
        kind = self.tokens.kind
        if kind in ("true", "false"):
            self.node(self.tokens.take(kind)[2])
        elif kind == "(":
            self.group()
        elif kind == "name" and self.tokens.after() != "<=":
            self.predicate()
        else:
            self.comparison()

    def group(self):
        place = self.tokens.take("(")[2]
        self.open += 1
        if self.open > MOST_OPEN:
            raise Fault(TOO_LARGE, place)
        self.formula()
        self.tokens.take(")")
        self.open -= 1

    def comparison(self):
        low = self.tokens.take(*TERMS)
        sort = self.sort_of(low)
        self.node(low[2])
        sign = self.tokens.take("<=")
        if sort != "time":
            raise Fault(SORT, low[2])
        self.node(sign[2])
        self.time_term()

    def predicate(self):
        name = self.tokens.take("name")
        wanted = ARGUMENTS.get(name[1])
        if self.tokens.kind != "(":
            if wanted:
                raise Fault(SORT, name[2])
            self.node(name[2])
            return
        self.node(name[2])
        self.tokens.take("(")
        sorts = [self.argument(0, name[1])]
        while self.tokens.kind == ",":
            self.tokens.take(",")
            sorts.append(self.argument(len(sorts), name[1]))
        self.tokens.take(")")
        if wanted and sorts != wanted:
            raise Fault(SORT, name[2])

    def argument(self, before, name):
        """One more argument after so many."""
        token = self.tokens.take(*TERMS)
        sort = self.sort_of(token)
        if sort is None:
            raise Fault(SORT, token[2])
        if before == MOST_ARGUMENTS and name not in STATE:
            raise Fault(TOO_LARGE, token[2])
        self.node(token[2])
        return sort


class ProofText:
    """Reads the text of a proof for its first fault."""

    def __init__(self, text):
        self.tokens = Tokens(text)
        self.rules = 0

    def whole(self):
        self.proof(1)
        self.tokens.take("end")

    def taken(self, pattern):
        """The token of that kind of its own ahead: what it is and where; none if there is none."""
        tokens = self.tokens
        found = pattern.match(tokens.text, tokens.place)
        if not found:
            raise Fault(UNEXPECTED, tokens.place)
        place = tokens.place
        tokens.ahead = tokens.read(found.end())
        return found[0], place

    def proof(self, depth):
        rule, place = self.taken(RULE)
        if rule not in FIELDS:
            raise Fault(UNKNOWN_NAME, place)
        self.rules += 1
        if self.rules > MOST_RULES or depth > MOST_DEPTH:
            raise Fault(TOO_LARGE, place)
        for number, field in enumerate(FIELDS[rule]):
            self.tokens.take("," if number else "(")
            if field == "p":
                self.proof(depth + 1)
            elif field == "t":
                self.term(rule)
            else:
                self.hypothesis()
        if FIELDS[rule]:
            self.tokens.take(")")

    def hypothesis(self):
        digits, place = self.taken(re.compile(r"\d+"))
        if not is_number(digits, 65536):
            raise Fault(UNEXPECTED, place)

    def term(self, rule):
        kind, text, place = self.tokens.take(*TERMS)
        if kind == "variable":
            raise Fault(UNKNOWN_NAME, place)
        if kind == "TIME" and not is_time(text):
            raise Fault(BAD_DATE, place)
        if rule == "impL" and kind not in ("TIME", "ctime", "PARAMETER"):
            raise Fault(SORT, place)


def fault_of(form, text):
    """The number and the place of the first fault, or none."""
    try:
        if form == "register":
            StatementText(text).statement()
        else:
            ProofText(text).whole()
        return None
    except Fault as fault:
        return fault.args
