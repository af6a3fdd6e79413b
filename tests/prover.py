#!/usr/bin/env python3
"""Tries the prover: each proof that it finds is checked by the model's verdict, and by the server if that is named.

    prover.py PROVER examples [PCFS]               each accepted proof of examples/ is found, with no more conditions than by hand
    prover.py PROVER random FIRST LAST [PCFS]      policies that are made from proofs, drawn from these seeds, have a proof
    prover.py PROVER taken FIRST LAST              of such a policy one statement is taken away: that it is missing is named

PROVER and PCFS are the built programs. It ends with status 1 if anything is not as said, and prints what. Nothing is read
but the files of this repository.
"""
import random
import re
import subprocess
import sys
import tempfile
from collections import Counter
from pathlib import Path

HERE = Path(__file__).resolve().parent
sys.path[:0] = [str(HERE / "model"), str(HERE.parent / "examples")]
import pcfs_model as model
from pcfs_model import INF, Statement, put

SECRETS = HERE.parent / "examples" / "pcfs.secrets"
SPEAKERS = ["hr", "lead", "deputy", "boss", "admin"]
USERS = ["ann", "bob", "eve"]
GOAL = ("atom", "may", ("principal", "bob"), ("file", 1), ("perm", "read"))


# ---- texts of statements -------------------------------------------------------------------------------------------


def term_text(term, depth):
    if term[0] == "bound":
        return f"X{depth - 1 - term[1]}"
    return model.term_text(term)


def formula_text(formula, depth=0):
    """The text of a formula, with parentheses round all but atoms."""
    kind = formula[0]
    inner = lambda part: formula_text(part, depth)
    if kind in ("atom", "state"):
        terms = ",".join(term_text(term, depth) for term in formula[2:])
        return f"{formula[1]}({terms})" if terms else formula[1]
    if kind == "cons":
        return f"({term_text(formula[1], depth)} <= {term_text(formula[2], depth)})"
    if kind in ("and", "or", "imp"):
        return f"({inner(formula[1])} {dict(zip(('and', 'or', 'imp'), '& | =>'.split()))[kind]} {inner(formula[2])})"
    if kind in ("forall", "exists"):
        return f"({kind} X{depth}:{formula[1]}. {formula_text(formula[2], depth + 1)})"
    if kind == "says":
        return f"({term_text(formula[1], depth)} says {inner(formula[2])})"
    if kind == "at":
        return f"({inner(formula[1])} @ [{term_text(formula[2], depth)},{term_text(formula[3], depth)}])"
    return kind


def statement_text(statement):
    ends = [model.term_text(("time", end)) for end in (statement.begin, statement.end)]
    return f"{statement.who} says {formula_text(statement.body)} from {ends[0]} to {ends[1]}"


# ---- the prover and the server -------------------------------------------------------------------------------------


def asked(prover, statements, who, file, perm, *options):
    """What the prover writes about the goal, from these statements under the numbers from 1: its status, output and remarks."""
    with tempfile.TemporaryDirectory() as folder:
        path = Path(folder) / "statements"
        path.write_text("".join(f"{place + 1} {statement_text(one)}\n" for place, one in enumerate(statements)))
        run = subprocess.run([prover, str(path), who, f"#{file}", perm, *options], capture_output=True, text=True, timeout=60)
    return run.returncode, run.stdout, run.stderr


def verdict(statements, line):
    """The grant of the proof in a line, by the model."""
    word, who, file, perm, cited, proof = line.split(" ", 5)
    assert word == "verify"
    chosen = [statements[int(number) - 1] for number in cited.split(",")]
    return model.grant_of(chosen, who, int(file[1:]), perm, model.ProofText(proof).whole())


def is_accepted(pcfs, statements, line):
    """Whether the server issues a procap for the line."""
    script = "".join(f"register - {statement_text(one)}\n" for one in statements) + line
    with tempfile.TemporaryDirectory() as folder:
        (Path(folder) / "pcfs.secrets").write_bytes(SECRETS.read_bytes())
        run = subprocess.run([str(Path(pcfs).resolve()), "script"], input=script, capture_output=True, text=True, cwd=folder, timeout=60)
    return run.stdout.splitlines()[len(statements)].startswith("ok issue")


def proved(prover, pcfs, statements, who, file, perm, *options):
    """The grant of the proof that the prover finds, or a word that says why there is none."""
    status, line, remarks = asked(prover, statements, who, file, perm, *options)
    if status != 0:
        return f"status {status}: {remarks.strip()}"
    try:
        grant = verdict(statements, line.rstrip("\n"))
    except (model.Reply, model.Undecided, AssertionError) as fault:
        return f"refused by the model: {fault} {line}"
    if pcfs and not is_accepted(pcfs, statements, line):
        return f"refused by the server: {line}"
    return grant


def holds_never(grant):
    """Whether no moment meets the conditions on time."""
    begins = [low[1] for _, low, high in grant.times if high == model.CTIME and low != model.CTIME]
    ends = [high[1] for _, low, high in grant.times if low == model.CTIME and high != model.CTIME]
    return bool(begins and ends) and max(begins) > min(ends)


# ---- the examples --------------------------------------------------------------------------------------------------


def examples(prover, pcfs):
    count = Counter()
    for path in sorted((HERE.parent / "examples").glob("*.pcfs")):
        statements = []
        replies = path.with_suffix(".replies").read_text().splitlines()
        for line, reply in zip(path.read_text().splitlines(), replies):
            if line.startswith("register ") and reply.startswith("ok"):
                statements.append(model.statement_of(line.split(" ", 2)[2]))
            if not line.startswith(("check ", "verify ")) or not reply.startswith("ok"):
                continue
            _, who, file, perm, _, _ = line.split(" ", 5)
            by_hand = verdict(statements, "verify " + line.split(" ", 1)[1])
            if holds_never(by_hand):
                continue
            grant = proved(prover, pcfs, statements, who, int(file[1:]), perm, "--any")
            count["tried"] += 1
            if isinstance(grant, str):
                count["bad"] += 1
                print(f"{path.name}: {line}\n  {grant}")
            elif len(grant.times) + len(grant.states) > len(by_hand.times) + len(by_hand.states):
                count["bad"] += 1
                print(f"{path.name}: {line}\n  more conditions than by hand")
    return count


# ---- policies made from proofs -------------------------------------------------------------------------------------


class Maker:
    """Makes statements from a proof that it draws."""

    def __init__(self, seed):
        self.draw = random.Random(seed)
        self.statements = []
        self.names = 0

    def user(self):
        return ("principal", self.draw.choice(USERS))

    def speaker(self):
        return ("principal", self.draw.choice(SPEAKERS))

    def name(self):
        self.names += 1
        return f"p{self.names}"

    def atom(self):
        return ("atom", self.name(), *[self.user() for _ in range(self.draw.randrange(3))])

    def state(self, who, body, always=False):
        begin = self.draw.choice([-INF, self.draw.randrange(90)])
        end = self.draw.choice([INF, self.draw.randrange(110, 300)])
        self.statements.append(Statement(who, body, -INF if always else begin, INF if always else end, b""))

    def prove(self, who, goal, depth):
        """Adds statements from which the goal follows in the view of that principal."""
        kind = goal[0]
        if kind == "and":
            self.prove(who, goal[1], depth)
            self.prove(who, goal[2], depth)
        elif kind == "or":
            self.prove(who, goal[self.draw.choice([1, 2])], depth)
        elif kind == "says":
            self.prove(goal[1][1], goal[2], depth)
        elif kind == "exists":
            self.prove(who, put(goal[2], self.user()), depth)
        elif kind == "at":
            self.state(goal[1][1][1], goal[1][2], always=True)
        elif kind in ("imp", "forall"):
            self.state(who, goal, always=True)
        elif kind == "atom":
            self.prove_atom(who, goal, depth)

    def prove_atom(self, who, goal, depth):
        if depth == 0:
            self.prove_by_word(who, goal)
            return
        premise = self.premise(depth)
        rule = self.for_all(("imp", premise, goal))
        if self.draw.random() < 0.15:
            rule = self.draw.choice([("and", self.atom(), rule), ("and", rule, self.atom())])
        way = self.draw.random()
        if way < 0.1:
            self.state("loc", ("says", ("principal", who), rule), always=True)
        else:
            self.state("loc" if way < 0.2 else who, rule)
        self.prove(who, premise, depth - 1)

    def prove_by_word(self, who, goal):
        """States an atom: as such, as one of two with the other excluded, or of somebody who is not named."""
        if self.draw.random() < 0.1 and goal[1] != "may":
            other = self.atom()
            self.state(who, ("or", goal, other), always=True)
            self.state(who, self.draw.choice([("imp", other, goal), ("imp", other, ("false",))]), always=True)
        else:
            self.state(who, goal)

    def premise(self, depth):
        way = self.draw.random()
        named = ("atom", self.name(), ("bound", 0))
        if way < 0.36:
            return ("says", self.speaker(), self.atom())
        if way < 0.5:
            return self.atom()
        if way < 0.64 and depth > 1:
            return ("and", self.premise(depth - 1), self.premise(depth - 1))
        if way < 0.72:
            return ("or", self.premise(depth - 1), self.atom())
        if way < 0.78:
            return ("state", "owner", ("file", self.draw.randrange(1, 4)), self.user())
        if way < 0.82:
            return ("true",)
        if way < 0.88:
            return ("exists", "principal", ("says", self.speaker(), named))
        if way < 0.92:
            return ("says", self.speaker(), ("imp", self.atom(), self.atom()))
        if way < 0.96:
            return ("says", self.speaker(), ("forall", "principal", named))
        return ("at", ("says", self.speaker(), self.atom()), ("time", 10), ("time", 20))

    def for_all(self, rule):
        """The rule of all principals in the place of one that its conclusion names, or as it is."""
        named = [term for term in rule[2] if isinstance(term, tuple) and term[1] in USERS]
        if not named or self.draw.random() < 0.4:
            return rule
        one = self.draw.choice(named)

        def of_all(part, depth):
            if part == one:
                return ("bound", depth)
            inside = depth + 1 if part[0] in ("forall", "exists") else depth
            return tuple(of_all(piece, inside) if isinstance(piece, tuple) else piece for piece in part)

        return ("forall", "principal", of_all(rule, 0))


def policy(seed):
    """The statements of a policy that allows bob to read #1 at 100, if the state is as it asks."""
    maker = Maker(seed)
    maker.prove("admin", GOAL, maker.draw.randrange(1, 6))
    for _ in range(maker.draw.randrange(8)):
        maker.state(maker.draw.choice(SPEAKERS), ("imp", maker.atom(), maker.atom()))
    maker.draw.shuffle(maker.statements)
    return maker.statements[:64]


def draw_policies(prover, first, last, pcfs):
    count = Counter()
    for seed in range(first, last):
        statements = policy(seed)
        grant = proved(prover, pcfs, statements, "bob", 1, "read", "--at", "100")
        count["tried"] += 1
        if isinstance(grant, str):
            count["bad"] += 1
            print(f"seed {seed}: {grant}")
    return count


def says_head(statement, named):
    """Whether the named statement is of who says the one that was taken away, and of a predicate that this one gives."""
    heads = []

    def go(formula, speaker):
        kind = formula[0]
        if kind in ("and", "or"):
            go(formula[1], speaker)
            go(formula[2], speaker)
        elif kind in ("imp", "forall", "exists"):
            go(formula[2], speaker)
        elif kind == "at":
            go(formula[1], speaker)
        elif kind == "says":
            go(formula[2], formula[1][1])
        elif kind == "atom":
            heads.append((speaker, formula[1]))

    go(statement.body, statement.who)
    who, _, rest = named.partition(" says ")
    rest = re.sub(r"^(forall X\d+:\w+\. )+", "", rest)
    return any(rest.startswith(name) and (speaker == who or speaker == "loc") for speaker, name in heads)


def take_away(prover, first, last):
    count = Counter()
    for seed in range(first, last):
        statements = policy(seed)
        status, line, _ = asked(prover, statements, "bob", 1, "read", "--at", "100")
        if status != 0:
            continue
        cited = [int(number) - 1 for number in line.split(" ")[4].split(",")]
        taken = random.Random(seed).choice(cited)
        rest = statements[:taken] + statements[taken + 1 :]
        status, _, remarks = asked(prover, rest, "bob", 1, "read", "--at", "100")
        if status == 0:
            count["has another proof"] += 1
            continue
        count["tried"] += 1
        needs = [line[6:] for line in remarks.splitlines() if line.startswith("needs ")]
        if needs and says_head(statements[taken], needs[0]):
            count["named first"] += 1
        else:
            count["named otherwise" if needs else "nothing named"] += 1
    count["bad"] = int(count["named first"] * 10 < count["tried"] * 9)
    return count


def main(words):
    if len(words) < 2:
        print(__doc__)
        return 1
    prover, task, *rest = words
    prover = str(Path(prover).resolve())
    if task == "examples":
        count = examples(prover, rest[0] if rest else None)
    elif task == "random":
        count = draw_policies(prover, int(rest[0]), int(rest[1]), rest[2] if rest[2:] else None)
    else:
        count = take_away(prover, int(rest[0]), int(rest[1]))
    print(", ".join(f"{name} {number}" for name, number in count.items()))
    return 1 if count["bad"] else 0


if __name__ == "__main__":
    sys.exit(main(sys.argv[1:]))
