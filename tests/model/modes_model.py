"""A plain model of mode tables: what a table says, what its statements are, and what it allows.

Written from the description of tables alone. It shares no code with the server.

    modes_model.py lines FROM TO < TABLE        the lines that the command prints; the status is the exit status
    modes_model.py random SEED                  a table, often with a line that is wrong
"""

import random
import re
import sys

RESERVED = set(
    "forall exists says from to true false ctime inf read write execute identity govern principal file perm time text".split()
)
NAME = re.compile(rb"[a-z][a-z0-9_]{0,31}\Z")
NUMBER = re.compile(rb"(0|[1-9][0-9]*)\Z")
BITS = re.compile(rb"[0-7]{3}\Z")
CLASSES = ("owner", "group", "other")
BIT = {"read": 4, "write": 2, "execute": 1}
MOST = 4096


class Fault(Exception):
    """A line that is wrong: 1 it is outside the grammar, 2 it repeats something; 3 there are too many statements."""

    def __init__(self, kind, line=None):
        super().__init__(kind, line)
        self.kind = kind
        self.line = line

    def text(self):
        return f"mode {self.kind}" if self.line is None else f"line {self.line} mode {self.kind}"


def is_name(word):
    return bool(NAME.match(word)) and word.decode() not in RESERVED


def lines_of(text):
    lines = text.split(b"\n")
    if lines[-1] == b"":
        lines.pop()
    return lines


class Table:
    def __init__(self, text):
        self.who = []
        self.members = set()
        self.files = {}
        for number, line in enumerate(lines_of(text), 1):
            self.add(number, line.split(b" "))

    def add(self, number, words):
        if words[0] == b"who" and len(words) == 2 and is_name(words[1]):
            self.add_who(number, words[1])
        elif words[0] == b"member" and len(words) == 3 and is_name(words[1]) and is_name(words[2]):
            self.add_member(number, words[1], words[2])
        elif words[0] == b"mode" and len(words) == 5 and self.is_mode(words):
            self.add_file(number, int(words[1][1:]), words[2], words[3], words[4])
        else:
            raise Fault(1, number)

    @staticmethod
    def is_mode(words):
        file, owner, group, bits = words[1:]
        if file[:1] != b"#" or not NUMBER.match(file[1:]) or int(file[1:]) >= 2**64:
            return False
        return is_name(owner) and is_name(group) and bool(BITS.match(bits))

    def add_who(self, number, who):
        if who in self.who:
            raise Fault(2, number)
        self.who.append(who)

    def add_member(self, number, who, group):
        if who not in self.who:
            raise Fault(1, number)
        if (who, group) in self.members:
            raise Fault(2, number)
        self.members.add((who, group))

    def add_file(self, number, file, owner, group, bits):
        if owner not in self.who:
            raise Fault(1, number)
        if file in self.files:
            raise Fault(2, number)
        self.files[file] = (owner, group, [int(digit) for digit in bits.decode()])

    def class_of(self, who, file):
        owner, group, _ = self.files[file]
        if who == owner:
            return "owner"
        return "group" if (who, group) in self.members else "other"

    def allows(self, who, file, permission):
        if who not in self.who or file not in self.files or permission not in BIT:
            return False
        digit = self.files[file][2][CLASSES.index(self.class_of(who, file))]
        return digit & BIT[permission] != 0

    def statements(self):
        """The statements in order, without their interval."""
        said = []
        for file, (owner, _, digits) in self.files.items():
            for who in self.who:
                said.append(f'admin says class(#{file},{who.decode()},"{self.class_of(who, file)}")')
            for name, digit in zip(CLASSES, digits):
                for permission, bit in BIT.items():
                    if digit & bit:
                        said.append(
                            f'admin says forall X0:principal. class(#{file},X0,"{name}") & owner(#{file},{owner.decode()})'
                            f" => may(X0,#{file},{permission})"
                        )
            if len(said) > MOST:
                raise Fault(3)
        return said

    def proof(self, who, file, permission):
        """The two statements by their numbers, and the proof."""
        said = self.statements()
        name = self.class_of(who, file)
        owner = self.files[file][0].decode()
        first = said.index(f'admin says class(#{file},{who.decode()},"{name}")') + 1
        rule = (
            f'admin says forall X0:principal. class(#{file},X0,"{name}") & owner(#{file},{owner})'
            f" => may(X0,#{file},{permission})"
        )
        second = said.index(rule) + 1
        proof = (
            f"saysR(claim(0,claim(1,forallL(3,{who.decode()},impL(4,ctime,ctime,andR(init(2),interR),init(5))))))"
        )
        return first, second, proof


def lines(text, begin, end):
    """What the command prints, and its status."""
    try:
        said = Table(text).statements()
    except Fault as fault:
        return [fault.text()], 15
    return [f"register - {body} from {begin} to {end}" for body in said], 0


def draw_name(draw):
    return draw.choice(["alice", "bob", "carol", "dave", "erin", "staff", "guests", "a", "x_1", "n" * 32])


def draw_line(draw):
    kind = draw.random()
    if kind < 0.3:
        return f"who {draw_name(draw)}"
    if kind < 0.55:
        return f"member {draw_name(draw)} {draw_name(draw)}"
    if kind < 0.97:
        number = draw.choice([0, 1, 2, 3, 5, 8, 13, 2**64 - 1])
        return f"mode #{number} {draw_name(draw)} {draw_name(draw)} {draw.randrange(512):03o}"
    return draw.choice(
        ["", "who", "who ", "who  alice", "who Alice", "who read", "who alice ", "member alice", "member alice staff ",
         "mode #02 alice staff 640", "mode #2 alice staff 64", "mode #2 alice staff 680", "mode 2 alice staff 640",
         "mode #18446744073709551616 alice staff 640", "mode #2 alice staff 0640", "who " + "n" * 33, "nobody alice", "who\talice"]
    )


def draw_table(draw):
    """Principals first, mostly each once; then members and files; then perhaps lines of any kind."""
    names = ["alice", "bob", "carol", "dave", "erin"]
    draw.shuffle(names)
    known = names[: draw.randrange(0, 5)]
    table = [f"who {name}" for name in known]
    pairs = [(name, group) for name in known for group in ("staff", "guests", "alice")]
    draw.shuffle(pairs)
    table += [f"member {name} {group}" for name, group in pairs[: draw.randrange(0, len(pairs) + 1)]]
    if known:
        numbers = list(range(1, 9))
        draw.shuffle(numbers)
        for number in numbers[: draw.randrange(0, 6)]:
            table.append(f"mode #{number} {draw.choice(known)} {draw.choice(['staff', 'guests', 'alice'])} {draw.randrange(512):03o}")
    if draw.random() < 0.4:
        for _ in range(draw.randrange(1, 4)):
            table.insert(draw.randrange(0, len(table) + 1), draw_line(draw))
    text = "\n".join(table)
    return (text + "\n" if draw.random() < 0.8 else text).encode()


def main(words):
    if words[:1] == ["lines"] and len(words) == 3:
        printed, status = lines(sys.stdin.buffer.read(), int(words[1]), int(words[2]))
        for line in printed:
            print(line)
        return status
    if words[:1] == ["random"] and len(words) == 2:
        sys.stdout.buffer.write(draw_table(random.Random(int(words[1]))))
        return 0
    print(__doc__.strip(), file=sys.stderr)
    return 2


if __name__ == "__main__":
    sys.exit(main(sys.argv[1:]))
