"""Damages areas, and compares what an opening says with what docs/DISK.md says of their bytes."""
import time
from collections import Counter

import switches
from areas import FRESH_TODAY, HEADER, begin_of, fresh, newest, opening, records
from history import History
from images import image_of, state_of, withdrawn_in_order
from pcfs_audit_model import withdrawal_bytes
from pcfs_formats import tag_of
from pcfs_model import Node
from serving import free_port

BASES = 12  # images of states between the first events, of which so many are taken at most
BASE_EVENTS = 600


def ends_of(area):
    """The offsets behind the header and image, and behind each record."""
    return [begin_of(area), *(end for _, end in records(area))]


def area_of(generation, image, records):
    """An open area."""
    return b"\x01" + HEADER + generation.to_bytes(8, "big") + len(image).to_bytes(8, "big") + image + records + b"\0"


def made():
    """What `init` makes."""
    return area_of(1, fresh(), b"")


def images_between(draw, area, secrets, reader):
    """Images of states between the first events of an area, which begins with that of a new store, by how many are before them."""
    places = set(draw.choices(range(BASE_EVENTS), k=BASES))
    images, history = {0: fresh()}, History(secrets, reader)
    for payload, _ in records(area):
        if history.count == BASE_EVENTS:
            break
        history.add(reader.event(payload))
        if history.count in places:
            images[history.count] = image_of(history)
    return images


class Damages:
    """Draws damages of the first records of an area, and of images of states between them."""

    def __init__(self, draw, area, secrets, reader):
        self.draw, self.area, self.ends, self.secrets, self.reader = draw, area, ends_of(area), secrets, reader
        self.images = images_between(draw, area, secrets, reader)

    def whole(self):
        """An area of some of the first records, of which an image may stand for the first of all, and where they end."""
        count = self.draw.randint(0, min(len(self.ends) - 1, self.draw.choice([10, 100, 600, 1200])))
        base = self.draw.choice([one for one in self.images if one <= count])
        base = 0 if self.draw.random() < 0.3 else base
        generation = self.draw.choice([2, 2, 3, 2**48 - 1]) if base else 1
        image, ends = self.images[base], self.ends[base : count + 1]
        return area_of(generation, image, self.area[ends[0] : ends[-1]]), [24 + len(image) + end - ends[0] for end in ends]

    def place(self, area, ends):
        """A byte of it: anywhere, within the header, or near the begin of a record."""
        kind = self.draw.random()
        if kind < 0.6:
            return self.draw.randrange(len(area))
        if kind < 0.75:
            return self.draw.randrange(24)
        return min(self.draw.choice(ends) + self.draw.randrange(8), len(area) - 1)

    def damaged(self):
        """An area with some damage, and its kind."""
        area, ends = self.whole()
        kinds = ["flip", "flip", "byte", "byte", "cut", "longer", "insert", "zeros", "twice", "exchange", "without", "last", "many", "state", "state"]
        kind = self.draw.choice(kinds + (["withdrawn", "withdrawn", "withdrawal", "old"] if switches.withdrawals else []))
        return kind, getattr(self, "with_" + kind)(area, ends)

    def with_flip(self, area, ends):
        place = self.place(area, ends)
        return area[:place] + bytes([area[place] ^ 1 << self.draw.randrange(8)]) + area[place + 1 :]

    def with_byte(self, area, ends):
        place = self.place(area, ends)
        return area[:place] + self.draw.randbytes(1) + area[place + 1 :]

    def with_cut(self, area, ends):
        return area[: self.place(area, ends)]

    def with_longer(self, area, ends):
        """The closed gate is opened, or is not, before more bytes."""
        more = self.draw.randbytes(self.draw.randint(0, 300))
        return area[:-1] + self.draw.choice([b"\0", b"\x01", b"\x01" + self.draw.randint(0, 300).to_bytes(4, "big")]) + more

    def with_insert(self, area, ends):
        place = self.place(area, ends)
        return area[:place] + self.draw.randbytes(self.draw.randint(1, 5)) + area[place:]

    def with_zeros(self, area, ends):
        place = self.place(area, ends)
        more = self.draw.choice([1, 8, 100, 512])
        return area[:place] + bytes(len(area[place : place + more])) + area[place + more :]

    def record(self, area, ends):
        """The begin and the end of one of the records."""
        number = self.draw.randrange(len(ends) - 1)
        return ends[number], ends[number + 1]

    def with_twice(self, area, ends):
        """A record stands a second time, anywhere after any other."""
        if len(ends) < 2:
            return area
        begin, end = self.record(area, ends)
        place = self.draw.choice(ends)
        return area[:place] + area[begin:end] + area[place:]

    def with_exchange(self, area, ends):
        """Two neighbours change their places."""
        if len(ends) < 3:
            return area
        number = self.draw.randrange(len(ends) - 2)
        a, b, c = ends[number : number + 3]
        return area[:a] + area[b:c] + area[a:b] + area[c:]

    def with_without(self, area, ends):
        if len(ends) < 2:
            return area
        begin, end = self.record(area, ends)
        return area[:begin] + area[end:]

    def with_last(self, area, ends):
        """What a stop may leave of the last record: anything in its bytes, behind a closed gate, or one half of it."""
        if len(ends) < 2:
            return area
        begin = ends[-2]
        left = bytearray(area[begin:])
        for place in range(1, len(left)):
            if self.draw.random() < 0.3:
                left[place] = self.draw.choice([0, 255, self.draw.randrange(256)])
        left[0] = 0
        return area[:begin] + bytes(left[: self.draw.randint(1, len(left))])

    def with_state(self, area, ends):
        """The image of another state, or of one that is none."""
        _, state = state_of(area[24 : ends[0]], self.secrets)
        Another(self.draw, state).make()
        return area_of(2, image_of(state), area[ends[0] : -1])

    def with_withdrawn(self, area, ends):
        """An image with other numbers of withdrawn statements, or with its end cut off."""
        _, state = state_of(area[24 : ends[0]], self.secrets)
        image = image_of(state, self.other_numbers(len(state.statements), withdrawn_in_order(state)))
        cut = self.draw.choice([0, 0, 0, 0, 1, 3, 4, 5, 8])
        return area_of(2, image[: len(image) - cut], area[ends[0] : -1] if cut == 0 else b"")

    def other_numbers(self, count, numbers):
        """Numbers that fall, repeat, pass the statements, or may all stand there."""
        draw = self.draw
        more = [*numbers, draw.choice([0, 1, count, count + 1, 2**32 - 1, *numbers])]
        return draw.choice([more, sorted(more), sorted(set(more)), numbers[::-1], numbers[1:], [*numbers, *numbers], [count], list(range(1, count + 1)), [0], []])

    def with_withdrawal(self, area, ends):
        """One more record, which withdraws a statement of some number, mostly with the right signature; or one whose number changes."""
        draw = self.draw
        _, state = state_of(area[24 : ends[0]], self.secrets, self.reader)
        begin = draw.choice(ends)
        for payload, end in records(area):
            if end <= begin:
                state.add(state.reader.event(payload))
        cited = [one for issue in state.grantings for one in issue.numbers]
        numbers = [0, len(state.statements) + 1, 2**32 - 1, *range(1, len(state.statements) + 1), *state.withdrawn]
        number = draw.choice(cited if cited and draw.random() < 0.6 else numbers)
        other = draw.randint(1, max(1, len(state.statements)))
        signed, kind = number if draw.random() < 0.8 else other, b"W" if draw.random() < 0.9 else b"S"
        payload = withdrawal_bytes(number, signature_of(state, signed, kind))
        return area[:begin] + b"\x01" + len(payload).to_bytes(4, "big") + payload + area[begin:]

    def with_old(self, area, ends):
        """The image of a version before withdrawals."""
        image = area[24 : ends[0]]
        return area_of(2, self.draw.choice([FRESH_TODAY, image[1:], image[1:-4], b"\0" + image[1:], b"\x03" + image[1:]]), area[ends[0] : -1])

    def with_many(self, area, ends):
        for _ in range(self.draw.randint(2, 6)):
            area = self.with_byte(area, ends)
        return area


def signature_of(state, number, kind):
    """The issuer's signature over that statement, of a withdrawal or of another kind; some bytes, if there is none."""
    if not 1 <= number <= len(state.statements):
        return bytes(32)
    statement = state.statements[number - 1]
    return tag_of(state.keys[statement.who], kind + statement.bytes)


class Another:
    """Changes a state; mostly it is none then."""

    def __init__(self, draw, state):
        self.draw, self.state = draw, state
        self.number, self.node = draw.choice(list(state.nodes.items()))

    def make(self):
        kinds = ["head", "place", "place", "contents", "attributes", "names", "gone", "statements", "issues"]
        getattr(self, self.draw.choice(kinds))()

    def head(self):
        state, draw = self.state, self.draw
        state.next = draw.choice([state.next, 0, max(state.nodes), max(state.nodes) + 1, 2**64 - 1])
        state.count = draw.choice([state.count, 0, 2**48 - 1, 2**48, 2**48 - 2])
        state.moment = draw.choice([state.moment, -62135596800, -62135596801, 253402300799, 253402300800])

    def place(self):
        """Another directory, and so maybe a circle; another kind; another owner."""
        node, nodes = self.node, list(self.state.nodes)
        node.parent = self.draw.choice([*nodes, *nodes, self.number, 0, 2**64 - 1])
        node.kind = self.draw.choice([node.kind] * 3 + ["file", "directory"])
        node.owner = self.draw.choice([node.owner, "bob", "admin"])

    def contents(self):
        size = self.draw.choice([0, 1, 1048576, 1048577])
        self.node.contents = bytearray(size)

    def attributes(self):
        count = self.draw.choice([1, 32, 33, 255])
        self.node.attributes = {f"a{one}": self.draw.choice(["", "x" * 128, "x" * 129, '"']) if one == 0 else "y" for one in range(count)}

    def names(self):
        other = self.draw.choice(list(self.state.nodes.values()))
        self.node.name = self.draw.choice([other.name, other.name, "", ".", "..", "x" * 64, "x" * 65, "a/b", "new"])

    def gone(self):
        """A node is not there, or more are; a few are too many."""
        nodes, count = self.state.nodes, self.draw.choice([1, 100, 16384 - len(self.state.nodes), 16385 - len(self.state.nodes)])
        if self.draw.random() < 0.5:
            del nodes[self.number]
        else:
            for one in range(self.state.next, self.state.next + count):
                nodes[one] = Node("file", "bob", 1, f"more.{one}")
            self.state.next += count

    def statements(self):
        """A statement stands twice, or changes places, or is gone, or has another's signature."""
        kept = self.state.registrations
        if kept:
            one, other = (self.draw.randrange(len(kept)) for _ in range(2))
            kind = self.draw.randrange(4)
            if kind == 0:
                kept.insert(one, kept[other])
            elif kind == 1:
                kept[one], kept[other] = kept[other], kept[one]
            elif kind == 2:
                del kept[one]
            else:
                kept[one] = kept[one]._replace(signature=kept[other].signature)

    def issues(self):
        """An issue cites others, or has another's grant or proof."""
        kept = self.state.grantings
        if kept:
            place, other = self.draw.randrange(len(kept)), self.draw.choice(kept)
            one, count = kept[place], len(self.state.registrations)
            numbers = self.draw.choice([[], [0], [1, 1], [2, 1], [count], [count + 1], [*one.numbers, count], list(range(1, 66)), other.numbers])
            more = {"numbers": numbers}, {"grant": other.grant}, {"proof": other.proof, "proof_bytes": other.proof_bytes}
            kept[place] = one._replace(**self.draw.choice(more))


def second_area(draw, area):
    """What stands in the second file, mostly nothing; or what a stop leaves of a checkpoint, or would not."""
    kind = draw.randrange(12)
    if kind == 3:
        return draw.choice([b"\0", b"\0", b"\x01"]) + area[1 : draw.randint(1, len(area))]
    if kind == 0:
        return area[:8] + draw.choice([0, 1, 2, 2**48 - 1, 2**48]).to_bytes(8, "big") + area[16:]
    if kind == 1:
        return made()
    return draw.choice([draw.randbytes(20), b"\x01", b"\0" + area[1:]]) if kind == 2 else b""


def try_init(store, first, second):
    """What is wrong with what `init` does over these bytes."""
    done = store.run("init")
    if newest(first, second) is not None:
        wanted, after = (b"exists\n", 10), first
    else:
        wanted, after = (b"ok\n", 0), made() + first[len(made()) :]
    if done != wanted:
        return f"init is told {done}, and not {wanted}"
    return None if (store.area(), store.area("pcfs.b")) == (after, second) else "init leaves other bytes"


def try_damage(store, draw, damages, reader):
    """One damage: its kind, what was found, and what is wrong with that."""
    kind, first = damages.damaged()
    second = second_area(draw, damages.whole()[0])
    if draw.random() < 0.1:
        first, second = second, first
    store.put(first, second)
    if draw.random() < 0.05:
        return "init", "init", try_init(store, first, second)
    wanted, found = opening(first, second, store.secrets, reader), store.found()
    fault = None
    if found != wanted:
        fault = f"{kind}: an opening finds {found}, and not {wanted}"
    elif (store.area(), store.area("pcfs.b")) != (first, second):
        fault = f"{kind}: an opening writes"
    elif found[1] != 0 and draw.random() < 0.1:
        fault = try_serve(store, found)
    return kind, "an open store" if found[1] == 0 else cause_of(found[0]), fault


def try_serve(store, found):
    """What is wrong with `serve` over areas that do not open."""
    line, status = found
    done = store.run("serve", str(free_port()), "1", patience=20)
    return None if done == (f"{line}\n".encode(), status) else f"serve ends with {done}, and an opening with {found}"


def cause_of(line):
    """The line of an end, without the number of the record."""
    words = line.split(" ")
    return f"damage of cause {words[2]}" if words[0] == "damaged" and len(words) == 3 else line


def damage_until(store, draw, area, reader, until):
    """Damages until that moment: how many of each kind, what was found, and the faults, whose areas are kept."""
    damages, kinds, found, faults = Damages(draw, area, store.secrets, reader), Counter(), Counter(), []
    while time.monotonic() < until and len(faults) < 10:
        kind, what, fault = try_damage(store, draw, damages, reader)
        kinds[kind] += 1
        found[what] += 1
        if fault:
            faults.append(f"{fault}; the areas are in {store.keep(len(faults))}")
    return kinds, found, faults
