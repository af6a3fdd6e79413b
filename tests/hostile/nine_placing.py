"""Places what connections of 9P2000 were told in the history that areas keep, beside sessions of lines.

What a reply is without a store is known by the model of a connection, byte by byte. A message that takes turns is one operation for
each: a login, a reading, a writing, or a lookup for each name of a walk, under the first procap of the purse that fits. Each of these
has a place as replies to lines have. A walk that ends on its way does not tell why: that name has a place where its lookup is not done.
"""
from collections import namedtuple

from found import Found
from history import Acted
from lines import Asked, is_accepted, is_in_table
from nine_messages import NAMES, Bad, lines_of, reply_bytes
from nine_server import error
from nine_talking import Known, NineSpoken, files_of
from pcfs_model import grant_bytes
from placing import COARSE, FAILED, SECOND, Ask, Place, Placing, Wrong, key_asked, kind_of
from talking import LONG, shortened

MADE = ("create", "mkdir")
ERROR, READ_DONE = 107, 117  # kinds of replies

Turn = namedtuple("Turn", "form words reply")  # an operation, and what it was told


def is_message(data, agreed):
    """Whether these bytes are one message."""
    size = int.from_bytes(data[:4], "little")
    if size != len(data) or not 7 <= size <= agreed:
        return False
    try:
        lines_of(data)
    except Bad:
        return False
    return True


def whole_messages(lines, agreed=65536):
    """The first of these bytes that are messages, and whether others follow."""
    found = []
    for line in lines:
        data = line[0]
        if not is_message(data, agreed):
            return found, True
        found.append(line)
        msize = int.from_bytes(data[7:11], "little")
        agreed = min(msize, 65536) if data[4] == 100 and msize >= 512 else agreed
    return found, False


def names_in(message):
    return [bytes.fromhex(line.partition(" ")[2]).decode("latin-1") for line in lines_of(message)[1:]]


class NinePlacing(Placing):
    """Sessions of lines and connections of 9P2000 over one history."""

    def __init__(self, areas, secrets, shared=()):
        super().__init__(areas, secrets, shared)
        self.kinds = self.kinds_of_nodes()

    def kinds_of_nodes(self):
        """Whether each node that there ever was is a directory: they are numbered as they are made."""
        made = [event.operation for event in self.events[1:] if isinstance(event, Acted) and event.operation in MADE]
        return {1: True, **{number: operation == "mkdir" for number, operation in enumerate(made, 2)}}

    def look(self, spoken):
        return self.look_at_nine(spoken) if isinstance(spoken, NineSpoken) else super().look(spoken)

    def procap_for(self, known, node, permission):
        """The first procap of the purse that fits; none if there is none."""
        first = known.first((node, True), permission)
        return self.known.reader.procap(grant_bytes(first[0]) + first[1]) if first else None

    # ---- what a connection was told ----

    def look_at_nine(self, spoken):
        """Finds where each reply stands that is of a turn, and compares the others."""
        found, known = Found(spoken), Known()
        known.nonce = None
        messages, has_bad = whole_messages(spoken.lines)
        self.look_at_end(found, spoken, len(messages), has_bad)
        for (message, sent, sent_wall), (reply, got, got_wall) in zip(messages, spoken.replies):
            if known.nonce is None and reply[4] == READ_DONE:
                known.greet(reply)
                known.nonce = known.nonce or bytes(16)
            try:
                turns = self.turns(known, message, reply)
                found.words[f"{NAMES.get(message[4], 'T-other')} {'error' if reply[4] == ERROR else 'done'}"] += 1
                for turn in turns:
                    self.place_turn(found, known.caller, turn, (sent, got), (sent_wall, got_wall))
            except Wrong as wrong:
                found.faults.append(f"message {message[:200].hex()} of {known.caller} is told {reply[:200]!r} {wrong}")
                break
        else:
            self.keep_unanswered_nine(found, known, messages[len(spoken.replies):])
        return found

    def look_at_end(self, found, spoken, count, has_bad):
        """The connection ends by itself after bytes that are no message, and not before."""
        told = len(spoken.replies)
        if told > count:
            found.faults.append(f"{told} replies to {count} messages")
        if spoken.end == "closed" and not (has_bad and told == count):
            found.faults.append(f"the connection was closed after {told} replies to {count} messages, of which {'one more is none' if has_bad else 'all are some'}")
        if spoken.end == "reset" and not has_bad:
            found.faults.append(f"the connection was reset after {told} replies to {count} messages")
        if spoken.end == "left" and told < count:
            found.faults.append(f"{told} replies to {count} messages, all of which have one")

    def turns(self, known, message, reply):
        """The operations of a message, with their replies; the model of the connection takes what came of them."""
        said = known.take(message, [])
        kind, _, rest = said.partition(" ")
        if kind not in ("walk", "login", "read", "write"):
            self.same(reply, bytes.fromhex(said))
            return []
        return getattr(self, "turns_of_" + kind)(known, message, reply, rest.split(" "))

    def same(self, reply, wanted):
        if reply != wanted:
            raise Wrong(f"and not {wanted[:200].hex()}")

    def text_of(self, message, reply):
        """The words of an error that only a turn gives; none if the reply is no error."""
        if reply[4] != ERROR:
            return None
        words = reply[9:]
        self.same(reply, reply_bytes(int.from_bytes(message[5:7], "little"), "error", words.hex()))
        if words.startswith(b"ok") or not is_in_table(words):
            raise Wrong("which no table has")
        return words

    def turns_of_login(self, known, message, reply, words):
        who, signature = bytes.fromhex(words[0]).decode(), bytes.fromhex(words[1])
        tag = int.from_bytes(message[5:7], "little")
        if is_accepted(self.known.keys, who, signature, known.nonce):
            self.same(reply, reply_bytes(tag, "write", str(int.from_bytes(message[19:23], "little"))))
            known.take(message, ["ok"])
        else:
            self.same(reply, error(tag, "rejected 1"))
        return []

    def turns_of_read(self, known, message, reply, words):
        node, offset, most = map(int, words[:3])
        told = self.text_of(message, reply)
        if told is None:
            data = reply[11:]
            self.same(reply, reply_bytes(int.from_bytes(message[5:7], "little"), "read", data.hex()))
            told = f"ok bytes {data.hex() or '-'}".encode()
        return [Turn("read", [node, offset, most, self.procap_for(known, node, "read")], told)]

    def turns_of_write(self, known, message, reply, words):
        node, offset, data = int(words[0]), int(words[1]), message[23:]
        told = self.text_of(message, reply)
        if told is None:
            self.same(reply, reply_bytes(int.from_bytes(message[5:7], "little"), "write", str(len(data))))
            told = b"ok"
        return [Turn("write", [node, offset, data, self.procap_for(known, node, "write")], told)]

    def turns_of_walk(self, known, message, reply, words):
        """A lookup for each name that was found, and for the one that was not, if there was a procap for it."""
        names, node, turns = names_in(message), int(words[0]), []
        told = self.text_of(message, reply) if reply[4] == ERROR else None
        found = files_of(reply)
        if told is None:
            tag = int.from_bytes(message[5:7], "little")
            self.same(reply, reply_bytes(tag, "walk", *(word for one in found for word in ("128" if one[0] == "d" else "0", "0", one[1:]))))
            if not 0 < len(found) <= len(names):
                raise Wrong(f"to {len(names)} names")
        for name, one in zip(names, [*found, None][: len(names)]):
            procap = self.procap_for(known, node, "execute")
            if procap is None:
                if one is not None or told is not None:
                    raise Wrong(f"and the purse has no procap for #{node}")
                break
            reply_of_name = told or FAILED if one is None else f"ok node #{one[1:]}".encode()
            turns.append(Turn("lookup", [node, name, procap], reply_of_name))
            if one is None:
                break
            node = int(one[1:])
            if self.kinds.get(node) != (one[0] == "d"):
                raise Wrong(f"and #{node} is {'a directory' if self.kinds.get(node) else 'a file' if node in self.kinds else 'no node'}")
        known.take(message, found)
        return turns

    def place_turn(self, found, caller, turn, times, walls):
        """Puts the place of an operation."""
        asked, reply = Asked(turn.form, turn.words, None), turn.reply
        if reply == FAILED:
            ask = Ask(caller, turn.form, turn.words[:-1], turn.words[-1:], (walls[0] - COARSE) // SECOND, walls[1] // SECOND, FAILED)
            found.put(Place(0, self.last, 0, ask), *times)
            return
        reply = shortened(reply) if len(reply) > LONG else reply
        place = self.place_of_operation(asked, reply, caller, walls[0], walls[1])
        found.words[kind_of(reply)] += 1
        if place.event:
            found.own(place.event, times, walls, reply)
        found.put(place, *times)

    # ---- what was said and not answered ----

    def keep_unanswered_nine(self, found, known, messages):
        """Keeps what may have become events of messages that were not answered. Of a walk it is not known where it came to: each name
        after the first may have been looked up in any directory for which there is a procap. What came after a walk may be anything
        that the fids may stand for, of which this keeps nothing: nobody says more after it."""
        for message, sent, wall in messages:
            said = known.take(message, [])
            kind, *words = said.split(" ")
            if kind == "login":
                if is_accepted(self.known.keys, bytes.fromhex(words[0]).decode(), bytes.fromhex(words[1]), known.nonce):
                    known.take(message, ["ok"])
            elif kind == "walk":
                fitting = {procap[0].file for procap in known.purse if (procap[0].who, procap[0].perm) == (known.caller, "execute")}
                for at, name in enumerate(names_in(message)):
                    for node in fitting if at else [int(words[0])]:
                        self.may_be(found, known, "lookup", [node, name], "execute", sent, wall)
                return
            elif kind == "read":
                self.may_be(found, known, "read", [*map(int, words[:3])], "read", sent, wall)
            elif kind == "write":
                self.may_be(found, known, "write", [*map(int, words[:2]), message[23:]], "write", sent, wall)

    def may_be(self, found, known, form, words, permission, sent, wall):
        asked = Asked(form, [*words, self.procap_for(known, words[0], permission)], None)
        found.unanswered.append((key_asked(asked, known.caller), sent, wall))
