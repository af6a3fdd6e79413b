"""Places what clients were told in the history that areas keep, and compares it with the plain model there.

Each reply of a session has a place: so many events stood in the history when it was decided. Places of one session do not go
back; a line that was said after another client had its reply is decided after that one's event, and an event whose line was
said later is not yet there. A reply that begins an event is that very event, and no event is another's. A checkpoint has the place of
its image, which is that of the state there.
"""
import re
from array import array
from bisect import bisect_left, bisect_right
from collections import defaultdict, deque, namedtuple
from functools import lru_cache
from hashlib import sha256
from itertools import islice

from areas import LIMIT, Damaged, generation, image_in, records
from found import ROW, Found
from history import MOST_STATEMENTS, Acted, History, Issued, Registered, Withdrawn
from history import acted_bytes, is_same, issued_bytes, issued_form, registered_bytes, withdrawn_bytes
from images import count_in, image_of
from lines import LONGEST, Lines, is_accepted, is_in_table
from pcfs_formats import tag_of
from pcfs_model import OPERATIONS, Bad, Reply, Server, Undecided, grant_bytes, need
from several import Readers
from talking import LONG, is_shortened, shortened

# Between which places a reply stands, its event, what is to be asked of the model there, of how many bytes a record has no room
# in the area, 0 if that is not said, and from which place on, up to which, it cannot stand.
Place = namedtuple("Place", "least most event ask size gap", defaults=(0, None, 0, (0, 0)))
# The image with which an area begins: how many events are before it, and its length and digest.
Image = namedtuple("Image", "events length digest")
Ask = namedtuple("Ask", "caller form words procaps first last reply")
ISSUE = re.compile(rb"ok issue ([1-9][0-9]*) (.*)")
SECOND = 10**9
COARSE = 20_000_000  # by so many nanoseconds the server's clock may be behind: some clocks go by ticks
FOREVER = 2**62
MOST_SHOWN = 20
FAILED = b"failed"  # of an operation that was not done, where nobody was told why


class Wrong(Exception):
    """A reply that the definitions do not allow."""


@lru_cache(maxsize=64)
def shortened_text(text):
    return shortened(text.encode("latin-1"))


def kept_form(text):
    """A reply of the model as one that was heard is kept."""
    return text.encode("latin-1") if len(text) <= LONG else shortened_text(text)


def is_told(reply, told):
    """Whether this reply of the model allows what was told: that there is no room, if it would be done; or not why it failed."""
    if told in (b"full", FAILED):
        return reply.startswith("ok") == (told == b"full")
    return kept_form(reply) == told


def want(reply, wanted):
    if reply != kept_form(wanted):
        raise Wrong(f"and not {wanted[:200]}")


def kind_of(reply):
    """A reply without what it tells of one line alone."""
    words = reply.decode("latin-1").split(" ", 3)
    if words[0] == "denied":
        return f"denied {words[2]}"
    return " ".join(words[:2]) if words[0] in ("ok", "rejected", "unproved", "refused", "bad") else words[0]


def key_of(event):
    """All that a line says of its event."""
    if isinstance(event, Registered):
        return event.statement.bytes, event.signature
    if isinstance(event, Withdrawn):
        return "withdraw", event.number, event.signature
    if isinstance(event, Issued):
        return event.grant.who, event.grant.file, event.grant.perm, tuple(event.numbers), event.proof_bytes
    return event.caller, event.operation, tuple(event.words), tuple(procap.bytes for procap in event.procaps)


def key_asked(asked, caller):
    """The same of the event that a line asks for."""
    if asked.form == "register":
        return asked.text.bytes, asked.words[0]
    if asked.form == "withdraw":
        return "withdraw", *asked.words
    if asked.form == "verify":
        return *asked.words[:3], tuple(asked.words[3]), asked.text[1]
    slots = OPERATIONS[asked.form][1]
    return caller, asked.form, tuple(asked.words[:-slots]), tuple(procap.bytes for procap in asked.words[-slots:])


def picture_of(events, image):
    return Image(events, len(image), sha256(image).digest())


def before_damage(records_of_area):
    """The payloads and ends of the records before damage, and the damage, if there is any."""
    found = []
    try:
        for one in records_of_area:
            found.append(one)
    except Damaged as damage:
        return [payload for payload, _ in found], [end for _, end in found], damage
    return [payload for payload, _ in found], [end for _, end in found], None


class Placing:
    """The history of areas that counted one after another, and what sessions were told of it. A caller who is shared may have several
    sessions, of which no two do the same operation; every other has one session alone."""

    def __init__(self, areas, secrets, shared=()):
        self.known = History(secrets)  # its statements are all that the areas have
        self.secrets, self.shared = secrets, shared
        self.lines = Lines(self.known.reader)
        self.shown, self.counts, self.told_words = [], defaultdict(int), defaultdict(int)
        self.events = [None]
        self.images, self.ends, self.makers = [None], [None], {1: None}  # by the generations of their areas; who made them
        self.statement_events, self.issue_events, self.issues = [0], [0], [None]
        self.withdrawal_events = {}  # by the number of the statement
        self.acted = defaultdict(deque)
        with Readers(self.known.reader) as readers:
            for area in areas:
                self.read_area(area, readers)
        self.of_shared = {caller: self.by_key(self.acted[caller]) for caller in shared}
        count = len(self.events)
        self.sent, self.got = array("q", [0]) * count, array("q", [FOREVER]) * count
        self.sent_wall, self.got_wall = array("q", [0]) * count, array("q", [FOREVER]) * count
        self.told, self.owner = [None] * count, [None] * count
        self.sessions, self.asks = [], defaultdict(list)

    def fault(self, text):
        self.counts["faults"] += 1
        if len(self.shown) < MOST_SHOWN:
            self.shown.append(text)

    # ---- the history ----

    def read_area(self, area, readers):
        """Takes the image and all events, up to damage, which is a fault."""
        try:
            self.take_image(area, image_in(area))
            payloads, ends, damage = before_damage(records(area))
            for event, end in zip(readers.events(payloads), ends):
                need(event is not None)
                self.take_event(event, end)
            if damage:
                raise damage
        except Damaged as damaged:
            self.fault(f"area {len(self.images) - 1} is {damaged}")
        except Bad:
            self.fault(f"event {len(self.events)} is none")

    def take_image(self, area, image):
        if (generation(area), count_in(image)) != (len(self.images), self.last):
            self.fault(f"area {generation(area)} is of {count_in(image)} events, and after area {len(self.images) - 1} there are {self.last}")
        self.images.append(picture_of(self.last, image))
        self.ends.append(array("q", [24 + len(image)]))

    def take_event(self, event, end):
        number = len(self.events)
        self.events.append(event)
        self.ends[-1].append(end)
        if isinstance(event, Registered):
            self.statement_events.append(number)
            self.known.statements.append(event.statement)
            self.known.said[event.statement.bytes] = len(self.known.statements)
        elif isinstance(event, Withdrawn):
            self.withdrawal_events.setdefault(event.number, number)
        elif isinstance(event, Issued):
            self.issue_events.append(number)
            self.issues.append(event.grant)
        else:
            self.acted[event.caller].append(number)

    def by_key(self, numbers):
        """The numbers of events that say the same, in their order, by all that they say."""
        found = defaultdict(deque)
        for number in numbers:
            found[key_of(self.events[number])].append(number)
        return found

    @property
    def last(self):
        return len(self.events) - 1

    def statement_event(self, number):
        """The event that has that number of a statement; none if there is none."""
        return self.statement_events[number] if 1 <= number < len(self.statement_events) else None

    def live(self, number):
        """The first and the last place at which that statement is live; none if it never is."""
        event = self.statement_event(number)
        return None if event is None else (event, self.withdrawal_events.get(number, self.last + 1) - 1)

    def all_live(self, numbers):
        """The first and the last place at which all these statements are live; the first is behind the last if there is none."""
        spans = [self.live(number) for number in numbers]
        if None in spans:
            return self.last + 1, self.last
        return max((first for first, _ in spans), default=0), min((last for _, last in spans), default=self.last)

    # ---- what one session was told ----

    def add(self, spoken):
        """Takes what was said on a connection and what it was told."""
        self.take(self.look(spoken))

    def look(self, spoken):
        """Finds where each reply stands. But for who makes checkpoints this changes nothing that another session needs."""
        found, caller = Found(spoken), None
        self.generation = spoken.generation
        for told, said in zip(spoken.replies, spoken.lines):
            (reply, got, got_wall), (line, sent, sent_wall) = told, said
            found.words[kind_of(reply)] += 1
            place = self.place_found(found, said, told, caller)
            if place.event:
                found.own(place.event, (sent, got), (sent_wall, got_wall), reply)
            if reply == b"ok" and line.startswith(b"login "):
                caller = line.split(b" ")[1].decode()
            found.put(place, sent, got)
        self.keep_unanswered(found, spoken, caller)
        return found

    def place_found(self, found, said, told, caller):
        """The place of a reply; if it has none, that is a fault, and it may stand anywhere."""
        (line, _, sent), (reply, _, got) = said, told
        try:
            if not is_shortened(reply) and not is_in_table(reply):
                raise Wrong("which no table has")
            return self.place(line, reply, caller, found.nonce, sent, got)
        except Wrong as wrong:
            number = len(found.places) // ROW
            found.faults.append(f"line {number}, {line[:300]!r} of {caller} is told {reply[:300]!r} {wrong}")
            return self.anywhere()

    def take(self, found):
        """Takes what was found of a session."""
        session = len(self.sessions)
        for fault in found.faults:
            self.fault(f"session {session}, {fault}")
        for kind, times in found.words.items():
            self.told_words[kind] += times
        for (event, *moments), reply in found.owned():
            self.own(event, session, moments, reply)
        for number, ask in found.asks.items():
            found.asks[number] = ask._replace(procaps=[self.known.reader.same(procap) for procap in ask.procaps])
        self.sessions.append(found)

    def own(self, event, session, moments, reply=None):
        """Gives an event to a session."""
        if self.owner[event] is not None:
            self.fault(f"event {event} is told twice, in sessions {self.owner[event]} and {session}")
        self.owner[event], self.told[event] = session, reply
        self.sent[event], self.got[event], self.sent_wall[event], self.got_wall[event] = moments
        issued = self.events[event]
        if isinstance(issued, Issued) and reply:
            self.known.take_verdict(issued)

    def anywhere(self):
        return Place(0, self.last)

    def place(self, line, reply, caller, nonce, sent, got):
        """Between which places the reply stands; Wrong if at none."""
        if len(line) > LONGEST:
            want(reply, "bad 3")
            return self.anywhere()
        try:
            asked = self.lines.read(line, caller)
        except Reply as first:
            want(reply, str(first))
            return self.anywhere()
        except Undecided:
            raise Wrong("and two who read its text differ") from None
        if asked.form == "login":
            want(reply, "ok" if is_accepted(self.known.keys, *asked.words, nonce) else "rejected 1")
            return self.anywhere()
        if caller is None:
            want(reply, "rejected 4")
            return self.anywhere()
        if asked.form == "checkpoint":
            return self.place_of_checkpoint(reply)
        if asked.form in OPERATIONS:
            return self.place_of_operation(asked, reply, caller, sent, got)
        find = {
            "register": self.place_of_statement, "withdraw": self.place_of_withdrawal,
            "verify": self.place_of_proof, "procap": self.place_of_procap,
        }[asked.form]
        return find(asked, reply, caller)

    def place_when_full(self, size, least, most, ask=None):
        """Where a record with so many bytes does not fit any more."""
        return Place(least, most, 0, ask, size)

    def without_room(self, place, size):
        """The first place from there on where a record with so many bytes does not fit; behind the last if there is none."""
        for image, ends in islice(zip(self.images, self.ends), 1, None):
            if image.events + len(ends) > place:
                found = bisect_right(ends, LIMIT - 6 - size, max(0, place - image.events))
                if found < len(ends):
                    return image.events + found
        return self.last + 1

    def place_of_checkpoint(self, reply):
        """The place of the next image; who makes checkpoints is alone with that."""
        if reply == b"full":
            return Place(0, self.last, 0, Ask("admin", "checkpoint", (), (), 0, 0, reply))
        want(reply, "ok checkpoint")
        if self.generation is None or self.generation + 1 >= len(self.images):
            raise Wrong("and no area has its image")
        self.generation += 1
        return self.place_of_image(self.generation)

    def place_of_image(self, generation):
        """The place of an image, which is now that of one who asked for it."""
        if generation in self.makers:
            raise Wrong(f"and area {generation} is told twice")
        self.makers[generation] = len(self.sessions)
        count = self.images[generation].events
        return Place(count, count)

    def place_of_statement(self, asked, reply, caller):
        (given,), statement = asked.words, asked.text
        if not self.known.accepts(statement, given):
            want(reply, "rejected 1")
            return self.anywhere()
        number = self.known.said.get(statement.bytes)
        event = self.statement_event(number or 0)
        last = self.statement_event(MOST_STATEMENTS)
        if reply == b"full":
            return self.place_when_full(registered_bytes(statement, given), 0, (event or last or self.last + 1) - 1)
        if reply == b"rejected 2" and last and event is None:
            return Place(last, self.last)
        if event is None:
            raise Wrong("and the history has no such statement")
        if reply == b"rejected 3 %d" % number:
            return Place(event, self.last)
        want(reply, f"ok statement {number}")
        return Place(event - 1, event - 1, event)

    def place_of_withdrawal(self, asked, reply, caller):
        number, given = asked.words
        span = self.live(number)
        if reply == b"absent %d" % number:
            return self.place_without(span, 0, self.last)
        if span is None:
            raise Wrong("and there is never such a statement")
        first, last = span
        statement = self.known.statements[number - 1]
        if not self.known.accepts(statement, given, b"W"):
            want(reply, "rejected 1")
            return Place(first, last)
        if reply == b"full":
            return self.place_when_full(withdrawn_bytes(given), first, last)
        want(reply, "ok")
        event = self.withdrawal_events.get(number)
        if event is None or key_of(self.events[event]) != key_asked(asked, caller):
            raise Wrong("and the history has no such withdrawal")
        return Place(event - 1, event - 1, event)

    def place_without(self, span, least, most):
        """Between these places, but not where a statement is live, which it is between the places of the span, if ever."""
        if span is None:
            return Place(least, most)
        first, last = span
        if last >= most:
            return Place(least, min(most, first - 1))
        return Place(least, most, gap=(first, last + 1))

    def place_of_proof(self, asked, reply, caller):
        (who, file, perm, numbers), (proof, bytes_of_proof) = asked.words, asked.text
        if reply.startswith(b"absent "):
            return self.place_of_absent(numbers, int(reply[7:]))
        if numbers[0] == 0 or self.statement_event(numbers[-1]) is None:
            raise Wrong("and cites what is never there")
        least, most = self.all_live(numbers)
        if least > most:
            raise Wrong("and what it cites is never live at once")
        verdict = self.known.verdict(numbers, who, file, perm, proof, bytes_of_proof)
        if isinstance(verdict, str):
            want(reply, verdict)
            return Place(least, most)
        if reply == b"full":
            return self.place_when_full(issued_bytes(numbers, proof, issued_form(verdict, numbers)), least, most)
        found = ISSUE.fullmatch(reply)
        if not found or int(found[1]) >= len(self.issue_events):
            raise Wrong("and the proof gives a grant")
        want(found[2], f"time {len(verdict.times)} state {len(verdict.states)}")
        event = self.issue_events[int(found[1])]
        if key_of(self.events[event]) != key_asked(asked, caller) or not is_same(self.events[event].grant, issued_form(verdict, numbers)):
            raise Wrong(f"and that is event {event}, {str(self.events[event])[:300]}")
        return Place(event - 1, event - 1, event)

    def place_of_absent(self, numbers, number):
        """Where the statements that are cited before that number are live, and it is not. That is so when the proof was found to be
        right too, and a statement was withdrawn in the meantime."""
        if number not in numbers:
            raise Wrong("which was not cited")
        least, most = self.all_live(numbers[: numbers.index(number)])
        if least > most:
            raise Wrong("and one cited before it is absent too")
        return self.place_without(self.live(number), least, most)

    def place_of_procap(self, asked, reply, caller):
        (number,) = asked.words
        grant = self.issues[number] if number < len(self.issues) else None
        mine = grant is not None and grant.who == caller
        if reply == b"absent %d" % number:
            return Place(0, self.issue_events[number] - 1 if mine else self.last)
        if not mine:
            raise Wrong("and it is nobody's, or another's")
        data = grant_bytes(grant)
        want(reply, f"ok procap {(data + tag_of(self.known.seal, data)).hex()}")
        return Place(self.issue_events[number], self.last)

    def place_of_operation(self, asked, reply, caller, sent, got):
        slots = OPERATIONS[asked.form][1]
        words, procaps = asked.words[:-slots], asked.words[-slots:]
        ask = Ask(caller, asked.form, words, procaps, (sent - COARSE) // SECOND, got // SECOND, reply)
        if reply == b"full":
            return self.place_when_full(acted_bytes(caller, asked.form, words, procaps), 0, self.last, ask)
        if reply.startswith((b"denied ", b"refused ")):
            number = int(reply[reply.rindex(b" at ") + 4 :])
            return Place(number, min(number, self.last), 0, ask)
        if not reply.startswith(b"ok"):
            raise Wrong("which no operation is told")
        event = self.acted_event(asked, caller)
        return Place(event - 1, event - 1, event)

    def acted_event(self, asked, caller):
        """The event that this operation is: of who has one session alone, the next; else the one that says the same."""
        wanted = key_asked(asked, caller)
        left = self.of_shared[caller].get(wanted) if caller in self.shared else self.acted.get(caller)
        if not left:
            raise Wrong(f"and {caller} has no such event")
        if key_of(self.events[left[0]]) != wanted:
            raise Wrong(f"and the next event of {caller}, {left[0]}, is {str(self.events[left[0]])[:300]}")
        return left.popleft()

    # ---- what was said and not answered ----

    def keep_unanswered(self, found, spoken, caller):
        """Keeps the lines that were not answered: the first of them may have become events."""
        for line, sent, wall in spoken.lines[len(spoken.replies) :]:
            try:
                asked = self.lines.read(line, caller) if len(line) <= LONGEST else None
            except (Reply, Undecided):
                continue
            if asked and asked.form == "login":
                caller = asked.words[0] if is_accepted(self.known.keys, *asked.words, spoken.nonce) else caller
            elif asked and asked.form == "checkpoint" and caller is not None and self.generation is not None:
                self.generation += 1
                found.unanswered.append((self.generation, sent, wall))
            elif asked and asked.form not in ("procap", "checkpoint") and caller is not None:
                found.unanswered.append((key_asked(asked, caller), sent, wall))

    def find_unanswered(self):
        """Gives each event that nobody was told to a line that was not answered, each line at most one. Lines come in the order in which
        they were said, and each takes the first event that says the same, after all that its session and anybody had been told."""
        left = self.by_key(number for number in range(1, self.last + 1) if self.owner[number] is None)
        self.counts["events that were not told"] = sum(map(len, left.values()))
        lows = {session: self.reached(found) for session, found in enumerate(self.sessions) if found.unanswered}
        lines = [(sent, session, key, wall) for session in lows for key, sent, wall in self.sessions[session].unanswered]
        for sent, session, key, wall in sorted(lines, key=lambda line: line[0]):
            if isinstance(key, int):
                lows[session] = max(lows[session], self.find_image(session, key, sent))
                continue
            low = max(lows[session], self.told_before(sent))
            number = next((one for one in left.get(key, ()) if one > low), None)
            if number is not None:
                left[key].remove(number)
                self.own(number, session, (sent, FOREVER, wall, FOREVER))
                self.sessions[session].put(Place(number - 1, number - 1, number), sent, FOREVER)
                lows[session] = number
        for number in sorted(number for numbers in left.values() for number in numbers):
            self.fault(f"nobody asked for event {number}, {str(self.events[number])[:300]}")
        for number in range(1, len(self.images)):
            if number not in self.makers:
                self.fault(f"nobody asked for area {number}")

    def find_image(self, session, generation, sent):
        """Gives an image that nobody was told to who asked for it, if there is one: its place, or else 0."""
        if generation >= len(self.images) or generation in self.makers:
            return 0
        place = self.place_of_image(generation)
        self.counts["checkpoints that were not told"] += 1
        self.sessions[session].put(place, sent, FOREVER)
        return place.least

    # ---- places ----

    def order_told(self):
        """The order in which events were told."""
        self.told_at, self.told_most = array("q"), array("q")
        most = 0
        for number in sorted(range(1, self.last + 1), key=self.got.__getitem__):
            most = max(most, number)
            self.told_at.append(self.got[number])
            self.told_most.append(most)

    def order_said(self):
        """The order in which the lines of events were said."""
        said = sorted(range(1, self.last + 1), key=self.sent.__getitem__)
        self.said_at, self.said_least = array("q", (self.sent[number] for number in said)), array("q", said)
        for place in range(len(said) - 2, -1, -1):
            self.said_least[place] = min(self.said_least[place], self.said_least[place + 1])

    def told_before(self, moment):
        """The last event that was told before that moment."""
        place = bisect_left(self.told_at, moment)
        return self.told_most[place - 1] if place else 0

    def said_before(self, moment):
        """The last place before which no event stands whose line was said after that moment."""
        place = bisect_right(self.said_at, moment)
        return self.said_least[place] - 1 if place < len(self.said_at) else self.last

    def earliest(self, low, least, size, sent, gap):
        """The first place where a reply may stand, after that of the one before it."""
        place = max(low, least, self.told_before(sent))
        if gap[0] <= place < gap[1]:
            place = gap[1]
        return self.without_room(place, size) if size else place

    def reached(self, found):
        """The place that a session had surely come to with its last reply."""
        low = 0
        for _, (least, _, event, size, sent, _, *gap), _ in found.placed():
            low = event or self.earliest(low, least, size, sent, gap)
        return low

    def walk(self, session):
        """Places the replies of a session, each as early as it may stand."""
        low = 0
        for number, (least, most, event, size, sent, got, *gap), ask in self.sessions[session].placed():
            place = self.earliest(low, least, size, sent, gap)
            most = min(most, self.said_before(got))
            if place > most:
                self.fault(f"session {session}, reply {number} has no place: not before {place} by {low}, {least} and what was told, nor after {most}")
            if ask:
                self.asks[min(place, self.last)].append((session, number, ask, size, most))
            low = event or place

    # ---- the model ----

    def replay(self):
        """Makes the history by the model, and asks it at each place what was told there."""
        history = History(self.secrets, self.known.reader)
        granted, self.unissued, self.images_at = set(), 0, defaultdict(list)
        for number in range(1, len(self.images)):
            self.images_at[self.images[number].events].append(number)
        for number in range(1, self.last + 1):
            self.look_at(history, number - 1)
            self.ask_at(history, number - 1)
            event, before = self.events[number], history.moment
            cause, reply = history.add(event)
            if cause:
                self.fault(f"event {number} is damage of cause {cause}: {str(event)[:300]}")
                return history
            if self.told[number] not in (None, kept_form(reply)):
                self.fault(f"event {number} was told {self.told[number]!r}, and not {kept_form(reply)!r}")
            if isinstance(event, Acted):
                self.test_moment(number, before)
                self.unissued += any(procap.bytes[:-32] not in granted for procap in event.procaps)
            elif isinstance(event, Issued):
                granted.add(grant_bytes(event.grant))
        self.look_at(history, self.last)
        self.ask_at(history, self.last)
        self.list_all(history)
        return history

    def list_all(self, history):
        """Compares what a directory has kept for its lists with the list of the plain model, for each at the end."""
        for number, node in history.nodes.items():
            if node.kind == "directory" and history.list(number) != Server.list(history, number):
                self.fault(f"at the end the model has kept other names of #{number} than it has")

    def look_at(self, history, place):
        """Compares the images at this place with that of the state; an audit begins after the last of them."""
        for number in self.images_at.get(place, ()):
            image, wanted = self.images[number], picture_of(place, image_of(history))
            if image != wanted:
                self.fault(f"after event {place} the image of area {number}, of {image.length} bytes, is not that of the state, of {wanted.length}")
            if number == len(self.images) - 1:
                self.unissued = 0

    def test_moment(self, number, before):
        """The moment is the one before, or the clock's while the line was out."""
        moment, sent, got = self.events[number].moment, self.sent_wall[number], self.got_wall[number]
        if moment < (sent - COARSE) // SECOND or moment != before and moment > got // SECOND:
            self.fault(f"event {number} has the moment {moment}, was said at {sent // SECOND} and told at {got // SECOND}")

    def ask_at(self, history, place):
        for session, number, ask, size, most in self.asks.pop(place, ()):
            other = self.other_reply(history, ask)
            if other is None:
                continue
            after = self.without_room(place + 1, size) if size else place + 1
            if ask.reply in (b"full", FAILED) and after <= most:
                self.asks[after].append((session, number, ask, size, most))
            else:
                words = f"{ask.form} {str(ask.words)[:200]} of {ask.caller}"
                self.fault(f"session {session}, reply {number}: at {place} {words} is told {ask.reply[:200]!r}, and not {other[:200]}")

    def other_reply(self, history, ask):
        """None if what was told may be told now; else the first reply that may be."""
        replies = []
        for reply in self.would_be_told(history, ask):
            if is_told(reply, ask.reply):
                return None
            replies.append(reply)
        return replies[0]

    def would_be_told(self, history, ask):
        """What may be told of this now, if there is room for a record; of a checkpoint, whether its image has none."""
        if ask.form == "checkpoint":
            yield "ok" if len(image_of(history)) + 25 > LIMIT else "that there is room"
            return
        for clock in range(ask.first, ask.last + 1):
            yield history.would_answer(ask.caller, ask.form, ask.words, ask.procaps, clock)

    def check(self):
        """Compares all, once every session was added, and returns the state at the end."""
        self.order_told()
        self.find_unanswered()
        self.order_said()
        for session in range(len(self.sessions)):
            self.walk(session)
        return self.replay()
