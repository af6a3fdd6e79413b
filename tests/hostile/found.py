"""What was found of one session: of each reply its place, of each event who was told it. It is small, and goes between processes."""
from array import array
from collections import Counter

ROW = 8  # numbers for each reply
EVENT_ROW = 5  # and for each event


def rows(numbers, size):
    """The numbers, so many together."""
    return zip(*[iter(numbers)] * size)


class Found:
    """A session. `places` has of each reply between which places it stands, its event, the bytes of a record for which there is no
    room, both 0 if there is none, when its line was said and it came, and from which place on up to which it cannot stand; `asks` has what is to be asked of the model."""

    __slots__ = ("nonce", "lines", "words", "places", "asks", "events", "replies", "unanswered", "faults")

    def __init__(self, spoken):
        self.nonce, self.lines = spoken.nonce, len(spoken.lines)
        self.words, self.faults, self.unanswered = Counter(), [], []
        self.places, self.asks, self.events, self.replies = array("q"), {}, array("q"), []

    def put(self, place, sent, got):
        """Puts the place of the next reply, or of a line without one, which was said and told at these moments."""
        if place.ask:
            self.asks[len(self.places) // ROW] = place.ask
        self.places.extend((place.least, place.most, place.event or 0, place.size, sent, got, *place.gap))

    def own(self, event, moments, walls, reply):
        """Takes an event as one of this session."""
        self.events.extend((event, *moments, *walls))
        self.replies.append(reply)

    def owned(self):
        """Each event of the session, with its moments by both clocks, and its reply."""
        return zip(rows(self.events, EVENT_ROW), self.replies)

    def placed(self):
        """The number of each reply, its row and what is asked of it."""
        for number, row in enumerate(rows(self.places, ROW)):
            yield number, row, self.asks.get(number)
