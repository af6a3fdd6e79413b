"""Events that several processes read."""
import gc
import multiprocessing
import os

from history import Acted, Reader
from pcfs_model import Bad

PROCESSES = min(4, os.cpu_count() or 1)
TOGETHER = 1000  # events that one reads at once

own_reader = None  # of a process that reads


def read_with(seal):
    """Begins a process that reads events."""
    global own_reader
    gc.disable()
    own_reader = Reader(seal)


def read_some(payloads, reader=None):
    """The events of these bytes; None in the place of one that is none."""
    events = []
    for payload in payloads:
        try:
            events.append((reader or own_reader).event(payload))
        except Bad:
            events.append(None)
    return events


class Readers:
    """Reads events by a reader, or if there are many by several processes."""

    def __init__(self, reader):
        self.reader, self.pool = reader, None

    def __enter__(self):
        return self

    def __exit__(self, *_):
        if self.pool:
            self.pool.terminate()
            self.pool.join()

    def events(self, payloads):
        """The events of these bytes, in their order; None in the place of one that is none."""
        parts = [payloads[first : first + TOGETHER] for first in range(0, len(payloads), TOGETHER)]
        if len(parts) < 2:
            yield from read_some(payloads, self.reader)
            return
        if self.pool is None:
            self.pool = multiprocessing.get_context("fork").Pool(PROCESSES, read_with, (self.reader.seal,))
        for events in self.pool.imap(read_some, parts):
            yield from map(self.with_own, events)

    def with_own(self, event):
        """The event, with the procaps that were read before."""
        if isinstance(event, Acted):
            return event._replace(procaps=[self.reader.same(procap) for procap in event.procaps])
        return event
