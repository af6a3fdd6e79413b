"""What docs/DISK.md says of areas: their records, and what an opening of two of them finds."""
import switches
from images import LAST_EVENT, VERSION, state_of
from pcfs_model import Bad

LIMIT = 67_108_864
HEADER = bytes.fromhex("50434653000001")
FRESH_TODAY = bytes.fromhex(
    "fffffff1886e0900" "0000000000000000" "0000000000000002" "00000000" "00000000" "00000001"
    "0000000000000001" "02" "0561646d696e" "0000000000000000" "00" "00" "00000000"
)


class Damaged(Exception):
    """A record, 0 for header and image, and the cause."""

    def __init__(self, record, cause):
        super().__init__(f"damaged {record} {cause}")


def fresh():
    """The image of a new store."""
    return VERSION + FRESH_TODAY + bytes(4) if switches.withdrawals else FRESH_TODAY


def generation(area):
    return int.from_bytes(area[8:16], "big") if len(area) >= 16 else 0


def is_open(area):
    return area[:1] == b"\x01"


def newest(first, second):
    """The area that counts, or none if neither is open."""
    opened = [area for area in (first, second) if is_open(area)]
    return max(opened, key=generation) if opened else None


def begin_of(area):
    """Where the first record of an open area begins."""
    if len(area) < 24 or area[1:8] != HEADER or not 1 <= generation(area) < 2**48:
        raise Damaged(0, 1)
    end = 24 + int.from_bytes(area[16:24], "big")
    if end > len(area) or end + 1 > LIMIT:
        raise Damaged(0, 1)
    return end


def image_in(area):
    """The image with which an open area begins."""
    return area[24 : begin_of(area)]


def records(area):
    """The payloads of the records of an open area, in their order, each with the offset behind it."""
    at, number = begin_of(area), 0
    while area[at : at + 1] == b"\x01":
        number += 1
        end = at + 5 + int.from_bytes(area[at + 1 : at + 5], "big")
        if at + 5 > len(area) or end > len(area) or end + 1 > LIMIT:
            raise Damaged(number, 2)
        yield area[at + 5 : end], end
        at = end


def opened(area, secrets, reader=None):
    """The state that the image and the records of an area lead to."""
    cause, history = state_of(image_in(area), secrets, reader)
    if cause:
        raise Damaged(0, cause)
    for number, (payload, _) in enumerate(records(area), 1):
        if history.count == LAST_EVENT:
            raise Damaged(number, 2)
        try:
            event = history.reader.event(payload)
        except Bad:
            raise Damaged(number, 2) from None
        cause, _ = history.add(event)
        if cause:
            raise Damaged(number, cause)
    return history


def opening(first, second, secrets, reader=None):
    """What an opening finds: its line and its status, or the number of events and 0."""
    area = newest(first, second)
    if area is None:
        return "nostore", 4
    try:
        return opened(area, secrets, reader).count, 0
    except Damaged as damaged:
        return str(damaged), 3


def bytes_of(path, most=-1):
    """The bytes of a file, or the first of them; none if it is not there."""
    try:
        with open(path, "rb") as file:
            return file.read(most)
    except FileNotFoundError:
        return b""
