#!/usr/bin/env python3
"""Compares what the model finds in areas, images and histories with withdrawals with what was worked out by hand; so too what the
program finds in the areas, if one is named. With NAMES=0 that is of grants that name nothing, by a program which reads no image of
version 1; else of grants that name the statement that they rest on, by which a record with one is five bytes longer.

usage: withdrawal_areas.py [PROGRAM]. Prints a line for each group, and ends with 1 if one differs.
"""
import os
import sys
import tempfile
from pathlib import Path

TESTS = Path(__file__).resolve().parents[1]
sys.path += [str(TESTS / "model"), str(TESTS / "hostile"), str(TESTS.parent / "examples")]

import switches

switches.switch_on()

from areas import FRESH_TODAY, fresh, image_in, opened, opening, records
from damage import area_of, made
from images import image_of
from pcfs_audit_model import Auditor, Recorder, first_line, read_event, withdrawal_bytes
from pcfs_formats import key_of, sign_statement, sign_withdrawal, tag_of
from pcfs_model import ProofText, Reply, Server, grant_bytes, grant_of
from placing import Placing
from said import login, registration, secrets_of, withdrawal
from serving import Store
from talking import Spoken

SECRETS_FILE = TESTS.parent / "examples/pcfs.secrets"
SECRETS = SECRETS_FILE.read_text()
STATEMENT = "admin says may(alice,#1,write) from 0 to 200"
OTHER = "loc says may(alice,#1,write) from 0 to 200"
PROOF = "saysR(claim(0,init(1)))"
FIRST_FILE = ["at 100", f"register - {STATEMENT}", f"verify alice #1 write 1 {PROOF}", "as alice", "do create #1 notes @1"]
SIGNED = sign_withdrawal(key_of(SECRETS_FILE, "admin"), STATEMENT)
NAMED = 5 if switches.names else 0  # a count of one and the number of a statement
SECOND, THIRD, WHOLE = 247 + NAMED, 356 + 2 * NAMED, 357 + 2 * NAMED  # where the issue and the operation of FIRST_FILE end, and the area
FORGED = "470105616c6963650000000000000001020000b3d8d85771d6c101aeba7d0b86dc1d6cccb6e5cf43d2192d5ed78f66f54ef466"


def payloads_of(*lines):
    """The payloads of the events of a script."""
    recorder = Recorder(SECRETS)
    for line in lines:
        recorder.answer(line)
    return recorder.events


def record(payload):
    return b"\x01" + len(payload).to_bytes(4, "big") + payload


def area(*payloads, image=None, generation=1):
    return area_of(generation, image if image is not None else fresh(), b"".join(map(record, payloads)))


store = None  # of the program that is named


def found(first):
    """What an opening finds in an area alone, with an empty one beside it."""
    by_model = opening(first, b"", SECRETS)
    if store:
        store.put(first)
        by_program = store.found()
        if by_program != by_model:
            return f"the program finds {by_program}, and the model {by_model}"
    line, status = by_model
    return f"opens with {line}" if status == 0 else line


def state_after(*lines):
    return opened(area(*payloads_of(*lines)), SECRETS)


# ---- bytes -------------------------------------------------------------------------------------------------------------


def new_store():
    old = "fffffff1886e090000000000000000000000000000000002000000000000000000000001000000000000000102" "0561646d696e0000000000000000000000000000"
    yield made().hex(), "01504346530000010000000000000001" "0000000000000046" "02" + old + "00000000" "00"
    yield len(made()), 95
    yield FRESH_TODAY.hex(), old


def messages():
    """What is signed of a withdrawal: the byte 57 and the statement."""
    said = bytes.fromhex("0561646d696e10036d6179030105616c69636502000000000000000103020100000000000000000100000000000000c8")
    yield SIGNED, tag_of(bytes.fromhex("61646d696e7320736563726574"), b"\x57" + said)
    yield payloads_of(*FIRST_FILE, "withdraw 1 -")[3].hex(), "04" "00000001" "00000020" + SIGNED.hex()
    yield payloads_of(*FIRST_FILE, f"withdraw 1 {SIGNED.hex()}")[3].hex(), "04" "00000001" "00000020" + SIGNED.hex()


def first_file():
    whole = area(*payloads_of(*FIRST_FILE))
    yield len(whole), WHOLE
    yield [end for _, end in records(whole)], [184, SECOND, THIRD]
    yield len(image_in(whole)) + 24, 94


def checkpoint():
    image = image_of(state_after(*FIRST_FILE))
    whole = area(image=image, generation=2)
    yield len(whole), 270 + NAMED
    yield whole[:24].hex(), "01504346530000010000000000000002" + (0xF5 + NAMED).to_bytes(8, "big").hex()
    yield (image[0], image[-4:].hex()), (2, "00000000")
    withdrawn = image_of(state_after(*FIRST_FILE, "withdraw 1 -"))
    yield len(withdrawn), len(image) + 4
    yield withdrawn[-8:].hex(), "00000001" "00000001"
    yield (image[9:17].hex(), withdrawn[9:17].hex()), ("0000000000000003", "0000000000000004")
    yield withdrawn[17:-8], image[17:-4]


def several_withdrawn():
    """The numbers rise, whatever the order of the withdrawals."""
    lines = [f"register - admin says p from 0 to {one}" for one in range(1, 6)]
    yield image_of(state_after(*lines, "withdraw 5 -", "withdraw 2 -", "withdraw 3 -"))[-16:].hex(), "00000003" "00000002" "00000003" "00000005"


# ---- areas that are cut, and that are changed --------------------------------------------------------------------------


def cut_wanted(size):
    if size == 0:
        return "nostore"
    if size < 94:
        return "damaged 0 1"
    for number, (begin, end) in enumerate([(94, 184), (184, SECOND), (SECOND, THIRD)], 1):
        if size == begin:
            return f"opens with {number - 1}"
        if size < end:
            return f"damaged {number} 2"
    return "opens with 3"


def cut_area():
    whole = area(*payloads_of(*FIRST_FILE))
    for size in range(len(whole) + 1):
        yield found(whole[:size]), cut_wanted(size)


def flipped(whole, place):
    return whole[:place] + bytes([whole[place] ^ 1]) + whole[place + 1 :]


def flipped_area():
    whole = area(*payloads_of(*FIRST_FILE))
    for place, wanted in (0, "nostore"), (183, "damaged 1 3"), (194, "damaged 2 4"), (245, "damaged 2 4"), (THIRD - 9, "damaged 3 5"), (THIRD - 1, "opens with 3"):
        yield found(flipped(whole, place)), wanted
    yield found(flipped(whole, 24)), "damaged 0 2"


def cut_withdrawal():
    """A store whose last record, the withdrawal, is cut at each byte."""
    whole = area(*payloads_of(*FIRST_FILE, "withdraw 1 -"))
    yield len(whole), WHOLE + 46
    for more in range(48):
        yield found(whole[: THIRD + more]), "opens with 3" if more == 0 else "damaged 4 2" if more < 46 else "opens with 4"
    for more, wanted in (0, "opens with 3"), (5, "damaged 4 2"), (9, "damaged 4 2"), (13, "damaged 4 2"), (14, "damaged 4 3"), (45, "damaged 4 3"):
        yield found(flipped(whole, THIRD + more)), wanted


# ---- damages -----------------------------------------------------------------------------------------------------------


def old_image():
    """An image without a version is read if grants may name statements; whatever begins with the version is of it."""
    yield found(area(image=FRESH_TODAY)), "opens with 0" if switches.names else "damaged 0 2"
    yield found(area(*payloads_of(*FIRST_FILE, "withdraw 1 -"), image=FRESH_TODAY)), "opens with 4" if switches.names else "damaged 0 2"
    yield found(area(image=FRESH_TODAY + bytes(4))), "damaged 0 2"
    yield found(area(image=FRESH_TODAY[:-1])), "damaged 0 2"
    yield found(area(image=b"\0" + FRESH_TODAY[1:])), "damaged 0 2"
    yield found(area(image=b"")), "damaged 0 2"
    yield found(area(image=b"\x02")), "damaged 0 2"
    yield found(area(image=b"\x03" + fresh()[1:])), "damaged 0 2"
    yield found(area(image=b"\x02" + FRESH_TODAY)), "damaged 0 2"
    yield found(area()), "opens with 0"


def records_of_withdrawals():
    one, two, three = payloads_of(*FIRST_FILE)
    other = payloads_of(f"register - {OTHER}")[0]
    registration = sign_statement(key_of(SECRETS_FILE, "admin"), STATEMENT)
    locs = sign_withdrawal(key_of(SECRETS_FILE, "loc"), STATEMENT)
    taken = withdrawal_bytes(1, SIGNED)
    for payloads, wanted in (
        ([one, two, three, taken], "opens with 4"),
        # no live statement comes before a signature: 0, none, not yet, withdrawn before
        ([one, two, three, withdrawal_bytes(0, SIGNED)], "damaged 4 2"),
        ([one, two, three, withdrawal_bytes(2, SIGNED)], "damaged 4 2"),
        ([one, two, three, withdrawal_bytes(2**32 - 1, b"")], "damaged 4 2"),
        ([taken, one, two, three], "damaged 1 2"),
        ([one, taken, taken], "damaged 3 2"),
        ([one, taken, withdrawal_bytes(1, b"")], "damaged 3 2"),
        # signatures: none, cut, longer, of the registration, of somebody else, over another statement
        ([one, withdrawal_bytes(1, b"")], "damaged 2 3"),
        ([one, withdrawal_bytes(1, SIGNED[:-1])], "damaged 2 3"),
        ([one, withdrawal_bytes(1, SIGNED + b"\0")], "damaged 2 3"),
        ([one, withdrawal_bytes(1, registration)], "damaged 2 3"),
        ([one, withdrawal_bytes(1, locs)], "damaged 2 3"),
        ([one, other, withdrawal_bytes(2, SIGNED)], "damaged 3 3"),
        # bytes that are no withdrawal
        ([one, taken[:-1]], "damaged 2 2"),
        ([one, taken + b"\0"], "damaged 2 2"),
        ([one, taken[:4]], "damaged 2 2"),
        ([one, b"\x05" + taken[1:]], "damaged 2 2"),
        # what rests on it afterwards
        ([one, taken, two], "damaged 3 4"),
        ([one, two, taken, three], "damaged 4 5"),
        ([one, taken, one], "damaged 3 7"),
    ):
        yield found(area(*payloads)), wanted


def order_of_causes():
    """A moment that falls counts before a denial; a proof that is wrong, or a number without a statement, is what a withdrawn one is."""
    one, two, three, late = payloads_of(*FIRST_FILE, "at 150", "do create #1 later @1")
    taken = withdrawal_bytes(1, SIGNED)
    yield found(area(one, two, late, taken, three)), "damaged 5 6"
    yield found(area(one, two, three, taken, late)), "damaged 5 5"
    yield found(area(one, two, three, taken, late[:-8] + (201).to_bytes(8, "big"))), "damaged 5 5"
    second = payloads_of(f"register - {STATEMENT}", f"register - {OTHER}", f"verify alice #1 write 2 {PROOF}")[2]
    other = payloads_of(f"register - {OTHER}")[0]
    by_second = payloads_of(f"register - {STATEMENT}", f"register - {OTHER}", f"verify alice #1 write 2 {PROOF}", "as alice", "do create #1 notes @1")[3]
    # the grant of the second issue is that of the first, unless each names its own statement
    still = "damaged 6 5" if switches.names else "opens with 6"
    yield found(area(one, other, two, second, taken, three)), still
    yield found(area(one, other, two, taken, second, three)), still
    yield found(area(one, other, two, second, taken, by_second)), "opens with 6"
    yield found(area(one, other, two, taken, second, by_second)), "opens with 6"
    locs = withdrawal_bytes(2, sign_withdrawal(key_of(SECRETS_FILE, "loc"), OTHER))
    yield found(area(one, other, two, taken, locs, three)), "damaged 6 5"
    yield found(area(one, other, two, second, taken, locs, three)), "damaged 7 5"


def numbers_in_images():
    lines = [*FIRST_FILE, f"register - {OTHER}", "register - hr says p from 0 to 1"]
    state = state_after(*lines)
    for numbers, wanted in (
        ([], "opens with 5"), ([1], "opens with 5"), ([3], "opens with 5"), ([1, 2, 3], "opens with 5"), ([1, 3], "opens with 5"),
        ([0], "damaged 0 2"), ([4], "damaged 0 2"), ([1, 4], "damaged 0 2"), ([1, 1], "damaged 0 2"), ([2, 1], "damaged 0 2"),
        ([1, 3, 2], "damaged 0 2"), ([1, 2, 3, 4], "damaged 0 2"), ([2**32 - 1], "damaged 0 2"), ([0, 1], "damaged 0 2"),
    ):
        yield found(area(image=image_of(state, numbers), generation=2)), wanted
    whole = image_of(state, [1, 3])
    for size in range(len(whole)):
        yield found(area(image=whole[:size], generation=2)), "damaged 0 2"
    yield found(area(image=whole + b"\0", generation=2)), "damaged 0 2"
    yield found(area(image=whole[:-12] + b"\0\0\0\3" + whole[-8:], generation=2)), "damaged 0 2"
    yield found(area(image=whole[:-12] + b"\0\0\0\1" + whole[-8:], generation=2)), "damaged 0 2"


def other_damage_of_images():
    """Numbers come before signatures, signatures before proofs, these before statements that stand twice."""
    lines = [*FIRST_FILE, f"register - {OTHER}"]

    def changed(numbers, signature=False, granting=False, twice=False):
        state = state_after(*lines)
        if twice:
            state.registrations.append(state.registrations[0])
        if signature:
            state.registrations[1] = state.registrations[1]._replace(signature=b"")
        if granting:
            state.grantings[0] = state.grantings[0]._replace(numbers=[1, 9])
        return found(area(image=image_of(state, numbers), generation=2))

    yield changed([2, 1], True, True, True), "damaged 0 2"
    yield changed([1, 2], True, True, True), "damaged 0 3"
    yield changed([1, 2], False, True, True), "damaged 0 4"
    yield changed([1, 2, 3], False, False, True), "damaged 0 7"
    yield changed([1, 2]), "opens with 4"


def over_images():
    """An issue of an image may cite what was withdrawn since; later records may not, and its grant is gone."""
    one, two, three = payloads_of(*FIRST_FILE)
    image = image_of(state_after(*FIRST_FILE, "withdraw 1 -"))
    acted = payloads_of(*FIRST_FILE, "do create #1 x @1")[3]
    yield found(area(image=image, generation=2)), "opens with 4"
    yield found(area(two, image=image, generation=2)), "damaged 1 4"
    yield found(area(acted, image=image, generation=2)), "damaged 1 5"
    yield found(area(one, image=image, generation=2)), "damaged 1 7"
    yield found(area(withdrawal_bytes(1, SIGNED), image=image, generation=2)), "damaged 1 2"
    before = image_of(state_after(*FIRST_FILE))
    yield found(area(withdrawal_bytes(1, SIGNED), image=before, generation=2)), "opens with 4"
    yield found(area(withdrawal_bytes(1, SIGNED), acted, image=before, generation=2)), "damaged 2 5"
    yield found(area(acted, withdrawal_bytes(1, SIGNED), image=before, generation=2)), "opens with 5"


# ---- reports, and what comes between two turns -------------------------------------------------------------------------


def report(*payloads):
    events, auditor = [read_event(payload) for payload in payloads], Auditor(SECRETS)
    for event in events:
        if not auditor.go_on(event):
            break
    return [first_line(events, auditor.rows), *auditor.rows]


def reports():
    one, two, three = payloads_of(*FIRST_FILE)
    taken, locs = withdrawal_bytes(1, SIGNED), sign_withdrawal(key_of(SECRETS_FILE, "loc"), STATEMENT)
    forged = payloads_of(*FIRST_FILE, f"do create #1 x {FORGED}")[3]
    begin = "events {} statements 1 issues 1 unissued {}".format
    for payloads, wanted in (
        ([one, two, three, taken], [begin(4, 0)]),
        ([one, two, three, taken, forged], [begin(5, 1), "unissued 5"]),
        ([one, two, three, withdrawal_bytes(2, SIGNED)], [begin(4, 0), "unsigned 4"]),
        ([one, two, three, withdrawal_bytes(1, locs)], [begin(4, 0), "unsigned 4"]),
        ([one, two, three, taken, taken, forged], [begin(6, 0), "unsigned 5"]),
        ([taken, one, two, three], [begin(4, 0), "unsigned 1"]),
        ([one, taken, two, three], [begin(4, 0), "unproved 3"]),
        ([one, two, taken, three], [begin(4, 0), "notadmitted 4"]),
        ([one, two, forged, taken, three], [begin(5, 1), "unissued 3", "notadmitted 5"]),
        # a grant that was not issued yet is not gone: it is unissued
        ([one, three, taken], ["events 3 statements 1 issues 0 unissued 1", "unissued 2"]),
        ([one, two, three, taken, one], ["events 5 statements 2 issues 1 unissued 0", "unsigned 5"]),
    ):
        yield report(*payloads), wanted
    late = payloads_of(*FIRST_FILE, "at 150", "do create #1 later @1")[3]
    yield report(one, two, late, taken, three), [begin(5, 0), "momentfalls 5"]


def held_proof():
    """While a proof is looked at another withdraws what it cites: its issue is refused by the first number that is not live."""
    server = Server(SECRETS)
    for line in (f"register - {STATEMENT}", f"register - {OTHER}", "register - hr says p from 0 to 1"):
        server.answer(line)
    statements = server.cite([1, 2, 3])
    grant = grant_of(statements, "alice", 1, "write", ProofText("saysR(claim(1,init(3)))").whole())
    yield server.answer("withdraw 3 -"), "ok"
    yield told(server, [1, 2, 3], statements, grant), "absent 3"
    yield server.answer("withdraw 2 -"), "ok"
    yield told(server, [1, 2, 3], statements, grant), "absent 2"
    yield (len(server.issues), server.count), (0, 5)
    yield told(server, [1], statements[:1], grant), "ok issue 1 time 2 state 0"
    yield grant_bytes(server.issues[0]), grant_bytes(grant._replace(cited=(1,)) if switches.names else grant)


def told(server, numbers, statements, grant):
    try:
        return server.issue(numbers, statements, grant)
    except Reply as reply:
        return str(reply)


# ---- places of replies in a history ------------------------------------------------------------------------------------


NAMES = ("alice", "bob")
BOBS = f"verify bob #1 write 1 {PROOF}"


def spoken(name, *told):
    """What somebody said and was told in a session: each line with its reply, and when it was said and told."""
    log = Spoken(bytes(16))
    for line, reply, said, heard in ((login(name, bytes(16)), "ok", 0, 0), *told):
        log.lines.append((line.encode(), said, said))
        log.replies.append((reply.encode(), heard, heard))
    log.end = "left"
    return log


def placed(*told):
    """How many replies have no place where bob was told these, while alice registers a statement, withdraws it and registers another:
    her three events are said and told at 10 and 20, 30 and 40, 50 and 60."""
    lines = [registration("admin says may(bob,#1,write) from 0 to 200"), withdrawal(1, "admin says may(bob,#1,write) from 0 to 200"), registration("admin says p from 0 to 1")]
    recorder = Recorder(secrets_of(NAMES))
    replies = [recorder.answer(line) for line in lines]
    placing = Placing([area(*recorder.events)], secrets_of(NAMES))
    placing.add(spoken("alice", *[(line, reply, 20 * place + 10, 20 * place + 20) for place, (line, reply) in enumerate(zip(lines, replies))]))
    placing.add(spoken("bob", *told))
    placing.check()
    return placing.counts["faults"]


def places_of_replies():
    somebody = withdrawal(1, "admin says may(bob,#1,write) from 0 to 200", who="bob")
    for line, reply, said, heard, faults in (
        # absent: before it is registered, and once it is withdrawn; live in between
        (BOBS, "absent 1", 1, 2, 0), (BOBS, "absent 1", 1, 15, 0), (BOBS, "absent 1", 21, 29, 1), (BOBS, "absent 1", 21, 31, 0),
        (BOBS, "absent 1", 35, 36, 0), (BOBS, "absent 1", 41, 42, 0), (BOBS, "absent 2", 41, 42, 1), (BOBS.replace(" 1 ", " 1,2 "), "absent 1", 41, 42, 0),
        (BOBS.replace(" 1 ", " 1,2 "), "absent 2", 21, 29, 0), (BOBS.replace(" 1 ", " 1,2 "), "absent 2", 41, 42, 1),
        (BOBS.replace(" 1 ", " 0,1 "), "absent 0", 41, 42, 0), (BOBS.replace("saysR", "atR"), "unproved 2 0", 21, 29, 0),
        # its fault is told where it is live
        (BOBS.replace("saysR", "atR"), "unproved 2 0", 1, 9, 1), (BOBS.replace("saysR", "atR"), "unproved 2 0", 41, 42, 1),
        (BOBS.replace("saysR", "atR"), "absent 1", 41, 42, 0), (BOBS, "ok issue 1 time 2 state 0", 21, 29, 1),
        # withdrawals: of nothing, under another signature, twice
        (somebody, "rejected 1", 21, 29, 0), (somebody, "rejected 1", 1, 9, 1), (somebody, "rejected 1", 41, 42, 1), (somebody, "absent 1", 41, 42, 0),
        (somebody, "absent 1", 21, 29, 1), (somebody, "absent 1", 1, 9, 0), (somebody, "ok", 21, 29, 1), ("withdraw 1 -", "rejected 1", 21, 29, 0),
        ("withdraw 1 -", "absent 1", 41, 42, 0), ("withdraw 0 -", "absent 0", 41, 42, 0), ("withdraw 9 00", "absent 9", 41, 42, 0),
        ("withdraw 9 00", "rejected 1", 41, 42, 1), ("withdraw 4294967296 00", "bad 1 9", 41, 42, 0), ("withdraw 4294967296 00", "absent 4294967296", 41, 42, 1),
        # the same statement again
        (registration("admin says may(bob,#1,write) from 0 to 200"), "rejected 3 1", 41, 42, 0),
        (registration("admin says may(bob,#1,write) from 0 to 200"), "ok statement 3", 41, 42, 1),
    ):
        yield (line[:40], said, placed((line, reply, said, heard))), (line[:40], said, faults)
    # one after another: before it is there, and behind that it cannot be absent until it is withdrawn
    yield placed((BOBS, "absent 1", 1, 2), (BOBS, "absent 1", 21, 45), (BOBS, "absent 1", 46, 47)), 0
    yield placed((BOBS, "absent 1", 1, 2), (BOBS.replace("saysR", "atR"), "unproved 2 0", 3, 45), (BOBS, "absent 1", 46, 47)), 0
    yield placed((BOBS, "absent 1", 21, 45), (BOBS.replace("saysR", "atR"), "unproved 2 0", 46, 47)), 1
    yield placed((BOBS, "absent 1", 21, 45), (BOBS.replace("saysR", "atR"), "unproved 2 0", 35, 47)), 1


GROUPS = [
    new_store, messages, first_file, checkpoint, several_withdrawn, cut_area, flipped_area, cut_withdrawal, old_image, records_of_withdrawals,
    order_of_causes, numbers_in_images, other_damage_of_images, over_images, reports, held_proof, places_of_replies,
]


def main():
    global store
    agrees, folder = True, tempfile.TemporaryDirectory()
    if sys.argv[1:]:
        store = Store(os.path.realpath(sys.argv[1]), f"{folder.name}/store", SECRETS)
    for group in GROUPS:
        pairs = list(group())
        differ = [(place, mine, wanted) for place, (mine, wanted) in enumerate(pairs) if mine != wanted]
        name = group.__name__.replace("_", " ")
        print(f"differs: {name}, {len(differ)} of {len(pairs)}" if differ else f"agrees in {len(pairs)}: {name}")
        for place, mine, wanted in differ[:3]:
            print(f"  number {place}, from 0: {str(mine)[:200]}\n  and wanted is: {str(wanted)[:200]}")
        agrees &= not differ
    folder.cleanup()
    return 0 if agrees else 1


if __name__ == "__main__":
    sys.exit(main())
