#!/usr/bin/env python3
"""Compares what pcfs-history writes of random stores with what the plain model says, and times it.

    history.py PROGRAM random FIRST LAST     histories drawn from these seeds, each in one to four areas, with grants and images of version 1
                                             and 2: rows, filters, who may, what rests on a statement, chains
    history.py PROGRAM wrong                 wrong words, files and areas, and areas that do not go on from the one before
    history.py PROGRAM speed [EVENTS]        who read node 7 between two dates, among so many events, 100,000 by default: at most two seconds of a processor

PROGRAM is the built program. It ends with status 1 if anything differs, and prints what. Nothing is read but the files of
this repository.
"""
import json
import random
import resource
import subprocess
import sys
import tempfile
from collections import Counter
from datetime import datetime, timedelta
from pathlib import Path

HERE = Path(__file__).resolve().parent
sys.path[:0] = [str(HERE / "model"), str(HERE / "hostile"), str(HERE.parent / "client")]
import pcfs_model as model
import switches
from areas import fresh
from damage import area_of
from history import Acted, History, Issued, Registered, Withdrawn
from images import VERSION, image_of, state_of
from pcfs_audit_model import Recorder, proof_bytes
from pcfs_formats import short
from pcfs_model import DRAWN_SECRETS, OPERATIONS, PERMISSIONS, drawn, grant_bytes

SPEED_LIMIT = 2.0


# ---- stores --------------------------------------------------------------------------------------------------------


def record(payload):
    return b"\x01" + len(payload).to_bytes(4, "big") + payload


def payloads_of(seed, count, named_from=0):
    """The events of lines that are drawn. Before that line grants name no statements, as those of version 1."""
    recorder = Recorder(DRAWN_SECRETS)
    names = switches.names
    switches.names = names and named_from == 0
    for place, line in enumerate(drawn(seed).lines(count), 1):
        recorder.answer(line)
        switches.names = names and named_from <= place
    switches.names = names
    return recorder.events


def image_of_either(history, draw):
    """The image of a state; of one without withdrawn statements maybe that of version 1."""
    image = image_of(history)
    if draw is None or history.withdrawn or draw.random() < 0.5:
        return image
    return image[len(VERSION) : -4]


def cut(payloads, ends, draw=None):
    """Areas of these events, the first of which ends after so many events, and so on."""
    history, image, begin = History(DRAWN_SECRETS), fresh(), 0
    areas = []
    for generation, end in enumerate([*ends, len(payloads)], 1):
        areas.append((image, payloads[begin:end], area_of(generation, image, b"".join(map(record, payloads[begin:end])))))
        for payload in payloads[begin:end]:
            cause, _ = history.add(history.reader.event(payload))
            assert cause is None
        image, begin = image_of_either(history, draw), end
    return areas


def put(folder, areas, draw):
    """Puts each area into a folder or a file of its own, and returns their paths."""
    paths = []
    for place, (_, _, area) in enumerate(areas):
        inner = Path(folder) / f"{place}"
        inner.mkdir()
        (inner / "pcfs.secrets").write_text(DRAWN_SECRETS)
        name = draw.choice(["pcfs.a", "pcfs.b"])
        (inner / name).write_bytes(area)
        if draw.random() < 0.5:
            (inner / ("pcfs.b" if name == "pcfs.a" else "pcfs.a")).write_bytes(draw.choice([b"", b"\0" + area[1:]]))
            paths.append(str(inner))
        else:
            paths.append(str(draw.choice([inner, inner / name])))
    return paths


# ---- the table, by the model ---------------------------------------------------------------------------------------


def date_of(second):
    return (datetime(1970, 1, 1) + timedelta(seconds=second)).isoformat() + "Z"


def path_of(state, number):
    names = []
    while number != 1:
        node = state.nodes[number]
        names.insert(0, node.name)
        number = node.parent
    return "/" + "/".join(names)


def cited_object(state, number):
    """The statement of a number; the number alone, if a grant names it and no statement has it."""
    if not 1 <= number <= len(state.statements):
        return {"number": number}
    return {"number": number, "signer": state.statements[number - 1].who, "statement": state.statements[number - 1]}


def ground(state, number, event):
    return {"issue": number, "proof": event.proof_bytes, "statements": [cited_object(state, one) for one in event.numbers]}


def standing_issue(state, grant):
    """The last issue of a grant that cites no withdrawn statement."""
    data = grant_bytes(grant)
    for number in range(len(state.grantings), 0, -1):
        event = state.grantings[number - 1]
        if grant_bytes(event.grant) == data and not set(event.numbers) & state.withdrawn:
            return number
    return None


def use_of(state, procap, file, perm):
    use = {"permission": perm, "file": file, "path": path_of(state, file)}
    number = standing_issue(state, procap.grant)
    cited = procap.grant.cited
    if number is not None:
        event = state.grantings[number - 1]
        use.update(issue=number, proof=event.proof_bytes)
        cited = cited or event.numbers
    use["statements"] = [cited_object(state, one) for one in cited]
    return use


def word_text(kind, word):
    if kind is model.node:
        return f"#{word}"
    return f'"{word}"' if kind is model.value else str(word)


def what_of(state, event):
    if event.operation == "write":
        return f"do write #{event.words[0]} {event.words[1]} bytes {len(event.words[2])}"
    words = [word_text(kind, word) for kind, word in zip(OPERATIONS[event.operation][0], event.words)]
    return " ".join(["do", event.operation, *words])


def row_of(state, event):
    """The row of an event over the state before it."""
    row = {"event": state.count + 1, "kind": type(event).__name__.lower(), "second": state.moment}
    if isinstance(event, Registered):
        number = len(state.statements) + 1
        one = {"number": number, "signer": event.statement.who, "statement": event.statement}
        row.update(who=event.statement.who, what=("register", number, event.statement), statements=[one])
    elif isinstance(event, Withdrawn):
        one = cited_object(state, event.number)
        row.update(who=one["signer"], what=("withdraw", event.number, one["statement"]), statements=[one])
    elif isinstance(event, Issued):
        row.update(who=event.grant.who, what=f"verify #{event.grant.file} {event.grant.perm}", node=event.grant.file)
        row.update(ground(state, len(state.grantings) + 1, event))
    else:
        state.caller = event.caller
        needs = state.needs(event.operation, *event.words)
        row.update(second=event.moment, who=event.caller, what=what_of(state, event))
        row["uses"] = [use_of(state, event.procaps[place - 1], file, perm) for place, file, perm in needs]
        if event.operation in ("create", "mkdir"):
            row["node"] = state.next
            row["what"] += f" node #{state.next}"
    row["date"] = date_of(row["second"])
    return row


def table(areas):
    """The rows of areas, and the state after the last."""
    rows, state = [], None
    for image, payloads, _ in areas:
        _, state = state_of(image, DRAWN_SECRETS)
        for payload in payloads:
            event = state.reader.event(payload)
            rows.append(row_of(state, event))
            cause, _ = state.add(event)
            assert cause is None
    return rows, state


def is_admitted(row, wanted):
    files = [use["file"] for use in row.get("uses", [])] + [row.get("node")]
    return (
        wanted.get("file") in (None, *files)
        and wanted.get("who") in (None, row["who"])
        and wanted.get("from", row["second"]) <= row["second"] <= wanted.get("to", row["second"])
    )


def who_may(state, file, perm, clock):
    numbers = []
    for number, event in enumerate(state.grantings, 1):
        state.caller = event.grant.who
        grant, tag = state.issued(number)
        if not set(event.numbers) & state.withdrawn and state.denial(grant, tag, file, perm, max(clock, state.moment)) is None:
            numbers.append((event.grant.who, number))
    return numbers


def resting_on(state, statement):
    """Of each issue that cites the statement whose procap it is, for what, and by which withdrawn statement it is gone."""
    for number, event in enumerate(state.grantings, 1):
        if statement in event.numbers:
            gone = state.gone(event.grant)
            standing = {"stands": True} if gone is None else {"stands": False, "withdrawn": gone}
            grant = event.grant
            yield {"who": grant.who, "permission": grant.perm, "file": grant.file, **standing, **ground(state, number, event)}


# ---- what the program writes ---------------------------------------------------------------------------------------


def is_same(found, wanted):
    """Whether what was read of JSON is what the model says; a statement and a proof are compared by their bytes."""
    if isinstance(wanted, dict):
        return isinstance(found, dict) and found.keys() == wanted.keys() and all(is_same(found[key], wanted[key]) for key in wanted)
    if isinstance(wanted, list):
        return len(found) == len(wanted) and all(map(is_same, found, wanted))
    if isinstance(wanted, model.Statement):
        return model.statement_of(found).bytes == wanted.bytes
    if isinstance(wanted, bytes):
        return proof_bytes(model.ProofText(found).whole()) == wanted
    if isinstance(wanted, tuple):
        word, number, statement = wanted
        front = f"{word} {number} "
        return found.startswith(front) and is_same(found[len(front) :], statement)
    return found == wanted


def ground_lines(one, front):
    """The line of an issue, or that there is none, and those of the statements."""
    yield f"{front}issue {one['issue']} {one['proof']}" if "issue" in one else f"{front}unissued"
    for cited in one["statements"]:
        yield f"    {cited['number']} {cited['statement']}" if "statement" in cited else f"    {cited['number']}"


def lines_of(row):
    """The lines for people of a row that was read of JSON."""

    at = "at" if row["kind"] == "acted" else "since"
    yield f"{row['event']} {at} {row['date']} {row['who']} {row['what']}"
    if "issue" in row:
        yield from ground_lines(row, "  ")
    for use in row.get("uses", []):
        yield from ground_lines(use, f"  {use['permission']} #{use['file']} {use['path']} ")


def resting_lines(one):
    """The lines for people of an issue that rests on a statement."""
    standing = "stands" if one["stands"] else f"withdrawn {one['withdrawn']}"
    yield from ground_lines(one, f"{one['who']} {one['permission']} #{one['file']} {standing} ")


def run(program, *words):
    done = subprocess.run([program, *map(str, words)], capture_output=True, text=True, timeout=120)
    return done.returncode, done.stdout, done.stderr


def compare(name, program, paths, rows, options, wanted):
    """Compares the rows that a filter lets through; returns the number of differences."""
    status, output, remarks = run(program, *paths, *options, "--json")
    found = [json.loads(line) for line in output.splitlines()]
    asked = [row for row in rows if is_admitted(row, wanted)]
    if status or remarks or len(found) != len(asked):
        print(f"{name} {options}: status {status}, {len(found)} rows, wanted {len(asked)}: {remarks}")
        return 1
    for one, row in zip(found, asked):
        if not is_same(one, row):
            print(f"{name} {options}:\n  {one}\n  wanted {row}")
            return 1
    status, output, remarks = run(program, *paths, *options)
    if status or remarks or output.splitlines() != [line for row in found for line in lines_of(row)]:
        print(f"{name} {options}: the lines are not those of the objects: status {status} {remarks}")
        return 1
    return 0


def compare_who_may(name, program, paths, state, file, perm, clock):
    words = [*paths, "--who-may", f"#{file}", perm, "--at", clock]
    status, output, remarks = run(program, *words, "--json")
    found = [(one["who"], one["issue"]) for one in map(json.loads, output.splitlines())]
    if status or remarks or found != who_may(state, file, perm, clock):
        print(f"{name} {words}: status {status} {remarks}: {found}, wanted {who_may(state, file, perm, clock)}")
        return 1
    return 0


def compare_resting(name, program, paths, state, statement):
    words = [*paths, "--rests-on", statement]
    status, output, remarks = run(program, *words, "--json")
    found = [json.loads(line) for line in output.splitlines()]
    wanted = list(resting_on(state, statement))
    if not 1 <= statement <= len(state.statements):
        refused = f"pcfs-history: no statement has the number {statement} of --rests-on: there are {len(state.statements)}\n"
        is_right = (status, output, remarks) == (3, "", refused)
    else:
        is_right = status == 0 and not remarks and is_same(found, wanted)
        status, output, remarks = run(program, *words)
        is_right = is_right and status == 0 and output.splitlines() == [line for one in found for line in resting_lines(one)]
    if not is_right:
        print(f"{name} {words}: status {status} {remarks}: {found}, wanted {wanted}")
    return not is_right


def options_of(draw, rows):
    """A filter, as words and as what is wanted."""
    words, wanted = [], {}
    seconds = sorted(row["second"] for row in rows)
    if draw.random() < 0.6:
        wanted["file"] = draw.randint(1, 12)
        words += ["--file", f"#{wanted['file']}"]
    if draw.random() < 0.4:
        wanted["who"] = draw.choice(["alice", "bob", "admin", "hr", "nobody"])
        words += ["--who", wanted["who"]]
    for end in ("from", "to"):
        if draw.random() < 0.4:
            wanted[end] = draw.choice(seconds) + draw.choice([-1, 0, 1])
            if wanted[end] < model.FIRST:
                del wanted[end]
                continue
            words += [f"--{end}", draw.choice([wanted[end], date_of(wanted[end])]) if wanted[end] >= 0 else date_of(wanted[end])]
    return words, wanted


def try_seed(program, seed):
    draw = random.Random(seed)
    count = draw.choice([20, 100, 300])
    payloads = payloads_of(seed, count, draw.choice([0, 0, count // 2, count]))
    ends = sorted(draw.randint(0, len(payloads)) for _ in range(draw.choice([0, 0, 1, 3])))
    areas = cut(payloads, ends, draw)
    rows, state = table(areas)
    bad = 0
    with tempfile.TemporaryDirectory() as folder:
        paths = put(folder, areas, draw)
        bad += compare(f"seed {seed}", program, paths, rows, [], {})
        for _ in range(3):
            bad += compare(f"seed {seed}", program, paths, rows, *options_of(draw, rows))
            file, perm = draw.randint(1, 8), draw.choice(PERMISSIONS)
            bad += compare_who_may(f"seed {seed}", program, paths, state, file, perm, draw.choice([0, 100, 250, 301]))
            bad += compare_resting(f"seed {seed}", program, paths, state, draw.randint(0, len(state.statements) + 1))
    return bad, len(rows)


def draw_stores(program, first, last):
    count = Counter()
    for seed in range(first, last):
        bad, rows = try_seed(program, seed)
        count.update(stores=1, bad=bad, rows=rows)
    return count


# ---- what is wrong -------------------------------------------------------------------------------------------------


def wrong_cases(folder):
    """Words, the status, and what stands on the standard error."""
    payloads = payloads_of(1, 60)
    areas = cut(payloads, [50, 100])
    for place, (_, _, area) in enumerate(areas):
        inner = folder / f"{place}"
        inner.mkdir()
        (inner / "pcfs.secrets").write_text(DRAWN_SECRETS)
        (inner / "pcfs.a").write_bytes(area)
    first, second, third = (str(folder / name) for name in "012")
    yield [], 3, "wanted an area: a folder, or a file"
    yield [first, "--file", "7"], 3, "wanted a node after --file, as #1"
    yield [first, "--from"], 3, "wanted a second or a date after --from, --to and --at"
    yield [first, "--who-may", "#1"], 3, "wanted read, write, execute, identity or govern after the node of --who-may"
    yield [first, "--rests-on", "x"], 3, "wanted the number of a statement after --rests-on"
    yield [first, "--none"], 3, "--none: wanted an option of --help"
    yield [first, second, third], 0, ""
    yield [first, third], 1, f"{third}: it begins after event 100, the area before it ends with event 50: events are missing"
    yield [second, first], 1, f"{first}: it begins after event 0, the area before it ends with event 100: it does not go on from there"
    yield [str(folder / "none")], 4, f"{folder / 'none'}: cannot be read"
    empty = folder / "empty"
    empty.mkdir()
    yield [str(empty)], 2, f"{empty}: no open area is there"
    other = folder / "other"
    other.mkdir()
    (other / "pcfs.secrets").write_text(DRAWN_SECRETS)
    (other / "pcfs.a").write_bytes(cut(payloads_of(2, 60)[:50], [])[0][2])
    yield [str(other), second], 1, f"{second}: it begins after event 50, the area before it ends with event 50, with another state"
    (other / "pcfs.secrets").write_text("seal\n")
    yield [str(other)], 5, f"{other}/pcfs.secrets: line 1 is bad"
    yield [str(other), "--secrets", f"{first}/pcfs.secrets"], 0, ""
    yield [f"{other}/pcfs.a", "--secrets", f"{first}/pcfs.secrets"], 0, ""
    area = bytearray(areas[0][2])
    area[-2] ^= 1
    (other / "pcfs.a").write_bytes(area)
    (other / "pcfs.secrets").write_text(DRAWN_SECRETS)
    yield [str(other)], 2, f"{other}: record 50 is damaged"
    (other / "pcfs.fault").write_text("")
    yield [str(other)], 4, f"{other}/pcfs.fault: a sync of the store failed; the remedy is: pcfs checkpoint"


def try_wrong(program):
    count = Counter()
    with tempfile.TemporaryDirectory() as folder:
        for words, status, wanted in wrong_cases(Path(folder)):
            found, _, remarks = run(program, *words)
            count["tried"] += 1
            if found != status or not remarks.removeprefix("pcfs-history: ").startswith(wanted) or (not wanted and remarks):
                count["bad"] += 1
                print(f"{words}: status {found}, {remarks}wanted {status} {wanted}")
    for word, front in ("--help", "pcfs-history AREA"), ("--version", "pcfs-history 0.1\n"):
        status, output, _ = run(program, word)
        count.update(tried=1, bad=status != 0 or not output.startswith(front))
    return count


# ---- speed ---------------------------------------------------------------------------------------------------------


def large_store(events):
    """A store of so many events: 8 users read 16 files under 256 issues."""
    recorder = Recorder(model.LOAD_SECRETS)
    answer = recorder.answer
    answer("at 1000")
    answer("register - admin says forall F:file. forall K:principal. may(K,F,read) from 0 to +inf")
    answer("register - admin says may(admin,#1,write) from 0 to +inf")
    answer("verify admin #1 write 2 saysR(claim(0,init(1)))")
    for place in range(16):
        answer(f"do create #1 f{place} @1")
    for place in range(256):
        answer(f"verify u{place % 8} #{2 + place % 16} read 1 saysR(claim(0,forallL(1,#{2 + place % 16},forallL(2,u{place % 8},init(3)))))")
    payloads = list(recorder.events)
    for place in range(events - len(payloads)):
        number = place % 256
        grant, tag = recorder.issued(number + 2)
        moment = 1001 + place
        front = b"\x03" + short(f"u{number % 8}") + b"\x01" + (2 + number % 16).to_bytes(8, "big") + bytes(8) + (16).to_bytes(8, "big")
        payloads.append(front + b"\x01" + grant_bytes(grant) + tag + moment.to_bytes(8, "big", signed=True))
    return area_of(1, fresh(), b"".join(map(record, payloads)))


def processor_seconds():
    """What the programs that were run took of a processor: it does not grow if others run beside them."""
    used = resource.getrusage(resource.RUSAGE_CHILDREN)
    return used.ru_utime + used.ru_stime


def try_speed(program, events):
    with tempfile.TemporaryDirectory() as folder:
        (Path(folder) / "pcfs.secrets").write_text(model.LOAD_SECRETS)
        (Path(folder) / "pcfs.a").write_bytes(large_store(events))
        count = Counter()
        for options in ["--file", "#7", "--from", date_of(2000), "--to", date_of(12000)], ["--json"]:
            begin = processor_seconds()
            status, output, _ = run(program, folder, *options)
            took = processor_seconds() - begin
            count.update(tried=1, bad=status != 0 or (took > SPEED_LIMIT and options != ["--json"]))
            print(f"{' '.join(options)}: {len(output.splitlines())} lines of {events} events in {took:.2f} s of a processor")
    return count


def main():
    sys.setrecursionlimit(20_000)
    match sys.argv[1:]:
        case [program, "random", first, last]:
            count = draw_stores(program, int(first), int(last))
        case [program, "wrong"]:
            count = try_wrong(program)
        case [program, "speed", *events] if len(events) <= 1:
            count = try_speed(program, int(events[0]) if events else 100_000)
        case _:
            sys.exit(__doc__)
    print(" ".join(f"{word} {number}" for word, number in count.items()))
    sys.exit(1 if count["bad"] else 0)


if __name__ == "__main__":
    main()
