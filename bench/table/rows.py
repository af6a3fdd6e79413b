"""Prints the table of aims from what the benchmarks printed.
usage: rows.py FOLDER, which has the output of each as NAME.log"""
import re
import sys
from pathlib import Path

folder = Path(sys.argv[1])
NUMBER = r"([-+\d.,]*\d)"


class Missing(Exception):
    """A benchmark did not print a line that is looked for."""


def numbers(name, pattern, after=""):
    """The numbers for each # of the pattern in the first line of this benchmark that has it, and stands after another, if one is named."""
    path = folder / f"{name}.log"
    text = path.read_text() if path.exists() else ""
    begin = text.find(after)
    parts = (re.escape(part) for part in pattern.split("#"))
    found = re.search(NUMBER.join(parts), text[begin:]) if begin >= 0 else None
    if not found:
        raise Missing(f"{name} printed no line '{pattern}'")
    return [float(number.replace(",", "")) for number in found.groups()]


def at_most(figure, limit):
    return "met" if figure <= limit else "MISSED"


def at_least(figure, limit):
    return "met" if figure >= limit else "MISSED"


def beside_tags():
    tag, figure = numbers("script", "beside its tags of # us: # us a line")
    theirs = numbers("script", "SQLite from Python: # lines a second, # us")[1]
    return f"{figure:.2f} us, beside tags of {tag:.2f} us", f"SQLite from Python {theirs:.1f} us", at_most(figure, 3)


def denied():
    (figure,) = numbers("script", "denied after its first tag takes #")
    return f"{figure:.2f} us", "none", at_most(figure, 1.5)


def copied():
    one = numbers("copies", "1 connections: # bytes a step, # copied and # zeroed")
    many = numbers("copies", "64 connections: # bytes a step")[0]
    return f"{one[0]:,.0f} bytes ({one[2]:,.0f} of them zeroed); with 64 connections {many:,.0f}", "none", at_most(max(one[0], many), 8192)


def rate(count, name):
    return numbers("serve", f"memory, {count} connections, {name}: # steps a second, median # us, 99th percentile # us")


def beside_one():
    (share,) = numbers("serve", "64 connections do # times the steps of one")
    return f"{share:.2f} of one: {rate(64, 'pcfs')[0]:,.0f} and {rate(1, 'pcfs')[0]:,.0f}", redis_share(), at_least(share, 2.5)


def redis_share():
    try:
        one, many = rate(1, "redis-server")[0], rate(64, "redis-server")[0]
    except Missing:
        return "redis-server was not there"
    return f"redis-server {many / one:.2f} of one: {many:,.0f} and {one:,.0f}"


def beside_redis():
    (share,) = numbers("serve", "memory, 64 connections: # of the steps of redis-server")
    return f"{share:.2f}", f"redis-server {rate(64, 'redis-server')[0]:,.0f} steps a second", at_least(share, 0.8)


def late():
    figure = rate(64, "pcfs")[2]
    try:
        theirs = f"redis-server {rate(64, 'redis-server')[2] / 1000:.2f} ms"
    except Missing:
        theirs = "redis-server was not there"
    return f"{figure / 1000:.2f} ms", theirs, at_most(figure, 2000)


def slowed():
    proof, _, share, _ = numbers("serve", "memory: 8 connections beside proofs of # ms: # steps a second, # of # (aim")
    (control,) = numbers("serve", "a second, #\n", "memory: 8 connections beside a process that only computes")
    return f"{share:.2f}, proofs of {proof:.1f} ms", f"beside a process that only computes {control:.2f}", at_least(share, 0.9)


def memory_of(what, limit):
    taken, area, off = numbers("memory", f"{what}: # bytes of memory, # of the area; of 5 sizes", what)[:2] + numbers("memory", "off the line, # %", f"{what}: ")
    return f"{taken:,.0f} bytes, of five sizes the farthest {off:.1f} % off the line", f"{area:,.0f} of the area", at_most(taken, limit)


def opened():
    size, seconds = numbers("stored", "opening of 100000 events, # bytes: # s")
    return f"{seconds:.3f} s, {100000 / seconds:,.0f} events a second", f"an area of {size / 1e6:.1f} MB", at_most(seconds, 0.25)


def opened_memory():
    most, share = numbers("stored", "events a second; # MB at most, # times the area")
    return f"{share:.1f} times the area, {most:.1f} MB", "the area", at_most(share, 4)


def checkpoint(what):
    made, _, _, copied_in, share = numbers("checkpoint", "checkpoint: # ms, # of a processor, # MB a second; cp and sync # ms, so # times", f"{what}: ")
    into = numbers("checkpoint", "VACUUM INTO of # bytes, and a sync: # ms", f"{what}: ")[1]
    return f"{share:.2f} times, {made:.0f} ms", f"cp and sync {copied_in:.0f} ms, VACUUM INTO {into:.0f} ms", at_most(share, 1.5)


def checkpoint_memory(what):
    share = numbers("checkpoint", "MiB before, so # of the image more", f"{what}: ")[0]
    return f"{share:.2f} images", "the image", at_most(share, 0.1)


def audited(after):
    seconds, _, share = numbers("audit", "in 4 pieces: # s, # events a second, # times as fast", after)
    one = numbers("audit", "in 1 pieces: # s", after)[0]
    return f"{share:.2f} of one", f"in one piece {one:.2f} s, in four {seconds:.2f} s", at_least(share, 2.5)


def stored():
    share, other = numbers("stored", "pcfs takes # of two syncs, # of SQLite")
    return f"{share:.3f} of two syncs", f"two syncs {numbers('stored', 'two syncs: # events a second, # us')[1]:.0f} us; SQLite takes {1 / other:.2f} of pcfs", at_most(share, 1.03)


def calls():
    (figure,) = numbers("calls", "an event takes # calls of its disks")
    return f"{figure:.2f} calls of its disks", "six before", at_most(figure, 4.05)


PROOFS = "statements and 60,000 proofs: "
ROWS = [
    ("a `do` in memory beside its tags, 16,000 nodes", "3 us", beside_tags),
    ("a line with a procap that is denied", "1.5 us", denied),
    ("bytes copied or zeroed a step", "8 KB", copied),
    ("64 connections in memory, steps a second", "2.5 of one", beside_one),
    ("the same beside redis-server", "0.8", beside_redis),
    ("99th percentile with 64", "2 ms", late),
    ("eight others beside one who has the largest proofs checked", "0.9", slowed),
    ("memory of a read", "160 bytes", lambda: memory_of("a read", 160)),
    ("memory of an issue", "200 bytes", lambda: memory_of("an issue", 200)),
    ("opening 100,000 events", "0.25 s", opened),
    ("its memory", "4 times the area", opened_memory),
    ("a checkpoint of a full tree, contents in 32 files", "1.5 of `cp` and sync", lambda: checkpoint("32 files")),
    ("its memory", "0.1 images", lambda: checkpoint_memory("32 files")),
    ("a checkpoint of a full tree, contents in all files, an issue each", "1.5 of `cp` and sync", lambda: checkpoint("small files")),
    ("its memory", "0.1 images", lambda: checkpoint_memory("small files")),
    ("audit of statements and proofs in 4 pieces", "2.5 of one", lambda: audited(PROOFS)),
    ("a stored event", "1.03 of two syncs", stored),
    ("its calls", "two of six less", calls),
]
print("| work | aim | figure | peer | |\n|---|---|---|---|---|")
for work, aim, figures in ROWS:
    try:
        print("|", " | ".join((work, aim, *figures())), "|")
    except Missing as missing:
        print("|", " | ".join((work, aim, f"no figure: {missing}", "", "NOT MEASURED")), "|")
