"""Counts the bytes that a step of `pcfs serve` copies or zeroes: twice as many steps are made in a second run, and the difference is
told; then the functions that copy most. It works as the parts of serve.sh do, with its client and its store."""
import bisect
import os
import struct
import subprocess
from collections import Counter

from figures import Pcfs, begun, memory, program

SHIM, STEPS, MOST_SECONDS = f"{memory}/copies.so", 10_000, 20.0
HEAD, PLACE = struct.Struct("=QQ"), struct.Struct("=QQQ")


def counted(connections, steps):
    """Bytes copied and bytes zeroed by each place of the program that calls for it, in a run with so many steps."""
    os.environ.update(LD_PRELOAD=SHIM, COPIES_INTO=f"{memory}/copied")
    try:
        server = Pcfs(memory, connections)
    finally:
        del os.environ["LD_PRELOAD"], os.environ["COPIES_INTO"]
    try:
        client = begun(server.connections, server.plans, MOST_SECONDS, steps)
        made = client.stdout.read().split()[0]
        assert client.wait() == 0 and int(made) == steps, f"{made} steps and not {steps}"
    finally:
        server.end()
    with open(f"{memory}/copied.{server.process.pid}", "rb") as file:
        told = file.read()
    base, lost = HEAD.unpack_from(told)
    assert not lost, f"{lost} bytes have no place"
    places = (PLACE.unpack_from(told, at) for at in range(HEAD.size, len(told), PLACE.size))
    return {address - base: (copied, filled) for address, copied, filled in places if address}


def functions():
    """The places where the program's functions begin, in order, and their names."""
    told = subprocess.run(["nm", "--defined-only", program], stdout=subprocess.PIPE, stderr=subprocess.DEVNULL, check=False).stdout.decode()
    found = sorted((int(words[0], 16), words[2]) for words in map(str.split, told.splitlines()) if len(words) == 3 and words[1] in "tTwW")
    return [place for place, _ in found], [name for _, name in found]


def tell(connections):
    once, twice = counted(connections, STEPS), counted(connections, 2 * STEPS)
    rows = {place: [(twice[place][i] - once.get(place, (0, 0))[i]) / STEPS for i in (0, 1)] for place in twice}
    copied, zeroed = (sum(row[i] for row in rows.values()) for i in (0, 1))
    print(f"{connections} connections: {copied + zeroed:,.0f} bytes a step, {copied:,.0f} copied and {zeroed:,.0f} zeroed, in calls of memcpy, memmove and memset")
    begins, names = functions()
    by = Counter()
    for place, row in rows.items():
        at = bisect.bisect_right(begins, place) - 1
        by[names[at] if at >= 0 else hex(place)] += sum(row)
    for name, much in by.most_common(20):
        print(f"  {much:8,.0f} in {name[:200]}")


for count in (1, 64):
    tell(count)
