"""What load.sh measures, and its figures; the script says what is timed."""
import hmac
import resource
import sqlite3
import subprocess
import sys
import time

program, ROUNDS, SEED = sys.argv[1], 20000, 1


def load():
    begin = time.perf_counter()
    told = subprocess.run([program, "load", str(ROUNDS), str(SEED)], stdin=subprocess.DEVNULL, stdout=subprocess.PIPE, check=True).stdout
    return time.perf_counter() - begin, told.decode().strip()


def drawn(state, limit):
    state = (state * 6364136223846793005 + 1442695040888963407) % 2**64
    return state, (state >> 33) % limit


def sqlite():
    """A row for each event and each node, in one transaction, and a tag for each operation."""
    base = sqlite3.connect(":memory:", isolation_level=None)
    base.execute("create table event (number integer primary key, kind integer, payload blob)")
    base.execute("create table node (number integer primary key, parent integer, name text, owner text, contents blob, unique (parent, name))")
    begin, state, count, nodes, issues = time.perf_counter(), SEED, 0, 1, 0
    base.execute("begin")
    for place in range(1, ROUNDS + 1):
        state, user = drawn(state, 8)
        state, file = drawn(state, 16)
        state, kind = drawn(state, 4)
        state, choice = drawn(state, 8)
        grant = b"G\1\2u" + bytes([48 + user]) + (file + 2).to_bytes(8, "big") + bytes(30)
        hmac.digest(b"\2", grant, "sha256")
        if kind == 2 and issues == 0:
            kind = 0
        if kind in (1, 3):
            count, issues = count + 1, issues + 1
            base.execute("insert into event values (?, 2, ?)", (count, grant))
        if kind == 0:
            nodes += 1
            base.execute("insert into node values (?, 1, ?, ?, '')", (nodes, f"f{place}", f"u{user}"))
        elif kind in (1, 2):
            base.execute("update node set contents = ? where number = ? and owner = ?", (place.to_bytes(4, "big"), file + 2, f"u{user}"))
        else:
            base.execute("update node set owner = ? where number = ?", (f"u{choice}", file + 2))
        count += 1
        base.execute("insert into event values (?, 3, ?)", (count, grant))
    base.execute("commit")
    return time.perf_counter() - begin


runs = [load() for _ in range(3)]
assert len({told for _, told in runs}) == 1, "the lines differ"
mine, other = min(taken for taken, _ in runs), min(sqlite() for _ in range(3))
kib = resource.getrusage(resource.RUSAGE_CHILDREN).ru_maxrss
print(runs[0][1])
print(f"load {ROUNDS} {SEED}: {mine:.2f} s (aim: under 1), {mine / other:.2f} of SQLite from Python ({other:.2f} s), {kib / 1024:.0f} MiB at most")
