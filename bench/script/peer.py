"""Does the same work with SQLite in memory, and prints seconds for the nodes and for the mix."""
import hmac, sqlite3, sys, time

KEY, PERMISSIONS = b"\1\2", {"read": 1, "write": 2, "execute": 3, "identity": 4, "govern": 5}
PERM = {"read": 1, "list": 1, "getattr": 1, "lookup": 3, "chown": 5}
db = sqlite3.connect(":memory:", isolation_level=None)
db.executescript("""
create table nodes (number integer primary key, directory integer, owner text, parent integer, name text, contents blob);
create unique index names on nodes (parent, name);
create table attributes (node integer, name text, value text, primary key (node, name)) without rowid;
create table events (number integer primary key, caller text, operation text, moment integer);
insert into nodes values (1, 1, 'admin', 0, '', x'');
""")
run = db.execute
state = {"caller": "admin", "moment": 0, "next": 2}


def allows(word, file, perm):
    data = bytes.fromhex(word)
    grant, tag = data[:-32], data[-32:]
    if not hmac.compare_digest(hmac.digest(KEY, grant, "sha256"), tag):
        return False
    end = 3 + grant[2]
    low, high = int.from_bytes(grant[end + 12 : end + 20], "big", signed=True), int.from_bytes(grant[end + 24 : end + 32], "big", signed=True)
    return grant[3:end].decode() == state["caller"] and int.from_bytes(grant[end : end + 8], "big") == file and grant[end + 8] == perm and low <= state["moment"] <= high


def number(word):
    return int(word[1:])


def child(directory, name):
    found = run("select number from nodes where parent = ? and name = ?", (directory, name)).fetchone()
    return found and found[0]


def answer(line):
    words = line.split(" ") if '"' not in line else [part for place, piece in enumerate(line.split('"')) for part in ([piece] if place % 2 else piece.split())]
    if words[0] == "at":
        state["moment"] = int(words[1])
        return "ok"
    if words[0] == "as":
        state["caller"] = words[1]
        return "ok"
    operation, file = words[1], number(words[2])
    perm = PERM.get(operation, 2)
    if operation in ("setattr", "delattr") and words[3].startswith("pcfs."):
        perm = 5
    needs = [(file, perm)]
    moved = None
    if operation == "rename":
        needs.append((number(words[4]), 2))
    if operation in ("unlink", "rename"):
        moved = child(file, words[3])
        if moved:
            needs.append((moved, 4))
    brought = words[-len(needs):]
    for place, (wanted, perm) in enumerate(needs):
        if not allows(brought[place], wanted, perm):
            return f"denied {place + 1}"
    run("begin")
    reply = effect(operation, file, words, moved)
    run("insert into events (caller, operation, moment) values (?, ?, ?)", (state["caller"], line, state["moment"]))
    run("commit")
    return reply


def effect(operation, file, words, moved):
    if operation == "read":
        offset = int(words[3])
        data = run("select contents from nodes where number = ?", (file,)).fetchone()[0][offset : offset + int(words[4])]
        return f"ok bytes {data.hex() or '-'}"
    if operation == "write":
        offset, data = int(words[3]), bytes.fromhex(words[4])
        old = run("select contents from nodes where number = ?", (file,)).fetchone()[0]
        new = old[:offset] + bytes(max(0, offset - len(old))) + data + old[offset + len(data) :]
        run("update nodes set contents = ? where number = ?", (new, file))
        return "ok"
    if operation == "truncate":
        size = int(words[3])
        old = run("select contents from nodes where number = ?", (file,)).fetchone()[0]
        run("update nodes set contents = ? where number = ?", (old[:size] + bytes(max(0, size - len(old))), file))
        return "ok"
    if operation == "list":
        return "ok list" + "".join(f" {name}#{one}" for name, one in run("select name, number from nodes where parent = ? order by name", (file,)))
    if operation == "lookup":
        return f"ok node #{child(file, words[3])}"
    if operation in ("create", "mkdir"):
        run("insert into nodes values (?, ?, ?, ?, ?, x'')", (state["next"], operation == "mkdir", state["caller"], file, words[3]))
        state["next"] += 1
        return f"ok node #{state['next'] - 1}"
    if operation == "unlink":
        run("delete from nodes where number = ?", (moved,))
        run("delete from attributes where node = ?", (moved,))
        return "ok"
    if operation == "rename":
        run("update nodes set parent = ?, name = ? where number = ?", (number(words[4]), words[5], moved))
        return "ok"
    if operation == "getattr":
        return f'ok text "{run("select value from attributes where node = ? and name = ?", (file, words[3])).fetchone()[0]}"'
    if operation == "setattr":
        run("insert or replace into attributes values (?, ?, ?)", (file, words[3], words[4]))
        return "ok"
    if operation == "delattr":
        run("delete from attributes where node = ? and name = ?", (file, words[3]))
        return "ok"
    run("update nodes set owner = ? where number = ?", (words[3], file))
    return "ok"


def all_lines(path, out):
    begun = time.perf_counter()
    with open(path) as lines:
        for line in lines:
            out.write(answer(line[:-1]) + "\n")
    out.flush()
    return time.perf_counter() - begun


with open(sys.argv[3], "w") as out:
    made = all_lines(sys.argv[1], out)
    mixed = all_lines(sys.argv[2], out)
print(made, mixed)
