"""Writes the lines that make the nodes, and those of the mix, of which each is done."""
import hmac, random, sys

NODES, COUNT, KEY = 16000, int(sys.argv[3]), b"\1\2"
PERMISSIONS = ["read", "write", "execute", "identity", "govern"]
WEIGHTS = {"read": 24, "write": 14, "lookup": 12, "getattr": 10, "setattr": 9, "create": 7, "unlink": 6, "rename": 6, "truncate": 4, "list": 3,
           "delattr": 2, "chown": 2, "mkdir": 1}
draw = random.Random(1)
sealed = {}


def procap(file, perm):
    """The word of a procap of alice, from second 0 to 1000000."""
    if (file, perm) not in sealed:
        grant = b"\x47\x01\x05alice" + file.to_bytes(8, "big") + bytes([PERMISSIONS.index(perm) + 1, 2])
        grant += b"\x04\x01" + bytes(8) + b"\x06\x06\x04\x01" + (1000000).to_bytes(8, "big") + b"\x00"
        sealed[file, perm] = (grant + hmac.digest(KEY, grant, "sha256")).hex()
    return sealed[file, perm]


names, attributes, files, directories, free = {}, {}, [], [1], 2


def make(kind, directory):
    global free
    number, name = free, f"n{free}"
    free += 1
    names[number] = (directory, name)
    (files if kind == "create" else directories).append(number)
    attributes[number] = set()
    return f"do {kind} #{directory} {name} {procap(directory, 'write')}"


def pick_file():
    place = draw.randrange(len(files))
    files[place], files[-1] = files[-1], files[place]
    return files[-1]


def operation(kind):
    file = pick_file()
    directory, name = names[file]
    if kind == "create":
        return make(kind, draw.choice(directories[1:])) if len(files) + len(directories) < 16300 else None
    if kind == "mkdir":
        return make(kind, 1) if len(directories) < 200 else None
    if kind == "unlink":
        if len(files) < 15000:
            return None
        files.pop()
        return f"do unlink #{directory} {name} {procap(directory, 'write')} {procap(file, 'identity')}"
    if kind == "rename":
        target = draw.choice(directories[1:])
        new = f"{name[:1]}{file}r{draw.randrange(1000)}"
        if (target, new) == (directory, name):
            return None
        names[file] = (target, new)
        return f"do rename #{directory} {name} #{target} {new} {procap(directory, 'write')} {procap(target, 'write')} {procap(file, 'identity')}"
    if kind == "read":
        return f"do read #{file} {draw.randrange(100)} 100 {procap(file, 'read')}"
    if kind == "write":
        return f"do write #{file} {draw.randrange(100)} {draw.randbytes(32).hex()} {procap(file, 'write')}"
    if kind == "truncate":
        return f"do truncate #{file} {draw.randrange(200)} {procap(file, 'write')}"
    if kind == "list":
        chosen = draw.choice(directories[1:])
        return f"do list #{chosen} {procap(chosen, 'read')}"
    if kind == "lookup":
        return f"do lookup #{directory} {name} {procap(directory, 'execute')}"
    if kind == "chown":
        return f"do chown #{file} user{draw.randrange(50)} {procap(file, 'govern')}"
    if kind == "setattr":
        attribute = draw.choice(["color", "size", "class", "state"])
        attributes[file].add(attribute)
        return f"do setattr #{file} {attribute} \"value {draw.randrange(100)}\" {procap(file, 'write')}"
    if not attributes[file]:
        return None
    attribute = draw.choice(sorted(attributes[file]))
    if kind == "delattr":
        attributes[file].remove(attribute)
    return f"do {kind} #{file} {attribute} {procap(file, 'read' if kind == 'getattr' else 'write')}"


with open(sys.argv[1], "w") as out:
    out.write("at 100\nas alice\n")
    for number in range(2, NODES + 1):
        out.write(make("mkdir", 1) if number <= 101 else make("create", 2 + number % 100))
        out.write("\n")
# a line that is denied by its first procap, and one that is by its third: node 102 stands in node 4
for name, procaps in ("one", [(5, "write"), (5, "write"), (102, "identity")]), ("three", [(4, "write"), (5, "write"), (103, "identity")]):
    with open(sys.argv[2] + name, "w") as out:
        out.write(f"do rename #4 n102 #5 x {' '.join(procap(*one) for one in procaps)}\n" * (COUNT // 2))
with open(sys.argv[2], "w") as out:
    done = 0
    for kind in iter(lambda: draw.choices(list(WEIGHTS), WEIGHTS.values())[0], None):
        line = operation(kind)
        if line:
            out.write(line + "\n")
            done += 1
        if done == COUNT:
            break
