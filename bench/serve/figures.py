"""What serve.sh measures, and its figures; the script says what is timed."""
import os
import shutil
import socket
import struct
import subprocess
import sys
import time
from pcfs_formats import sign_login

program, disk, memory = sys.argv[1:]
USERS, SECONDS, SHORT, MOST, ROUNDS = 64, 2.0, 1.2, 120_000, 3
TICK = os.sysconf("SC_CLK_TCK")


def free_port():
    with socket.socket() as one:
        one.bind(("127.0.0.1", 0))
        return one.getsockname()[1]


def dialled(port):
    for _ in range(6000):
        try:
            one = socket.create_connection(("127.0.0.1", port), timeout=60)
            one.setsockopt(socket.IPPROTO_TCP, socket.TCP_NODELAY, 1)
            return one
        except ConnectionRefusedError:
            time.sleep(0.01)
    sys.exit(f"nobody listens on port {port}")


def heard(one):
    """A line that comes."""
    line = b""
    while not line.endswith(b"\n"):
        piece = one.recv(65536)
        if not piece:
            sys.exit("a connection ended")
        line += piece
    return line.decode().rstrip("\n")


def key(user):
    return f"key of {user}".encode()


# ---- pcfs ----

# 126 conditions on directories make a formula of 512 nodes; 21 branches of 190 instances of it a proof of nearly 4,096 rules,
# whose last leaf is wrong: so all of it is checked, and nothing issued
LARGE = [
    "register - admin says forall F:file. may(u0,#1,write) & (" + " & ".join(["in_dir(F,#1)"] * 126) + ") from 0 to +inf",
    "register - admin says may(u0,#1,write) | may(u0,#1,write) from 0 to +inf",
]


def instances(count, first, init):
    return "forallL(2,#1," * count + f"andL({first + count - 1},init({init or first + count}))" + ")" * count


def branches(count, depth, last):
    if count == 1:
        return instances(190, 4 + depth, 9999 if last else 0)
    half = count // 2
    return f"orL(3,{branches(half, depth + 1, False)},{branches(count - half, depth + 1, last)})"


def large_proof(numbers):
    return f"verify u0 #1 write {numbers} saysR(claim(0,claim(1,{branches(21, 0, True)})))"


class Store:
    """A store with a file for each user, and procaps to write and to read it."""

    def __init__(self, folder):
        self.folder = f"{folder}/store"
        shutil.rmtree(self.folder, ignore_errors=True)
        os.makedirs(self.folder)
        with open(f"{self.folder}/pcfs.secrets", "w") as file:
            file.write("seal 0102\nkey admin 01\n" + "".join(f"key u{one} {key(f'u{one}').hex()}\n" for one in range(USERS)))
        self.run(["init"], [])
        lines = ["at 100", "register - admin says forall K:principal. may(K,#1,write) from 0 to +inf"]
        for one in range(USERS):
            lines += [f"verify u{one} #1 write 1 saysR(claim(0,forallL(1,u{one},init(2))))", f"as u{one}", f"do create #1 f{one} @{one + 1}"]
        for number, (one, perm) in enumerate(((one, perm) for one in range(USERS) for perm in ("write", "read")), 2):
            lines += [f"register - admin says may(u{one},#{one + 2},{perm}) from 0 to +inf"]
            lines += [f"verify u{one} #{one + 2} {perm} {number} saysR(claim(0,init(1)))"]
        lines += [f"procap {USERS + 1 + number}" for number in range(2 * USERS)] + LARGE
        told = self.run(["script", "--stored"], lines)
        bad = [(line[:80], reply) for line, reply in zip(lines, told) if not reply.startswith("ok")]
        if bad:
            sys.exit(f"the store is not made: {bad[0]}")
        words = [reply.split(" ")[2] for reply in told if reply.startswith("ok procap ")]
        self.write, self.read = words[::2], words[1::2]
        self.large = large_proof(f"{2 * USERS + 2},{2 * USERS + 3}")

    def run(self, words, lines):
        done = subprocess.run([program, *words], cwd=self.folder, input="".join(line + "\n" for line in lines).encode(), stdout=subprocess.PIPE)
        return done.stdout.decode().splitlines()

    def plan(self, user):
        """The requests of a user: the lines of a reply, all its bytes or 0 if they may be any number, its begin, and the request."""
        file = user + 2
        return [
            (1, 3, b"ok\n", f"do write #{file} 0 {'61' * 16} {self.write[user]}\n".encode()),
            (1, 42, b"ok bytes 616161", f"do read #{file} 0 16 {self.read[user]}\n".encode()),
        ]


class Pcfs:
    """A server of a store, with users who have logged in."""

    name = "pcfs"

    def __init__(self, folder, count, more=0):
        self.store, self.port = Store(folder), free_port()
        words = [program, "serve", str(self.port), str(count + more)]
        self.process = subprocess.Popen(words, cwd=self.store.folder, stdin=subprocess.DEVNULL, stdout=subprocess.PIPE)
        self.connections = [self.logged_in(user) for user in range(count)]
        self.plans = [self.store.plan(user) for user in range(count)]

    def logged_in(self, user):
        one = dialled(self.port)
        nonce = bytes.fromhex(heard(one).split(" ")[1])
        one.sendall(f"login u{user} {sign_login(key(f'u{user}'), f'u{user}', nonce).hex()}\n".encode())
        if heard(one) != "ok":
            sys.exit("no login")
        return one

    def processor(self):
        with open(f"/proc/{self.process.pid}/stat") as file:
            words = file.read().rsplit(")", 1)[1].split()
        return (int(words[11]) + int(words[12])) / TICK

    def end(self):
        for one in self.connections:
            one.close()
        try:
            self.process.communicate(timeout=30)
        except subprocess.TimeoutExpired:
            print("the server did not end")
            self.process.kill()
            self.process.communicate()


# ---- redis ----


def request(*words):
    return b"".join([b"*%d\r\n" % len(words), *(b"$%d\r\n%s\r\n" % (len(word), word) for word in words)])


class Redis:
    """redis-server with an append-only file that is synced always."""

    name = "redis-server"

    def __init__(self, folder, count):
        self.port, self.folder = free_port(), f"{folder}/redis"
        shutil.rmtree(self.folder, ignore_errors=True)
        os.makedirs(self.folder)
        words = "--bind 127.0.0.1 --save  --appendonly yes --appendfsync always --loglevel warning".split(" ")
        words = ["redis-server", "--port", str(self.port), "--dir", self.folder, *words]
        self.process = subprocess.Popen(words, stdin=subprocess.DEVNULL, stdout=subprocess.DEVNULL, stderr=subprocess.DEVNULL)
        self.connections = [dialled(self.port) for _ in range(count)]
        value = b"a" * 16
        self.plans = [
            [(1, 5, b"+OK\r\n", request(b"SET", b"f%d" % one, value)), (2, 23, b"$16\r\naaa", request(b"GET", b"f%d" % one))] for one in range(count)
        ]

    def end(self):
        for one in self.connections:
            one.close()
        self.process.terminate()
        self.process.wait()


# ---- runs ----


def begun(connections, plans, seconds=SECONDS, most=MOST):
    """The client at work over these connections, for so long and so many steps at most."""
    given = struct.pack("=IQd", len(connections), most, seconds)
    for one, plan in zip(connections, plans):
        given += struct.pack("=iI", one.fileno(), len(plan))
        for lines, whole, begin, data in plan:
            given += struct.pack("=IIII", lines, whole, len(begin), len(data)) + begin + data
    files = [one.fileno() for one in connections]
    client = subprocess.Popen([f"{memory}/drive"], stdin=subprocess.PIPE, stdout=subprocess.PIPE, pass_fds=files)
    client.stdin.write(given)
    client.stdin.close()
    return client


def figures(client):
    """Steps a second, median, 99th percentile, the longest and the 10th percentile, in microseconds."""
    words = client.stdout.read().split()
    if client.wait() != 0 or len(words) != 6:
        sys.exit("the client failed")
    return int(words[0]) / float(words[1]), *map(float, words[2:])


def one_run(make, folder, count):
    server = make(folder, count)
    try:
        return figures(begun(server.connections, server.plans))
    finally:
        server.end()


def middle(runs):
    """The run whose steps a second stand in the middle."""
    return sorted(runs)[len(runs) // 2]


def aim(met):
    return "met" if met else "MISSED"


def compare(what, folder, peers):
    steps = {}
    for count in (1, 8, 64):
        mine = {make: middle([one_run(make, folder, count) for _ in range(ROUNDS)]) for make in peers}
        for make in peers:
            rate, median, late, longest, _ = mine[make]
            print(f"{what}, {count} connections, {make.name}: {rate:.0f} steps a second, median {median:.0f} us, 99th percentile {late:.0f} us, longest {longest:.0f} us")
        if len(peers) > 1:
            print(f"{what}, {count} connections: {mine[Pcfs][0] / mine[Redis][0]:.2f} of the steps of redis-server, {mine[Pcfs][1] / mine[Redis][1]:.2f} of its median")
        steps[count] = mine[Pcfs]
    return steps


def slowed(count):
    """Steps a second of so many connections: alone, beside one who has the largest proof checked, and beside a process that only
    computes; and how long such a proof takes."""
    alone, beside, control, proofs = [], [], [], []
    for _ in range(ROUNDS):
        server = Pcfs(memory, count, 1)
        try:
            prover = server.logged_in(0)
            plan = [(1, 0, b"unproved 1 ", server.store.large.encode() + b"\n")]
            alone.append(figures(begun(server.connections, server.plans, SHORT))[0])
            proving = begun([prover], [plan], SHORT + 1)
            time.sleep(0.3)
            beside.append(figures(begun(server.connections, server.plans, SHORT))[0])
            proofs.append(figures(proving)[1])
            prover.close()
            busy = subprocess.Popen([sys.executable, "-c", "while True: pass"])
            control.append(figures(begun(server.connections, server.plans, SHORT))[0])
            busy.kill()
            busy.wait()
        finally:
            server.end()
    return middle(alone), middle(beside), middle(control), middle(proofs)


def idle():
    """Seconds of the processor that the server takes while 64 have logged in and say nothing."""
    server = Pcfs(memory, 64)
    try:
        before = server.processor()
        time.sleep(3)
        return server.processor() - before
    finally:
        server.end()


def main():
    peers = [Pcfs, Redis] if shutil.which("redis-server") else [Pcfs]
    if len(peers) == 1:
        print("redis-server is not installed: pcfs alone")
    if os.environ.get("ONLY") != "memory":
        compare("disk", disk, peers)
    fast = compare("memory", memory, peers)
    print(f"memory: 64 connections do {fast[64][0] / fast[1][0]:.2f} times the steps of one (aim 2.5: {aim(fast[64][0] >= 2.5 * fast[1][0])})")
    print(f"memory: the median of one connection is {fast[1][1]:.0f} us (aim under 60: {aim(fast[1][1] < 60)})")
    print(f"memory: the 99th percentile of 64 is {fast[64][2] / 1000:.2f} ms (aim under 5: {aim(fast[64][2] < 5000)})")
    for count in (1, 8):
        alone, beside, control, proof = slowed(count)
        met = aim(beside >= 0.9 * alone)
        print(f"memory: {count} connections beside proofs of {proof / 1000:.1f} ms: {beside:.0f} steps a second, {beside / alone:.2f} of {alone:.0f} (aim 0.90: {met})")
        print(f"memory: {count} connections beside a process that only computes: {control:.0f} steps a second, {control / alone:.2f}")
    print(f"64 idle connections take {idle():.2f} of 3 seconds of the processor (aim 0)")


if __name__ == "__main__":
    main()
