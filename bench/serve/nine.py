"""What serve.sh measures of `serve9` beside `serve`, and its figures; the script says what is timed."""
import struct
import subprocess
import sys

from figures import ROUNDS, Pcfs, Store, aim, begun, dialled, figures, free_port, key, memory, middle, program
from nine_client import FILE, READING, ROOT, TCLUNK, TREAD, TWALK, Nine, Refused

BIG, PIECE, SHORT = 1 << 20, 65_536, 4096
MOST_PROCAPS, MOST_FIDS = 64, 1024
OTHER = 100_000  # the first of the fids that nothing is done with
NEW = 0  # a fid that is made and ended again, with a lesser number than all others, which so have to make place
USER, NODE = "u0", 2
# each run has as many steps: all those of a store, of which each reading is an event, fit into its area of 64 MiB
STEPS, MOST_SECONDS = 20_000, 15.0


def message(kind, fields):
    return struct.pack("<IBH", 7 + len(fields), kind, 1) + fields


def asked(kind, fields, told, more=0):
    """A request, and its reply: these fields, and so many bytes after them."""
    whole = 7 + len(told) + more
    return 0, whole, struct.pack("<IBH", whole, kind + 1, 1) + told, message(kind, fields)


def reading(offset, count):
    """A request for so many bytes, and its reply."""
    return asked(TREAD, struct.pack("<IQI", FILE, offset, count), struct.pack("<I", count), count)


def pieces(size, most):
    return [(offset, min(most, size - offset)) for offset in range(0, size, most)]


class FilledStore(Store):
    """A store whose first user has a file of 1 MiB, may look up names in the root, and has more procaps than are needed."""

    def __init__(self, folder):
        super().__init__(folder)
        number = self.large_statements() + 1
        lines = [f"as {USER}"] + [f"do write #{NODE} {offset} {'61' * count} {self.write[0]}" for offset, count in pieces(BIG, PIECE)]
        for more in range(MOST_PROCAPS - 1):
            right = "execute" if more == 0 else "identity"
            lines += [f"register - admin says may({USER},#{1 if more == 0 else 1000 + more},{right}) from 0 to +inf"]
            lines += [f"verify {USER} #{1 if more == 0 else 1000 + more} {right} {number + more} saysR(claim(0,init(1)))"]
        first = self.issues() + 1
        lines += [f"procap {first + more}" for more in range(MOST_PROCAPS - 1)]
        told = self.run(["script", "--stored"], lines)
        bad = [(line[:80], reply) for line, reply in zip(lines, told) if not reply.startswith("ok")]
        if bad:
            sys.exit(f"the store is not filled: {bad[0]}")
        found = [reply.split(" ")[2] for reply in told if reply.startswith("ok procap ")]
        self.execute, self.others = found[0], found[1:]

    def large_statements(self):
        """How many statements there are."""
        return int(self.run(["audit"], [])[0].split(" ")[3])

    def issues(self):
        return int(self.run(["audit"], [])[0].split(" ")[5])


class Server:
    """A server over a filled store, of lines or of 9P2000."""

    def __init__(self, folder, word, count):
        self.store, self.port = FilledStore(folder), free_port()
        self.process = subprocess.Popen([program, word, str(self.port), str(count)], cwd=self.store.folder, stdin=subprocess.DEVNULL, stdout=subprocess.PIPE)

    logged_in = Pcfs.logged_in

    def lines(self):
        """The connection of the user, and how it reads bytes."""
        one = self.logged_in(0)
        return one, lambda offset, count: (1, 10 + 2 * count, b"ok bytes 616161", f"do read #{NODE} {offset} {count} {self.store.read[0]}\n".encode())

    def messages(self, has_many=False):
        """The connection of the user, with the file open for reading; with many fids and procaps, of which the one that counts is last."""
        more = self.store.others if has_many else []
        dialled(self.port).close()
        nine = Nine(f"127.0.0.1:{self.port}", USER, key(USER), [*more, self.store.execute, self.store.read[0]])
        nine.walk(ROOT, FILE, [b"f0"])
        nine.open(FILE, READING)
        for fid in range(OTHER, OTHER + MOST_FIDS - 4 if has_many else OTHER):
            nine.walk(ROOT, fid, [])
        return nine

    def end(self):
        self.process.kill()
        self.process.communicate()


def timed(one, plan):
    return figures(begun([one], [plan], MOST_SECONDS, STEPS))


def timed_anew(nine, plan):
    """The same, once the fid is gone that the run before may have left."""
    try:
        nine.clunk(NEW)
    except Refused:
        pass
    return timed(nine.socket, plan)


def reading_figures(lines, nine):
    """A reading of 4,096 bytes, and one of 1 MiB in as large pieces as there may be, each by turns."""
    one, by_line = lines.lines()
    other = nine.messages().socket
    short = [(timed(one, [by_line(0, SHORT)]), timed(other, [reading(0, SHORT)])) for _ in range(ROUNDS)]
    (_, line, *_), (_, said, *_) = (middle(runs) for runs in zip(*short))
    print(f"memory: a reading of {SHORT} bytes takes {said:.1f} us as a Tread and {line:.1f} us as a line: {said / line:.2f} (aim at most 1.2: {aim(said <= 1.2 * line)})")
    plans = [by_line(*piece) for piece in pieces(BIG, PIECE)], [reading(*piece) for piece in pieces(BIG, PIECE - 11)]
    whole = [(timed(one, plans[0])[0], timed(other, plans[1])[0]) for _ in range(ROUNDS)]
    line, said = (1e6 * len(plan) / middle(rates) for plan, rates in zip(plans, zip(*whole)))
    print(f"memory: a file of 1 MiB takes {said:.0f} us in {len(plans[1])} Treads and {line:.0f} us in {len(plans[0])} lines: {said / line:.2f} (aim under 0.25: {aim(said < line / 4)})")
    one.close()
    other.close()


def cost_figures(nine):
    """What many fids and procaps cost a reading, and a walk to a fid more and its end: the difference of medians, by turns."""
    few, many = nine.messages(), nine.messages(True)
    steps = {
        "a Tread of 16 bytes": [reading(0, 16)],
        "a Twalk to a new fid, or its Tclunk": [asked(TWALK, struct.pack("<IIH", ROOT, NEW, 0), bytes(2)), asked(TCLUNK, struct.pack("<I", NEW), b"")],
    }
    for what, plan in steps.items():
        runs = [(timed_anew(few, plan), timed_anew(many, plan)) for _ in range(2 * ROUNDS + 1)]
        alone, beside = (middle([run[1] for run in side]) for side in zip(*runs))
        low, high = (min(run[4] for run in side) for side in zip(*runs))
        met = aim(beside - alone <= 1)
        print(f"memory: {what}, with {MOST_FIDS - 1} fids and {MOST_PROCAPS} procaps: {beside:.1f} us, and {alone:.1f} us with 3 and 2: {beside - alone:+.1f} us (aim at most 1: {met}); fastest tenths {low:.1f} and {high:.1f} us")
    few.close()
    many.close()


def main():
    servers = [Server(f"{memory}/{name}", word, 1000) for name, word in (("lines", "serve"), ("messages", "serve9"), ("many", "serve9"))]
    try:
        reading_figures(*servers[:2])
        cost_figures(servers[2])
    finally:
        for server in servers:
            server.end()


main()
