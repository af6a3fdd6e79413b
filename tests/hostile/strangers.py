"""Strangers: clients that are gone within a line, never read, are too many, or say again what another said."""
import itertools
import time

import switches
from lines import LONGEST
from said import forged, login, owner_verify, registration, root_verify, secrets_of, withdrawal
from serving import Running, Store, free_port
from talking import Session, Unanswered, connected, moment, reset

AT_ONCE = 64
MANY = 400  # replies that are not read, of 131,081 bytes each


class Scene:
    """A server, and the sessions that strangers have with it, each under a name of its own."""

    def __init__(self, server, names):
        self.server, self.names = server, iter(names)
        self.logs, self.faults, self.figures = [], [], {}

    def greeted(self):
        """A session, and a name that nobody else has."""
        session = Session(self.server.port)
        self.logs.append(session.log)
        self.server.watch()
        return session, next(self.names)

    def logged_in(self):
        session, name = self.greeted()
        session.ask(login(name, session.nonce).encode())
        return session, name

    def win(self, session, line):
        """The procap that a proof gives, in hexadecimal."""
        number = session.ask(line.encode()).split(b" ")[2].decode()
        return session.ask(f"procap {number}".encode()).split(b" ")[2].decode()

    def fault(self, text):
        self.faults.append(text)

    def wait_for(self, what, test, patience=10):
        """Whether the test holds before long; if not, that is a fault."""
        until = time.monotonic() + patience
        while not test():
            if time.monotonic() > until:
                self.fault(f"{what}: not within {patience} seconds")
                return False
            time.sleep(0.01)
        return True

# ---- gone within a line --------------------------------------------------------------------------------------------


def a_login(scene):
    session, name = scene.greeted()
    return session, login(name, session.nonce)


def a_registration(scene):
    session, name = scene.logged_in()
    return session, registration(f"admin says gone({name}) from 0 to 1")


def a_withdrawal(scene):
    session, name = scene.logged_in()
    text = f"admin says taken_back({name}) from 0 to 1"
    number = session.ask(registration(text).encode()).split(b" ")[2].decode()
    return session, withdrawal(number, text)


def a_proof(scene):
    session, name = scene.logged_in()
    return session, root_verify(name, "write")


def an_operation(scene):
    session, name = scene.logged_in()
    held = scene.win(session, root_verify(name, "write"))
    return session, f"do create #1 {name} {held}"


def gone_at_each_byte(scene):
    """Says the first bytes of a line, each number of them, and leaves, breaks off or closes."""
    count = 0
    for begin in (a_login, a_registration, a_proof, an_operation, *([a_withdrawal] if switches.withdrawals else [])):
        for cut in itertools.count():
            session, line = begin(scene)
            if cut > len(line):
                session.leave()
                break
            count += 1
            last = line[:cut].encode()
            if cut % 3 == 0:
                session.leave(last)
            else:
                session.vanish(last, cut % 3 == 1)
    scene.figures["gone within a line"] = count

# ---- who never reads -----------------------------------------------------------------------------------------------


def never_reads(scene):
    """One asks for more than any buffer holds, and reads nothing: its session alone waits, and takes no more memory."""
    silent, name = scene.logged_in()
    write = scene.win(silent, root_verify(name, "write"))
    number = silent.ask(f"do create #1 {name} {write}".encode()).decode().split("#")[1]
    read, write = (scene.win(silent, owner_verify(name, number, perm)) for perm in ("read", "write"))
    silent.ask(f"do write #{number} 0 {'61' * 65536} {write}".encode())
    other, _ = scene.logged_in()
    before = scene.server.watch()
    silent.say([f"do read #{number} 0 65536 {read}".encode()] * MANY)
    time.sleep(1)
    waits = [wait_of(scene, other) for _ in range(200)]
    after = scene.server.watch()
    for seconds, of_load in waits:
        if seconds - of_load > 1:
            scene.fault(f"while one does not read, another waits for {seconds:.2f} s, of which {of_load:.2f} s are for a processor")
    if after[0] - before[0] > 16 * 1024:
        scene.fault(f"while one does not read, memory grows from {before[0]} to {after[0]} KiB")
    scene.figures["the slowest reply while one never reads"] = f"{max(waits)[0] * 1000:.1f} ms"
    silent.vanish()
    other.leave()


def wait_of(scene, session):
    """How many seconds a session waits for a reply, and how many the server and the test wait for a processor in that time."""
    waited, begin = scene.server.waited(), time.monotonic()
    session.ask(b"procap 1")
    seconds = time.monotonic() - begin
    return seconds, scene.server.waited() - waited

# ---- too many ------------------------------------------------------------------------------------------------------


def too_many(scene):
    """As many as are attended at once are idle: another is not greeted until one of them leaves; no thread spins."""
    idle = [scene.greeted()[0] for _ in range(AT_ONCE)]
    used = scene.server.processor()
    time.sleep(2)
    used = scene.server.processor() - used
    if used > 0.05:
        scene.fault(f"while {AT_ONCE} are idle, {used:.2f} of 2 seconds of the processor are used")
    scene.figures["seconds of the processor while all are idle"] = f"{used:.2f} of 2"
    broken_off, late = connected(scene.server.port), connected(scene.server.port)
    reset(broken_off)
    late.settimeout(0.5)
    try:
        scene.fault(f"one too many is told {late.recv(100)!r}")
    except TimeoutError:
        pass
    idle.pop().leave()
    late.settimeout(10)
    told = late.recv(100)
    if not told.startswith(b"hello "):
        scene.fault(f"once another had left, one too many is told {told!r}")
    late.close()
    for session in idle:
        session.leave()

# ---- others' logins, and the longest and deepest lines --------------------------------------------------------------


def said_again(scene):
    """A login is good in its own session alone."""
    first, name = scene.greeted()
    second, _ = scene.greeted()
    line = login(name, first.nonce).encode()
    for session, wanted in (second, b"rejected 1"), (first, b"ok"), (second, b"rejected 1"), (first, b"ok"):
        if session.ask(line) != wanted:
            scene.fault(f"a login that was said again is told {session.log.replies[-1][0]!r}, and not {wanted!r}")
    first.leave()
    second.leave()


def deepest(name):
    """The deepest lines that are within the limits, and some that are just outside."""
    for count in (512, 513):
        yield registration(f"admin says {'(' * count}deep({name}){')' * count} from 0 to 1")
    yield registration(f"admin says {'true => ' * 254}deep({name}) from 0 to 1")
    yield registration(f"admin says {'forall K:principal. ' * 510}deep({name}) from 0 to 1")
    yield registration(f"admin says {'hr says ' * 255}deep({name}) from 0 to 1")
    yield registration(f"admin says {'hr says ' * 256}deep({name}) from 0 to 1")
    for count in (199, 200):
        yield f"verify {name} #1 write 1 {'saysR(' * count}trueR{')' * count}"
    levels = 190
    more = "".join(f"forallL(1,{name}," for _ in range(levels))
    yield f"verify {name} #1 write 1 saysR(claim(0,{more}init({1 + levels}){')' * levels}))"
    many = "trueR"
    for _ in range(11):
        many = f"andR({many},{many})"
    yield f"verify {name} #1 write 1 {many}"
    yield f"verify {name} #1 write 1 andR({many},trueR)"


def deep_lines(scene):
    session, name = scene.logged_in()
    for line in deepest(name):
        session.ask(line.encode())
    session.leave()


def long_lines(scene):
    """A line that is as long as lines may be, in small pieces; a longer one that another follows; and one that never ends."""
    session, _ = scene.greeted()
    session.say([b"a" * LONGEST], range(1, LONGEST, 4099))
    session.told()
    session.log.lines.append((b"b" * (LONGEST + 1), *moment()))
    session.send(b"b" * (LONGEST + 1))
    session.told()
    try:
        session.send(b"\nprocap 1\n")
        if session.line() is not None:
            scene.fault("a line is answered after one that is too long")
    except (ConnectionError, Unanswered):
        pass
    session.connection.close()
    session.log.end = "left"


def empty_lines(scene, draw):
    """No lines at all, empty ones, ends of lines in one piece and apart, and a procap that nobody sealed."""
    session, _ = scene.greeted()
    session.leave()
    session, _ = scene.logged_in()
    session.say([b""] * 5, (1, 2))
    for _ in range(5):
        session.told()
    session.ask(f"do create #1 x {forged(draw)}".encode())
    session.ask(b"\r")
    session.leave(b" ")


def all_strangers(scene, draw):
    """Each kind once; a fault of a connection is told, and ends that kind alone."""
    kinds = [
        ("gone within a line", gone_at_each_byte), ("never reads", never_reads), ("too many", too_many), ("said again", said_again),
        ("deep lines", deep_lines), ("long lines", long_lines), ("empty lines", lambda one: empty_lines(one, draw)),
    ]
    for what, kind in kinds:
        try:
            kind(scene)
        except (OSError, Unanswered, IndexError) as fault:
            scene.fault(f"{what}: {fault!r}")


# ---- words and ports -----------------------------------------------------------------------------------------------

BAD_WORDS = ["", "4040", "0 1", "65536 1", "04040 1", "4040 0", "4040 01", "4040 1000001", "4040 1 1", "+4040 1", "4040 -1", "4040x 1", "4040 1.0"]


def words_and_ports(program, folder):
    """What is wrong with `serve` where it is not to serve: bad words, no store, a port that another has; and with a port that a
    server has just left."""
    store, other = Store(program, f"{folder}/words", secrets_of([])), Store(program, f"{folder}/other", secrets_of([]))
    port = free_port()
    tries = [(store, ("serve", *words.split()), (b"usage\n", 1)) for words in BAD_WORDS]
    tries.append((store, ("serve", str(port), "1"), (b"nostore\n", 4)))
    yield from wrong_ends(tries)
    store.run("init")
    other.run("init")
    server = Running(store, 2, port)
    Session(port).leave()
    yield from wrong_ends([(other, ("serve", str(port), "1"), (b"netfault\n", 8))])
    Session(port).leave()
    if server.ended() != (b"served 2\n", 0):
        yield "a server of two does not end after two"
    again = Running(store, 1, port)
    Session(port).leave()
    ended = again.ended()
    if ended != (b"served 1\n", 0):
        yield f"a second server on the same port ends with {ended}"


def wrong_ends(tries):
    for store, words, wanted in tries:
        done = store.run(*words, patience=20)
        if done != wanted:
            yield f"{' '.join(words)!r} ends with {done}, and not {wanted}"
