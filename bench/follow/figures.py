"""What follow.sh measures, and its figures; the script says what is timed."""
import os
import subprocess
import sys
import time

program, MANY, FEW = sys.argv[1], 100_000, 10_000
POLICY = ["at 100", "register - admin says may(alice,#1,write) from 0 to 200", "verify alice #1 write 1 saysR(claim(0,init(1)))", "as alice"]
# two nodes alone are made for the many events: the others write one byte
WRITE = ["register - admin says may(alice,#2,write) from 0 to 200", "verify alice #2 write 2 saysR(claim(0,init(1)))", "do create #1 f @1"]


def run(words, given, written, **more):
    """The seconds that a command takes over a file, whose output goes into another."""
    with open(given, "rb") as source, open(written, "wb") as out:
        begin = time.perf_counter()
        status = subprocess.run([program, *words], stdin=source, stdout=out, **more).returncode
        taken = time.perf_counter() - begin
    assert status == 0, (words, status)
    return taken


def script(lines):
    with open("lines", "w") as out:
        out.write("".join(line + "\n" for line in lines))
    run(["script", "--stored"], "lines", "replies")


def fresh():
    for name in ("pcfs.a", "pcfs.b"):
        if os.path.exists(name):
            os.unlink(name)
    run(["init"], "/dev/null", "replies")


def least(what):
    return min(what() for _ in range(3))


def follow(stream, **more):
    def timed():
        fresh()
        return run(["follow"], stream, "replies", **more)

    return timed


def copy(stream):
    with open(stream, "rb") as source:
        begin = time.perf_counter()
        with subprocess.Popen(["cat"], stdin=source, stdout=subprocess.PIPE) as child:
            while child.stdout.read(65_536):
                pass
    return time.perf_counter() - begin


def export(number, stream):
    """The seconds until all that is exported was read from a pipe."""
    begin = time.perf_counter()
    with subprocess.Popen([program, "export", str(number)], stdout=subprocess.PIPE) as child, open(stream, "wb") as out:
        while piece := child.stdout.read(65_536):
            out.write(piece)
    return time.perf_counter() - begin


def bare(count, wait):
    """A loop of the same writes, each with a wait in the place of its sync."""
    file = os.open("bare", os.O_RDWR | os.O_CREAT)
    begin, at = time.perf_counter(), 89
    for _ in range(count):
        for piece, place in ((bytes(140), at + 1), (b"\1", at)):
            os.pwrite(file, piece, place)
            end = time.perf_counter() + wait
            while time.perf_counter() < end:
                pass
        at += 140
    taken = time.perf_counter() - begin
    os.close(file)
    os.unlink("bare")
    return taken


with open("pcfs.secrets", "w") as out:
    out.write("seal 0102\nkey admin 01\n")
fresh()
script(POLICY + WRITE)
script(["at 100", "as alice"] + [f"do write #2 {i % 1000} 00 @2" for i in range(MANY - 5)])
opening, whole = least(lambda: export(MANY + 1, "nothing")), least(lambda: export(1, "all"))
size = os.path.getsize("all")
pipe = least(lambda: copy("all"))
out_taken = max(whole - opening, 1e-9)
print(f"export: {size / out_taken / 1e6:.0f} MB a second, {MANY / out_taken:.0f} events (opening {opening:.2f} s taken off); cat {size / pipe / 1e6:.0f} MB")
with open("all", "rb") as source, open("some", "wb") as out:
    data, place = source.read(), 0
    for _ in range(FEW):
        place += 13 + int.from_bytes(data[place + 9 : place + 13], "big")
    out.write(data[:place])
taken, beside = least(follow("all")), least(lambda: bare(MANY, 0))
with open("replies", "rb") as told:
    assert told.read().count(b"kept") == MANY
print(f"follow, in memory: {MANY / taken:.0f} events a second; two writes in Python {MANY / beside:.0f}")
if os.path.exists("slow.so"):
    taken = least(follow("some", env=dict(os.environ, LD_PRELOAD=os.path.realpath("slow.so"))))
    beside = least(lambda: bare(FEW, 50e-6))
    print(f"follow, two syncs of 100 us: {FEW / taken:.0f} events a second; the bare loop {FEW / beside:.0f}")
