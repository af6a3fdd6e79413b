"""What stored.sh measures, and its figures; the script says what is timed."""
import os
import shutil
import sqlite3
import subprocess
import sys
import tempfile
import time

program, COUNT, MANY = sys.argv[1], 4000, 100000
POLICY = ["at 100", "register - admin says may(alice,#1,write) from 0 to 200", "verify alice #1 write 1 saysR(claim(0,init(1)))", "as alice"]
# two nodes alone are made for the many events: the others write one byte
WRITE = ["register - admin says may(alice,#2,write) from 0 to 200", "verify alice #2 write 2 saysR(claim(0,init(1)))", "do create #1 f @1"]


def clear():
    for name in os.listdir("."):
        if name not in ("pcfs.secrets",):
            os.unlink(name)


def run(words, lines):
    with open("lines", "w") as out:
        out.write("".join(line + "\n" for line in lines))
    with open("lines") as lines_in, open("replies", "wb") as replies:
        begin = time.perf_counter()
        status = subprocess.run([program, *words], stdin=lines_in, stdout=replies).returncode
        taken = time.perf_counter() - begin
    with open("replies", "rb") as replies:
        told = replies.read()
    assert status == 0, (status, told[-80:])
    return taken, told


def stored():
    clear()
    run(["init"], [])
    run(["script", "--stored"], POLICY)
    begun, _ = run(["script", "--stored"], [])
    taken, told = run(["script", "--stored"], ["at 100", "as alice"] + [f"do create #1 n{i} @1" for i in range(COUNT)])
    assert told.count(b"ok node") == COUNT
    return taken - begun


def bare():
    clear()
    file = os.open("bare", os.O_RDWR | os.O_CREAT)
    os.pwrite(file, b"\0" * 90, 0)
    os.fsync(file)
    begin, at = time.perf_counter(), 89
    for i in range(COUNT):
        piece = bytes(140)
        os.pwrite(file, piece, at + 1)
        os.fdatasync(file)
        os.pwrite(file, b"\1", at)
        os.fdatasync(file)
        at += len(piece)
    taken = time.perf_counter() - begin
    os.close(file)
    return taken


def sqlite():
    clear()
    base = sqlite3.connect("base", isolation_level=None)
    base.execute("pragma journal_mode = wal")
    base.execute("pragma synchronous = full")
    base.execute("create table event (number integer primary key, payload blob)")
    begin = time.perf_counter()
    for i in range(COUNT):
        base.execute("begin")
        base.execute("insert into event (payload) values (?)", (bytes(130),))
        base.execute("commit")
    taken = time.perf_counter() - begin
    base.close()
    return taken


def opened():
    taken, told = run(["script", "--stored"], [])
    return taken


def opened_memory():
    """Greatest memory of an opening, in bytes, read before the program ends: what the system tells of ended ones counts this one's too."""
    process = subprocess.Popen([program, "script", "--stored"], stdin=subprocess.PIPE, stdout=subprocess.PIPE)
    process.stdin.write(b"at 100\n")
    process.stdin.flush()
    assert process.stdout.readline() == b"ok\n"
    with open(f"/proc/{process.pid}/status") as status:
        most = next(int(line.split()[1]) * 1024 for line in status if line.startswith("VmHWM"))
    process.stdin.close()
    assert process.wait() == 0
    return most


def least(what):
    return min(what() for _ in range(3))


bare_time, stored_time, sqlite_time = least(bare), least(stored), least(sqlite)
for name, taken in (("two syncs", bare_time), ("pcfs", stored_time), ("SQLite", sqlite_time)):
    print(f"{name}: {COUNT / taken:.0f} events a second, {taken / COUNT * 1e6:.0f} us each")
print(f"pcfs takes {stored_time / bare_time:.3f} of two syncs, {stored_time / sqlite_time:.2f} of SQLite")
clear()
# the area of many events is made on a file system in memory, if there is one, and opened here
slow = os.getcwd()
fast = tempfile.mkdtemp(dir="/dev/shm" if os.access("/dev/shm", os.W_OK) else slow)
try:
    shutil.copy("pcfs.secrets", fast)
    os.chdir(fast)
    run(["init"], [])
    run(["script", "--stored"], POLICY + WRITE)
    run(["script", "--stored"], ["at 100", "as alice"] + [f"do write #2 {i % 1000} 00 @2" for i in range(MANY)])
    shutil.copy("pcfs.a", slow)
    os.chdir(slow)
finally:
    shutil.rmtree(fast)
size = os.path.getsize("pcfs.a")
taken, most = least(opened), opened_memory()
print(f"opening of {MANY} events, {size} bytes: {taken:.3f} s, {MANY / taken:.0f} events a second; {most / 1e6:.1f} MB at most, {most / size:.1f} times the area")
