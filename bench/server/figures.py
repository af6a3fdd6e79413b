"""What server.sh measures, and its figures; the script says what is timed."""
import os
import socket
import subprocess
import sys
import time
work = sys.argv[1]
program = f"{work}/crates/bench_server/out/bench_server"

def free_port():
    with socket.socket() as s:
        s.bind(("127.0.0.1", 0))
        return str(s.getsockname()[1])

def client(port, *words):
    done = subprocess.run([f"{work}/client", port, *words], stdout=subprocess.PIPE, text=True, timeout=120)
    return done.stdout.strip()

def started(make):
    port = free_port()
    server = subprocess.Popen(make(port), stdout=subprocess.PIPE, text=True)
    for _ in range(100):
        time.sleep(0.02)
        with socket.socket() as s:
            if s.connect_ex(("127.0.0.1", port and int(port))) == 0:
                return server, port
    sys.exit("the server does not listen")

def state(pid):
    words = {}
    for line in open(f"/proc/{pid}/status"):
        name, value = line.split(":", 1)
        words[name] = value.split()
    spent = open(f"/proc/{pid}/stat").read().rsplit(")", 1)[1].split()
    return int(words["VmRSS"][0]), int(words["Threads"][0]), (int(spent[11]) + int(spent[12])) / os.sysconf("SC_CLK_TCK")

ours, peer = {}, {}
for name, make, into in (("pcfs_server", lambda port: [program, port, "1000000", "64"], ours), ("C", lambda port: [f"{work}/peer", port], peer)):
    server, port = started(make)
    try:
        client(port, "conns", "200")
        memory, threads, _ = state(server.pid)
        into["connections a second"] = float(client(port, "conns", "10000"))
        later, more, _ = state(server.pid)
        print(f"{name}: 10,000 connections one after another: {later - memory} KiB and {more - threads} threads more than before")
        middle, most = client(port, "late", "300").split()
        print(f"{name}: from connecting to the first echo while 32 wait: {middle} us in the middle, {most} us for nine of ten")
        for count, each in (("1", "20000"), ("8", "10000"), ("64", "2000")):
            into[f"requests a second over {count}"] = float(client(port, "reqs", count, each))
        waiting = subprocess.Popen([f"{work}/client", port, "wait", "2"], stdout=subprocess.PIPE, text=True)
        waiting.stdout.readline()
        _, threads, before = state(server.pid)
        time.sleep(1.5)
        memory, _, after = state(server.pid)
        waiting.wait()
        print(f"{name}: while 64 wait: {threads} threads, {memory} KiB, {after - before:.2f} s of the processor in 1.5 s")
    finally:
        server.kill()
        server.wait()
for what in ours:
    print(f"{what}: {ours[what]:.0f}, in C {peer[what]:.0f}, ratio {ours[what] / peer[what]:.2f}")

server, port = started(lambda port: [program, port, "8", "4"])
try:
    other = subprocess.run([program, port, "1", "1"], stdout=subprocess.PIPE, text=True, timeout=20).stdout.strip()
    print(f"a second server on the same port: {other}")
    print(client(port, "bad"))
    print(f"the server ended: {server.communicate(timeout=20)[0].strip()}")
finally:
    server.kill()
    server.wait()
