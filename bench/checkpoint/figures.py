"""What checkpoint.sh measures, and its figures; the script says what is timed."""
import os
import shutil
import sqlite3
import subprocess
import sys
import time

program, memory, disk = sys.argv[1], sys.argv[2], os.getcwd()
FILES, STATEMENTS, ROUNDS = 16383, 4096, 7
MIB, PIECE = 1 << 20, 65536
TOGETHER = 32 * MIB
ROOT = ["at 100", "register - admin says may(alice,#1,write) from 0 to 200", "verify alice #1 write 1 saysR(claim(0,init(1)))", "as alice"]
OWNER = "register - admin says forall F:file. forall K:principal. owner(F,K) => may(K,F,write) from 0 to 200"


def verify(file):
    return f"verify alice #{file} write 2 saysR(claim(0,forallL(1,#{file},forallL(2,alice,impL(3,ctime,ctime,interR,init(4))))))"


class Script:
    """A stored script, to which one line after another is said."""

    def __init__(self, folder):
        self.process = subprocess.Popen([program, "script", "--stored"], cwd=folder, stdin=subprocess.PIPE, stdout=subprocess.PIPE)

    def ask(self, line, wanted):
        """Seconds from the line to its reply."""
        begin = time.perf_counter()
        self.process.stdin.write(line + b"\n")
        self.process.stdin.flush()
        told = self.process.stdout.readline()
        taken = time.perf_counter() - begin
        assert told.startswith(wanted), (line[:100], told[:100], self.process.poll())
        return taken

    def processor(self):
        """Seconds that it has had of a processor."""
        with open(f"/proc/{self.process.pid}/schedstat") as file:
            return int(file.read().split()[0]) / 1e9

    def memory(self, kind):
        with open(f"/proc/{self.process.pid}/status") as file:
            return next(int(line.split()[1]) * 1024 for line in file if line.startswith(kind))

    def forget_peak(self):
        with open(f"/proc/{self.process.pid}/clear_refs", "w") as file:
            file.write("5")

    def end(self):
        self.process.stdin.close()
        assert self.process.wait() == 0
        self.process.stdout.close()


def run(words, folder, lines=()):
    done = subprocess.run([program, *words], cwd=folder, input="".join(line + "\n" for line in lines).encode(), stdout=subprocess.PIPE)
    told = done.stdout.splitlines()
    assert done.returncode == 0 and all(reply.startswith(b"ok") for reply in told), (done.returncode, [reply for reply in told if not reply.startswith(b"ok")][:3])


def clear(folder):
    for name in os.listdir(folder):
        if name != "pcfs.secrets":
            os.unlink(f"{folder}/{name}")


def writes(sizes):
    """Lines that fill the first files up to these sizes."""
    for one, size in enumerate(sizes):
        for at in range(0, size, PIECE):
            yield f"do write #{2 + one} {at} {one % 251:02x}{'5a' * (min(PIECE, size - at) - 1)} @{2 + one}"


def full_tree(sizes):
    """Makes the store in memory, and a checkpoint of it; its area comes to the disk."""
    clear(memory)
    clear(disk)
    run(["init"], memory)
    run(["script", "--stored"], memory, [*ROOT, OWNER])
    run(["script", "--stored"], memory, (f"register - admin says p{one}(#{one}) from 0 to 200" for one in range(STATEMENTS - 2)))
    run(["script", "--stored"], memory, ["at 100", "as alice", *(f"do create #1 file.{one} @1" for one in range(FILES))])
    run(["script", "--stored"], memory, map(verify, range(2, len(sizes) + 2)))
    run(["script", "--stored"], memory, ["at 100", "as alice", *writes(sizes)])
    run(["checkpoint"], memory)
    shutil.copy(f"{memory}/pcfs.b", disk)


def checkpoint(script):
    """Seconds of a checkpoint, and those of a processor in it."""
    before = script.processor()
    return script.ask(b"checkpoint", b"ok checkpoint"), script.processor() - before


def copy_and_sync():
    if os.path.exists("copy"):
        os.unlink("copy")
    begin = time.perf_counter()
    subprocess.run(["cp", "bytes", "copy"], check=True)
    subprocess.run(["sync", "copy"], check=True)
    return time.perf_counter() - begin


def write_and_sync():
    """The same bytes by one write and one sync, without a process."""
    with open("bytes", "rb") as file:
        data = file.read()
    file = os.open("copy", os.O_RDWR | os.O_CREAT)
    begin = time.perf_counter()
    assert os.pwrite(file, data, 0) == len(data)
    os.fsync(file)
    taken = time.perf_counter() - begin
    os.close(file)
    return taken


def database(image, sizes):
    """A database with a row for each node, statement and issue, of as many bytes together."""
    base = sqlite3.connect("base", isolation_level=None)
    base.execute("pragma page_size = 16384")
    base.execute("pragma synchronous = full")
    base.execute("create table node (number integer primary key, kind integer, owner text, directory integer, name text, contents blob)")
    base.execute("create table row (number integer primary key, bytes blob)")
    base.execute("begin")
    contents = (bytes([one % 251]) * (sizes[one] if one < len(sizes) else 0) for one in range(FILES))
    base.executemany("insert into node values (?, 1, 'alice', 1, ?, ?)", ((one, f"file.{one}", data) for one, data in enumerate(contents)))
    rows = STATEMENTS + len(sizes)
    left = max(0, image - TOGETHER - FILES * 40)
    base.executemany("insert into row values (?, ?)", ((one, bytes(left // rows)) for one in range(rows)))
    base.execute("commit")
    return base


def vacuum(base):
    if os.path.exists("into"):
        os.unlink("into")
    begin = time.perf_counter()
    base.execute("vacuum into 'into'")
    file = os.open("into", os.O_RDWR)
    os.fsync(file)
    os.close(file)
    return time.perf_counter() - begin


def opening():
    """Seconds of an opening that does nothing more, those of a processor in it, and its greatest memory."""
    begin = time.perf_counter()
    script = Script(disk)
    script.ask(b"at 100", b"ok")
    taken = time.perf_counter() - begin
    found = taken, script.processor(), script.memory("VmHWM")
    script.end()
    return found


def seconds_of_writes():
    """Seconds of one write of 4,096 bytes into a file of 8 KiB, and into one of 1 MiB: the least of many, in turns."""
    shutil.rmtree(f"{memory}/writes", ignore_errors=True)
    os.makedirs(f"{memory}/writes")
    shutil.copy("pcfs.secrets", f"{memory}/writes")
    run(["init"], f"{memory}/writes")
    run(["script", "--stored"], f"{memory}/writes", [*ROOT, OWNER, "do create #1 small @1", "do create #1 large @1", verify(2), verify(3)])
    script = Script(f"{memory}/writes")
    for line in b"at 100", b"as alice", b"do truncate #2 8192 @2", b"do truncate #3 1048576 @3":
        script.ask(line, b"ok")
    piece, times = b"5a" * 4096, ([], [])
    for one in range(400):
        times[0].append(script.ask(b"do write #2 2048 %s @2" % piece, b"ok"))
        times[1].append(script.ask(b"do write #3 %d %s @3" % (2048 + 4096 * (one % 250), piece), b"ok"))
    script.end()
    return [(min(some), sorted(some)[len(some) // 2]) for some in times]


def times(script, base):
    """Seconds of a checkpoint and of a processor in it, of cp and sync, of a write and sync, and of VACUUM INTO: the least, in turns."""
    rounds = [(*checkpoint(script), copy_and_sync(), write_and_sync(), vacuum(base)) for _ in range(ROUNDS)]
    return map(min, zip(*rounds))


def tell(what, sizes):
    """Makes a full tree with so many bytes in its first files, and prints the figures of its checkpoint."""
    full_tree(sizes)
    shutil.copy("pcfs.b", "bytes")
    image = os.path.getsize("bytes") - 25
    base = database(image, sizes)
    script = Script(disk)
    script.ask(b"at 100", b"ok")
    before = script.memory("VmRSS")
    script.forget_peak()
    made, used, copied, written, vacuumed = times(script, base)
    most = script.memory("VmHWM")
    script.end()
    base.close()
    opened = [opening() for _ in range(ROUNDS)]
    seconds, busy, peak = (least(some) for least, some in zip((min, min, max), zip(*opened)))
    print(f"{what}: an image of {image} bytes of {FILES + 1} nodes, {TOGETHER} bytes of contents, {STATEMENTS} statements, {len(sizes) + 1} issues")
    print(f"  checkpoint: {made * 1000:.0f} ms, {used * 1000:.0f} of a processor, {image / made / 1e6:.0f} MB a second; cp and sync {copied * 1000:.0f} ms, so {made / copied:.2f} times that")
    print(f"  one write of the same bytes and a sync: {written * 1000:.0f} ms, so {made / written:.2f} times that")
    print(f"  VACUUM INTO of {os.path.getsize('into')} bytes, and a sync: {vacuumed * 1000:.0f} ms, so {made / vacuumed:.2f} times that")
    print(f"  memory: {most / MIB:.0f} MiB at most, {most / image:.2f} of the image; {before / MIB:.0f} MiB before, so {(most - before) / image:.2f} of the image more")
    print(f"  opening: {seconds * 1000:.0f} ms, {busy * 1000:.0f} of a processor, {peak / MIB:.0f} MiB at most, {peak / image:.2f} of the image", flush=True)


tell("32 files", [MIB] * 32)
tell("small files", [TOGETHER // (FILES + 1)] * (FILES - 1) + [2 * TOGETHER // (FILES + 1)])
(small, small_middle), (large, large_middle) = seconds_of_writes()
print(f"a write of 4,096 bytes, with its event: into 8 KiB {small * 1e6:.1f} us, into 1 MiB {large * 1e6:.1f} us, so {large / small:.2f} times that; in the middle {small_middle * 1e6:.1f} and {large_middle * 1e6:.1f} us")
