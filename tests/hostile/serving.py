"""The program at work: a store in a folder, `serve` on a port, and what the system says of it."""
import glob
import os
import shutil
import socket
import subprocess
import time
from contextlib import suppress
from random import SystemRandom

from areas import bytes_of, generation, is_open

AREAS = ("pcfs.a", "pcfs.b")
TICK = os.sysconf("SC_CLK_TCK")
# It names a procap that nobody sealed: the reply has the number of the last event.
PROBE = ("do create #1 x " + "470105616c696365000000000000000102" "0000" + "00" * 32 + "\n").encode()


def free_port():
    """A port that nobody has, and that is not of those which the system gives to whoever connects: none of these takes it before a
    server does."""
    while True:
        port = SystemRandom().randint(10_000, 32_000)
        with socket.socket() as one, suppress(OSError):
            one.bind(("127.0.0.1", port))
            return port


def is_listened(port):
    """Whether somebody listens on this port of any address."""
    with open("/proc/net/tcp", encoding="ascii") as file:
        return any(words[1].endswith(f":{port:04X}") and words[3] == "0A" for words in map(str.split, file))


def waited_by(process):
    """How many nanoseconds the threads of a process have waited for a processor; 0 if the system does not tell."""
    together = 0
    for path in glob.glob(f"/proc/{process}/task/*/schedstat"):
        try:
            with open(path, encoding="ascii") as file:
                together += int(file.read().split()[1])
        except OSError:
            pass
    return together


class Store:
    """A folder with a secrets file and, once it was made, a store."""

    def __init__(self, program, folder, secrets):
        self.program, self.folder, self.secrets = program, folder, secrets
        shutil.rmtree(folder, ignore_errors=True)
        os.makedirs(folder)
        with open(f"{folder}/pcfs.secrets", "w", encoding="ascii") as file:
            file.write(secrets)

    def run(self, *words, given=b"", patience=300):
        """What the program writes with these words, and its status."""
        with self.start(*words, given=subprocess.PIPE) as process:
            try:
                return process.communicate(given, timeout=patience)[0], process.returncode
            except subprocess.TimeoutExpired:
                process.kill()
                return b"it did not end", None

    def found(self):
        """What an opening finds: the number of events and 0, or its line and its status."""
        written, status = self.run("script", "--stored", given=PROBE)
        line = written.decode("latin-1").rstrip("\n")
        denied = "denied 1 seal at "
        return (int(line[len(denied) :]), status) if line.startswith(denied) else (line, status)

    def area(self, name="pcfs.a"):
        return bytes_of(f"{self.folder}/{name}")

    def heads(self):
        """The generations of the open areas, with the names of their files."""
        heads = {}
        for name in reversed(AREAS):
            head = bytes_of(f"{self.folder}/{name}", 16)
            if is_open(head):
                heads[generation(head)] = name
        return heads

    def newest(self):
        """The area that counts."""
        return self.area(self.name_of_newest())

    def name_of_newest(self):
        heads = self.heads()
        return heads[max(heads)]

    def memory(self):
        """How many KiB of memory an opening takes that does nothing more."""
        with self.start("script", "--stored", given=subprocess.PIPE) as process:
            process.stdin.write(b"as admin\n")
            process.stdin.flush()
            process.stdout.readline()
            with open(f"/proc/{process.pid}/status", encoding="ascii") as file:
                most = next((line.split()[1] for line in file if line.startswith("VmHWM")), 0)
            process.communicate()
        return int(most)

    def memory_of(self, area):
        """The same of an opening of this area."""
        self.put(area)
        return self.memory()

    def size(self):
        return os.path.getsize(f"{self.folder}/{self.name_of_newest()}")

    def start(self, *words, given=subprocess.DEVNULL):
        """The program at work with these words."""
        return subprocess.Popen(
            [self.program, *words], cwd=self.folder, stdin=given, stdout=subprocess.PIPE, stderr=subprocess.DEVNULL
        )

    def put(self, first, second=b""):
        """Puts these bytes in the place of the areas; an area without bytes has no file."""
        for name, area in zip(AREAS, (first, second)):
            path = f"{self.folder}/{name}"
            if area:
                with open(path, "wb") as file:
                    file.write(area)
            elif os.path.exists(path):
                os.unlink(path)

    def keep(self, number):
        """Keeps the folder as it is, beside it."""
        folder = f"{self.folder}.{number}"
        shutil.copytree(self.folder, folder, dirs_exist_ok=True)
        return folder


class Running:
    """A server of a store, of lines or by another word of 9P2000."""

    def __init__(self, store, count, port=None, word="serve"):
        self.port, self.count = port or free_port(), count
        self.process = store.start(word, str(self.port), str(count))
        self.memory = self.threads = self.files = 0

    def runs(self):
        return self.process.poll() is None

    def wait(self, patience=600):
        """Waits until it listens, without a connection."""
        until = time.monotonic() + patience
        while self.runs() and not is_listened(self.port) and time.monotonic() < until:
            time.sleep(0.05)

    def watch(self):
        """Takes note of the memory, threads and open files that it has; those of the moment, and none if it has ended."""
        try:
            with open(f"/proc/{self.process.pid}/status", encoding="ascii") as file:
                status = dict(line.rstrip("\n").split(":\t", 1) for line in file if ":\t" in line)
            files = len(os.listdir(f"/proc/{self.process.pid}/fd"))
        except OSError:
            return None
        if "VmHWM" not in status:
            return None
        now = int(status["VmRSS"].split()[0]), int(status["Threads"]), files
        self.memory = max(self.memory, int(status["VmHWM"].split()[0]))
        self.threads, self.files = max(self.threads, now[1]), max(self.files, files)
        return now

    def processor(self):
        """How many seconds of the processor it has used."""
        with open(f"/proc/{self.process.pid}/stat", encoding="ascii") as file:
            words = file.read().rsplit(")", 1)[1].split()
        return (int(words[11]) + int(words[12])) / TICK

    def waited(self):
        """How many seconds its threads and those of the test have been ready to run, and waited for a processor. It grows faster than
        the clock if several wait."""
        return (waited_by(self.process.pid) + waited_by("self")) / 10**9

    def ended(self, patience=60):
        """What it wrote at its end, and its status."""
        try:
            written, _ = self.process.communicate(timeout=patience)
        except subprocess.TimeoutExpired:
            self.kill()
            return b"it did not end", None
        return written, self.process.returncode

    def kill(self):
        self.process.kill()
        self.process.communicate()
