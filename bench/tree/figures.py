"""What tree.sh measures, and its figures; the script says what is timed."""
import os
import shutil
import subprocess
import sys

OURS, PEER, MEMORY = sys.argv[1:4]
SIZES = [100, 1000, 16000]
SHAPES = ["in one directory", "in a chain of directories", "in one directory, names that share 60 of their 64 bytes"]
# What no call of the file system is like is timed alone.
ROWS = """lookup list create unlink mkdir rmdir rename rename_back read_64 write_64 cut fill read_64_of_1M write_64_of_1M
get replace set remove chown add drop move move_back holds_owner holds_attribute holds_directory""".split()


def run(words, into):
    said = subprocess.run(words, capture_output=True, text=True, timeout=60)
    if said.returncode != 0:
        print(f"{os.path.basename(words[0])} ended with {said.returncode}: {said.stderr.strip()[-200:]}")
    for line in said.stdout.split("\n"):
        if " " in line:
            row, time = line.split()
            time = int(time) / 32
            if time < 1e15:
                into[row] = min(into.get(row, time), time)


def peer(shape, size, into):
    folder = os.path.join(MEMORY, "tree")
    os.mkdir(folder)
    run([PEER, folder, str(shape), str(size)], into)
    subprocess.run(["rm", "-rf", folder], check=True)


def figure(time):
    return "-" if time is None else f"{time:,.0f}"


def ratio(time, other):
    return "-" if time is None or not other else f"{time / other:.2f}"


model = next((line.split(":")[1].strip() for line in open("/proc/cpuinfo") if line.startswith("model name")), "unknown")
print(f"processor: {model}")
if not PEER:
    print("no tmpfs beside it: a C compiler or a tmpfs is missing")
for shape, title in enumerate(SHAPES):
    ours = {size: {} for size in SIZES}
    theirs = {size: {} for size in SIZES}
    for _ in range(2):
        for size in SIZES:
            run([OURS, str(shape), str(size)], ours[size])
            if PEER:
                peer(shape, size, theirs[size])
    print(f"\n{title}: nanoseconds for one, at 100, 1,000 and 16,000 nodes, and 16,000 beside 100; the same on tmpfs; ours beside tmpfs at 16,000")
    for row in ROWS:
        mine = [ours[size].get(row) for size in SIZES]
        other = [theirs[size].get(row) for size in SIZES]
        cells = [f"{figure(time):>10}" for time in mine] + [f"{ratio(mine[2], mine[0]):>8}", "  |"]
        cells += [f"{figure(time):>10}" for time in other] + [f"{ratio(other[2], other[0]):>8}", "  |", f"{ratio(mine[2], other[2]):>8}"]
        print(f"{row:16}" + "".join(cells))
