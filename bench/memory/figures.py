"""What memory.sh measures, and its figures; the script says what is measured."""
import os
import subprocess
import sys
from itertools import combinations
from statistics import median

program, work = sys.argv[1:]
PROOF = "saysR(claim(0,init(1)))"
HEAD = f"""at 100
register - admin says may(alice,#1,write) from 0 to 200
verify alice #1 write 1 {PROOF}
register - admin says may(alice,#2,read) from 0 to 200
verify alice #2 read 2 {PROOF}
as alice
do create #1 notes @1
"""
READ = "do read #2 0 10 @2\n"
ISSUE = f"as admin\nverify alice #2 read 2 {PROOF}\n"


def run(*words, text=""):
    """Greatest memory of the program over this text, in bytes."""
    with open(f"{work}/input", "w", encoding="ascii") as out:
        out.write(text)
    with open(f"{work}/input", "rb") as source:
        process = subprocess.Popen([program, *words], stdin=source, stdout=subprocess.DEVNULL, stderr=subprocess.DEVNULL, cwd=work)
        _, status, usage = os.wait4(process.pid, 0)
    if status:
        sys.exit(f"{' '.join(words)}: status {status}")
    return usage.ru_maxrss * 1024


def stored(line, count):
    """Memory of a new store over this line so many times, and the bytes of its area."""
    for name in ("pcfs.a", "pcfs.b"):
        if os.path.exists(f"{work}/{name}"):
            os.remove(f"{work}/{name}")
    run("init")
    memory = run("script", "--stored", text=HEAD + line * count)
    return memory, os.path.getsize(f"{work}/pcfs.a")


def line_through(points):
    """The slope of the line through these points, the median of those between two of them, and how far a point is from it at most."""
    slope = median((y - v) / (x - u) for (u, v), (x, y) in combinations(points, 2))
    base = median(y - slope * x for x, y in points)
    return slope, max(abs(y - base - slope * x) for x, y in points)


def measured(name, line, counts):
    """Prints what one more takes, and how well the line fits; the bytes of the last area."""
    taken = [(count, *stored(line, count)) for count in counts]
    memory, beside = line_through([(count, memory) for count, memory, _ in taken])
    area, _ = line_through([(count, area) for count, _, area in taken])
    share = 100 * beside / (memory * (counts[-1] - counts[0])) if memory > 0 else float("inf")
    print(f"{name}: {memory:,.1f} bytes of memory, {area:,.1f} of the area; of {len(counts)} sizes from {counts[0]:,} to {counts[-1]:,} the farthest is {beside / 1e6:.2f} MB off the line, {share:.1f} % of its rise")
    return taken[-1][2]


SIZES = 5
measured("an issue", ISSUE, [3_200 * size for size in range(1, SIZES + 1)])
counts = [40_000 * size for size in range(1, SIZES + 1)]
large = measured("a read", READ, counts)
opened = run("script", "--stored", text="at 100\n")
print(f"an opening of {counts[-1]:,} reads: {opened / 1e6:,.1f} MB, {opened / large:.1f} times the area")
