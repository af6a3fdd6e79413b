"""What lock.sh measures, and its figures; the script says what is timed."""
import resource
import subprocess
import sys

PROGRAM = sys.argv[1]


# Nanoseconds a turn: on the clock, and of processor time.
def run(kind, passes, turns, rounds):
    before = resource.getrusage(resource.RUSAGE_CHILDREN)
    words = [PROGRAM, kind, str(passes), str(turns), str(rounds)]
    time = int(subprocess.run(words, capture_output=True, text=True, timeout=60, check=True).stdout)
    after = resource.getrusage(resource.RUSAGE_CHILDREN)
    spent = after.ru_utime + after.ru_stime - before.ru_utime - before.ru_stime
    return time / turns, spent * 1e9 / turns


for title, rounds, turns in [("no work", 0, 500_000), ("a microsecond of work", 650, 100_000)]:
    print(title)
    alone = {}
    for passes in [1, 2, 4, 16, 64]:
        row = []
        for kind in ["lock", "mutex"]:
            runs = [run(kind, passes, turns, rounds) for _ in range(3)]
            time, spent = min(t for t, _ in runs), min(s for _, s in runs)
            alone.setdefault(kind, time)
            row.append(f"{kind} {time:6.0f} ns, {spent:6.0f} ns of processor, {alone[kind] / time:4.2f} of one pass's throughput")
            row.append(time)
        print(f"{passes:3} passes: {row[0]}; {row[2]}; ratio {row[1] / row[3]:.2f}")
