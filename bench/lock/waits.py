"""What lock_waits.sh measures, and its figures; the script says what is timed."""
import resource
import statistics
import subprocess
import sys

PROGRAMS = sys.argv[1:]
RUNS = 5
# title, rounds in a turn and between turns, microseconds of a pause, turns
ROWS = [
    ("ten microseconds of work", 6500, 6500, 0, 40_000),
    ("ten microseconds of work, and a pause", 6500, 3000, 50, 40_000),
    ("a microsecond of work", 650, 650, 0, 300_000),
]


def run(program, passes, turns, inside, outside, pause):
    """Nanoseconds a turn on the clock and of processor time, and microseconds of the four waits."""
    before = resource.getrusage(resource.RUSAGE_CHILDREN)
    words = [program] + [str(n) for n in (passes, turns, inside, outside, pause)]
    told = subprocess.run(words, capture_output=True, text=True, timeout=120, check=True).stdout.split()
    after = resource.getrusage(resource.RUSAGE_CHILDREN)
    spent = after.ru_utime + after.ru_stime - before.ru_utime - before.ru_stime
    whole, *waits = [int(word) for word in told]
    return [whole / turns, spent * 1e9 / turns] + [wait / 1e3 for wait in waits]


for title, inside, outside, pause, turns in ROWS:
    print(title)
    alone = {}
    for passes in [1, 8, 64]:
        runs = {program: [] for program in PROGRAMS}
        for _ in range(RUNS):
            for program in PROGRAMS:
                runs[program].append(run(program, passes, turns, inside, outside, pause))
        for number, program in enumerate(PROGRAMS):
            time, spent, *waits = [statistics.median(column) for column in zip(*runs[program])]
            alone.setdefault(program, time)
            told = ", ".join(f"{wait:.1f}" for wait in waits)
            name = "peer " if number else ""
            print(f"{passes:3} passes: {name}{time:7.0f} ns, {spent:7.0f} ns of processor, {alone[program] / time:4.2f} of one pass's throughput; waits {told} us")
