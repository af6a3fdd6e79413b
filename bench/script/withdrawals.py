"""What script.sh measures of withdrawals, and its figures; the script says what is timed."""
import os
import subprocess
import sys
import time

program, work = sys.argv[1:]
STATEMENTS, ISSUES, OPERATIONS, WITHDRAWALS = 4096, 16384, 200000, 1000
made = ["at 100"] + [f"register - admin says may(user{i},#1,write) from 0 to 1000000" for i in range(STATEMENTS)]
made += [f"verify user{i % STATEMENTS} #1 write {i % STATEMENTS + 1} saysR(claim(0,init(1)))" for i in range(ISSUES)]
operations = ["as user0"] + ['do setattr #1 color "blue" @1'] * OPERATIONS


def run(lines):
    """Seconds of the program over the lines, each of which has to be done."""
    with open(f"{work}/input", "w") as out:
        out.write("".join(line + "\n" for line in lines))
    with open(f"{work}/input", "rb") as source:
        begun = time.perf_counter()
        ended = subprocess.run([program, "script"], stdin=source, stdout=subprocess.PIPE, cwd=work, check=True)
        seconds = time.perf_counter() - begun
    assert all(reply.startswith((b"ok", b"procap")) for reply in ended.stdout.splitlines()), "a line was not done"
    return seconds


texts = {
    "made": made,
    "standing": made + operations,
    "withdrawn": made + [f"withdraw {STATEMENTS} -"] + operations,
    "withdrawals": made + [f"withdraw {number} -" for number in range(2, WITHDRAWALS + 2)],
}
runs = {name: [] for name in texts}
for _ in range(3):
    for name, lines in texts.items():
        runs[name].append(run(lines))
seconds = {name: min(several) for name, several in runs.items()}
standing, withdrawn = ((seconds[name] - seconds["made"]) / OPERATIONS * 1e6 for name in ("standing", "withdrawn"))
withdrawal = (seconds["withdrawals"] - seconds["made"]) / WITHDRAWALS * 1e6
print(f"{STATEMENTS:,} statements and {ISSUES:,} issues: an operation under an issue takes {standing:.2f} us before the first withdrawal and {withdrawn:.2f} after it,")
print(f"  {withdrawn - standing:+.2f} us (aim: at most +0.3); a withdrawal takes {withdrawal:.0f} us (aim: under 1,000)")
