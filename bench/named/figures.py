"""What named.sh measures, and its figures; the script says what is timed."""
import resource
import subprocess
import sys
from pathlib import Path

TESTS = Path(__file__).resolve().parents[2] / "tests"
sys.path[:0] = [str(TESTS / "model"), str(TESTS / "hostile"), str(TESTS.parent / "examples"), str(TESTS)]

import switches
from versions import SECRETS, Kept

work, *programs = sys.argv[1:]
STATEMENTS, ISSUES, LINES, NAMED, TIMES = 4096, 16384, 50_000, 64, 3
PROOF = "saysR(claim(0,init({})))"
MANY = f"verify user0 #1 write {','.join(map(str, range(1, NAMED + 1)))} {PROOF.format(NAMED)}"


def made(has_names):
    """A state with so many statements and issues, of this program or of an earlier one."""
    switches.names, kept = has_names, Kept(True)
    for number in range(STATEMENTS):
        kept.answer(f"register - admin says may(user{number},#1,write) from 0 to 1000000")
    for number in range(ISSUES):
        one = number % STATEMENTS
        kept.answer(f"verify user{one} #1 write {one + 1} {PROOF.format(1)}")
    return kept


def processor():
    """Seconds of a processor that the processes which ended have had."""
    used = resource.getrusage(resource.RUSAGE_CHILDREN)
    return used.ru_utime + used.ru_stime


def seconds(program, first, lines, wanted):
    """Seconds of a processor that the program takes over this area and these lines, of which the last has to be told this."""
    Path(work, "pcfs.secrets").write_text(SECRETS, encoding="ascii")
    Path(work, "pcfs.a").write_bytes(first)
    Path(work, "pcfs.b").unlink(missing_ok=True)
    given = "".join(f"{line}\n" for line in lines).encode()
    begun = processor()
    ended = subprocess.run([program, "script", "--stored"], input=given, stdout=subprocess.PIPE, cwd=work, check=True)
    taken = processor() - begun
    last = ended.stdout.decode().splitlines()[-1:]
    assert last == wanted, f"{last} and not {wanted}"
    return taken


def least(cases):
    """The least times of some cases, each of which is a program, an area, lines and the last reply."""
    runs = {name: [] for name in cases}
    for _ in range(TIMES):
        for name, case in cases.items():
            runs[name].append(seconds(*case))
    return {name: min(several) for name, several in runs.items()}


earlier = made(False)
image = earlier.image_now()
earlier.begin(image[1:-4])
old = earlier.area()
earlier.begin(image)
today = earlier.area()
begin = [MANY, f"withdraw {STATEMENTS} -", "as user0", "do create #1 a @1"]
event = STATEMENTS + ISSUES + 3
cases = {"made": (programs[0], old, begin, ["ok node #2"])}
for name, issue in ("none", 1), ("many", ISSUES + 1):
    cases[name] = programs[0], old, begin + [f"do create #1 a @{issue}"] * LINES, [f"refused 5 at {event}"]
found = least(cases)
none, many = ((found[name] - found["made"]) / LINES * 1e6 for name in ("none", "many"))
print(f"an operation under a grant that names nothing takes {none:.2f} us, and under one that names {NAMED} statements {many:.2f}: {many - none:+.2f} us (aim: at most +0.3)")

named = made(True)
named.begin(named.image_now())
openings = {"without a version": (programs[0], old, [], []), "of today": (programs[0], today, [], []), "of today, with names": (programs[0], named.area(), [], [])}
if programs[1:]:
    openings["of today, by the other program"] = programs[1], today, [], []
print("openings of images", ", ".join(f"{name} {taken * 1e3:.1f} ms" for name, taken in least(openings).items()))
