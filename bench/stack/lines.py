"""The lines that stack.sh gives to the program, and how they are answered on little stack."""
import os
import resource
import subprocess
import sys

work, what, *programs = sys.argv[1:]


# Formulas of at most 512 nodes, as deep as each connective lets them be, and what registering them answers.
def binders(word, n, round_it, inner):
    return "".join(f"{round_it}{word} X{i}:principal. " for i in range(n)) + inner + (")" * n if round_it else "")


TRUE = "true"
shapes = {
    "forall 511": binders("forall", 511, "", TRUE),
    "exists 511": binders("exists", 511, "", TRUE),
    "forall 511, each in ()": binders("forall", 511, "(", TRUE),
    "exists 511, each in ()": binders("exists", 511, "(", TRUE),
    "() 512": "(" * 512 + TRUE + ")" * 512,
    "() 512, predicate": "(" * 512 + "p" + ")" * 512,
    "& 255 to the left": " & ".join([TRUE] * 256),
    "& 255 to the right": "true & (" * 254 + "true & true" + ")" * 254,
    "| 255 to the left": " | ".join([TRUE] * 256),
    "| 255 to the right": "true | (" * 254 + "true | true" + ")" * 254,
    "=> 255 to the right": "true => " * 255 + TRUE,
    "=> 255 to the right, each in ()": "true => (" * 254 + "true => true" + ")" * 254,
    "=> 255 to the left": "(" * 254 + "true => true" + ") => true" * 254,
    "says 255": "admin says " * 255 + TRUE,
    "says 255, each in ()": "admin says (" * 255 + TRUE + ")" * 255,
    "@ 170": TRUE + " @ [0,1]" * 170,
    "@ 170, each in ()": "(" * 170 + TRUE + ") @ [0,1]" * 170,
    "() 512 round @ 170": "(" * 512 + TRUE + " @ [0,1]" * 170 + ")" * 512,
    "forall, says, () by turns": "(forall X:principal. (X says " * 170 + TRUE + "))" * 170,
    "forall, =>, () by turns": "(forall X:principal. (true => " * 170 + TRUE + "))" * 170,
}
statement = {name: f"register - admin says {text} from 0 to 1000" for name, text in shapes.items()}

# Texts with a fault at the deepest place.
at = len("admin says ")
faults = {
    "() 513": ("(" * 513 + TRUE + ")" * 513, f"bad 4 5 {at + 512}"),
    "() 512 and a bad token": ("(" * 512 + "%", f"bad 4 1 {at + 512}"),
    "() 512 not closed": ("(" * 512 + TRUE, None),
    "forall 512": (binders("forall", 512, "", TRUE), None),
    "forall 511, ctime": (binders("forall", 510, "", "p(ctime)"), None),
    "& 256 to the right": ("true & (" * 255 + "true & true" + ")" * 255, None),
    "=> 255, then a bad token": ("true => " * 255 + "%", None),
    "says 255, then a bad token": ("admin says (" * 255 + "%", None),
}

# Proofs of depth 200 whose hypotheses are as deep as a formula may be.
MAY = "register - admin says may(alice,#1,write) from 0 to 1000"
CHECK = "check alice #1 write"
VERIFY = "verify alice #1 write"


def chain(rule, n, first, last, rest=""):
    """rule(first, rule(first + 1, .. last)): n times, each on what the one before gave."""
    return "".join(rule(first + i) for i in range(n)) + last + (rest + ")") * n


# Each cites MAY, hypothesis 0 and as a truth 2, and a statement of its own, 1 and as a truth 3.
proofs = {
    "forallL 196": (statement["forall 511"], "saysR(claim(0,claim(1," + chain(lambda h: f"forallL({h},alice,", 196, 3, "init(2)") + ")))"),
    "existsL 196": (statement["exists 511"], "saysR(claim(0,claim(1," + chain(lambda h: f"existsL({h},", 196, 3, "init(2)") + ")))"),
    "impL 196, second premise": (statement["=> 255 to the right"], "saysR(claim(0,claim(1," + chain(lambda h: f"impL({h},ctime,ctime,trueR,", 196, 3, "init(2)") + ")))"),
    "atL 170": (statement["@ 170"], "saysR(claim(0,claim(1," + chain(lambda h: f"atL({h},", 170, 3, "init(2)") + ")))"),
    "andL 196": (statement["& 255 to the right"], "saysR(claim(0,claim(1," + "".join(f"andL({3 + 2 * i}," for i in range(196)) + "init(2)" + ")" * 196 + ")))"),
    "claim 197": (statement["forall 511"], "saysR(claim(0," + "claim(1," * 197 + "init(2)" + ")" * 197 + "))"),
    "claim 197, not the goal": (statement["forall 511"], "saysR(claim(0," + "claim(1," * 197 + "init(3)" + ")" * 197 + "))"),
}


def right(n, goal, rule, leaf):
    """A statement `goal => may`, whose left premise is proved by n right rules."""
    return (
        f"register - admin says ({goal}) => may(alice,#1,write) from 0 to 1000",
        f"saysR(claim(0,claim(1,impL(3,ctime,ctime," + rule * n + leaf + ")" * n + ",init(2)))))",
    )


proofs["impR 195, first premise"] = right(195, "true => " * 195 + TRUE, "impR(", "trueR")
proofs["forallR 195, first premise"] = right(195, binders("forall", 195, "", TRUE), "forallR(", "trueR")
proofs["existsR 195, first premise"] = right(195, binders("exists", 195, "", TRUE), "existsR(alice,", "trueR")
proofs["orR1 195, first premise"] = right(195, " | ".join([TRUE] * 196), "orR1(", "trueR")
proofs["saysR 195, first premise"] = right(195, "admin says " * 195 + TRUE, "saysR(", "trueR")
proofs["atR 165, first premise"] = right(165, TRUE + " @ [0,1]" * 165, "atR(", "trueR")

too_deep = {
    "depth 201": ("saysR(claim(0," + "claim(0," * 198 + "init(2)" + ")" * 200, "bad 4 5"),
    "depth 200 and a bad token": ("saysR(claim(0," + "claim(0," * 197 + "%", "bad 4 1"),
}

cases = []
for name, line in statement.items():
    cases.append((f"register: {name}", [line], ["ok statement 1"]))
    cases.append((f"register twice: {name}", [line, line], ["ok statement 1", "rejected 3 1"]))
for name, (text, reply) in faults.items():
    cases.append((f"register: {name}", [f"register - admin says {text} from 0 to 1000"], [reply or "bad 4"]))
for name, (line, proof) in proofs.items():
    start, said = [MAY, line], ["ok statement 1", "ok statement 2"]
    checked = "unproved" if "not the goal" in name else "ok checked"
    issued = "unproved" if "not the goal" in name else "ok issue"
    cases.append((f"check: {name}", ["at 1", *start, f"{CHECK} 1,2 {proof}"], ["ok", *said, checked]))
    lines, replies = ["at 1", *start, f"{VERIFY} 1,2 {proof}"], ["ok", *said, issued]
    if issued == "ok issue":
        lines += ["as alice", "procap 1", "do create #1 a @1"]
        replies += ["ok", "ok procap", ""]
    cases.append((f"verify, procap, do: {name}", lines, replies))
for name, (proof, reply) in too_deep.items():
    cases.append((f"check: {name}", [MAY, f"{CHECK} 1 {proof}"], ["ok statement 1", reply]))
    cases.append((f"verify: {name}", [MAY, f"{VERIFY} 1 {proof}"], ["ok statement 1", reply]))


def run(program, lines, kib):
    def limit():
        resource.setrlimit(resource.RLIMIT_STACK, (kib * 1024, resource.RLIM_INFINITY))

    ran = subprocess.run([program, "script"], input="".join(it + "\n" for it in lines), text=True, capture_output=True, cwd=work, preexec_fn=limit)
    return ran.returncode, ran.stdout.split("\n")[:-1]


def is_right(said, wanted):
    status, replies = said
    return status == 0 and len(replies) == len(wanted) and all(a.startswith(b) for a, b in zip(replies, wanted))


SIZES = [64, 96, 128, 160, 192, 224, 256, 288, 320, 352, 384, 416, 448, 480, 512, 576, 640, 768, 896, 1024, 1536, 2048, 3072, 4096, 5120, 6144, 7168, 8192, 10240, 12288, 16384, 24576, 32768]


def least(program, lines, wanted):
    low, high = 0, len(SIZES) - 1
    if not is_right(run(program, lines, SIZES[high]), wanted):
        return None
    while low < high:
        mid = (low + high) // 2
        if is_right(run(program, lines, SIZES[mid]), wanted):
            high = mid
        else:
            low = mid + 1
    return SIZES[low]


failed = 0
programs = [(path, int(kib)) for path, _, kib in (it.rpartition(":") for it in programs) if os.path.exists(path)]
if what == "need":
    print("| line | " + " | ".join(os.path.basename(path) for path, _ in programs) + " |")
    print("|---" * (len(programs) + 1) + "|")
for name, lines, wanted in cases:
    if what == "need":
        needs = [least(path, lines, wanted) for path, _ in programs]
        print(f"| {name} | " + " | ".join(str(it or "fails") for it in needs) + " |", flush=True)
        failed += None in needs
        continue
    for path, kib in programs:
        said = run(path, lines, kib)
        if not is_right(said, wanted):
            failed += 1
            print(f"{os.path.basename(path)} on {kib} KiB: {name}: status {said[0]}, replies {[it[:60] for it in said[1]]}, wanted {wanted}")
if what != "need":
    for path, kib in programs:
        print(f"{os.path.basename(path)}: {len(cases)} scripts on {kib} KiB of stack")
    print("all answered" if not failed else f"{failed} not answered")
sys.exit(1 if failed else 0)
