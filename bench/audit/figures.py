"""What audit.sh measures, and its figures; the script says what is timed."""
import hmac
import os
import resource
import subprocess
import sys
import time

program, OPERATIONS, STATEMENTS, PROOFS = sys.argv[1], 100000, 4096, 60000
POLICY = ["at 100", "register - admin says may(alice,#1,write) from 0 to 200", "verify alice #1 write 1 saysR(claim(0,init(1)))",
          "register - admin says may(alice,#2,write) from 0 to 200", "verify alice #2 write 2 saysR(claim(0,init(1)))", "as alice", "do create #1 f @1"]


def run(*words, lines=()):
    begin = time.perf_counter()
    ended = subprocess.run([program, *words], input="".join(line + "\n" for line in lines).encode(), stdout=subprocess.PIPE)
    assert ended.returncode == 0, (words, ended.returncode, ended.stdout[-80:])
    return time.perf_counter() - begin, ended.stdout


def least(*words):
    return min(run(*words)[0] for _ in range(3))


def store(lines):
    for name in ("pcfs.a", "pcfs.b"):
        if os.path.exists(name):
            os.unlink(name)
    run("init")
    run("script", "--stored", lines=lines)


def audits(name, count):
    opening = least("script", "--stored")
    told = run("audit")[1].decode().strip()
    print(f"{name}: {told}; opening {opening:.2f} s")
    assert all(run("audit", "--pieces", str(pieces))[1].decode().strip() == told for pieces in (1, 2, 3, 7, 64)), "the reports differ"
    taken = {pieces: least("audit", *(["--pieces", str(pieces)] if pieces else [])) - opening for pieces in (0, 1, 2, 4)}
    for pieces, seconds in taken.items():
        print(f"  {f'in {pieces} pieces' if pieces else 'at once'}: {seconds:.2f} s, {count / seconds:,.0f} events a second, {taken[1] / seconds:.2f} times as fast as in one piece")
    return taken[0]


def tags(count):
    """A tag for each operation, of the grant in its procap."""
    grant = bytes.fromhex("470105616c69636500000000000000020202040100000000000000000606040100000000000000c800")
    wanted = hmac.digest(b"\1\2", grant, "sha256")
    begin = time.perf_counter()
    right = sum(hmac.compare_digest(hmac.digest(b"\1\2", grant, "sha256"), wanted) for _ in range(count))
    assert right == count
    return time.perf_counter() - begin


store(POLICY + ["do write #2 0 41 @2"] * OPERATIONS)
mine, other = audits(f"{OPERATIONS:,} operations", OPERATIONS), min(tags(OPERATIONS) for _ in range(3))
print(f"  at once {mine / other:.2f} of the Python loop's time ({other:.2f} s), which tests the tags alone")
proofs = ["at 100"] + [f"register - admin says may(user{i},#1,write) from 0 to 1000000" for i in range(STATEMENTS)]
proofs += [f"verify user{i % STATEMENTS} #1 write {i % STATEMENTS + 1} saysR(claim(0,init(1)))" for i in range(PROOFS)]
store(proofs)
audits(f"{STATEMENTS:,} statements and {PROOFS:,} proofs", STATEMENTS + PROOFS)
withdrawals = [f"withdraw {number} -" for number in range(2, STATEMENTS, 2)]
store(proofs + withdrawals + ["as user0"] + ['do setattr #1 color "blue" @1'] * OPERATIONS)
audits(f"the same, then {len(withdrawals):,} withdrawals and {OPERATIONS:,} operations", STATEMENTS + PROOFS + len(withdrawals) + OPERATIONS)
kib = resource.getrusage(resource.RUSAGE_CHILDREN).ru_maxrss
print(f"{kib / 1024:.0f} MiB at most")
