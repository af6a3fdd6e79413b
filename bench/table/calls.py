"""Counts the system calls on its disks that an event of `pcfs script --stored` takes: strace's counts of runs with so many events and
with twice as many, and their difference.
usage: calls.py PROGRAM, in the folder where it makes folders of its own"""
import subprocess
import sys
import tempfile

program, COUNT = sys.argv[1], 500
POLICY = ["at 100", "register - admin says may(alice,#1,write) from 0 to 200", "verify alice #1 write 1 saysR(claim(0,init(1)))", "as alice"]
DISKS = ("pcfs.a", "pcfs.b")


def run(folder, before, words, lines):
    given = "".join(line + "\n" for line in lines).encode()
    told = subprocess.run([*before, program, *words], cwd=folder, input=given, stdout=subprocess.PIPE, check=True).stdout.splitlines()
    assert len(told) >= len(lines) and all(reply.startswith(b"ok") for reply in told), told[-1:]


def calls(count):
    """How often each call was made on one of the disks."""
    with tempfile.TemporaryDirectory(dir=".") as folder:
        with open(f"{folder}/pcfs.secrets", "w") as out:
            out.write("seal 0102\nkey admin 01\n")
        run(folder, [], ["init"], [])
        paths = [word for name in DISKS for word in ("-P", name)]
        lines = POLICY + [f"do create #1 n{one} @1" for one in range(count)]
        run(folder, ["strace", "-f", "-c", "-o", "counts", *paths], ["script", "--stored"], lines)
        with open(f"{folder}/counts") as file:
            rows = [line.split() for line in file]
    return {row[-1]: int(row[3]) for row in rows if len(row) in (5, 6) and row[3].isdigit() and row[-1] != "total"}


once, twice = calls(COUNT), calls(2 * COUNT)
rows = {name: (twice[name] - once.get(name, 0)) / COUNT for name in twice}
told = ", ".join(f"{name} {much:.2f}" for name, much in sorted(rows.items()) if much >= 0.01)
print(f"an event takes {sum(rows.values()):.2f} calls of its disks: {told}")
