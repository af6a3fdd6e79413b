"""What script.sh measures, and its figures; the script says what is timed."""
import os
import subprocess
import sys
import time

program, work = sys.argv[1:]
nodes, mix, one, three = (open(f"{work}/{name}", "rb").read() for name in ("nodes", "mix", "mixone", "mixthree"))
lines = mix.splitlines()
count, tags = len(lines), sum(2 if line.startswith(b"do unlink") else 3 if line.startswith(b"do rename") else 1 for line in lines)


def run(text, target):
    """Seconds of the program over the text."""
    with open(f"{work}/input", "wb") as out:
        out.write(text)
    with open(f"{work}/input", "rb") as source, open(f"{work}/{target}", "wb") as replies:
        begun = time.perf_counter()
        process = subprocess.Popen([program, "script"], stdin=source, stdout=replies, cwd=work)
        status = process.wait()
        seconds = time.perf_counter() - begun
    if status:
        sys.exit(f"status {status}")
    return seconds


texts = {
    "made": nodes,
    "mixed": nodes + mix,
    "spoiled": nodes + b"\n".join(b"x" + line[1:] for line in lines) + b"\n",
    "denied": nodes + b"as zoe\n" + mix,
    "one": nodes + one,
    "three": nodes + three,
}
runs = {name: [] for name in texts}
peers = []
for _ in range(3):
    for name, text in texts.items():
        runs[name].append(run(text, name))
    told = subprocess.run([sys.executable, f"{os.path.dirname(os.path.abspath(__file__))}/peer.py", f"{work}/nodes", f"{work}/mix", f"{work}/peer"], capture_output=True, text=True, check=True)
    peers.append([float(word) for word in told.stdout.split()])
with open(f"{work}/mixed", "rb") as mine, open(f"{work}/peer", "rb") as theirs:
    same = mine.read() == theirs.read()
seconds = {name: min(several) for name, several in runs.items()}
mixed = seconds["mixed"] - seconds["made"]
peer = min(one[1] for one in peers)
tag = (seconds["three"] - seconds["one"]) / 2 / three.count(b"\n")
print(f"{count:,} operations over 16,000 nodes, {tags / count:.2f} procaps for each; {'the same replies' if same else 'OTHER REPLIES'} by both")
print(f"pcfs: {count / mixed:,.0f} lines a second, {mixed / count * 1e6:.2f} us a line; {peer / mixed:.1f} times SQLite from Python: {count / peer:,.0f} lines a second, {peer / count * 1e6:.2f} us")
print(f"  beside its tags of {tag * 1e6:.2f} us: {(mixed - tags * tag) / count * 1e6:.2f} us a line")
print(f"  a line that is denied after its first tag takes {(seconds['denied'] - seconds['made']) / count * 1e6:.2f}, a line of no form {(seconds['spoiled'] - seconds['made']) / count * 1e6:.2f}")
print(f"making 16,000 nodes: {seconds['made']:.2f} s; SQLite {min(one[0] for one in peers):.2f} s")
