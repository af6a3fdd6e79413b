"""How large each crate is, and what its proof costs (sizes.sh has the words).

A log of the gate has a line `CRATE PHASE SECONDS` for each process that proved, of the phase `proof`, `tests` or `edits`. A process is
looked at twice a second, so the end of each, half a second at most, is missing.
"""
import os
import re
import subprocess
import sys
import time
from collections import Counter
from pathlib import Path

TOP = Path(__file__).resolve().parents[1]
PHASES = ("proof", "tests", "edits")
TICKS = os.sysconf("SC_CLK_TCK")


def crates():
    """The crates in the order of crates.txt."""
    lines = (TOP / "crates.txt").read_text().splitlines()
    return [line.split(":")[0].split()[0] for line in lines if ":" in line and not line.startswith("#")]


def count(paths):
    return sum(len(path.read_text().splitlines()) for path in paths)


def is_test(path):
    """A module that the tests alone have: its own name says so, or that of its folder, or `#[cfg(test)]` stands before it."""
    if path.stem == "tests" or "tests" in path.parts:
        return True
    root = path.parent / "lib.rt"
    return root.exists() and re.search(rf"#\[cfg\(test\)\]\s*(pub )?mod {path.stem};", root.read_text()) is not None


def sizes(crate):
    folder = TOP / "crates" / crate
    source = [path for path in sorted(folder.glob("src/**/*.rt")) if not is_test(path)]
    return count(source), count(folder.glob("specs/**/*.antt")), count(folder.glob("proofs/**/*.antt"))


def seconds_of(log):
    """Processor seconds by crate and phase."""
    taken = Counter()
    for line in Path(log).read_text().splitlines():
        crate, phase, seconds = line.split()
        taken[crate, phase] += float(seconds)
    return taken


def table(log):
    taken = seconds_of(log) if log else {}
    phases = [phase for phase in PHASES if any(one == phase for _, one in taken)]
    heads = ["crate", "source", "definitions", "proofs", *(f"{phase}, s" for phase in phases)]
    print(f"| {' | '.join(heads)} |")
    print("|---" * len(heads) + "|")
    rows = [(crate, *sizes(crate), *(round(taken.get((crate, phase), 0)) for phase in phases)) for crate in crates()]
    rows.append(("all", *(sum(column) for column in list(zip(*rows))[1:])))
    for name, *numbers in rows:
        print(f"| {name} | {' | '.join(f'{number:,}' if number else '' for number in numbers)} |")


def into(document, log):
    """Puts today's sizes into the table of a document, and the seconds of a log; of a crate that the log has not, those that stand there stay."""
    text, taken = Path(document).read_text(), seconds_of(log) if log else {}
    begin = text.index("| crate | source | definitions | proofs | proof, s | tests, s |")
    end = text.index("\n\n", begin)
    head, line, *rows = text[begin:end].splitlines()
    kept = {cells[0]: cells[4:] for cells in ([cell.strip() for cell in row.split("|")[1:-1]] for row in rows)}
    made = []
    for crate in crates():
        seconds = [f"{taken[crate, phase]:,.0f}" if (crate, phase) in taken else old for phase, old in zip(PHASES, kept.get(crate, ["", ""]))]
        made.append((crate, *sizes(crate), *seconds))
    sums = [sum(column) for column in list(zip(*made))[1:4]]
    sums += [sum(int(cell.replace(",", "")) for cell in column if cell) for column in list(zip(*made))[4:]]
    lines = [f"| {name} | {' | '.join(f'{number:,}' if number and isinstance(number, int) else str(number or '') for number in numbers)} |" for name, *numbers in [*made, ("all", *sums)]]
    text = text[:begin] + "\n".join([head, line, *lines]) + text[end:]
    Path(document).write_text(re.sub(r"This table is of \d+ \w+ \d+", f"This table is of {time.strftime('%-d %B %Y')}", text))


def below(root):
    """The processes below one, each with its words and the processor seconds that it took."""
    found, parents = {}, {}
    for folder in Path("/proc").glob("[0-9]*"):
        try:
            fields = (folder / "stat").read_text().rsplit(")", 1)[1].split()
            words = (folder / "cmdline").read_bytes().decode(errors="replace").split("\0")
        except OSError:
            continue
        pid = int(folder.name)
        parents[pid], found[pid] = int(fields[1]), (words, (int(fields[11]) + int(fields[12])) / TICKS)

    def is_below(pid):
        while pid in parents and pid != root:
            pid = parents[pid]
        return pid == root

    return {pid: it for pid, it in found.items() if pid != root and is_below(pid)}


def work_of(words):
    """Which crate a process proves, and in which phase: tests have a flag of their own, and a crate with wrong bodies is built, and these
    are checked; a program has none, and is checked itself."""
    if not words[0].endswith("rattle") or "--crate-name" not in words:
        return None
    crate = words[words.index("--crate-name") + 1]
    is_wrong_body = words[1] == "check" and (TOP / "crates" / crate / "must-fail").is_dir()
    return crate, "tests" if "--test" in words else "edits" if is_wrong_body else "proof"


def watch(log, command):
    """Runs the gate, and writes what each of its processes took."""
    gate = subprocess.Popen(command, cwd=TOP)
    seen = {}
    while gate.poll() is None:
        for pid, (words, seconds) in below(gate.pid).items():
            if work := work_of(words):
                seen[pid, work] = max(seconds, seen.get((pid, work), 0))
        time.sleep(0.5)
    Path(log).write_text("".join(f"{crate} {phase} {seconds:.2f}\n" for (_, (crate, phase)), seconds in seen.items()))
    return gate.returncode


def main():
    if sys.argv[1:2] == ["--gate"]:
        return watch(sys.argv[2], sys.argv[3:] or ["rt", "ci", "--anew"])
    if sys.argv[1:2] == ["--into"]:
        into(sys.argv[2], sys.argv[3] if len(sys.argv) > 3 else None)
    else:
        table(sys.argv[1] if len(sys.argv) > 1 else None)
    return 0


if __name__ == "__main__":
    sys.exit(main())
