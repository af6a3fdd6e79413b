"""What modes.sh measures, and its figures; the script says what is timed."""
import os
import subprocess
import sys
import time

program, within, folder = sys.argv[1:]
sys.path.append(os.path.join(os.path.dirname(os.path.abspath(__file__)), ".."))
from measured import measured  # noqa: E402

WORDS = ("modes", "0", "100")
RUNS = 100


def run(path):
    """Milliseconds of a run, and those of the processor in it."""
    with open(path, "rb") as table, open(f"{folder}/told", "wb") as told:
        begin = time.perf_counter()
        process = subprocess.Popen([program, *WORDS], stdin=table, stdout=told, stderr=subprocess.DEVNULL, cwd=folder)
        _, status, used = os.wait4(process.pid, 0)
        taken = time.perf_counter() - begin
    process.returncode = os.waitstatus_to_exitcode(status)
    return taken * 1000, (used.ru_utime + used.ru_stime) * 1000


def least(path):
    return [min(times) for times in zip(*(run(path) for _ in range(RUNS)))]


def peak(path):
    """The last line, and the greatest memory in KiB."""
    with open(path, "rb") as table:
        lines, kib = measured(program, table, WORDS)
    return lines.splitlines(), int(kib)


def of_library(path):
    """The least of many runs in one process, for each part."""
    with open(path, "rb") as table:
        told = subprocess.run([within], stdin=table, stdout=subprocess.PIPE, check=True).stdout
    return [int(word) for word in told.split()]


def of_statements(path, start, alone):
    lines, kib = peak(path)
    told = sum(len(line) + 1 for line in lines)
    wall, processor = least(path)
    return (
        f"{len(lines)} lines of {told} bytes in {wall:.1f} ms, {wall - start:.1f} beside the start (of a processor {processor:.1f});"
        f" {kib - alone} KiB beside it, {(kib - alone) * 1024 / told:.1f} times what is written"
    )


def of_table(path, alone):
    lines, kib = peak(path)
    return f"`{lines[-1]}`; {kib - alone} KiB beside the start, {(kib - alone) * 1024 / os.path.getsize(path):.1f} times the text, with the text"


def main():
    with open(f"{folder}/none", "w", encoding="ascii") as table:
        table.write("\n")
    start, _ = least(f"{folder}/none")
    _, alone = peak(f"{folder}/none")
    print(f"start, with a table whose first line is wrong: {start:.1f} ms, {alone} KiB")
    for name in ("full", "rules", "large", "names"):
        path = f"{folder}/{name}"
        told = of_statements(path, start, alone) if name in ("full", "rules") else of_table(path, alone)
        print(f"{name}, {os.path.getsize(path)} bytes: {told}")
        parsed, stated, _, asked, questions, allowed = of_library(path)
        made = f"statements in {stated / 1e6:.2f} ms, " if name in ("full", "rules") else ""
        print(f"    parsed in {parsed / 1e6:.3f} ms, {made}`allows` in {asked / questions:.0f} ns ({allowed} of {questions} allowed)")


main()
