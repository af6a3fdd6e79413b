"""Tells what `rootsign 8 0` keeps of heap and stack when it begins to write, beside one whose seed is too short and makes no tree.

A full pipe holds the program there. Pages of the stack stay with a program that has touched them, and so the deepest call counts.
"""
import fcntl
import os
import subprocess
import sys
import time

program, folder = sys.argv[1:]


def held(pid):
    """The anonymous memory in KiB, by a walk over all pages."""
    with open(f"/proc/{pid}/smaps_rollup", encoding="ascii") as lines:
        return next(int(line.split()[1]) for line in lines if line.startswith("Anonymous:"))


def is_waiting(pid):
    with open(f"/proc/{pid}/wchan", encoding="ascii") as place:
        return "pipe" in place.read()


def of_seed(digits):
    read, write = os.pipe()
    fcntl.fcntl(write, fcntl.F_SETPIPE_SZ, 4096)
    os.write(write, bytes(4096))
    with open(f"{folder}/seed", "w+", encoding="ascii") as seed:
        seed.write(f"seed {'07' * (digits // 2)}\n")
        seed.flush()
        seed.seek(0)
        process = subprocess.Popen([program, "rootsign", "8", "0"], stdin=seed, stdout=write, stderr=subprocess.DEVNULL, cwd=folder)
    os.close(write)
    while not is_waiting(process.pid):
        time.sleep(0.001)
    kib = held(process.pid)
    while os.read(read, 4096):
        pass
    os.close(read)
    process.wait()
    return kib


tree, none = min(of_seed(64) for _ in range(20)), min(of_seed(62) for _ in range(20))
print(f"rootsign by a tree of height 8: {tree} KiB of heap and stack, without a tree {none} KiB")
