"""Runs a program, and tells its one line with the greatest memory that it held, in KiB.

A full pipe holds the program at its last line, so that its own peak can be read: getrusage counts Python's before exec.
"""
import fcntl
import os
import subprocess
import sys


def measured(program, source=subprocess.DEVNULL, words=()):
    """The line that the program writes, and its peak in KiB; of more lines, the peak when it begins to write them."""
    read, write = os.pipe()
    fcntl.fcntl(write, fcntl.F_SETPIPE_SZ, 4096)
    os.write(write, bytes(4096))
    process = subprocess.Popen([program, *words], stdin=source, stdout=write)
    os.close(write)
    status = {}
    while status.get("State", "R")[0] not in "SZ":
        with open(f"/proc/{process.pid}/status") as lines:
            status = dict(line.split(":\t", 1) for line in lines.read().splitlines() if ":\t" in line)
    line = b""
    while piece := os.read(read, 4096):
        line += piece
    return line[4096:].decode().strip(), status["VmHWM"].split()[0]


def main():
    """usage: measured.py PROGRAM [INPUT]"""
    if len(sys.argv) > 2:
        with open(sys.argv[2], "rb") as source:
            print(*measured(sys.argv[1], source))
    else:
        print(*measured(sys.argv[1]))


if __name__ == "__main__":
    main()
