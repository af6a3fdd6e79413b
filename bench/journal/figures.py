"""What journal.sh measures, and its figures; the script says what is timed."""
import os
import sys
import time
lines = [line.split() for line in open(sys.argv[1])]
appends = [int(line[1]) for line in lines if line and line[0] == "append"]
scans = [(int(line[1]), int(line[2])) for line in lines if line and line[0] == "scan"]
frame = (128).to_bytes(4, "big") + bytes([7]) * 128 + b"\0"
def peer():
    fd = os.open(sys.argv[3], os.O_RDWR | os.O_CREAT | os.O_TRUNC)
    os.pwrite(fd, b"\0", 0)
    os.fdatasync(fd)
    end = 0
    start = time.perf_counter_ns()
    for _ in range(1000):
        os.pwrite(fd, frame, end + 1)
        os.fdatasync(fd)
        os.pwrite(fd, b"\1", end)
        os.fdatasync(fd)
        end += len(frame)
    taken = time.perf_counter_ns() - start
    os.close(fd)
    return taken
def read():
    start = time.perf_counter_ns()
    with open(sys.argv[2], "rb") as file:
        size = len(file.read())
    return time.perf_counter_ns() - start, size
peers = [peer() for _ in range(5)]
mine, other = 1e12 / min(appends), 1e12 / min(peers)
print(f"append: {mine:,.0f} a second, {mine / other:.2f} of a Python loop's {other:,.0f}")
reads = [read() for _ in range(5)]
size = reads[0][1] / 1e6
scan, reading = size / (min(scans)[0] / 1e9), size / (min(reads)[0] / 1e9)
print(f"scan of {size:.0f} MB, {scans[0][1]} records: {scan:,.0f} MB a second, {scan / reading:.2f} of reading the file at {reading:,.0f}")
