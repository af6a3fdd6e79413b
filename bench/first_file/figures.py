"""What first_file.sh measures, and its figures; the script says what is timed."""
import os
import resource
import subprocess
import sys
import time
program, source, target = sys.argv[1:]
with open(source) as lines, open(target, "w") as replies:
    begun = time.monotonic()
    status = subprocess.run([program, "script"], stdin=lines, stdout=replies, cwd=os.path.dirname(target)).returncode
    seconds = time.monotonic() - begun
kib = resource.getrusage(resource.RUSAGE_CHILDREN).ru_maxrss
with open(target) as replies:
    words = [line.split()[0] for line in replies]
print(f"status {status}, {len(words)} replies, {words.count('ok')} of them ok")
print(f"{seconds:.2f} s, {seconds / len(words) * 1e6:.1f} us a line, {kib / 1024:.0f} MiB at most")
