"""What codec.sh measures, and its figures; the script says what is timed."""
import sys
names = [
    "formula of 511 binders, 1,023 bytes",
    "formula of 255 conjunctions, 511 bytes",
    "formula of 85 predicates, 3,486 bytes",
    "proof of 4,096 nodes, 4,096 bytes",
    "proof of 4,096 nodes, 4,094 names, 36,848 bytes",
    "proof of 4,096 nodes, 4,094 texts, 540,410 bytes",
]
events = [
    "statement with its signature, 85 bytes",
    "issue, 58 bytes",
    "create, 104 bytes",
    "write of 65,536 bytes, 65,646 bytes",
]
lines = [line.split() for line in open(sys.argv[1]) if len(line.split()) == 2 and line[0].isdigit()]
for name, (reading, copying) in zip(names, lines):
    reading, copying = int(reading) / 1000, int(copying) / 1000
    print(f"{name}: read in {reading:.1f} us, copied in {copying:.1f} us, ratio {reading / copying:.2f}")
for name, (reading, writing) in zip(events, lines[len(names):]):
    reading, writing = int(reading), int(writing)
    print(f"{name}: read in {reading} ns, {1e9 / reading:,.0f} a second; written in {writing} ns, {1e9 / writing:,.0f} a second")
