"""What verifier.sh measures, and its figures; the script says what is timed."""
import sys
names = ['first file', '4,096 nodes over 64 conditions on the state', '196 implications deep', '200 instances of 512 nodes',
    'beyond: 1,950 times 370 constraints', 'beyond: 3,990 instances of 512 nodes']
rows = [line.split() for line in open(sys.argv[1])]
first = int(rows[0][0])
for name, row in zip(names, rows):
    nanoseconds, verdict, memory = int(row[0]), row[1], int(row[-1]) / 1024
    granted = f'granted under {verdict[5:-1]} conditions' if verdict.startswith('Some') else 'refused'
    aim = 1000 if name == 'first file' else 100_000_000
    late = '' if nanoseconds < aim else f', over the aim of {aim / 1000:.0f} us'
    large = '' if memory < 8 else ', over the aim of 8 MiB'
    print(f'{name}: {nanoseconds / 1000:.1f} us{late}, {nanoseconds / first:.0f} times the first, {memory:.1f} MiB{large}, {granted}')
