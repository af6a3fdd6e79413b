"""What texts.sh measures, and its figures; the script says what is timed."""
import sys

from texts import cases

rows = [[int(word) for word in line.split()] for line in open(sys.argv[1]) if len(line.split()) == 4 and line[0].isdigit()]
last = None
for (name, text, whole), (parsing, printing, copying, written) in zip(cases, rows):
    if whole is None:
        last = (len(text) - 1, parsing, written, printing)
        print(f'{name}, {len(text) - 1:,} bytes: parsed in {parsing / 1000:.1f} us, printed in {printing / 1000:.1f} us,'
            f' copied in {copying / 1000:.1f} us, ratios {parsing / copying:.2f} and {printing / copying:.2f}')
    else:
        print(f'    at an eighth: parsed in {parsing / 1000:.1f} us, printed in {printing / 1000:.1f} us; the whole costs'
            f' {last[1] / last[0] * (len(text) - 1) / parsing:.2f} and {last[3] / last[2] * written / printing:.2f} times as much a byte')
