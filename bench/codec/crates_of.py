"""Prints the lines of crates.txt of some crates and all below them."""
import sys
lines = [line.split("#")[0].strip() for line in open(sys.argv[1])]
needs = {name.split()[0]: rest.split() for name, rest in (line.split(":", 1) for line in lines if line)}
wanted, found = list(sys.argv[2:]), []
while wanted:
    name = wanted.pop()
    if name in needs and name not in found:
        found.append(name)
        wanted += needs[name]
for name in found:
    print(f"{name}: {' '.join(needs[name])}")
