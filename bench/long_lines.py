#!/usr/bin/env python3
"""Contracts and definitions whose lines are longer than a screen, by crate and file, and what they repeat.

usage: long_lines.py [crates | files | remedies | lines [CRATE] | repeated [CRATE] | mend CRATE [100]]

crates    a row for each crate that has one: lines over 160 and over 100 columns, all lines; the default
files     the same by file
lines     each line over 160 columns with its place
remedies  by crate: lines over 160 columns, of these comments, those that need no name since they can be broken at arrows, the others
mend      breaks the crate's lines over 160 columns that need no name, or those over 100: comments at words, others at arrows. It changes
          white space alone; then `rt fmt`, and the crate has to be proved anew
repeated  what stands again and again in such lines: in how many, and how many of them a name for it would bring to 160
"""
import re
import sys
import textwrap
from collections import Counter
from functools import cache
from pathlib import Path

TOP = Path(__file__).resolve().parents[1]
LONG, WIDE = 160, 100


def contracts(path):
    """The lines of `requires` and `ensures` of a source, by their numbers."""
    within = False
    for number, line in enumerate(path.read_text().splitlines(), 1):
        first = line.lstrip()
        within = first.startswith(("ensures", "requires")) or within and bool(first) and not line.startswith(("{", "}"))
        if within:
            yield number, line
        within = within and not first.startswith("{")


def definitions(path):
    return ((number, line) for number, line in enumerate(path.read_text().splitlines(), 1) if line.strip() and not line.startswith("use "))


@cache
def lines():
    """Each line of a contract or a definition: its crate, file, number and text."""
    found = []
    for folder, pattern, of in (("specs", "*.antt", definitions), ("src", "*.rt", contracts)):
        for path in sorted(TOP.glob(f"crates/*/{folder}/**/{pattern}")):
            name = path.relative_to(TOP)
            found += [(name.parts[1], str(name), number, line) for number, line in of(path)]
    return found


def shares():
    """How many lines are over 160 columns, and which part of all, in a hundred, is over 100."""
    lengths = [len(line) for *_, line in lines()]
    return sum(length > LONG for length in lengths), round(100 * sum(length > WIDE for length in lengths) / len(lengths), 1)


def table(place):
    """Rows of lines over 160 columns, of these comments, lines over 100, all lines; by what `place` takes of a line."""
    long, notes, wide, every = Counter(), Counter(), Counter(), Counter()
    for crate, name, _, line in lines():
        key = place(crate, name)
        every[key] += 1
        wide[key] += len(line) > WIDE
        long[key] += len(line) > LONG
        notes[key] += len(line) > LONG and line.lstrip().startswith(("--", "//"))
    rows = [(key, count, notes[key], wide[key], every[key]) for key, count in long.most_common() if count]
    return [*rows, ("all", *(sum(counts.values()) for counts in (long, notes, wide, every)))]


def arrows(line):
    """The parts of a line between its arrows that stand in no parentheses: where it can be broken with nothing named."""
    parts, depth, begin = [], 0, 0
    for at, sign in enumerate(line):
        depth += (sign in "({[") - (sign in ")}]")
        if depth == 0 and sign in "→↔⊎×" or depth == 1 and line[at] == "→" and line.lstrip().startswith(("ensures", "requires")):
            parts.append(line[begin:at])
            begin = at
    return [*parts, line[begin:]]


def units(line):
    """Where the words and the balanced groups of a line begin and end, by the group in which they stand."""
    groups, opened, word = [[]], [], None
    for at, sign in enumerate(line + " "):
        if sign in "({":
            opened.append(at)
            groups.append([])
            word = None
        elif sign in ")}" and opened:
            if word is not None:
                groups[-1].append((word, at))
            word = None
            yield groups.pop()
            groups[-1].append((opened.pop(), at + 1))
        elif sign == " ":
            if word is not None:
                groups[-1].append((word, at))
            word = None
        elif word is None:
            word = at
    yield groups[0]


def runs(line):
    """Each run of two to ten units side by side, of forty columns at least, in which no arrow stands."""
    for group in units(line):
        for first in range(len(group)):
            for last in range(first, min(first + 10, len(group))):
                run = line[group[first][0]:group[last][1]]
                if len(run) >= 40 and not re.search(r"[→≡:;=]|^[^({]*[)}]", re.sub(r"[({].*[)}]", "", run)):
                    yield run


def repeated(crate):
    """What stands again and again in the long lines of a crate, best first, with a name of sixteen columns put for it: how often, and how many lines are no longer too long."""
    held = [line for one, _, _, line in lines() if len(line) > LONG and crate in (None, one) and not line.lstrip().startswith(("--", "//"))]
    for _ in range(8):
        seen = Counter(run for line in held for run in set(runs(line)))
        saved = {run: (len(run) - 16) * count for run, count in seen.items() if count > 1}
        if not saved:
            return
        best = max(saved, key=saved.get)
        before = sum(len(line) > LONG for line in held)
        held = [line.replace(best, "x" * 16) for line in held]
        yield seen[best], before - sum(len(line) > LONG for line in held), best


def remedies():
    """For each crate: its long lines, of these comments, lines that can be broken at an arrow into parts of a hundred columns, and the others."""
    for crate in dict.fromkeys(one for one, *_ in lines()):
        long = [line for one, _, _, line in lines() if one == crate and len(line) > LONG]
        notes = [line for line in long if line.lstrip().startswith(("--", "//"))]
        broken = [line for line in long if line not in notes and max(map(len, arrows(line))) + 4 <= WIDE]
        if long:
            yield crate, len(long), len(notes), len(broken), len(long) - len(notes) - len(broken)


def wrapped(line):
    """The lines of a comment that is too long."""
    indent, sign, words = re.match(r"( *)(//[/!]?|--) (.*)", line).groups()
    return textwrap.wrap(words, WIDE, initial_indent=f"{indent}{sign} ", subsequent_indent=f"{indent}{sign} ", break_long_words=False, break_on_hyphens=False)


def broken(line, leads):
    """The lines into which one is broken at its arrows; with `leads` an arrow begins a line, as it does elsewhere in the file."""
    indent = " " * (len(line) - len(line.lstrip()))
    parts = arrows(line)
    if not leads:
        signs = [re.match("[→↔⊎×]", part.strip()) for part in parts[1:]] + [None]
        parts = [re.sub("^[→↔⊎×] ?", "", part.strip()) + (f" {sign[0]}" if sign else "") for part, sign in zip(parts, signs)]
    made = [indent + parts[0].strip()]
    deeper = indent if parts[0].strip() in ("", "→") or line.lstrip().startswith("→") else indent + "    "
    for part in filter(None, map(str.strip, parts[1:])):
        if len(made[-1]) + 1 + len(part) <= WIDE:
            made[-1] += f" {part}" if made[-1].strip() else part
        else:
            made.append(deeper + part)
    return made


def mend(crate, over):
    """Breaks what can be broken of the lines of a crate over so many columns, and says how many stay."""
    long = [(name, number) for one, name, number, line in lines() if one == crate and len(line) > over]
    stay = 0
    for name in dict.fromkeys(name for name, _ in long):
        made, text = [], (TOP / name).read_text().splitlines()
        leads = sum(line.lstrip().startswith("→") for line in text) > sum(line.rstrip().endswith("→") for line in text)
        for number, line in enumerate(text, 1):
            new = [line]
            if (name, number) in long:
                new = wrapped(line) if re.match(r" *(//|--) ", line) else broken(line, leads)
                new = new if max(map(len, new)) <= (LONG if len(line) > LONG else WIDE) else [line]
                stay += max(map(len, new)) > over
            made += new
        (TOP / name).write_text("\n".join(made) + "\n")
    print(f"{stay} of {len(long)} lines of {crate} over {over} columns want a name")


def main():
    what, crate, over = [*(sys.argv[1:] or ["crates"]), None, None][:3]
    if what in ("crates", "files"):
        print("| place | over 160 | of these comments | over 100 | lines |\n|---|---|---|---|---|")
        for key, *counts in table((lambda one, _: one) if what == "crates" else (lambda _, name: name)):
            print(f"| {key} | {' | '.join(f'{count:,}' for count in counts)} |")
    elif what == "remedies":
        print("| crate | over 160 | comments | at arrows | others |\n|---|---|---|---|---|")
        for row in sorted(remedies(), key=lambda row: -row[1]):
            print(f"| {' | '.join(map(str, row))} |")
    elif what == "mend":
        mend(crate, int(over or LONG))
    elif what == "lines":
        for one, name, number, line in lines():
            if len(line) > LONG and crate in (None, one):
                print(f"{len(line)} {name}:{number}: {line.strip()}")
    else:
        for count, mended, run in repeated(crate):
            print(f"{count:4} {mended:4} {run}")


if __name__ == "__main__":
    main()
