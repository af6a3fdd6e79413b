"""How far the documents have the form that they should have: a line for each wish, with the count that shows it.

`documents.py counts` prints them, and needs no program.
"""
import re
import subprocess
import sys
from pathlib import Path

TOP = Path(__file__).resolve().parents[1]
sys.path.append(str(TOP / "bench"))

import long_lines

README_BYTES, PROSE, PAGE = 7000, 400, 66
README_PARTS = ("For whom, and for whom not", "Limits", "Try it", "Build, install, serve", "Where to go on")
LOGIC = {
    "46 levels of in_dir": "in the example 46",
    "under a conclusion with @ intervals limit nothing": "**Under a conclusion with `@` the intervals of the claims that are asked for limit nothing.**",
    "a false order of times": "**A false order of times makes every time right.**",
    "false under a speaker": "If `hr` says `false`",
    "constants in the outermost impL": "Constants in the outermost `impL`",
    "what the law of clauses does not cover": "so this does not cover delegation",
    "how a right is taken back": "**How a right is taken back.**",
    "directories want an attribute of their own": "**Directories want an attribute of their own.**",
}
OLD_NAMES = "IsTold|IsUntold|Told|Standing|Asker|HasMet|IsMet|Planned|fn keeps|fn lawful"
FIELD = {"journal": "DISK", "snapshot": "DISK", "commit byte": "DISK", "reference monitor": "ARCHITECTURE", "critical section": "ARCHITECTURE"}


def text_of(name):
    return (TOP / name).read_text()


def documents():
    """All documents but those of what is not proved."""
    for pattern in ("*.md", "docs/*.md", "client/*.md", "examples/*.md", "bench/*.md", "tests/*.md", "tests/*/*.md", "crates/*/*.md"):
        yield from sorted(TOP.glob(pattern))


def without_blocks(text):
    return re.sub(r"(?ms)^ *```.*?^ *```$", "", text)


def prose(text):
    """The lines that are neither a table, nor a heading, nor shown as typed."""
    return [line for line in without_blocks(text).splitlines() if line.strip() and not line.startswith(("|", "#", "    "))]


def cells(text):
    """Each cell of each table, but the lines under heads."""
    for line in without_blocks(text).splitlines():
        if line.startswith("|") and not re.match(r"\|[-|]+$", line):
            yield from (cell.strip() for cell in re.split(r"(?<!\\)\|", line.strip("|")))


def sentences(cell):
    """How many sentences a cell has; what stands in parentheses or as code is none."""
    plain = re.sub(r"\([^()]*\)", "", re.sub(r"`[^`]*`", "X", cell))
    return len(re.findall(r"[.?!](?=\s+[A-Z]|$)", plain.strip()))


def sections(text):
    return re.findall(r"(?m)^## (.*)$", without_blocks(text))


def anchors(path):
    """The anchors that a document's headings have."""
    for head in re.findall(r"(?m)^#+ (.*)$", without_blocks(path.read_text())):
        yield re.sub(r"[^\w\- ]", "", head.strip().lower()).replace(" ", "-")


def uneven_rows():
    """Rows of a table that have another number of cells than its head."""
    for document in documents():
        head = None
        for line in without_blocks(document.read_text()).splitlines():
            count = len(re.findall(r"(?<!\\)\|", line)) if line.startswith("|") else None
            head = head if head and count else count
            if count != head:
                yield f"{document.relative_to(TOP)}: {line[:60]}"


def dead_links():
    for document in documents():
        for target in re.findall(r"\]\(([^)\s]+)\)", without_blocks(document.read_text())):
            name, _, anchor = target.partition("#")
            path = document.parent / name if name else document
            if not target.startswith("http") and (not path.exists() or anchor and anchor not in anchors(path)):
                yield f"{document.relative_to(TOP)}: {target}"


def dead_names():
    """What PROVED and ARCHITECTURE name as code or as a file, and no crate has."""
    code = "\n".join(path.read_text() for folder in ("src", "specs", "proofs") for path in TOP.glob(f"crates/*/{folder}/**/*") if path.is_file())
    known = set(re.findall(r"\w+", code)) | {path.name for path in TOP.glob("crates/*")} | {path.stem for path in TOP.glob("crates/*/*/*")} | {"unsafe", "stdin"}
    files = [str(path.relative_to(TOP)) for pattern in ("crates/*/*/**/*", "tests/**/*", "docs/*", "bench/*", "client/**/*", "examples/*") for path in TOP.glob(pattern)]
    for document in ("docs/PROVED.md", "docs/ARCHITECTURE.md"):
        for name in sorted(set(re.findall(r"`([^`\s]+)`", without_blocks(text_of(document))))):
            if "NAME" in name:
                continue
            if re.fullmatch(r"[\w/.-]+\.(rt|antt|py|sh|rows)", name):
                if not any(f"/{file}".endswith(f"/{name}") for file in files):
                    yield f"{document}: {name}"
            elif re.fullmatch(r"[A-Za-z_]\w*(::\w+)*", name) and name.split("::")[-1] not in known:
                yield f"{document}: {name}"


def untold_laws():
    """Laws, the public functions of a module `laws`, that neither PROVED nor LOGIC names."""
    told = text_of("docs/PROVED.md") + text_of("docs/LOGIC.md")
    for path in sorted(TOP.glob("crates/*/src/**/laws*.rt")):
        for name in re.findall(r"(?m)^pub fn (\w+)", path.read_text()):
            if not re.search(rf"\b{name}\b", told):
                yield f"{path.relative_to(TOP)}: {name}"


def manual_protocol():
    """The manual page's part on the protocol, as it is shown."""
    shown = subprocess.run(["groff", "-man", "-Tascii", "-P-cbou", TOP / "docs/pcfs.1"], stdout=subprocess.PIPE, stderr=subprocess.DEVNULL, check=False).stdout.decode()
    found = re.search(r"(?ms)^PROTOCOL\n(.*?)^EXIT STATUS", shown)
    return [line for line in found[1].splitlines() if line.strip()] if found else []


def of_readme():
    text = text_of("README.md")
    yield "README: bytes", len(text.encode()), len(text.encode()) <= README_BYTES
    longest = max(map(len, prose(text)))
    yield "README: longest line of prose", longest, longest <= PROSE
    yield "README: its parts in their order", len(sections(text)), tuple(sections(text)) == README_PARTS
    first = prose(text.split("\n## ")[0])
    yield "README: lines that say what it is", len(first), len(first) <= 8
    limits = [line for line in text.split("## Limits")[1].split("## ")[0].splitlines() if line.startswith("|")]
    yield "README: rows of limits", len(limits) - 2, len(limits) == 7
    yield "README: exit statuses", len(re.findall(r"\bstatus\b", text)), "status" not in text
    crates = [name for name in (path.name for path in TOP.glob("crates/*")) if re.search(rf"crates/{name}\b", text)]
    yield "README: crates that it names", len(crates), crates == ["pcfs"]


def of_documents():
    proved = text_of("docs/PROVED.md")
    several = sum(sentences(cell) > 1 for cell in cells(proved))
    yield f"PROVED: cells of more than one sentence, of {len(list(cells(proved)))}", several, several == 0
    last = sections(proved)[-1]
    yield f"PROVED: its last part is {last}", len(sections(proved)), last == "Not said" and sections(proved)[0].startswith("The headline")
    logic = text_of("docs/LOGIC.md")
    for wish, words in LOGIC.items():
        yield f"LOGIC: {wish}", logic.count(words), words in logic
    decisions = text_of("docs/DECISIONS.md")
    heads = re.findall(r"(?m)^\|.*\n(?=\|[-|]+$)", decisions)
    yield "DECISIONS: tables of what was open, what was chosen, what follows", len(heads), set(heads) == {"| open | chosen | what follows |\n"}
    yield "DECISIONS: struck text", decisions.count("~~"), "~~" not in decisions
    parts = [name for name in ("PROTOCOL", "DISK", "GENERATED") if (TOP / f"docs/{name}.md").exists()]
    yield "formats: documents", len(parts), len(parts) == 3
    session = text_of("docs/PROTOCOL.md").count("## A session from login to logout")
    yield "PROTOCOL: a session from login to logout", session, session == 1
    shown = manual_protocol()
    yield "pcfs.1: lines of its part on the protocol", len(shown), 0 < len(shown) <= PAGE
    yield "pcfs.1: lines that say how to log in", sum("login" in line for line in shown), any("login" in line for line in shown)
    for word, name in FIELD.items():
        yield f"{name}: {word}", text_of(f"docs/{name}.md").count(word), word in text_of(f"docs/{name}.md")
    for name in ("LICENSE-MIT", "LICENSE-APACHE", "SECURITY.md", "CONTRIBUTING.md", "CHANGELOG.md"):
        yield f"there is {name}", int((TOP / name).exists()), (TOP / name).exists()
    lines = len(text_of("CONTRIBUTING.md").splitlines())
    yield "CONTRIBUTING: lines", lines, lines <= PAGE
    date = re.search(r"This table is of (\d+ \w+ \d+)", text_of("docs/ARCHITECTURE.md"))
    yield f"ARCHITECTURE: the table of sizes is of {date[1] if date else 'no day'}", int(bool(date)), bool(date)


def of_house():
    links, names, laws, uneven = list(dead_links()), list(dead_names()), list(untold_laws()), list(uneven_rows())
    yield f"rows with other cells than their table's head {uneven[:4] if uneven else ''}".strip(), len(uneven), not uneven
    yield f"links that lead nowhere {links[:5] if links else ''}".strip(), len(links), not links
    yield f"names that the code has not {names[:8] if names else ''}".strip(), len(names), not names
    yield f"laws that PROVED and LOGIC do not name {laws[:8] if laws else ''}".strip(), len(laws), not laws
    told = text_of("tests/README.md") + text_of("tests/hostile/README.md")
    scripts = [path for path in [*TOP.glob("tests/*.*"), *TOP.glob("tests/*/*.sh")] if path.suffix in (".py", ".sh")]
    helpers = {path for path in scripts for other in TOP.glob("tests/**/*.*") if other != path and other.suffix in (".py", ".sh") and path.stem in other.read_text()}
    untold = [path.name for path in scripts if path not in helpers and path.name not in told]
    yield f"tests that no table names {untold or ''}".strip(), len(untold), not untold
    shells = {path.name: len(path.read_text().splitlines()) for path in [*TOP.glob("tests/**/*.sh"), *TOP.glob("bench/*.sh"), *TOP.glob("*.sh")]}
    longest = max(shells.values())
    yield "longest script of a shell", longest, longest <= 300
    held = [path.name for path in [*TOP.glob("tests/**/*.sh"), *TOP.glob("bench/*.sh")] if re.search(r"python3? (-.*)?<<[^<]", path.read_text())]
    yield f"Python within a script of a shell {held or ''}".strip(), len(held), not held
    patches = len(list(TOP.glob("open/*.patch")))
    yield "open: patches", patches, patches == 0
    code = {path: path.read_text() for folder in ("src", "specs") for path in TOP.glob(f"crates/*/{folder}/**/*") if path.is_file()}
    telling = sum(len(re.findall(r"\bfn (?:tell|told|say)(?:_\w+)?\b", text)) for text in code.values())
    yield "code: functions that are called tell, told or say", telling, telling == 0
    old = sum(bool(re.search(rf"\b(?:{OLD_NAMES})\b", text)) for text in code.values())
    yield f"code: files with {OLD_NAMES.replace('|', ', ')}", old, old == 0
    over, part = long_lines.shares()
    yield "code: lines of contracts and definitions over 160 columns", over, over == 0
    yield "code: of all of these, in a hundred, over 100 columns", part, part < 8


def print_counts():
    """Prints each wish with its count; says whether all are so."""
    so = True
    for wish, count, is_so in (*of_readme(), *of_documents(), *of_house()):
        so &= is_so
        print(f"{'so' if is_so else 'NOT YET':8}{count:>8}  {wish}")
    for path in documents():
        long = sum(len(line) > PROSE for line in prose(path.read_text()))
        if long:
            print(f"{'':8}{long:>8}  lines of prose over {PROSE} characters in {path.relative_to(TOP)}")
    return so
