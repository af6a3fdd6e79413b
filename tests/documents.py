#!/usr/bin/env python3
"""Runs what the documents show, by the built program, and compares it with what they say of it.

usage: documents.py [PROGRAM], by default crates/pcfs/out/pcfs. Prints a line for each document, and ends with 1 if one differs.
       documents.py counts     needs no program: a line for each form that the documents should have, with its count, and ends with 1 if one is not so
"""
import os
import re
import shutil
import socket
import subprocess
import sys
import tempfile
from pathlib import Path

TOP = Path(__file__).resolve().parents[1]
EXAMPLES = TOP / "examples"
sys.path.append(str(TOP / "examples"))
sys.path.append(str(TOP / "tests/model"))

import document_counts
from pcfs_formats import Text, key_of, sign_login, sign_statement
import root_model

SECRETS = EXAMPLES / "pcfs.secrets"


def text_of(name):
    return (TOP / name).read_text()


class Run:
    """A folder with the secrets of the examples and the program on its path."""

    def __init__(self, program, folder):
        self.program, self.folder = program, Path(folder)
        shutil.copy(SECRETS, folder)
        (self.folder / "bin").mkdir()
        (self.folder / "bin/pcfs").symlink_to(program)
        (self.folder / "pcfs").symlink_to(program)

    def held(self, name):
        """The bytes of a file, none if it is not there."""
        path = self.folder / name
        return path.read_bytes() if path.exists() else b""

    def script(self, *lines, words=("script",)):
        given = "".join(f"{line}\n" for line in lines).encode()
        ran = subprocess.run([self.program, *words], cwd=self.folder, input=given, stdout=subprocess.PIPE, check=False)
        return ran.stdout.decode().splitlines()

    def shell(self, text):
        """What the commands of a block write."""
        path = f"{self.folder}/bin:{os.environ['PATH']}"
        (self.folder / "commands").write_text(text)
        ran = subprocess.run(["bash", "-e", "commands"], cwd=self.folder, env={**os.environ, "PATH": path}, stdin=subprocess.DEVNULL, stdout=subprocess.PIPE, text=True, check=False)
        return ran.stdout.splitlines()


def blocks(text, kind):
    return re.findall(rf"(?ms)^```{kind}\n(.*?)^```$", text)


def rows(text, head):
    """The rows of the tables that have this head, each as its cells without backquotes."""
    for table in re.findall(rf"(?m)^{re.escape(head)}\n\|[-|]+\n((?:\|.*\n)+)", text):
        for row in table.splitlines():
            yield [cell.strip() for cell in row.strip("|").split(" | ")]


def shown(cell):
    found = re.fullmatch("`(.*)`", cell)
    return found[1] if found else cell


def hexadecimal(text, before):
    """The bytes of the indented block after these words."""
    block = re.search(rf"{re.escape(before)}(?s:.*?)\n\n((?:    .*\n)+)", text)[1]
    return bytes.fromhex(re.sub("the procap of.*|[^0-9a-f]", "", block))


def pairs():
    """Each line of an example with its reply."""
    for script in [*EXAMPLES.glob("*.pcfs"), *EXAMPLES.glob("stored/*.pcfs")]:
        yield from zip(script.read_text().splitlines(), script.with_suffix(".replies").read_text().splitlines())


def of_examples(name):
    """The lines that a document shows with `->` are those of examples, with the same replies."""
    known = set(pairs())
    for block in blocks(text_of(name), ""):
        for line in block.splitlines():
            line, _, reply = line.partition(" -> ")
            if reply and (line.strip(), reply) not in known:
                yield f"{line.strip()} is no line of an example with the reply {reply}"


def procap_of_first_file():
    """The procap that PROTOCOL works out: the grant, and its tag."""
    text = text_of("docs/PROTOCOL.md")
    return hexadecimal(text, "by statement 1, 46 bytes") + hexadecimal(text, "its tag under")


def protocol(run):
    """The tables of faults, and the bytes that are worked out."""
    text = text_of("docs/PROTOCOL.md")
    wanted = [("" if line == "nothing" else shown(line), shown(reply)) for line, reply, _ in rows(text, "| line | reply | why |")]
    wanted += [(f"register - {shown(line)}", shown(reply)) for line, reply in rows(text, "| text | reply to its `register -` |")]
    for cells in rows(text, "| text | fault | text | fault |"):
        wanted += [(f"check bob #1 read 1 {cell.strip('`')}", f"bad 4 {fault.replace(' at', '')}") for cell, fault in (cells[:2], cells[2:])]
    for (line, reply), found in zip(wanted, run.script(*(line for line, _ in wanted))):
        if found != reply:
            yield f"{line}: {found} and not {reply}"
    for statement in ("admin says may(alice,#1,write) from 0 to 200", "admin says forall K:principal. hr says employee(K) => may(K,#1,write) from 0 to 200"):
        if Text(statement).statement() != hexadecimal(text, f"`{statement}` is"):
            yield f"the bytes of {statement}"
    procap = "".join(run.script(*EXAMPLES.joinpath("first-file.pcfs").read_text().splitlines(), "procap 1")[-1:])
    if procap != f"ok procap {procap_of_first_file().hex()}":
        yield f"the procap of the first file is {procap}"
    admin = key_of(str(SECRETS), "admin")
    if sign_statement(admin, "admin says may(alice,#1,write) from 0 to 200").hex() not in text or sign_login(admin, "admin", bytes(16)).hex() not in text:
        yield "the signatures"
    yield from session(run, text)
    yield from shown_lines(run, text)
    table, wanted = (block.replace("    ", "").splitlines() for block in re.search(r"((?:    .*\n)+)\nmakes five statements:\n\n((?:    .*\n)+)", text).groups())
    if run.script(*table, words=("modes", "0", "200")) != wanted:
        yield "the table of modes"
    given = [line.strip() for line in re.search(r"(    seed [0-9a-f]{64}\n    statement .*\n)", text).group(1).splitlines()]
    if run.script(*given, words=("rootsign", "1", "0")) != root_model.lines("\n".join(given).encode(), 1, 0)[0]:
        yield "the statement that a tree of hashes signs"


def shown_lines(run, text):
    """The lines that stand indented with `->` and the reply, as a script, or as inquiries of which each reply ends one."""
    for block in re.findall(r"(?m)((?:^    .*\n)*(?:^    .* -> .*\n)+)", text):
        given = [tuple(part.strip() for part in line.partition(" -> ")[::2]) for line in block.splitlines()]
        if ".." in block:
            continue
        if not given[0][0].startswith(("statement", "goal")):
            found, wanted = run.script(*(line for line, _ in given)), [reply for _, reply in given]
        else:
            found, wanted, lines = [], [], []
            for line, reply in given:
                lines += [] if line == "(no line)" else [line]
                if reply:
                    found, wanted, lines = found + run.script(*lines, words=("check",)), [*wanted, reply], []
        if found != wanted:
            yield f"{found} and not {wanted}"


def logic(run):
    """The faults of proofs over the statements beside them, and a proof that has to name other times."""
    text = text_of("docs/LOGIC.md")
    part = text.split("\n## Faults\n")[1]
    policy = [f"register - {line.split('  ', 1)[1]}" for line in blocks(part, "")[0].splitlines()]
    for number, _, _, _, example in rows(part, "| C | name | it means | commonest cause | example |"):
        proof, node = re.fullmatch(r"`(.*)` at (\d+).*", example).groups() if " at " in example else ("..", "")
        found = [] if ".." in proof else run.script(*policy, f"check bob #1 write {'3' if number == '4' else '1,2'} {proof}")[-1:]
        if found not in ([], [f"unproved {number} {node}"]):
            yield f"{proof}: {found}"
    rule, fact = re.search(r"If `admin` states `(.*?)` and `(.*?)`, each from 0 to 200", text).groups()
    proof = re.search(r"But `(.*?)` is refused with fault 3 at node 5", text)[1]
    policy = [f"register - admin says {said} from 0 to 200" for said in (rule, fact)]
    found = run.script(*policy, *(f"check bob #2 read 1,2 {one}" for one in (proof, proof.replace("ctime,ctime", "0,200"))))[2:]
    if found[0] != "unproved 3 5" or not found[1].startswith("ok checked"):
        yield f"{proof}: {found}"


def session(run, text):
    """The session, but for its greeting and its login, which are of another nonce, as a script at a moment of today."""
    block = next(block for block in blocks(text, "") if block.startswith("< hello "))
    said = [line[2:] for line in block.splitlines()]
    nonce, login = bytes.fromhex(said[0].split(" ")[1]), said[3]
    if login != f"login alice {sign_login(bytes.fromhex('616c696365206b6579'), 'alice', nonce).hex()}":
        yield "the login of the session"
    found = run.script("at 1795000000", "as alice", *said[5::2])[2:]
    if found != said[6::2]:
        yield f"the session: {found}"


def disk(run):
    """The areas after `init`, and after a checkpoint."""
    text = text_of("docs/DISK.md")
    run.script(words=("init",))
    if run.held("pcfs.a") != hexadecimal(text, "`pcfs.a` has 95 bytes"):
        yield "the area after init"
    run.script(*EXAMPLES.joinpath("first-file.pcfs").read_text().splitlines(), words=("script", "--stored"))
    event = re.sub(r"the procap of.*", procap_of_first_file().hex(), re.search(r"109 bytes:\n\n((?:    .*\n)+)", text)[1])
    if bytes.fromhex(re.sub(r"\s", "", event)) not in run.held("pcfs.a"):
        yield "the event of the first file's creation"
    run.script(words=("checkpoint",))
    if run.held("pcfs.b") != hexadecimal(text, "`pcfs.b` has 275"):
        yield "the area after a checkpoint"


def compared(found, wanted):
    """The lines differ from those that are wanted, in which `..` stands for anything."""
    for number, want in enumerate(wanted):
        pattern = ".*".join(map(re.escape, want.split("..")))
        if number >= len(found) or not re.fullmatch(pattern, found[number]):
            yield f"{found[number] if number < len(found) else 'nothing'} and not {want}"


def readme(run):
    """The store that README serves, and what its first user does, where openssl is there."""
    if not shutil.which("openssl"):
        print("not run: the session of README, for want of openssl")
        return
    (run.folder / "bin/pcfs-client").symlink_to(TOP / "client/pcfs-client")
    serve, user = (block for block in blocks(text_of("README.md"), "sh") if "4040" in block or "login alice" in block)
    with socket.create_server(("127.0.0.1", 0)) as free:
        port = str(free.getsockname()[1])
    text = (serve + user).replace("4040", port).replace("sleep 1", "sleep 4").replace("login alice", f"login alice --server 127.0.0.1:{port}")
    found = run.shell(f"export PCFS_CLIENT_HOME={run.folder}/home\ntrap 'kill $(jobs -p) 2> /dev/null' EXIT\n{text}")
    wanted = ["ok", "ok statement 1", "ok statement 2", f"alice can log in at 127.0.0.1:{port}, and has 2 statements", (run.folder / "store/today").read_text().strip(), "#2 notes"]
    yield from compared(found, [*wanted, *[f"alice at 127.0.0.1:{port}: .., without end.."] * 4])


def running(run):
    """A store that is made, written, read, checkpointed, copied, and audited in the copy."""
    for name in ("first-file.pcfs", "stored"):
        copy = shutil.copytree if name == "stored" else shutil.copy
        copy(EXAMPLES / name, run.folder / name)
    found = run.shell("".join(block for block in blocks(text_of("docs/RUNNING.md"), "sh")))
    for want in ("ok bytes 6869", "ok checkpoint", "kept 3"):
        if want not in found:
            yield f"no {want} in {found}"
    if found.count("ok bytes 6869") < 2:
        yield "the file is not read again after the checkpoint"
    if not found or not re.fullmatch(r"events \d+ statements \d+ issues \d+ unissued 0", found[-1]):
        yield f"at last {found[-1:]}"


def manual(run):
    """The examples of the manual page."""
    text = text_of("docs/pcfs.1").split(".SH EXAMPLES\n.nf\n")[1].split("\n.fi")[0].replace("\\-", "-").replace("\\\\", "\\")
    (run.folder / "pcfs.secrets").unlink()
    for one in re.split(r"(?m)^\$ ", text)[1:]:
        command, _, wanted = one.partition("\nEND\n") if "<<'END'" in one else one.partition("\n")
        found = run.shell(command + ("\nEND\n" if "<<'END'" in command else "\n"))
        if found != wanted.splitlines():
            yield f"{command.splitlines()[0]}: {found}"


def main():
    if sys.argv[1:] == ["counts"]:
        return 0 if document_counts.print_counts() else 1
    program = os.path.realpath(sys.argv[1] if len(sys.argv) > 1 else TOP / "crates/pcfs/out/pcfs")
    differs = False
    for name, check in (("README.md", readme), ("docs/LOGIC.md", logic), ("docs/PROTOCOL.md", protocol), ("docs/DISK.md", disk), ("docs/RUNNING.md", running), ("docs/pcfs.1", manual)):
        with tempfile.TemporaryDirectory() as folder:
            faults = list(check(Run(program, folder)))
        faults += of_examples(name) if name == "README.md" else ()
        differs |= report(name, faults)
    differs |= report("docs/FIRST_POLICY.md", list(of_examples("docs/FIRST_POLICY.md")))
    return 1 if differs else 0


def report(name, faults):
    print(f"{'differs' if faults else 'agrees'} {name}")
    for fault in faults:
        print(f"  {fault[:300]}")
    return bool(faults)


if __name__ == "__main__":
    sys.exit(main())
