"""Messages of 9P2000, by the manual alone.

It reads rows as `crates/nine_rows/README.md` says, and writes what the program of rows must print for them.
"""
import struct
import sys

NAMES = {100: "Tversion", 104: "Tattach", 108: "Tflush", 110: "Twalk", 112: "Topen", 116: "Tread", 118: "Twrite", 120: "Tclunk"}


class Bad(Exception):
    pass


class Fields:
    def __init__(self, body):
        self.body = body

    def take(self, count):
        if len(self.body) < count:
            raise Bad
        front, self.body = self.body[:count], self.body[count:]
        return front

    def number(self, count):
        return int.from_bytes(self.take(count), "little")

    def text(self):
        return self.take(self.number(2)).hex()

    def end(self):
        if self.body:
            raise Bad


def lines_of(message):
    kind, tag, fields = message[4], int.from_bytes(message[5:7], "little"), Fields(message[7:])
    lines = []
    if kind not in NAMES:
        return [f"{tag} other {kind} {fields.body.hex()}"]
    if kind == 100:
        words = [fields.number(4), fields.text()]
    elif kind == 104:
        words = [fields.number(4), fields.number(4), fields.text(), fields.text()]
    elif kind == 108:
        words = [fields.number(2)]
    elif kind == 110:
        words = [fields.number(4), fields.number(4)]
        lines = [f"name {fields.text()}" for _ in range(fields.number(2))]
    elif kind == 112:
        words = [fields.number(4), fields.number(1)]
    elif kind == 116:
        words = [fields.number(4), fields.number(8), fields.number(4)]
    elif kind == 118:
        words = [fields.number(4), fields.number(8)]
        words.append(fields.take(fields.number(4)).hex())
    else:
        words = [fields.number(4)]
    fields.end()
    return [" ".join([str(tag), NAMES[kind], *map(str, words)]), *lines]


def bytes_of(word):
    digits, _, times = word.partition("*")
    return bytes.fromhex(digits) * (int(times) if times else 1)


def stream(agreed, data):
    while True:
        if len(data) < 4:
            return print("open", agreed, len(data))
        size = int.from_bytes(data[:4], "little")
        if size < 7 or size > agreed:
            return print("bad", agreed, len(data))
        if len(data) < size:
            return print("open", agreed, len(data))
        try:
            lines = lines_of(data[:size])
        except Bad:
            return print("bad", agreed, len(data))
        print("\n".join(lines))
        if data[4] == 100:
            msize = int.from_bytes(data[7:11], "little")
            agreed = agreed if msize < 512 else min(msize, 65536)
        data = data[size:]


def reply_bytes(tag, kind, *words):
    several = len(words) // 3
    words = (*words, "")

    def qid(at):
        return struct.pack("<BIQ", *map(int, words[at:at + 3]))

    def text(word):
        return struct.pack("<H", len(bytes_of(word))) + bytes_of(word)

    number, body = {
        "version": lambda: (101, struct.pack("<I", int(words[0])) + text(words[1])),
        "attach": lambda: (105, qid(0)),
        "error": lambda: (107, text(words[0])),
        "flush": lambda: (109, b""),
        "walk": lambda: (111, struct.pack("<H", several) + b"".join(qid(3 * at) for at in range(several))),
        "open": lambda: (113, qid(0) + bytes(4)),
        "read": lambda: (117, struct.pack("<I", len(bytes_of(words[0]))) + bytes_of(words[0])),
        "write": lambda: (119, struct.pack("<I", int(words[0]))),
        "clunk": lambda: (121, b""),
    }[kind]()
    return struct.pack("<IBH", 7 + len(body), number, int(tag)) + body


def main():
    for row in sys.stdin.read().splitlines():
        print(row)
        kind, number, *words = row.split(" ")
        if kind == "reply":
            print(reply_bytes(number, *words).hex())
        else:
            stream(int(number), b"".join(map(bytes_of, words)))


if __name__ == "__main__":
    main()
