"""The proofs that verifier.sh has checked, each in a file."""
import sys

def name(text):
    return bytes([len(text)]) + text.encode()

def principal(who):
    return b'\x01' + name(who)

def file(number):
    return b'\x02' + number.to_bytes(8, 'big')

def text(constant):
    return b'\x05' + name(constant)

def atom(word, *terms):
    return b'\x10' + name(word) + bytes([len(terms)]) + b''.join(terms)

def is_marked(number):
    return b'\x13' + file(1) + text('a' * 126 + f'{number:02}') + text('b' * 128)

CTIME, BOUND = b'\x06', b'\x08' + bytes(4)
Q = atom('q')
MAY = atom('may', principal('alice'), file(1), b'\x03\x02')

def both(a, b):
    return b'\x15' + a + b

def either(a, b):
    return b'\x16' + a + b

def implies(a, b):
    return b'\x17' + a + b

def in_directory(file_at):
    return b'\x14' + file_at + file(1)

def always(body):
    return name('admin') + body + b'\x00' + b'\x02'

def between(body, start, end):
    return name('admin') + body + b'\x01' + start.to_bytes(8, 'big') + b'\x01' + end.to_bytes(8, 'big')

def rule(tag, *numbers):
    return bytes([tag]) + b''.join(number.to_bytes(2, 'big') for number in numbers)

def claim(number):
    return rule(0x1a, number)

def init(number):
    return rule(0x01, number)

def imp_l(number):
    return rule(0x16, number) + CTIME + CTIME

SAYS_R, AND_R, INTER_R, IMP_R = rule(0x0b), rule(0x04), rule(0x03), rule(0x08)

def tree(leaf, leaves, number):
    if leaves == 1:
        return leaf
    return rule(0x14, number) + tree(leaf, leaves // 2, number) + tree(leaf, leaves - leaves // 2, number)

def asked_again():
    marks = is_marked(0)
    for number in range(1, 64):
        marks = both(marks, is_marked(number))
    proof = SAYS_R + claim(0)
    for _ in range(31):
        proof += imp_l(1) + AND_R * 63 + INTER_R * 64
    return [always(implies(marks, MAY))], proof + claim(0) * 125 + init(2)

def nested(count, assumption, first, p):
    asked = Q
    for _ in range(count - 1):
        asked = implies(Q, asked)
    asked = implies(first, asked)
    return [always(implies(asked, MAY))], SAYS_R + claim(0) + imp_l(1) + IMP_R * count + p + init(2)

def large():
    rest = atom('r', file(1))
    for _ in range(126):
        rest = both(rest, in_directory(BOUND))
    return b'\x1a\x02' + both(MAY, rest)

def instances(count, first):
    forall_l = rule(0x17, 2) + file(1)
    return forall_l * count + rule(0x13, first + count - 1) + init(first + count)

def instantiated(branches, number, first):
    proof = SAYS_R + claim(0) + claim(1) + branches(number, first)
    return [always(large()), always(either(MAY, MAY))], proof

# truths: 2 is the formula of 512 nodes, 3 the disjunction; each branch has one more
def two(number, first):
    return rule(0x14, 3) + instances(194, 5) + instances(6, 5)

def twenty_one(number, first):
    def grow(count, depth):
        if count == 1:
            return instances(190, 4 + depth)
        return rule(0x14, 3) + grow(count // 2, depth + 1) + grow(count - count // 2, depth + 1)
    return grow(21, 0)

cases = [
    ([between(MAY, 0, 200)], SAYS_R + claim(0) + init(1)),
    asked_again(),
    nested(196, 2, Q, init(2)),
    instantiated(two, 3, 4),
    nested(185, 2, either(Q, Q), tree(init(3), 1950, 2)),
    instantiated(twenty_one, 3, 4),
]
for number, (statements, proof) in enumerate(cases):
    with open(f'{sys.argv[1]}.{number}', 'wb') as out:
        out.write(bytes([len(statements)]) + b''.join(statements) + proof)
