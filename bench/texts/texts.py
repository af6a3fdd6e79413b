"""The texts that texts.sh parses and prints; as a program, it prints them."""
def said(body):
    return 's' + f'admin says {body} from 0 to 200'

def predicates(nodes):
    count = (nodes - 2) // 5
    return said('alice says (' + ' & '.join(['p(alice,#1,write)'] * count) + ')')

def parentheses(nodes):
    return said('(' * (nodes - 1) + 'true' + ')' * (nodes - 1))

def says(nodes):
    return said('alice says ' * ((nodes - 1) // 2) + 'true')

def binders(nodes):
    count = (nodes - 6) // 7
    inside = ''.join(f'forall X{n:03}:principal. ' for n in range(2 * count))
    return said(inside + ' & '.join(['p(X000,X000,X000)'] * count))

def plain(rules):
    def tree(n):
        return 'trueR' if n == 1 else f'andR({tree(n // 2)},{tree(n - n // 2)})'
    return 'patR(' + tree(rules // 2) + ')'

def timed(rules):
    def tree(n):
        return 'trueR' if n == 1 else f'impL(65535,2026-01-01T00:00:00Z,253402300799,{tree(n // 2)},{tree(n - n // 2)})'
    return 'patR(' + tree(rules // 2) + ')'

cases = [('statement of the first file', said('may(alice,#1,write)'), None)]
for name, make, size in [
    ('statement, 512 nodes, predicates', predicates, 512),
    ('statement, 511 parentheses', parentheses, 512),
    ('statement, 512 nodes, says', says, 512),
    ('statement, 512 nodes, binders', binders, 512),
    ('proof, 4,096 rules', plain, 4096),
    ('proof, 4,096 rules, 4,094 times', timed, 4096),
]:
    cases += [(name, make(size), None), (name, make(size // 8), make(size))]

if __name__ == "__main__":
    for name, text, whole in cases:
        print(text)
