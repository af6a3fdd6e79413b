"""Writes the tables of modes.sh into a folder: `full` and `rules` have 4,096 statements, most of them of a class and most of them
rules; `large` has files, memberships and principals for far more, and `names` almost only principals, each in about 11 MB of text."""
import sys


def full():
    """63 principals and 64 files with one rule each, under names as long as they may be."""
    who = [f"who {f'user_{number}':_<32}" for number in range(63)]
    members = [f"member {f'user_{number}':_<32} {f'group_{number % 7}':_<32}" for number in range(63)]
    files = [f"mode #{2**64 - 2 - number} {f'user_{number % 63}':_<32} {f'group_{number % 7}':_<32} 400" for number in range(64)]
    return who + members + files


def rules():
    """One principal, 409 files with nine rules each, one with five."""
    return ["who alice"] + [f"mode #{number} alice staff 777" for number in range(2, 411)] + ["mode #411 alice staff 750"]


def large():
    who = [f"who u{number}" for number in range(20_000)]
    members = [f"member u{number} g{number * 7 % 1000}" for number in range(20_000)]
    members += [f"member u{number} h{number * 7 % 1000}" for number in range(20_000)]
    files = [f"mode #{number} u{number % 20_000} {'gh'[number % 2]}{number % 1000} {number % 512:03o}" for number in range(2, 400_000)]
    return who + members + files


def names():
    return [f"who n{number:x}" for number in range(1_000_000)] + ["mode #2 n0 staff 400"]


for table in (full, rules, large, names):
    with open(f"{sys.argv[1]}/{table.__name__}", "w") as file:
        file.write("\n".join(table()) + "\n")
