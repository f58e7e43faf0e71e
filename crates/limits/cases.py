#!/usr/bin/env python3
"""The limits of document 01 and of edition two (document 02, request 2026-05), one question a case, and what check answers.

Writes stdin (the number of cases; for each its length in two bytes, the greater half first, then its bytes) and stdout (one line a case).
Run it in this folder after a change of the cases.
"""

# the free names of a part are those below
NAMES = 16
PAIRS = NAMES * (NAMES - 1) // 2


def field(bs):
    return [len(bs) // 256, len(bs) % 256, *bs]


def question(first=(0,), second=(0,), apart=(), arities=(), bodies=(), version=1):
    bs = [version, len(arities), *arities]
    for body in bodies:
        bs += field(body)
    return bs + field(first) + field(second) + field(apart)


def two(first, arities=(1,), bodies=((0,),)):
    """A question of edition two, with one definition of arity 1 unless others are given."""
    return question(first=first, arities=arities, bodies=bodies, version=2)


def taus(n):
    """A term of n bytes."""
    return [1] * (n - 1) + [0]


CASES = [
    # the smallest question; check 3
    ("accepted", question()),
    ("refused 3", []),
    ("refused 3", [3]),
    ("refused 4", [2]),
    ("refused 3", [0] + question()[1:]),
    # check 4: cut anywhere, bytes left over, lengths that lie, 4,096 and 4,097 bytes
    *[("refused 4", question()[:n]) for n in range(1, len(question()))],
    ("refused 4", question() + [0]),
    ("refused 4", [1, 0, 255, 255, 0]),
    ("refused 4", [1, 255] + [0] * 100),
    ("refused 6", question(first=[0] * 4087)),
    ("refused 4", question(first=[0] * 4088)),
    # check 5: 16 and 17 definitions, arity 8 and 9
    ("accepted", question(arities=[0] * 16, bodies=[[0]] * 16)),
    ("refused 5", question(arities=[0] * 17, bodies=[[0]] * 17)),
    ("accepted", question(arities=[8], bodies=[[0]])),
    ("refused 5", question(arities=[9], bodies=[[0]])),
    # check 6: 0, 112 and 113 bytes
    ("accepted", question(first=taus(112))),
    ("refused 6", question(first=taus(113))),
    ("refused 6", question(second=taus(113))),
    ("refused 6", question(first=[])),
    ("accepted", question(arities=[0], bodies=[taus(112)])),
    ("refused 6", question(arities=[0], bodies=[taus(113)])),
    # check 7: a byte above 09, a part that ends inside its term, bytes behind it
    ("refused 7", question(first=[10])),
    ("refused 7", question(first=[1])),
    ("refused 7", question(first=[3, 0])),
    ("refused 7", question(first=[9])),
    ("refused 7", question(first=[0, 0])),
    ("refused 7", question(first=[6, 0])),
    # check 8
    ("accepted", question(first=[9, 0], arities=[0], bodies=[[0]])),
    ("refused 8", question(first=[9, 1], arities=[0], bodies=[[0]])),
    ("refused 8", question(first=[9, 0])),
    # check 9: the last name and the byte behind it, a binder within reach and past it, a free name in a body
    ("accepted", question(first=[2, NAMES - 1, 0])),
    ("refused 9", question(first=[2, NAMES, 0])),
    ("refused 9", question(first=[2, 127, 0])),
    ("accepted", question(first=[2, 0, 3, 128, 128, 0])),
    ("refused 9", question(first=[2, 0, 3, 129, 128, 0])),
    ("accepted", question(arities=[1], bodies=[[3, 128, 128, 0]])),
    ("refused 9", question(arities=[1], bodies=[[3, 128, 0, 0]])),
    ("refused 9", question(arities=[1], bodies=[[3, 128, 129, 0]])),
    # check 10: parallel beneath parallels and restrictions, beneath a prefix, in a body
    ("accepted", question(first=[8, 7, 0, 7, 0, 0])),
    ("refused 10", question(first=[1, 7, 0, 0])),
    ("refused 10", question(first=[6, 0, 7, 0, 0])),
    ("refused 10", question(arities=[0], bodies=[[7, 0, 0]])),
    # check 11: a call beneath a prefix, beneath none
    ("accepted", question(arities=[0], bodies=[[1, 9, 0]])),
    ("refused 11", question(arities=[0], bodies=[[9, 0]])),
    ("refused 11", question(arities=[0], bodies=[[6, 0, 8, 9, 0]])),
    # check 12: odd length, every pair once and two bytes more, a byte above the last name, a name with itself
    ("accepted", question(apart=[0, 1])),
    ("refused 12", question(apart=[0])),
    ("accepted", question(apart=[0, 1] * PAIRS)),
    ("refused 12", question(apart=[0, 1] * (PAIRS + 1))),
    ("accepted", question(apart=[NAMES - 1, 0])),
    ("refused 12", question(apart=[NAMES, 0])),
    ("refused 12", question(apart=[0, NAMES])),
    ("refused 12", question(apart=[3, 3])),
    # edition two, check 16 directly after 8: another number than the arity; missing, or names missing (7); no such definition first
    ("accepted", two([9, 0, 1, 0])),
    ("refused 16", two([9, 0, 0])),
    ("refused 16", two([9, 0, 2, 0, 0])),
    ("refused 7", two([9, 0])),
    ("refused 7", two([9, 0, 1])),
    ("refused 8", two([9, 1, 5])),
    ("refused 16", two([9, 0, 0, NAMES])),
    ("refused 9", two([9, 0, 1, NAMES])),
    ("refused 16", two([6, 9, 0, 0, 10])),
    ("refused 7", two([6, 10, 9, 0, 0])),
    ("refused 7", two([9, 0, 1, 0, 0])),
    ("refused 16", two([0], bodies=[[1, 9, 0, 0]])),
    ("accepted", two([0], bodies=[[1, 9, 0, 1, 128]])),
    # check 6 goes by the bytes of the file: 112 and 113 of edition two
    ("accepted", two([1] * 108 + [9, 0, 1, 0])),
    ("refused 6", two([1] * 109 + [9, 0, 1, 0])),
    # two faults at once: the smaller number, except that 7, 8 and 9 share one walk
    ("refused 3", [3, 17]),
    ("refused 4", [2, 17]),
    ("refused 5", question(first=[], arities=[9], bodies=[[0]])),
    ("refused 6", question(first=[10], second=[])),
    ("refused 6", question(arities=[0], bodies=[[10]], second=taus(113))),
    ("refused 9", question(first=[3, NAMES, 0, 10])),
    ("refused 7", question(first=[6, 10, 2, NAMES, 0])),
    ("refused 8", question(first=[6, 9, 0, 2, NAMES, 0])),
    ("refused 9", question(first=[2, NAMES, 9, 0], second=[10])),
    ("refused 9", question(arities=[0], bodies=[[2, 0, 0]], first=[10])),
    ("refused 7", question(arities=[0], bodies=[[7, 0, 0]], second=[1])),
    ("refused 10", question(arities=[0], bodies=[[9, 0]], second=[1, 7, 0, 0])),
    ("refused 11", question(arities=[0], bodies=[[9, 0]], apart=[0])),
]

if __name__ == "__main__":
    with open("stdin", "wb") as f:
        f.write(bytes([len(CASES)]))
        for _, bs in CASES:
            f.write(bytes(field(bs)))
    with open("stdout", "w") as f:
        f.writelines(line + "\n" for line, _ in CASES)
