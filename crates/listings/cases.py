#!/usr/bin/env python3
"""Questions whose steps are listed. Writes stdin: the number of cases; for each its length in two bytes, the greater half first, then the
side, the new name and the question. What stdout must have is written by the comparison implementation:

    python3 cases.py && (cd ../../rust && cargo run --release --offline --bin reference-listings) < stdin > stdout

Run it in this folder after a change of the cases.
"""


def field(bs):
    return [len(bs) // 256, len(bs) % 256, *bs]


def question(first, second=(0,), definitions=(), version=1):
    bs = [version, len(definitions), *(arity for arity, body in definitions)]
    for _, body in definitions:
        bs += field(body)
    return bs + field(first) + field(second) + field([])


def taus(n):
    """A term of n bytes."""
    return [1] * (n - 1) + [0]


def choice(terms):
    bs = []
    for t in terms[:-1]:
        bs += [6, *t]
    return bs + terms[-1]


def restricted(n):
    """n distinct terms without names, the shortest first; most have unused restrictions."""
    terms = [[0]]
    for t in terms:
        if len(terms) >= n:
            return terms[:n]
        terms += [[1, *t], [8, *t]]


# definitions without a step, from number 2 on
IDLE = [(0, [0])] * 14


def small(n, version=1):
    """n distinct terms without names and restrictions, the shortest first."""
    calls = [[9, k] if version == 1 else [9, k, 0] for k in range(2, 16)]
    return [[0], [1, 0], *calls, [1, 1, 0]][:n]


OUTPUT, INPUT = 3, 2


def meeting(outputs, inputs):
    """Two definitions over one channel: outputs and inputs with these continuations."""
    return [(1, choice([[OUTPUT, 128, 128, *t] for t in outputs])), (1, choice([[INPUT, 128, *t] for t in inputs]))]


DISTINCT = [*meeting(small(15), small(17)), *IDLE]
DISTINCT2 = [*meeting(small(15, 2), small(17, 2)), *IDLE]
MEET = [8, 7, 9, 0, 128, 9, 1, 128]
# many of each, all with the same continuation
MANY_OUT = (1, choice([[OUTPUT, 128, 128, 0]] * 22))
MANY_IN = (1, choice([[INPUT, 128, 0]] * 28))

# document 01, "Exchanges to try": the two sides of each, and their definitions
EXCHANGES = [
    ([0], [0], []),
    ([5, 0, 1, 1, 0], [0], []),
    ([6, 1, 0, 5, 0, 1, 1, 0], [1, 0], []),
    ([7, 2, 0, 0, 3, 1, 2, 0], [6, 2, 0, 3, 1, 2, 0, 3, 1, 2, 2, 0, 0], []),
    ([8, 3, 0, 128, 0], [4, 0, 0], []),
    ([4, 0, 5, 128, 1, 1, 0], [4, 0, 0], []),
    ([2, 0, 5, 128, 1, 1, 0], [2, 0, 0], []),
    ([8, 5, 128, 128, 1, 0], [1, 0], []),
    ([9, 0, 0], [3, 0, 0, 9, 0, 0], [(1, [3, 128, 128, 9, 0, 128])]),
    ([9, 0, 0], [9, 0, 0], [(1, [3, 128, 128, 8, 9, 0, 129])]),
]

CASES = [
    *[(side, 15, question(*e)) for e in EXCHANGES for side in (1, 2)],
    # check 13: no side, no name, a name that is free
    (0, 15, question([0])),
    (3, 15, question([0])),
    (1, 16, question([0])),
    (1, 0, question([2, 0, 0])),
    # check 3 comes first
    (0, 16, []),
    # the new name is received, extruded, and put for a parameter of a called body without capture
    (1, 1, question([2, 0, 3, 128, 0, 0])),
    (1, 1, question([8, 3, 0, 128, 2, 128, 0])),
    (1, 3, question([8, 9, 0, 0, 128], definitions=[(2, [8, 3, 130, 129, 3, 128, 129, 0])])),
    # Open does not apply on the restricted channel; a match of two restricted names blocks, a trivial one does not
    (1, 1, question([8, 3, 128, 0, 0])),
    (1, 1, question([8, 8, 5, 128, 129, 1, 0])),
    (1, 1, question([8, 8, 5, 129, 129, 1, 0])),
    # Com merges the channels; Close binds the extruded name
    (1, 15, question([7, 2, 0, 3, 128, 2, 0, 3, 1, 3, 0])),
    (1, 15, question([7, 2, 0, 3, 128, 2, 0, 8, 3, 1, 128, 3, 128, 2, 0])),
    # 616 communications and 50 visible steps before a restriction leave one step
    (1, 1, question([8, 7, 9, 0, 128, 9, 1, 128], definitions=[MANY_OUT, MANY_IN])),
    # exactly 256 and 257 distinct steps
    (1, 15, question([7, *MEET, 3, 0, 0, 0], definitions=DISTINCT)),
    (1, 15, question([7, 7, *MEET, 3, 0, 0, 0, 3, 1, 1, 0], definitions=DISTINCT)),
    # a result of 112 and of 113 bytes
    (1, 0, question([7, 9, 0, 0], definitions=[(0, taus(111))])),
    (1, 0, question([7, 9, 0, 0], definitions=[(0, taus(112))])),
    # one of 113 that an outer restriction blocks
    (1, 0, question([8, 7, 9, 0, 128, 1, 0], definitions=[(1, [3, 128, 128, *taus(109)])])),
    # edition two lists as edition one does, results in the edition-one form: a called body, 256 steps, a result of 112 and of 113 bytes, 16
    (1, 3, question([8, 9, 0, 2, 0, 128], definitions=[(2, [8, 3, 130, 129, 3, 128, 129, 0])], version=2)),
    (1, 15, question([7, 8, 7, 9, 0, 1, 128, 9, 1, 1, 128, 3, 0, 0, 0], definitions=DISTINCT2, version=2)),
    (1, 0, question([7, 9, 0, 0, 9, 1, 0], definitions=[(0, taus(109)), (0, [0])], version=2)),
    (1, 0, question([7, 9, 0, 0, 9, 1, 0], definitions=[(0, taus(110)), (0, [0])], version=2)),
    (1, 0, question([7, 9, 0, 0, 9, 1, 0], definitions=[(0, taus(111)), (0, [0])], version=2)),
    (1, 3, question([9, 0, 1, 0], definitions=[(2, [0])], version=2)),
    # 37 parallel components
    (1, 0, question([7] * 36 + [1, 0] * 37)),
    # request 2026-04: unused restrictions go: beneath an input, behind a used one, the inner and the outer of two
    (1, 1, question([2, 0, 8, 3, 129, 129, 0])),
    (1, 1, question([2, 0, 8, 3, 129, 128, 8, 0])),
    (1, 1, question([1, 8, 8, 3, 129, 0, 0])),
    (1, 1, question([1, 8, 8, 3, 128, 0, 0])),
    # what Close adds and nothing uses; what a communication was the last to use; of a component that does not move
    (1, 1, question([7, 4, 0, 0, 2, 0, 0])),
    (1, 1, question([8, 7, 2, 128, 0, 3, 128, 0, 0])),
    (1, 1, question([7, 1, 0, 8, 1, 8, 0])),
    # the names of a call count, also those that its body ignores
    (1, 1, question([1, 8, 8, 9, 0, 128, 0], definitions=[(2, [0])])),
    # beneath every kind of term, in a called body
    (1, 1, question([9, 0, 0], definitions=[(1, [1, 8, 6, 8, 2, 130, 8, 3, 131, 129, 8, 0, 8, 5, 129, 130, 8, 4, 130, 8, 9, 0, 129])])),
    # steps that differ in unused restrictions alone are one: two; 257 of them are 22
    (1, 1, question([6, 1, 0, 1, 8, 0])),
    (1, 15, question([7, 7, *MEET, 3, 0, 0, 0, 3, 1, 1, 0], definitions=meeting(restricted(15), restricted(17)))),
    # results of 121 bytes before and 21 after, of 219 and 3, of 114 and 112, and of 114 and 113
    (1, 1, question([7, 9, 0, *[3, 0, 0] * 6, 0], definitions=[(0, [1, *[8] * 100, 0])])),
    (1, 1, question([8, 7, 9, 0, 128, 9, 1, 128], definitions=[(1, [4, 128, *[8] * 107, 0]), (1, [2, 128, *[8] * 107, 0])])),
    (1, 1, question([7, 9, 0, *taus(100)], definitions=[(0, [1, 8, 8, *taus(11)])])),
    (1, 1, question([7, 9, 0, *taus(101)], definitions=[(0, [1, 8, *taus(11)])])),
    # a side is listed as it stands, and check 13 goes by its names
    (2, 1, question([0], [8, 8, 1, 3, 0, 0, 0])),
    (1, 1, question([8, 1, 8, 3, 1, 1, 0])),
]

with open("stdin", "wb") as f:
    f.write(bytes([len(CASES)]))
    for side, name, q in CASES:
        f.write(bytes(field([side, name, *q])))
