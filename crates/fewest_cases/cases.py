#!/usr/bin/env python3
"""Questions whose fewest pairs to hold apart are sought (document 02, request 2026-06), and their lines.

Writes stdin (the number of cases; for each its length in two bytes, the greater half first, then its capacity in two bytes, how many bytes
the result area is too short in one, the names behind their number, and the question) and stdout (one line a case: the length and the bytes of
the list, in decimal). Run it in this folder after a change of the cases.
"""


def field(bs):
    return [len(bs) // 256, len(bs) % 256, *bs]


def question(first="00", second="00", apart=""):
    return [1, 0] + field(bytes.fromhex(first)) + field(bytes.fromhex(second)) + field(bytes.fromhex(apart))


def calling(edition, called):
    """K of arity 2, K(x, y) = [x=y]τ.0; the first part as written, the second 0."""
    return [edition, 1, 2] + field(bytes.fromhex("05 80 81 01 00")) + field(bytes.fromhex(called)) + field([0]) + field([])


# K of arity 1, K(x) = x̄x.(νy)K(x); both parts K(a): every choice is settled, for the restrictions go (request 2026-04)
RESTRICTING = [1, 1, 1] + field(bytes.fromhex("03 80 80 08 09 00 81")) + 2 * field([9, 0, 0]) + field([])


def case(names, asked, capacity=256, short=0):
    names = list(bytes.fromhex(names))
    return field([capacity // 256, capacity % 256, short, len(names), *names, *asked])


NEWCOMER = question("07 02 00 00 03 01 02 00", "06 02 00 03 01 02 00 03 01 02 02 00 00")
TIE = question("05 00 02 05 01 03 01 00")
TWO = "06 05 00 01 01 00 05 01 02 01 00"
# under the pair 1-2 the two branches keep it for different names, so that one more situation is reached
GROWS = "06 05 01 00 01 03 02 00 00 01 03 02 00 00"

CASES = [
    # a(x).0 | b̄c.0 and its expansion: a and b apart; eight choices
    ("length 2 0 1", case("00 01 02", NEWCOMER)),
    # [a=c][b=d]τ.0 and 0: 0-2 and 1-3 are equally few, 0-2 comes first; 64 choices
    ("length 2 0 2", case("03 02 01 00", TIE)),
    # [a=b]τ.0 and 0; the question's own pair, twice and the other way round, is written once
    ("length 4 0 1 2 3", case("00 01", question("05 00 01 01 00", apart="03 02 03 02"))),
    # [a=b]τ.0 + [b=c]τ.0 and 0: two pairs; with 1-0 held already only one is chosen
    ("length 4 0 1 1 2", case("00 01 02", question(TWO))),
    ("length 4 0 1 1 2", case("00 01 02", question(TWO, apart="01 00"))),
    # τ.0 and 0: no pairs help
    ("none 0", case("00 01", question("01 00"))),
    # 0 and 0: the empty choice wins
    ("length 0", case("", question())),
    # a choice past the capacity makes the answer unsettled, also where the empty choice is the same
    ("unsettled 0", case("00", question("01 00", "01 00"), capacity=1)),
    ("unsettled 0", case("01 02", question(GROWS, GROWS), capacity=3)),
    ("length 0", case("01 02", question(GROWS, GROWS), capacity=4)),
    ("length 0", case("01", question(GROWS, GROWS), capacity=3)),
    ("length 0", case("00 01", RESTRICTING)),
    # K(a, b) and 0, in both editions
    ("length 2 0 1", case("00 01 02", calling(1, "09 00 00 01"))),
    ("length 2 0 1", case("00 01 02", calling(2, "09 00 02 00 01"))),
    # 16 before 18
    ("refused 16", case("00 00", calling(2, "09 00 01 00 01"))),
    # 18: a repeat, no name, five names; before 15
    ("refused 18", case("00 00", question())),
    ("refused 18", case("10", question())),
    ("refused 18", case("00 01 02 03 04", question())),
    ("refused 18", case("00 00", question(), short=1)),
    ("refused 15", case("00 01", question("05 00 01 01 00"), short=1)),
    # 1, 3 and 12 before 18
    ("refused 1", case("00 00", question(), capacity=0)),
    ("refused 3", case("00 00", [])),
    ("refused 12", case("00 00", question(apart="00"))),
]

with open("stdin", "wb") as f:
    f.write(bytes([len(CASES)] + [b for _, bs in CASES for b in bs]))
with open("stdout", "w") as f:
    f.writelines(line + "\n" for line, _ in CASES)
