#!/usr/bin/env python3
"""Questions that are judged, and their lines: those of document 01, "Exchanges to try", that no theorem has, appendix B.1 of document 000,
whose last column gives the verdicts, and small ones for requests of document 02. The sizes of the fields are those of the comparison
implementation (rust/generate/src/worked.rs).

Writes stdin (the number of cases; for each its length in two bytes, the greater half first, then a byte for the relation, 0 open, 1 late, 2 early,
its capacity in two bytes and its question) and stdout (one line a case). Run it in this folder after a change of the cases.
"""


def field(bs):
    return [len(bs) // 256, len(bs) % 256, *bs]


def question(first="00", second="00", definitions=(), apart="", version=1):
    bs = [version, len(definitions), *(arity for arity, body in definitions)]
    for _, body in definitions:
        bs += field(bytes.fromhex(body))
    return bs + field(bytes.fromhex(first)) + field(bytes.fromhex(second)) + field(bytes.fromhex(apart))


LOOP = [(1, "03 80 80 09 00 80")]
RESTRICTING = [(1, "03 80 80 08 09 00 81")]

# the same in edition two
LOOP2 = [(1, "03 80 80 09 00 01 80")]
RESTRICTING2 = [(1, "03 80 80 08 09 00 01 81")]

# Appendix B.1: names a to i are 00 to 08; definition 0 is K1, with K2 written out in its body, and 1 is K2. The output of b in P1 is of a
# new name: b is no parameter of K1.
K = [
    (3, "06 04 81 02 81 09 01 81 80  05 82 80 04 81 02 83 09 00 84 81 80"),
    (2, "04 81 02 81 09 01 81 80"),
]
P1 = "06 09 01 02 04 05 00 04 04 02 02 00 09 00 00 81 80"
P2 = "04 02 02 04 09 01 81 80"
P3 = "07 06 09 01 02 04 05 00 04 04 02 02 00 09 00 00 81 80 03 00 01 03 02 03 00"
P4 = "07 04 02 02 04 09 01 81 80 03 00 01 03 02 03 00"
P5 = "07 04 00 02 04 00 07 04 00 02 02 00 02 00 03 02 80 00"
P6 = "07 04 00 02 02 00 07 04 00 02 02 00 07 04 00 02 04 00 04 00 02 02 00"

# request 2026-04: a body that leaves a hundred restrictions, beside six outputs; a step of it has 121 bytes before they go. And a body with
# which a result has 113 bytes, none of them to spare.
LOOSE = [(0, "01" + "08" * 100 + "00")]
SIX = "07 09 00" + "03 00 00" * 6 + "00"
LONG = [(0, "01" * 99 + "00")]

CASES = [
    # K⟨a⟩ and āa.K⟨a⟩, also at capacities 2 and 1
    ("same 2", 256, question("09 00 00", "03 00 00 09 00 00", LOOP)),
    ("same 2", 2, question("09 00 00", "03 00 00 09 00 00", LOOP)),
    ("unsettled 0", 1, question("09 00 00", "03 00 00 09 00 00", LOOP)),
    # the last K, whose restrictions go (request 2026-04)
    ("same 1", 256, question("09 00 00", "09 00 00", RESTRICTING)),
    # capacities, where the work area is one for 256 situations; a part of 112 and of 113 bytes; the names 0F and 10; arities 8 and 9
    ("refused 1", 0, question()),
    ("same 1", 1, question()),
    ("same 1", 256, question()),
    ("refused 2", 257, question()),
    ("refused 2", 4096, question()),
    ("refused 1", 4097, question()),
    ("same 112", 256, question("01" * 111 + "00", "01" * 111 + "00")),
    ("refused 6", 256, question("01" * 112 + "00", "00")),
    ("same 2", 256, question("03 0F 0F 00", "03 0F 0F 00")),
    ("refused 9", 256, question("03 10 0F 00", "00")),
    ("same 1", 256, question("00", "00", [(8, "00")])),
    ("refused 5", 256, question("00", "00", [(9, "00")])),
    # appendix B.1
    ("same 23", 256, question(P1, P2, K)),
    ("same 136", 256, question(P3, P4, K)),
    ("different 7", 256, question(P2, P4, K)),
    ("same 105", 256, question(P5, P5, K)),
    ("different 128", 256, question(P5, P6, K)),
    # request 2026-07: parallel bracketed anew about an extrusion, exchanged, beside inaction
    ("same 10", 256, question("07 07 02 00 00 03 01 02 00 08 03 00 80 00", "07 02 00 00 07 03 01 02 00 08 03 00 80 00")),
    ("same 7", 256, question("07 02 00 03 80 01 00 04 00 00", "07 04 00 00 02 00 03 80 01 00")),
    ("same 3", 256, question("07 02 00 03 80 01 00 00", "02 00 03 80 01 00")),
    # choice exchanged beneath an input, bracketed anew, with inaction, doubled; beyond the capacity; and a parallel doubled, which is no law
    ("same 3", 256, question("02 00 06 01 00 03 80 80 00", "02 00 06 03 80 80 00 01 00")),
    ("same 2", 256, question("06 06 01 00 05 00 01 01 00 03 00 01 00", "06 01 00 06 05 00 01 01 00 03 00 01 00", apart="00 01")),
    ("same 2", 256, question("06 04 00 00 00", "04 00 00")),
    ("same 2", 256, question("06 09 00 00 09 00 00", "09 00 00", LOOP)),
    ("unsettled 0", 1, question("06 09 00 00 09 00 00", "09 00 00", LOOP)),
    ("different 3", 256, question("07 01 00 01 00", "01 00")),
    # request 2026-13: [a=b]τ.0 and 0 with a, b apart, alone; behind τ and c̄d; beneath [a=b]; in a choice with c(x).0, either branch; beside c̄d.0,
    # either side; beneath (νa) and behind c̄(a), the pair dropped; behind c(x); and behind b̄c and τ, in a choice with b̄(y).0, beneath (νa)
    ("same 1", 256, question("05 00 01 01 00", "00", apart="00 01")),
    ("same 2", 256, question("01 05 00 01 01 00", "01 00", apart="00 01")),
    ("same 2", 256, question("03 02 03 05 00 01 01 00", "03 02 03 00", apart="00 01")),
    ("same 1", 256, question("05 00 01 05 00 01 01 00", "05 00 01 00", apart="00 01")),
    ("same 2", 256, question("06 05 00 01 01 00 02 02 00", "06 00 02 02 00", apart="00 01")),
    ("same 2", 256, question("06 02 02 00 05 00 01 01 00", "06 02 02 00 00", apart="00 01")),
    ("same 2", 256, question("07 05 00 01 01 00 03 02 03 00", "07 00 03 02 03 00", apart="00 01")),
    ("same 2", 256, question("07 03 02 03 00 05 00 01 01 00", "07 03 02 03 00 00", apart="00 01")),
    ("same 1", 256, question("08 05 80 01 01 00", "08 00")),
    ("same 2", 256, question("04 02 05 80 01 01 00", "04 02 00")),
    ("same 2", 256, question("02 02 05 00 01 01 00", "02 02 00", apart="00 01")),
    ("same 4", 256, question("08 06 01 03 01 02 05 80 01 01 00 04 01 00", "08 06 01 03 01 02 00 04 01 00")),
    # request 2026-05: the first exchanges in edition two; a number that is not the arity; a part of 112 bytes, which edition one has in 111
    ("same 2", 256, question("09 00 01 00", "03 00 00 09 00 01 00", LOOP2, version=2)),
    ("unsettled 0", 1, question("09 00 01 00", "03 00 00 09 00 01 00", LOOP2, version=2)),
    ("same 1", 256, question("09 00 01 00", "09 00 01 00", RESTRICTING2, version=2)),
    ("same 2", 256, question("06 01 00 05 00 01 01 00", "01 00", version=2)),
    ("refused 16", 256, question("09 00 00", "03 00 00 09 00 01 00", LOOP2, version=2)),
    ("refused 3", 256, question(version=3)),
    ("same 109", 256, question("01 " * 108 + "09 00 01 00", "01 " * 108 + "09 00 01 00", LOOP2, version=2)),
    # not promised: behind c(a), whose pair is lost; and τ.(0 | 0), which is no question
    ("different 2", 256, question("02 02 05 80 01 01 00", "02 02 00")),
    ("refused 10", 256, question("01 07 00 00", "01 00")),
    # request 2026-04: τ.0 + τ.(νx)0 and τ.0; (νx)τ.0 and τ.0; (νx)0 and 0; K = τ.(νx)K and L = τ.L; the last K twice in a choice
    ("same 2", 256, question("06 01 00 01 08 00", "01 00")),
    ("same 2", 256, question("08 01 00", "01 00")),
    ("same 1", 256, question("08 00", "00")),
    ("same 1", 256, question("09 00", "09 01", [(0, "01 08 09 00"), (0, "01 09 01")])),
    ("same 2", 256, question("06 09 00 00 09 00 00", "09 00 00", RESTRICTING)),
    # K(x) = 0: τ.(νx)K⟨x⟩ keeps its restriction, for the names of a call count, and τ.0; the start with a restriction comes back to itself
    ("same 2", 256, question("01 08 09 00 80", "01 00", [(1, "00")])),
    ("same 1", 1, question("08 09 00", "09 00", [(0, "01 09 00")])),
    # (νx)(x̄a.0 | x(y).āa.0): the communication is the last to use x; and ā(x).0 | a(y).τ.0, in which Close leaves nothing to bind
    ("same 3", 256, question("08 07 03 80 00 00 02 80 03 00 00 00", "01 03 00 00 00")),
    ("same 6", 256, question("07 04 00 00 02 00 01 00", "07 02 00 01 00 04 00 00")),
    # a result of 121 bytes that has 21 once tidied, and of 113 that has 113
    ("same 14", 256, question(SIX, SIX, LOOSE)),
    ("same 14", 14, question(SIX, SIX, LOOSE)),
    ("unsettled 0", 13, question(SIX, SIX, LOOSE)),
    ("unsettled 0", 256, question("07 09 00" + "01" * 12 + "00", "00", LONG)),
]

# request 2026-02: open, late, early
EXPANSION = "06 02 00 03 01 02 00 03 01 02 02 00 00"
ANSWERS = "06 02 00 01 00 02 00 00"
NAMED = [
    (("same 1", "same 1", "same 1"), question()),
    # [a=b]τ.0 and 0; a(x).0 | b̄c.0 and its expansion
    (("different 1", "same 1", "same 1"), question("05 00 01 01 00", "00")),
    (("different 4", "same 4", "same 4"), question("07 02 00 00 03 01 02 00", EXPANSION)),
    # a(x).[x=b]τ.0 and a(x).0, and the two exchanged
    (("different 2", "different 4", "different 4"), question("02 00 05 80 01 01 00", "02 00 00")),
    (("different 2", "different 4", "different 4"), question("02 00 00", "02 00 05 80 01 01 00")),
    # a(x).τ.0 + a(x).0 and that + a(x).[x=b]τ.0: one answer for all names, or one for each
    (("different 7", "different 11", "same 11"), question(ANSWERS, "06 " + ANSWERS + "02 00 05 80 01 01 00")),
    # a(x).([x=a]τ + [x=b]τ) and a(x).[a=a](τ + [b=b]0)
    (("different 3", "different 5", "different 5"), question("02 00 06 05 80 00 01 00 05 80 01 01 00", "02 00 05 00 00 06 01 00 05 01 01 00")),
    # ā(x).[x=b]τ.0 and ā(x).0; (νb)āb.0 and ā(b).0; a(x).a(y).[y=x]τ.0 and a(x).a(y).0
    (("same 2", "same 2", "same 2"), question("04 00 05 80 01 01 00", "04 00 00")),
    (("same 2", "same 2", "same 2"), question("08 03 00 80 00", "04 00 00")),
    (("different 3", "different 8", "different 8"), question("02 00 02 00 05 80 81 01 00", "02 00 02 00 00")),
    # [a=b]τ.τ.0 + τ.0 and τ.0
    (("different 3", "same 2", "same 2"), question("06 05 00 01 01 01 00 01 00", "01 00")),
    # K⟨a⟩ and āa.K⟨a⟩; the last K and a result of 121 bytes, whose restrictions go; a result of 113 bytes; a list that check 12 turns back;
    # edition two
    (("same 2", "same 2", "same 2"), question("09 00 00", "03 00 00 09 00 00", LOOP)),
    (("same 1", "same 1", "same 1"), question("09 00 00", "09 00 00", RESTRICTING)),
    (("same 14", "same 14", "same 14"), question(SIX, SIX, LOOSE)),
    (("unsettled 0", "unsettled 0", "unsettled 0"), question("07 09 00" + "01" * 12 + "00", "00", LONG)),
    (("refused 12", "refused 12", "refused 12"), question(apart="00 00")),
    (("same 2", "same 2", "same 2"), question("09 00 01 00", "03 00 00 09 00 01 00", LOOP2, version=2)),
]

ROWS = [(line, 0, capacity, q) for line, capacity, q in CASES]
ROWS += [(line, relation, 256, q) for lines, q in NAMED for relation, line in enumerate(lines)]
# at the field's size, and one less; checks 1 and 2
ROWS += [(line, relation, capacity, NAMED[5][1]) for capacity, lines in ((11, ("different 11", "same 11")), (10, ("unsettled 0", "unsettled 0")),
         (0, ("refused 1", "refused 1")), (257, ("refused 2", "refused 2"))) for relation, line in enumerate(lines, 1)]

with open("stdin", "wb") as f:
    f.write(bytes([len(ROWS)]))
    for _, relation, capacity, q in ROWS:
        f.write(bytes(field([relation, capacity // 256, capacity % 256, *q])))

with open("stdout", "w", encoding="ascii") as f:
    f.writelines(line + "\n" for line, _, _, _ in ROWS)
