//! Questions with their answers: "Exchanges to try" of document 01, the pairs of appendix B.1 of
//! document 000, and what requests of document 02 are about.

use crate::fields::Fields;

/// A question and what judging it answers.
#[derive(Clone, Copy, Debug)]
pub struct Worked {
    /// The two parts and what is held apart, in the paper's notation.
    pub name: &'static str,
    /// The arity and body of each definition, in hexadecimal as all that follows.
    pub definitions: &'static [(u8, &'static str)],
    /// The first part.
    pub first: &'static str,
    /// The second part.
    pub second: &'static str,
    /// The apart list.
    pub apart: &'static str,
    /// The capacity.
    pub capacity: u64,
    /// The answer as the program `judge` prints it.
    pub answer: &'static str,
}

impl Worked {
    /// The fields of the question.
    pub fn fields(&self) -> Fields {
        Fields::hex(self.definitions, self.first, self.second, self.apart)
    }

    /// The bytes of the question.
    pub fn bytes(&self) -> Vec<u8> {
        self.fields().bytes()
    }

    const fn new(name: &'static str, parts: [&'static str; 2], answer: &'static str) -> Worked {
        let [first, second] = parts;
        Worked { name, definitions: &[], first, second, apart: "", capacity: 256, answer }
    }

    const fn apart(self, apart: &'static str) -> Worked {
        Worked { apart, ..self }
    }

    const fn with(self, definitions: &'static [(u8, &'static str)]) -> Worked {
        Worked { definitions, ..self }
    }

    const fn capacity(self, capacity: u64) -> Worked {
        Worked { capacity, ..self }
    }
}

const MATCH: [&str; 2] = ["05 00 01 01 00", "00"];
const EXPANSION: [&str; 2] = ["07 02 00 00 03 01 02 00", "06 02 00 03 01 02 00 03 01 02 02 00 00"];
const UNFOLDING: [&str; 2] = ["09 00 00", "03 00 00 09 00 00"];
const LOOP: &[(u8, &str)] = &[(1, "03 80 80 09 00 80")];
const RESTRICTING: &[(u8, &str)] = &[(1, "03 80 80 08 09 00 81")];

/// "Exchanges to try" that are judged.
pub const EXCHANGES: &[Worked] = &[
    Worked::new("0 and 0", ["00", "00"], "same 1"),
    Worked::new("[a=b]τ.0 and 0", MATCH, "different 1"),
    Worked::new("[a=b]τ.0 and 0; a, b apart", MATCH, "same 1").apart("00 01"),
    Worked::new("[a=b]τ.0 and 0; b, a apart", MATCH, "same 1").apart("01 00"),
    Worked::new("τ.0 + [a=b]τ.0 and τ.0", ["06 01 00 05 00 01 01 00", "01 00"], "same 2"),
    Worked::new("a(x).0 | b̄c.0 and its expansion", EXPANSION, "different 4"),
    Worked::new("a(x).0 | b̄c.0 and its expansion; a, b apart", EXPANSION, "same 4").apart("00 01"),
    Worked::new("(νb)āb.0 and ā(b).0", ["08 03 00 80 00", "04 00 00"], "same 2"),
    Worked::new("ā(x).[x=b]τ.0 and ā(x).0", ["04 00 05 80 01 01 00", "04 00 00"], "same 2"),
    Worked::new("a(x).[x=b]τ.0 and a(x).0", ["02 00 05 80 01 01 00", "02 00 00"], "different 2"),
    Worked::new("(νb)[b=b]τ.0 and τ.0", ["08 05 80 80 01 00", "01 00"], "same 2"),
    Worked::new("K⟨a⟩ and āa.K⟨a⟩", UNFOLDING, "same 2").with(LOOP),
    Worked::new("K⟨a⟩ and āa.K⟨a⟩, 2", UNFOLDING, "same 2").with(LOOP).capacity(2),
    Worked::new("K⟨a⟩ and āa.K⟨a⟩, 1", UNFOLDING, "unsettled 0").with(LOOP).capacity(1),
    Worked::new("K⟨a⟩ that restricts", ["09 00 00", "09 00 00"], "same 1").with(RESTRICTING),
];

/// Names a to i are 00 to 08. Definition 0 is K1, with K2 written out in its body, and 1 is K2.
/// The output of b in P1 is of a new name: b is no parameter of K1.
const K: &[(u8, &str)] = &[
    (3, "06 04 81 02 81 09 01 81 80  05 82 80 04 81 02 83 09 00 84 81 80"),
    (2, "04 81 02 81 09 01 81 80"),
];
const P1: &str = "06 09 01 02 04 05 00 04 04 02 02 00 09 00 00 81 80";
const P2: &str = "04 02 02 04 09 01 81 80";
const P3: &str = "07 06 09 01 02 04 05 00 04 04 02 02 00 09 00 00 81 80 03 00 01 03 02 03 00";
const P4: &str = "07 04 02 02 04 09 01 81 80 03 00 01 03 02 03 00";
const P5: &str = "07 04 00 02 04 00 07 04 00 02 02 00 02 00 03 02 80 00";
const P6: &str = "07 04 00 02 02 00 07 04 00 02 02 00 07 04 00 02 04 00 04 00 02 02 00";
const P7: &str = "07 07 04 00 02 02 00 07 04 00 02 02 00 07 04 00 02 04 00 04 00 02 02 00 \
                  02 00 03 02 80 00";

/// The pairs of appendix B.1, which gives the verdicts; the sizes are those of the field of
/// document 01. The field of the last pair is far beyond the greatest capacity.
pub const APPENDIX: &[Worked] = &[
    Worked::new("P1 and P2", [P1, P2], "same 23").with(K).capacity(4096),
    Worked::new("P3 and P4", [P3, P4], "same 136").with(K).capacity(4096),
    Worked::new("P2 and P4", [P2, P4], "different 7").with(K).capacity(4096),
    Worked::new("P5 and P5", [P5, P5], "same 105").with(K).capacity(4096),
    Worked::new("P5 and P6", [P5, P6], "different 128").with(K).capacity(4096),
    Worked::new("P7 and P7", [P7, P7], "unsettled 0").with(K).capacity(4096),
];

const EXTRUSION: [&str; 2] =
    ["07 07 02 00 00 03 01 02 00 08 03 00 80 00", "07 02 00 00 07 03 01 02 00 08 03 00 80 00"];
const MEETING: [&str; 2] = ["07 02 00 03 80 01 00 04 00 00", "07 04 00 00 02 00 03 80 01 00"];
const BRACKETS: [&str; 2] =
    ["06 06 01 00 05 00 01 01 00 03 00 01 00", "06 01 00 06 05 00 01 01 00 03 00 01 00"];
const BESIDE_INACTION: [&str; 2] = ["07 02 00 03 80 01 00 00", "02 00 03 80 01 00"];
const BENEATH_INPUT: [&str; 2] = ["02 00 06 01 00 03 80 80 00", "02 00 06 03 80 80 00 01 00"];
const COPIES: [&str; 2] = ["06 09 00 00 09 00 00", "09 00 00"];

/// Pieces in another order (request 2026-07); the last is no law.
pub const REARRANGED: &[Worked] = &[
    Worked::new("(a(x).0 | b̄c.0) | (νy)āy.0 bracketed anew", EXTRUSION, "same 10"),
    Worked::new("a(x).x̄b.0 | ā(y).0 exchanged", MEETING, "same 7"),
    Worked::new("a(x).x̄b.0 | 0 and a(x).x̄b.0", BESIDE_INACTION, "same 3"),
    Worked::new("a(x).(τ.0 + x̄x.0) exchanged", BENEATH_INPUT, "same 3"),
    Worked::new("(τ.0 + [a=b]τ.0) + āb.0 bracketed anew; a, b apart", BRACKETS, "same 2")
        .apart("00 01"),
    Worked::new("ā(x).0 + 0 and ā(x).0", ["06 04 00 00 00", "04 00 00"], "same 2"),
    Worked::new("K⟨a⟩ + K⟨a⟩ and K⟨a⟩", COPIES, "same 2").with(LOOP),
    Worked::new("K⟨a⟩ + K⟨a⟩ and K⟨a⟩, 1", COPIES, "unsettled 0").with(LOOP).capacity(1),
    Worked::new("τ.0 | τ.0 and τ.0", ["07 01 00 01 00", "01 00"], "different 3"),
];

/// A pair inside larger exchanges (request 2026-13): [a=b]τ.0 and 0, with a, b apart where they are
/// free. The last two are not promised.
pub const INSIDE: &[Worked] = &[
    Worked::new("alone", MATCH, "same 1").apart("00 01"),
    Worked::new("behind τ", ["01 05 00 01 01 00", "01 00"], "same 2").apart("00 01"),
    Worked::new("behind c̄d", ["03 02 03 05 00 01 01 00", "03 02 03 00"], "same 2").apart("00 01"),
    Worked::new("beneath [a=b]", ["05 00 01 05 00 01 01 00", "05 00 01 00"], "same 1")
        .apart("00 01"),
    Worked::new("pair + c(x).0", ["06 05 00 01 01 00 02 02 00", "06 00 02 02 00"], "same 2")
        .apart("00 01"),
    Worked::new("c(x).0 + pair", ["06 02 02 00 05 00 01 01 00", "06 02 02 00 00"], "same 2")
        .apart("00 01"),
    Worked::new("pair | c̄d.0", ["07 05 00 01 01 00 03 02 03 00", "07 00 03 02 03 00"], "same 2")
        .apart("00 01"),
    Worked::new("c̄d.0 | pair", ["07 03 02 03 00 05 00 01 01 00", "07 03 02 03 00 00"], "same 2")
        .apart("00 01"),
    Worked::new("beneath (νa)", ["08 05 80 01 01 00", "08 00"], "same 1"),
    Worked::new("behind c̄(a)", ["04 02 05 80 01 01 00", "04 02 00"], "same 2"),
    Worked::new("behind c(x)", ["02 02 05 00 01 01 00", "02 02 00"], "same 2").apart("00 01"),
    Worked::new("(νa)(τ.b̄c.pair + b̄(y).0)", NESTED, "same 4"),
    Worked::new("behind c(a)", ["02 02 05 80 01 01 00", "02 02 00"], "different 2"),
    Worked::new("τ.(0 | 0) and τ.0", ["01 07 00 00", "01 00"], "refused 10"),
];

const NESTED: [&str; 2] =
    ["08 06 01 03 01 02 05 80 01 01 00 04 01 00", "08 06 01 03 01 02 00 04 01 00"];

const OWN_RESTRICTION: &[(u8, &str)] = &[(0, "01 08 09 00"), (0, "01 09 01")];
const IGNORED: &[(u8, &str)] = &[(1, "00")];
const GATHERED: [&str; 2] = ["09 00", "09 01"];

/// Unused restrictions (request 2026-04), each with its answer and with the one before the request.
pub const UNUSED: &[(Worked, &str)] = &[
    (
        Worked::new("K⟨a⟩ that restricts", ["09 00 00", "09 00 00"], "same 1").with(RESTRICTING),
        "unsettled 0",
    ),
    (Worked::new("K⟨a⟩ + K⟨a⟩ and K⟨a⟩", COPIES, "same 2").with(RESTRICTING), "unsettled 0"),
    (Worked::new("τ.0 + τ.(νx)0 and τ.0", ["06 01 00 01 08 00", "01 00"], "same 2"), "same 3"),
    (Worked::new("(νx)τ.0 and τ.0", ["08 01 00", "01 00"], "same 2"), "same 2"),
    (Worked::new("(νx)0 and 0", ["08 00", "00"], "same 1"), "same 1"),
    (Worked::new("K = τ.(νx)K, L = τ.L", GATHERED, "same 1").with(OWN_RESTRICTION), "unsettled 0"),
    (
        Worked::new("τ.(νx)K⟨x⟩ and τ.0", ["01 08 09 00 80", "01 00"], "same 2").with(IGNORED),
        "same 2",
    ),
];
