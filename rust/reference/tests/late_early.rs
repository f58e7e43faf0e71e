//! Late and early verdicts beside the open one (document 02, request 2026-02).

use generate::{each_seed, Fields};
use reference::Answer::{self, Different, Refused, Same, Unsettled};

const CAPACITY: u64 = 256;

/// The open, the late and the early answer.
fn answers(hex: &str) -> [Answer; 3] {
    judged(&generate::hex(hex))
}

fn judged(question: &[u8]) -> [Answer; 3] {
    let mut work = vec![0; 256 * CAPACITY as usize];
    [
        reference::judge(question, CAPACITY, &mut work),
        reference::judge_late(question, CAPACITY, &mut work),
        reference::judge_early(question, CAPACITY, &mut work),
    ]
}

#[test]
fn exchanges() {
    // 0 and 0
    assert_eq!(answers("01000001000001000000"), [Same(1), Same(1), Same(1)]);
    // [a=b]τ.0 and 0
    assert_eq!(answers("0100000505000101000001000000"), [Different(1), Same(1), Same(1)]);
    // a(x).0 | b̄c.0 and its expansion
    assert_eq!(
        answers("010000080702000003010200000d060200030102000301020200000000"),
        [Different(4), Same(4), Same(4)]
    );
    // a(x).[x=b]τ.0 and a(x).0, and the two sides exchanged
    assert_eq!(
        answers("010000070200058001010000030200000000"),
        [Different(2), Different(4), Different(4)]
    );
    assert_eq!(
        answers("010000030200000007020005800101000000"),
        [Different(2), Different(4), Different(4)]
    );
    // a(x).([x=a]τ + [x=b]τ) and a(x).[a=a](τ + [b=b]0)
    assert_eq!(
        answers("0100000d02000605800001000580010100000c0200050000060100050101000000"),
        [Different(3), Different(5), Different(5)]
    );
    // ā(x).[x=b]τ.0 and ā(x).0
    assert_eq!(answers("010000070400058001010000030400000000"), [Same(2), Same(2), Same(2)]);
    // (νb)āb.0 and ā(b).0
    assert_eq!(answers("01000005080300800000030400000000"), [Same(2), Same(2), Same(2)]);
    // a(x).a(y).[y=x]τ.0 and a(x).a(y).0
    assert_eq!(
        answers("01000009020002000580810100000502000200000000"),
        [Different(3), Different(8), Different(8)]
    );
    // [a=b]τ.τ.0 + τ.0 and τ.0
    assert_eq!(answers("01000009060500010101000100000201000000"), [Different(3), Same(2), Same(2)]);
}

#[test]
fn late_and_early_differ() {
    // a(x).τ.0 + a(x).0 and that + a(x).[x=b]τ.0
    assert_eq!(
        answers("0100000806020001000200000010060602000100020000020005800101000000"),
        [Different(7), Different(11), Same(11)]
    );
}

#[test]
fn definitions_limits_and_refusals() {
    // K⟨a⟩ and āa.K⟨a⟩
    assert_eq!(
        answers("0101010006038080090080000309000000060300000900000000"),
        [Same(2), Same(2), Same(2)]
    );
    // the K that restricts, and a part with a result of 113 bytes
    assert_eq!(
        answers("010101000703808008090081000309000000030900000000"),
        [Same(1), Same(1), Same(1)]
    );
    let silent = |length: usize| [vec![0x01; length - 1], vec![0x00]].concat();
    let definitions = vec![(0, silent(100))];
    let first = [vec![0x07, 0x09, 0x00], silent(13)].concat();
    let fields = Fields { definitions, first, second: vec![0x00], apart: vec![] };
    assert_eq!(judged(&fields.bytes()), [Unsettled, Unsettled, Unsettled]);
    // a name apart from itself: the list is checked though it plays no other part
    let refused = answers("010000010000010000020000");
    assert!(refused.iter().all(|answer| *answer == refused[0] && matches!(answer, Refused(_))));
}

/// One field for late and early, and "same" is kept from open to late to early.
#[test]
fn random_questions() {
    let (mut settled, mut told_apart) = (0, 0);
    each_seed(2000, |random| {
        let question = generate::any(random);
        match judged(&question) {
            [_, Unsettled, Unsettled] => {}
            [Refused(open), Refused(late), Refused(early)] => {
                assert!(open == late && late == early)
            }
            [open, Same(late), Same(early)] => {
                assert_eq!(late, early, "{question:02x?}");
                settled += usize::from(open != Unsettled);
            }
            [open, Different(late), Different(early)] => {
                assert_eq!(late, early, "{question:02x?}");
                assert!(!matches!(open, Same(_)), "{question:02x?}");
                settled += usize::from(open != Unsettled);
            }
            [open, Different(late), Same(early)] => {
                assert_eq!(late, early, "{question:02x?}");
                assert!(!matches!(open, Same(_)), "{question:02x?}");
                told_apart += 1;
            }
            answers => panic!("{answers:?} for {question:02x?}"),
        }
    });
    println!("settled: {settled}; late different, early same: {told_apart}");
    assert!(settled > 500);
}
