//! Shared helpers. Each call of an operation also tests what it may change in the lent areas.
#![allow(dead_code)]

pub use generate::hex;
use generate::Fields;
use reference::{Answer, STEPS, STEP_BYTES};

/// The byte with which lent areas are filled.
const FILL: u8 = 0xA5;

/// The question with these definitions, each an arity and a body, parts and apart list.
pub fn raw(definitions: &[(u8, Vec<u8>)], first: &[u8], second: &[u8], apart: &[u8]) -> Vec<u8> {
    let [first, second, apart] = [first, second, apart].map(<[u8]>::to_vec);
    Fields { definitions: definitions.to_vec(), first, second, apart }.bytes()
}

/// The same, all in hexadecimal.
pub fn ask(definitions: &[(u8, &str)], first: &str, second: &str, apart: &str) -> Vec<u8> {
    Fields::hex(definitions, first, second, apart).bytes()
}

/// The same without definitions.
pub fn pair(first: &str, second: &str, apart: &str) -> Vec<u8> {
    ask(&[], first, second, apart)
}

/// The first part and second part of a question without definitions.
pub fn parts(first: &[u8], second: &[u8]) -> Vec<u8> {
    raw(&[], first, second, &[])
}

fn all_filled(area: &[u8]) -> bool {
    area.iter().all(|&byte| byte == FILL)
}

/// Judges. A refusal changes nothing; a verdict clears 256 × capacity bytes and no more.
pub fn judge(question: &[u8], capacity: u64) -> Answer {
    let used = 256 * capacity.min(5000) as usize;
    let mut work = vec![FILL; used + 11];
    let answer = reference::judge(question, capacity, &mut work);
    match answer {
        Answer::Refused(_) => assert!(all_filled(&work)),
        Answer::Result(_) => panic!("no verdict: {answer:?}"),
        _ => {
            assert!(work[..used].iter().all(|&byte| byte == 0));
            assert!(all_filled(&work[used..]));
        }
    }
    answer
}

/// Lists. Only the bytes of the listed steps change, and they ascend without duplicates.
pub fn steps(question: &[u8], side: u64, new: u64) -> Result<Vec<Vec<u8>>, Answer> {
    let mut area = vec![FILL; STEPS * STEP_BYTES + 5];
    let answer = reference::steps(question, side, new, &mut area);
    let count = match answer {
        Answer::Result(count) => count as usize,
        _ => 0,
    };
    assert!(all_filled(&area[count * STEP_BYTES..]));
    let listed = area[..count * STEP_BYTES].chunks(STEP_BYTES).map(<[u8]>::to_vec);
    let listed: Vec<Vec<u8>> = listed.collect();
    assert!(listed.windows(2).all(|two| two[0] < two[1]));
    match answer {
        Answer::Result(_) => Ok(listed),
        answer => Err(answer),
    }
}

/// Runs a writer of questions. Only the bytes of the question written change, which check accepts.
/// An area of just that length is enough, and one byte less is refused with 15.
pub fn written(run: impl Fn(&mut [u8]) -> Answer) -> Result<Vec<u8>, Answer> {
    let mut area = vec![FILL; 4200];
    let answer = run(&mut area);
    let Answer::Result(length) = answer else {
        assert!(all_filled(&area));
        return Err(answer);
    };
    let length = length as usize;
    assert!(all_filled(&area[length..]));
    let question = area[..length].to_vec();
    assert_eq!(reference::check(&question), Answer::Result(0));
    let mut exact = vec![FILL; length];
    assert_eq!(run(&mut exact), answer);
    assert_eq!(exact, question);
    let mut short = vec![FILL; length - 1];
    assert_eq!(run(&mut short), Answer::Refused(15));
    assert!(all_filled(&short));
    Ok(question)
}

/// Merges.
pub fn merge(question: &[u8], a: u64, b: u64) -> Result<Vec<u8>, Answer> {
    written(|area| reference::merge(question, a, b, area))
}

/// Sets a third part beside both sides.
pub fn beside(question: &[u8], third: &[u8]) -> Result<Vec<u8>, Answer> {
    written(|area| reference::beside(question, third, area))
}

/// A listed step written out: the merged pairs of names, kind, channel, object and result.
pub fn step(merged: &[(u8, u8)], head: [u8; 3], result: &str) -> Vec<u8> {
    let mut bytes: Vec<u8> = (0..16).collect();
    for &(name, class) in merged {
        bytes[name as usize] = class;
    }
    let result = hex(result);
    bytes.extend(head);
    bytes.push(result.len() as u8);
    bytes.extend(&result);
    bytes.resize(STEP_BYTES, 0);
    bytes
}

/// A part of silent steps, then inaction: exactly this many bytes.
pub fn silent(length: usize) -> Vec<u8> {
    let mut part = vec![0x01; length];
    part[length - 1] = 0x00;
    part
}

/// A coded term without its unused restrictions. One after another is tried; if no name beneath is
/// its own, it goes, and all are tried again.
pub fn tidied(term: &[u8], arities: &[u8]) -> Vec<u8> {
    let mut walk = Walk::default();
    walk.from(term, 0, 0, arities);
    for at in walk.restrictions {
        let mut beneath = Walk::default();
        beneath.from(term, at + 1, 0, arities);
        let bound = |&(place, depth): &(usize, u8)| (place, term[place].checked_sub(0x80 + depth));
        let outward: Vec<(usize, Option<u8>)> = beneath.names.iter().map(bound).collect();
        if outward.iter().all(|&(_, outward)| outward != Some(0)) {
            let mut shorter = term.to_vec();
            let further = outward.iter().filter(|(_, outward)| outward.is_some());
            further.for_each(|&(place, _)| shorter[place] -= 1);
            shorter.remove(at);
            return tidied(&shorter, arities);
        }
    }
    term.to_vec()
}

/// The places of restrictions and of names in a coded term, names with the binders around them.
#[derive(Default)]
struct Walk {
    restrictions: Vec<usize>,
    names: Vec<(usize, u8)>,
}

impl Walk {
    /// Walks the term that begins at a place; where it ends.
    fn from(&mut self, term: &[u8], at: usize, depth: u8, arities: &[u8]) -> usize {
        let (skipped, names, binds, terms) = match term[at] {
            0 => (1, 0, 0, 0),
            1 => (1, 0, 0, 1),
            2 | 4 => (1, 1, 1, 1),
            3 | 5 => (1, 2, 0, 1),
            6 | 7 => (1, 0, 0, 2),
            8 => (1, 0, 1, 1),
            _ => (2, arities[usize::from(term[at + 1])], 0, 0),
        };
        if term[at] == 8 {
            self.restrictions.push(at);
        }
        let first = at + skipped;
        let end = first + usize::from(names);
        self.names.extend((first..end).map(|place| (place, depth)));
        (0..terms).fold(end, |at, _| self.from(term, at, depth + binds, arities))
    }
}
