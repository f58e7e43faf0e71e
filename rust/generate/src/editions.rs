//! Questions and third parts of edition two, made of those of edition one byte by byte.

use crate::draft::Draft;
use crate::random::Random;

/// The question in edition two. One in twenty has a damaged number of names; bytes that are no
/// terms are kept, and a frame that is not sound keeps all but its version byte.
pub fn counted(random: &mut Random, question: &[u8]) -> Vec<u8> {
    let mut counted = framed(question).unwrap_or_else(|| question.to_vec());
    if let Some(version) = counted.first_mut().filter(|version| **version == 0x01) {
        *version = 0x02;
    }
    if random.chance(20) {
        damage(random, &mut counted);
    }
    counted
}

/// The third part in edition two, for the definitions of the draft, now and then damaged.
pub fn counted_third(random: &mut Random, draft: &Draft, third: &[u8]) -> Vec<u8> {
    let arities: Vec<u8> = draft.definitions.iter().map(|definition| definition.0).collect();
    let mut counted = term(third, &arities);
    if random.chance(20) {
        damage(random, &mut counted);
    }
    counted
}

/// The byte behind some byte 09 and its definition changes.
fn damage(random: &mut Random, bytes: &mut [u8]) {
    let calls: Vec<usize> = (2..bytes.len()).filter(|&at| bytes[at - 2] == 0x09).collect();
    if !calls.is_empty() {
        let at = *random.pick(&calls);
        bytes[at] = bytes[at].wrapping_add(*random.pick(&[1, 255, 8]));
    }
}

/// The question with each body and part in edition two, if its frame is sound.
fn framed(question: &[u8]) -> Option<Vec<u8>> {
    let count = usize::from(*question.get(1)?);
    let arities = question.get(2..2 + count)?;
    let mut counted = question[..2 + count].to_vec();
    let mut rest = &question[2 + count..];
    for place in 0..count + 3 {
        let length = usize::from(u16::from_be_bytes([*rest.first()?, *rest.get(1)?]));
        let field = rest.get(2..2 + length)?;
        let field = if place < count + 2 { term(field, arities) } else { field.to_vec() };
        counted.extend((field.len() as u16).to_be_bytes());
        counted.extend(field);
        rest = &rest[2 + length..];
    }
    counted.extend(rest);
    Some(counted)
}

/// A term from front to front: its byte, a call's definition and the number of its names, names.
fn term(bytes: &[u8], arities: &[u8]) -> Vec<u8> {
    let mut counted = Vec::with_capacity(2 * bytes.len());
    let mut rest = bytes;
    while let Some(&tag) = rest.first() {
        let names = match tag {
            0x02 | 0x04 => 1,
            0x03 | 0x05 => 2,
            0x09 => call(rest, arities, &mut counted),
            _ => 0,
        };
        let fixed = if tag == 0x09 { 2 } else { 1 };
        if tag != 0x09 {
            counted.push(tag);
        }
        let (front, after) = rest.split_at((fixed + names).min(rest.len()));
        counted.extend(front.iter().skip(fixed));
        rest = after;
    }
    counted
}

/// The front of a call but for its names; how many there are.
fn call(rest: &[u8], arities: &[u8], counted: &mut Vec<u8>) -> usize {
    counted.extend(rest.iter().take(2));
    let arity = rest.get(1).and_then(|&k| arities.get(usize::from(k)));
    counted.extend(arity);
    usize::from(arity.copied().unwrap_or(0))
}
