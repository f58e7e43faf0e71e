//! Bytes with guard bytes around them.

/// How many guard bytes stand on each side.
const GUARD: usize = 61;

/// A copy of some bytes, between guards.
pub struct Guarded {
    all: Vec<u8>,
}

impl Guarded {
    /// A copy of the bytes.
    pub fn copy(bytes: &[u8]) -> Guarded {
        let mut all = Vec::with_capacity(bytes.len() + 2 * GUARD);
        all.extend((0..GUARD).map(guard));
        all.extend(bytes);
        all.extend((0..GUARD).map(guard));
        Guarded { all }
    }

    /// The bytes between the guards.
    pub fn bytes(&self) -> &[u8] {
        &self.all[GUARD..self.all.len() - GUARD]
    }

    /// The bytes between the guards, to be lent.
    pub fn bytes_mut(&mut self) -> &mut [u8] {
        let end = self.all.len() - GUARD;
        &mut self.all[GUARD..end]
    }

    /// Panics unless these bytes stand between untouched guards.
    pub fn assert_holds(&self, bytes: &[u8], what: &str) {
        let pairs = self.bytes().iter().zip(bytes);
        let differing = pairs.enumerate().find(|(_, (here, expected))| here != expected);
        assert_eq!(differing, None, "{what}: a byte at its place, as it is and as it should be");
        let end = self.all.len() - GUARD;
        let guards = self.all[..GUARD].iter().enumerate();
        let mut guards = guards.chain(self.all[end..].iter().enumerate());
        assert!(guards.all(|(place, &byte)| byte == guard(place)), "{what}: a byte outside it");
    }
}

fn guard(place: usize) -> u8 {
    (place * 37 + 11) as u8
}
