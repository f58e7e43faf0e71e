//! The fields of a question, and their bytes.

/// The fields of a question, coded.
#[derive(Clone, PartialEq, Eq, Debug)]
pub struct Fields {
    /// The arity and body of each definition.
    pub definitions: Vec<(u8, Vec<u8>)>,
    /// The first part.
    pub first: Vec<u8>,
    /// The second part.
    pub second: Vec<u8>,
    /// The apart list.
    pub apart: Vec<u8>,
}

impl Fields {
    /// The fields of a question whose frame is sound.
    pub fn of(question: &[u8]) -> Fields {
        let count = usize::from(question[1]);
        let (arities, mut rest) = question[2..].split_at(count);
        let mut next = || {
            let length = usize::from(u16::from_be_bytes([rest[0], rest[1]]));
            let (field, after) = rest[2..].split_at(length);
            rest = after;
            field.to_vec()
        };
        let definitions = arities.iter().map(|&arity| (arity, next())).collect();
        Fields { definitions, first: next(), second: next(), apart: next() }
    }

    /// The fields from their bytes in hexadecimal.
    pub fn hex(definitions: &[(u8, &str)], first: &str, second: &str, apart: &str) -> Fields {
        let definitions = definitions.iter().map(|&(arity, body)| (arity, hex(body))).collect();
        Fields { definitions, first: hex(first), second: hex(second), apart: hex(apart) }
    }

    /// The bytes of the question.
    pub fn bytes(&self) -> Vec<u8> {
        let mut bytes = vec![0x01, self.definitions.len() as u8];
        bytes.extend(self.definitions.iter().map(|definition| definition.0));
        let bodies = self.definitions.iter().map(|definition| &definition.1);
        for field in bodies.chain([&self.first, &self.second, &self.apart]) {
            bytes.extend((field.len() as u16).to_be_bytes());
            bytes.extend(field);
        }
        bytes
    }
}

/// Bytes written in hexadecimal, blanks at will.
pub fn hex(text: &str) -> Vec<u8> {
    let digits: Vec<u8> = text.bytes().filter(|byte| !byte.is_ascii_whitespace()).collect();
    let pair = |pair: &[u8]| u8::from_str_radix(std::str::from_utf8(pair).unwrap(), 16).unwrap();
    digits.chunks(2).map(pair).collect()
}
