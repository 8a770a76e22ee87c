//! Rulings, claims, and the nodes of certificates.

#[derive(Clone, Copy, Debug, PartialEq)]
pub enum Ruling {
    Held,
    Broken,
}

/// The ruling of a line at a row.
#[derive(Clone, Copy, Debug, PartialEq)]
pub struct Claim {
    pub line: u8,
    pub row: u16,
    pub ruling: Ruling,
}

/// A line at a row follows by a rule from so many children.
#[derive(Clone, Copy, Debug)]
pub struct Node {
    pub line: u8,
    pub rule: u8,
    pub row: u16,
    pub count: u16,
}

impl Node {
    pub fn from_bytes(bytes: [u8; 6]) -> Node {
        let [line, rule, row1, row0, count1, count0] = bytes;
        Node {
            line,
            rule,
            row: u16::from_be_bytes([row1, row0]),
            count: u16::from_be_bytes([count1, count0]),
        }
    }

    pub fn to_bytes(self) -> [u8; 6] {
        let [row1, row0] = self.row.to_be_bytes();
        let [count1, count0] = self.count.to_be_bytes();
        [self.line, self.rule, row1, row0, count1, count0]
    }
}
