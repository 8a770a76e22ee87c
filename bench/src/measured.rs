//! The calls that are measured, with their inputs.
use crate::calls::{Buffers, plain, proved};
use crate::compare::Tally;
use crate::inputs::{self, Input};
use crate::random::Random;
use crate::timing::{Pair, per_call};

#[derive(Clone, Copy)]
pub enum Side {
    Proved,
    Plain,
}

enum Call {
    Check { certificate: Vec<u8> },
    Settle { line: usize, row: usize },
}

pub struct Measured {
    pub name: String,
    input: Input,
    call: Call,
    /// How many calls make one run.
    again: u32,
}

impl Measured {
    /// Check of a certificate of 4,096 nodes, and the settle that writes it.
    pub fn long() -> [Measured; 2] {
        let nodes = 4096;
        let (input, line, row) = long_input(nodes);
        let mut lent = Buffers::roomy();
        plain::settle(&input, line, row, &mut lent, 0);
        let certificate = lent.out[..6 * nodes as usize].to_vec();
        let check = Measured {
            name: "check, certificate of 4,096 nodes".to_string(),
            input: input.clone(),
            call: Call::Check { certificate },
            again: 40,
        };
        let settle = Measured {
            name: "settle, 32 mixed lines, 128 rows".to_string(),
            input,
            call: Call::Settle { line, row },
            again: 8,
        };
        [check, settle]
    }

    /// Settle of 32 nested lines, at the middle row.
    pub fn nested(rows: usize) -> Measured {
        Measured {
            name: format!("settle, 32 nested lines, {rows} rows"),
            input: inputs::nested(rows),
            call: Call::Settle {
                line: 31,
                row: rows / 2 - 1,
            },
            again: 512 / rows as u32,
        }
    }

    /// Makes the call so many times and then once more; it is always accepted.
    pub fn make(&self, side: Side, lent: &mut Buffers, again: u32) {
        let input = &self.input;
        let question = match (&self.call, side) {
            (Call::Check { certificate }, Side::Proved) => {
                proved::check(input, certificate, again).question
            }
            (Call::Check { certificate }, Side::Plain) => {
                plain::check(input, certificate, again).question
            }
            (Call::Settle { line, row }, Side::Proved) => {
                proved::settle(input, *line, *row, lent, again).question
            }
            (Call::Settle { line, row }, Side::Plain) => {
                plain::settle(input, *line, *row, lent, again).question
            }
        };
        assert_eq!(question, 0, "{} is accepted", self.name);
    }

    /// Compares the results of both sides.
    pub fn compare(&self, tally: &mut Tally) {
        match &self.call {
            Call::Check { certificate } => {
                tally.check_damaged(&self.input, certificate, &mut Random::new(2))
            }
            Call::Settle { line, row } => {
                tally.settle(&self.input, *line, *row, Buffers::roomy());
            }
        }
    }

    /// The time of one call on each side.
    pub fn measure(&self) -> Pair {
        let (mut lent, mut other) = (Buffers::roomy(), Buffers::roomy());
        per_call(
            100,
            self.again,
            |again| self.make(Side::Proved, &mut lent, again),
            |again| self.make(Side::Plain, &mut other, again),
        )
    }
}

/// A long input, and a line and a row whose shortest certificate has exactly so many nodes.
fn long_input(nodes: u16) -> (Input, usize, usize) {
    let random = &mut Random::new(7);
    loop {
        let input = inputs::long(random);
        let mut lent = Buffers::roomy();
        plain::settle(&input, 31, 127, &mut lent, 0);
        if let Some(cell) = lent.sizes.iter().position(|size| *size == nodes) {
            return (input, cell / 256, cell % 256 / 2);
        }
    }
}
