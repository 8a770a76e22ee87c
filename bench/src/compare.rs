//! The results of both sides, held against each other.
use crate::calls::{Buffers, plain, proved};
use crate::inputs::{self, Input, damage_certificate, damage_text};
use crate::random::Random;
use std::fmt::Debug;
use std::io::Write;
use std::path::Path;
use std::process::{Command, Stdio};

/// How many results were compared, and how many differ.
#[derive(Default)]
pub struct Tally {
    pub compared: usize,
    pub differ: usize,
}

impl Tally {
    fn same<T: PartialEq>(&mut self, proved: &T, plain: &T, what: impl FnOnce() -> String) {
        self.compared += 1;
        if proved != plain {
            self.differ += 1;
            eprintln!("differs: {}", what());
        }
    }

    fn answers<T: PartialEq + Debug>(&mut self, proved: T, plain: T, input: &Input) {
        self.same(&proved, &plain, || {
            format!("{proved:?}, plain {plain:?}, on\n{}", input.whole())
        });
    }

    /// Settles on both sides, from buffers that hold the same; answers the certificate that was written.
    pub fn settle(
        &mut self,
        input: &Input,
        line: usize,
        row: usize,
        mut lent: Buffers,
    ) -> Option<Vec<u8>> {
        let mut other = lent.clone();
        let answer = proved::settle(input, line, row, &mut lent, 0);
        self.answers(
            answer,
            plain::settle(input, line, row, &mut other, 0),
            input,
        );
        let place = || format!("line {line}, row {row} of\n{}", input.whole());
        self.same(&lent.sizes, &other.sizes, || format!("sizes, {}", place()));
        // The first cells of a plan are free.
        let later = |buffers: &Buffers| buffers.plan.iter().skip(8192).copied().collect::<Vec<_>>();
        self.same(&later(&lent), &later(&other), || {
            format!("plan, {}", place())
        });
        self.same(&lent.out, &other.out, || format!("output, {}", place()));
        (answer.question == 0).then(|| lent.out[..6 * answer.size as usize].to_vec())
    }

    /// Checks on both sides.
    pub fn check(&mut self, input: &Input, certificate: &[u8]) {
        self.answers(
            proved::check(input, certificate, 0),
            plain::check(input, certificate, 0),
            input,
        );
    }

    /// Checks a certificate, one that is too long, parts of it, and damaged ones, of which every other is damaged once more.
    pub fn check_damaged(&mut self, input: &Input, certificate: &[u8], random: &mut Random) {
        self.check(input, certificate);
        let mut bytes = certificate.to_vec();
        for damages in 0..12 {
            if damages % 2 == 0 {
                bytes = certificate.to_vec();
            }
            damage_certificate(random, &mut bytes);
            self.check(input, &bytes);
        }
        let cut = 6 * random.below(certificate.len() / 6);
        self.check(input, &certificate[..cut]);
        self.check(input, &certificate[cut..]);
        let longer = certificate.repeat(24576 / certificate.len() + 1);
        self.check(input, &longer);
    }

    /// The listing of the proved program, and that of the plain Rust.
    pub fn listing(&mut self, program: &Path, input: &[u8]) {
        let listed = listing_of(program, input);
        let expected = ::plain::listing::listing(input).into_bytes();
        self.same(&listed, &expected, || {
            format!("listing of\n{}", String::from_utf8_lossy(input))
        });
    }
}

/// What a program prints on an input.
pub fn listing_of(program: &Path, input: &[u8]) -> Vec<u8> {
    let mut child = Command::new(program)
        .stdin(Stdio::piped())
        .stdout(Stdio::piped())
        .spawn()
        .expect("the program starts");
    let mut stdin = child.stdin.take().expect("a piped input");
    stdin.write_all(input).expect("the program reads its input");
    drop(stdin);
    let output = child.wait_with_output().expect("the program ends");
    assert!(output.status.success(), "the program ends with status 0");
    output.stdout
}

/// Small inputs at random: settles at a few places, with buffers of all lengths, and checks what is written, whole and damaged.
pub fn small_inputs(tally: &mut Tally, program: &Path, inputs: usize) {
    let random = &mut Random::new(1);
    for number in 0..inputs {
        let input = inputs::small(random);
        for _ in 0..4 {
            // The first line of a text has the names, so these are at most one too many.
            let line = random.below(input.rules.lines().count() + 1);
            let row = random.below(input.log.lines().count() + 1);
            let length = |random: &mut Random| match random.below(40) {
                0 => 8191,
                1..=4 => 8200,
                _ => 8192,
            };
            let out = if random.once_in(5) {
                random.below(100)
            } else {
                24576
            };
            let lent = Buffers::filled(length(random), length(random), out);
            if let Some(certificate) = tally.settle(&input, line, row, lent) {
                tally.check_damaged(&input, &certificate, random);
            }
        }
        if number % 4 == 0 {
            let mut whole = input.whole().into_bytes();
            if random.once_in(3) {
                damage_text(random, &mut whole);
            }
            tally.listing(program, &whole);
        }
    }
}

/// Long inputs at random: every line at a few rows, of which some are too long to be written.
pub fn long_inputs(tally: &mut Tally, program: &Path, inputs: usize) {
    let random = &mut Random::new(3);
    for _ in 0..inputs {
        let input = inputs::long(random);
        for line in 0..32 {
            let row = random.below(128);
            if let Some(certificate) = tally.settle(&input, line, row, Buffers::roomy()) {
                tally.check_damaged(&input, &certificate, random);
            }
        }
        tally.listing(program, input.whole().as_bytes());
    }
}
