//! Both sides of the measured calls, in one shape: the texts are read once, as far as they go, and the call is made so many
//! times and then once more. The proved side is crate `bench_calls`.

/// An accepted claim, with question 0; or the question answered no, and the node.
#[repr(C)]
#[derive(Clone, Copy, Debug, PartialEq)]
pub struct Checked {
    pub question: u8,
    pub node: usize,
    pub line: u8,
    pub row: u16,
    pub held: bool,
}

/// An accepted ruling, with question 0; or the question answered no.
#[repr(C)]
#[derive(Clone, Copy, Debug, PartialEq)]
pub struct Settling {
    pub question: u8,
    pub size: u16,
    pub held: bool,
}

/// The buffers that Settle is lent.
#[derive(Clone, PartialEq)]
pub struct Buffers {
    pub sizes: Vec<u16>,
    pub plan: Vec<u16>,
    pub out: Vec<u8>,
}

impl Buffers {
    /// Buffers of these lengths that hold no zero.
    pub fn filled(sizes: usize, plan: usize, out: usize) -> Buffers {
        Buffers {
            sizes: vec![0xaaaa; sizes],
            plan: vec![0xbbbb; plan],
            out: vec![0xcc; out],
        }
    }

    /// Buffers that are long enough for every call.
    pub fn roomy() -> Buffers {
        Buffers::filled(8192, 8192, 24576)
    }
}

pub mod proved {
    use super::{Buffers, Checked, Settling};
    use crate::inputs::Input;

    mod exported {
        use super::{Checked, Settling};

        unsafe extern "C" {
            pub fn bench_check(
                rules: *const u8,
                rules_len: usize,
                log: *const u8,
                log_len: usize,
                certificate: *const u8,
                certificate_len: usize,
                again: u32,
            ) -> Checked;

            pub fn bench_settle(
                rules: *const u8,
                rules_len: usize,
                log: *const u8,
                log_len: usize,
                line: usize,
                row: usize,
                again: u32,
                sizes: *mut u16,
                sizes_len: usize,
                plan: *mut u16,
                plan_len: usize,
                out: *mut u8,
                out_len: usize,
            ) -> Settling;
        }
    }

    pub fn check(input: &Input, certificate: &[u8], again: u32) -> Checked {
        // SAFETY: each pointer and length are those of a live slice.
        unsafe {
            exported::bench_check(
                input.rules.as_ptr(),
                input.rules.len(),
                input.log.as_ptr(),
                input.log.len(),
                certificate.as_ptr(),
                certificate.len(),
                again,
            )
        }
    }

    pub fn settle(
        input: &Input,
        line: usize,
        row: usize,
        buffers: &mut Buffers,
        again: u32,
    ) -> Settling {
        // SAFETY: each pointer and length are those of a live slice, and the three that are written to are lent exclusively.
        unsafe {
            exported::bench_settle(
                input.rules.as_ptr(),
                input.rules.len(),
                input.log.as_ptr(),
                input.log.len(),
                line,
                row,
                again,
                buffers.sizes.as_mut_ptr(),
                buffers.sizes.len(),
                buffers.plan.as_mut_ptr(),
                buffers.plan.len(),
                buffers.out.as_mut_ptr(),
                buffers.out.len(),
            )
        }
    }
}

pub mod plain {
    use super::{Buffers, Checked, Settling};
    use crate::inputs::Input;
    use ::plain::certificate::{Claim, Ruling};
    use ::plain::check::{CheckFault, check as check_once};
    use ::plain::log::MaskLog;
    use ::plain::settle::{SettleFault, Settled, settle as settle_once};
    use ::plain::table::Table;
    use ::plain::text::{read_log, read_rules};
    use std::hint::black_box;

    /// The lines before the first fault.
    pub fn table_of(text: &str) -> Table {
        let mut table = Table::new();
        let _ = read_rules(text.as_bytes(), &mut table);
        table
    }

    /// The rows before the first fault.
    pub fn log_of(text: &str) -> MaskLog {
        let mut log = MaskLog::new();
        let _ = read_log(text.as_bytes(), &mut log);
        log
    }

    impl From<Result<Claim, CheckFault>> for Checked {
        fn from(answer: Result<Claim, CheckFault>) -> Checked {
            match answer {
                Ok(claim) => Checked {
                    question: 0,
                    node: 0,
                    line: claim.line,
                    row: claim.row,
                    held: claim.ruling == Ruling::Held,
                },
                Err(fault) => {
                    let (question, node) = fault.told();
                    Checked {
                        question,
                        node,
                        line: 0,
                        row: 0,
                        held: false,
                    }
                }
            }
        }
    }

    impl From<Result<Settled, SettleFault>> for Settling {
        fn from(answer: Result<Settled, SettleFault>) -> Settling {
            match answer {
                Ok(settled) => Settling {
                    question: 0,
                    size: settled.size,
                    held: settled.ruling == Ruling::Held,
                },
                Err(fault) => Settling {
                    question: fault.number(),
                    size: 0,
                    held: false,
                },
            }
        }
    }

    pub fn check(input: &Input, certificate: &[u8], again: u32) -> Checked {
        let table = table_of(&input.rules);
        let log = log_of(&input.log);
        let blank = Claim {
            line: 0,
            row: 0,
            ruling: Ruling::Held,
        };
        let mut stack = [blank; 4096];
        for _ in 0..again {
            let (table, log) = (black_box(&table), black_box(&log));
            let _ = black_box(check_once(table, log, certificate, &mut stack));
        }
        check_once(&table, &log, certificate, &mut stack).into()
    }

    pub fn settle(
        input: &Input,
        line: usize,
        row: usize,
        buffers: &mut Buffers,
        again: u32,
    ) -> Settling {
        let table = table_of(&input.rules);
        let log = log_of(&input.log);
        let Buffers { sizes, plan, out } = buffers;
        for _ in 0..again {
            let (table, log) = (black_box(&table), black_box(&log));
            let _ = black_box(settle_once(table, log, line, row, sizes, plan, out));
        }
        settle_once(&table, &log, line, row, sizes, plan, out).into()
    }
}
