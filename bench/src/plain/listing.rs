//! From the program's whole input to its listing.
use crate::case::Case;
use crate::certificate::Ruling;
use crate::log::{Log, MaskLog};
use crate::settle::{CELLS, SettleFault};
use crate::table::Table;
use crate::text::{TextFault, read_log, read_rules};
use std::fmt::Write;

/// The rules text and the log text: what stands before and after the first empty line.
pub fn split(input: &[u8]) -> (&[u8], &[u8]) {
    if input.first() == Some(&b'\n') {
        return (&[], &input[1..]);
    }
    match input.windows(2).position(|pair| pair == b"\n\n") {
        Some(at) => (&input[..at + 1], &input[at + 2..]),
        None => (input, &[]),
    }
}

fn fault_lines(source: &str, fault: TextFault) -> String {
    let (number, line, field) = fault.told();
    format!("fault text line field\n{number} {source} {line} {field}\n")
}

fn ruling_lines(table: Table, log: MaskLog) -> String {
    let mut text = String::from("row ruling nodes\n");
    let Some(line) = table.len().checked_sub(1) else {
        return text;
    };
    let mut sizes = vec![0; CELLS];
    let mut plan = vec![0; CELLS];
    let mut out = vec![0; 24576];
    let mut case = Case::open(table, log);
    for row in 0..case.log().len() {
        let written = match case.settle(line, row, &mut sizes, &mut plan, &mut out) {
            Ok(settled) => match settled.ruling {
                Ruling::Held => writeln!(text, "{row} held {}", settled.size),
                Ruling::Broken => writeln!(text, "{row} broken {}", settled.size),
            },
            Err(SettleFault::Open) => writeln!(text, "{row} open -"),
            Err(_) => writeln!(text, "{row} long -"),
        };
        written.expect("a String takes any text");
    }
    text
}

/// The listing of the program's whole input: a fault, or the last line's ruling at every row.
pub fn listing(input: &[u8]) -> String {
    let (rules, text) = split(input);
    let mut table = Table::new();
    if let Err(fault) = read_rules(rules, &mut table) {
        return fault_lines("rules", fault);
    }
    let mut log = MaskLog::new();
    if let Err(fault) = read_log(text, &mut log) {
        return fault_lines("log", fault);
    }
    ruling_lines(table, log)
}
