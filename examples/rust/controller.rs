//! A controller's part: it settles the last rule at row 3 of a log, and checks the certificate
//! as the workshop does.
//! The input is a rules text, an empty line and a log text.
mod sanqizhet;

use sanqizhet::{Claim, Layer, Place, Refusal, Ruling, Text};
use std::error::Error;

const ROW: usize = 3;

/// Splits the input at its first empty line, which belongs to neither text.
fn split(input: &[u8]) -> (&[u8], &[u8]) {
    let ends = |i: &usize| input[*i] == b'\n' && (*i == 0 || input[*i - 1] == b'\n');
    match (0..input.len()).find(ends) {
        Some(end) => (&input[..end], &input[end + 1..]),
        None => (input, &[]),
    }
}

fn ruling_name(ruling: Ruling) -> &'static str {
    match ruling {
        Ruling::Held => "held",
        Ruling::Broken => "broken",
    }
}

/// Why a call is refused, and where the fault stands.
fn refusal_line(Refusal { number, place }: Refusal) -> String {
    match place {
        Place::Node(node) => format!("refused with {number} at node {node}"),
        Place::Call => format!("refused with {number}"),
        Place::Text {
            text,
            layer,
            line,
            field,
        } => {
            let layer = match layer {
                Layer::Text => "the text",
                Layer::Table => "the table",
                Layer::Log => "the log",
            };
            let text = match text {
                Text::Rules => "rules",
                Text::Log => "log",
            };
            format!("refused with {number} by {layer}, {text} text, line {line}, field {field}")
        }
    }
}

fn claim_line(answer: Result<Claim, Refusal>) -> String {
    match answer {
        Ok(Claim { line, row, ruling }) => {
            let ruling = ruling_name(ruling);
            format!("line {line} at row {row} {ruling}")
        }
        Err(refusal) => refusal_line(refusal),
    }
}

fn outcome_line<T>(answer: &Result<T, Refusal>) -> String {
    match answer {
        Ok(_) => "accepted".to_string(),
        Err(refusal) => refusal_line(*refusal),
    }
}

fn hexadecimal(bytes: &[u8]) -> String {
    let words: Vec<String> = bytes.iter().map(|b| format!("{b:02x}")).collect();
    words.join(" ")
}

/// Settles the last line at the row and checks the certificate written: how many bytes that has.
fn certify(rules: &[u8], log: &[u8], out: &mut [u8]) -> Result<usize, String> {
    let table = sanqizhet::read_rules(rules);
    let rows = sanqizhet::read_log(log);
    println!("rules text: {}", outcome_line(&table));
    println!("log text: {}", outcome_line(&rows));
    let lines = table.map_err(refusal_line)?;
    println!("{lines} lines, {} rows", rows.map_err(refusal_line)?);

    let line = lines.checked_sub(1).ok_or("the table has no line")?;
    let settled = sanqizhet::settle(rules, log, line, ROW, out).map_err(refusal_line)?;
    let (ruling, certificate) = (settled.ruling, settled.certificate);
    let nodes = certificate.len() / 6;
    println!("settled: {} by {nodes} nodes", ruling_name(ruling));
    println!("{}", hexadecimal(certificate));

    let checked = sanqizhet::check(rules, log, certificate);
    println!("certificate: {}", claim_line(checked));
    let row = ROW;
    if checked == Ok(Claim { line, row, ruling }) {
        Ok(certificate.len())
    } else {
        Err("another claim is checked than was settled".to_string())
    }
}

/// One damaged byte, a text with a fault, and no bytes: whether each is refused as it should be.
fn refusals(rules: &[u8], log: &[u8], damaged: &[u8]) -> bool {
    let faulty = b"line kind from to left right\n0 m - - 0 -\n1 m - - 01 -\n";
    let damage = sanqizhet::check(rules, log, damaged);
    println!("damaged certificate: {}", claim_line(damage));
    let fault = sanqizhet::check(faulty, log, damaged);
    println!("faulty rules: {}", claim_line(fault));
    let no_rules = sanqizhet::read_rules(&[]);
    println!("no rules: {}", outcome_line(&no_rules));
    let no_certificate = sanqizhet::check(rules, log, &[]);
    println!("no certificate: {}", claim_line(no_certificate));
    let no_output = sanqizhet::settle(rules, log, 0, ROW, &mut []);
    println!("no output: {}", outcome_line(&no_output));

    let place = Place::Text {
        text: Text::Rules,
        layer: Layer::Text,
        line: 3,
        field: 5,
    };
    let last = Place::Node(damaged.len() / 6 - 1);
    damage.map_err(|e| (e.number, e.place)) == Err((15, last))
        && fault.map_err(|e| (e.number, e.place)) == Err((31, place))
        && no_rules.map_err(|e| e.number) == Err(28)
        && no_certificate.map_err(|e| e.number) == Err(11)
        && no_output.map_err(|e| e.number) == Err(26)
}

fn main() -> Result<(), Box<dyn Error>> {
    let name = std::env::args().nth(1).ok_or("usage: controller FILE")?;
    let input = std::fs::read(name)?;
    let (rules, log) = split(&input);
    let mut out = [0; sanqizhet::CERTIFICATE_BYTES];
    let bytes = certify(rules, log, &mut out)?;
    // The rule of the last node: with this bit it is none of any kind.
    out[bytes - 5] ^= 0x20;
    if refusals(rules, log, &out[..bytes]) {
        Ok(())
    } else {
        Err("a refusal is not as it should be".into())
    }
}
