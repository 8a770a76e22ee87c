//! The checker of certificates.
use crate::certificate::{Claim, Node, Ruling};
use crate::log::Log;
use crate::table::{Kind, Line, Table, Window};

/// The first question that is answered no; nodes are counted from 0.
#[derive(Clone, Copy, Debug, PartialEq)]
pub enum CheckFault {
    NotWholeNodes,
    TooLong,
    StackTooShort,
    NoSuchLine { node: usize },
    RuleOfOtherKind { node: usize },
    NoSuchRow { node: usize },
    WrongCount { node: usize },
    WrongChild { node: usize },
    ConditionNotMet { node: usize },
    NotOneLeft { nodes: usize },
}

impl CheckFault {
    /// The question's number, and the node.
    pub fn told(self) -> (u8, usize) {
        match self {
            CheckFault::NotWholeNodes => (11, 0),
            CheckFault::TooLong => (12, 0),
            CheckFault::StackTooShort => (13, 0),
            CheckFault::NoSuchLine { node } => (14, node),
            CheckFault::RuleOfOtherKind { node } => (15, node),
            CheckFault::NoSuchRow { node } => (16, node),
            CheckFault::WrongCount { node } => (17, node),
            CheckFault::WrongChild { node } => (18, node),
            CheckFault::ConditionNotMet { node } => (19, node),
            CheckFault::NotOneLeft { nodes } => (20, nodes),
        }
    }
}

const NODE_BYTES: usize = 6;
const MOST_NODES: usize = 4096;

/// The claim that a certificate proves. The stack needs a place for each node.
pub fn check<L: Log>(
    table: &Table,
    log: &L,
    certificate: &[u8],
    stack: &mut [Claim],
) -> Result<Claim, CheckFault> {
    let (nodes, cut) = certificate.as_chunks::<NODE_BYTES>();
    if nodes.is_empty() || !cut.is_empty() {
        return Err(CheckFault::NotWholeNodes);
    }
    if nodes.len() > MOST_NODES {
        return Err(CheckFault::TooLong);
    }
    if nodes.len() > stack.len() {
        return Err(CheckFault::StackTooShort);
    }
    let mut top = 0;
    for (at, bytes) in nodes.iter().enumerate() {
        let node = Node::from_bytes(*bytes);
        let ruling = judge(table, log, node, at, &stack[..top])?;
        let base = top - node.count as usize;
        stack[base] = Claim {
            line: node.line,
            row: node.row,
            ruling,
        };
        top = base + 1;
    }
    match stack[..top] {
        [claim] => Ok(claim),
        _ => Err(CheckFault::NotOneLeft { nodes: nodes.len() }),
    }
}

/// What a node rules, taking its children off the end of those waiting.
fn judge<L: Log>(
    table: &Table,
    log: &L,
    node: Node,
    at: usize,
    waiting: &[Claim],
) -> Result<Ruling, CheckFault> {
    let Some(line) = table.line(node.line as usize) else {
        return Err(CheckFault::NoSuchLine { node: at });
    };
    let parts = Parts::of(line);
    if kind_of_rule(node.rule) != Some(parts.kind) {
        return Err(CheckFault::RuleOfOtherKind { node: at });
    }
    if node.row as usize >= log.len() {
        return Err(CheckFault::NoSuchRow { node: at });
    }
    let count = node.count as usize;
    if !count_fits(node.rule, count) || waiting.len() < count {
        return Err(CheckFault::WrongCount { node: at });
    }
    let children = &waiting[waiting.len() - count..];
    if !lines_fit(node.rule, &parts, children) {
        return Err(CheckFault::WrongChild { node: at });
    }
    if !rows_fit(log, node.rule, &parts, node.row as usize, children) {
        return Err(CheckFault::ConditionNotMet { node: at });
    }
    Ok(ruling_of(node.rule))
}

/// A line with its parts side by side.
struct Parts {
    kind: Kind,
    window: Window,
    left: u8,
    right: u8,
}

impl Parts {
    fn of(line: Line) -> Parts {
        let any = Window::at_least(0);
        let (kind, window, left, right) = match line {
            Line::Mark(mark) => (Kind::Mark, any, mark, 0),
            Line::Not(left) => (Kind::Not, any, left, 0),
            Line::And(left, right) => (Kind::And, any, left, right),
            Line::Or(left, right) => (Kind::Or, any, left, right),
            Line::Previous(window, left) => (Kind::Previous, window, left, 0),
            Line::Next(window, left) => (Kind::Next, window, left, 0),
            Line::Since(window, left, right) => (Kind::Since, window, left, right),
            Line::Until(window, left, right) => (Kind::Until, window, left, right),
        };
        Parts {
            kind,
            window,
            left,
            right,
        }
    }
}

fn kind_of_rule(rule: u8) -> Option<Kind> {
    match rule {
        1..=2 => Some(Kind::Mark),
        3..=4 => Some(Kind::Not),
        5..=7 => Some(Kind::And),
        8..=10 => Some(Kind::Or),
        11..=15 => Some(Kind::Previous),
        16..=19 => Some(Kind::Next),
        20..=23 => Some(Kind::Since),
        24..=26 => Some(Kind::Until),
        _ => None,
    }
}

fn count_fits(rule: u8, count: usize) -> bool {
    match rule {
        1 | 2 | 13..=15 | 18 | 19 | 23 => count == 0,
        5 | 10 => count == 2,
        20 | 21 | 24 | 25 => count >= 1,
        22 | 26 => true,
        _ => count == 1,
    }
}

fn ruling_of(rule: u8) -> Ruling {
    match rule {
        1 | 3 | 5 | 8 | 9 | 11 | 16 | 20 | 24 => Ruling::Held,
        _ => Ruling::Broken,
    }
}

fn all_of(children: &[Claim], line: u8, ruling: Ruling) -> bool {
    children
        .iter()
        .all(|child| child.line == line && child.ruling == ruling)
}

fn first_then(children: &[Claim], first: u8, others: u8, ruling: Ruling) -> bool {
    match children {
        [child, rest @ ..] => {
            child.line == first && child.ruling == ruling && all_of(rest, others, ruling)
        }
        [] => false,
    }
}

/// Whether the children have the lines and rulings that the rule shows.
fn lines_fit(rule: u8, parts: &Parts, children: &[Claim]) -> bool {
    let Parts { left, right, .. } = *parts;
    match rule {
        3 | 6 | 12 | 17 => all_of(children, left, Ruling::Broken),
        4 | 8 | 11 | 16 => all_of(children, left, Ruling::Held),
        7 | 22 | 26 => all_of(children, right, Ruling::Broken),
        9 => all_of(children, right, Ruling::Held),
        5 => first_then(children, left, right, Ruling::Held),
        10 | 21 | 25 => first_then(children, left, right, Ruling::Broken),
        20 | 24 => first_then(children, right, left, Ruling::Held),
        _ => true,
    }
}

/// The time of a row of the log; 0 past its end.
fn time_at<L: Log>(log: &L, row: usize) -> u32 {
    log.time(row).unwrap_or(0)
}

/// How long row `j` lies before row `i`; 0 if it does not.
fn before<L: Log>(log: &L, i: usize, j: usize) -> u32 {
    time_at(log, i).saturating_sub(time_at(log, j))
}

fn all_at(children: &[Claim], row: usize) -> bool {
    children.iter().all(|child| child.row as usize == row)
}

/// Whether the children stand, one each and in order, at those of the rows whose difference is inside.
fn rows_are(
    children: &[Claim],
    window: Window,
    rows: std::ops::Range<usize>,
    apart: impl Fn(usize) -> u32,
) -> bool {
    let mut children = children.iter();
    for k in rows {
        if window.contains(apart(k)) && !children.next().is_some_and(|c| c.row as usize == k) {
            return false;
        }
    }
    children.next().is_none()
}

/// The rules that leave a choice of `j`: the first child stands there.
fn led_by<L: Log>(log: &L, rule: u8, window: Window, i: usize, children: &[Claim]) -> bool {
    let [first, others @ ..] = children else {
        return false;
    };
    let j = first.row as usize;
    let any = Window::at_least(0);
    let late = Window::at_least(window.from);
    let since = |k| before(log, i, k);
    let until = |k| before(log, k, i);
    match rule {
        20 => rows_are(others, any, j + 1..i + 1, since) && j <= i && window.contains(since(j)),
        21 => {
            rows_are(others, late, j..i + 1, since)
                && 1 <= j
                && j <= i
                && window.up_to(since(j - 1))
                && window.from <= since(0)
        }
        24 => {
            rows_are(others, any, i..j, until)
                && i <= j
                && j < log.len()
                && window.contains(until(j))
        }
        _ => {
            rows_are(others, late, i..j + 1, until)
                && i <= j
                && j < log.len()
                && window.up_to(until(j))
        }
    }
}

/// Whether the children stand at the rows that the rule shows, and its condition is met.
fn rows_fit<L: Log>(log: &L, rule: u8, parts: &Parts, i: usize, children: &[Claim]) -> bool {
    let Parts { window, left, .. } = *parts;
    let since = |k| before(log, i, k);
    let until = |k| before(log, k, i);
    let stands = || log.mark(i, left as u32).unwrap_or(false);
    let gap_before = || (i > 0).then(|| since(i - 1));
    let gap_after = || (i + 1 < log.len()).then(|| until(i + 1));
    match rule {
        1 => stands(),
        2 => !stands(),
        3..=10 => all_at(children, i),
        11 => gap_before().is_some_and(|gap| window.contains(gap)) && all_at(children, i - 1),
        12 => i > 0 && all_at(children, i - 1),
        13 => gap_before().is_some_and(|gap| gap < window.from),
        14 => gap_before().is_some_and(|gap| window.beyond(gap)),
        15 => i == 0,
        16 => gap_after().is_some_and(|gap| window.contains(gap)) && all_at(children, i + 1),
        17 => all_at(children, i + 1),
        18 => gap_after().is_some_and(|gap| gap < window.from),
        19 => gap_after().is_some_and(|gap| window.beyond(gap)),
        22 => rows_are(children, window, 0..i + 1, since) && window.from <= since(0),
        23 => since(0) < window.from,
        26 => {
            rows_are(children, window, i..log.len(), until) && window.beyond(until(log.len() - 1))
        }
        _ => led_by(log, rule, window, i, children),
    }
}
