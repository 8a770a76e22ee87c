//! Settling: the least sizes of every line at every row, and the shortest certificate of one.
use crate::certificate::{Node, Ruling};
use crate::log::{Log, Row};
use crate::table::{Line, Table, Window};

/// Cells of a work buffer: 32 lines, 128 rows, two rulings.
pub const CELLS: usize = 8192;

const MOST_ROWS: usize = 128;

#[derive(Clone, Copy, Debug, PartialEq)]
pub enum SettleFault {
    NoSuchLine,
    NoSuchRow,
    BufferShort,
    Open,
    TooLong,
    OutputShort,
}

impl SettleFault {
    pub fn number(self) -> u8 {
        match self {
            SettleFault::NoSuchLine => 21,
            SettleFault::NoSuchRow => 22,
            SettleFault::BufferShort => 23,
            SettleFault::Open => 24,
            SettleFault::TooLong => 25,
            SettleFault::OutputShort => 26,
        }
    }
}

/// The ruling of a line at a row, and the nodes of its shortest certificate.
#[derive(Clone, Copy, Debug, PartialEq)]
pub struct Settled {
    pub ruling: Ruling,
    pub size: u16,
}

/// Settles a line at a row and writes its shortest certificate to the front of `out`.
pub fn settle<L: Log>(
    table: &Table,
    log: &L,
    line: usize,
    row: usize,
    sizes: &mut [u16],
    plan: &mut [u16],
    out: &mut [u8],
) -> Result<Settled, SettleFault> {
    if line >= table.len() {
        return Err(SettleFault::NoSuchLine);
    }
    if row >= log.len() {
        return Err(SettleFault::NoSuchRow);
    }
    if sizes.len() < CELLS || plan.len() < CELLS {
        return Err(SettleFault::BufferShort);
    }
    let mut rows = [Row { time: 0, marks: 0 }; MOST_ROWS];
    let rows = read_rows(log, &mut rows);
    fill(table, rows, sizes, plan);
    let held = held_cell(sizes, line as u8, row);
    let (ruling, size) = match held {
        0 => (Ruling::Broken, broken_cell(sizes, line as u8, row)),
        _ => (Ruling::Held, held),
    };
    if size == 0 {
        return Err(SettleFault::Open);
    }
    if size > 4096 {
        return Err(SettleFault::TooLong);
    }
    if out.len() < 6 * size as usize {
        return Err(SettleFault::OutputShort);
    }
    let mut writer = Writer {
        table,
        rows,
        plan,
        out,
        end: 0,
    };
    match ruling {
        Ruling::Held => writer.held(line as u8, row),
        Ruling::Broken => writer.broken(line as u8, row),
    }
    Ok(Settled { ruling, size })
}

fn read_rows<'a, L: Log>(log: &L, rows: &'a mut [Row; MOST_ROWS]) -> &'a [Row] {
    let rows = &mut rows[..log.len()];
    for (i, row) in rows.iter_mut().enumerate() {
        let marks = (0..32).filter(|mark| log.mark(i, *mark).unwrap_or(false));
        row.time = log.time(i).unwrap_or(0);
        row.marks = marks.fold(0, |word, mark| word | 1 << mark);
    }
    rows
}

fn held_cell(cells: &[u16], line: u8, row: usize) -> u16 {
    cells[256 * line as usize + 2 * row]
}

fn broken_cell(cells: &[u16], line: u8, row: usize) -> u16 {
    cells[256 * line as usize + 2 * row + 1]
}

/// A sum with one more child's size: none if either is none, and never above 4,097.
fn plus(sum: u16, size: u16) -> u16 {
    if sum == 0 || size == 0 {
        0
    } else {
        sum.saturating_add(size).min(4097)
    }
}

fn plus_if(met: bool, sum: u16, size: u16) -> u16 {
    if met { plus(sum, size) } else { sum }
}

/// The least size found so far, 0 for none, with the rule and the row j that give it.
#[derive(Clone, Copy)]
struct Best {
    size: u16,
    code: u16,
}

impl Best {
    const NONE: Best = Best { size: 0, code: 0 };

    /// A way of this size by a rule and a row j, if its condition is met.
    fn offered(met: bool, size: u16, rule: u8, j: usize) -> Best {
        if met && size != 0 {
            Best {
                size,
                code: 256 * rule as u16 + j as u16,
            }
        } else {
            Best::NONE
        }
    }

    fn by(size: u16, rule: u8) -> Best {
        Best::offered(true, size, rule, 0)
    }

    /// The smaller of two, the first among equals.
    fn or(self, second: Best) -> Best {
        if self.size != 0 && (second.size == 0 || self.size <= second.size) {
            self
        } else {
            second
        }
    }
}

/// Fills both work buffers, line by line from the lowest.
fn fill(table: &Table, rows: &[Row], sizes: &mut [u16], plan: &mut [u16]) {
    for line in 0..32 {
        for row in 0..MOST_ROWS {
            let (held, broken) = match table.line(line) {
                Some(found) if row < rows.len() => (
                    held_best(found, rows, sizes, row),
                    broken_best(found, rows, sizes, row),
                ),
                _ => (Best::NONE, Best::NONE),
            };
            let at = 256 * line + 2 * row;
            sizes[at] = held.size;
            sizes[at + 1] = broken.size;
            plan[at] = held.code;
            plan[at + 1] = broken.code;
        }
    }
}

fn marked(row: Row, mark: u8) -> bool {
    mark < 32 && (row.marks >> mark) & 1 == 1
}

fn held_best(line: Line, rows: &[Row], sizes: &[u16], row: usize) -> Best {
    let held = |line| held_cell(sizes, line, row);
    match line {
        Line::Mark(mark) => Best::offered(marked(rows[row], mark), 1, 1, 0),
        Line::Not(left) => Best::by(plus(1, broken_cell(sizes, left, row)), 3),
        Line::And(left, right) => Best::by(plus(plus(1, held(left)), held(right)), 5),
        Line::Or(left, right) => {
            Best::by(plus(1, held(left)), 8).or(Best::by(plus(1, held(right)), 9))
        }
        Line::Previous(window, left) => previous_held(window, left, rows, sizes, row),
        Line::Next(window, left) => next_held(window, left, rows, sizes, row),
        Line::Since(window, left, right) => since_held(window, left, right, rows, sizes, row),
        Line::Until(window, left, right) => until_held(window, left, right, rows, sizes, row),
    }
}

fn broken_best(line: Line, rows: &[Row], sizes: &[u16], row: usize) -> Best {
    let broken = |line| broken_cell(sizes, line, row);
    match line {
        Line::Mark(mark) => Best::offered(!marked(rows[row], mark), 1, 2, 0),
        Line::Not(left) => Best::by(plus(1, held_cell(sizes, left, row)), 4),
        Line::And(left, right) => {
            Best::by(plus(1, broken(left)), 6).or(Best::by(plus(1, broken(right)), 7))
        }
        Line::Or(left, right) => Best::by(plus(plus(1, broken(left)), broken(right)), 10),
        Line::Previous(window, left) => previous_broken(window, left, rows, sizes, row),
        Line::Next(window, left) => next_broken(window, left, rows, sizes, row),
        Line::Since(window, left, right) => since_broken(window, left, right, rows, sizes, row),
        Line::Until(window, left, right) => until_broken(window, left, right, rows, sizes, row),
    }
}

fn previous_held(window: Window, left: u8, rows: &[Row], sizes: &[u16], row: usize) -> Best {
    if row == 0 {
        return Best::NONE;
    }
    let met = window.contains(rows[row].time - rows[row - 1].time);
    Best::offered(met, plus(1, held_cell(sizes, left, row - 1)), 11, 0)
}

fn previous_broken(window: Window, left: u8, rows: &[Row], sizes: &[u16], row: usize) -> Best {
    if row == 0 {
        return Best::by(1, 15);
    }
    let apart = rows[row].time - rows[row - 1].time;
    Best::by(plus(1, broken_cell(sizes, left, row - 1)), 12)
        .or(Best::offered(apart < window.from, 1, 13, 0))
        .or(Best::offered(window.beyond(apart), 1, 14, 0))
}

fn next_held(window: Window, left: u8, rows: &[Row], sizes: &[u16], row: usize) -> Best {
    if row + 1 == rows.len() {
        return Best::NONE;
    }
    let met = window.contains(rows[row + 1].time - rows[row].time);
    Best::offered(met, plus(1, held_cell(sizes, left, row + 1)), 16, 0)
}

fn next_broken(window: Window, left: u8, rows: &[Row], sizes: &[u16], row: usize) -> Best {
    if row + 1 == rows.len() {
        return Best::NONE;
    }
    let apart = rows[row + 1].time - rows[row].time;
    Best::by(plus(1, broken_cell(sizes, left, row + 1)), 17)
        .or(Best::offered(apart < window.from, 1, 18, 0))
        .or(Best::offered(window.beyond(apart), 1, 19, 0))
}

/// The first row that is not too long before `row`.
fn first_within(window: Window, rows: &[Row], row: usize) -> usize {
    match window.to {
        Some(to) => rows.partition_point(|r| r.time < rows[row].time.saturating_sub(to)),
        None => 0,
    }
}

/// The first row from `row` on that is too long after it, or the number of rows.
fn end_within(window: Window, rows: &[Row], row: usize) -> usize {
    match window.to {
        Some(to) => {
            let last = rows[row].time as u64 + to as u64;
            rows.partition_point(|r| r.time as u64 <= last)
        }
        None => rows.len(),
    }
}

/// The first row up to `row` that is not long enough before it, or the row after it.
fn first_near(window: Window, rows: &[Row], row: usize) -> usize {
    let time = rows[row].time;
    match time.checked_sub(window.from) {
        Some(latest) => rows.partition_point(|r| r.time <= latest).min(row + 1),
        None => 0,
    }
}

/// The first row from `row` on that is long enough after it, or the number of rows.
fn first_far(window: Window, rows: &[Row], row: usize) -> usize {
    let earliest = rows[row].time as u64 + window.from as u64;
    rows.partition_point(|r| (r.time as u64) < earliest)
        .max(row)
}

fn since_held(
    window: Window,
    left: u8,
    right: u8,
    rows: &[Row],
    sizes: &[u16],
    row: usize,
) -> Best {
    let time = rows[row].time;
    let mut best = Best::NONE;
    let mut sum = 1;
    for j in (first_within(window, rows, row)..=row).rev() {
        if sum == 0 {
            break;
        }
        let met = window.from <= time - rows[j].time;
        best = Best::offered(met, plus(sum, held_cell(sizes, right, j)), 20, j).or(best);
        sum = plus(sum, held_cell(sizes, left, j));
    }
    best
}

fn since_broken(
    window: Window,
    left: u8,
    right: u8,
    rows: &[Row],
    sizes: &[u16],
    row: usize,
) -> Best {
    let time = rows[row].time;
    if time - rows[0].time < window.from {
        return Best::by(1, 23);
    }
    let mut best = Best::NONE;
    let mut late = 1;
    let start = first_within(window, rows, row);
    for j in (start + 1..row + 1).rev() {
        let apart = time - rows[j].time;
        late = plus_if(window.from <= apart, late, broken_cell(sizes, right, j));
        if late == 0 {
            return best;
        }
        best = Best::offered(true, plus(late, broken_cell(sizes, left, j)), 21, j).or(best);
    }
    let far = window.from <= time - rows[start].time;
    let whole = plus_if(far, late, broken_cell(sizes, right, start));
    best.or(Best::by(whole, 22))
}

fn until_held(
    window: Window,
    left: u8,
    right: u8,
    rows: &[Row],
    sizes: &[u16],
    row: usize,
) -> Best {
    let time = rows[row].time;
    let mut best = Best::NONE;
    let mut sum = 1;
    for j in row..end_within(window, rows, row) {
        if sum == 0 {
            break;
        }
        let met = window.from <= rows[j].time - time;
        best = best.or(Best::offered(
            met,
            plus(sum, held_cell(sizes, right, j)),
            24,
            j,
        ));
        sum = plus(sum, held_cell(sizes, left, j));
    }
    best
}

fn until_broken(
    window: Window,
    left: u8,
    right: u8,
    rows: &[Row],
    sizes: &[u16],
    row: usize,
) -> Best {
    let time = rows[row].time;
    let mut best = Best::NONE;
    let mut late = 1;
    for j in row..end_within(window, rows, row) {
        let apart = rows[j].time - time;
        late = plus_if(window.from <= apart, late, broken_cell(sizes, right, j));
        if late == 0 {
            return best;
        }
        best = best.or(Best::offered(
            true,
            plus(late, broken_cell(sizes, left, j)),
            25,
            j,
        ));
    }
    let closed = window.beyond(rows[rows.len() - 1].time - time);
    best.or(Best::offered(closed, late, 26, 0))
}

/// The rows of a line from one up to, and without, another.
#[derive(Clone)]
struct Run {
    line: u8,
    rows: std::ops::Range<usize>,
}

const NOWHERE: Run = Run {
    line: 0,
    rows: 0..0,
};

/// A rule with its children: those of the first run, then those of the rest.
struct Way {
    rule: u8,
    first: Run,
    rest: Run,
}

impl Way {
    fn leaf(rule: u8) -> Way {
        Way {
            rule,
            first: NOWHERE,
            rest: NOWHERE,
        }
    }

    fn one(rule: u8, line: u8, row: usize) -> Way {
        Way::one_then(rule, line, row, NOWHERE)
    }

    fn two(rule: u8, left: u8, right: u8, row: usize) -> Way {
        let rows = row..row + 1;
        Way::one_then(rule, left, row, Run { line: right, rows })
    }

    fn one_then(rule: u8, line: u8, row: usize, rest: Run) -> Way {
        let rows = row..row + 1;
        Way {
            rule,
            first: Run { line, rows },
            rest,
        }
    }

    fn count(&self) -> usize {
        self.first.rows.len() + self.rest.rows.len()
    }
}

/// Writes certificates in postfix order from the filled plan.
struct Writer<'a> {
    table: &'a Table,
    rows: &'a [Row],
    plan: &'a [u16],
    out: &'a mut [u8],
    end: usize,
}

impl Writer<'_> {
    fn line(&self, line: u8) -> Line {
        self.table.line(line as usize).unwrap_or(Line::Mark(0))
    }

    fn put(&mut self, line: u8, rule: u8, row: usize, count: usize) {
        let node = Node {
            line,
            rule,
            row: row as u16,
            count: count as u16,
        };
        self.out[self.end..self.end + 6].copy_from_slice(&node.to_bytes());
        self.end += 6;
    }

    fn held(&mut self, line: u8, row: usize) {
        let found = self.line(line);
        if let Line::Not(left) = found {
            self.broken(left, row);
            return self.put(line, 3, row, 1);
        }
        let way = held_way(found, row, held_cell(self.plan, line, row));
        let count = way.count();
        for run in [way.first, way.rest] {
            for child in run.rows {
                self.held(run.line, child);
            }
        }
        self.put(line, way.rule, row, count);
    }

    fn broken(&mut self, line: u8, row: usize) {
        let found = self.line(line);
        if let Line::Not(left) = found {
            self.held(left, row);
            return self.put(line, 4, row, 1);
        }
        let way = broken_way(found, self.rows, row, broken_cell(self.plan, line, row));
        let count = way.count();
        for run in [way.first, way.rest] {
            for child in run.rows {
                self.broken(run.line, child);
            }
        }
        self.put(line, way.rule, row, count);
    }
}

fn unpacked(code: u16) -> (u8, usize) {
    let [rule, j] = code.to_be_bytes();
    (rule, j as usize)
}

fn held_way(line: Line, row: usize, code: u16) -> Way {
    let (rule, j) = unpacked(code);
    match line {
        Line::Mark(_) => Way::leaf(rule),
        Line::Not(left) => Way::one(rule, left, row),
        Line::And(left, right) => Way::two(rule, left, right, row),
        Line::Or(left, right) => Way::one(rule, if rule == 8 { left } else { right }, row),
        Line::Previous(_, left) => Way::one(rule, left, row - 1),
        Line::Next(_, left) => Way::one(rule, left, row + 1),
        Line::Since(_, line, right) => {
            let rows = j + 1..row + 1;
            Way::one_then(rule, right, j, Run { line, rows })
        }
        Line::Until(_, line, right) => {
            let rows = row..j;
            Way::one_then(rule, right, j, Run { line, rows })
        }
    }
}

fn broken_way(line: Line, rows: &[Row], row: usize, code: u16) -> Way {
    let (rule, j) = unpacked(code);
    let run = |line, from, to| Run {
        line,
        rows: from..to,
    };
    let many = |rest| Way {
        rule,
        first: NOWHERE,
        rest,
    };
    match (line, rule) {
        (Line::Not(left), _) => Way::one(rule, left, row),
        (Line::And(left, right), _) => Way::one(rule, if rule == 6 { left } else { right }, row),
        (Line::Or(left, right), _) => Way::two(rule, left, right, row),
        (Line::Previous(_, left), 12) => Way::one(rule, left, row - 1),
        (Line::Next(_, left), 17) => Way::one(rule, left, row + 1),
        (Line::Since(window, left, right), 21) => {
            let near = first_near(window, rows, row);
            Way::one_then(rule, left, j, run(right, j, near))
        }
        (Line::Since(window, _, right), 22) => {
            let within = first_within(window, rows, row);
            many(run(right, within, first_near(window, rows, row)))
        }
        (Line::Until(window, left, right), 25) => {
            let far = first_far(window, rows, row);
            Way::one_then(rule, left, j, run(right, far, j + 1))
        }
        (Line::Until(window, _, right), 26) => {
            let far = first_far(window, rows, row);
            many(run(right, far, end_within(window, rows, row)))
        }
        _ => Way::leaf(rule),
    }
}
