//! Rule tables.

/// The differences of times that count as inside; without `to` there is no upper end.
#[derive(Clone, Copy, Debug)]
pub struct Window {
    pub from: u32,
    pub to: Option<u32>,
}

impl Window {
    /// The window without an end.
    pub fn at_least(from: u32) -> Window {
        Window { from, to: None }
    }

    pub fn up_to(&self, apart: u32) -> bool {
        self.to.is_none_or(|to| apart <= to)
    }

    pub fn beyond(&self, apart: u32) -> bool {
        !self.up_to(apart)
    }

    pub fn contains(&self, apart: u32) -> bool {
        self.from <= apart && self.up_to(apart)
    }
}

#[derive(Clone, Copy, Debug, PartialEq)]
pub enum Kind {
    Mark,
    Not,
    And,
    Or,
    Previous,
    Next,
    Since,
    Until,
}

impl Kind {
    pub fn of_letter(letter: u8) -> Option<Kind> {
        match letter {
            b'm' => Some(Kind::Mark),
            b'n' => Some(Kind::Not),
            b'a' => Some(Kind::And),
            b'o' => Some(Kind::Or),
            b'p' => Some(Kind::Previous),
            b'x' => Some(Kind::Next),
            b's' => Some(Kind::Since),
            b'u' => Some(Kind::Until),
            _ => None,
        }
    }

    pub fn has_window(self) -> bool {
        matches!(
            self,
            Kind::Previous | Kind::Next | Kind::Since | Kind::Until
        )
    }

    pub fn has_right(self) -> bool {
        matches!(self, Kind::And | Kind::Or | Kind::Since | Kind::Until)
    }
}

/// A rule line: a mark's number, or the numbers of earlier lines, left before right.
#[derive(Clone, Copy, Debug)]
pub enum Line {
    Mark(u8),
    Not(u8),
    And(u8, u8),
    Or(u8, u8),
    Previous(Window, u8),
    Next(Window, u8),
    Since(Window, u8, u8),
    Until(Window, u8, u8),
}

/// What a line is entered with, beside its letter.
#[derive(Clone, Copy, Debug, Default)]
pub struct Fields {
    pub from: u32,
    pub to: Option<u32>,
    pub left: u32,
    pub right: u32,
}

#[derive(Clone, Copy, Debug, PartialEq)]
pub enum LineFault {
    TableFull,
    UnknownKind,
    NoSuchMark,
    NotEarlier,
    WindowReversed,
    UntilEndless,
}

impl LineFault {
    pub fn number(self) -> u8 {
        match self {
            LineFault::TableFull => 1,
            LineFault::UnknownKind => 2,
            LineFault::NoSuchMark => 3,
            LineFault::NotEarlier => 4,
            LineFault::WindowReversed => 5,
            LineFault::UntilEndless => 6,
        }
    }
}

/// At most 32 lines.
#[derive(Clone)]
pub struct Table {
    lines: [Line; 32],
    count: usize,
}

impl Default for Table {
    fn default() -> Table {
        Table::new()
    }
}

impl Table {
    pub fn new() -> Table {
        Table {
            lines: [Line::Mark(0); 32],
            count: 0,
        }
    }

    pub fn len(&self) -> usize {
        self.count
    }

    pub fn is_empty(&self) -> bool {
        self.count == 0
    }

    pub fn line(&self, number: usize) -> Option<Line> {
        self.lines[..self.count].get(number).copied()
    }

    fn operand(&self, number: u32) -> Result<u8, LineFault> {
        if (number as usize) < self.count {
            Ok(number as u8)
        } else {
            Err(LineFault::NotEarlier)
        }
    }

    fn line_of(&self, kind: Kind, fields: &Fields) -> Result<Line, LineFault> {
        let left = || self.operand(fields.left);
        let right = || self.operand(fields.right);
        let window = || match fields.to {
            Some(to) if to < fields.from => Err(LineFault::WindowReversed),
            to => Ok(Window {
                from: fields.from,
                to,
            }),
        };
        let ended = || {
            window().and_then(|window| match window.to {
                Some(_) => Ok(window),
                None => Err(LineFault::UntilEndless),
            })
        };
        Ok(match kind {
            Kind::Mark if fields.left < 32 => Line::Mark(fields.left as u8),
            Kind::Mark => return Err(LineFault::NoSuchMark),
            Kind::Not => Line::Not(left()?),
            Kind::And => Line::And(left()?, right()?),
            Kind::Or => Line::Or(left()?, right()?),
            Kind::Previous => {
                let left = left()?;
                Line::Previous(window()?, left)
            }
            Kind::Next => {
                let left = left()?;
                Line::Next(window()?, left)
            }
            Kind::Since => {
                let (left, right) = (left()?, right()?);
                Line::Since(window()?, left, right)
            }
            Kind::Until => {
                let (left, right) = (left()?, right()?);
                Line::Until(ended()?, left, right)
            }
        })
    }

    /// Enters the next line.
    pub fn enter(&mut self, letter: u8, fields: &Fields) -> Result<(), LineFault> {
        if self.count == 32 {
            return Err(LineFault::TableFull);
        }
        let kind = Kind::of_letter(letter).ok_or(LineFault::UnknownKind)?;
        self.lines[self.count] = self.line_of(kind, fields)?;
        self.count += 1;
        Ok(())
    }
}
