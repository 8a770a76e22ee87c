//! A case: a table and a log, and a book of the rulings.
use crate::certificate::Ruling;
use crate::log::MaskLog;
use crate::settle::{SettleFault, Settled, settle};
use crate::table::Table;

pub struct Case {
    table: Table,
    log: MaskLog,
    book: [[Option<Ruling>; 128]; 32],
}

impl Case {
    pub fn open(table: Table, log: MaskLog) -> Case {
        Case {
            table,
            log,
            book: [[None; 128]; 32],
        }
    }

    pub fn log(&self) -> &MaskLog {
        &self.log
    }

    /// Settles a line at a row, and enters an accepted ruling.
    pub fn settle(
        &mut self,
        line: usize,
        row: usize,
        sizes: &mut [u16],
        plan: &mut [u16],
        out: &mut [u8],
    ) -> Result<Settled, SettleFault> {
        let settled = settle(&self.table, &self.log, line, row, sizes, plan, out)?;
        self.book[line][row] = Some(settled.ruling);
        Ok(settled)
    }

    /// What the book shows for a line at a row; nothing where it is open.
    pub fn show(&self, line: usize, row: usize) -> Option<Ruling> {
        self.book[line][row]
    }
}
