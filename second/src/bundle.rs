//! Renders "The bundle": cutting it into records, each a part of the lent bytes.

use crate::layout::Table;
use crate::period::Period;
use crate::values::digits;

pub const LONGEST_BUNDLE: usize = 1_048_576;
const MARK_WIDTH: usize = 2;

pub type Key<'a> = (Table, Vec<&'a [u8]>);

#[derive(Clone, Copy, Debug)]
pub struct Record<'a> {
    pub table: Table,
    pub bytes: &'a [u8],
}

impl<'a> Record<'a> {
    pub fn value(&self, field: u8) -> &'a [u8] {
        &self.bytes[self.table.span(field)]
    }

    pub fn number(&self, field: u8) -> Option<u64> {
        digits(self.value(field))
    }

    pub fn number_or(&self, field: u8, meaning_of_blank: u64) -> u64 {
        self.number(field).unwrap_or(meaning_of_blank)
    }

    pub fn is_yes(&self, field: u8) -> bool {
        self.value(field) == b"Y"
    }

    pub fn period(&self) -> Period {
        let (first, last) = self.table.period_fields();
        Period::of(self.number_or(first, 0), self.number_or(last, 0))
    }

    pub fn key(&self) -> Key<'a> {
        let fields = self.table.key_fields();
        (
            self.table,
            fields.iter().map(|&field| self.value(field)).collect(),
        )
    }
}

#[derive(Clone, Copy, Debug, PartialEq, Eq)]
pub enum CutFault {
    NoMark,
    Short,
}

pub struct Cutter<'a> {
    rest: &'a [u8],
}

impl<'a> Cutter<'a> {
    pub fn of(bundle: &'a [u8]) -> Cutter<'a> {
        Cutter { rest: bundle }
    }
}

/// After a fault the cutter must not be asked again.
impl<'a> Iterator for Cutter<'a> {
    type Item = Result<Record<'a>, CutFault>;

    fn next(&mut self) -> Option<Self::Item> {
        if self.rest.is_empty() {
            return None;
        }
        Some(cut_one(self.rest).map(|(record, rest)| {
            self.rest = rest;
            record
        }))
    }
}

fn cut_one(bytes: &[u8]) -> Result<(Record<'_>, &[u8]), CutFault> {
    let mark = bytes.get(..MARK_WIDTH).ok_or(CutFault::NoMark)?;
    let table = Table::of_mark(mark).ok_or(CutFault::NoMark)?;
    let end = MARK_WIDTH + table.record_length();
    let body = bytes.get(MARK_WIDTH..end).ok_or(CutFault::Short)?;
    Ok((Record { table, bytes: body }, &bytes[end..]))
}

/// The whole records before the first fault of cutting, whatever their fields hold.
pub fn readable_records(bundle: &[u8]) -> Vec<Record<'_>> {
    Cutter::of(bundle).map_while(Result::ok).collect()
}

#[cfg(test)]
mod tests {
    use super::*;
    use crate::generate::drafts::{assemble, Draft};

    #[test]
    fn records_are_parts_of_the_bundle() {
        let bundle = assemble(&[Draft::plain(Table::Re), Draft::plain(Table::Me)]);
        let records = readable_records(&bundle);
        assert_eq!(records.len(), 2);
        assert_eq!(records[0].bytes.as_ptr(), bundle[2..].as_ptr());
        assert_eq!(records[1].bytes.as_ptr(), bundle[444..].as_ptr());
    }

    #[test]
    fn cutting_stops_at_a_fault() {
        let mut bundle = assemble(&[Draft::plain(Table::Co)]);
        bundle.extend_from_slice(b"ME short");
        let mut cutter = Cutter::of(&bundle);
        assert!(cutter.next().unwrap().is_ok());
        assert_eq!(cutter.next().unwrap().err(), Some(CutFault::Short));
        assert_eq!(readable_records(&bundle).len(), 1);
    }
}
