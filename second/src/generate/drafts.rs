//! Renders the layout of "The bundle" backwards: records that are still being written.

use crate::bundle::Record;
use crate::layout::{ar, co, me, re, Row, Rule, Table, TRANSFEROR};
use crate::period::Period;

#[derive(Clone, Debug, PartialEq, Eq)]
pub struct Draft {
    pub table: Table,
    pub bytes: Vec<u8>,
}

impl Draft {
    /// A good record that grants and asks nothing, of transferor 1185, offer 42, code 7, 2024.
    pub fn plain(table: Table) -> Draft {
        let bytes = table.rows().iter().flat_map(plain_value).collect();
        let draft = Draft { table, bytes }.with(TRANSFEROR, "1185");
        match table {
            Table::Co => draft.with(co::OFFER, "00042"),
            Table::Re => draft.with(re::CODE, "007"),
            Table::Ar => draft.with(ar::OFFER, "00042").with(ar::CODE, "007"),
            Table::Me => draft.with(me::OFFER, "00042"),
        }
    }

    /// Still to be written all over.
    pub fn blank(table: Table) -> Draft {
        let bytes = vec![b' '; table.record_length()];
        Draft { table, bytes }
    }

    pub fn with(mut self, field: u8, value: &str) -> Draft {
        self.write(field, value.as_bytes());
        self
    }

    pub fn write(&mut self, field: u8, value: &[u8]) {
        let span = self.table.span(field);
        self.bytes[span].copy_from_slice(value);
    }

    pub fn write_number(&mut self, field: u8, number: u64) {
        let width = self.table.span(field).len();
        self.write(field, &decimal(number, width));
    }

    pub fn write_period(&mut self, period: Period) {
        let (first, last) = self.table.period_fields();
        self.write_number(first, period.first);
        self.write_number(last, period.last);
    }

    pub fn record(&self) -> Record<'_> {
        Record {
            table: self.table,
            bytes: &self.bytes,
        }
    }

    pub fn value(&self, field: u8) -> &[u8] {
        self.record().value(field)
    }

    pub fn number(&self, field: u8) -> u64 {
        self.record().number_or(field, 0)
    }

    pub fn period(&self) -> Period {
        self.record().period()
    }

    pub fn has_key_of(&self, other: &Draft) -> bool {
        self.record().key() == other.record().key()
    }

    pub fn length_with_mark(&self) -> usize {
        2 + self.bytes.len()
    }
}

pub fn decimal(number: u64, width: usize) -> Vec<u8> {
    format!("{number:0width$}").into_bytes()
}

fn plain_value(row: &Row) -> Vec<u8> {
    match row.rule {
        Rule::Text | Rule::LeastPersons | Rule::MostPersons => vec![b' '; row.width],
        Rule::NumberFrom(least) => decimal(least, row.width),
        Rule::Flag | Rule::FlagOrBlank | Rule::Rounding => b"N".to_vec(),
        Rule::Discount | Rule::DiscountOrBlank | Rule::Factor => vec![b'0'; row.width],
        Rule::FirstDay => b"20240101".to_vec(),
        Rule::LastDay => b"20241231".to_vec(),
    }
}

pub fn assemble(drafts: &[Draft]) -> Vec<u8> {
    let mut bundle = Vec::new();
    for draft in drafts {
        bundle.extend_from_slice(draft.table.mark().as_bytes());
        bundle.extend_from_slice(&draft.bytes);
    }
    bundle
}

/// Where the mark of each record stands in the assembled bundle.
pub fn mark_places(drafts: &[Draft]) -> Vec<usize> {
    drafts
        .iter()
        .scan(0, |next, draft| {
            let place = *next;
            *next += draft.length_with_mark();
            Some(place)
        })
        .collect()
}

#[cfg(test)]
mod tests {
    use super::*;

    #[test]
    fn marks_stand_where_they_are_said_to() {
        let drafts = Table::ALL.map(Draft::plain);
        let bundle = assemble(&drafts);
        for (draft, place) in drafts.iter().zip(mark_places(&drafts)) {
            assert_eq!(&bundle[place..place + 2], draft.table.mark().as_bytes());
        }
    }
}
