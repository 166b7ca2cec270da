//! Renders no section: a question, a bundle and a book that hold one day, and in which all else is good.

use super::drafts::{assemble, Draft};
use crate::book::words::words_of_book;
use crate::book::{Book, Entry};
use crate::calendar::{FIRST_DAY, LAST_DAY};
use crate::layout::{Rule, Table};
use crate::question::{asked, Question};

pub fn question_on(day: u64) -> Question {
    Question {
        day,
        ..asked(1, &[], &[(1185, 1010)])
    }
}

/// The record with the day comes last, behind those that it needs.
pub fn bundle_with(table: Table, field: u8, day: u64) -> Vec<u8> {
    let mut drafts = needed_by(table);
    let mut dated = valid_throughout(table);
    dated.write_number(field, day);
    drafts.push(dated);
    assemble(&drafts)
}

fn needed_by(table: Table) -> Vec<Draft> {
    let needed: &[Table] = match table {
        Table::Co | Table::Re => &[],
        Table::Ar => &[Table::Re, Table::Co],
        Table::Me => &[Table::Co],
    };
    needed.iter().copied().map(Draft::plain).collect()
}

/// Any other first day or last day leaves it a period.
fn valid_throughout(table: Table) -> Draft {
    let mut draft = Draft::plain(table);
    for row in table.rows() {
        match row.rule {
            Rule::FirstDay => draft.write_number(row.field, FIRST_DAY),
            Rule::LastDay => draft.write_number(row.field, LAST_DAY),
            _ => (),
        }
    }
    draft
}

/// Of one sale, for that day.
pub fn book_with(day: u64) -> Vec<u32> {
    let entry = Entry {
        till: 1,
        sequence: 1,
        question: question_on(day),
        ..Entry::default()
    };
    let book = Book {
        entries: vec![entry],
    };
    words_of_book(&book).expect("a day fits its word")
}
