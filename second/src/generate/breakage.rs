//! Renders "Values" of "The bundle" backwards: the ways in which each row can be broken.

use super::drafts::Draft;
use crate::layout::{Row, Rule, Table};

#[derive(Clone, Debug)]
enum Edit {
    Whole(Vec<u8>),
    Byte { at: usize, value: u8 },
}

/// Edits of one record after which its first broken field is the named one.
#[derive(Clone, Debug)]
pub struct Breakage {
    pub table: Table,
    pub field: u8,
    edits: Vec<(u8, Edit)>,
}

impl Breakage {
    pub fn apply(&self, draft: &mut Draft) {
        for (field, edit) in &self.edits {
            match edit {
                Edit::Whole(value) => draft.write(*field, value),
                Edit::Byte { at, value } => {
                    let start = draft.table.span(*field).start;
                    draft.bytes[start + at] = *value;
                }
            }
        }
    }
}

pub fn every_breakage() -> Vec<Breakage> {
    let mut breakages = Vec::new();
    for table in Table::ALL {
        for (place, row) in table.rows().iter().enumerate() {
            for edits in ways_to_break(table.rows(), place) {
                breakages.push(Breakage {
                    table,
                    field: row.field,
                    edits,
                });
            }
        }
    }
    breakages
}

type Way = Vec<(u8, Edit)>;

fn ways_to_break(rows: &[Row], place: usize) -> Vec<Way> {
    let row = &rows[place];
    match row.rule {
        Rule::Text => bad_text(row),
        Rule::NumberFrom(least) => bad_number(row, least),
        Rule::Flag => bad_letters(row, b" ynXZMO01"),
        Rule::FlagOrBlank => bad_letters(row, b"ynXZMO01!"),
        Rule::LeastPersons => wholes(row, &BAD_PAIRS_OF_DIGITS),
        Rule::MostPersons => bad_most_persons(row, &rows[place - 1]),
        Rule::Discount => [bad_discount(row), wholes(row, &["      "])].concat(),
        Rule::DiscountOrBlank => bad_discount(row),
        Rule::Rounding => bad_letters(row, b" n1*,./MO9\xB1\xAD"),
        Rule::Factor => bad_factor(row, &rows[place - 1]),
        Rule::FirstDay => wholes(row, &NO_DAYS),
        Rule::LastDay => bad_last_day(row, &rows[place - 2]),
    }
}

fn wholes(row: &Row, values: &[impl AsRef<[u8]>]) -> Vec<Way> {
    values
        .iter()
        .map(|value| vec![whole(row, value.as_ref())])
        .collect()
}

fn whole(row: &Row, value: &[u8]) -> (u8, Edit) {
    (row.field, Edit::Whole(value.to_vec()))
}

fn byte_at(row: &Row, at: usize, value: u8) -> Way {
    vec![(row.field, Edit::Byte { at, value })]
}

fn bad_text(row: &Row) -> Vec<Way> {
    let last = row.width - 1;
    let mut ways = Vec::new();
    for at in [0, row.width / 2, last] {
        for value in [0, 9, 10, 31, 127, 128, 133, 159] {
            ways.push(byte_at(row, at, value));
        }
    }
    ways
}

fn bad_number(row: &Row, least: u64) -> Vec<Way> {
    let mut ways = vec![vec![whole(row, &vec![b' '; row.width])]];
    if least > 0 {
        ways.push(vec![whole(row, &vec![b'0'; row.width])]);
    }
    for value in [
        b' ', b'/', b':', b'+', b'-', b'A', b'.', 0, 160, 178, 179, 185,
    ] {
        ways.push(byte_at(row, 0, value));
        ways.push(byte_at(row, row.width - 1, value));
    }
    ways
}

fn bad_letters(row: &Row, letters: &[u8]) -> Vec<Way> {
    letters
        .iter()
        .chain(&[0, 127, 160, 217, 255])
        .map(|&letter| vec![whole(row, &[letter])])
        .collect()
}

const BAD_PAIRS_OF_DIGITS: [&[u8; 2]; 11] = [
    b" 1",
    b"1 ",
    b"A1",
    b"1A",
    b"-1",
    b"+1",
    b"/1",
    b"1:",
    b"0.",
    b"\0\0",
    b"\xA0\xA0",
];

fn bad_most_persons(row: &Row, least: &Row) -> Vec<Way> {
    let mut ways = wholes(row, &BAD_PAIRS_OF_DIGITS);
    for (least_value, most_value) in [
        ("05", "04"),
        ("99", "98"),
        ("02", "01"),
        ("00", "00"),
        ("  ", "00"),
        ("01", "00"),
        ("10", "09"),
    ] {
        ways.push(vec![
            whole(least, least_value.as_bytes()),
            whole(row, most_value.as_bytes()),
        ]);
    }
    ways
}

fn bad_discount(row: &Row) -> Vec<Way> {
    wholes(
        row,
        &[
            "100001", "100010", "200000", "999999", " 25000", "25000 ", "0 0000", "     0",
            "0     ", "A00000", "00000A", "-25000", "+25000", "25.000", "02500:", "/25000",
        ],
    )
}

fn bad_factor(row: &Row, rounding: &Row) -> Vec<Way> {
    let mut ways = Vec::new();
    for mode in *b"+-0N" {
        let mut values = vec![
            "   ", " 50", "50 ", "0 0", "A50", "05A", "-50", "5.0", "05:", "/50",
        ];
        if mode != b'N' {
            values.push("000");
        }
        for value in values {
            ways.push(vec![whole(rounding, &[mode]), whole(row, value.as_bytes())]);
        }
    }
    ways
}

const NO_DAYS: [&str; 26] = [
    "15821231", "00000000", "00010101", "20240001", "20241301", "20240100", "20240132", "20240230",
    "20230229", "21000229", "19000229", "99990229", "20240431", "20240631", "20240931", "20241131",
    "20249901", "20240199", "        ", "2024 101", "2024010 ", " 2024010", "2024-1-1", "202401A1",
    "0101202:", "/0240101",
];

fn bad_last_day(row: &Row, first: &Row) -> Vec<Way> {
    let mut ways = wholes(row, &NO_DAYS);
    for (first_day, last_day) in [
        ("20240102", "20240101"),
        ("99991231", "99991230"),
        ("20240301", "20240229"),
        ("20250101", "20241231"),
        ("15830102", "15830101"),
        ("99991231", "15830101"),
        ("20240201", "20240131"),
    ] {
        ways.push(vec![
            whole(first, first_day.as_bytes()),
            whole(row, last_day.as_bytes()),
        ]);
    }
    ways
}

#[cfg(test)]
mod tests {
    use super::*;
    use crate::generate::random::Random;
    use crate::generate::valid::{drawn_record, Habits};
    use crate::values::first_broken_field;
    use std::collections::HashSet;

    #[test]
    fn each_breakage_breaks_its_field_and_none_before() {
        let mut random = Random::from_seed(21);
        for breakage in every_breakage() {
            for _ in 0..5 {
                let habits = Habits::drawn(&mut random);
                let mut draft = drawn_record(&mut random, breakage.table, &habits);
                breakage.apply(&mut draft);
                let broken = first_broken_field(&draft.record());
                assert_eq!(broken, Some(breakage.field), "{breakage:?}");
            }
        }
    }

    #[test]
    fn all_57_rows_are_broken() {
        let rows: HashSet<(Table, u8)> = every_breakage()
            .iter()
            .map(|breakage| (breakage.table, breakage.field))
            .collect();
        assert_eq!(rows.len(), 57);
    }
}
