//! Renders "The bundle": marks, record lengths and the rows of the four tables.

use std::ops::Range;

#[derive(Clone, Copy, Debug, PartialEq, Eq, Hash, PartialOrd, Ord)]
pub enum Table {
    Co,
    Re,
    Ar,
    Me,
}

#[derive(Clone, Copy, Debug, PartialEq, Eq)]
pub enum Rule {
    Text,
    NumberFrom(u64),
    Flag,
    FlagOrBlank,
    LeastPersons,
    MostPersons,
    Discount,
    DiscountOrBlank,
    Rounding,
    Factor,
    FirstDay,
    LastDay,
}

/// Rows stand in the order of the record, so a row starts where the one before it ends.
#[derive(Clone, Copy, Debug)]
pub struct Row {
    pub field: u8,
    pub width: usize,
    pub rule: Rule,
}

const fn row(field: u8, width: usize, rule: Rule) -> Row {
    Row { field, width, rule }
}

pub mod co {
    pub const OFFER: u8 = 2;
    pub const RAILWAY: u8 = 3;
    pub const NUMBER_CONDITIONS: u8 = 27;
    pub const LEAST_PERSONS: u8 = 28;
    pub const MOST_PERSONS: u8 = 29;
    pub const ADDITIONAL_DISCOUNTS: u8 = 33;
    pub const MEMO: u8 = 37;
    pub const DISCOUNT: u8 = 39;
    pub const ROUNDING: u8 = 40;
    pub const FACTOR: u8 = 41;
    pub const FIRST_DAY: u8 = 42;
    pub const LAST_DAY: u8 = 44;
    pub const UNREAD_CONDITIONS: [u8; 5] = [NUMBER_CONDITIONS, 31, 32, 34, 35];
}

pub mod re {
    pub const CODE: u8 = 2;
    pub const FIRST_DAY: u8 = 9;
    pub const LAST_DAY: u8 = 11;
}

pub mod ar {
    pub const OFFER: u8 = 2;
    pub const RAILWAY: u8 = 3;
    pub const CODE: u8 = 4;
    pub const DISCOUNT: u8 = 5;
    pub const CUMULATIVE: u8 = 6;
    pub const RATING: u8 = 7;
    pub const ROUNDING: u8 = 9;
    pub const FACTOR: u8 = 10;
    pub const FIRST_DAY: u8 = 11;
    pub const LAST_DAY: u8 = 13;
}

pub mod me {
    pub const OFFER: u8 = 2;
    pub const RAILWAY: u8 = 3;
    pub const FIRST_DAY: u8 = 9;
    pub const LAST_DAY: u8 = 11;
}

pub const TRANSFEROR: u8 = 1;
pub const ALL_RAILWAYS: &[u8] = b"0000";

static CO_ROWS: [Row; 22] = [
    row(1, 4, Rule::NumberFrom(1)),
    row(2, 5, Rule::NumberFrom(1)),
    row(3, 4, Rule::NumberFrom(0)),
    row(4, 100, Rule::Text),
    row(27, 1, Rule::FlagOrBlank),
    row(28, 2, Rule::LeastPersons),
    row(29, 2, Rule::MostPersons),
    row(30, 1, Rule::NumberFrom(0)),
    row(31, 1, Rule::Flag),
    row(32, 1, Rule::Flag),
    row(33, 1, Rule::Flag),
    row(34, 1, Rule::Flag),
    row(35, 1, Rule::Flag),
    row(36, 1, Rule::Flag),
    row(37, 1, Rule::Flag),
    row(38, 1, Rule::Flag),
    row(39, 6, Rule::DiscountOrBlank),
    row(40, 1, Rule::Rounding),
    row(41, 3, Rule::Factor),
    row(42, 8, Rule::FirstDay),
    row(43, 2, Rule::NumberFrom(1)),
    row(44, 8, Rule::LastDay),
];

static RE_ROWS: [Row; 11] = [
    row(1, 4, Rule::NumberFrom(1)),
    row(2, 3, Rule::NumberFrom(1)),
    row(3, 30, Rule::Text),
    row(4, 30, Rule::Text),
    row(5, 30, Rule::Text),
    row(6, 30, Rule::Text),
    row(7, 30, Rule::Text),
    row(8, 265, Rule::Text),
    row(9, 8, Rule::FirstDay),
    row(10, 2, Rule::NumberFrom(1)),
    row(11, 8, Rule::LastDay),
];

static AR_ROWS: [Row; 13] = [
    row(1, 4, Rule::NumberFrom(1)),
    row(2, 5, Rule::NumberFrom(1)),
    row(3, 4, Rule::NumberFrom(0)),
    row(4, 3, Rule::NumberFrom(1)),
    row(5, 6, Rule::Discount),
    row(6, 1, Rule::Flag),
    row(7, 3, Rule::NumberFrom(1)),
    row(8, 1, Rule::Flag),
    row(9, 1, Rule::Rounding),
    row(10, 3, Rule::Factor),
    row(11, 8, Rule::FirstDay),
    row(12, 2, Rule::NumberFrom(1)),
    row(13, 8, Rule::LastDay),
];

static ME_ROWS: [Row; 11] = [
    row(1, 4, Rule::NumberFrom(1)),
    row(2, 5, Rule::NumberFrom(1)),
    row(3, 4, Rule::NumberFrom(0)),
    row(4, 240, Rule::Text),
    row(5, 240, Rule::Text),
    row(6, 240, Rule::Text),
    row(7, 240, Rule::Text),
    row(8, 240, Rule::Text),
    row(9, 8, Rule::FirstDay),
    row(10, 2, Rule::NumberFrom(1)),
    row(11, 8, Rule::LastDay),
];

impl Table {
    pub const ALL: [Table; 4] = [Table::Co, Table::Re, Table::Ar, Table::Me];

    pub fn mark(self) -> &'static str {
        match self {
            Table::Co => "CO",
            Table::Re => "RE",
            Table::Ar => "AR",
            Table::Me => "ME",
        }
    }

    pub fn of_mark(mark: &[u8]) -> Option<Table> {
        Table::ALL
            .into_iter()
            .find(|table| table.mark().as_bytes() == mark)
    }

    pub fn rows(self) -> &'static [Row] {
        match self {
            Table::Co => &CO_ROWS,
            Table::Re => &RE_ROWS,
            Table::Ar => &AR_ROWS,
            Table::Me => &ME_ROWS,
        }
    }

    pub fn record_length(self) -> usize {
        match self {
            Table::Co => 155,
            Table::Re => 440,
            Table::Ar => 49,
            Table::Me => 1231,
        }
    }

    /// Records that agree in these may not share a day.
    pub fn key_fields(self) -> &'static [u8] {
        match self {
            Table::Co => &[co::OFFER, co::RAILWAY],
            Table::Re => &[re::CODE],
            Table::Ar => &[ar::OFFER, ar::RAILWAY, ar::CODE],
            Table::Me => &[me::OFFER, me::RAILWAY],
        }
    }

    /// The first day and the last day.
    pub fn period_fields(self) -> (u8, u8) {
        match self {
            Table::Co => (co::FIRST_DAY, co::LAST_DAY),
            Table::Re => (re::FIRST_DAY, re::LAST_DAY),
            Table::Ar => (ar::FIRST_DAY, ar::LAST_DAY),
            Table::Me => (me::FIRST_DAY, me::LAST_DAY),
        }
    }

    pub fn rows_with_spans(self) -> impl Iterator<Item = (&'static Row, Range<usize>)> {
        self.rows().iter().scan(0, |start, row| {
            let span = *start..*start + row.width;
            *start = span.end;
            Some((row, span))
        })
    }

    pub fn span(self, field: u8) -> Range<usize> {
        self.rows_with_spans()
            .find(|(row, _)| row.field == field)
            .map(|(_, span)| span)
            .unwrap_or_else(|| panic!("{} has no field {field}", self.mark()))
    }
}

#[cfg(test)]
mod tests {
    use super::*;

    fn positions(table: Table, field: u8) -> (usize, usize) {
        let span = table.span(field);
        (span.start + 1, span.end)
    }

    #[test]
    fn rows_fill_each_record_exactly() {
        for table in Table::ALL {
            let filled: usize = table.rows().iter().map(|row| row.width).sum();
            assert_eq!(filled, table.record_length());
        }
    }

    #[test]
    fn there_are_fifty_seven_rows() {
        let counts = Table::ALL.map(|table| table.rows().len());
        assert_eq!(counts, [22, 11, 13, 11]);
    }

    #[test]
    fn field_numbers_rise_within_a_table() {
        for table in Table::ALL {
            assert!(table
                .rows()
                .windows(2)
                .all(|pair| pair[0].field < pair[1].field));
        }
    }

    #[test]
    fn each_table_has_the_period_that_its_rows_say() {
        for table in Table::ALL {
            let field_of = |rule| {
                let row = table.rows().iter().find(|row| row.rule == rule);
                row.unwrap().field
            };
            let due = (field_of(Rule::FirstDay), field_of(Rule::LastDay));
            assert_eq!(table.period_fields(), due);
        }
    }

    #[test]
    fn co_positions() {
        let expected = [
            (1, 1, 4),
            (2, 5, 9),
            (3, 10, 13),
            (4, 14, 113),
            (27, 114, 114),
            (28, 115, 116),
            (29, 117, 118),
            (30, 119, 119),
            (31, 120, 120),
            (32, 121, 121),
            (33, 122, 122),
            (34, 123, 123),
            (35, 124, 124),
            (36, 125, 125),
            (37, 126, 126),
            (38, 127, 127),
            (39, 128, 133),
            (40, 134, 134),
            (41, 135, 137),
            (42, 138, 145),
            (43, 146, 147),
            (44, 148, 155),
        ];
        assert_positions(Table::Co, &expected);
    }

    #[test]
    fn re_positions() {
        let expected = [
            (1, 1, 4),
            (2, 5, 7),
            (3, 8, 37),
            (4, 38, 67),
            (5, 68, 97),
            (6, 98, 127),
            (7, 128, 157),
            (8, 158, 422),
            (9, 423, 430),
            (10, 431, 432),
            (11, 433, 440),
        ];
        assert_positions(Table::Re, &expected);
    }

    #[test]
    fn ar_positions() {
        let expected = [
            (1, 1, 4),
            (2, 5, 9),
            (3, 10, 13),
            (4, 14, 16),
            (5, 17, 22),
            (6, 23, 23),
            (7, 24, 26),
            (8, 27, 27),
            (9, 28, 28),
            (10, 29, 31),
            (11, 32, 39),
            (12, 40, 41),
            (13, 42, 49),
        ];
        assert_positions(Table::Ar, &expected);
    }

    #[test]
    fn me_positions() {
        let expected = [
            (1, 1, 4),
            (2, 5, 9),
            (3, 10, 13),
            (4, 14, 253),
            (5, 254, 493),
            (6, 494, 733),
            (7, 734, 973),
            (8, 974, 1213),
            (9, 1214, 1221),
            (10, 1222, 1223),
            (11, 1224, 1231),
        ];
        assert_positions(Table::Me, &expected);
    }

    fn assert_positions(table: Table, expected: &[(u8, usize, usize)]) {
        assert_eq!(expected.len(), table.rows().len());
        for &(field, first, last) in expected {
            assert_eq!(positions(table, field), (first, last), "field {field}");
        }
    }
}
