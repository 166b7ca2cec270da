//! Renders "Values" of "The bundle": what each row of a record may hold.

use crate::bundle::Record;
use crate::calendar::is_real_day;
use crate::layout::Rule;

pub const NO_LEAST_PERSONS: u64 = 0;
pub const NO_MOST_PERSONS: u64 = 99;
pub const WHOLE_DISCOUNT: u64 = 100_000;

pub fn first_broken_field(record: &Record) -> Option<u8> {
    let mut earlier = Earlier::default();
    record
        .table
        .rows_with_spans()
        .find(|(row, span)| !keeps_rule(row.rule, &record.bytes[span.clone()], &mut earlier))
        .map(|(row, _)| row.field)
}

pub fn digits(value: &[u8]) -> Option<u64> {
    value.iter().try_fold(0, |number, byte| match byte {
        b'0'..=b'9' => Some(number * 10 + u64::from(byte - b'0')),
        _ => None,
    })
}

/// Values of the record at hand that rules of later fields look back to.
#[derive(Default)]
struct Earlier {
    least_persons: u64,
    rounding: u8,
    first_day: u64,
}

fn keeps_rule(rule: Rule, value: &[u8], earlier: &mut Earlier) -> bool {
    match rule {
        Rule::Text => value.iter().copied().all(is_text_byte),
        Rule::NumberFrom(least) => digits(value).is_some_and(|number| number >= least),
        Rule::Flag => matches!(value, b"Y" | b"N"),
        Rule::FlagOrBlank => matches!(value, b"Y" | b"N" | b" "),
        Rule::LeastPersons => keep(
            digits_or_blank(value, NO_LEAST_PERSONS),
            &mut earlier.least_persons,
        ),
        Rule::MostPersons => digits_or_blank(value, NO_MOST_PERSONS)
            .is_some_and(|most| is_most_for(most, earlier.least_persons)),
        Rule::Discount => digits(value).is_some_and(|discount| discount <= WHOLE_DISCOUNT),
        Rule::DiscountOrBlank => {
            digits_or_blank(value, 0).is_some_and(|discount| discount <= WHOLE_DISCOUNT)
        }
        Rule::Rounding => {
            earlier.rounding = value[0];
            b"+-0N".contains(&value[0])
        }
        Rule::Factor => digits(value).is_some_and(|factor| factor > 0 || earlier.rounding == b'N'),
        Rule::FirstDay => keep(real_day(value), &mut earlier.first_day),
        Rule::LastDay => real_day(value).is_some_and(|day| day >= earlier.first_day),
    }
}

fn keep(number: Option<u64>, memory: &mut u64) -> bool {
    *memory = number.unwrap_or(0);
    number.is_some()
}

fn is_text_byte(byte: u8) -> bool {
    matches!(byte, 32..=126 | 160..=255)
}

fn is_blank(value: &[u8]) -> bool {
    value.iter().all(|&byte| byte == b' ')
}

fn digits_or_blank(value: &[u8], meaning_of_blank: u64) -> Option<u64> {
    if is_blank(value) {
        Some(meaning_of_blank)
    } else {
        digits(value)
    }
}

fn is_most_for(most: u64, least: u64) -> bool {
    most == NO_MOST_PERSONS || (most >= 1 && least <= most)
}

fn real_day(value: &[u8]) -> Option<u64> {
    digits(value).filter(|&day| is_real_day(day))
}

#[cfg(test)]
mod tests {
    use super::*;
    use crate::generate::drafts::Draft;
    use crate::layout::Table;

    fn broken(table: Table, writes: &[(u8, &[u8])]) -> Option<u8> {
        let mut draft = Draft::plain(table);
        for (field, value) in writes {
            draft.write(*field, value);
        }
        first_broken_field(&draft.record())
    }

    fn co(writes: &[(u8, &[u8])]) -> Option<u8> {
        broken(Table::Co, writes)
    }

    fn ar(writes: &[(u8, &[u8])]) -> Option<u8> {
        broken(Table::Ar, writes)
    }

    #[test]
    fn plain_records_keep_every_rule() {
        for table in Table::ALL {
            assert_eq!(broken(table, &[]), None);
        }
    }

    #[test]
    fn ends_of_numbers() {
        assert_eq!(co(&[(1, b"0000")]), Some(1));
        assert_eq!(co(&[(1, b"0001")]), None);
        assert_eq!(co(&[(1, b"9999")]), None);
        assert_eq!(co(&[(2, b"00000")]), Some(2));
        assert_eq!(co(&[(2, b"00001")]), None);
        assert_eq!(co(&[(2, b"99999")]), None);
        assert_eq!(co(&[(3, b"0000")]), None);
        assert_eq!(co(&[(3, b"9999")]), None);
        assert_eq!(co(&[(43, b"00")]), Some(43));
        assert_eq!(co(&[(43, b"01")]), None);
        assert_eq!(co(&[(43, b"99")]), None);
        assert_eq!(ar(&[(4, b"000")]), Some(4));
        assert_eq!(ar(&[(4, b"001")]), None);
        assert_eq!(ar(&[(7, b"000")]), Some(7));
        assert_eq!(ar(&[(7, b"999")]), None);
        assert_eq!(broken(Table::Re, &[(2, b"000")]), Some(2));
        assert_eq!(broken(Table::Re, &[(2, b"999")]), None);
        assert_eq!(broken(Table::Me, &[(10, b"00")]), Some(10));
    }

    #[test]
    fn digits_are_bytes_48_to_57() {
        assert_eq!(digits(b"0189"), Some(189));
        for byte in [b' ', b'/', b':', b'+', b'-', 160, 178, 179, 185, 0] {
            assert_eq!(digits(&[b'1', byte]), None);
            assert_eq!(digits(&[byte, b'1']), None);
        }
    }

    #[test]
    fn series_digit_is_any_digit_and_never_blank() {
        for digit in b'0'..=b'9' {
            assert_eq!(co(&[(30, &[digit])]), None);
        }
        assert_eq!(co(&[(30, b" ")]), Some(30));
        assert_eq!(co(&[(30, b"A")]), Some(30));
    }

    #[test]
    fn text_bytes() {
        for byte in 0..=255u8 {
            let good = (32..=126).contains(&byte) || byte >= 160;
            let mut text = [b' '; 100];
            text[99] = byte;
            assert_eq!(co(&[(4, &text)]), if good { None } else { Some(4) });
        }
    }

    #[test]
    fn blank_text_passes_everywhere() {
        let text = [b' '; 265];
        for table in Table::ALL {
            for row in table.rows().iter().filter(|row| row.rule == Rule::Text) {
                assert_eq!(broken(table, &[(row.field, &text[..row.width])]), None);
            }
        }
    }

    #[test]
    fn only_field_27_may_be_blank_among_flags() {
        assert_eq!(co(&[(27, b" ")]), None);
        for field in 31..=38 {
            assert_eq!(co(&[(field, b" ")]), Some(field));
            assert_eq!(co(&[(field, b"Y")]), None);
            assert_eq!(co(&[(field, b"y")]), Some(field));
        }
        for field in [6, 8] {
            assert_eq!(ar(&[(field, b" ")]), Some(field));
            assert_eq!(ar(&[(field, b"Y")]), None);
            assert_eq!(ar(&[(field, b"N")]), None);
            assert_eq!(ar(&[(field, b"1")]), Some(field));
        }
    }

    #[test]
    fn a_no_break_space_is_no_blank() {
        assert_eq!(co(&[(27, &[160])]), Some(27));
        assert_eq!(co(&[(28, &[160, 160])]), Some(28));
        assert_eq!(co(&[(39, &[160; 6])]), Some(39));
        assert_eq!(co(&[(39, &[0; 6])]), Some(39));
    }

    #[test]
    fn blanks_in_28_and_29_stand_each_for_itself() {
        assert_eq!(co(&[(28, b"  "), (29, b"  ")]), None);
        assert_eq!(co(&[(28, b"  "), (29, b"01")]), None);
        assert_eq!(co(&[(28, b"99"), (29, b"  ")]), None);
        assert_eq!(co(&[(28, b" 1")]), Some(28));
        assert_eq!(co(&[(28, b"1 ")]), Some(28));
        assert_eq!(co(&[(29, b" 1")]), Some(29));
        assert_eq!(co(&[(29, b"1 ")]), Some(29));
    }

    #[test]
    fn least_over_most() {
        assert_eq!(co(&[(28, b"05"), (29, b"04")]), Some(29));
        assert_eq!(co(&[(28, b"04"), (29, b"04")]), None);
        assert_eq!(co(&[(28, b"99"), (29, b"98")]), Some(29));
        assert_eq!(co(&[(28, b"99"), (29, b"99")]), None);
        assert_eq!(co(&[(28, b"00"), (29, b"00")]), Some(29));
        assert_eq!(co(&[(28, b"  "), (29, b"00")]), Some(29));
        assert_eq!(co(&[(28, b"5X"), (29, b"04")]), Some(28));
    }

    #[test]
    fn discounts() {
        assert_eq!(co(&[(39, b"100000")]), None);
        assert_eq!(co(&[(39, b"100001")]), Some(39));
        assert_eq!(co(&[(39, b"      ")]), None);
        assert_eq!(co(&[(39, b" 25000")]), Some(39));
        assert_eq!(ar(&[(5, b"100000")]), None);
        assert_eq!(ar(&[(5, b"100001")]), Some(5));
        assert_eq!(ar(&[(5, b"      ")]), Some(5));
        assert_eq!(ar(&[(5, b"000000")]), None);
    }

    #[test]
    fn rounding_bytes() {
        for byte in 0..=255u8 {
            let good = b"+-0N".contains(&byte);
            let expected = |field| if good { None } else { Some(field) };
            assert_eq!(co(&[(40, &[byte]), (41, b"010")]), expected(40));
            assert_eq!(ar(&[(9, &[byte]), (10, b"010")]), expected(9));
        }
    }

    #[test]
    fn factor_000_only_under_n() {
        for mode in [b"+", b"-", b"0"] {
            assert_eq!(co(&[(40, mode), (41, b"000")]), Some(41));
            assert_eq!(co(&[(40, mode), (41, b"001")]), None);
            assert_eq!(ar(&[(9, mode), (10, b"000")]), Some(10));
        }
        for digits in [b"000", b"001", b"999"] {
            assert_eq!(co(&[(40, b"N"), (41, digits)]), None);
        }
        for value in [b"   ", b"00A", b" 50"] {
            assert_eq!(co(&[(40, b"N"), (41, value)]), Some(41));
            assert_eq!(ar(&[(9, b"N"), (10, value)]), Some(10));
        }
    }

    #[test]
    fn a_bad_rounding_byte_is_told_before_its_factor() {
        assert_eq!(co(&[(40, b"X"), (41, b"000")]), Some(40));
        assert_eq!(ar(&[(9, b" "), (10, b"   ")]), Some(9));
    }

    #[test]
    fn days_of_a_period() {
        let period = |first, last| co(&[(42, first), (44, last)]);
        assert_eq!(period(b"20240229", b"20240229"), None);
        assert_eq!(period(b"20240301", b"20240229"), Some(44));
        assert_eq!(period(b"15830101", b"99991231"), None);
        assert_eq!(period(b"15821231", b"99991231"), Some(42));
        assert_eq!(period(b"20230229", b"20240229"), Some(42));
        assert_eq!(period(b"20240229", b"21000229"), Some(44));
        assert_eq!(period(b"        ", b"20240229"), Some(42));
        assert_eq!(period(b"20240229", b"        "), Some(44));
    }

    #[test]
    fn a_bad_version_is_told_between_the_days() {
        let days = [(42, &b"20240102"[..]), (44, b"20240101")];
        assert_eq!(co(&[days[0], (43, b"00"), days[1]]), Some(43));
        assert_eq!(co(&[(42, b"20241301"), (43, b"00"), days[1]]), Some(42));
    }

    #[test]
    fn dates_of_all_tables_are_checked() {
        for (table, last) in [(Table::Re, 11), (Table::Ar, 13), (Table::Me, 11)] {
            assert_eq!(broken(table, &[(last - 2, b"20240431")]), Some(last - 2));
            assert_eq!(broken(table, &[(last, b"20231231")]), Some(last));
        }
    }
}
