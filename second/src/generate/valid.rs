//! Renders "The bundle" and "Keys and links" as a maker of bundles that keep every rule.

use super::drafts::{assemble, decimal, Draft};
use super::periods::{some_of, timetable};
use super::random::Random;
use crate::calendar;
use crate::layout::{ar, co, me, re, Row, Rule, Table, TRANSFEROR};
use crate::period::Period;

pub fn valid_bundle(random: &mut Random) -> Vec<u8> {
    assemble(&valid_drafts(random))
}

/// Of one offer with several cards, most of which apply to a leg.
pub fn valid_bundle_with_cards(random: &mut Random) -> Vec<u8> {
    let world = World::drawn_for_cards(random);
    assemble(&world.drafts(random))
}

pub fn valid_drafts(random: &mut Random) -> Vec<Draft> {
    let world = World::drawn(random);
    world.drafts(random)
}

/// Traits that the records of one bundle share, so that questions can be met by many of them.
pub struct Habits {
    transferor: u64,
    /// The seasons that its records are for, if it has any.
    timetable: Vec<Period>,
    periods_scatter: bool,
    persons_narrow_one_in: u64,
    unread_flag_one_in: u64,
    /// What field 6 of AR is drawn from.
    cumulative: &'static [u8],
    ratings: (u64, u64),
}

impl Habits {
    pub fn drawn(random: &mut Random) -> Habits {
        Habits {
            transferor: random.between_with_ends(1, 9999),
            timetable: drawn_timetable(random),
            periods_scatter: random.one_in(5),
            persons_narrow_one_in: random.pick(&[1, 4, 20]),
            unread_flag_one_in: random.pick(&[4, 40, 400, 400]),
            cumulative: random.pick(&[b"Y", b"YN", b"YYYN", b"YNNN"]),
            ratings: random.pick(&[(1, 999), (1, 999), (500, 502), (7, 7), (999, 999)]),
        }
    }

    pub fn of_house(random: &mut Random, transferor: u64) -> Habits {
        Habits {
            transferor,
            ..Habits::drawn(random)
        }
    }

    /// For the records of one key.
    fn drawn_periods(&self, random: &mut Random) -> Vec<Period> {
        match self.timetable.is_empty() {
            true => vec![drawn_period(random, self)],
            false => some_of(random, &self.timetable),
        }
    }
}

fn drawn_timetable(random: &mut Random) -> Vec<Period> {
    let seasons = random.pick(&[0, 0, 0, 0, 2, 2, 3, 4]);
    timetable(random, seasons)
}

struct World {
    habits: Habits,
    offers: Vec<u64>,
    railways: Vec<u64>,
    codes: Vec<u64>,
    additional_lacks_one_in: u64,
}

impl World {
    fn drawn(random: &mut Random) -> World {
        let offers = random.pick(&[0, 1, 1, 2, 2, 3, 4]);
        let codes = random.pick(&[0, 1, 2, 3, 4, 5]);
        World {
            habits: Habits::drawn(random),
            offers: distinct(random, offers, |random| random.between_with_ends(1, 99_999)),
            railways: drawn_railways(random),
            codes: distinct(random, codes, |random| random.between_with_ends(1, 999)),
            additional_lacks_one_in: random.pick(&[2, 2, 8]),
        }
    }

    fn drawn_for_cards(random: &mut Random) -> World {
        let railways = random.between(1, 2);
        let mut railways = distinct(random, railways, |random| random.between(1, 9999));
        railways.push(0);
        World {
            habits: Habits {
                persons_narrow_one_in: 20,
                unread_flag_one_in: 400,
                ..Habits::drawn(random)
            },
            offers: vec![random.between_with_ends(1, 99_999)],
            railways,
            codes: distinct(random, 5, |random| random.between_with_ends(1, 999)),
            additional_lacks_one_in: random.pick(&[2, 8]),
        }
    }

    fn drafts(&self, random: &mut Random) -> Vec<Draft> {
        let mut drafts = self.discount_types(random);
        for &offer in &self.offers {
            drafts.extend(self.records_of_offer(random, offer));
        }
        raise_served_flags(random, &mut drafts);
        arrange(random, &mut drafts);
        drafts
    }

    fn discount_types(&self, random: &mut Random) -> Vec<Draft> {
        self.codes
            .iter()
            .flat_map(|&code| self.records(random, Table::Re, &[(re::CODE, code)]))
            .collect()
    }

    fn records_of_offer(&self, random: &mut Random, offer: u64) -> Vec<Draft> {
        let sure = random.pick(&self.railways);
        let mut drafts = Vec::new();
        for &railway in &self.railways {
            if railway == sure || random.one_in(2) {
                let key = [(co::OFFER, offer), (co::RAILWAY, railway)];
                drafts.extend(self.records(random, Table::Co, &key));
            }
            for &code in &self.codes {
                if !random.one_in(self.additional_lacks_one_in) {
                    let key = [(ar::OFFER, offer), (ar::RAILWAY, railway), (ar::CODE, code)];
                    drafts.extend(self.records(random, Table::Ar, &key));
                }
            }
            if random.one_in(7) {
                let key = [(me::OFFER, offer), (me::RAILWAY, railway)];
                drafts.extend(self.records(random, Table::Me, &key));
            }
        }
        drafts
    }

    fn records(&self, random: &mut Random, table: Table, key: &[(u8, u64)]) -> Vec<Draft> {
        let periods = self.habits.drawn_periods(random).into_iter();
        let of_period = |period| {
            let mut draft = drawn_record(random, table, &self.habits);
            for &(field, number) in key {
                draft.write_number(field, number);
            }
            draft.write_period(period);
            draft
        };
        periods.map(of_period).collect()
    }
}

fn drawn_railways(random: &mut Random) -> Vec<u64> {
    let count = random.between(1, 5);
    distinct(random, count, |random| match random.below(6) {
        0 | 1 => 0,
        2 => random.pick(&[1185, 1181]),
        _ => random.between_with_ends(1, 9999),
    })
}

pub fn distinct(random: &mut Random, count: u64, draw: impl Fn(&mut Random) -> u64) -> Vec<u64> {
    let mut numbers = Vec::new();
    while (numbers.len() as u64) < count {
        let number = draw(random);
        if !numbers.contains(&number) {
            numbers.push(number);
        }
    }
    numbers
}

fn raise_served_flags(random: &mut Random, drafts: &mut [Draft]) {
    for place in 0..drafts.len() {
        if drafts[place].table != Table::Co {
            continue;
        }
        for (flag, target) in [(co::ADDITIONAL_DISCOUNTS, Table::Ar), (co::MEMO, Table::Me)] {
            if is_served(drafts, &drafts[place], target) && !random.one_in(4) {
                drafts[place].write(flag, b"Y");
            }
        }
    }
}

fn is_served(drafts: &[Draft], conditions: &Draft, target: Table) -> bool {
    let railway = conditions.number(co::RAILWAY);
    drafts
        .iter()
        .filter(|draft| draft.table == target)
        .filter(|draft| draft.number(ar::OFFER) == conditions.number(co::OFFER))
        .map(|draft| draft.number(ar::RAILWAY))
        .any(|place| railway == 0 || place == 0 || place == railway)
}

fn arrange(random: &mut Random, drafts: &mut [Draft]) {
    match random.below(6) {
        0 => (),
        1 => drafts.reverse(),
        _ => random.shuffle(drafts),
    }
}

/// Keeps every rule of its table; flags 33 and 37 are N.
pub fn drawn_record(random: &mut Random, table: Table, habits: &Habits) -> Draft {
    let mut draft = Draft::blank(table);
    let persons = drawn_persons(random, habits);
    let rounding = random.pick(b"+-0N");
    let period = drawn_period(random, habits);
    for row in table.rows() {
        let value = match row.rule {
            Rule::Text => drawn_text(random, row.width),
            Rule::NumberFrom(least) => drawn_number(random, row, least),
            Rule::Flag | Rule::FlagOrBlank => vec![drawn_flag(random, table, row, habits)],
            Rule::LeastPersons => persons.0.clone(),
            Rule::MostPersons => persons.1.clone(),
            Rule::Discount => drawn_discount(random),
            Rule::DiscountOrBlank if random.one_in(5) => vec![b' '; row.width],
            Rule::DiscountOrBlank => drawn_discount(random),
            Rule::Rounding => vec![rounding],
            Rule::Factor => drawn_factor(random, rounding),
            Rule::FirstDay => decimal(period.first, 8),
            Rule::LastDay => decimal(period.last, 8),
        };
        draft.write(row.field, &value);
    }
    draft.write_number(TRANSFEROR, habits.transferor);
    if table == Table::Ar {
        write_card_habits(random, &mut draft, habits);
    }
    draft
}

fn write_card_habits(random: &mut Random, draft: &mut Draft, habits: &Habits) {
    let (least, most) = habits.ratings;
    draft.write_number(ar::RATING, random.between_with_ends(least, most));
    draft.write(ar::CUMULATIVE, &[random.pick(habits.cumulative)]);
}

fn drawn_number(random: &mut Random, row: &Row, least: u64) -> Vec<u8> {
    let most = 10u64.pow(row.width as u32) - 1;
    decimal(random.between_with_ends(least, most), row.width)
}

fn drawn_flag(random: &mut Random, table: Table, row: &Row, habits: &Habits) -> u8 {
    let is_unread = table == Table::Co && co::UNREAD_CONDITIONS.contains(&row.field);
    let needs_link =
        table == Table::Co && [co::ADDITIONAL_DISCOUNTS, co::MEMO].contains(&row.field);
    if is_unread && random.one_in(habits.unread_flag_one_in) {
        b'Y'
    } else if is_unread || needs_link {
        let may_be_blank = row.rule == Rule::FlagOrBlank;
        random.pick(if may_be_blank { b"N " } else { b"NN" })
    } else {
        random.pick(b"YN")
    }
}

pub fn drawn_text(random: &mut Random, width: usize) -> Vec<u8> {
    match random.below(7) {
        0 | 1 => vec![b' '; width],
        2 => vec![random.pick(&[32, 33, 126, 160, 161, 255]); width],
        3 => left_justified_words(random, width),
        4 => (0..width).map(|_| random.between(160, 255) as u8).collect(),
        _ => (0..width).map(|_| drawn_text_byte(random)).collect(),
    }
}

pub fn drawn_text_byte(random: &mut Random) -> u8 {
    match random.below(95 + 96) {
        low @ 0..=94 => 32 + low as u8,
        high => 160 + (high - 95) as u8,
    }
}

fn left_justified_words(random: &mut Random, width: usize) -> Vec<u8> {
    let words: [&[u8]; 5] = [
        b"Gen\xE8ve",
        b"Z\xFCrich",
        b"Praha",
        b"50 \xBD",
        b"CO RE AR ME",
    ];
    let mut text = Vec::new();
    for _ in 0..random.below(4) {
        text.extend_from_slice(random.pick(&words));
        text.push(b' ');
    }
    text.resize(width, b' ');
    text
}

fn drawn_persons(random: &mut Random, habits: &Habits) -> (Vec<u8>, Vec<u8>) {
    let narrow = [
        ("  ", "01"),
        ("00", "01"),
        ("01", "01"),
        ("02", "  "),
        ("02", "05"),
        ("06", "99"),
        ("97", "98"),
        ("98", "98"),
        ("99", "99"),
        ("99", "  "),
    ];
    let wide = [
        ("  ", "  "),
        ("00", "99"),
        ("01", "99"),
        ("  ", "99"),
        ("00", "  "),
    ];
    if !random.one_in(habits.persons_narrow_one_in) {
        return as_bytes(random.pick(&wide));
    }
    if random.one_in(2) {
        return as_bytes(random.pick(&narrow));
    }
    let most = random.between(1, 99);
    let least = random.between(0, most);
    (decimal(least, 2), decimal(most, 2))
}

fn as_bytes(pair: (&str, &str)) -> (Vec<u8>, Vec<u8>) {
    (pair.0.as_bytes().to_vec(), pair.1.as_bytes().to_vec())
}

fn drawn_discount(random: &mut Random) -> Vec<u8> {
    let discount = match random.below(3) {
        0 => random.pick(&[0, 1, 25_000, 30_000, 50_000, 50_001, 99_999, 100_000]),
        1 => random.between(0, 100) * 1000,
        _ => random.between(0, 100_000),
    };
    decimal(discount, 6)
}

fn drawn_factor(random: &mut Random, rounding: u8) -> Vec<u8> {
    let least = u64::from(rounding != b'N');
    let factor = match random.below(3) {
        0 => random.pick(&[1, 2, 5, 10, 50, 100, 997, 998, 999]),
        _ => random.between_with_ends(least, 999),
    };
    decimal(factor, 3)
}

fn drawn_period(random: &mut Random, habits: &Habits) -> Period {
    if !habits.timetable.is_empty() {
        return random.pick(&habits.timetable);
    }
    let (first, last) = drawn_days(random, habits);
    Period::of(first, last)
}

fn drawn_days(random: &mut Random, habits: &Habits) -> (u64, u64) {
    let edges = [
        (calendar::FIRST_DAY, calendar::FIRST_DAY),
        (calendar::LAST_DAY, calendar::LAST_DAY),
        (20000229, 21000228),
        (20231231, 20240101),
        (16000229, 20240229),
        (20240229, 20240229),
        (20240228, 20240301),
    ];
    match random.below(6) {
        0 if habits.periods_scatter => random.pick(&edges),
        1 | 2 if habits.periods_scatter => {
            let first = drawn_day(random, calendar::FIRST_DAY, calendar::LAST_DAY);
            (first, drawn_day(random, first, calendar::LAST_DAY))
        }
        3 => (calendar::FIRST_DAY, calendar::LAST_DAY),
        4 => (
            drawn_day(random, 20230101, 20240110),
            drawn_day(random, 20240601, 20251231),
        ),
        _ => (20240101, 20241231),
    }
}

pub fn drawn_day(random: &mut Random, first: u64, last: u64) -> u64 {
    let years = (first / 10_000, last / 10_000);
    for _ in 0..40 {
        let year = random.between(years.0, years.1);
        let month = random.between(1, 12);
        let day_of_month = random.between_with_ends(1, calendar::days_in_month(year, month));
        let day = calendar::join(year, month, day_of_month);
        if (first..=last).contains(&day) {
            return day;
        }
    }
    random.pick(&[first, last])
}

/// A good bundle of exactly the given size, from about ten thousand bytes upwards.
pub fn sized_bundle(random: &mut Random, size: usize) -> Vec<u8> {
    let share = random.pick(&[0, 50, 90, 100]);
    sized_bundle_with_memos(random, size, share)
}

pub fn sized_bundle_with_memos(random: &mut Random, size: usize, percent: usize) -> Vec<u8> {
    let habits = Habits::drawn(random);
    let counts = SizedCounts::for_size(size, percent);
    let numbered = |random: &mut Random, table, key: &[(u8, u64)]| {
        let mut draft = drawn_record(random, table, &habits);
        for &(field, number) in key {
            draft.write_number(field, number);
        }
        draft
    };
    let mut drafts = Vec::new();
    for code in 1..=SizedCounts::DISCOUNT_TYPES {
        drafts.push(numbered(random, Table::Re, &[(re::CODE, code)]));
    }
    for railway in 0..counts.conditions {
        let key = [(co::OFFER, 1), (co::RAILWAY, railway)];
        drafts.push(numbered(random, Table::Co, &key));
    }
    for railway in 0..counts.memos {
        let key = [(me::OFFER, 1), (me::RAILWAY, railway)];
        drafts.push(numbered(random, Table::Me, &key));
    }
    for place in 0..counts.additional {
        let (code, railway) = (1 + place / 10_000, place % 10_000);
        let key = [(ar::OFFER, 1), (ar::RAILWAY, railway), (ar::CODE, code)];
        drafts.push(numbered(random, Table::Ar, &key));
    }
    arrange(random, &mut drafts);
    assemble(&drafts)
}

struct SizedCounts {
    conditions: u64,
    memos: u64,
    additional: u64,
}

impl SizedCounts {
    const DISCOUNT_TYPES: u64 = 3;

    /// 157 and 51 have no common divisor, so 1 to 51 conditions reach every size.
    fn for_size(size: usize, memo_percent: usize) -> SizedCounts {
        let lengths = Table::ALL.map(|table| 2 + table.record_length() as u64);
        let [co_length, re_length, ar_length, me_length] = lengths;
        let after_types = size as u64 - Self::DISCOUNT_TYPES * re_length;
        let for_memos = (after_types - 51 * co_length) * memo_percent as u64 / 100;
        let memos = for_memos / me_length;
        let left = after_types - memos * me_length;
        let conditions = (1..=51)
            .find(|count| (left - count * co_length).is_multiple_of(ar_length))
            .expect("one of 51 rests fits");
        SizedCounts {
            conditions,
            memos,
            additional: (left - conditions * co_length) / ar_length,
        }
    }
}

#[cfg(test)]
mod tests {
    use super::*;
    use crate::bundle::LONGEST_BUNDLE;
    use crate::verdict::{verdict, Verdict};

    #[test]
    fn valid_bundles_are_accepted_with_their_count() {
        let mut random = Random::from_seed(11);
        for _ in 0..500 {
            let drafts = valid_drafts(&mut random);
            assert_eq!(
                verdict(&assemble(&drafts)),
                Verdict::Accepted(drafts.len() as u64)
            );
            let bundle = valid_bundle_with_cards(&mut random);
            assert!(matches!(verdict(&bundle), Verdict::Accepted(_)));
        }
    }

    #[test]
    fn sized_bundles_are_good_up_to_the_limit() {
        let mut random = Random::from_seed(12);
        for (size, percent) in [
            (20_000, 50),
            (65_536, 0),
            (LONGEST_BUNDLE - 1, 90),
            (LONGEST_BUNDLE, 0),
            (LONGEST_BUNDLE, 100),
        ] {
            let bundle = sized_bundle_with_memos(&mut random, size, percent);
            assert_eq!(bundle.len(), size);
            assert!(matches!(verdict(&bundle), Verdict::Accepted(_)));
        }
        let bundle = sized_bundle(&mut random, LONGEST_BUNDLE + 1);
        assert_eq!(bundle.len(), LONGEST_BUNDLE + 1);
        assert_eq!(
            verdict(&bundle),
            Verdict::Refused {
                number: 1,
                place: 0,
                detail: 0
            }
        );
    }

    #[test]
    fn text_reaches_every_allowed_byte() {
        let mut random = Random::from_seed(13);
        let mut seen = [false; 256];
        for _ in 0..20_000 {
            seen[usize::from(drawn_text_byte(&mut random))] = true;
        }
        for (byte, &seen) in seen.iter().enumerate() {
            let allowed = (32..=126).contains(&byte) || byte >= 160;
            assert_eq!(seen, allowed, "{byte}");
        }
    }

    #[test]
    fn drawn_days_are_real_and_between() {
        let mut random = Random::from_seed(14);
        for _ in 0..2000 {
            let first = drawn_day(&mut random, calendar::FIRST_DAY, calendar::LAST_DAY);
            let last = drawn_day(&mut random, first, calendar::LAST_DAY);
            assert!(calendar::is_real_day(first) && calendar::is_real_day(last));
            assert!(first <= last);
        }
    }
}
