//! Renders R-2 as a table of the records of one key that were judged, by how their periods lie.

use std::collections::HashMap;

use super::{group, Coverage, Group, ANSWERED};
use crate::against::wire::Answer;
use crate::bundle::{readable_records, Key, Record};
use crate::calendar::day_after;
use crate::generate::clashes::Clash;
use crate::generate::crowded::seasonal::{Above, InOrder, OfOneKey, Seasonal};
use crate::generate::overlaps::Overlap;
use crate::layout::Table;
use crate::period::Period;

const TOUCHING: &str = "touching";
const ONE_DAY_BETWEEN: &str = "one day between";
const APART: &str = "apart";
const LATER_FIRST: &str = "later first";
const IN_ORDER: &str = "in order";
const THREE_OR_MORE: &str = "three or more";
const ACCEPTED_KEYS: [&str; 6] = [
    TOUCHING,
    ONE_DAY_BETWEEN,
    APART,
    LATER_FIRST,
    IN_ORDER,
    THREE_OR_MORE,
];
const NOT_THE_EARLIEST: &str = "first in place, not in time";
const SEASONAL_KEY: &str = "seasons, 6 of";
const SEASONAL_CLASH: &str = "seasons, 6 with";
const SEASONAL_CLASHES: [Clash; 3] = [Clash::FirstAlone, Clash::LaterAlone, Clash::FirstAndOthers];
const SEASONAL_ANSWERS: [&str; 5] = [ANSWERED, "6", "priced", "12", "13"];

/// Of one key, in their order.
struct Family {
    earlier: Vec<Period>,
    last: Period,
}

impl Family {
    /// Of the record at that place and of those before it.
    fn at(records: &[Record], place: usize) -> Family {
        let record = records[place];
        let key = record.key();
        let of_key = records[..place].iter().filter(|other| other.key() == key);
        Family {
            earlier: of_key.map(Record::period).collect(),
            last: record.period(),
        }
    }

    fn shares(&self) -> Vec<bool> {
        let with_last = |earlier: &Period| earlier.shares_a_day_with(&self.last);
        self.earlier.iter().map(with_last).collect()
    }

    fn clash(&self) -> Clash {
        Clash::of(&self.shares())
    }

    fn clashing(&self) -> impl Iterator<Item = &Period> {
        let clashes = |earlier: &&Period| earlier.shares_a_day_with(&self.last);
        self.earlier.iter().filter(clashes)
    }
}

impl Coverage {
    pub(super) fn note_keys(&mut self, bundle: &[u8], answer: &Answer) {
        let records = readable_records(bundle);
        match answer.number {
            0 => self.note_accepted_keys(&records),
            6 => self.note_clash(&records, answer.place as usize),
            _ => (),
        }
    }

    fn note_clash(&mut self, records: &[Record], place: usize) {
        let table = records[place].table;
        let family = Family::at(records, place);
        self.meet(&clash_group(table), family.clash().word());
        let clashing: Vec<&Period> = family.clashing().collect();
        let Some(first) = clashing.first() else {
            return;
        };
        if let Some(overlap) = Overlap::of(&family.last, first) {
            self.meet(&overlap_group(table), overlap.word());
        }
        if clashing.iter().any(|other| other < first) {
            self.meet(&clash_group(table), NOT_THE_EARLIEST);
        }
    }

    fn note_accepted_keys(&mut self, records: &[Record]) {
        let mut families: HashMap<Key, Vec<Period>> = HashMap::new();
        for record in records {
            let periods = families.entry(record.key()).or_default();
            periods.push(record.period());
        }
        for ((table, _), periods) in families {
            self.note_accepted_family(table, &periods);
        }
    }

    fn note_accepted_family(&mut self, table: Table, periods: &[Period]) {
        if periods.len() < 2 {
            return;
        }
        let group = accepted_group(table);
        if periods.len() > 2 {
            self.meet(&group, THREE_OR_MORE);
        }
        let is_in_order = periods.is_sorted();
        self.meet(&group, if is_in_order { IN_ORDER } else { LATER_FIRST });
        let mut by_day = periods.to_vec();
        by_day.sort_unstable();
        for pair in by_day.windows(2) {
            self.meet(&group, distance(&pair[0], &pair[1]));
        }
    }

    pub fn note_seasonal(&mut self, seasonal: &Seasonal, judged: &Answer) {
        let told = match judged.number {
            0 => ANSWERED.to_string(),
            number => number.to_string(),
        };
        self.meet_seasonal(seasonal, &told);
        if judged.number != 6 {
            return;
        }
        let records = readable_records(&seasonal.bundle);
        let place = judged.place as usize;
        self.meet(SEASONAL_KEY, records[place].table.mark());
        self.meet(SEASONAL_CLASH, Family::at(&records, place).clash().word());
    }

    pub fn note_seasonal_fare(&mut self, seasonal: &Seasonal, fare: &Answer) {
        let told = match fare.number {
            0 => "priced".to_string(),
            number => number.to_string(),
        };
        self.meet_seasonal(seasonal, &told);
    }

    fn meet_seasonal(&mut self, seasonal: &Seasonal, told: &str) {
        for word in seasonal.words() {
            self.meet(&seasonal_group(word), told);
        }
    }
}

fn distance(before: &Period, behind: &Period) -> &'static str {
    let next = day_after(before.last);
    match behind.first {
        first if first == next => TOUCHING,
        first if first == day_after(next) => ONE_DAY_BETWEEN,
        _ => APART,
    }
}

fn overlap_group(table: Table) -> String {
    format!("6 in {}, lies", table.mark())
}

fn clash_group(table: Table) -> String {
    format!("6 in {}, with", table.mark())
}

fn accepted_group(table: Table) -> String {
    format!("{}, one key", table.mark())
}

fn seasonal_group(word: &str) -> String {
    format!("seasons, {word}")
}

pub fn groups() -> Vec<Group> {
    let mut groups = Vec::new();
    for table in Table::ALL {
        let clashes = Clash::ALL.into_iter().filter(|&clash| clash != Clash::None);
        let clashes: Vec<&str> = clashes.map(Clash::word).collect();
        groups.push(group(
            &overlap_group(table),
            &Overlap::ALL.map(Overlap::word),
        ));
        groups.push(group(&clash_group(table), &clashes));
        groups.push(group(&clash_group(table), &[NOT_THE_EARLIEST]));
        groups.push(group(&accepted_group(table), &ACCEPTED_KEYS));
    }
    let numbers = Above::ALL.map(Above::word).into_iter();
    let counts = OfOneKey::ALL.map(OfOneKey::word);
    let words = numbers.chain(counts).chain(InOrder::ALL.map(InOrder::word));
    groups.extend(words.map(|word| group(&seasonal_group(word), &SEASONAL_ANSWERS)));
    groups.push(group(SEASONAL_KEY, &Table::ALL.map(Table::mark)));
    groups.push(group(SEASONAL_CLASH, &SEASONAL_CLASHES.map(Clash::word)));
    groups
}

#[cfg(test)]
mod tests {
    use super::*;
    use crate::against::wire::{Call, Lent, Name};
    use crate::generate::drafts::{assemble, Draft};
    use crate::verdict::{verdict, Verdict};

    fn gaps_after(table: Table, periods: &[(u64, u64)]) -> impl Fn(&str) -> bool {
        let of_period = |&(first, last): &(u64, u64)| {
            let mut draft = Draft::plain(table);
            draft.write_period(Period::of(first, last));
            draft
        };
        let bundle = assemble(&periods.iter().map(of_period).collect::<Vec<Draft>>());
        let answer = match verdict(&bundle) {
            Verdict::Accepted(count) => Answer::of_value(count),
            Verdict::Refused {
                number,
                place,
                detail,
            } => Answer {
                number: u64::from(number),
                place,
                detail,
                ..Answer::default()
            },
        };
        let mut coverage = Coverage::default();
        coverage.note(&Call::of(Name::Verdict), &Lent::of(&bundle, &[]), &answer);
        let gaps = coverage.gaps();
        move |words| gaps.contains(&words.to_string())
    }

    #[test]
    fn a_clash_is_met_by_how_it_lies_and_by_what_it_clashes_with() {
        let winter = (20240101, 20240331);
        let summer = (20240701, 20240930);
        let is_gap = gaps_after(Table::Co, &[summer, winter, (20240331, 20240701)]);
        assert!(!is_gap("6 in CO, lies: one day at the front"));
        assert!(is_gap("6 in CO, lies: one day at the end"));
        assert!(!is_gap("6 in CO, with: first and others"));
        assert!(!is_gap("6 in CO, with: first in place, not in time"));
        let is_gap = gaps_after(Table::Re, &[summer, winter, winter]);
        assert!(!is_gap("6 in RE, lies: equal") && is_gap("6 in CO, lies: equal"));
        assert!(!is_gap("6 in RE, with: later alone"));
        assert!(is_gap("6 in RE, with: first in place, not in time"));
    }

    #[test]
    fn accepted_records_of_one_key_are_met_by_their_order_and_distance() {
        let is_gap = gaps_after(Table::Co, &[(20240301, 20240331), (20240101, 20240229)]);
        assert!(!is_gap("CO, one key: touching") && !is_gap("CO, one key: later first"));
        assert!(is_gap("CO, one key: apart") && is_gap("CO, one key: in order"));
        let is_gap = gaps_after(Table::Re, &[(20240101, 20240228), (20240301, 20240331)]);
        assert!(!is_gap("RE, one key: one day between") && is_gap("RE, one key: touching"));
        assert!(!is_gap("RE, one key: in order") && is_gap("RE, one key: three or more"));
        let is_gap = gaps_after(Table::Co, &[(20240101, 20241231)]);
        assert!(is_gap("CO, one key: in order"));
    }
}
