//! Renders R-2 as a table of the records that legs had to choose from on their day.

use std::collections::HashMap;

use super::{group, source, Coverage, Group};
use crate::against::wire::{Answer, Call, Lent, Name};
use crate::bundle::readable_records;
use crate::calendar::{day_after, day_before};
use crate::cards::CardUse;
use crate::fare::PricedLeg;
use crate::layout::{ar, co, Table};
use crate::period::Period;
use crate::question::{Leg, Question};
use crate::seasons::Source;

const EVERY_RAILWAY: u64 = 0;
const BOTH_SOURCES: &str = "CO and AR used";
const LEGS_BESIDE: &str = "legs beside";
const BESIDE_LEGS: [&str; 6] = [
    "priced, 12",
    "priced, 13",
    "12, 13",
    "12, priced",
    "13, 12",
    "13, priced",
];

/// What one railway has for a day.
#[derive(Clone, Copy, Debug, PartialEq, Eq)]
enum Supply {
    Absent,
    Off,
    Valid,
}

impl Supply {
    const ALL: [Supply; 3] = [Supply::Absent, Supply::Off, Supply::Valid];

    fn of(periods: &[Period], day: u64) -> Supply {
        match periods {
            [] => Supply::Absent,
            _ if periods.iter().any(|period| period.holds(day)) => Supply::Valid,
            _ => Supply::Off,
        }
    }

    fn word(self) -> &'static str {
        match self {
            Supply::Absent => "absent",
            Supply::Off => "off",
            Supply::Valid => "valid",
        }
    }
}

/// What there is to choose from, each list in the order of the records.
struct Choices {
    own: Vec<Period>,
    default: Vec<Period>,
    day: u64,
}

impl Choices {
    fn supplies(&self) -> (Supply, Supply) {
        let of = |periods: &[Period]| Supply::of(periods, self.day);
        (of(&self.own), of(&self.default))
    }

    fn told(&self) -> &'static str {
        match self.supplies() {
            (Supply::Absent, Supply::Absent) => "12",
            (Supply::Valid, _) | (_, Supply::Valid) => "priced",
            _ => "13",
        }
    }

    fn source(&self) -> Option<Source> {
        match self.supplies() {
            (Supply::Valid, _) => Some(Source::Own),
            (_, Supply::Valid) => Some(Source::Default),
            _ => None,
        }
    }

    /// Those of the record used, or else of the railway, or else of 0000.
    fn looked_at(&self) -> &[Period] {
        match self.source() {
            Some(Source::Own) => &self.own,
            Some(Source::Default) => &self.default,
            None if self.own.is_empty() => &self.default,
            None => &self.own,
        }
    }
}

/// The periods of one offer's CO and AR, by railway and by code; a CO has code 0.
struct Offer {
    day: u64,
    periods: HashMap<(u64, u64), Vec<Period>>,
}

impl Offer {
    fn of(bundle: &[u8], question: &Question) -> Offer {
        let mut periods: HashMap<(u64, u64), Vec<Period>> = HashMap::new();
        for record in readable_records(bundle) {
            let code = match record.table {
                Table::Co => 0,
                Table::Ar => record.number_or(ar::CODE, 0),
                Table::Re | Table::Me => continue,
            };
            if record.number_or(co::OFFER, 0) != question.offer {
                continue;
            }
            let key = (record.number_or(co::RAILWAY, 0), code);
            periods.entry(key).or_default().push(record.period());
        }
        let day = question.day;
        Offer { day, periods }
    }

    fn choices(&self, leg: &Leg, code: u64) -> Choices {
        let of = |railway| self.periods.get(&(railway, code)).cloned();
        Choices {
            own: of(leg.railway).unwrap_or_default(),
            default: of(EVERY_RAILWAY).unwrap_or_default(),
            day: self.day,
        }
    }

    fn conditions(&self, leg: &Leg) -> Choices {
        self.choices(leg, 0)
    }
}

impl Coverage {
    /// Of a fare or a sale that 12 or 13 turns away.
    pub(super) fn note_leg_without_record(&mut self, call: &Call, lent: &Lent, answer: &Answer) {
        let legs = call.question.used_legs();
        let offer = Offer::of(lent.bundle, &call.question);
        let place = answer.place as usize;
        let refused = offer.conditions(&legs[place]);
        self.note_choice(call.name, Table::Co, &refused);
        if place > 0 {
            self.meet(LEGS_BESIDE, format!("priced, {}", answer.number));
        }
        for leg in &legs[place + 1..] {
            let other = offer.conditions(leg).told();
            self.meet(LEGS_BESIDE, format!("{}, {other}", answer.number));
        }
    }

    pub(super) fn note_records_of_legs(&mut self, call: &Call, lent: &Lent, priced: &[PricedLeg]) {
        let question = &call.question;
        let offer = Offer::of(lent.bundle, question);
        for (leg, priced) in question.used_legs().iter().zip(priced) {
            self.note_choice(call.name, Table::Co, &offer.conditions(leg));
            if !priced.cards.are_read {
                continue;
            }
            for (card, used) in question.given_cards().into_iter().zip(&priced.cards.uses) {
                self.note_choice(call.name, Table::Ar, &offer.choices(leg, card));
                if let CardUse::Applies(record) = used {
                    self.meet(BOTH_SOURCES, both(priced.source, record.source));
                }
            }
        }
    }

    fn note_choice(&mut self, name: Name, table: Table, choices: &Choices) {
        let (own, default) = choices.supplies();
        self.meet(&supply_group(table, name), supplied(own, default));
        for item in days_met(choices) {
            self.meet(&day_group(table), item);
        }
        if let Some(source) = choices.source() {
            for item in places_met(choices) {
                self.meet(&several_group(table), of_source(source, item));
            }
        }
    }
}

type KindOfDay = (&'static str, fn(&Period, u64) -> bool);

/// Of the day asked in the period used.
const DAYS_INSIDE: [KindOfDay; 4] = [
    ("its first", |period, day| {
        day == period.first && day < period.last
    }),
    ("its last", |period, day| {
        day == period.last && day > period.first
    }),
    ("its only one", |period, day| {
        day == period.first && day == period.last
    }),
    ("inside", |period, day| {
        day > period.first && day < period.last
    }),
];

type KindOfDayAmong = (&'static str, fn(&[Period], u64) -> bool);

/// Of the day asked among the other periods of the key used.
const DAYS_BESIDE: [KindOfDayAmong; 2] = [
    ("another ended the day before", |periods, day| {
        periods.iter().any(|period| period.last == day_before(day))
    }),
    ("another starts the day after", |periods, day| {
        periods.iter().any(|period| period.first == day_after(day))
    }),
];

/// Of the day asked where no period holds it.
const DAYS_OFF: [KindOfDayAmong; 5] = [
    ("the day before", |periods, day| {
        periods.iter().any(|period| period.first == day_after(day))
    }),
    ("the day behind", |periods, day| {
        periods.iter().any(|period| period.last == day_before(day))
    }),
    ("before all", |periods, day| {
        periods.iter().all(|period| day < period.first)
    }),
    ("behind all", |periods, day| {
        periods.iter().all(|period| period.last < day)
    }),
    ("between two", |periods, day| {
        let is_before = |period: &Period| period.last < day;
        periods.iter().any(is_before) && !periods.iter().all(is_before)
    }),
];

fn days_met(choices: &Choices) -> Vec<&'static str> {
    let (periods, day) = (choices.looked_at(), choices.day);
    if periods.is_empty() {
        return Vec::new();
    }
    let among = |kinds: &[KindOfDayAmong]| -> Vec<&'static str> {
        let met = kinds.iter().filter(|(_, is_met)| is_met(periods, day));
        met.map(|(name, _)| *name).collect()
    };
    let Some(used) = periods.iter().find(|period| period.holds(day)) else {
        return among(&DAYS_OFF);
    };
    let inside = DAYS_INSIDE.iter().filter(|(_, is_met)| is_met(used, day));
    let inside = inside.map(|(name, _)| *name);
    inside.chain(among(&DAYS_BESIDE)).collect()
}

const PLACES: [&str; 5] = [
    "first",
    "midst",
    "last",
    "behind a later",
    "before an earlier",
];

/// Where the record used stands among several of its key.
fn places_met(choices: &Choices) -> Vec<&'static str> {
    let periods = choices.looked_at();
    let place = periods.iter().position(|period| period.holds(choices.day));
    let Some(place) = place.filter(|_| periods.len() > 1) else {
        return Vec::new();
    };
    let (before, behind) = (&periods[..place], &periods[place + 1..]);
    let is_later = |other: &Period| *other > periods[place];
    let is_earlier = |other: &Period| *other < periods[place];
    let met = [
        before.is_empty(),
        !before.is_empty() && !behind.is_empty(),
        behind.is_empty(),
        before.iter().any(is_later),
        behind.iter().any(is_earlier),
    ];
    let met = PLACES.into_iter().zip(met).filter(|(_, is_met)| *is_met);
    met.map(|(name, _)| name).collect()
}

fn supplied(own: Supply, default: Supply) -> String {
    format!("own {}, 0000 {}", own.word(), default.word())
}

fn both(conditions: Source, additional: Source) -> String {
    format!("{} and {}", source(conditions), source(additional))
}

fn of_source(used: Source, place: &str) -> String {
    format!("{}, {place}", source(used))
}

fn supply_group(table: Table, name: Name) -> String {
    format!("{} in a {}", table.mark(), name.word())
}

fn day_group(table: Table) -> String {
    format!("{}, day", table.mark())
}

fn several_group(table: Table) -> String {
    format!("{} of several", table.mark())
}

pub fn groups() -> Vec<Group> {
    let sources = [Source::Own, Source::Default];
    let with_own = |own| Supply::ALL.map(|default| supplied(own, default));
    let supplies = Supply::ALL.map(with_own).concat();
    let places = sources.map(|source| PLACES.map(|place| of_source(source, place)));
    let mut groups = Vec::new();
    for table in [Table::Co, Table::Ar] {
        for name in [Name::Fare, Name::Sale] {
            groups.push(group(&supply_group(table, name), &supplies));
        }
        let day = day_group(table);
        groups.push(group(&day, &DAYS_INSIDE.map(|(name, _)| name)));
        groups.push(group(&day, &DAYS_BESIDE.map(|(name, _)| name)));
        groups.push(group(&day, &DAYS_OFF.map(|(name, _)| name)));
        groups.push(group(&several_group(table), &places.concat()));
    }
    let pairs = sources.map(|conditions| sources.map(|additional| both(conditions, additional)));
    groups.push(group(BOTH_SOURCES, &pairs.concat()));
    groups.push(group(LEGS_BESIDE, &BESIDE_LEGS));
    groups
}

#[cfg(test)]
mod tests {
    use super::*;
    use crate::fare::{fare, Fare};
    use crate::generate::drafts::{assemble, Draft};
    use crate::question::asked;

    const WINTER: (u64, u64) = (20240101, 20240531);
    const SUMMER: (u64, u64) = (20240601, 20240930);

    fn dated(table: Table, railway: u64, (first, last): (u64, u64)) -> Draft {
        let mut draft = Draft::plain(table);
        draft.write_number(co::RAILWAY, railway);
        draft.write_period(Period::of(first, last));
        draft
    }

    fn conditions(railway: u64, period: (u64, u64)) -> Draft {
        dated(Table::Co, railway, period)
    }

    fn gaps_after(drafts: &[Draft], day: u64, railways: &[u64]) -> impl Fn(&str) -> bool {
        let bundle = assemble(drafts);
        let legs: Vec<(u64, u64)> = railways.iter().map(|&railway| (railway, 7)).collect();
        let question = Question {
            day,
            ..asked(1, &[7], &legs)
        };
        let answer = match fare(&bundle, &question) {
            Fare::Priced { total, .. } => Answer::of_value(total),
            Fare::Refused(refusal) => Answer::of_refusal(&refusal),
        };
        let mut coverage = Coverage::default();
        coverage.note(&Call::fare(&question), &Lent::of(&bundle, &[]), &answer);
        let gaps = coverage.gaps();
        move |words| gaps.contains(&words.to_string())
    }

    #[test]
    fn a_choice_is_met_by_what_both_railways_have() {
        let drafts = [conditions(1185, SUMMER), conditions(0, WINTER)];
        for (day, railway, met) in [
            (20240601, 1185, "own valid, 0000 off"),
            (20240531, 1185, "own off, 0000 valid"),
            (20241001, 1185, "own off, 0000 off"),
            (20240531, 1181, "own absent, 0000 valid"),
            (20240601, 1181, "own absent, 0000 off"),
        ] {
            let is_gap = gaps_after(&drafts, day, &[railway]);
            for own in Supply::ALL {
                for default in Supply::ALL {
                    let item = supplied(own, default);
                    assert_eq!(is_gap(&format!("CO in a fare: {item}")), item != met);
                    assert!(is_gap(&format!("CO in a sale: {item}")));
                }
            }
        }
        let is_gap = gaps_after(&[], 20240601, &[1185]);
        assert!(!is_gap("CO in a fare: own absent, 0000 absent"));
    }

    #[test]
    fn a_day_is_met_by_the_period_used_and_by_those_beside_it() {
        let drafts = [conditions(1185, SUMMER), conditions(1185, WINTER)];
        let is_gap = gaps_after(&drafts, 20240601, &[1185]);
        assert!(!is_gap("CO, day: its first") && is_gap("CO, day: its last"));
        assert!(!is_gap("CO, day: another ended the day before"));
        assert!(is_gap("CO, day: another starts the day after"));
        assert!(!is_gap("CO of several: own, first") && is_gap("CO of several: own, last"));
        assert!(!is_gap("CO of several: own, before an earlier"));
        let is_gap = gaps_after(&drafts, 20241001, &[1185]);
        assert!(!is_gap("CO, day: behind all") && is_gap("CO, day: before all"));
        assert!(!is_gap("CO, day: the day behind") && is_gap("CO, day: between two"));
        let late = [conditions(0, (20240901, 20241231)), conditions(0, WINTER)];
        let is_gap = gaps_after(&late, 20240601, &[1185]);
        assert!(!is_gap("CO, day: between two") && is_gap("CO, day: behind all"));
    }

    #[test]
    fn an_additional_is_met_where_cards_are_read() {
        let flagged = conditions(0, WINTER).with(co::ADDITIONAL_DISCOUNTS, "Y");
        let additional = dated(Table::Ar, 1185, (20240301, 20240301));
        let drafts = [flagged, Draft::plain(Table::Re), additional];
        let is_gap = gaps_after(&drafts, 20240301, &[1185]);
        assert!(!is_gap("AR in a fare: own valid, 0000 absent"));
        assert!(!is_gap("AR, day: its only one") && is_gap("AR, day: its first"));
        assert!(!is_gap("CO and AR used: 0000 and own"));
        let is_gap = gaps_after(&drafts, 20240302, &[1185]);
        assert!(!is_gap("AR in a fare: own off, 0000 absent"));
        assert!(!is_gap("AR, day: the day behind"));
        assert!(is_gap("CO and AR used: 0000 and own"));
    }

    #[test]
    fn a_refused_leg_is_met_beside_the_others() {
        let drafts = [conditions(1185, SUMMER), conditions(1181, WINTER)];
        let is_gap = gaps_after(&drafts, 20240601, &[1185, 9999, 1181]);
        assert!(!is_gap("legs beside: priced, 12") && !is_gap("legs beside: 12, 13"));
        assert!(is_gap("legs beside: 12, priced") && is_gap("legs beside: 13, 12"));
        let is_gap = gaps_after(&drafts, 20240531, &[1185, 1181, 9999]);
        assert!(!is_gap("legs beside: 13, priced") && !is_gap("legs beside: 13, 12"));
        assert!(is_gap("legs beside: priced, 13"));
    }
}
