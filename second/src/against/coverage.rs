//! Renders "Numbers that turn work away" as a table of what a run has met.

mod keys;
mod months;
mod readings;
mod seasons;

use std::collections::BTreeMap;
use std::fmt::Write;

use super::cases::kinds_of_malformed_books;
use super::wire::{outcome, Answer, Call, Lent, Name};
use crate::bundle::{readable_records, LONGEST_BUNDLE};
use crate::cards::kinds::{cheaper_choices, kinds_of, names, other_rules, uses_beside};
use crate::cards::CardUse;
use crate::fare::{priced_legs, PricedLeg};
use crate::generate::cards::{Slots, PAIRS_OF_SLOTS};
use crate::generate::corpus::every_row;
use crate::generate::crowded::{step_of, Crowded, Length, Order, STEPS};
use crate::generate::dearest::GREATEST_PRICED;
use crate::generate::resent::Change;
use crate::layout::{co, Table};
use crate::question::{Question, CARD_SLOTS, LARGEST_CARD, NO_CARDS};
use crate::rounding::{Reduction, Rounding};
use crate::seasons::Source;

const ANSWERED: &str = "answered";
const LINK: &str = "7, detail";
const CROWDED_KEY: &str = "many, 6 of";
const CROWDED_LINK: &str = "many, 7, detail";
const UNREAD: &str = "15, field";
const OUTCOME: &str = "outcome";
const CO_ROUNDING: &str = "rounding by CO";
const AR_ROUNDING: &str = "rounding by AR";
const CO_SOURCE: &str = "CO used";
const AR_SOURCE: &str = "AR used";
const BUNDLE_BYTES: &str = "bundle bytes";
const TILL: &str = "till";
const SEQUENCE: &str = "sequence";
const LEG_COUNT: &str = "leg count";
const RAILWAY: &str = "railway asked";
const GREATEST_FARE: &str = "greatest fare";
const UNUSED_LEGS: &str = "unused legs";
const CARDS_IN_FARE: &str = "cards in a fare";
const CARDS_IN_SALE: &str = "cards in a sale";
const CARDS_DECIDE: &str = "cards decide";
const BESIDE: &str = "beside a card";
const DEARER: &str = "dearer than";
const NOT_AS_BY: &str = "not as by";
const CARD_OVER: &str = "11, card in slot";
const CARD_GAP: &str = "11, card slots";
const CARD_TWICE: &str = "17, slots";
const TWICE_BEFORE: &str = "17 before";
const BEFORE_TWICE: &str = "before 17";
const AT_THE_BOUND: &str = "at bound, cards";
const MALFORMED: &str = "malformed book";
const SETTLED: &str = "settled after";
const REFUSED: &str = "refused";
const VERDICT: &str = "1 to 7";
const OUTCOMES: [&str; 5] = [
    "booked",
    "already booked, live",
    "already booked, cancelled",
    "cancelled",
    "already cancelled",
];
const EDGES_OF_TILL: [u64; 4] = [0, 65_535, 65_536, u32::MAX as u64];
const EDGES_OF_SEQUENCE: [u64; 4] = [0, u32::MAX as u64, 1 << 32, u64::MAX];
const HEAD: usize = 19;
const WIDEST_LINE: usize = 113;

type Point = (String, String);

#[derive(Default)]
pub struct Coverage {
    times: BTreeMap<Point, u64>,
}

impl Coverage {
    fn meet(&mut self, group: &str, item: impl ToString) {
        let point = (group.to_string(), item.to_string());
        *self.times.entry(point).or_default() += 1;
    }

    pub fn note_malformed(&mut self, kind: &str) {
        self.meet(MALFORMED, kind);
    }

    /// By its length, and by the number and the order of its records.
    pub fn note_crowded(&mut self, crowded: &Crowded, answer: &Answer) {
        let told = match answer.number {
            0 => ANSWERED.to_string(),
            number => number.to_string(),
        };
        let records = readable_records(&crowded.bundle);
        let length = Length::of(&crowded.bundle).word();
        for word in [length, step_of(records.len()), crowded.order.word()] {
            self.meet(&crowded_group(word), &told);
        }
        match answer.number {
            6 => self.meet(CROWDED_KEY, records[answer.place as usize].table.mark()),
            7 => self.meet(CROWDED_LINK, answer.detail),
            _ => (),
        }
    }

    /// A book with parts at the bound of so many cards, and its total.
    pub fn note_at_the_bound(&mut self, cards: usize, total: &Answer) {
        if total.number == 0 {
            self.meet(AT_THE_BOUND, cards);
        }
    }

    /// All balances and the total were asked after it.
    pub fn note_settled(&mut self, answer: &Answer) {
        self.meet(SETTLED, outcome_of(answer).unwrap_or(REFUSED));
    }

    /// A sale was sent again, so changed; the first of its number was live then or cancelled.
    pub fn note_resent(&mut self, change: Change, is_cancelled: bool, answer: &Answer) {
        let group = match (answer.number, answer.outcome) {
            (23, _) => "23",
            (_, outcome::ALREADY_BOOKED) => "again",
            (_, outcome::BOOKED) => "new",
            _ => return,
        };
        self.meet(&resent_group(group, is_cancelled), change);
    }

    pub fn note(&mut self, call: &Call, lent: &Lent, answer: &Answer) {
        self.note_arguments(call, lent);
        self.note_reading(call, lent, answer);
        if call.name == Name::Verdict {
            self.note_keys(lent.bundle, answer);
        }
        if answer.number != 0 {
            self.meet(call.name.word(), answer.number);
            if matches!(call.name, Name::Fare | Name::Sale) {
                self.note_refused_cards(&call.question, lent, answer);
            }
            if matches!(answer.number, 12 | 13) {
                self.note_leg_without_record(call, lent, answer);
            }
            return self.note_detail(lent, answer);
        }
        self.meet(call.name.word(), ANSWERED);
        if let Some(outcome) = outcome_of(answer) {
            self.meet(OUTCOME, outcome);
        }
        let is_priced = call.name == Name::Fare || answer.outcome == outcome::BOOKED;
        if call.name == Name::Fare && GREATEST_PRICED.contains(&answer.value) {
            self.meet(GREATEST_FARE, answer.value);
        }
        if is_priced {
            self.note_pricing(call, lent);
        }
    }

    fn note_arguments(&mut self, call: &Call, lent: &Lent) {
        if call.name == Name::Verdict {
            self.meet(BUNDLE_BYTES, lent.bundle.len());
        }
        if matches!(call.name, Name::Sale | Name::Cancel) {
            self.meet(TILL, call.till);
            self.meet(SEQUENCE, call.sequence);
        }
        if matches!(call.name, Name::Fare | Name::Sale) {
            self.meet(LEG_COUNT, call.question.leg_count);
        }
        if call.name == Name::Balance {
            self.meet(RAILWAY, call.railway);
        }
    }

    fn note_detail(&mut self, lent: &Lent, answer: &Answer) {
        match answer.number {
            4 => {
                let table = readable_records(lent.bundle)[answer.place as usize].table;
                self.meet(&field_group(table), answer.detail);
            }
            7 => self.meet(LINK, answer.detail),
            15 => self.meet(UNREAD, answer.detail),
            _ => (),
        }
    }

    fn note_refused_cards(&mut self, question: &Question, lent: &Lent, answer: &Answer) {
        if answer.number == 11 {
            self.note_cards_out_of_limits(question);
        }
        if !question.gives_a_card_twice() {
            return;
        }
        match answer.number {
            1..=7 => self.meet(BEFORE_TWICE, VERDICT),
            17 => self.note_card_twice(question, lent),
            other => self.meet(BEFORE_TWICE, other),
        }
    }

    /// Only where nothing else is out of its limits.
    fn note_cards_out_of_limits(&mut self, question: &Question) {
        if !without_cards(question).is_within_limits() {
            return;
        }
        let slots = Slots::of(&question.cards);
        let is_over = |slot: &usize| question.cards[*slot] > LARGEST_CARD;
        let over: Vec<usize> = (0..CARD_SLOTS).filter(is_over).collect();
        match over[..] {
            [] => self.meet(CARD_GAP, slots),
            [slot] if !slots.have_a_gap() => self.meet(CARD_OVER, slot),
            _ => (),
        }
    }

    fn note_card_twice(&mut self, question: &Question, lent: &Lent) {
        let is_same = |pair: &(usize, usize)| {
            let card = question.cards[pair.0];
            card > 0 && card == question.cards[pair.1]
        };
        let pairs = PAIRS_OF_SLOTS.into_iter().filter(is_same);
        if let [pair] = pairs.collect::<Vec<_>>()[..] {
            self.meet(CARD_TWICE, of_pair(pair));
        }
        if let Err(refusal) = priced_legs(lent.bundle, &without_cards(question)) {
            self.meet(TWICE_BEFORE, refusal.number);
        }
    }

    fn note_pricing(&mut self, call: &Call, lent: &Lent) {
        let question = &call.question;
        if *question != question.with_unused_slots_zero() {
            self.meet(UNUSED_LEGS, "filled, and priced");
        }
        let cards = match call.name {
            Name::Fare => CARDS_IN_FARE,
            _ => CARDS_IN_SALE,
        };
        self.meet(cards, question.given_cards().len());
        let legs = priced_legs(lent.bundle, question).unwrap_or_default();
        self.note_records_of_legs(call, lent, &legs);
        for leg in &legs {
            self.note_leg(leg);
            self.note_cards(leg);
        }
    }

    fn note_leg(&mut self, leg: &PricedLeg) {
        self.meet(CO_ROUNDING, letter(&leg.reduction));
        self.meet(CO_SOURCE, source(leg.source));
        for used in &leg.cards.uses {
            match used {
                CardUse::None => (),
                CardUse::OutsideItsDays => self.meet(AR_SOURCE, "outside its days"),
                CardUse::Applies(record) => {
                    self.meet(AR_ROUNDING, letter(&record.reduction));
                    self.meet(AR_SOURCE, source(record.source));
                }
            }
        }
    }

    fn note_cards(&mut self, leg: &PricedLeg) {
        for (group, names) in [
            (CARDS_DECIDE, kinds_of(&leg.cards)),
            (BESIDE, uses_beside(&leg.cards)),
            (DEARER, cheaper_choices(&leg.cards)),
            (NOT_AS_BY, other_rules(&leg.cards)),
        ] {
            for name in names {
                self.meet(group, name);
            }
        }
    }

    fn times_of(&self, point: &Point) -> u64 {
        self.times.get(point).copied().unwrap_or(0)
    }

    pub fn gaps(&self) -> Vec<String> {
        every_point()
            .iter()
            .filter(|point| self.times_of(point) == 0)
            .map(|(group, item)| format!("{group}: {item}"))
            .collect()
    }

    /// Each item with how often it was met, grouped.
    pub fn table(&self) -> String {
        let mut table = String::new();
        let mut group = String::new();
        let mut width = 0;
        for point in every_point() {
            let cell = format!("{} x{}", point.1, self.times_of(&point));
            if point.0 != group || width + cell.len() > WIDEST_LINE {
                let head = if point.0 == group { "" } else { &point.0 };
                let _ = write!(table, "\n{head:HEAD$}");
                width = HEAD;
            }
            let _ = write!(table, "  {cell}");
            width += 2 + cell.len();
            group = point.0;
        }
        table.push('\n');
        table.trim_start().to_string()
    }
}

fn without_cards(question: &Question) -> Question {
    Question {
        cards: NO_CARDS,
        ..*question
    }
}

fn of_pair((one, other): (usize, usize)) -> String {
    format!("{one} and {other}")
}

fn outcome_of(answer: &Answer) -> Option<&'static str> {
    match (answer.outcome, answer.cancelled) {
        (outcome::BOOKED, _) => Some(OUTCOMES[0]),
        (outcome::ALREADY_BOOKED, 0) => Some(OUTCOMES[1]),
        (outcome::ALREADY_BOOKED, _) => Some(OUTCOMES[2]),
        (outcome::CANCELLED, _) => Some(OUTCOMES[3]),
        (outcome::ALREADY_CANCELLED, _) => Some(OUTCOMES[4]),
        _ => None,
    }
}

fn resent_group(group: &str, is_cancelled: bool) -> String {
    let first = if is_cancelled { "cancelled" } else { "live" };
    format!("{group}, {first}")
}

fn crowded_group(word: &str) -> String {
    format!("many, {word}")
}

fn field_group(table: Table) -> String {
    format!("4 in {}, field", table.mark())
}

fn letter(reduction: &Reduction) -> &'static str {
    match reduction.rounding {
        Rounding::Up(_) => "+",
        Rounding::Down(_) => "-",
        Rounding::Nearest(_) => "0",
        Rounding::NearestCent => "N",
    }
}

fn source(source: Source) -> &'static str {
    match source {
        Source::Own => "own",
        Source::Default => "0000",
    }
}

fn numbers_of(name: Name) -> &'static [u64] {
    match name {
        Name::Verdict => &[1, 2, 3, 4, 5, 6, 7],
        Name::Fare => &[1, 2, 3, 4, 5, 6, 7, 11, 17, 12, 13, 14, 15],
        Name::Sale => &[1, 2, 3, 4, 5, 6, 7, 11, 17, 12, 13, 14, 15, 21, 22, 23, 24],
        Name::Cancel => &[21, 22, 25],
        Name::Balance => &[11, 21],
        Name::Total | Name::Count => &[21],
        Name::Entry => &[21, 25],
        Name::Find => &[21, 22, 25],
    }
}

/// All that a full run must meet, in the order of the table.
fn every_point() -> Vec<Point> {
    let mut groups = groups_of_numbers();
    groups.extend(groups_of_crowds());
    groups.extend(keys::groups());
    groups.extend(groups_of_histories());
    groups.extend(readings::groups());
    groups.extend(groups_of_pricing());
    groups.extend(seasons::groups());
    groups.extend(groups_of_cards());
    groups.extend(groups_of_arguments());
    groups.extend(months::groups());
    let points_of = |(group, items): (String, Vec<String>)| {
        let point = move |item| (group.clone(), item);
        items.into_iter().map(point).collect::<Vec<Point>>()
    };
    groups.into_iter().flat_map(points_of).collect()
}

type Group = (String, Vec<String>);

fn group(name: &str, items: &[impl ToString]) -> Group {
    let items = items.iter().map(ToString::to_string).collect();
    (name.to_string(), items)
}

fn groups_of_numbers() -> Vec<Group> {
    let mut groups = Vec::new();
    for name in Name::ALL {
        groups.push(group(name.word(), &[ANSWERED]));
        groups.push(group(name.word(), numbers_of(name)));
    }
    for (table, field) in every_row() {
        groups.push(group(&field_group(table), &[field]));
    }
    groups.push(group(LINK, &[1, 2, 3, 4]));
    groups.push(group(UNREAD, &co::UNREAD_CONDITIONS));
    groups.push(group(OUTCOME, &OUTCOMES));
    groups
}

fn groups_of_crowds() -> Vec<Group> {
    let lengths = Length::ALL.map(Length::word).into_iter();
    let steps = STEPS.map(|(_, word)| word);
    let words = lengths.chain(steps).chain(Order::ALL.map(Order::word));
    let told = |word| group(&crowded_group(word), &[ANSWERED, "5", "6", "7"]);
    let mut groups: Vec<Group> = words.map(told).collect();
    groups.push(group(CROWDED_KEY, &Table::ALL.map(Table::mark)));
    groups.push(group(CROWDED_LINK, &[1, 2, 3, 4]));
    groups
}

fn groups_of_histories() -> Vec<Group> {
    let mut groups = vec![group(SETTLED, &OUTCOMES), group(SETTLED, &[REFUSED])];
    for is_cancelled in [false, true] {
        let resent = |name| resent_group(name, is_cancelled);
        groups.push(group(&resent("again"), &Change::OF_NOTHING));
        groups.push(group(&resent("23"), &Change::of_question()));
        groups.push(group(&resent("new"), &Change::OF_NUMBER));
    }
    groups
}

fn groups_of_pricing() -> Vec<Group> {
    vec![
        group(CO_ROUNDING, &["+", "-", "0", "N"]),
        group(AR_ROUNDING, &["+", "-", "0", "N"]),
        group(CO_SOURCE, &["own", "0000"]),
        group(AR_SOURCE, &["own", "0000", "outside its days"]),
        group(GREATEST_FARE, &GREATEST_PRICED),
        group(UNUSED_LEGS, &["filled, and priced"]),
    ]
}

fn groups_of_cards() -> Vec<Group> {
    let counts: Vec<usize> = (0..=CARD_SLOTS).collect();
    let slots: Vec<usize> = (0..CARD_SLOTS).collect();
    vec![
        group(CARDS_IN_FARE, &counts),
        group(CARDS_IN_SALE, &counts),
        group(CARDS_DECIDE, &names::of_decisions()),
        group(BESIDE, &names::of_uses()),
        group(DEARER, &names::of_cheaper_choices()),
        group(NOT_AS_BY, &names::of_other_rules()),
        group(CARD_OVER, &slots),
        group(CARD_GAP, &Slots::with_a_gap()),
        group(CARD_TWICE, &PAIRS_OF_SLOTS.map(of_pair)),
        group(TWICE_BEFORE, &[12, 13, 14, 15]),
        group(BEFORE_TWICE, &[VERDICT, "11", "23", "24"]),
        group(AT_THE_BOUND, &counts),
    ]
}

fn groups_of_arguments() -> Vec<Group> {
    let greatest = u64::from(u32::MAX);
    vec![
        group(BUNDLE_BYTES, &[0, LONGEST_BUNDLE, LONGEST_BUNDLE + 1]),
        group(TILL, &EDGES_OF_TILL),
        group(SEQUENCE, &EDGES_OF_SEQUENCE),
        group(LEG_COUNT, &[0, 8, 9, greatest]),
        group(RAILWAY, &[0, 9999, 10_000, greatest]),
        group(MALFORMED, &kinds_of_malformed_books()),
    ]
}

#[cfg(test)]
mod tests {
    use super::*;
    use crate::generate::drafts::{assemble, Draft};
    use std::collections::BTreeSet;

    #[test]
    fn an_empty_coverage_is_all_gaps() {
        let points: BTreeSet<Point> = every_point().into_iter().collect();
        assert_eq!(points.len(), every_point().len());
        assert_eq!(Coverage::default().gaps().len(), points.len());
    }

    #[test]
    fn what_is_met_is_no_gap() {
        let mut coverage = Coverage::default();
        let refused = Answer {
            number: 21,
            ..Answer::default()
        };
        coverage.note(&Call::of(Name::Total), &Lent::of(&[], &[]), &refused);
        assert!(!coverage.gaps().contains(&"total: 21".to_string()));
        assert!(coverage.gaps().contains(&"cancel: 21".to_string()));
        assert!(coverage.table().contains("21 x1"));
    }

    #[test]
    fn a_crowd_is_met_by_its_length_its_records_and_their_order() {
        let mut coverage = Coverage::default();
        let crowded = Crowded {
            order: Order::Reversed,
            bundle: assemble(&[Draft::plain(Table::Co), Draft::plain(Table::Co)]),
        };
        let repeated = Answer {
            number: 6,
            place: 1,
            ..Answer::default()
        };
        coverage.note_crowded(&crowded, &repeated);
        let gaps = coverage.gaps();
        let is_gap = |words: &str| gaps.contains(&words.to_string());
        assert!(!is_gap("many, short: 6") && is_gap("many, long: 6"));
        assert!(!is_gap("many, up to 32: 6") && is_gap("many, up to 256: 6"));
        assert!(!is_gap("many, reversed: 6") && is_gap("many, by table: 6"));
        assert!(!is_gap("many, 6 of: CO") && is_gap("many, 6 of: AR"));
        assert!(is_gap("many, short: answered") && is_gap("many, 7, detail: 1"));
    }

    #[test]
    fn a_change_is_met_by_the_answer_due_to_it() {
        let mut coverage = Coverage::default();
        let refused = |number| Answer {
            number,
            ..Answer::default()
        };
        coverage.note_resent(Change::Offer, true, &refused(23));
        coverage.note_resent(Change::Day, false, &refused(21));
        coverage.note_resent(Change::Nothing, false, &refused(23));
        let gaps = coverage.gaps();
        let is_gap = |words: &str| gaps.contains(&words.to_string());
        assert!(!is_gap("23, cancelled: offer") && is_gap("23, live: offer"));
        assert!(is_gap("23, live: day") && is_gap("again, live: unchanged"));
    }
}
