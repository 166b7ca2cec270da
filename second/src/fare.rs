//! Renders "Pricing" with: the records chosen for each leg, the parts, and the fare, which needs no limit.

use crate::bundle::Record;
use crate::cards::{CardRecord, CardUse, CardsOnLeg};
use crate::layout::{ar, co, Table};
use crate::question::{LARGEST_PLAIN_FARE, MOST_PERSONS};
use crate::refusal::Refusal;
use crate::rounding::{Reduction, Rounding};
use crate::seasons::{Choice, Seasons, Source};
use crate::values::{NO_LEAST_PERSONS, NO_MOST_PERSONS};
use crate::verdict::accepted_records;

pub use crate::question::{Leg, Question, LEG_SLOTS};

const MOST_ROUNDED_UP: u64 = 998;
const EVERY_RAILWAY: u64 = 0;

pub type Parts = [u64; LEG_SLOTS];

/// No card has the bound of one.
pub fn largest_part(cards: usize) -> u64 {
    let roundings = 1 + cards.max(1) as u64;
    MOST_PERSONS * (LARGEST_PLAIN_FARE + MOST_ROUNDED_UP * roundings)
}

#[derive(Clone, Copy, Debug, PartialEq, Eq)]
pub enum Fare {
    Priced { parts: Parts, total: u64 },
    Refused(Refusal),
}

pub fn fare(bundle: &[u8], question: &Question) -> Fare {
    match priced_parts(bundle, question) {
        Ok(parts) => Fare::Priced {
            parts,
            total: parts.iter().sum(),
        },
        Err(refusal) => Fare::Refused(refusal),
    }
}

pub fn priced_parts(bundle: &[u8], question: &Question) -> Result<Parts, Refusal> {
    let mut parts = Parts::default();
    for (part, leg) in parts.iter_mut().zip(priced_legs(bundle, question)?) {
        *part = leg.part;
    }
    Ok(parts)
}

/// A leg's part and how it came about.
#[derive(Clone, Debug, PartialEq, Eq)]
pub struct PricedLeg {
    pub part: u64,
    pub source: Source,
    pub reduction: Reduction,
    pub cards: CardsOnLeg,
}

pub fn priced_legs(bundle: &[u8], question: &Question) -> Result<Vec<PricedLeg>, Refusal> {
    let records = accepted_records(bundle)?;
    if !question.is_within_limits() {
        return Err(Refusal::of_call(11));
    }
    if question.gives_a_card_twice() {
        return Err(Refusal::of_call(17));
    }
    let tariff = Tariff::of(&records);
    let mut legs = Vec::new();
    for (place, leg) in question.used_legs().iter().enumerate() {
        let priced = price_leg(&tariff, question, leg)
            .map_err(|fault| Refusal::new(fault.number(), place as u64, fault.detail()))?;
        legs.push(priced);
    }
    Ok(legs)
}

fn price_leg(tariff: &Tariff, question: &Question, leg: &Leg) -> Result<PricedLeg, LegFault> {
    let (source, conditions) = match tariff.conditions(question, leg) {
        Choice::NoRecord => return Err(LegFault::NoConditions),
        Choice::NoneValid => return Err(LegFault::NoneOnThatDay),
        Choice::Valid(source, conditions) => (source, conditions),
    };
    conditions.check(question)?;
    let cards = tariff.cards_on_leg(conditions, question, leg);
    Ok(PricedLeg {
        part: cards.amount() * question.persons,
        source,
        reduction: conditions.reduction,
        cards,
    })
}

enum LegFault {
    NoConditions,
    NoneOnThatDay,
    PersonsOutside,
    ConditionUnread(u8),
}

impl LegFault {
    fn number(&self) -> u8 {
        match self {
            LegFault::NoConditions => 12,
            LegFault::NoneOnThatDay => 13,
            LegFault::PersonsOutside => 14,
            LegFault::ConditionUnread(_) => 15,
        }
    }

    fn detail(&self) -> u64 {
        match self {
            LegFault::ConditionUnread(field) => u64::from(*field),
            _ => 0,
        }
    }
}

struct Conditions {
    least_persons: u64,
    most_persons: u64,
    unread: Option<u8>,
    reads_cards: bool,
    reduction: Reduction,
}

impl Conditions {
    fn of(record: &Record) -> Conditions {
        Conditions {
            least_persons: record.number_or(co::LEAST_PERSONS, NO_LEAST_PERSONS),
            most_persons: record.number_or(co::MOST_PERSONS, NO_MOST_PERSONS),
            unread: first_unread_condition(record),
            reads_cards: record.is_yes(co::ADDITIONAL_DISCOUNTS),
            reduction: reduction_of(record, co::DISCOUNT, co::ROUNDING, co::FACTOR),
        }
    }

    fn check(&self, question: &Question) -> Result<(), LegFault> {
        if !(self.least_persons..=self.most_persons).contains(&question.persons) {
            return Err(LegFault::PersonsOutside);
        }
        match self.unread {
            Some(field) => Err(LegFault::ConditionUnread(field)),
            None => Ok(()),
        }
    }
}

fn first_unread_condition(record: &Record) -> Option<u8> {
    co::UNREAD_CONDITIONS
        .into_iter()
        .find(|&field| record.is_yes(field))
}

fn reduction_of(record: &Record, discount: u8, rounding: u8, factor: u8) -> Reduction {
    let byte = record.value(rounding)[0];
    Reduction {
        discount: record.number_or(discount, 0),
        rounding: Rounding::of_accepted(byte, record.number_or(factor, 0)),
    }
}

struct CardDiscount {
    is_cumulative: bool,
    rating: u64,
    reduction: Reduction,
}

impl CardDiscount {
    fn of(record: &Record) -> CardDiscount {
        CardDiscount {
            is_cumulative: record.is_yes(ar::CUMULATIVE),
            rating: record.number_or(ar::RATING, 0),
            reduction: reduction_of(record, ar::DISCOUNT, ar::ROUNDING, ar::FACTOR),
        }
    }
}

/// By offer and railway, and by offer, railway and code.
#[derive(Default)]
struct Tariff {
    conditions: Seasons<(u64, u64), Conditions>,
    card_discounts: Seasons<(u64, u64, u64), CardDiscount>,
}

impl Tariff {
    fn of(records: &[Record]) -> Tariff {
        let mut tariff = Tariff::default();
        for record in records {
            tariff.add(record);
        }
        tariff
    }

    fn add(&mut self, record: &Record) {
        let number = |field| record.number_or(field, 0);
        let period = record.period();
        match record.table {
            Table::Co => {
                let key = (number(co::OFFER), number(co::RAILWAY));
                let conditions = Conditions::of(record);
                self.conditions.add(key, period, conditions);
            }
            Table::Ar => {
                let key = (number(ar::OFFER), number(ar::RAILWAY), number(ar::CODE));
                let discount = CardDiscount::of(record);
                self.card_discounts.add(key, period, discount);
            }
            Table::Re | Table::Me => (),
        }
    }

    fn conditions(&self, question: &Question, leg: &Leg) -> Choice<'_, Conditions> {
        let key = |railway| (question.offer, railway);
        let (own, default) = (key(leg.railway), key(EVERY_RAILWAY));
        self.conditions.choose(&own, &default, question.day)
    }

    fn cards_on_leg(&self, conditions: &Conditions, question: &Question, leg: &Leg) -> CardsOnLeg {
        let use_of = |card| {
            if conditions.reads_cards {
                self.card_use(question, leg, card)
            } else {
                CardUse::None
            }
        };
        CardsOnLeg {
            are_read: conditions.reads_cards,
            uses: question.given_cards().into_iter().map(use_of).collect(),
            after_conditions: conditions.reduction.apply(leg.fare),
        }
    }

    fn card_use(&self, question: &Question, leg: &Leg, code: u64) -> CardUse {
        let key = |railway| (question.offer, railway, code);
        let (own, default) = (key(leg.railway), key(EVERY_RAILWAY));
        match self.card_discounts.choose(&own, &default, question.day) {
            Choice::NoRecord => CardUse::None,
            Choice::NoneValid => CardUse::OutsideItsDays,
            Choice::Valid(source, discount) => CardUse::Applies(CardRecord {
                code,
                is_cumulative: discount.is_cumulative,
                rating: discount.rating,
                source,
                reduction: discount.reduction,
            }),
        }
    }
}

#[cfg(test)]
mod tests {
    use super::*;
    use crate::generate::dearest::{costliest_offer, most_asked, GREATEST_PRICED};
    use crate::generate::drafts::{assemble, Draft};
    use crate::layout::{me, re};
    use crate::question::{asked, CARD_SLOTS};

    const LARGEST_FARE_BEFORE_R_13: u64 = 4_294_967_295;

    fn conditions(railway: &str) -> Draft {
        Draft::plain(Table::Co)
            .with(co::OFFER, "00042")
            .with(co::RAILWAY, railway)
    }

    fn quarter_off(railway: &str) -> Draft {
        conditions(railway).with(co::DISCOUNT, "025000")
    }

    fn card(railway: &str) -> Draft {
        Draft::plain(Table::Ar)
            .with(ar::OFFER, "00042")
            .with(ar::RAILWAY, railway)
            .with(ar::CODE, "007")
            .with(ar::DISCOUNT, "030000")
    }

    fn card_type() -> Draft {
        Draft::plain(Table::Re).with(re::CODE, "007")
    }

    fn total(drafts: &[Draft], question: &Question) -> u64 {
        match fare(&assemble(drafts), question) {
            Fare::Priced { total, .. } => total,
            Fare::Refused(refusal) => panic!("{refusal:?}"),
        }
    }

    fn refusal(drafts: &[Draft], question: &Question) -> (u8, u64, u64) {
        match fare(&assemble(drafts), question) {
            Fare::Refused(refusal) => (refusal.number, refusal.place, refusal.detail),
            priced => panic!("{priced:?}"),
        }
    }

    #[test]
    fn three_persons_pay_2274() {
        let question = asked(3, &[], &[(1185, 1010)]);
        assert_eq!(total(&[quarter_off("1185")], &question), 2274);
    }

    #[test]
    fn parts_stand_in_the_order_of_legs() {
        let question = asked(3, &[], &[(1185, 1010), (1181, 500)]);
        let drafts = [quarter_off("1185"), conditions("1181")];
        assert_eq!(
            fare(&assemble(&drafts), &question),
            Fare::Priced {
                parts: [2274, 1500, 0, 0, 0, 0, 0, 0],
                total: 3774
            }
        );
    }

    #[test]
    fn two_discounts_round_twice() {
        let drafts = [quarter_off("0000").with(33, "Y"), card_type(), card("0000")];
        assert_eq!(total(&drafts, &asked(1, &[7], &[(1185, 1010)])), 531);
        assert_eq!(total(&drafts, &asked(1, &[], &[(1185, 1010)])), 758);
        assert_eq!(total(&drafts, &asked(1, &[8], &[(1185, 1010)])), 758);
    }

    #[test]
    fn figures_through_both_records() {
        let drafts = [
            quarter_off("0000")
                .with(33, "Y")
                .with(40, "+")
                .with(41, "010"),
            card_type(),
            card("0000").with(9, "-").with(10, "050"),
        ];
        assert_eq!(total(&drafts, &asked(1, &[], &[(1185, 1010)])), 760);
        assert_eq!(total(&drafts, &asked(1, &[7], &[(1185, 1010)])), 500);
        assert_eq!(total(&drafts, &asked(2, &[7], &[(1185, 1010)])), 1000);
    }

    #[test]
    fn the_card_needs_flag_33() {
        let drafts = [quarter_off("0000"), card_type(), card("0000")];
        assert_eq!(total(&drafts, &asked(1, &[7], &[(1185, 1010)])), 758);
    }

    #[test]
    fn the_record_of_0000_is_a_default_only() {
        let drafts = [quarter_off("0000"), conditions("1185")];
        assert_eq!(total(&drafts, &asked(1, &[], &[(1185, 1010)])), 1010);
        assert_eq!(total(&drafts, &asked(1, &[], &[(1181, 1010)])), 758);
        let cards = [
            conditions("0000").with(33, "Y"),
            card_type(),
            card("0000"),
            card("1185").with(ar::DISCOUNT, "050000"),
        ];
        assert_eq!(total(&cards, &asked(1, &[7], &[(1185, 1000)])), 500);
        assert_eq!(total(&cards, &asked(1, &[7], &[(1181, 1000)])), 700);
    }

    #[test]
    fn the_additional_is_chosen_by_the_railway_of_the_leg() {
        let drafts = [conditions("0000").with(33, "Y"), card_type(), card("1185")];
        assert_eq!(total(&drafts, &asked(1, &[7], &[(1185, 1000)])), 700);
        assert_eq!(total(&drafts, &asked(1, &[7], &[(1181, 1000)])), 1000);
    }

    #[test]
    fn a_card_of_another_code_does_not_reduce() {
        let drafts = [
            conditions("0000").with(33, "Y"),
            card_type(),
            card_type().with(re::CODE, "008"),
            card("1185").with(ar::CODE, "008"),
            card("0000"),
        ];
        assert_eq!(total(&drafts, &asked(1, &[7], &[(1185, 1000)])), 700);
        assert_eq!(total(&drafts, &asked(1, &[8], &[(1181, 1000)])), 1000);
    }

    fn lasting(draft: Draft, first: &str, last: &str) -> Draft {
        let (first_day, last_day) = draft.table.period_fields();
        draft.with(first_day, first).with(last_day, last)
    }

    fn past(draft: Draft) -> Draft {
        lasting(draft, "20230101", "20231231")
    }

    #[test]
    fn an_own_record_off_its_day_leaves_the_leg_to_0000() {
        let drafts = [past(conditions("1185")), quarter_off("0000")];
        assert_eq!(total(&drafts, &asked(1, &[], &[(1185, 1010)])), 758);
        let drafts = [conditions("1185"), past(quarter_off("0000"))];
        assert_eq!(total(&drafts, &asked(1, &[], &[(1185, 1010)])), 1010);
        let cards = [
            conditions("0000").with(33, "Y"),
            card_type(),
            past(card("1185").with(ar::DISCOUNT, "050000")),
            card("0000"),
        ];
        assert_eq!(total(&cards, &asked(1, &[7], &[(1185, 1000)])), 700);
        assert_eq!(total(&cards, &asked(1, &[7], &[(1181, 1000)])), 700);
    }

    #[test]
    fn none_valid_is_13_and_none_at_all_is_12() {
        let asked_once = asked(1, &[], &[(1185, 7)]);
        for drafts in [
            vec![past(conditions("1185"))],
            vec![past(conditions("0000"))],
            vec![past(conditions("1185")), past(conditions("0000"))],
        ] {
            assert_eq!(refusal(&drafts, &asked_once), (13, 0, 0));
        }
        for drafts in [
            vec![conditions("1181")],
            vec![past(conditions("1181"))],
            vec![conditions("1185").with(co::OFFER, "00043")],
            vec![],
        ] {
            assert_eq!(refusal(&drafts, &asked_once), (12, 0, 0));
        }
    }

    #[test]
    fn legs_of_one_ticket_find_12_13_or_a_record() {
        let drafts = [past(conditions("1185")), conditions("1181")];
        let (priced, none_valid, none) = ((1181, 7), (1185, 7), (9999, 7));
        let told = |legs: &[(u64, u64)]| refusal(&drafts, &asked(1, &[], legs));
        assert_eq!(told(&[priced, none_valid, none]), (13, 1, 0));
        assert_eq!(told(&[priced, none, none_valid]), (12, 1, 0));
        assert_eq!(told(&[none_valid, none, priced]), (13, 0, 0));
        assert_eq!(told(&[none, none_valid, priced]), (12, 0, 0));
        assert_eq!(total(&drafts, &asked(1, &[], &[priced, priced])), 14);
    }

    #[test]
    fn each_season_has_its_own_price() {
        let summer = lasting(conditions("1185"), "20240601", "20240930");
        let winter = lasting(quarter_off("1185"), "20231201", "20240531");
        let always = conditions("0000").with(co::DISCOUNT, "050000");
        let on = |day| Question {
            day,
            ..asked(1, &[], &[(1185, 1000)])
        };
        let in_order = [winter.clone(), summer.clone()];
        let later_first = [summer, winter];
        for drafts in [in_order, later_first] {
            assert_eq!(refusal(&drafts, &on(20231130)), (13, 0, 0));
            assert_eq!(total(&drafts, &on(20231201)), 750);
            assert_eq!(total(&drafts, &on(20240531)), 750);
            assert_eq!(total(&drafts, &on(20240601)), 1000);
            assert_eq!(total(&drafts, &on(20240930)), 1000);
            assert_eq!(refusal(&drafts, &on(20241001)), (13, 0, 0));
            let beside = [&drafts[..], std::slice::from_ref(&always)].concat();
            assert_eq!(total(&beside, &on(20240531)), 750);
            assert_eq!(total(&beside, &on(20240601)), 1000);
            assert_eq!(total(&beside, &on(20241001)), 500);
        }
    }

    #[test]
    fn each_season_has_its_own_card() {
        let drafts = [
            conditions("0000").with(33, "Y"),
            card_type(),
            lasting(card("1185"), "20240601", "20240930"),
            lasting(card("0000"), "20240901", "20241231").with(ar::DISCOUNT, "020000"),
            lasting(card("1185"), "20240401", "20240531").with(ar::DISCOUNT, "050000"),
            lasting(card("0000"), "20240101", "20240131").with(ar::DISCOUNT, "010000"),
        ];
        for (day, own, other) in [
            (20240131, 900, 900),
            (20240201, 1000, 1000),
            (20240531, 500, 1000),
            (20240601, 700, 1000),
            (20240901, 700, 800),
            (20241001, 800, 800),
        ] {
            let on = |railway| Question {
                day,
                ..asked(1, &[7], &[(railway, 1000)])
            };
            assert_eq!(total(&drafts, &on(1185)), own, "{day}");
            assert_eq!(total(&drafts, &on(1181)), other, "{day}");
        }
    }

    #[test]
    fn the_record_valid_that_day_decides_about_persons_flags_and_cards() {
        let june = |draft| lasting(draft, "20240601", "20240630");
        let asked_once = asked(1, &[7], &[(1185, 1000)]);
        let (flagged, plain) = (past(conditions("1185").with(31, "Y")), conditions("1185"));
        assert_eq!(total(&[flagged, plain.clone()], &asked_once), 1000);
        let drafts = [past(plain.clone()), june(conditions("1185").with(31, "Y"))];
        assert_eq!(refusal(&drafts, &asked_once), (15, 0, 31));
        let drafts = [past(plain), june(conditions("1185").with(28, "02"))];
        assert_eq!(refusal(&drafts, &asked_once), (14, 0, 0));
        let cards = [
            past(conditions("1185")),
            june(conditions("1185").with(33, "Y")),
            card_type(),
            card("0000"),
        ];
        assert_eq!(total(&cards, &asked_once), 700);
        let cards = [
            past(conditions("1185").with(33, "Y")),
            june(conditions("1185")),
            card_type(),
            card("0000"),
        ];
        assert_eq!(total(&cards, &asked_once), 1000);
    }

    #[test]
    fn both_days_are_inside_the_period() {
        let drafts = [conditions("0000")
            .with(co::FIRST_DAY, "20240614")
            .with(co::LAST_DAY, "20240616")];
        let on = |day| Question {
            day,
            ..asked(1, &[], &[(1185, 7)])
        };
        assert_eq!(refusal(&drafts, &on(20240613)), (13, 0, 0));
        assert_eq!(total(&drafts, &on(20240614)), 7);
        assert_eq!(total(&drafts, &on(20240616)), 7);
        assert_eq!(refusal(&drafts, &on(20240617)), (13, 0, 0));
    }

    #[test]
    fn the_last_day_of_a_card_is_inside() {
        let drafts = [
            conditions("0000").with(33, "Y"),
            card_type(),
            card("0000").with(11, "20240615").with(13, "20240615"),
        ];
        let on = |day| Question {
            day,
            ..asked(1, &[7], &[(1185, 1000)])
        };
        assert_eq!(total(&drafts, &on(20240614)), 1000);
        assert_eq!(total(&drafts, &on(20240615)), 700);
        assert_eq!(total(&drafts, &on(20240616)), 1000);
    }

    #[test]
    fn persons_within_28_and_29() {
        let answered = |least: &str, most: &str, persons| {
            let draft = conditions("0000").with(28, least).with(29, most);
            matches!(
                fare(&assemble(&[draft]), &asked(persons, &[], &[(1185, 7)])),
                Fare::Priced { .. }
            )
        };
        assert!(answered("  ", "  ", 1) && answered("  ", "  ", 99));
        assert!(answered("00", "99", 1) && answered("00", "99", 99));
        assert!(!answered("02", "  ", 1) && answered("02", "  ", 2));
        assert!(answered("  ", "05", 5) && !answered("  ", "05", 6));
        assert!(!answered("99", "99", 98) && answered("99", "99", 99));
        let drafts = [conditions("0000").with(28, "02")];
        assert_eq!(refusal(&drafts, &asked(1, &[], &[(1185, 7)])), (14, 0, 0));
    }

    #[test]
    fn unread_conditions() {
        let asked_once = asked(1, &[], &[(1185, 7)]);
        for field in [27, 31, 32, 34, 35] {
            let drafts = [conditions("0000").with(field, "Y")];
            assert_eq!(refusal(&drafts, &asked_once), (15, 0, u64::from(field)));
        }
        for field in [36, 38] {
            let drafts = [conditions("0000").with(field, "Y")];
            assert_eq!(total(&drafts, &asked_once), 7);
        }
        let blank = [conditions("0000").with(27, " ").with(30, "9")];
        assert_eq!(total(&blank, &asked_once), 7);
        let memo = Draft::plain(Table::Me).with(me::OFFER, "00042");
        assert_eq!(
            total(&[conditions("0000").with(37, "Y"), memo], &asked_once),
            7
        );
        let several = [conditions("0000").with(35, "Y").with(32, "Y")];
        assert_eq!(refusal(&several, &asked_once), (15, 0, 32));
    }

    #[test]
    fn order_of_numbers_within_a_leg() {
        let drafts = [conditions("1185")
            .with(co::LAST_DAY, "20240601")
            .with(28, "05")
            .with(31, "Y")];
        let question = asked(1, &[], &[(1185, 7)]);
        assert_eq!(refusal(&drafts, &question), (13, 0, 0));
        let earlier = Question {
            day: 20240601,
            ..question
        };
        assert_eq!(refusal(&drafts, &earlier), (14, 0, 0));
        let five = Question {
            persons: 5,
            ..earlier
        };
        assert_eq!(refusal(&drafts, &five), (15, 0, 31));
    }

    #[test]
    fn a_leg_is_judged_wholly_before_the_next() {
        let drafts = [conditions("1185").with(35, "Y"), conditions("1181")];
        let question = asked(1, &[], &[(1181, 7), (1185, 7), (9999, 7)]);
        assert_eq!(refusal(&drafts, &question), (15, 1, 35));
        let drafts = [conditions("1185"), conditions("1181").with(35, "Y")];
        let question = asked(1, &[], &[(1185, 7), (9999, 7), (1181, 7)]);
        assert_eq!(refusal(&drafts, &question), (12, 1, 0));
    }

    #[test]
    fn an_unknown_offer_is_12_at_leg_0() {
        let question = asked(1, &[], &[(1185, 7)]);
        assert_eq!(refusal(&[], &question), (12, 0, 0));
        let other = conditions("0000").with(co::OFFER, "00043");
        assert_eq!(refusal(&[other], &question), (12, 0, 0));
    }

    #[test]
    fn the_verdict_comes_before_11() {
        let bad = Question::default();
        assert_eq!(refusal(&[conditions("0000")], &bad), (11, 0, 0));
        assert_eq!(
            refusal(&[conditions("0000"), conditions("0000")], &bad),
            (6, 1, 0)
        );
    }

    #[test]
    fn the_same_railway_may_come_twice() {
        let question = asked(1, &[], &[(1185, 7), (1185, 8)]);
        assert_eq!(total(&[conditions("0000")], &question), 15);
    }

    #[test]
    fn junk_in_unused_slots_changes_nothing() {
        let mut question = asked(1, &[], &[(1185, 7)]);
        question.legs[1] = Leg {
            railway: 77_777,
            fare: u64::MAX,
        };
        assert_eq!(total(&[conditions("1185")], &question), 7);
    }

    #[test]
    fn bounds_of_a_part() {
        let bounds = [99_197_505, 99_197_505, 99_296_307, 99_395_109, 99_493_911];
        for (cards, bound) in bounds.into_iter().enumerate() {
            assert_eq!(largest_part(cards), bound);
        }
    }

    #[test]
    fn eight_parts_at_the_bound_stay_within_the_former_limit() {
        let eight_parts = |cards| LEG_SLOTS as u64 * largest_part(cards);
        assert_eq!(eight_parts(1), 793_580_040);
        assert_eq!(eight_parts(CARD_SLOTS), 795_951_288);
        for cards in 0..=CARD_SLOTS {
            assert!(eight_parts(cards) <= LARGEST_FARE_BEFORE_R_13);
        }
    }

    #[test]
    fn the_dearest_tickets_are_priced_from_parts_within_the_bound() {
        for (cards, greatest) in GREATEST_PRICED.into_iter().enumerate() {
            let parts = [greatest / LEG_SLOTS as u64; LEG_SLOTS];
            let total = parts.iter().sum();
            let told = fare(&costliest_offer(), &most_asked(cards));
            assert_eq!(told, Fare::Priced { parts, total });
            assert_eq!(total, greatest);
            assert!(total < LARGEST_FARE_BEFORE_R_13);
            assert!(parts[0] <= largest_part(cards));
        }
    }

    /// A card of this code with a rating, a discount and a rounding.
    fn rated(code: &str, rating: &str, discount: &str, rounding: &str, factor: &str) -> [Draft; 2] {
        let record = card("0000")
            .with(ar::CODE, code)
            .with(ar::CUMULATIVE, "Y")
            .with(ar::RATING, rating)
            .with(ar::DISCOUNT, discount)
            .with(ar::ROUNDING, rounding)
            .with(ar::FACTOR, factor);
        [Draft::plain(Table::Re).with(re::CODE, code), record]
    }

    fn with_cards(cards: &[[Draft; 2]]) -> Vec<Draft> {
        let conditions = conditions("0000").with(33, "Y");
        [conditions].into_iter().chain(cards.concat()).collect()
    }

    #[test]
    fn cards_are_applied_in_rising_rating_whatever_their_slots() {
        let half_first = with_cards(&[
            rated("007", "001", "050000", "+", "050"),
            rated("005", "002", "025000", "-", "100"),
        ]);
        let quarter_first = with_cards(&[
            rated("007", "002", "050000", "+", "050"),
            rated("005", "001", "025000", "-", "100"),
        ]);
        for cards in [[5, 7], [7, 5]] {
            let question = asked(1, &cards, &[(1185, 134)]);
            assert_eq!(total(&half_first, &question), 0);
            assert_eq!(total(&quarter_first, &question), 50);
        }
    }

    #[test]
    fn the_cheaper_of_two_cards_is_no_choice_where_both_are_cumulative() {
        let drafts = with_cards(&[
            rated("005", "001", "050000", "N", "000"),
            rated("007", "002", "001000", "+", "500"),
        ]);
        assert_eq!(total(&drafts, &asked(1, &[5, 7], &[(1185, 1)])), 500);
        assert_eq!(total(&drafts, &asked(1, &[5], &[(1185, 1)])), 1);
    }

    #[test]
    fn each_leg_takes_its_own_least() {
        let mut drafts = with_cards(&[
            rated("005", "001", "010000", "N", "000"),
            rated("007", "001", "020000", "N", "000"),
        ]);
        let own = rated("007", "001", "050000", "N", "000")[1].clone();
        drafts.push(own.with(ar::RAILWAY, "1181").with(ar::CUMULATIVE, "N"));
        let question = asked(2, &[7, 9, 5], &[(1185, 1000), (1181, 1000)]);
        assert_eq!(total(&drafts, &question), 2 * 720 + 2 * 500);
        let late = rated("005", "001", "010000", "N", "000")[1].clone();
        let late = late.with(ar::RAILWAY, "1185").with(13, "20240614");
        drafts.push(late.with(ar::DISCOUNT, "090000"));
        assert_eq!(total(&drafts, &question), 2 * 720 + 2 * 500);
    }

    #[test]
    fn several_cards_need_flag_33() {
        let mut drafts = with_cards(&[
            rated("005", "001", "010000", "N", "000"),
            rated("007", "001", "020000", "N", "000"),
        ]);
        drafts.push(conditions("1185"));
        let question = asked(1, &[5, 7], &[(1185, 1000), (1181, 1000)]);
        assert_eq!(total(&drafts, &question), 1000 + 720);
    }

    #[test]
    fn a_card_twice_is_17_after_11_and_before_the_legs() {
        let twice = asked(1, &[7, 5, 7], &[(1185, 7)]);
        assert_eq!(refusal(&[], &twice), (17, 0, 0));
        assert_eq!(refusal(&[conditions("0000")], &twice), (17, 0, 0));
        let double = [conditions("0000"), conditions("0000")];
        assert_eq!(refusal(&double, &twice), (6, 1, 0));
        for cards in [
            [7, 7, 0, 1000],
            [1000, 1000, 0, 0],
            [0, 7, 7, 0],
            [7, 0, 7, 0],
        ] {
            let question = Question { cards, ..twice };
            assert_eq!(refusal(&[], &question), (11, 0, 0), "{cards:?}");
        }
    }
}
