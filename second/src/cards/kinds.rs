//! Renders R-1 as kinds of decisions on a leg, and as other rules that some amount tells apart from it.

use std::cmp::Reverse;

use super::{together, CardRecord, CardUse, CardsOnLeg, Choice};
use crate::rounding::rounded_once;
use crate::seasons::Source;

/// What each permitted choice comes to.
struct Decision {
    given: usize,
    are_read: bool,
    chain: Option<(usize, u64)>,
    /// In the order of the slots.
    alone: Vec<u64>,
    least: u64,
}

impl Decision {
    fn on(leg: &CardsOnLeg) -> Decision {
        let applying = leg.applying();
        let chain = together(&applying);
        Decision {
            given: leg.uses.len(),
            are_read: leg.are_read,
            chain: chain.map(|chain| (chain.len(), leg.amount_by(&chain))),
            alone: amounts_alone(leg),
            least: leg.amount(),
        }
    }

    fn chain_amount(&self) -> Option<u64> {
        self.chain.map(|(_, amount)| amount)
    }

    fn chain_is_less_than_each_alone(&self) -> bool {
        let chain = self.chain_amount();
        chain.is_some_and(|chain| self.alone.iter().all(|&amount| chain < amount))
    }

    fn chain_decides(&self, length: usize) -> bool {
        let has_length = self.chain.is_some_and(|(records, _)| records == length);
        has_length && self.chain_is_less_than_each_alone()
    }

    fn times_least_alone(&self) -> usize {
        let is_least = |amount: &&u64| **amount == self.least;
        self.alone.iter().filter(is_least).count()
    }

    /// The place of the only choice that comes to the least, among several that are applied alone.
    fn decider_of_several(&self) -> Option<usize> {
        let is_only = self.times_least_alone() == 1 && self.chain_amount() != Some(self.least);
        let place = self.alone.iter().position(|&amount| amount == self.least);
        place.filter(|_| is_only && self.alone.len() > 1)
    }

    fn is_decided_in_the_midst(&self) -> bool {
        let last = self.alone.len().saturating_sub(1);
        let place = self.decider_of_several();
        place.is_some_and(|place| place > 0 && place < last)
    }
}

type KindOfDecision = (&'static str, fn(&Decision) -> bool);

const KINDS_OF_DECISIONS: [KindOfDecision; 14] = [
    ("flag 33 is N", |d| d.given > 0 && !d.are_read),
    ("none applies", |d| {
        d.are_read && d.given > 0 && d.chain.is_none() && d.alone.is_empty()
    }),
    ("Y chain of 1", |d| d.chain_decides(1)),
    ("Y chain of 2", |d| d.chain_decides(2)),
    ("Y chain of 3", |d| d.chain_decides(3)),
    ("Y chain of 4", |d| d.chain_decides(4)),
    ("an N only", |d| d.chain.is_none() && d.alone.len() == 1),
    ("N beats Y", |d| {
        d.chain_amount().is_some_and(|y| d.least < y)
    }),
    ("Y beats N", |d| {
        !d.alone.is_empty() && d.chain_is_less_than_each_alone()
    }),
    ("first of several N", |d| d.decider_of_several() == Some(0)),
    ("last of several N", |d| {
        d.decider_of_several() == d.alone.len().checked_sub(1) && !d.alone.is_empty()
    }),
    ("N in the midst", Decision::is_decided_in_the_midst),
    ("Y and N tie", |d| {
        d.chain_amount() == Some(d.least) && d.times_least_alone() > 0
    }),
    ("two N tie", |d| d.times_least_alone() > 1),
];

type KindOfUse = (&'static str, fn(&CardUse) -> bool);

/// Beside another card that applies.
const KINDS_OF_USES: [KindOfUse; 4] = [
    ("one without record", |used| *used == CardUse::None),
    ("one off its day", |used| *used == CardUse::OutsideItsDays),
    ("one by own record", |used| is_from(used, Source::Own)),
    ("one by 0000", |used| is_from(used, Source::Default)),
];

fn is_from(used: &CardUse, source: Source) -> bool {
    matches!(used, CardUse::Applies(record) if record.source == source)
}

/// The kinds of decision that a leg is one of.
pub fn kinds_of(leg: &CardsOnLeg) -> Vec<&'static str> {
    let decision = Decision::on(leg);
    let decided = KINDS_OF_DECISIONS
        .into_iter()
        .filter(|(_, is_met)| is_met(&decision));
    decided.map(|(name, _)| name).collect()
}

/// The kinds of cards that stand on a leg beside another that applies.
pub fn uses_beside(leg: &CardsOnLeg) -> Vec<&'static str> {
    let applying = leg.applying().len();
    let is_beside = |used: &&CardUse| {
        let itself = matches!(used, CardUse::Applies(_));
        applying > usize::from(itself)
    };
    let beside: Vec<&CardUse> = leg.uses.iter().filter(is_beside).collect();
    let met = KINDS_OF_USES
        .into_iter()
        .filter(|(_, is_met)| beside.iter().any(|used| is_met(used)));
    met.map(|(name, _)| name).collect()
}

type OtherRule = (&'static str, fn(&CardsOnLeg) -> u64);

/// Choices that are not permitted though they may be cheaper.
const CHEAPER_RULES: [OtherRule; 2] = [
    ("a part of the Y", |leg| {
        let parts = parts_of(&cumulative(leg));
        let amounts = parts.iter().map(|part| least_with(leg, part));
        amounts.min().unwrap_or(leg.amount())
    }),
    ("no card", |leg| leg.amount().min(leg.after_conditions)),
];

const OTHER_RULES: [OtherRule; 11] = [
    ("falling rating", |leg| {
        with_chain_by(leg, |record| (Reverse(record.rating), record.code))
    }),
    ("falling code", |leg| {
        with_chain_by(leg, |record| (record.rating, Reverse(record.code)))
    }),
    ("code alone", |leg| with_chain_by(leg, |record| record.code)),
    ("order of slots", |leg| least_with(leg, &cumulative(leg))),
    ("each Y alone", |leg| {
        let each = leg.applying().into_iter();
        let amounts = each.map(|record| leg.amount_by(&[record]));
        amounts.min().unwrap_or(leg.after_conditions)
    }),
    ("all together", |leg| {
        leg.amount_by(&in_order(leg.applying()))
    }),
    ("N after the Y", |leg| {
        let chain = in_order(cumulative(leg));
        let after = |record| leg.amount_by(&[chain.clone(), vec![record]].concat());
        let amounts = not_cumulative(leg).into_iter().map(after);
        amounts.min().unwrap_or(leg.amount())
    }),
    ("the dearest", |leg| {
        let chain = together(&leg.applying()).map(|chain| leg.amount_by(&chain));
        let amounts = amounts_alone(leg).into_iter().chain(chain);
        amounts.max().unwrap_or(leg.after_conditions)
    }),
    ("the first N", |leg| {
        let first = not_cumulative(leg).into_iter().take(1);
        let choices = together(&leg.applying())
            .into_iter()
            .chain(first.map(|record| vec![record]));
        let amounts = choices.map(|choice| leg.amount_by(&choice));
        amounts.min().unwrap_or(leg.after_conditions)
    }),
    ("the first card only", |leg| {
        let first = leg.applying().into_iter().take(1);
        leg.amount_by(&first.collect::<Choice>())
    }),
    ("one rounding", |leg| {
        let reductions: Vec<_> = in_order(cumulative(leg))
            .iter()
            .map(|record| record.reduction)
            .collect();
        let chain = rounded_once(&reductions, leg.after_conditions);
        let amounts = amounts_alone(leg).into_iter().chain(chain);
        amounts.min().unwrap_or(leg.after_conditions)
    }),
];

/// The choices that are not permitted and would have been cheaper.
pub fn cheaper_choices(leg: &CardsOnLeg) -> Vec<&'static str> {
    told_apart(leg, &CHEAPER_RULES)
}

/// The other rules that would have given another amount.
pub fn other_rules(leg: &CardsOnLeg) -> Vec<&'static str> {
    told_apart(leg, &OTHER_RULES)
}

fn told_apart(leg: &CardsOnLeg, rules: &[OtherRule]) -> Vec<&'static str> {
    let amount = leg.amount();
    let differs = rules.iter().filter(|(_, rule)| rule(leg) != amount);
    differs.map(|(name, _)| *name).collect()
}

/// All names that the functions above can give, each list in its order.
pub mod names {
    use super::{CHEAPER_RULES, KINDS_OF_DECISIONS, KINDS_OF_USES, OTHER_RULES};

    pub fn of_decisions() -> Vec<&'static str> {
        KINDS_OF_DECISIONS.map(|(name, _)| name).to_vec()
    }

    pub fn of_uses() -> Vec<&'static str> {
        KINDS_OF_USES.map(|(name, _)| name).to_vec()
    }

    pub fn of_cheaper_choices() -> Vec<&'static str> {
        CHEAPER_RULES.map(|(name, _)| name).to_vec()
    }

    pub fn of_other_rules() -> Vec<&'static str> {
        OTHER_RULES.map(|(name, _)| name).to_vec()
    }
}

fn cumulative(leg: &CardsOnLeg) -> Choice {
    let mut records = leg.applying();
    records.retain(|record| record.is_cumulative);
    records
}

fn not_cumulative(leg: &CardsOnLeg) -> Choice {
    let mut records = leg.applying();
    records.retain(|record| !record.is_cumulative);
    records
}

fn amounts_alone(leg: &CardsOnLeg) -> Vec<u64> {
    let alone = not_cumulative(leg).into_iter();
    alone.map(|record| leg.amount_by(&[record])).collect()
}

fn in_order(mut records: Choice) -> Choice {
    records.sort_by_key(|record| (record.rating, record.code));
    records
}

/// The least of this chain, if there is any in it, and each of the others alone.
fn least_with(leg: &CardsOnLeg, chain: &[CardRecord]) -> u64 {
    let by_chain = (!chain.is_empty()).then(|| leg.amount_by(chain));
    let amounts = amounts_alone(leg).into_iter().chain(by_chain);
    amounts.min().unwrap_or(leg.after_conditions)
}

fn with_chain_by<K: Ord>(leg: &CardsOnLeg, key: impl Fn(&CardRecord) -> K) -> u64 {
    let mut chain = cumulative(leg);
    chain.sort_by_key(key);
    least_with(leg, &chain)
}

/// Each in order, with at least one record.
fn parts_of(records: &[CardRecord]) -> Vec<Choice> {
    let part = |chosen: u32| {
        let places = (0..records.len()).filter(|place| chosen >> place & 1 == 1);
        in_order(places.map(|place| records[place]).collect())
    };
    (1..1 << records.len()).map(part).collect()
}

#[cfg(test)]
mod tests {
    use super::*;
    use crate::cards::tests::record;

    fn alone(code: u64, discount: u64) -> CardRecord {
        CardRecord {
            is_cumulative: false,
            ..record(code, 1, discount, b'N', 0)
        }
    }

    fn on_leg(after_conditions: u64, records: &[CardRecord]) -> CardsOnLeg {
        CardsOnLeg {
            are_read: true,
            uses: records.iter().copied().map(CardUse::Applies).collect(),
            after_conditions,
        }
    }

    #[test]
    fn no_card_is_no_kind_and_tells_no_rule_apart() {
        let leg = on_leg(1000, &[]);
        assert!(kinds_of(&leg).is_empty() && uses_beside(&leg).is_empty());
        assert!(cheaper_choices(&leg).is_empty() && other_rules(&leg).is_empty());
    }

    #[test]
    fn cards_that_do_nothing() {
        let mut leg = on_leg(1000, &[]);
        leg.uses = vec![CardUse::None, CardUse::OutsideItsDays];
        assert_eq!(kinds_of(&leg), ["none applies"]);
        leg.are_read = false;
        leg.uses = vec![CardUse::None];
        assert_eq!(kinds_of(&leg), ["flag 33 is N"]);
        assert!(uses_beside(&leg).is_empty() && other_rules(&leg).is_empty());
    }

    #[test]
    fn kinds_of_chains_and_of_records_alone() {
        let chain = [2, 3, 4, 5].map(|code| record(code, 1, 10_000, b'N', 0));
        for (count, kind) in [
            (1, "Y chain of 1"),
            (2, "Y chain of 2"),
            (4, "Y chain of 4"),
        ] {
            assert_eq!(kinds_of(&on_leg(1000, &chain[..count])), [kind]);
        }
        let [dear, cheap] = [alone(7, 5_000), alone(8, 50_000)];
        let of = |records: &[CardRecord]| kinds_of(&on_leg(1000, records));
        assert_eq!(of(&[cheap]), ["an N only"]);
        assert_eq!(of(&[chain[0], cheap]), ["N beats Y"]);
        assert_eq!(of(&[dear, chain[0]]), ["Y chain of 1", "Y beats N"]);
        assert_eq!(of(&[cheap, dear]), ["first of several N"]);
        assert_eq!(of(&[dear, cheap]), ["last of several N"]);
        assert_eq!(of(&[dear, cheap, dear]), ["N in the midst"]);
        assert_eq!(of(&[alone(9, 10_000), chain[0]]), ["Y and N tie"]);
        assert_eq!(of(&[cheap, cheap]), ["two N tie"]);
    }

    #[test]
    fn cards_beside_one_that_applies() {
        let mut leg = on_leg(1000, &[alone(7, 5_000)]);
        assert!(uses_beside(&leg).is_empty());
        leg.uses.push(CardUse::OutsideItsDays);
        assert_eq!(uses_beside(&leg), ["one off its day"]);
        leg.uses.push(CardUse::None);
        assert_eq!(uses_beside(&leg), ["one without record", "one off its day"]);
    }

    #[test]
    fn choices_that_would_have_been_cheaper() {
        let half = record(5, 1, 50_000, b'N', 0);
        let up_to_500 = record(7, 2, 1_000, b'+', 500);
        let leg = on_leg(1, &[half, up_to_500]);
        assert_eq!(cheaper_choices(&leg), ["a part of the Y", "no card"]);
        assert_eq!(cheaper_choices(&on_leg(1, &[half])), Vec::<&str>::new());
        assert_eq!(cheaper_choices(&on_leg(100, &[up_to_500])), ["no card"]);
    }

    #[test]
    fn rules_of_order_are_told_apart() {
        let half = |code, rating| record(code, rating, 50_000, b'+', 50);
        let quarter = |code, rating| record(code, rating, 25_000, b'-', 100);
        let differs =
            |records: &[CardRecord], rule| other_rules(&on_leg(134, records)).contains(&rule);
        let by_rating = [quarter(5, 2), half(7, 1)];
        for rule in ["falling rating", "code alone", "order of slots"] {
            assert!(differs(&by_rating, rule), "{rule}");
        }
        assert!(!differs(&by_rating, "falling code"));
        let by_code = [half(5, 9), quarter(7, 9)];
        assert!(differs(&by_code, "falling code"));
        for rule in ["falling rating", "code alone", "order of slots"] {
            assert!(!differs(&by_code, rule), "{rule}");
        }
    }

    #[test]
    fn other_rules_are_told_apart() {
        let tenth = record(5, 1, 10_000, b'N', 0);
        let fifth = record(6, 2, 20_000, b'N', 0);
        let told = other_rules(&on_leg(1000, &[tenth, alone(7, 5_000), fifth]));
        for rule in [
            "each Y alone",
            "all together",
            "N after the Y",
            "the dearest",
        ] {
            assert!(told.contains(&rule), "{rule}");
        }
        let told = other_rules(&on_leg(1000, &[alone(7, 5_000), alone(8, 6_000)]));
        assert!(told.contains(&"the first N") && told.contains(&"the first card only"));
        let quarter = record(5, 1, 25_000, b'N', 0);
        let third = record(6, 2, 30_000, b'N', 0);
        let told = other_rules(&on_leg(1010, &[quarter, third]));
        assert!(told.contains(&"one rounding"));
    }
}
