//! Renders R-1, several cards on one ticket: what the cards of a question make of the amount of a leg.

pub mod kinds;

use crate::rounding::Reduction;
use crate::seasons::Source;

/// An AR record that applies to a leg on its day.
#[derive(Clone, Copy, Debug, PartialEq, Eq)]
pub struct CardRecord {
    pub code: u64,
    pub is_cumulative: bool,
    pub rating: u64,
    pub source: Source,
    pub reduction: Reduction,
}

#[derive(Clone, Copy, Debug, PartialEq, Eq)]
pub enum CardUse {
    None,
    OutsideItsDays,
    Applies(CardRecord),
}

/// Records that are applied in turn.
pub type Choice = Vec<CardRecord>;

/// What there is to decide on a leg.
#[derive(Clone, Debug, PartialEq, Eq)]
pub struct CardsOnLeg {
    pub are_read: bool,
    /// One for each given card, in the order of the slots.
    pub uses: Vec<CardUse>,
    pub after_conditions: u64,
}

impl CardsOnLeg {
    pub fn applying(&self) -> Vec<CardRecord> {
        let record_of = |used: &CardUse| match used {
            CardUse::Applies(record) => Some(*record),
            CardUse::None | CardUse::OutsideItsDays => None,
        };
        self.uses.iter().filter_map(record_of).collect()
    }

    pub fn amount_by(&self, choice: &[CardRecord]) -> u64 {
        choice.iter().fold(self.after_conditions, |amount, record| {
            record.reduction.apply(amount)
        })
    }

    /// The least by any permitted choice; a part of the cumulative records, or no card where one applies, is none.
    pub fn amount(&self) -> u64 {
        permitted_choices(&self.applying())
            .iter()
            .map(|choice| self.amount_by(choice))
            .min()
            .unwrap_or(self.after_conditions)
    }
}

/// The cumulative records together, if any, then each of the others alone.
pub fn permitted_choices(applying: &[CardRecord]) -> Vec<Choice> {
    let alone = applying.iter().filter(|record| !record.is_cumulative);
    together(applying)
        .into_iter()
        .chain(alone.map(|record| vec![*record]))
        .collect()
}

pub fn together(applying: &[CardRecord]) -> Option<Choice> {
    let mut chain: Choice = applying.to_vec();
    chain.retain(|record| record.is_cumulative);
    chain.sort_by_key(|record| (record.rating, record.code));
    (!chain.is_empty()).then_some(chain)
}

#[cfg(test)]
pub mod tests {
    use super::*;
    use crate::rounding::Rounding;

    pub fn record(code: u64, rating: u64, discount: u64, byte: u8, factor: u64) -> CardRecord {
        CardRecord {
            code,
            is_cumulative: true,
            rating,
            source: Source::Own,
            reduction: Reduction {
                discount,
                rounding: Rounding::of_accepted(byte, factor),
            },
        }
    }

    fn alone(record: CardRecord) -> CardRecord {
        CardRecord {
            is_cumulative: false,
            ..record
        }
    }

    fn amount(after_conditions: u64, records: &[CardRecord]) -> u64 {
        let on_leg = CardsOnLeg {
            are_read: true,
            uses: records.iter().copied().map(CardUse::Applies).collect(),
            after_conditions,
        };
        on_leg.amount()
    }

    fn half_up_to_50(code: u64, rating: u64) -> CardRecord {
        record(code, rating, 50_000, b'+', 50)
    }

    fn quarter_down_to_100(code: u64, rating: u64) -> CardRecord {
        record(code, rating, 25_000, b'-', 100)
    }

    #[test]
    fn together_in_rising_rating() {
        let half_first = [half_up_to_50(7, 1), quarter_down_to_100(5, 2)];
        assert_eq!(amount(134, &half_first), 0);
        let quarter_first = [half_up_to_50(5, 2), quarter_down_to_100(7, 1)];
        assert_eq!(amount(134, &quarter_first), 50);
    }

    #[test]
    fn a_single_card_is_one_step_whatever_its_field_6_and_rating() {
        for (rating, byte) in [(1, b'N'), (999, b'+')] {
            let single = record(7, rating, 30_000, byte, 50);
            let due = single.reduction.apply(758);
            assert_eq!(amount(758, &[single]), due);
            assert_eq!(amount(758, &[alone(single)]), due);
        }
    }

    #[test]
    fn at_equal_rating_in_rising_code() {
        for rating in [1, 999] {
            let half_first = [half_up_to_50(5, rating), quarter_down_to_100(7, rating)];
            assert_eq!(amount(134, &half_first), 0);
            let quarter_first = [half_up_to_50(7, rating), quarter_down_to_100(5, rating)];
            assert_eq!(amount(134, &quarter_first), 50);
        }
    }

    #[test]
    fn the_slots_do_not_order_the_records() {
        let records = [half_up_to_50(7, 1), quarter_down_to_100(5, 2)];
        let swapped = [records[1], records[0]];
        assert_eq!(amount(134, &records), amount(134, &swapped));
    }

    #[test]
    fn a_part_of_the_cumulative_records_is_no_choice() {
        let half = record(5, 1, 50_000, b'N', 0);
        let up_to_500 = record(7, 2, 1_000, b'+', 500);
        assert_eq!(amount(1, &[half, up_to_500]), 500);
        assert_eq!(amount(1, &[half]), 1);
    }

    #[test]
    fn no_card_is_no_choice_where_one_applies() {
        let up_to_998 = record(5, 1, 0, b'+', 998);
        assert_eq!(amount(100, &[up_to_998]), 998);
        assert_eq!(amount(100, &[alone(up_to_998)]), 998);
        assert_eq!(amount(100, &[]), 100);
    }

    #[test]
    fn each_other_record_alone_from_the_amount_after_the_conditions() {
        let tenth = record(5, 1, 10_000, b'N', 0);
        let fifth = record(6, 2, 20_000, b'N', 0);
        let half = record(7, 3, 50_000, b'N', 0);
        assert_eq!(amount(1000, &[tenth, fifth]), 720);
        assert_eq!(amount(1000, &[tenth, fifth, alone(half)]), 500);
        assert_eq!(amount(1000, &[alone(tenth), alone(fifth)]), 800);
        assert_eq!(amount(1000, &[alone(fifth), alone(tenth)]), 800);
        assert_eq!(amount(1000, &[tenth, half, alone(fifth)]), 450);
        assert_eq!(amount(1000, &[alone(half)]), 500);
    }

    #[test]
    fn rounded_after_each_by_its_own_record() {
        let quarter = record(5, 1, 25_000, b'N', 0);
        let third = record(6, 2, 30_000, b'N', 0);
        assert_eq!(amount(1010, &[quarter, third]), 531);
        let to_ten = record(7, 3, 0, b'+', 10);
        assert_eq!(amount(1010, &[quarter, third, to_ten]), 540);
        let to_fifty = record(8, 4, 0, b'-', 50);
        assert_eq!(amount(1010, &[quarter, third, to_ten, to_fifty]), 500);
    }

    #[test]
    fn choices_are_the_chain_and_each_other() {
        let [one, two] = [half_up_to_50(5, 2), half_up_to_50(6, 1)];
        let three = alone(half_up_to_50(7, 3));
        assert_eq!(
            permitted_choices(&[one, three, two]),
            [vec![two, one], vec![three]]
        );
        assert_eq!(permitted_choices(&[three]), [vec![three]]);
        assert!(permitted_choices(&[]).is_empty());
    }
}
