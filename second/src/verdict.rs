//! Renders "The bundle", and "Keys and links" with R-2: numbers 1 to 7 in their order.

use std::collections::{HashMap, HashSet};

use crate::bundle::{CutFault, Cutter, Key, Record, LONGEST_BUNDLE};
use crate::layout::{ar, co, me, re, Table, ALL_RAILWAYS, TRANSFEROR};
use crate::period::Period;
use crate::refusal::Refusal;
use crate::values::first_broken_field;

#[derive(Clone, Copy, Debug, PartialEq, Eq, Hash)]
pub enum Verdict {
    Accepted(u64),
    Refused { number: u8, place: u64, detail: u64 },
}

pub fn verdict(bundle: &[u8]) -> Verdict {
    match accepted_records(bundle) {
        Ok(records) => Verdict::Accepted(records.len() as u64),
        Err(refusal) => Verdict::Refused {
            number: refusal.number,
            place: refusal.place,
            detail: refusal.detail,
        },
    }
}

pub fn accepted_records(bundle: &[u8]) -> Result<Vec<Record<'_>>, Refusal> {
    if bundle.len() > LONGEST_BUNDLE {
        return Err(Refusal::of_call(1));
    }
    let records = well_formed_records(bundle)?;
    check_relations(&records)?;
    Ok(records)
}

fn well_formed_records(bundle: &[u8]) -> Result<Vec<Record<'_>>, Refusal> {
    Cutter::of(bundle)
        .enumerate()
        .map(|(place, cut)| well_formed_record(place, cut))
        .collect()
}

fn well_formed_record(
    place: usize,
    cut: Result<Record<'_>, CutFault>,
) -> Result<Record<'_>, Refusal> {
    let record = cut.map_err(|fault| match fault {
        CutFault::NoMark => Refusal::at(2, place),
        CutFault::Short => Refusal::at(3, place),
    })?;
    match first_broken_field(&record) {
        Some(field) => Err(Refusal::new(4, place as u64, u64::from(field))),
        None => Ok(record),
    }
}

fn check_relations(records: &[Record]) -> Result<(), Refusal> {
    let Some(first) = records.first() else {
        return Ok(());
    };
    let house = first.value(TRANSFEROR);
    let targets = LinkTargets::among(records);
    let mut earlier = EarlierRecords::default();
    for (place, record) in records.iter().enumerate() {
        if record.value(TRANSFEROR) != house {
            return Err(Refusal::at(5, place));
        }
        if let Some(clash) = earlier.first_clash_on_adding(place, record) {
            return Err(Refusal::new(6, place as u64, clash as u64));
        }
        if let Some(detail) = targets.missing_for(record) {
            return Err(Refusal::new(7, place as u64, detail));
        }
    }
    Ok(())
}

/// By key, in their order: the place of each and its days.
#[derive(Default)]
struct EarlierRecords<'a>(HashMap<Key<'a>, Vec<(usize, Period)>>);

impl<'a> EarlierRecords<'a> {
    /// The place of the first of the same key with a day in common.
    fn first_clash_on_adding(&mut self, place: usize, record: &Record<'a>) -> Option<usize> {
        let period = record.period();
        let of_key = self.0.entry(record.key()).or_default();
        let clash = of_key
            .iter()
            .find(|(_, earlier)| earlier.shares_a_day_with(&period))
            .map(|&(earlier, _)| earlier);
        of_key.push((place, period));
        clash
    }
}

#[derive(Default)]
struct LinkTargets<'a> {
    discount_codes: HashSet<&'a [u8]>,
    offers_with_conditions: HashSet<&'a [u8]>,
    additional_discounts: RailwaysByOffer<'a>,
    memos: RailwaysByOffer<'a>,
}

impl<'a> LinkTargets<'a> {
    fn among(records: &[Record<'a>]) -> LinkTargets<'a> {
        let mut targets = LinkTargets::default();
        for record in records {
            targets.add(record);
        }
        targets
    }

    fn add(&mut self, record: &Record<'a>) {
        match record.table {
            Table::Co => {
                self.offers_with_conditions.insert(record.value(co::OFFER));
            }
            Table::Re => {
                self.discount_codes.insert(record.value(re::CODE));
            }
            Table::Ar => self
                .additional_discounts
                .add(record.value(ar::OFFER), record.value(ar::RAILWAY)),
            Table::Me => self
                .memos
                .add(record.value(me::OFFER), record.value(me::RAILWAY)),
        }
    }

    fn missing_for(&self, record: &Record) -> Option<u64> {
        let needs = match record.table {
            Table::Co => self.needs_of_conditions(record),
            Table::Re => vec![],
            Table::Ar => vec![
                (1, self.discount_codes.contains(record.value(ar::CODE))),
                (2, self.has_conditions(record.value(ar::OFFER))),
            ],
            Table::Me => vec![(2, self.has_conditions(record.value(me::OFFER)))],
        };
        needs
            .into_iter()
            .find(|(_, is_met)| !is_met)
            .map(|(detail, _)| detail)
    }

    fn needs_of_conditions(&self, record: &Record) -> Vec<(u64, bool)> {
        let (offer, railway) = (record.value(co::OFFER), record.value(co::RAILWAY));
        vec![
            (
                3,
                !record.is_yes(co::ADDITIONAL_DISCOUNTS)
                    || self.additional_discounts.serve(offer, railway),
            ),
            (
                4,
                !record.is_yes(co::MEMO) || self.memos.serve(offer, railway),
            ),
        ]
    }

    fn has_conditions(&self, offer: &[u8]) -> bool {
        self.offers_with_conditions.contains(offer)
    }
}

#[derive(Default)]
struct RailwaysByOffer<'a>(HashMap<&'a [u8], HashSet<&'a [u8]>>);

impl<'a> RailwaysByOffer<'a> {
    fn add(&mut self, offer: &'a [u8], railway: &'a [u8]) {
        self.0.entry(offer).or_default().insert(railway);
    }

    fn serve(&self, offer: &[u8], railway: &[u8]) -> bool {
        self.0.get(offer).is_some_and(|railways| {
            railway == ALL_RAILWAYS || railways.contains(railway) || railways.contains(ALL_RAILWAYS)
        })
    }
}

#[cfg(test)]
mod tests {
    use super::*;
    use crate::generate::drafts::{assemble, Draft};

    fn no(number: u8, place: u64, detail: u64) -> Verdict {
        Verdict::Refused {
            number,
            place,
            detail,
        }
    }

    fn judged(drafts: &[Draft]) -> Verdict {
        verdict(&assemble(drafts))
    }

    fn conditions(offer: &str, railway: &str) -> Draft {
        Draft::plain(Table::Co)
            .with(co::OFFER, offer)
            .with(co::RAILWAY, railway)
    }

    fn additional(offer: &str, railway: &str, code: &str) -> Draft {
        Draft::plain(Table::Ar)
            .with(ar::OFFER, offer)
            .with(ar::RAILWAY, railway)
            .with(ar::CODE, code)
    }

    fn memo(offer: &str, railway: &str) -> Draft {
        Draft::plain(Table::Me)
            .with(me::OFFER, offer)
            .with(me::RAILWAY, railway)
    }

    fn discount_type(code: &str) -> Draft {
        Draft::plain(Table::Re).with(re::CODE, code)
    }

    fn of_other_house(draft: Draft) -> Draft {
        draft.with(TRANSFEROR, "1181")
    }

    fn repeated_key_pair() -> [Draft; 2] {
        [conditions("00042", "1185"), conditions("00042", "1185")]
    }

    #[test]
    fn examples_of_the_verdict_program() {
        assert_eq!(verdict(b""), Verdict::Accepted(0));
        assert_eq!(verdict(b"XX"), no(2, 0, 0));
        let lone_additional = b"AR1185000420000007030000Y001N+050202401010120241231";
        assert_eq!(lone_additional.len(), 51);
        assert_eq!(verdict(lone_additional), no(7, 0, 1));
    }

    #[test]
    fn one_byte_left_is_2() {
        for byte in [b'C', b'R', b'A', b'M', b'\n', b'X', 0] {
            assert_eq!(verdict(&[byte]), no(2, 0, 0));
            let mut bundle = assemble(&[discount_type("007"), conditions("00042", "0000")]);
            bundle.push(byte);
            assert_eq!(verdict(&bundle), no(2, 2, 0));
        }
    }

    #[test]
    fn a_bare_mark_is_3() {
        for table in Table::ALL {
            assert_eq!(verdict(table.mark().as_bytes()), no(3, 0, 0));
        }
    }

    #[test]
    fn marks_are_exact() {
        for mark in [
            "co", "Co", "OC", "CE", "RO", "AE", "MR", "C ", " C", "OF", "FP",
        ] {
            let mut bundle = assemble(&[conditions("00042", "0000")]);
            bundle[..2].copy_from_slice(mark.as_bytes());
            assert_eq!(verdict(&bundle), no(2, 0, 0), "{mark}");
        }
    }

    #[test]
    fn a_short_record_is_not_looked_into() {
        for table in Table::ALL {
            let bundle = assemble(&[Draft::plain(table).with(TRANSFEROR, "ABCD")]);
            assert_eq!(verdict(&bundle), no(4, 0, 1));
            assert_eq!(verdict(&bundle[..bundle.len() - 1]), no(3, 0, 0));
        }
    }

    #[test]
    fn an_early_4_is_told_before_a_late_2_or_3() {
        let mut bundle = assemble(&[conditions("00000", "0000")]);
        bundle.extend_from_slice(b"XX");
        assert_eq!(verdict(&bundle), no(4, 0, 2));
        let end = bundle.len();
        bundle[end - 2..].copy_from_slice(b"ME");
        assert_eq!(verdict(&bundle), no(4, 0, 2));
    }

    #[test]
    fn a_late_4_2_or_3_is_told_before_an_early_5_6_or_7() {
        let mut drafts = repeated_key_pair().to_vec();
        drafts.push(of_other_house(discount_type("001")));
        drafts.push(additional("00099", "0000", "099"));
        assert_eq!(judged(&drafts), no(6, 1, 0));
        drafts.push(conditions("00042", "1185").with(44, "20231231"));
        assert_eq!(judged(&drafts), no(4, 4, 44));
        let mut bundle = assemble(&drafts[..4]);
        bundle.extend_from_slice(b"CO");
        assert_eq!(verdict(&bundle), no(3, 4, 0));
        bundle.pop();
        assert_eq!(verdict(&bundle), no(2, 4, 0));
    }

    #[test]
    fn per_record_5_then_6_then_7() {
        let all_three = of_other_house(additional("00042", "0000", "007"));
        let first = additional("00042", "0000", "007");
        let served = [
            conditions("00042", "0000"),
            discount_type("007"),
            first.clone(),
        ];
        let with = |last: Draft| judged(&[&served[..], &[last]].concat());
        assert_eq!(with(all_three), no(5, 3, 0));
        assert_eq!(with(first.clone()), no(6, 3, 2));
        assert_eq!(with(additional("00043", "0000", "007")), no(7, 3, 2));
        assert_eq!(judged(&[first.clone(), first]), no(7, 0, 1));
    }

    #[test]
    fn the_second_pass_goes_record_by_record() {
        let lonely = memo("00077", "0000");
        let missing_then_repeated = [
            conditions("00042", "0000"),
            lonely.clone(),
            conditions("00042", "0000"),
        ];
        assert_eq!(judged(&missing_then_repeated), no(7, 1, 2));
        let repeated_then_other_house = [
            &repeated_key_pair()[..],
            &[of_other_house(discount_type("001"))],
        ]
        .concat();
        assert_eq!(judged(&repeated_then_other_house), no(6, 1, 0));
        let other_house_then_repeated = [
            discount_type("001"),
            of_other_house(discount_type("002")),
            discount_type("001"),
        ];
        assert_eq!(judged(&other_house_then_repeated), no(5, 1, 0));
    }

    #[test]
    fn a_transferor_is_held_against_the_first_record() {
        let drafts = [
            of_other_house(discount_type("001")),
            discount_type("002"),
            discount_type("003"),
        ];
        assert_eq!(judged(&drafts), no(5, 1, 0));
    }

    #[test]
    fn a_target_of_another_transferor_serves() {
        let drafts = [
            additional("00042", "0000", "007"),
            conditions("00042", "0000"),
            of_other_house(discount_type("007")),
        ];
        assert_eq!(judged(&drafts), no(5, 2, 0));
    }

    #[test]
    fn a_target_that_repeats_a_key_serves() {
        let drafts = [
            additional("00042", "0000", "007"),
            conditions("00042", "0000"),
            discount_type("007"),
            discount_type("007"),
        ];
        assert_eq!(judged(&drafts), no(6, 3, 2));
    }

    #[test]
    fn keys_are_per_table_and_need_their_own_days() {
        let good = [
            conditions("00042", "0000"),
            conditions("00042", "1185"),
            conditions("00043", "0000"),
            memo("00042", "0000"),
            memo("00042", "1185"),
            discount_type("007"),
            discount_type("008"),
            additional("00042", "0000", "007"),
            additional("00042", "0000", "008"),
            additional("00042", "1185", "007"),
            additional("00043", "0000", "007"),
        ];
        assert_eq!(judged(&good), Verdict::Accepted(11));
        for (earlier, draft) in good.iter().enumerate() {
            let last_day = draft.table.rows().last().unwrap().field;
            let again = draft.clone().with(last_day, "20251231");
            let repeated = [&good[..], &[again]].concat();
            assert_eq!(judged(&repeated), no(6, 11, earlier as u64));
            let later = [&good[..], &[lasting(draft.clone(), "20250101", "20251231")]].concat();
            assert_eq!(judged(&later), Verdict::Accepted(12));
        }
    }

    fn lasting(draft: Draft, first: &str, last: &str) -> Draft {
        let (first_day, last_day) = draft.table.period_fields();
        draft.with(first_day, first).with(last_day, last)
    }

    /// Of one key, behind what they need; the places count from the first of these records.
    fn judged_with_periods(table: Table, periods: &[(&str, &str)]) -> Verdict {
        let needed = match table {
            Table::Co | Table::Re => vec![],
            Table::Ar => vec![discount_type("007"), conditions("00042", "1181")],
            Table::Me => vec![conditions("00042", "1181")],
        };
        let before = needed.len() as u64;
        let of_period = |&(first, last): &(&str, &str)| lasting(Draft::plain(table), first, last);
        let drafts = [needed, periods.iter().map(of_period).collect()].concat();
        match judged(&drafts) {
            Verdict::Accepted(count) => Verdict::Accepted(count - before),
            Verdict::Refused {
                number,
                place,
                detail,
            } => no(number, place - before, detail - before),
        }
    }

    #[test]
    fn records_of_one_key_may_not_share_a_day() {
        let summer = ("20240601", "20240930");
        for table in Table::ALL {
            let beside_summer = |first, last| {
                let told = judged_with_periods(table, &[summer, (first, last)]);
                let swapped = judged_with_periods(table, &[(first, last), summer]);
                assert_eq!(told, swapped);
                told
            };
            for (first, last) in [
                ("20240101", "20240531"),
                ("20240530", "20240530"),
                ("20241001", "20241001"),
                ("20241201", "99991231"),
                ("15830101", "20240531"),
            ] {
                assert_eq!(beside_summer(first, last), Verdict::Accepted(2));
            }
            for (first, last) in [
                ("20240101", "20240601"),
                ("20240930", "20241231"),
                ("20240601", "20240930"),
                ("20240715", "20240715"),
                ("20240101", "20241231"),
                ("20240601", "20240601"),
                ("20240930", "20240930"),
                ("15830101", "99991231"),
            ] {
                assert_eq!(beside_summer(first, last), no(6, 1, 0), "{first} {last}");
            }
        }
    }

    #[test]
    fn the_detail_is_the_first_earlier_record_that_shares_a_day() {
        let (winter, summer) = (("20240101", "20240331"), ("20240701", "20240930"));
        for table in Table::ALL {
            let behind = |earlier: [(&str, &str); 2], first, last| {
                judged_with_periods(table, &[earlier[0], earlier[1], (first, last)])
            };
            for (first, last, with_winter_first, with_summer_first) in [
                ("20240201", "20240831", no(6, 2, 0), no(6, 2, 0)),
                ("20240331", "20240630", no(6, 2, 0), no(6, 2, 1)),
                ("20240401", "20240701", no(6, 2, 1), no(6, 2, 0)),
                (
                    "20240401",
                    "20240630",
                    Verdict::Accepted(3),
                    Verdict::Accepted(3),
                ),
                (
                    "20241001",
                    "20241231",
                    Verdict::Accepted(3),
                    Verdict::Accepted(3),
                ),
            ] {
                assert_eq!(behind([winter, summer], first, last), with_winter_first);
                assert_eq!(behind([summer, winter], first, last), with_summer_first);
            }
        }
    }

    #[test]
    fn the_first_record_that_clashes_is_told() {
        let periods = [
            ("20240701", "20240930"),
            ("20240101", "20240331"),
            ("20240401", "20240430"),
            ("20240301", "20240401"),
            ("20240701", "20240701"),
        ];
        assert_eq!(judged_with_periods(Table::Co, &periods), no(6, 3, 1));
        assert_eq!(
            judged_with_periods(Table::Co, &periods[..3]),
            Verdict::Accepted(3)
        );
    }

    #[test]
    fn the_same_days_under_another_key_do_not_clash() {
        let drafts = [
            conditions("00042", "1185"),
            lasting(conditions("00042", "1185"), "20250101", "20250131"),
            conditions("00042", "1181"),
            lasting(conditions("00042", "0000"), "20250101", "20250131"),
            memo("00042", "1185"),
        ];
        assert_eq!(judged(&drafts), Verdict::Accepted(5));
    }

    #[test]
    fn links_ignore_days() {
        let of = |year: &str, draft: Draft| {
            lasting(draft, &format!("{year}0101"), &format!("{year}1231"))
        };
        let drafts = [
            of("2021", additional("00042", "0000", "007")),
            of("2022", discount_type("007")),
            of(
                "2023",
                conditions("00042", "1185").with(33, "Y").with(37, "Y"),
            ),
            of("2024", memo("00042", "1185")),
        ];
        assert_eq!(judged(&drafts), Verdict::Accepted(4));
        for (lost, told) in [(0, no(7, 1, 3)), (1, no(7, 0, 1)), (3, no(7, 2, 4))] {
            let mut fewer = drafts.to_vec();
            fewer.remove(lost);
            assert_eq!(judged(&fewer), told);
        }
    }

    #[test]
    fn a_later_season_of_a_key_is_held_to_5_and_7() {
        let later = |draft| lasting(draft, "20250101", "20251231");
        let with = |second| judged(&[conditions("00042", "1185"), second]);
        let same = conditions("00042", "1185");
        assert_eq!(with(later(of_other_house(same.clone()))), no(5, 1, 0));
        assert_eq!(with(later(same.clone().with(33, "Y"))), no(7, 1, 3));
        assert_eq!(with(same.with(33, "Y")), no(6, 1, 0));
    }

    #[test]
    fn an_additional_needs_its_type_and_then_its_conditions() {
        let lone = additional("00042", "0000", "007");
        let (type_7, offer_42) = (discount_type("007"), conditions("00042", "1181"));
        assert_eq!(judged(&[lone.clone(), offer_42.clone()]), no(7, 0, 1));
        assert_eq!(judged(&[lone.clone(), type_7.clone()]), no(7, 0, 2));
        assert_eq!(
            judged(&[lone.clone(), type_7.clone(), offer_42.clone()]),
            Verdict::Accepted(3)
        );
        assert_eq!(judged(&[type_7, offer_42, lone]), Verdict::Accepted(3));
    }

    #[test]
    fn a_memo_needs_conditions_of_its_offer_at_any_railway() {
        assert_eq!(judged(&[memo("00042", "1185")]), no(7, 0, 2));
        assert_eq!(
            judged(&[memo("00042", "1185"), conditions("00042", "1181")]),
            Verdict::Accepted(2)
        );
        assert_eq!(
            judged(&[memo("00042", "1185"), conditions("00043", "1185")]),
            no(7, 0, 2)
        );
    }

    fn with_additional_at(conditions_railway: &str, additional_railway: &str) -> Verdict {
        judged(&[
            conditions("00042", conditions_railway).with(33, "Y"),
            discount_type("007"),
            additional("00042", additional_railway, "007"),
        ])
    }

    fn with_memo_at(conditions_railway: &str, memo_railway: &str) -> Verdict {
        judged(&[
            conditions("00042", conditions_railway).with(37, "Y"),
            memo("00042", memo_railway),
        ])
    }

    #[test]
    fn railway_of_the_record_that_serves_a_flag() {
        for (conditions_railway, target_railway, serves) in [
            ("1185", "1185", true),
            ("1185", "0000", true),
            ("1185", "1181", false),
            ("0000", "0000", true),
            ("0000", "1181", true),
        ] {
            let expected_additional = if serves {
                Verdict::Accepted(3)
            } else {
                no(7, 0, 3)
            };
            let expected_memo = if serves {
                Verdict::Accepted(2)
            } else {
                no(7, 0, 4)
            };
            assert_eq!(
                with_additional_at(conditions_railway, target_railway),
                expected_additional
            );
            assert_eq!(
                with_memo_at(conditions_railway, target_railway),
                expected_memo
            );
        }
    }

    #[test]
    fn detail_3_before_4() {
        let both = conditions("00042", "0000").with(33, "Y").with(37, "Y");
        assert_eq!(judged(std::slice::from_ref(&both)), no(7, 0, 3));
        assert_eq!(
            judged(&[
                both,
                discount_type("007"),
                additional("00042", "1185", "007")
            ]),
            no(7, 0, 4)
        );
    }

    #[test]
    fn an_additional_or_memo_of_another_offer_does_not_serve() {
        let drafts = [
            conditions("00042", "0000").with(33, "Y"),
            conditions("00043", "0000"),
            discount_type("007"),
            additional("00043", "0000", "007"),
        ];
        assert_eq!(judged(&drafts), no(7, 0, 3));
    }

    #[test]
    fn flags_are_not_needed_by_additional_or_memo() {
        let drafts = [
            conditions("00042", "1185"),
            discount_type("007"),
            additional("00042", "1181", "007")
                .with(11, "20300101")
                .with(13, "20300101"),
            memo("00042", "1181"),
        ];
        assert_eq!(judged(&drafts), Verdict::Accepted(4));
    }

    #[test]
    fn a_record_shortened_in_the_middle_is_no_3() {
        let mut bundle = assemble(&[discount_type("001"), discount_type("002")]);
        bundle.remove(100);
        assert_eq!(verdict(&bundle), no(4, 0, 9));
    }

    #[test]
    fn the_longest_bundle() {
        let long = vec![b'X'; LONGEST_BUNDLE];
        assert_eq!(verdict(&long), no(2, 0, 0));
        let longer = vec![b'X'; LONGEST_BUNDLE + 1];
        assert_eq!(verdict(&longer), no(1, 0, 0));
    }
}
