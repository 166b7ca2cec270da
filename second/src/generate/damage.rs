//! Renders "The bundle" and "Keys and links" backwards: bundles that are refused, or nearly.

use super::breakage::Breakage;
use super::drafts::{assemble, mark_places, Draft};
use super::overlaps::sharing_a_day;
use super::random::Random;
use super::valid::{drawn_record, valid_bundle, valid_drafts, Habits};
use crate::layout::{ar, co, me, re, Table, TRANSFEROR};
use crate::period::Period;

pub fn with_broken_field(random: &mut Random, breakage: &Breakage) -> Vec<u8> {
    let mut drafts = valid_drafts(random);
    break_field(random, &mut drafts, breakage);
    assemble(&drafts)
}

/// The record is put in where the bundle has none of the table.
pub fn break_field(random: &mut Random, drafts: &mut Vec<Draft>, breakage: &Breakage) -> usize {
    let place = place_of_some(random, drafts, breakage.table).unwrap_or_else(|| {
        let record = drawn_of_house(random, drafts, breakage.table);
        put_in(random, drafts, record)
    });
    breakage.apply(&mut drafts[place]);
    place
}

#[derive(Clone, Copy, Debug, PartialEq, Eq)]
pub enum RelationFault {
    OtherTransferor,
    FirstOfOtherTransferor,
    RepeatedKey,
    RepeatedKeyTwice,
    AdditionalWithoutType,
    AdditionalWithoutConditions,
    AdditionalWithNeither,
    MemoWithoutConditions,
    FlagWithoutAdditional,
    FlagWithAdditionalElsewhere,
    FlagWithoutMemo,
    FlagWithMemoElsewhere,
    BothFlagsWithNeither,
    LostRecord,
}

impl RelationFault {
    pub const ALL: [RelationFault; 14] = [
        RelationFault::OtherTransferor,
        RelationFault::FirstOfOtherTransferor,
        RelationFault::RepeatedKey,
        RelationFault::RepeatedKeyTwice,
        RelationFault::AdditionalWithoutType,
        RelationFault::AdditionalWithoutConditions,
        RelationFault::AdditionalWithNeither,
        RelationFault::MemoWithoutConditions,
        RelationFault::FlagWithoutAdditional,
        RelationFault::FlagWithAdditionalElsewhere,
        RelationFault::FlagWithoutMemo,
        RelationFault::FlagWithMemoElsewhere,
        RelationFault::BothFlagsWithNeither,
        RelationFault::LostRecord,
    ];

    pub fn apply(self, random: &mut Random, drafts: &mut Vec<Draft>) {
        match self {
            RelationFault::OtherTransferor => change_a_transferor(random, drafts),
            RelationFault::FirstOfOtherTransferor => change_first_transferor(random, drafts),
            RelationFault::RepeatedKey => repeat_a_key(random, drafts),
            RelationFault::RepeatedKeyTwice => {
                repeat_a_key(random, drafts);
                repeat_a_key(random, drafts);
            }
            RelationFault::AdditionalWithoutType => {
                let offer = some_offer(random, drafts);
                let code = unused_code(random, drafts);
                put_additional(random, drafts, offer, code);
            }
            RelationFault::AdditionalWithoutConditions => {
                let offer = unused_offer(random, drafts);
                let code = some_code(random, drafts);
                put_additional(random, drafts, offer, code);
            }
            RelationFault::AdditionalWithNeither => {
                let offer = unused_offer(random, drafts);
                let code = unused_code(random, drafts);
                put_additional(random, drafts, offer, code);
            }
            RelationFault::MemoWithoutConditions => {
                let offer = unused_offer(random, drafts);
                let railway = random.between_with_ends(0, 9999);
                put_numbered(
                    random,
                    drafts,
                    Table::Me,
                    &[(me::OFFER, offer), (me::RAILWAY, railway)],
                );
            }
            RelationFault::FlagWithoutAdditional => {
                let railway = random.between_with_ends(0, 9999);
                put_flagged_conditions(random, drafts, railway, &[co::ADDITIONAL_DISCOUNTS]);
            }
            RelationFault::FlagWithAdditionalElsewhere => {
                let (railway, elsewhere) = two_railways(random);
                let flags = [co::ADDITIONAL_DISCOUNTS];
                let offer = put_flagged_conditions(random, drafts, railway, &flags);
                let code = some_code(random, drafts);
                let key = [
                    (ar::OFFER, offer),
                    (ar::RAILWAY, elsewhere),
                    (ar::CODE, code),
                ];
                put_numbered(random, drafts, Table::Ar, &key);
            }
            RelationFault::FlagWithoutMemo => {
                let railway = random.between_with_ends(0, 9999);
                put_flagged_conditions(random, drafts, railway, &[co::MEMO]);
            }
            RelationFault::FlagWithMemoElsewhere => {
                let (railway, elsewhere) = two_railways(random);
                let offer = put_flagged_conditions(random, drafts, railway, &[co::MEMO]);
                let key = [(me::OFFER, offer), (me::RAILWAY, elsewhere)];
                put_numbered(random, drafts, Table::Me, &key);
            }
            RelationFault::BothFlagsWithNeither => {
                let railway = random.between_with_ends(0, 9999);
                let flags = [co::ADDITIONAL_DISCOUNTS, co::MEMO];
                put_flagged_conditions(random, drafts, railway, &flags);
            }
            RelationFault::LostRecord => lose_a_record(random, drafts),
        }
    }
}

pub fn with_relation_fault(random: &mut Random, fault: RelationFault) -> Vec<u8> {
    let mut drafts = valid_drafts(random);
    fault.apply(random, &mut drafts);
    assemble(&drafts)
}

fn change_a_transferor(random: &mut Random, drafts: &mut Vec<Draft>) {
    ensure_two_records(random, drafts);
    let place = 1 + random.place_in(drafts.len() - 1);
    let other = another(random, drafts[0].number(TRANSFEROR), 9999);
    drafts[place].write_number(TRANSFEROR, other);
}

fn change_first_transferor(random: &mut Random, drafts: &mut Vec<Draft>) {
    ensure_two_records(random, drafts);
    let other = another(random, drafts[0].number(TRANSFEROR), 9999);
    drafts[0].write_number(TRANSFEROR, other);
}

fn ensure_two_records(random: &mut Random, drafts: &mut Vec<Draft>) {
    while drafts.len() < 2 {
        let code = unused_code(random, drafts);
        put_numbered(random, drafts, Table::Re, &[(re::CODE, code)]);
    }
}

fn repeat_a_key(random: &mut Random, drafts: &mut Vec<Draft>) {
    ensure_two_records(random, drafts);
    let original = drafts[random.place_in(drafts.len())].clone();
    let copy = of_its_key_and_a_day_of_it(random, drafts, &original);
    put_in(random, drafts, copy);
}

pub fn of_its_key_and_a_day_of_it(
    random: &mut Random,
    drafts: &[Draft],
    original: &Draft,
) -> Draft {
    let period = sharing_a_day(random, original.period());
    of_its_key(random, drafts, original, period)
}

pub fn of_its_key(
    random: &mut Random,
    drafts: &[Draft],
    original: &Draft,
    period: Period,
) -> Draft {
    let mut draft = drawn_of_house(random, drafts, original.table);
    for &field in original.table.key_fields() {
        draft.write(field, original.value(field));
    }
    draft.write(TRANSFEROR, original.value(TRANSFEROR));
    draft.write_period(period);
    draft
}

fn lose_a_record(random: &mut Random, drafts: &mut Vec<Draft>) {
    if !drafts.is_empty() {
        drafts.remove(random.place_in(drafts.len()));
    }
}

fn put_additional(random: &mut Random, drafts: &mut Vec<Draft>, offer: u64, code: u64) {
    let railway = random.between(0, 9999);
    let key = [(ar::OFFER, offer), (ar::RAILWAY, railway), (ar::CODE, code)];
    put_numbered(random, drafts, Table::Ar, &key);
}

fn put_flagged_conditions(
    random: &mut Random,
    drafts: &mut Vec<Draft>,
    railway: u64,
    flags: &[u8],
) -> u64 {
    let offer = unused_offer(random, drafts);
    let key = [(co::OFFER, offer), (co::RAILWAY, railway)];
    let place = put_numbered(random, drafts, Table::Co, &key);
    for &flag in flags {
        drafts[place].write(flag, b"Y");
    }
    offer
}

fn put_numbered(
    random: &mut Random,
    drafts: &mut Vec<Draft>,
    table: Table,
    key: &[(u8, u64)],
) -> usize {
    let mut draft = drawn_of_house(random, drafts, table);
    for &(field, number) in key {
        draft.write_number(field, number);
    }
    put_in(random, drafts, draft)
}

fn put_in(random: &mut Random, drafts: &mut Vec<Draft>, draft: Draft) -> usize {
    let place = random.place_in(drafts.len() + 1);
    drafts.insert(place, draft);
    place
}

pub fn drawn_of_house(random: &mut Random, drafts: &[Draft], table: Table) -> Draft {
    let habits = match drafts.first() {
        Some(first) => Habits::of_house(random, first.number(TRANSFEROR)),
        None => Habits::drawn(random),
    };
    drawn_record(random, table, &habits)
}

fn place_of_some(random: &mut Random, drafts: &[Draft], table: Table) -> Option<usize> {
    let places: Vec<usize> = (0..drafts.len())
        .filter(|&place| drafts[place].table == table)
        .collect();
    (!places.is_empty()).then(|| random.pick(&places))
}

pub fn some_offer(random: &mut Random, drafts: &mut Vec<Draft>) -> u64 {
    let place = match place_of_some(random, drafts, Table::Co) {
        Some(place) => place,
        None => {
            let offer = unused_offer(random, drafts);
            put_numbered(random, drafts, Table::Co, &[(co::OFFER, offer)])
        }
    };
    drafts[place].number(co::OFFER)
}

pub fn some_code(random: &mut Random, drafts: &mut Vec<Draft>) -> u64 {
    let place = match place_of_some(random, drafts, Table::Re) {
        Some(place) => place,
        None => {
            let code = unused_code(random, drafts);
            put_numbered(random, drafts, Table::Re, &[(re::CODE, code)])
        }
    };
    drafts[place].number(re::CODE)
}

pub fn unused_offer(random: &mut Random, drafts: &[Draft]) -> u64 {
    loop {
        let offer = random.between(1, 99_999);
        let is_used = |draft: &Draft| draft.table != Table::Re && draft.number(co::OFFER) == offer;
        if !drafts.iter().any(is_used) {
            return offer;
        }
    }
}

pub fn unused_code(random: &mut Random, drafts: &[Draft]) -> u64 {
    loop {
        let code = random.between(1, 999);
        let is_used = |draft: &Draft| match draft.table {
            Table::Re => draft.number(re::CODE) == code,
            Table::Ar => draft.number(ar::CODE) == code,
            Table::Co | Table::Me => false,
        };
        if !drafts.iter().any(is_used) {
            return code;
        }
    }
}

fn two_railways(random: &mut Random) -> (u64, u64) {
    let railway = random.between_with_ends(1, 9999);
    (railway, another(random, railway, 9999))
}

pub fn another(random: &mut Random, number: u64, most: u64) -> u64 {
    loop {
        let other = random.between_with_ends(1, most);
        if other != number {
            return other;
        }
    }
}

#[derive(Clone, Copy, Debug, PartialEq, Eq)]
pub enum FramingFault {
    UnknownMark,
    MarkOfAnotherTable,
    ByteLeft,
    BareMark,
    CutAnywhere,
    CutLastRecord,
    CutOneByte,
}

impl FramingFault {
    pub const ALL: [FramingFault; 7] = [
        FramingFault::UnknownMark,
        FramingFault::MarkOfAnotherTable,
        FramingFault::ByteLeft,
        FramingFault::BareMark,
        FramingFault::CutAnywhere,
        FramingFault::CutLastRecord,
        FramingFault::CutOneByte,
    ];

    pub fn apply(self, random: &mut Random, drafts: &[Draft]) -> Vec<u8> {
        let mut bundle = assemble(drafts);
        let places = mark_places(drafts);
        match self {
            FramingFault::UnknownMark => {
                let mark = unknown_mark(random);
                write_a_mark(random, &mut bundle, &places, mark);
            }
            FramingFault::MarkOfAnotherTable => {
                let table = random.pick(&Table::ALL);
                write_a_mark(random, &mut bundle, &places, table.mark().as_bytes());
            }
            FramingFault::ByteLeft => bundle.push(random.pick(b"CRAMX\n\0 ")),
            FramingFault::BareMark => {
                let table = random.pick(&Table::ALL);
                bundle.extend_from_slice(table.mark().as_bytes());
            }
            FramingFault::CutAnywhere => bundle.truncate(random.place_in(bundle.len() + 1)),
            FramingFault::CutLastRecord => {
                let start = places.last().copied().unwrap_or(0);
                bundle.truncate(start + random.place_in(bundle.len() - start + 1));
            }
            FramingFault::CutOneByte => {
                bundle.pop();
            }
        }
        bundle
    }
}

fn unknown_mark(random: &mut Random) -> &'static [u8] {
    let marks: [&[u8]; 16] = [
        b"XX",
        b"co",
        b"Co",
        b"cO",
        b"OC",
        b"CE",
        b"RO",
        b"AE",
        b"MR",
        b"C ",
        b" C",
        b"FP",
        b"OF",
        b"\0\0",
        b"\xFF\xFF",
        b"ER",
    ];
    random.pick(&marks)
}

fn write_a_mark(random: &mut Random, bundle: &mut Vec<u8>, places: &[usize], mark: &[u8]) {
    if places.is_empty() {
        bundle.extend_from_slice(mark);
    } else {
        let place = random.pick(places);
        bundle[place..place + 2].copy_from_slice(mark);
    }
}

pub fn with_framing_fault(random: &mut Random, fault: FramingFault) -> Vec<u8> {
    let drafts = valid_drafts(random);
    fault.apply(random, &drafts)
}

/// Damage that knows nothing of records.
pub fn make_noise(random: &mut Random, bundle: &mut Vec<u8>) {
    let length = bundle.len();
    let at = random.place_in(length + 1);
    match random.below(9) {
        _ if length == 0 => bundle.push(random.byte()),
        0 | 1 => flip_bytes(random, bundle, 1),
        2 => flip_bytes(random, bundle, 5),
        3 => bundle.insert(at, random.byte()),
        4 => {
            bundle.remove(at % length);
        }
        5 => bundle.truncate(at),
        6 => copy_a_stretch(random, bundle),
        7 => {
            let other = valid_bundle(random);
            splice(random, bundle, &other);
        }
        _ => append_another(random, bundle),
    }
}

fn flip_bytes(random: &mut Random, bundle: &mut [u8], most: u64) {
    for _ in 0..random.between(1, most) {
        let at = random.place_in(bundle.len());
        bundle[at] = match random.below(3) {
            0 => bundle[at] ^ (1 << random.below(8)),
            1 => random.pick(b"0919YN +-"),
            _ => random.byte(),
        };
    }
}

fn copy_a_stretch(random: &mut Random, bundle: &mut Vec<u8>) {
    let start = random.place_in(bundle.len());
    let end = start + random.place_in(bundle.len() - start + 1);
    let stretch = bundle[start..end].to_vec();
    let at = random.place_in(bundle.len() + 1);
    bundle.splice(at..at, stretch);
}

fn splice(random: &mut Random, bundle: &mut Vec<u8>, other: &[u8]) {
    bundle.truncate(random.place_in(bundle.len() + 1));
    bundle.extend_from_slice(&other[random.place_in(other.len() + 1)..]);
}

fn append_another(random: &mut Random, bundle: &mut Vec<u8>) {
    let other = valid_bundle(random);
    bundle.extend_from_slice(&other);
}

pub fn with_noise(random: &mut Random) -> Vec<u8> {
    let mut bundle = valid_bundle(random);
    make_noise(random, &mut bundle);
    bundle
}

pub fn with_two_faults(random: &mut Random, breakages: &[Breakage]) -> Vec<u8> {
    let mut drafts = valid_drafts(random);
    damage_drafts(random, &mut drafts, breakages);
    match random.below(4) {
        0 => {
            let fault = random.pick(&FramingFault::ALL);
            fault.apply(random, &drafts)
        }
        1 => {
            let mut bundle = assemble(&drafts);
            make_noise(random, &mut bundle);
            bundle
        }
        2 => {
            break_one_record_twice(random, &mut drafts, breakages);
            assemble(&drafts)
        }
        _ => {
            damage_drafts(random, &mut drafts, breakages);
            assemble(&drafts)
        }
    }
}

fn damage_drafts(random: &mut Random, drafts: &mut Vec<Draft>, breakages: &[Breakage]) {
    if random.one_in(2) {
        let breakage = &breakages[random.place_in(breakages.len())];
        break_field(random, drafts, breakage);
    } else {
        random.pick(&RelationFault::ALL).apply(random, drafts);
    }
}

fn break_one_record_twice(random: &mut Random, drafts: &mut Vec<Draft>, breakages: &[Breakage]) {
    let first = &breakages[random.place_in(breakages.len())];
    let of_same_table: Vec<&Breakage> = breakages
        .iter()
        .filter(|breakage| breakage.table == first.table)
        .collect();
    let second = random.pick(&of_same_table);
    let place = break_field(random, drafts, first);
    second.apply(&mut drafts[place]);
}

/// Small inputs with little or no sense in them.
pub fn oddity(random: &mut Random) -> Vec<u8> {
    match random.below(6) {
        0 => vec![],
        1 => vec![random.byte()],
        2 => random.pick(&Table::ALL).mark().as_bytes().to_vec(),
        3 => {
            let length = random.below(400);
            (0..length).map(|_| random.byte()).collect()
        }
        4 => marked_bytes(random, |random| random.byte()),
        _ => marked_bytes(random, |random| random.pick(b"0123456789YN ")),
    }
}

fn marked_bytes(random: &mut Random, draw: impl Fn(&mut Random) -> u8) -> Vec<u8> {
    let table = random.pick(&Table::ALL);
    let mut bundle = table.mark().as_bytes().to_vec();
    bundle.extend((0..table.record_length()).map(|_| draw(random)));
    bundle
}

#[cfg(test)]
mod tests {
    use super::*;
    use crate::generate::breakage::every_breakage;
    use crate::verdict::{verdict, Verdict};

    #[test]
    fn a_broken_field_is_refused_at_its_record() {
        let mut random = Random::from_seed(31);
        for breakage in every_breakage() {
            let mut drafts = valid_drafts(&mut random);
            let place = break_field(&mut random, &mut drafts, &breakage) as u64;
            let expected = Verdict::Refused {
                number: 4,
                place,
                detail: u64::from(breakage.field),
            };
            assert_eq!(verdict(&assemble(&drafts)), expected, "{breakage:?}");
        }
    }

    #[test]
    fn the_first_of_two_broken_records_is_told() {
        let mut random = Random::from_seed(32);
        let breakages = every_breakage();
        for _ in 0..500 {
            let mut drafts: Vec<Draft> = Table::ALL.map(Draft::plain).into();
            let chosen = [(); 2].map(|()| &breakages[random.place_in(breakages.len())]);
            if chosen[0].table == chosen[1].table {
                continue;
            }
            let places = chosen.map(|breakage| break_field(&mut random, &mut drafts, breakage));
            let first = usize::from(places[1] < places[0]);
            let expected = Verdict::Refused {
                number: 4,
                place: places[first] as u64,
                detail: u64::from(chosen[first].field),
            };
            assert_eq!(verdict(&assemble(&drafts)), expected);
        }
    }

    fn outcomes(fault: RelationFault) -> Vec<(u8, u64)> {
        let mut random = Random::from_seed(33);
        let mut seen = Vec::new();
        for _ in 0..200 {
            let outcome = match verdict(&with_relation_fault(&mut random, fault)) {
                Verdict::Accepted(_) => (0, 0),
                Verdict::Refused {
                    number: 7, detail, ..
                } => (7, detail),
                Verdict::Refused { number, .. } => (number, 0),
            };
            if !seen.contains(&outcome) {
                seen.push(outcome);
            }
        }
        seen.sort();
        seen
    }

    #[test]
    fn relation_faults_lead_to_their_numbers() {
        let expected: [(RelationFault, &[(u8, u64)]); 13] = [
            (RelationFault::OtherTransferor, &[(5, 0)]),
            (RelationFault::FirstOfOtherTransferor, &[(5, 0)]),
            (RelationFault::RepeatedKey, &[(6, 0)]),
            (RelationFault::RepeatedKeyTwice, &[(6, 0)]),
            (RelationFault::AdditionalWithoutType, &[(7, 1)]),
            (RelationFault::AdditionalWithoutConditions, &[(7, 2)]),
            (RelationFault::AdditionalWithNeither, &[(7, 1)]),
            (RelationFault::MemoWithoutConditions, &[(7, 2)]),
            (RelationFault::FlagWithoutAdditional, &[(7, 3)]),
            (RelationFault::FlagWithAdditionalElsewhere, &[(7, 3)]),
            (RelationFault::FlagWithoutMemo, &[(7, 4)]),
            (RelationFault::FlagWithMemoElsewhere, &[(7, 4)]),
            (RelationFault::BothFlagsWithNeither, &[(7, 3)]),
        ];
        for (fault, numbers) in expected {
            assert_eq!(outcomes(fault), numbers, "{fault:?}");
        }
        assert!(outcomes(RelationFault::LostRecord).len() >= 4);
    }
}
