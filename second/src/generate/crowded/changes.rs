//! Renders "Keys and links" backwards: what is changed in a crowded bundle, and where in the order of its records.

use std::collections::HashSet;

use super::LARGEST_RAILWAY;
use crate::generate::damage::{
    another, drawn_of_house, of_its_key_and_a_day_of_it, unused_code, unused_offer,
};
use crate::generate::drafts::Draft;
use crate::generate::random::Random;
use crate::layout::{ar, co, re, Table, TRANSFEROR};

#[derive(Clone, Copy, Debug, PartialEq, Eq)]
pub enum Change {
    Nothing,
    KeyRepeatedNearBy,
    KeyRepeatedFarApart,
    FirstKeyRepeatedLast,
    TwoKeysRepeated,
    LostType,
    LostConditions,
    LostAdditional,
    LostMemo,
    KeyRepeatedAndLostLink,
    OtherTransferor,
    BrokenField,
}

impl Change {
    /// As many as share no divisor with the lengths and the orders.
    pub const IN_TURN: [Change; 13] = [
        Change::Nothing,
        Change::KeyRepeatedNearBy,
        Change::LostType,
        Change::KeyRepeatedFarApart,
        Change::LostConditions,
        Change::FirstKeyRepeatedLast,
        Change::Nothing,
        Change::LostAdditional,
        Change::TwoKeysRepeated,
        Change::LostMemo,
        Change::KeyRepeatedAndLostLink,
        Change::OtherTransferor,
        Change::BrokenField,
    ];

    pub fn apply(self, random: &mut Random, drafts: &mut Vec<Draft>) {
        match self {
            Change::Nothing => (),
            Change::KeyRepeatedNearBy => repeat_near_by(random, drafts),
            Change::KeyRepeatedFarApart => repeat_far_apart(random, drafts),
            Change::FirstKeyRepeatedLast => repeat_key(random, drafts, 0, drafts.len()),
            Change::TwoKeysRepeated => {
                repeat_anywhere(random, drafts);
                repeat_anywhere(random, drafts);
            }
            Change::LostType => lose_servers(random, drafts, Link::Type),
            Change::LostConditions => lose_servers(random, drafts, Link::Conditions),
            Change::LostAdditional => lose_servers(random, drafts, Link::Additional),
            Change::LostMemo => lose_servers(random, drafts, Link::Memo),
            Change::KeyRepeatedAndLostLink => {
                repeat_anywhere(random, drafts);
                let link = random.pick(&Link::ALL);
                lose_servers(random, drafts, link);
            }
            Change::OtherTransferor => change_late_transferor(random, drafts),
            Change::BrokenField => {
                repeat_anywhere(random, drafts);
                let place = late_place(random, drafts);
                drafts[place].write_number(TRANSFEROR, 0);
            }
        }
    }
}

/// A new record with the key of the earlier one, and a day of it, is put in at the later place.
fn repeat_key(random: &mut Random, drafts: &mut Vec<Draft>, earlier: usize, later: usize) {
    let original = drafts[earlier].clone();
    let copy = of_its_key_and_a_day_of_it(random, drafts, &original);
    drafts.insert(later, copy);
}

fn repeat_near_by(random: &mut Random, drafts: &mut Vec<Draft>) {
    let earlier = some_place(random, drafts);
    let later = earlier + random.between(1, 3) as usize;
    repeat_key(random, drafts, earlier, later.min(drafts.len()));
}

fn repeat_far_apart(random: &mut Random, drafts: &mut Vec<Draft>) {
    let quarter = drafts.len() / 4;
    let earlier = some_place(random, &drafts[..quarter + 1]);
    let later = drafts.len() - random.place_in(quarter + 1);
    repeat_key(random, drafts, earlier, later);
}

fn repeat_anywhere(random: &mut Random, drafts: &mut Vec<Draft>) {
    let earlier = some_place(random, drafts);
    let later = random.between(earlier as u64 + 1, drafts.len() as u64);
    repeat_key(random, drafts, earlier, later as usize);
}

/// Tables of which there are few records come up often.
fn some_place(random: &mut Random, drafts: &[Draft]) -> usize {
    let table = random.pick(&[Table::Co, Table::Re, Table::Ar, Table::Me, Table::Me]);
    let of_table = |place: &usize| drafts[*place].table == table;
    let places: Vec<usize> = (0..drafts.len()).filter(of_table).collect();
    match places.is_empty() || random.one_in(4) {
        true => random.place_in(drafts.len()),
        false => random.pick(&places),
    }
}

fn late_place(random: &mut Random, drafts: &[Draft]) -> usize {
    let behind = random.between(1, 5) as usize;
    drafts.len().saturating_sub(behind)
}

fn change_late_transferor(random: &mut Random, drafts: &mut [Draft]) {
    let place = late_place(random, drafts).max(1);
    let other = another(random, drafts[0].number(TRANSFEROR), 9_999);
    drafts[place].write_number(TRANSFEROR, other);
}

#[derive(Clone, Copy, Debug, PartialEq, Eq)]
enum Link {
    Type,
    Conditions,
    Additional,
    Memo,
}

impl Link {
    const ALL: [Link; 4] = [Link::Type, Link::Conditions, Link::Additional, Link::Memo];

    fn is_needed_by(self, draft: &Draft) -> bool {
        match (self, draft.table) {
            (Link::Type, Table::Ar) | (Link::Conditions, Table::Ar | Table::Me) => true,
            (Link::Additional, Table::Co) => draft.record().is_yes(co::ADDITIONAL_DISCOUNTS),
            (Link::Memo, Table::Co) => draft.record().is_yes(co::MEMO),
            _ => false,
        }
    }

    fn is_served_by(self, needy: &Draft, server: &Draft) -> bool {
        match (self, server.table) {
            (Link::Type, Table::Re) => server.value(re::CODE) == needy.value(ar::CODE),
            (Link::Conditions, Table::Co) => server.value(co::OFFER) == needy.value(ar::OFFER),
            (Link::Additional, Table::Ar) | (Link::Memo, Table::Me) => {
                serves_conditions(needy, server)
            }
            _ => false,
        }
    }
}

fn serves_conditions(conditions: &Draft, server: &Draft) -> bool {
    let (needed, given) = (conditions.number(co::RAILWAY), server.number(ar::RAILWAY));
    server.value(ar::OFFER) == conditions.value(co::OFFER)
        && (needed == 0 || given == 0 || given == needed)
}

/// Takes out or moves all that serves one record; where none needs the link, one is made to.
fn lose_servers(random: &mut Random, drafts: &mut Vec<Draft>, link: Link) {
    let needs = |place: &usize| link.is_needed_by(&drafts[*place]);
    let needy: Vec<usize> = (0..drafts.len()).filter(needs).collect();
    if needy.is_empty() {
        return put_unserved(random, drafts, link);
    }
    let needy = drafts[random.pick(&needy)].clone();
    if random.one_in(2) {
        drafts.retain(|draft| !link.is_served_by(&needy, draft));
    } else {
        move_servers(random, drafts, link, &needy);
    }
}

fn move_servers(random: &mut Random, drafts: &mut [Draft], link: Link, needy: &Draft) {
    let (offer, code) = (unused_offer(random, drafts), unused_code(random, drafts));
    let (railway, for_default) = (
        unused_railway(random, drafts),
        unused_railway(random, drafts),
    );
    let servers = drafts
        .iter_mut()
        .filter(|draft| link.is_served_by(needy, draft));
    for server in servers {
        match server.table {
            Table::Re => server.write_number(re::CODE, code),
            Table::Co => server.write_number(co::OFFER, offer),
            Table::Ar | Table::Me if needy.number(co::RAILWAY) == 0 => {
                server.write_number(ar::OFFER, offer);
            }
            Table::Ar | Table::Me if server.number(ar::RAILWAY) == 0 => {
                server.write_number(ar::RAILWAY, for_default);
            }
            Table::Ar | Table::Me => server.write_number(ar::RAILWAY, railway),
        }
    }
}

fn unused_railway(random: &mut Random, drafts: &[Draft]) -> u64 {
    let of_draft = |draft: &Draft| (draft.table != Table::Re).then(|| draft.number(co::RAILWAY));
    let used: HashSet<u64> = drafts.iter().filter_map(of_draft).collect();
    loop {
        let railway = random.between(1, LARGEST_RAILWAY);
        if !used.contains(&railway) {
            return railway;
        }
    }
}

fn put_unserved(random: &mut Random, drafts: &mut Vec<Draft>, link: Link) {
    let table = match link {
        Link::Type | Link::Conditions => Table::Ar,
        Link::Additional | Link::Memo => Table::Co,
    };
    let mut draft = drawn_of_house(random, drafts, table);
    let types = drafts.iter().find(|draft| draft.table == Table::Re);
    match (link, types) {
        (Link::Type, _) => draft.write_number(ar::CODE, unused_code(random, drafts)),
        (Link::Conditions, Some(kind)) => draft.write(ar::CODE, kind.value(re::CODE)),
        (Link::Additional, _) => draft.write(co::ADDITIONAL_DISCOUNTS, b"Y"),
        (Link::Memo, _) => draft.write(co::MEMO, b"Y"),
        _ => (),
    }
    draft.write_number(co::OFFER, unused_offer(random, drafts));
    let place = random.place_in(drafts.len() + 1);
    drafts.insert(place, draft);
}
