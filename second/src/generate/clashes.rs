//! Renders R-2 backwards: records of one key, of which the last shares a day with some of the earlier ones, or with none.

use super::damage::{drawn_of_house, of_its_key, some_code, some_offer, unused_code};
use super::drafts::{assemble, Draft};
use super::overlaps::{Overlap, Room};
use super::periods::timetable;
use super::random::Random;
use super::valid::{drawn_day, valid_drafts};
use crate::layout::{ar, co, re, Table};
use crate::period::Period;

/// With which of the earlier records of its key one shares a day.
#[derive(Clone, Copy, Debug, PartialEq, Eq)]
pub enum Clash {
    None,
    TheOnlyOne,
    FirstAlone,
    LaterAlone,
    FirstAndOthers,
    LaterOnes,
}

impl Clash {
    pub const ALL: [Clash; 6] = [
        Clash::None,
        Clash::TheOnlyOne,
        Clash::FirstAlone,
        Clash::LaterAlone,
        Clash::FirstAndOthers,
        Clash::LaterOnes,
    ];

    pub fn word(self) -> &'static str {
        match self {
            Clash::None => "none",
            Clash::TheOnlyOne => "the only one",
            Clash::FirstAlone => "first alone",
            Clash::LaterAlone => "later alone",
            Clash::FirstAndOthers => "first and others",
            Clash::LaterOnes => "later ones",
        }
    }

    /// The earlier ones in their order, each with whether it shares a day.
    pub fn of(shares: &[bool]) -> Clash {
        let times = shares.iter().filter(|&&shares| shares).count();
        match (shares.first(), times) {
            (None, _) | (_, 0) => Clash::None,
            _ if shares.len() == 1 => Clash::TheOnlyOne,
            (Some(true), 1) => Clash::FirstAlone,
            (Some(true), _) => Clash::FirstAndOthers,
            (Some(false), 1) => Clash::LaterAlone,
            (Some(false), _) => Clash::LaterOnes,
        }
    }

    fn drawn_count(self, random: &mut Random) -> usize {
        let (least, most) = match self {
            Clash::None => (1, 4),
            Clash::TheOnlyOne => (1, 1),
            Clash::FirstAlone | Clash::LaterAlone | Clash::FirstAndOthers => (2, 4),
            Clash::LaterOnes => (3, 5),
        };
        random.between(least, most) as usize
    }

    /// A period that shares days with just these of the earlier ones; with a single one in the way that is told.
    pub fn drawn(
        self,
        random: &mut Random,
        earlier: &[Period],
        overlap: Overlap,
    ) -> Option<Period> {
        let by_day = places_by_day(earlier);
        let fits = |stretch: &&[usize]| {
            let shares = |place| stretch.contains(&place);
            let shares: Vec<bool> = (0..earlier.len()).map(shares).collect();
            Clash::of(&shares) == self
        };
        let stretches = stretches_of(&by_day);
        let fitting: Vec<&[usize]> = stretches.into_iter().filter(fits).collect();
        if fitting.is_empty() {
            return None;
        }
        match random.pick(&fitting) {
            [place] => overlap.drawn(random, &room_at(earlier, &by_day, *place)),
            [first, .., last] => Some(from_one_to_another(random, earlier[*first], earlier[*last])),
            [] => None,
        }
    }
}

fn places_by_day(periods: &[Period]) -> Vec<usize> {
    let mut places: Vec<usize> = (0..periods.len()).collect();
    places.sort_by_key(|&place| periods[place]);
    places
}

/// Such as follow each other in time.
fn stretches_of(by_day: &[usize]) -> Vec<&[usize]> {
    let from = |start: usize| (start + 1..=by_day.len()).map(move |end| &by_day[start..end]);
    (0..by_day.len()).flat_map(from).collect()
}

fn room_at(periods: &[Period], by_day: &[usize], place: usize) -> Room {
    let at = by_day.iter().position(|&other| other == place);
    let at = at.expect("a place of one of them");
    let before = at.checked_sub(1).map(|before| &periods[by_day[before]]);
    let behind = by_day.get(at + 1).map(|&behind| &periods[behind]);
    Room::of(periods[place], before, behind)
}

fn from_one_to_another(random: &mut Random, one: Period, another: Period) -> Period {
    let mut day_of = |period: Period| match random.below(3) {
        0 => period.first,
        1 => period.last,
        _ => drawn_day(random, period.first, period.last),
    };
    Period::of(day_of(one), day_of(another))
}

/// A bundle that is good but for the clash, which is the only one.
pub struct Clashing {
    pub drafts: Vec<Draft>,
    /// Of the records of that one key, in their order.
    pub places: Vec<usize>,
}

impl Clashing {
    /// Any 216 turns that follow each other have every clash in every table in every way.
    pub fn in_turn(random: &mut Random, turn: u64) -> Clashing {
        let turn = turn as usize;
        let table = Table::ALL[turn % 4];
        let clash = Clash::ALL[turn / 4 % 6];
        let overlap = Overlap::ALL[turn / 24 % 9];
        let periods = periods_with(random, clash, overlap);
        let mut drafts = valid_drafts(random);
        let first = of_an_unused_key(random, &mut drafts, table);
        let of_period = |&period: &Period| of_its_key(random, &drafts, &first, period);
        let records = periods.iter().map(of_period).collect();
        let places = put_in_order(random, &mut drafts, records);
        Clashing { drafts, places }
    }

    pub fn bundle(&self) -> Vec<u8> {
        assemble(&self.drafts)
    }
}

/// In the order of their records, that of the last one last.
fn periods_with(random: &mut Random, clash: Clash, overlap: Overlap) -> Vec<Period> {
    loop {
        let count = clash.drawn_count(random);
        let mut periods = match clash {
            Clash::None => timetable(random, count + 1),
            _ => timetable(random, count),
        };
        match random.below(4) {
            0 => (),
            1 => periods.reverse(),
            _ => random.shuffle(&mut periods),
        }
        if clash == Clash::None {
            return periods;
        }
        if let Some(last) = clash.drawn(random, &periods, overlap) {
            periods.push(last);
            return periods;
        }
    }
}

/// What its record needs is put in where it is not there.
fn of_an_unused_key(random: &mut Random, drafts: &mut Vec<Draft>, table: Table) -> Draft {
    let (offer, code) = match table {
        Table::Re => (None, Some(unused_code(random, drafts))),
        Table::Ar => (
            Some(some_offer(random, drafts)),
            Some(some_code(random, drafts)),
        ),
        Table::Co | Table::Me => (Some(some_offer(random, drafts)), None),
    };
    let mut draft = drawn_of_house(random, drafts, table);
    if let Some(code) = code {
        draft.write_number(code_field(table), code);
    }
    let Some(offer) = offer else {
        return draft;
    };
    draft.write_number(co::OFFER, offer);
    while drafts.iter().any(|other| other.has_key_of(&draft)) {
        draft.write_number(co::RAILWAY, random.between_with_ends(0, 9999));
    }
    draft
}

fn code_field(table: Table) -> u8 {
    match table {
        Table::Re => re::CODE,
        _ => ar::CODE,
    }
}

/// Anywhere between the others; where they then are.
fn put_in_order(random: &mut Random, drafts: &mut Vec<Draft>, records: Vec<Draft>) -> Vec<usize> {
    let anywhere = |_: &Draft| random.place_in(drafts.len() + 1);
    let mut gaps: Vec<usize> = records.iter().map(anywhere).collect();
    gaps.sort_unstable();
    let places = gaps.iter().enumerate().map(|(before, gap)| before + gap);
    let places: Vec<usize> = places.collect();
    for (&place, record) in places.iter().zip(records) {
        drafts.insert(place, record);
    }
    places
}

#[cfg(test)]
mod tests {
    use super::*;
    use crate::verdict::{verdict, Verdict};
    use std::collections::HashSet;

    const TURNS: u64 = 216;

    #[test]
    fn which_of_the_earlier_ones_share_a_day() {
        for (shares, due) in [
            (&[][..], Clash::None),
            (&[false, false], Clash::None),
            (&[true], Clash::TheOnlyOne),
            (&[true, false], Clash::FirstAlone),
            (&[false, true, false], Clash::LaterAlone),
            (&[true, false, true], Clash::FirstAndOthers),
            (&[false, true, true], Clash::LaterOnes),
        ] {
            assert_eq!(Clash::of(shares), due);
        }
    }

    fn told_of(clashing: &Clashing, clash: Clash) -> Verdict {
        let periods: Vec<Period> = clashing
            .places
            .iter()
            .map(|&place| clashing.drafts[place].period())
            .collect();
        let (last, earlier) = periods.split_last().unwrap();
        let shares: Vec<bool> = earlier
            .iter()
            .map(|earlier| earlier.shares_a_day_with(last))
            .collect();
        assert_eq!(Clash::of(&shares), clash);
        match shares.iter().position(|&shares| shares) {
            None => Verdict::Accepted(clashing.drafts.len() as u64),
            Some(first) => Verdict::Refused {
                number: 6,
                place: *clashing.places.last().unwrap() as u64,
                detail: clashing.places[first] as u64,
            },
        }
    }

    #[test]
    fn the_last_record_is_refused_for_the_first_that_it_clashes_with() {
        for turn in 0..2 * TURNS {
            let random = &mut Random::from_seed_and_index(96, turn);
            let clashing = Clashing::in_turn(random, turn);
            let clash = Clash::ALL[turn as usize / 4 % 6];
            assert_eq!(verdict(&clashing.bundle()), told_of(&clashing, clash));
        }
    }

    #[test]
    fn turns_meet_every_overlap_in_every_table() {
        let mut met = HashSet::new();
        for turn in 0..TURNS {
            let random = &mut Random::from_seed_and_index(97, turn);
            let clashing = Clashing::in_turn(random, turn);
            let draft_at = |place: usize| &clashing.drafts[clashing.places[place]];
            if clashing.places.len() == 2 {
                let [earlier, last] = [0, 1].map(|place| draft_at(place).period());
                let overlap = Overlap::of(&last, &earlier);
                met.insert((draft_at(0).table, overlap.map(Overlap::word)));
            }
        }
        assert_eq!(met.len(), Table::ALL.len() * (1 + Overlap::ALL.len()));
    }
}
