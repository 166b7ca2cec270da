//! Renders R-2 as bundles of many records, two or more of each key, good or with one late clash.

use super::{sort_by_table, Crowd};
use crate::generate::clashes::Clash;
use crate::generate::damage::of_its_key;
use crate::generate::drafts::{assemble, Draft};
use crate::generate::overlaps::Overlap;
use crate::generate::random::Random;
use crate::layout::Table;
use crate::period::Period;

/// From how many records on an engine might take another way.
#[derive(Clone, Copy, Debug, PartialEq, Eq)]
pub enum Above {
    Few,
    Hundreds,
    Thousands,
}

impl Above {
    pub const ALL: [Above; 3] = [Above::Few, Above::Hundreds, Above::Thousands];

    pub fn word(self) -> &'static str {
        match self {
            Above::Few => "above 32",
            Above::Hundreds => "above 256",
            Above::Thousands => "above 2048",
        }
    }

    fn drawn_count(self, random: &mut Random) -> usize {
        let least = match self {
            Above::Few => 33,
            Above::Hundreds => 257,
            Above::Thousands => 2_049,
        };
        random.between_with_ends(least, least + least / 4) as usize
    }
}

#[derive(Clone, Copy, Debug, PartialEq, Eq)]
pub enum OfOneKey {
    Two,
    Several,
}

impl OfOneKey {
    pub const ALL: [OfOneKey; 2] = [OfOneKey::Two, OfOneKey::Several];

    pub fn word(self) -> &'static str {
        match self {
            OfOneKey::Two => "two",
            OfOneKey::Several => "several",
        }
    }

    fn drawn_count(self, random: &mut Random) -> usize {
        match self {
            OfOneKey::Two => 2,
            OfOneKey::Several if random.one_in(4) => random.between(17, 60) as usize,
            OfOneKey::Several => random.between(3, 9) as usize,
        }
    }
}

#[derive(Clone, Copy, Debug, PartialEq, Eq)]
pub enum InOrder {
    OfKeys,
    OfSeasons,
    Reversed,
    OfChance,
}

impl InOrder {
    pub const ALL: [InOrder; 4] = [
        InOrder::OfKeys,
        InOrder::OfSeasons,
        InOrder::Reversed,
        InOrder::OfChance,
    ];

    pub fn word(self) -> &'static str {
        match self {
            InOrder::OfKeys => "by key",
            InOrder::OfSeasons => "by season",
            InOrder::Reversed => "reversed",
            InOrder::OfChance => "by chance",
        }
    }

    fn arrange(self, random: &mut Random, drafts: &mut [Draft]) {
        match self {
            InOrder::OfKeys => sort_by_table(drafts),
            InOrder::OfSeasons => drafts.sort_by_cached_key(Draft::period),
            InOrder::Reversed => {
                sort_by_table(drafts);
                drafts.reverse();
            }
            InOrder::OfChance => random.shuffle(drafts),
        }
    }
}

/// As often none as any.
const CLASHES_IN_TURN: [Clash; 6] = [
    Clash::None,
    Clash::FirstAlone,
    Clash::None,
    Clash::LaterAlone,
    Clash::None,
    Clash::FirstAndOthers,
];
const TRIES: usize = 60;
/// The clash comes at most so many records before the end.
const FARTHEST_BEFORE_THE_END: u64 = 5;

pub struct Seasonal {
    pub above: Above,
    pub of_one_key: OfOneKey,
    pub order: InOrder,
    pub bundle: Vec<u8>,
}

impl Seasonal {
    /// Any 144 turns that follow each other have every clash in every order at every number.
    pub fn in_turn(random: &mut Random, turn: u64) -> Seasonal {
        let turn = turn as usize;
        let clash = CLASHES_IN_TURN[turn % 6];
        let above = Above::ALL[turn / 6 % 3];
        let order = InOrder::ALL[turn / 18 % 4];
        let of_one_key = OfOneKey::ALL[(turn / 6 + turn / 72) % 2];
        let seasons = of_one_key.drawn_count(random);
        let count = above.drawn_count(random);
        let mut drafts = Crowd::drafts_of_seasons(random, count, seasons);
        order.arrange(random, &mut drafts);
        if clash != Clash::None {
            put_late_clash(random, &mut drafts, clash);
        }
        Seasonal {
            above,
            of_one_key,
            order,
            bundle: assemble(&drafts),
        }
    }

    pub fn words(&self) -> [&'static str; 3] {
        [self.above.word(), self.of_one_key.word(), self.order.word()]
    }
}

/// Where no key is found that the clash fits, an equal period stands for it.
fn put_late_clash(random: &mut Random, drafts: &mut Vec<Draft>, clash: Clash) {
    let before_the_end = random.below(1 + FARTHEST_BEFORE_THE_END) as usize;
    let place = drafts.len() - before_the_end;
    let table = random.pick(&Table::ALL);
    for _ in 0..TRIES {
        let original = some_of_table(random, &drafts[..place], table);
        let earlier = periods_of_its_key(&drafts[..place], original);
        let overlap = random.pick(&Overlap::ALL);
        if let Some(period) = clash.drawn(random, &earlier, overlap) {
            let late = of_its_key(random, drafts, original, period);
            return drafts.insert(place, late);
        }
    }
    let original = some_of_table(random, &drafts[..place], table);
    let late = of_its_key(random, drafts, original, original.period());
    drafts.insert(place, late);
}

fn some_of_table<'a>(random: &mut Random, drafts: &'a [Draft], table: Table) -> &'a Draft {
    let of_table = |draft: &&Draft| draft.table == table;
    let places: Vec<&Draft> = drafts.iter().filter(of_table).collect();
    match places.is_empty() {
        true => &drafts[random.place_in(drafts.len())],
        false => random.pick(&places),
    }
}

fn periods_of_its_key(drafts: &[Draft], original: &Draft) -> Vec<Period> {
    let of_key = drafts.iter().filter(|draft| draft.has_key_of(original));
    of_key.map(Draft::period).collect()
}

#[cfg(test)]
mod tests {
    use super::*;
    use crate::bundle::{readable_records, LONGEST_BUNDLE};
    use crate::generate::crowded::step_of;
    use crate::verdict::{verdict, Verdict};
    use std::collections::{HashMap, HashSet};

    const TURNS: u64 = 144;

    #[test]
    fn every_other_one_is_accepted_and_the_rest_are_refused_late() {
        for turn in 0..TURNS {
            let random = &mut Random::from_seed_and_index(98, turn);
            let bundle = Seasonal::in_turn(random, turn).bundle;
            assert!(bundle.len() <= LONGEST_BUNDLE);
            let count = readable_records(&bundle).len() as u64;
            match verdict(&bundle) {
                Verdict::Accepted(told) => assert!(told == count && turn % 2 == 0),
                Verdict::Refused { number, place, .. } => {
                    assert_eq!((number, turn % 2), (6, 1));
                    assert!(place + FARTHEST_BEFORE_THE_END + 1 >= count);
                }
            }
        }
    }

    #[test]
    fn numbers_are_above_their_step() {
        for turn in (0..TURNS).step_by(6) {
            let random = &mut Random::from_seed_and_index(99, turn);
            let seasonal = Seasonal::in_turn(random, turn);
            let count = readable_records(&seasonal.bundle).len();
            let due = match seasonal.above {
                Above::Few => "up to 256",
                Above::Hundreds => "up to 2048",
                Above::Thousands => "above 2048",
            };
            assert_eq!(step_of(count), due);
        }
    }

    #[test]
    fn most_keys_have_as_many_records_as_there_are_seasons() {
        let mut random = Random::from_seed(100);
        for seasons in [2, 5] {
            let drafts = Crowd::drafts_of_seasons(&mut random, 300, seasons);
            assert_eq!(drafts.len(), 300);
            let mut times: HashMap<_, usize> = HashMap::new();
            for draft in &drafts {
                *times.entry(draft.record().key()).or_default() += 1;
            }
            let whole = times.values().filter(|&&times| times == seasons).count();
            assert!(whole + 2 >= times.len(), "{seasons}: {times:?}");
        }
    }

    #[test]
    fn turns_meet_each_order_at_each_number_with_each_count_of_a_key() {
        let mut met = HashSet::new();
        for turn in 0..TURNS {
            let random = &mut Random::from_seed_and_index(101, turn);
            let words = Seasonal::in_turn(random, turn).words();
            met.insert((words, turn % 2));
        }
        assert_eq!(met.len(), 3 * 2 * 4 * 2);
    }
}
