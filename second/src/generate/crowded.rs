//! Renders "Keys and links" backwards: bundles of many short records, in several orders, good or with one thing changed.

mod changes;
pub mod seasonal;

use std::collections::HashSet;
use std::iter::once;
use std::mem::take;

use super::drafts::{assemble, Draft};
use super::periods::timetable;
use super::random::Random;
use super::valid::{drawn_record, Habits};
use crate::bundle::LONGEST_BUNDLE;
use crate::layout::{ar, co, me, re, Table};
use crate::period::Period;
use changes::Change;

const LARGEST_OFFER: u64 = 99_999;
const LARGEST_RAILWAY: u64 = 9_999;
const LARGEST_CODE: u64 = 999;
/// Some stay free, to move a record to.
const MOST_RAILWAYS: usize = 9_000;
const LONGEST_SHORT: usize = 4_096;
const LONGEST_MIDDLING: usize = 65_536;
const LARGEST_AMONG_LONG_ONE_IN: u64 = 6;

#[derive(Clone, Copy, Debug, PartialEq, Eq)]
pub enum Length {
    Short,
    Middling,
    Long,
}

impl Length {
    pub const ALL: [Length; 3] = [Length::Short, Length::Middling, Length::Long];

    pub fn of(bundle: &[u8]) -> Length {
        match bundle.len() {
            bytes if bytes <= LONGEST_SHORT => Length::Short,
            bytes if bytes <= LONGEST_MIDDLING => Length::Middling,
            _ => Length::Long,
        }
    }

    pub fn word(self) -> &'static str {
        match self {
            Length::Short => "short",
            Length::Middling => "middling",
            Length::Long => "long",
        }
    }

    /// With room for the records that a change puts in, unless they are memos.
    fn drawn_size(self, random: &mut Random) -> usize {
        let (least, most) = match self {
            Length::Short => (2_500, LONGEST_SHORT - 100),
            Length::Middling => (10_000, LONGEST_MIDDLING - 1_000),
            Length::Long if random.one_in(LARGEST_AMONG_LONG_ONE_IN) => {
                (LONGEST_BUNDLE - 10_000, LONGEST_BUNDLE - 3_000)
            }
            Length::Long => (100_000, 300_000),
        };
        random.between_with_ends(least as u64, most as u64) as usize
    }

    fn most_codes(self) -> u64 {
        match self {
            Length::Short => 2,
            Length::Middling => 12,
            Length::Long => 60,
        }
    }
}

/// Steps in the number of records, by the most that each takes in.
pub const STEPS: [(usize, &str); 4] = [
    (32, "up to 32"),
    (256, "up to 256"),
    (2_048, "up to 2048"),
    (usize::MAX, "above 2048"),
];

pub fn step_of(records: usize) -> &'static str {
    let step = STEPS.iter().find(|(most, _)| records <= *most);
    step.expect("the last step takes in any number").1
}

#[derive(Clone, Copy, Debug, PartialEq, Eq)]
pub enum Order {
    ByTable,
    ByOffer,
    Reversed,
    ByChance,
}

impl Order {
    pub const ALL: [Order; 4] = [
        Order::ByTable,
        Order::ByOffer,
        Order::Reversed,
        Order::ByChance,
    ];

    pub fn word(self) -> &'static str {
        match self {
            Order::ByTable => "by table",
            Order::ByOffer => "by offer",
            Order::Reversed => "reversed",
            Order::ByChance => "by chance",
        }
    }

    fn arrange(self, random: &mut Random, drafts: &mut [Draft]) {
        match self {
            Order::ByTable => sort_by_table(drafts),
            Order::ByOffer => sort_by_offer(drafts),
            Order::Reversed => {
                random.pick(&[sort_by_table, sort_by_offer])(drafts);
                drafts.reverse();
            }
            Order::ByChance => random.shuffle(drafts),
        }
    }
}

fn sort_by_table(drafts: &mut [Draft]) {
    drafts.sort_by_cached_key(key_and_period);
}

fn sort_by_offer(drafts: &mut [Draft]) {
    drafts.sort_by_cached_key(|draft| (offer_of(draft), key_and_period(draft)));
}

fn key_and_period(draft: &Draft) -> (Table, Vec<u64>, Period) {
    let fields = draft.table.key_fields().iter();
    let key = fields.map(|&field| draft.number(field)).collect();
    (draft.table, key, draft.period())
}

fn offer_of(draft: &Draft) -> Option<u64> {
    (draft.table != Table::Re).then(|| draft.number(co::OFFER))
}

/// A bundle of many records, and how they stand in it.
pub struct Crowded {
    pub order: Order,
    pub bundle: Vec<u8>,
}

impl Crowded {
    /// Any 156 turns together have each change at each length in each order.
    pub fn in_turn(random: &mut Random, turn: u64) -> Crowded {
        let turn = turn as usize;
        let length = Length::ALL[turn % Length::ALL.len()];
        let order = Order::ALL[turn % Order::ALL.len()];
        let change = Change::IN_TURN[turn % Change::IN_TURN.len()];
        let mut drafts = Crowd::drafts(random, length);
        order.arrange(random, &mut drafts);
        change.apply(random, &mut drafts);
        Crowded {
            order,
            bundle: assemble(&drafts),
        }
    }
}

/// At which railways an offer has its AR and ME.
#[derive(Clone, Copy, Debug, PartialEq, Eq)]
enum Serving {
    ByDefault,
    Singly,
    Both,
}

impl Serving {
    const ALL: [Serving; 3] = [Serving::ByDefault, Serving::Singly, Serving::Both];

    fn is_at(self, railway: u64) -> bool {
        match self {
            Serving::ByDefault => railway == 0,
            Serving::Singly => railway != 0,
            Serving::Both => true,
        }
    }
}

/// Records that are being put together as long as there is room; what a record needs is put before it.
struct Crowd {
    habits: Habits,
    codes: Vec<u64>,
    additional_lacks_one_in: u64,
    memo_one_in: u64,
    memo_is_due: bool,
    measure: Measure,
    room: usize,
    /// Each key takes one of them, or has one record of any period where there is none.
    timetables: Vec<Vec<Period>>,
    drafts: Vec<Draft>,
}

/// What the room is counted in.
enum Measure {
    Bytes,
    Records,
}

impl Measure {
    fn of(&self, table: Table) -> usize {
        match self {
            Measure::Bytes => 2 + table.record_length(),
            Measure::Records => 1,
        }
    }
}

impl Crowd {
    fn drafts(random: &mut Random, length: Length) -> Vec<Draft> {
        let crowd = Crowd {
            memo_is_due: length != Length::Short,
            room: length.drawn_size(random),
            ..Crowd::empty(random, length.most_codes())
        };
        crowd.filled(random)
    }

    /// So many in all, most keys with so many each.
    fn drafts_of_seasons(random: &mut Random, count: usize, seasons: usize) -> Vec<Draft> {
        let most_codes = (count / seasons / 8).clamp(1, 12) as u64;
        let crowd = Crowd {
            measure: Measure::Records,
            room: count,
            timetables: (0..4).map(|_| timetable(random, seasons)).collect(),
            ..Crowd::empty(random, most_codes)
        };
        crowd.filled(random)
    }

    fn empty(random: &mut Random, most_codes: u64) -> Crowd {
        let codes = random.between(1, most_codes) as usize;
        Crowd {
            habits: Habits::drawn(random),
            codes: spaced_numbers(random, LARGEST_CODE).take(codes).collect(),
            additional_lacks_one_in: random.pick(&[2, 5, 20]),
            memo_one_in: random.pick(&[10, 30, 90]),
            memo_is_due: true,
            measure: Measure::Bytes,
            room: 0,
            timetables: Vec::new(),
            drafts: Vec::new(),
        }
    }

    fn filled(mut self, random: &mut Random) -> Vec<Draft> {
        for code in self.codes.clone() {
            self.put(random, Table::Re, &[(re::CODE, code)]);
        }
        if random.one_in(2) {
            self.put_many_offers(random);
        } else {
            self.put_few_offers(random);
        }
        raise_served_flags(random, &mut self.drafts);
        self.drafts
    }

    fn put(&mut self, random: &mut Random, table: Table, key: &[(u8, u64)]) {
        if self.timetables.is_empty() {
            return self.put_one(random, table, key, None);
        }
        let place = random.place_in(self.timetables.len());
        for period in self.timetables[place].clone() {
            self.put_one(random, table, key, Some(period));
        }
    }

    /// A memo without room is left out; any other record without room is the last one tried.
    fn put_one(
        &mut self,
        random: &mut Random,
        table: Table,
        key: &[(u8, u64)],
        period: Option<Period>,
    ) {
        let needed = self.measure.of(table);
        if needed > self.room {
            if table != Table::Me {
                self.room = 0;
            }
            return;
        }
        self.room -= needed;
        let mut draft = drawn_record(random, table, &self.habits);
        for &(field, number) in key {
            draft.write_number(field, number);
        }
        if let Some(period) = period {
            draft.write_period(period);
        }
        self.drafts.push(draft);
    }

    fn put_many_offers(&mut self, random: &mut Random) {
        for offer in spaced_numbers(random, LARGEST_OFFER) {
            if self.room == 0 {
                return;
            }
            let serving = random.pick(&Serving::ALL);
            let codes = random.below(4) as usize;
            let railways = random.below(3) as usize;
            let others = spaced_numbers(random, LARGEST_RAILWAY);
            for railway in railways_from(others).take(1 + railways) {
                self.put_conditions(random, offer, railway);
                self.put_servers(random, (offer, railway), serving, codes);
            }
        }
    }

    fn put_few_offers(&mut self, random: &mut Random) {
        let count = random.between(1, 3) as usize;
        let offers: Vec<u64> = spaced_numbers(random, LARGEST_OFFER).take(count).collect();
        let serving = random.pick(&Serving::ALL);
        let others = spaced_numbers(random, LARGEST_RAILWAY);
        for (place, railway) in railways_from(others).enumerate() {
            for &offer in &offers {
                if place == 0 || !random.one_in(3) {
                    self.put_conditions(random, offer, railway);
                }
                let codes = self.codes.len();
                self.put_servers(random, (offer, railway), serving, codes);
            }
            if self.room == 0 {
                return;
            }
        }
    }

    fn put_conditions(&mut self, random: &mut Random, offer: u64, railway: u64) {
        let key = [(co::OFFER, offer), (co::RAILWAY, railway)];
        self.put(random, Table::Co, &key);
    }

    fn put_servers(
        &mut self,
        random: &mut Random,
        (offer, railway): (u64, u64),
        serving: Serving,
        codes: usize,
    ) {
        if !serving.is_at(railway) {
            return;
        }
        for code in self.codes.clone().into_iter().take(codes) {
            if !random.one_in(self.additional_lacks_one_in) {
                let key = [(ar::OFFER, offer), (ar::RAILWAY, railway), (ar::CODE, code)];
                self.put(random, Table::Ar, &key);
            }
        }
        if take(&mut self.memo_is_due) || random.one_in(self.memo_one_in) {
            let key = [(me::OFFER, offer), (me::RAILWAY, railway)];
            self.put(random, Table::Me, &key);
        }
    }
}

/// No step shares a divisor with 999, 9999 or 99999, so all numbers from 1 on come up, each once.
fn spaced_numbers(random: &mut Random, most: u64) -> impl Iterator<Item = u64> {
    let start = random.below(most);
    let step = random.pick(&[1, 1, 2, 10, 64, 100, 256, 1_000, 7_919]);
    (0..most).map(move |place| 1 + (start + place * step) % most)
}

/// A single railway, then 0000, then others.
fn railways_from(mut others: impl Iterator<Item = u64>) -> impl Iterator<Item = u64> {
    let first = others.next();
    let rest = once(0).chain(others);
    first.into_iter().chain(rest).take(MOST_RAILWAYS)
}

fn raise_served_flags(random: &mut Random, drafts: &mut [Draft]) {
    let places = Places::of_servers(drafts);
    for draft in drafts {
        if draft.table != Table::Co {
            continue;
        }
        for (flag, target) in [(co::ADDITIONAL_DISCOUNTS, Table::Ar), (co::MEMO, Table::Me)] {
            if places.serve(draft, target) && !random.one_in(4) {
                draft.write(flag, b"Y");
            }
        }
    }
}

/// Table, offer and railway of each AR and ME, and table and offer for any railway.
struct Places {
    single: HashSet<(Table, u64, u64)>,
    any: HashSet<(Table, u64)>,
}

impl Places {
    fn of_servers(drafts: &[Draft]) -> Places {
        let servers = || {
            let is_server = |draft: &&Draft| matches!(draft.table, Table::Ar | Table::Me);
            drafts.iter().filter(is_server)
        };
        let offer = |draft: &Draft| draft.number(ar::OFFER);
        let railway = |draft: &Draft| draft.number(ar::RAILWAY);
        Places {
            single: servers()
                .map(|draft| (draft.table, offer(draft), railway(draft)))
                .collect(),
            any: servers().map(|draft| (draft.table, offer(draft))).collect(),
        }
    }

    fn serve(&self, conditions: &Draft, target: Table) -> bool {
        let offer = conditions.number(co::OFFER);
        match conditions.number(co::RAILWAY) {
            0 => self.any.contains(&(target, offer)),
            railway => [railway, 0]
                .iter()
                .any(|&place| self.single.contains(&(target, offer, place))),
        }
    }
}

#[cfg(test)]
mod tests {
    use super::*;
    use crate::bundle::readable_records;
    use crate::verdict::{verdict, Verdict};

    const TURNS: u64 = 156;

    fn number_and_detail(drafts: &[Draft]) -> (u8, u64) {
        match verdict(&assemble(drafts)) {
            Verdict::Accepted(_) => (0, 0),
            Verdict::Refused { number, detail, .. } => (number, detail),
        }
    }

    fn changed(random: &mut Random, length: Length, change: Change) -> Vec<Draft> {
        let mut drafts = Crowd::drafts(random, length);
        Order::ByChance.arrange(random, &mut drafts);
        change.apply(random, &mut drafts);
        drafts
    }

    #[test]
    fn turns_meet_each_change_at_each_length_in_each_order() {
        let counts = [Length::ALL.len(), Order::ALL.len(), Change::IN_TURN.len()];
        let remainders = |turn: usize| counts.map(|count| turn % count);
        let met: HashSet<[usize; 3]> = (0..TURNS as usize).map(remainders).collect();
        assert_eq!(met.len(), counts.iter().product::<usize>());
    }

    #[test]
    fn unchanged_crowds_are_accepted_and_keep_to_their_length() {
        let mut random = Random::from_seed(31);
        for length in Length::ALL {
            for _ in 0..20 {
                let bundle = assemble(&changed(&mut random, length, Change::Nothing));
                let count = readable_records(&bundle).len() as u64;
                assert_eq!(verdict(&bundle), Verdict::Accepted(count));
                assert_eq!(Length::of(&bundle), length);
                assert!(count >= 6, "{length:?} has {count}");
            }
        }
    }

    #[test]
    fn each_change_is_refused_for_what_it_is() {
        let expected: [(Change, &[u8]); 11] = [
            (Change::KeyRepeatedNearBy, &[6]),
            (Change::KeyRepeatedFarApart, &[6]),
            (Change::FirstKeyRepeatedLast, &[6]),
            (Change::TwoKeysRepeated, &[6]),
            (Change::LostType, &[7]),
            (Change::LostConditions, &[7]),
            (Change::LostAdditional, &[7]),
            (Change::LostMemo, &[7]),
            (Change::KeyRepeatedAndLostLink, &[6, 7]),
            (Change::OtherTransferor, &[5]),
            (Change::BrokenField, &[4]),
        ];
        let mut random = Random::from_seed(32);
        for (change, numbers) in expected {
            for length in [Length::Short, Length::Middling] {
                for _ in 0..30 {
                    let (number, _) = number_and_detail(&changed(&mut random, length, change));
                    assert!(numbers.contains(&number), "{change:?} gives {number}");
                }
            }
        }
    }

    #[test]
    fn a_lost_link_is_told_by_its_detail() {
        let mut random = Random::from_seed(33);
        for (detail, change) in (1..).zip([
            Change::LostType,
            Change::LostConditions,
            Change::LostAdditional,
            Change::LostMemo,
        ]) {
            let told = (0..20).filter(|_| {
                let drafts = changed(&mut random, Length::Middling, change);
                number_and_detail(&drafts) == (7, detail)
            });
            assert!(told.count() >= 10, "{change:?}");
        }
    }

    #[test]
    fn orders_keep_every_record() {
        let mut random = Random::from_seed(34);
        let mut drafts = Crowd::drafts(&mut random, Length::Middling);
        let sorted = |drafts: &[Draft]| {
            let mut sorted = drafts.to_vec();
            sort_by_table(&mut sorted);
            sorted
        };
        let all = sorted(&drafts);
        for order in Order::ALL {
            order.arrange(&mut random, &mut drafts);
            assert_eq!(sorted(&drafts), all, "{order:?}");
        }
    }

    #[test]
    fn sorted_by_offer_the_types_come_first() {
        let mut random = Random::from_seed(35);
        let mut drafts = Crowd::drafts(&mut random, Length::Middling);
        Order::ByOffer.arrange(&mut random, &mut drafts);
        let offers: Vec<Option<u64>> = drafts.iter().map(offer_of).collect();
        assert!(offers.is_sorted() && offers[0].is_none());
    }

    #[test]
    fn spaced_numbers_come_once_each() {
        let mut random = Random::from_seed(36);
        for most in [LARGEST_CODE, LARGEST_RAILWAY, LARGEST_OFFER] {
            for _ in 0..10 {
                let mut numbers: Vec<u64> = spaced_numbers(&mut random, most).collect();
                numbers.sort_unstable();
                assert!(numbers.into_iter().eq(1..=most));
            }
        }
    }

    #[test]
    fn keys_of_every_table_are_repeated() {
        for seed in [1, 2, 77] {
            let mut tables = HashSet::new();
            for turn in (0..TURNS).filter(|turn| turn % 3 < 2) {
                let random = &mut Random::from_seed_and_index(seed, turn);
                let bundle = Crowded::in_turn(random, turn).bundle;
                if let Verdict::Refused {
                    number: 6, place, ..
                } = verdict(&bundle)
                {
                    tables.insert(readable_records(&bundle)[place as usize].table);
                }
            }
            assert_eq!(tables.len(), Table::ALL.len(), "seed {seed}");
        }
    }

    #[test]
    fn a_step_takes_in_its_most() {
        let steps = [0, 32, 33, 256, 257, 2_048, 2_049, 20_000].map(step_of);
        let due = [0, 0, 1, 1, 2, 2, 3, 3].map(|step: usize| STEPS[step].1);
        assert_eq!(steps, due);
    }

    #[test]
    fn no_turn_is_too_long_to_judge() {
        for turn in 0..TURNS {
            let random = &mut Random::from_seed_and_index(37, turn);
            assert!(Crowded::in_turn(random, turn).bundle.len() <= LONGEST_BUNDLE);
        }
    }
}
