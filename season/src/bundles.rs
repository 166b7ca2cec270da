//! The bundles of a season, by name. Neighbours take other discounts for everything: a price by the wrong one shows.

use std::fmt;

use second::calendar::day_after;
use second::generate::drafts::{assemble, Draft};
use second::generate::random::Random;
use second::layout::{ar, co, re, Table};
use second::verdict::accepted_records;

/// Those that tickets lead over.
pub const RAILWAYS: [u64; 6] = [1080, 1181, 1185, 2054, 3010, 9999];
/// Those that carry nobody.
pub const IDLE_RAILWAYS: [u64; 3] = [1, 1184, 5000];
pub const CARDS: [u64; 4] = [7, 21, 105, 800];

/// Sold on all railways; two of them have conditions of their own.
pub const EVERYWHERE: u64 = 42;
/// For 2 to 6 persons.
pub const FOR_GROUPS: u64 = 77;
/// Sold on the first three railways alone, without cards.
pub const LOCAL: u64 = 500;
/// Valid for a few days from the day of its bundle.
pub const FAIR: u64 = 900;
/// With a condition that no engine reads.
pub const UNREAD: u64 = 999;

const ALL: u64 = 0;
const DAYS_OF_FAIR: usize = 3;
const LOW_DISCOUNTS: (u64, u64) = (1_000, 25_000);
const HIGH_DISCOUNTS: (u64, u64) = (40_000, 70_000);

#[derive(Clone, Copy, Debug, PartialEq, Eq, PartialOrd, Ord)]
pub struct BundleName(pub usize);

impl fmt::Display for BundleName {
    fn fmt(&self, f: &mut fmt::Formatter) -> fmt::Result {
        write!(f, "offers-{:04}", self.0)
    }
}

/// A bundle and its name, as a till has it.
#[derive(Clone, Copy)]
pub struct Bundle<'a> {
    pub name: BundleName,
    pub bytes: &'a [u8],
}

#[derive(Default)]
pub struct Bundles {
    published: Vec<Vec<u8>>,
}

impl Bundles {
    pub fn publish(&mut self, random: &mut Random, today: u64) {
        let is_high = self.published.len() % 2 == 1;
        let discounts = if is_high { HIGH_DISCOUNTS } else { LOW_DISCOUNTS };
        let drafts = Maker { random, discounts, today }.drafts();
        self.published.push(assemble(&drafts));
    }

    pub fn newest(&self) -> BundleName {
        BundleName(self.published.len())
    }

    pub fn named(&self, name: BundleName) -> Bundle<'_> {
        Bundle { name, bytes: &self.published[name.0 - 1] }
    }
}

/// The bundle as a bad delivery brings it: cut off, or with a bit changed, such that it is refused.
pub fn damaged(random: &mut Random, bundle: &[u8]) -> Vec<u8> {
    loop {
        let mut bytes = bundle.to_vec();
        let place = random.place_in(bytes.len());
        match random.one_in(2) {
            true => bytes.truncate(place),
            false => bytes[place] ^= 1 << random.below(8),
        }
        if accepted_records(&bytes).is_err() {
            return bytes;
        }
    }
}

struct Maker<'a> {
    random: &'a mut Random,
    discounts: (u64, u64),
    today: u64,
}

impl Maker<'_> {
    fn drafts(mut self) -> Vec<Draft> {
        let mut drafts = vec![
            self.with_cards(EVERYWHERE, ALL),
            self.with_cards(EVERYWHERE, RAILWAYS[1]),
            self.with_cards(EVERYWHERE, RAILWAYS[2]),
            self.for_groups(),
            self.fair(),
            self.conditions(UNREAD, ALL).with(31, "Y"),
        ];
        drafts.extend(RAILWAYS[..3].iter().map(|&railway| self.conditions(LOCAL, railway)));
        drafts.extend(CARDS.iter().flat_map(|&card| self.records_of_card(card)));
        self.random.shuffle(&mut drafts);
        drafts
    }

    fn conditions(&mut self, offer: u64, railway: u64) -> Draft {
        let mut draft = Draft::plain(Table::Co).with(co::FIRST_DAY, "20200101").with(co::LAST_DAY, "99991231");
        draft.write_number(co::OFFER, offer);
        draft.write_number(co::RAILWAY, railway);
        draft.write_number(co::DISCOUNT, self.random.between(self.discounts.0, self.discounts.1));
        self.round(&mut draft, co::ROUNDING, co::FACTOR);
        draft
    }

    fn round(&mut self, draft: &mut Draft, rounding: u8, factor: u8) {
        draft.write(rounding, &[self.random.pick(b"+-0N")]);
        draft.write_number(factor, self.random.between(1, 50));
    }

    fn with_cards(&mut self, offer: u64, railway: u64) -> Draft {
        self.conditions(offer, railway).with(co::ADDITIONAL_DISCOUNTS, "Y")
    }

    fn for_groups(&mut self) -> Draft {
        self.with_cards(FOR_GROUPS, ALL).with(co::LEAST_PERSONS, "02").with(co::MOST_PERSONS, "06")
    }

    fn fair(&mut self) -> Draft {
        let last = (1..DAYS_OF_FAIR).fold(self.today, |day, _| day_after(day));
        let mut draft = self.conditions(FAIR, ALL);
        draft.write_number(co::FIRST_DAY, self.today);
        draft.write_number(co::LAST_DAY, last);
        draft
    }

    fn records_of_card(&mut self, card: u64) -> Vec<Draft> {
        let mut kind = Draft::plain(Table::Re);
        kind.write_number(re::CODE, card);
        vec![
            kind,
            self.card(EVERYWHERE, ALL, card),
            self.card(EVERYWHERE, RAILWAYS[2], card),
            self.card(FOR_GROUPS, ALL, card),
        ]
    }

    fn card(&mut self, offer: u64, railway: u64, card: u64) -> Draft {
        let mut draft = Draft::plain(Table::Ar).with(ar::FIRST_DAY, "20200101").with(ar::LAST_DAY, "99991231");
        draft.write_number(ar::OFFER, offer);
        draft.write_number(ar::RAILWAY, railway);
        draft.write_number(ar::CODE, card);
        draft.write_number(ar::DISCOUNT, self.random.between(2_000, 20_000));
        draft.write(ar::CUMULATIVE, &[self.random.pick(b"YN")]);
        self.round(&mut draft, ar::ROUNDING, ar::FACTOR);
        draft
    }
}
