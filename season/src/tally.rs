//! What was sold, by the simulation's own account: it knows who rode, by which bundle and under which number, and has
//! the second program price it. It never looks at a book or at an answer of the engine.

use std::collections::BTreeMap;
use std::fmt;

use offers::SaleNumber;
use second::fare::Parts;
use second::question::Question;

pub use second::fare::priced_parts as price;

/// Who keeps a series of books for a till.
#[derive(Clone, Copy, Debug, PartialEq, Eq, PartialOrd, Ord)]
pub enum Keeper {
    Till,
    Office,
}

impl fmt::Display for Keeper {
    fn fmt(&self, f: &mut fmt::Formatter) -> fmt::Result {
        f.write_str(match self {
            Keeper::Till => "the till",
            Keeper::Office => "the office",
        })
    }
}

/// How far a sale has come.
#[derive(Clone, Copy, Debug, PartialEq, Eq)]
pub enum Standing {
    Unknown,
    Live,
    Cancelled,
}

/// A party that was sold a ticket.
#[derive(Clone, Copy, Debug)]
pub struct Passage {
    pub number: SaleNumber,
    pub question: Question,
    pub parts: Parts,
    pub day: u64,
    at_till: Standing,
    at_office: Standing,
}

impl Passage {
    pub fn at(&self, keeper: Keeper) -> Standing {
        match keeper {
            Keeper::Till => self.at_till,
            Keeper::Office => self.at_office,
        }
    }

    fn at_mut(&mut self, keeper: Keeper) -> &mut Standing {
        match keeper {
            Keeper::Till => &mut self.at_till,
            Keeper::Office => &mut self.at_office,
        }
    }

    fn shares(&self) -> impl Iterator<Item = (u64, u64)> + '_ {
        self.question.used_legs().iter().map(|leg| leg.railway).zip(self.parts)
    }
}

/// Which passage of the season it is.
pub type PassageId = usize;

#[derive(Default)]
pub struct Tally {
    passages: Vec<Passage>,
    ids_by_till: BTreeMap<u32, Vec<PassageId>>,
    last_id_by_number: BTreeMap<SaleNumber, PassageId>,
}

impl Tally {
    pub fn sell(&mut self, number: SaleNumber, question: Question, parts: Parts, day: u64) -> PassageId {
        let id = self.passages.len();
        let (at_till, at_office) = (Standing::Live, Standing::Unknown);
        self.passages.push(Passage { number, question, parts, day, at_till, at_office });
        self.ids_by_till.entry(number.till).or_default().push(id);
        self.last_id_by_number.insert(number, id);
        id
    }

    pub fn cancel(&mut self, id: PassageId) {
        self.passages[id].at_till = Standing::Cancelled;
    }

    pub fn sale_arrived(&mut self, id: PassageId) {
        let standing = self.passages[id].at_mut(Keeper::Office);
        if *standing == Standing::Unknown {
            *standing = Standing::Live;
        }
    }

    pub fn cancellation_arrived(&mut self, id: PassageId) {
        let standing = self.passages[id].at_mut(Keeper::Office);
        if *standing == Standing::Live {
            *standing = Standing::Cancelled;
        }
    }

    /// From then on the office knows what the till knows.
    pub fn office_takes_over(&mut self, till: u32) {
        for passage in self.passages.iter_mut().filter(|passage| passage.number.till == till) {
            passage.at_office = passage.at_till;
        }
    }

    pub fn passage(&self, id: PassageId) -> &Passage {
        &self.passages[id]
    }

    /// The one after the largest that the till has given.
    pub fn next_sequence(&self, till: u32) -> u64 {
        let its_numbers = SaleNumber { till, sequence: 0 }..=SaleNumber { till, sequence: u64::MAX };
        let last = self.last_id_by_number.range(its_numbers).next_back();
        last.map_or(1, |(number, _)| number.sequence + 1)
    }

    /// The last one that the number was given to.
    pub fn id_of(&self, number: SaleNumber) -> Option<PassageId> {
        self.last_id_by_number.get(&number).copied()
    }

    pub fn ids_of_till(&self, till: u32) -> &[PassageId] {
        self.ids_by_till.get(&till).map_or(&[], Vec::as_slice)
    }

    fn known_to(&self, keeper: Keeper, till: u32) -> impl Iterator<Item = &Passage> {
        let of_till = self.ids_of_till(till).iter().map(|&id| self.passage(id));
        of_till.filter(move |passage| passage.at(keeper) != Standing::Unknown)
    }

    /// How often each number was given, cancelled sales too.
    pub fn numbers(&self, keeper: Keeper, till: u32) -> BTreeMap<SaleNumber, usize> {
        let mut numbers = BTreeMap::new();
        for passage in self.known_to(keeper, till) {
            *numbers.entry(passage.number).or_default() += 1;
        }
        numbers
    }

    /// What each railway is owed for those who rode with it.
    pub fn owed(&self, keeper: Keeper, till: u32) -> BTreeMap<u64, u64> {
        let live = self.known_to(keeper, till).filter(|passage| passage.at(keeper) == Standing::Live);
        let mut owed = BTreeMap::new();
        for (railway, part) in live.flat_map(Passage::shares) {
            *owed.entry(railway).or_default() += part;
        }
        owed
    }
}
