//! The end of a day: what the stored books come to is held to the tally, for every till and every railway.

use std::collections::{BTreeMap, BTreeSet};

use offers::SaleNumber;

use crate::bundles::IDLE_RAILWAYS;
use crate::holds::Check;
use crate::outbox::Line;
use crate::season::{Post, Season};
use crate::settlement::Settlement;
use crate::shelf::Shelf;
use crate::tally::{Keeper, Passage, Standing};

impl Season {
    pub fn evening(&mut self) {
        for keeper in [Keeper::Till, Keeper::Office] {
            let (mut found, mut due) = (BTreeMap::new(), BTreeMap::new());
            for post in 0..self.posts.len() {
                let till = self.posts[post].till;
                let settlement = self.settled(keeper, post);
                let owed = self.tally.owed(keeper, till);
                self.hold_settlement(keeper, till, &settlement, &owed);
                add_up(&mut found, &settlement.balances);
                add_up(&mut due, &owed);
            }
            self.hold_balances(keeper, "all tills", &found, &due);
        }
        for post in 0..self.posts.len() {
            self.hold_rest_is_to_be_sent(post);
        }
    }

    /// Over the books as they are stored.
    fn settled(&self, keeper: Keeper, post: usize) -> Settlement {
        let folder = match keeper {
            Keeper::Till => self.posts[post].folder.clone(),
            Keeper::Office => self.office.folder_of(self.posts[post].till),
        };
        Settlement::of(Shelf::open(&folder, true).unwrap_or_else(|error| panic!("{error}")).books())
    }

    fn hold_settlement(&mut self, keeper: Keeper, till: u32, settlement: &Settlement, owed: &BTreeMap<u64, u64>) {
        let of_till = format!("till {till}");
        self.hold_balances(keeper, &of_till, &settlement.balances, owed);
        let sum: u64 = settlement.balances.values().sum();
        self.holds.hold_equal(settlement.total, sum, Check::Total(keeper), &of_till);
        let idle: u64 = IDLE_RAILWAYS.iter().map(|railway| settlement.balances[railway]).sum();
        self.holds.hold_equal(idle, 0, Check::Total(keeper), format!("{of_till}, who carried nobody"));
        let given = self.tally.numbers(keeper, till);
        self.holds.hold(settlement.numbers == given, Check::Numbers(keeper), || {
            format!("{of_till}: {}", difference(&settlement.numbers, &given))
        });
    }

    fn hold_balances(&mut self, keeper: Keeper, of: &str, found: &BTreeMap<u64, u64>, due: &BTreeMap<u64, u64>) {
        for (railway, &amount) in found {
            let owed = due.get(railway).copied().unwrap_or(0);
            self.holds.hold_equal(amount, owed, Check::Balance(keeper), format!("{of}, railway {railway}"));
        }
    }

    /// What the office does not have yet, the till still has to send.
    fn hold_rest_is_to_be_sent(&mut self, post: usize) {
        let Post { till, handset, .. } = &self.posts[post];
        let unsent = handset.unsent();
        let (sales, cancellations): (Vec<Line>, Vec<Line>) = unsent.iter().partition(|line| line.is_sale());
        let sequences = |lines: &[Line]| lines.iter().map(|line| line.sequence()).collect::<BTreeSet<u64>>();
        let (sales, cancellations) = (sequences(&sales), sequences(&cancellations));
        let passages = self.tally.ids_of_till(*till).iter().map(|&id| self.tally.passage(id));
        let is_lost = |passage: &&Passage| match (passage.at(Keeper::Till), passage.at(Keeper::Office)) {
            (_, Standing::Unknown) => !sales.contains(&passage.number.sequence),
            (Standing::Cancelled, Standing::Live) => !cancellations.contains(&passage.number.sequence),
            _ => false,
        };
        let lost: Vec<SaleNumber> = passages.filter(is_lost).map(|passage| passage.number).collect();
        self.holds.hold(lost.is_empty(), Check::OnTheWay, || format!("till {till}: {lost:?} will never be sent"));
    }

    /// At the end of the season everything that was sold has come to the office.
    pub fn hold_all_is_one(&mut self) {
        self.holds.hold(self.is_all_sent(), Check::Emptied, || "something is left to be sent".to_string());
        for post in &self.posts {
            let owed = |keeper| self.tally.owed(keeper, post.till);
            let numbers = |keeper| self.tally.numbers(keeper, post.till);
            let is_one = owed(Keeper::Till) == owed(Keeper::Office) && numbers(Keeper::Till) == numbers(Keeper::Office);
            self.holds.hold(is_one, Check::Emptied, || format!("till {} and the office differ", post.till));
        }
    }
}

fn add_up(sums: &mut BTreeMap<u64, u64>, more: &BTreeMap<u64, u64>) {
    for (railway, amount) in more {
        *sums.entry(*railway).or_default() += amount;
    }
}

/// Numbers that stand in the books more or less often than they were given.
fn difference<K: Ord + Copy + std::fmt::Debug>(found: &BTreeMap<K, usize>, given: &BTreeMap<K, usize>) -> String {
    let times = |counts: &BTreeMap<K, usize>, key: &K| counts.get(key).copied().unwrap_or(0);
    let keys = found.keys().chain(given.keys()).filter(|key| times(found, key) != times(given, key));
    let lines = keys.map(|key| format!("{key:?} in {} books, given {} times", times(found, key), times(given, key)));
    lines.take(3).collect::<Vec<_>>().join("; ")
}
