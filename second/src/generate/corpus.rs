//! Renders numbers 1 to 7 of "Numbers that turn work away" as a corpus and its coverage.

use std::collections::BTreeMap;
use std::fmt::Write;

use super::breakage::{every_breakage, Breakage};
use super::clashes::Clashing;
use super::damage::{
    oddity, with_broken_field, with_framing_fault, with_noise, with_relation_fault,
    with_two_faults, FramingFault, RelationFault,
};
use super::random::Random;
use super::valid::{sized_bundle, sized_bundle_with_memos, valid_bundle};
use crate::bundle::{readable_records, LONGEST_BUNDLE};
use crate::layout::Table;
use crate::program::LONGEST_INPUT;
use crate::verdict::Verdict;

/// From this many bundles on, a corpus must reach everything.
pub const FULL_CORPUS: u64 = 3000;
/// Shares no divisor with the turns, and spreads them over a short corpus.
const CLASHES_STRIDE: u64 = 29;

pub struct Corpus {
    seed: u64,
    breakages: Vec<Breakage>,
}

impl Corpus {
    pub fn of_seed(seed: u64) -> Corpus {
        Corpus {
            seed,
            breakages: every_breakage(),
        }
    }

    pub fn bundle(&self, index: u64) -> Vec<u8> {
        let random = &mut Random::from_seed_and_index(self.seed, index);
        let round = index / 10;
        match index % 10 {
            0 if !round.is_multiple_of(2) => {
                Clashing::in_turn(random, round / 2 * CLASHES_STRIDE).bundle()
            }
            0 | 1 => valid_bundle(random),
            turn @ 2..=4 => with_broken_field(random, self.breakage(round * 3 + turn - 2)),
            5 => with_relation_fault(random, in_turn(&RelationFault::ALL, round)),
            6 => with_framing_fault(random, in_turn(&FramingFault::ALL, round)),
            7 => with_noise(random),
            8 => with_two_faults(random, &self.breakages),
            _ if index % 500 == 499 => around_a_limit(random, index / 500),
            _ => oddity(random),
        }
    }

    /// The stride spreads the rows over a short corpus; it shares no divisor with the count.
    fn breakage(&self, turn: u64) -> &Breakage {
        let count = self.breakages.len() as u64;
        let stride = (1..count)
            .map(|more| count / 3 + more)
            .find(|&stride| have_no_common_divisor(stride, count))
            .unwrap_or(1);
        let place = (self.seed % count + turn * stride) % count;
        &self.breakages[place as usize]
    }
}

fn have_no_common_divisor(one: u64, other: u64) -> bool {
    if other == 0 {
        one == 1
    } else {
        have_no_common_divisor(other, one % other)
    }
}

fn in_turn<T: Copy>(items: &[T], turn: u64) -> T {
    items[(turn % items.len() as u64) as usize]
}

fn around_a_limit(random: &mut Random, turn: u64) -> Vec<u8> {
    match turn % 10 {
        0 => sized_bundle_with_memos(random, LONGEST_BUNDLE, 90),
        1 => sized_bundle(random, LONGEST_BUNDLE + 1),
        2 => sized_bundle(random, LONGEST_INPUT),
        3 => sized_bundle(random, LONGEST_INPUT + 1),
        4 => sized_bundle_with_memos(random, LONGEST_BUNDLE - 1, 100),
        5 => with_one_byte_left(sized_bundle(random, LONGEST_BUNDLE - 1)),
        6 => vec![b'X'; LONGEST_BUNDLE + 1],
        7 => with_one_byte_left(sized_bundle(random, LONGEST_BUNDLE)),
        8 => with_last_byte_bad(sized_bundle_with_memos(random, LONGEST_BUNDLE, 50)),
        _ => sized_bundle_with_memos(random, LONGEST_BUNDLE, 0),
    }
}

fn with_one_byte_left(mut bundle: Vec<u8>) -> Vec<u8> {
    bundle.push(b'C');
    bundle
}

fn with_last_byte_bad(mut bundle: Vec<u8>) -> Vec<u8> {
    bundle.pop();
    bundle.push(b'A');
    bundle
}

#[derive(Default)]
pub struct Coverage {
    accepted: u64,
    numbers: BTreeMap<u8, u64>,
    fields: BTreeMap<(Table, u64), u64>,
    links: BTreeMap<u64, u64>,
}

impl Coverage {
    pub fn note(&mut self, bundle: &[u8], verdict: &Verdict) {
        let Verdict::Refused {
            number,
            place,
            detail,
        } = *verdict
        else {
            self.accepted += 1;
            return;
        };
        *self.numbers.entry(number).or_default() += 1;
        if number == 4 {
            let table = readable_records(bundle)[place as usize].table;
            *self.fields.entry((table, detail)).or_default() += 1;
        }
        if number == 7 {
            *self.links.entry(detail).or_default() += 1;
        }
    }

    pub fn report(&self) -> String {
        let mut report = format!("accepted: {}\n", self.accepted);
        for number in 1..=7 {
            let _ = writeln!(report, "number {number}: {}", self.times_of_number(number));
            if number == 4 {
                self.report_fields(&mut report);
            }
            if number == 7 {
                self.report_links(&mut report);
            }
        }
        report
    }

    fn report_fields(&self, report: &mut String) {
        for (table, field) in every_row() {
            let times = self.times_of_field(table, field);
            let _ = writeln!(report, "  {} field {field}: {times}", table.mark());
        }
    }

    fn report_links(&self, report: &mut String) {
        for detail in 1..=4 {
            let _ = writeln!(report, "  detail {detail}: {}", self.times_of_link(detail));
        }
    }

    pub fn gaps(&self) -> Vec<String> {
        let accepted = (self.accepted == 0).then(|| "accepted".to_string());
        let numbers = (2..=7)
            .filter(|&number| self.times_of_number(number) == 0)
            .map(|number| format!("number {number}"));
        let fields = every_row()
            .filter(|&(table, field)| self.times_of_field(table, field) == 0)
            .map(|(table, field)| format!("number 4 at {} field {field}", table.mark()));
        let links = (1..=4)
            .filter(|&detail| self.times_of_link(detail) == 0)
            .map(|detail| format!("number 7 detail {detail}"));
        accepted
            .into_iter()
            .chain(numbers)
            .chain(fields)
            .chain(links)
            .collect()
    }

    fn times_of_number(&self, number: u8) -> u64 {
        self.numbers.get(&number).copied().unwrap_or(0)
    }

    fn times_of_field(&self, table: Table, field: u64) -> u64 {
        self.fields.get(&(table, field)).copied().unwrap_or(0)
    }

    fn times_of_link(&self, detail: u64) -> u64 {
        self.links.get(&detail).copied().unwrap_or(0)
    }
}

pub fn every_row() -> impl Iterator<Item = (Table, u64)> {
    Table::ALL.into_iter().flat_map(|table| {
        table
            .rows()
            .iter()
            .map(move |row| (table, u64::from(row.field)))
    })
}

#[cfg(test)]
mod tests {
    use super::*;
    use crate::verdict::verdict;

    #[test]
    fn a_full_corpus_has_no_gaps() {
        for seed in [1, 2, 77] {
            let corpus = Corpus::of_seed(seed);
            let mut coverage = Coverage::default();
            for index in 0..FULL_CORPUS {
                let bundle = corpus.bundle(index);
                coverage.note(&bundle, &verdict(&bundle));
            }
            assert_eq!(coverage.gaps(), Vec::<String>::new(), "seed {seed}");
            assert!(coverage.times_of_number(1) > 0);
        }
    }

    #[test]
    fn bundles_depend_on_seed_and_index_alone() {
        let bundle = |seed, index| Corpus::of_seed(seed).bundle(index);
        for index in [0, 3, 5, 8] {
            assert_eq!(bundle(9, index), bundle(9, index));
            assert_ne!(bundle(9, index), bundle(10, index));
        }
    }

    #[test]
    fn an_empty_coverage_is_all_gaps() {
        assert_eq!(Coverage::default().gaps().len(), 1 + 6 + 57 + 4);
    }

    #[test]
    fn turns_go_through_every_breakage() {
        let corpus = Corpus::of_seed(4);
        let count = corpus.breakages.len() as u64;
        let tried: std::collections::HashSet<*const Breakage> = (0..count)
            .map(|turn| corpus.breakage(turn) as *const Breakage)
            .collect();
        assert_eq!(tried.len() as u64, count);
        assert!(count <= 1500, "5000 bundles try all {count}");
    }
}
