//! Damage by the simulation's own hand: to a bundle on its way to a till, and to stored books.

use std::fs;
use std::path::{Path, PathBuf};

use offers::{judge, Book};
use second::generate::random::Random;
use second::verdict::accepted_records;

use crate::answers::{due_refusal, told};
use crate::bundles::{damaged, Bundle};
use crate::cuts::Knife;
use crate::holds::Check;
use crate::met::Event;
use crate::riders::{asked_of_engine, drawn_question};
use crate::season::Season;
use crate::shelf::Shelf;
use crate::tally::Keeper;

#[derive(Clone, Copy, PartialEq, Eq)]
enum Damage {
    FlippedBit,
    Torn,
    Missing,
}

impl Season {
    /// The till refuses it, sells nothing by it, and keeps the one that it has.
    pub fn deliver_damaged_bundle(&mut self, post: usize) {
        let name = self.bundles.newest();
        let bytes = damaged(&mut self.random, self.bundles.named(name).bytes);
        let due = accepted_records(&bytes).map_or_else(due_refusal, |records| panic!("{} records", records.len()));
        let verdict = judge(&bytes).map_err(|refusal| told(Err(refusal)));
        self.holds.hold_equal(verdict.err(), Some(due), Check::Damage, "a damaged bundle");
        let question = drawn_question(&mut self.random, self.today);
        let handset = &mut self.posts[post].handset;
        let (number, before) = (handset.next_number(), handset.shelf().books().to_vec());
        let knife = Knife { cutter: &self.cutter, cut: None };
        let answer = handset.sell(number, &asked_of_engine(&question), Bundle { name, bytes: &bytes }, knife);
        let answer = answer.map(|done| done.told.expect("nothing cut the till off"));
        self.holds.hold_equal(told(answer), due, Check::Damage, "a sale by a damaged bundle");
        let is_unchanged = self.posts[post].handset.shelf().books() == before;
        self.holds.hold(is_unchanged, Check::Unchanged(Keeper::Till), || "by a damaged bundle".to_string());
        self.met.note(Event::BundleDamaged);
    }

    /// One book of a till and one of the office in each way.
    pub fn damage_stored_books(&mut self) {
        for damage in [Damage::FlippedBit, Damage::Torn, Damage::Missing] {
            let post = self.random.place_in(self.posts.len());
            let folder = self.posts[post].folder.clone();
            if self.is_damage_refused(&folder, damage) {
                self.restart(post);
                self.met.note(damage.event_at(Keeper::Till));
            }
            let folder = self.office.folder_of(self.posts[post].till);
            if self.is_damage_refused(&folder, damage) {
                self.restart_office();
                self.met.note(damage.event_at(Keeper::Office));
            }
        }
    }

    /// The book that was damaged is put back from a copy.
    fn is_damage_refused(&mut self, folder: &Path, damage: Damage) -> bool {
        let Some(path) = some_book(&mut self.random, folder, damage) else { return false };
        let good = fs::read(&path).expect("a book can be read");
        match damage {
            Damage::Missing => fs::remove_file(&path).expect("a book can be removed"),
            _ => fs::write(&path, damage.done_to(&mut self.random, &good)).expect("a book can be written"),
        }
        let is_refused = Book::load(&path).is_err() && Shelf::open(folder, true).is_err();
        self.holds.hold(is_refused, Check::Damage, || format!("{} is loaded", path.display()));
        fs::write(&path, good).expect("a book can be written");
        is_refused
    }
}

impl Damage {
    fn done_to(self, random: &mut Random, good: &[u8]) -> Vec<u8> {
        loop {
            let mut bad = good.to_vec();
            let place = random.place_in(bad.len());
            match self {
                Damage::FlippedBit => bad[place] ^= 1 << random.below(8),
                _ if random.one_in(2) => bad.truncate(place),
                _ => bad[place..].fill(0),
            }
            if bad != good {
                return bad;
            }
        }
    }

    fn event_at(self, keeper: Keeper) -> Event {
        match (self, keeper) {
            (Damage::FlippedBit, Keeper::Till) => Event::TillBookFlipped,
            (Damage::FlippedBit, Keeper::Office) => Event::OfficeBookFlipped,
            (Damage::Torn, Keeper::Till) => Event::TillBookTorn,
            (Damage::Torn, Keeper::Office) => Event::OfficeBookTorn,
            (Damage::Missing, Keeper::Till) => Event::TillBookMissing,
            (Damage::Missing, Keeper::Office) => Event::OfficeBookMissing,
        }
    }
}

/// One that can be so damaged: that the last of a series is missing, nobody can know.
fn some_book(random: &mut Random, folder: &Path, damage: Damage) -> Option<PathBuf> {
    let shelf = Shelf::open(folder, true).unwrap_or_else(|error| panic!("{error}"));
    let count = shelf.books().len() - usize::from(damage == Damage::Missing);
    if count == 0 {
        return None;
    }
    let path = shelf.path_of(random.place_in(count));
    path.exists().then_some(path)
}
