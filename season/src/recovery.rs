//! A whole series of books is lost, and is taken over from the other side.

use std::fs;
use std::path::Path;

use offers::SaleNumber;

use crate::met::Event;
use crate::outbox::Line;
use crate::season::Season;
use crate::shelf::Shelf;

const MOST_TRIES_TO_SEND: usize = 20;

impl Season {
    /// One till and the office's books of one till.
    pub fn lose_whole_series(&mut self) {
        let post = self.random.place_in(self.posts.len());
        self.lose_books_of_till(post);
        let post = self.random.place_in(self.posts.len());
        self.lose_books_of_office(post);
    }

    /// The till's books have whatever the office ever booked for it.
    fn lose_books_of_office(&mut self, post: usize) {
        let folder = self.office.folder_of(self.posts[post].till);
        if take_over(&self.posts[post].folder, &folder) {
            self.tally.office_takes_over(self.posts[post].till);
            self.restart_office();
            self.met.note(Event::OfficeTookOver);
        }
    }

    /// The office's books will do only if they have all that the till notes, so it loses its own after a good signal.
    fn lose_books_of_till(&mut self, post: usize) {
        let is_careful = self.plan.rules().till_takes_over_only_all;
        for _ in 0..MOST_TRIES_TO_SEND {
            if is_careful && !self.office_has_all_noted(post) {
                self.send_all(post);
            }
        }
        if is_careful && !self.office_has_all_noted(post) {
            return;
        }
        let folder = self.office.folder_of(self.posts[post].till);
        if take_over(&folder, &self.posts[post].folder) {
            self.restart(post);
            self.met.note(Event::TillTookOver);
        }
    }

    fn office_has_all_noted(&mut self, post: usize) -> bool {
        let till = self.posts[post].till;
        let shelf = self.office.shelf(till);
        self.posts[post].handset.noted().iter().all(|line| {
            let sale = shelf.find(SaleNumber { till, sequence: line.sequence() });
            match line {
                Line::Sale { .. } => sale.is_some(),
                Line::Cancellation { .. } => sale.is_some_and(|sale| sale.cancelled),
            }
        })
    }
}

/// Loads each book of one series and saves it in place of those of the other. Whether there are any.
fn take_over(from: &Path, to: &Path) -> bool {
    let open = |folder| Shelf::open(folder, true).unwrap_or_else(|error| panic!("{error}"));
    let (kept, lost) = (open(from), open(to));
    if !kept.path_of(0).exists() || !lost.path_of(0).exists() {
        return false;
    }
    for book in 0..lost.books().len() {
        fs::remove_file(lost.path_of(book)).expect("a book can be removed");
    }
    for (place, book) in kept.books().iter().enumerate() {
        book.save(lost.path_of(place)).expect("a book can be saved");
    }
    true
}
