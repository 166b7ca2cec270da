//! A series of stored books in a folder, book-0001 and on. The last one takes new sales; all of them answer for theirs.

use std::ffi::OsStr;
use std::fs;
use std::io;
use std::path::{Path, PathBuf};

use offers::{Book, Outcome, Question, Reason, Receipt, Refusal, Sale, SaleNumber};

use crate::cuts::{Cut, CutOff, Knife, Landed};

const NAME: &str = "book-";
const DIGITS: usize = 4;

pub struct Shelf {
    folder: PathBuf,
    books: Vec<Book>,
    asks_earlier_books: bool,
}

/// What a sale or a cancellation came to.
pub struct Change {
    pub receipt: Receipt,
    /// The book that answered, by its place in the series.
    pub book: usize,
}

impl Change {
    pub fn has_to_be_saved(&self) -> bool {
        matches!(self.receipt.outcome, Outcome::Booked | Outcome::Cancelled)
    }
}

impl Shelf {
    /// Loads every book, or none: one that is damaged, or missing before another, is named.
    pub fn open(folder: &Path, asks_earlier_books: bool) -> Result<Shelf, String> {
        let mut books = Vec::new();
        for place in 0..count_in(folder) {
            let path = folder.join(name_of_place(place));
            books.push(Book::load(&path).map_err(|error| format!("{}: {error}", path.display()))?);
        }
        if books.is_empty() {
            books.push(Book::new());
        }
        Ok(Shelf { folder: folder.to_path_buf(), books, asks_earlier_books })
    }

    pub fn books(&self) -> &[Book] {
        &self.books
    }

    pub fn path_of(&self, book: usize) -> PathBuf {
        self.folder.join(name_of_place(book))
    }

    pub fn is_current(&self, book: usize) -> bool {
        book + 1 == self.books.len()
    }

    pub fn find(&self, number: SaleNumber) -> Option<Sale> {
        self.holder_of(number).and_then(|book| found_in(&self.books[book], number))
    }

    /// The book that has the number: the current one is asked first, then the earlier ones.
    fn holder_of(&self, number: SaleNumber) -> Option<usize> {
        let asked = if self.asks_earlier_books { self.books.len() } else { 1 };
        (0..self.books.len()).rev().take(asked).find(|&book| found_in(&self.books[book], number).is_some())
    }

    pub fn sell(&mut self, bundle: &[u8], number: SaleNumber, question: &Question) -> Result<Change, Refusal> {
        let book = self.holder_of(number).unwrap_or(self.books.len() - 1);
        match self.books[book].sale(bundle, number, question) {
            Err(refusal) if refusal.reason == Reason::BookFull => self.sell_in_next(bundle, number, question),
            answer => answer.map(|receipt| Change { receipt, book }),
        }
    }

    fn sell_in_next(&mut self, bundle: &[u8], number: SaleNumber, question: &Question) -> Result<Change, Refusal> {
        let mut next = Book::new();
        let receipt = next.sale(bundle, number, question)?;
        self.books.push(next);
        Ok(Change { receipt, book: self.books.len() - 1 })
    }

    pub fn cancel(&mut self, number: SaleNumber) -> Result<Change, Refusal> {
        let book = self.holder_of(number).unwrap_or(self.books.len() - 1);
        let receipt = self.books[book].cancel(number)?;
        Ok(Change { receipt, book })
    }

    /// After a cut nothing of this shelf may be used any more.
    pub fn save(&self, book: usize, knife: Knife<'_>) -> Result<(), CutOff> {
        let (path, book) = (self.path_of(book), &self.books[book]);
        or_stop(&self.folder, fs::create_dir_all(&self.folder));
        match knife.cut {
            Some(cut @ (Cut::BeforeOutbox | Cut::BeforeSave)) => return Err(CutOff::without_traces(cut, Landed::Old)),
            Some(Cut::InSave(blow)) => return Err(or_stop(&path, knife.cutter.save(book, &path, blow))),
            Some(Cut::AfterSave) | None => or_stop(&path, book.save(&path)),
        }
        knife.cut.map_or(Ok(()), |cut| Err(CutOff::without_traces(cut, Landed::New)))
    }
}

fn or_stop<T>(path: &Path, result: io::Result<T>) -> T {
    result.unwrap_or_else(|error| panic!("{}: {error}", path.display()))
}

/// Up to the last book that is there; the folder itself may not be there yet.
fn count_in(folder: &Path) -> usize {
    let entries = fs::read_dir(folder).into_iter().flatten().flatten();
    entries.filter_map(|entry| place_in_name(&entry.file_name())).max().map_or(0, |last| last + 1)
}

fn found_in(book: &Book, number: SaleNumber) -> Option<Sale> {
    book.find(number).expect("numbers are within their limits")
}

fn name_of_place(place: usize) -> String {
    format!("{NAME}{:0DIGITS$}", place + 1)
}

/// The place that a file of this name has in the series; none where it is no book.
pub fn place_in_name(name: &OsStr) -> Option<usize> {
    let digits = name.to_str()?.strip_prefix(NAME)?;
    let number: usize = digits.parse().ok()?;
    let place = number.checked_sub(1)?;
    (name_of_place(place) == *name.to_str()?).then_some(place)
}
