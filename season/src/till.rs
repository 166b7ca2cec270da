//! A till on a train: it books its own sales, saves, prints, and sends up what it sold when there is a signal.

use std::collections::BTreeSet;
use std::fs;
use std::path::Path;

use offers::{Question, Receipt, Refusal, SaleNumber};

use crate::bundles::Bundle;
use crate::cuts::{Cut, CutOff, Knife, Landed};
use crate::message::{Message, What};
use crate::outbox::{Line, Outbox};
use crate::rules::Rules;
use crate::shelf::{Change, Shelf};

/// Where a till that keeps no numbers takes fresh ones from.
const FRESH_FROM: u64 = 1_000_000_000;

pub struct Till {
    till: u32,
    shelf: Shelf,
    outbox: Outbox,
    largest_sequence: u64,
    rules: Rules,
    /// The sales sent since the till was started; a till that keeps to the rules has no use for them.
    sales_sent: BTreeSet<u64>,
    fresh_numbers: u64,
}

/// What came of a sale or a cancellation at the till.
pub struct Done {
    /// The ticket, or the word that the sale is cancelled; none where the till was cut off first.
    pub told: Option<Receipt>,
    /// The till has to be started again.
    pub cut_off: Option<CutOff>,
    /// Whether the book that answered is the one that takes new sales.
    pub by_current_book: bool,
}

impl Till {
    /// A till has nothing but its files when it starts.
    pub fn start(till: u32, folder: &Path, rules: Rules) -> Result<Till, String> {
        fs::create_dir_all(folder).map_err(|error| format!("{}: {error}", folder.display()))?;
        let shelf = Shelf::open(folder, rules.till_asks_earlier_books)?;
        let sequences = shelf.books().iter().flat_map(|book| book.iter()).map(|sale| sale.number.sequence);
        let largest_sequence = sequences.max().unwrap_or(0);
        let (outbox, sales_sent) = (Outbox::open(folder), BTreeSet::new());
        Ok(Till { till, shelf, outbox, largest_sequence, rules, sales_sent, fresh_numbers: 0 })
    }

    pub fn next_number(&self) -> SaleNumber {
        SaleNumber { till: self.till, sequence: self.largest_sequence + 1 }
    }

    pub fn shelf(&self) -> &Shelf {
        &self.shelf
    }

    pub fn sell(
        &mut self,
        number: SaleNumber,
        question: &Question,
        bundle: Bundle<'_>,
        knife: Knife<'_>,
    ) -> Result<Done, Refusal> {
        let change = self.shelf.sell(bundle.bytes, number, question)?;
        let line = Line::Sale { sequence: number.sequence, bundle: bundle.name };
        self.largest_sequence = self.largest_sequence.max(number.sequence);
        Ok(self.finish(change, line, knife))
    }

    pub fn cancel(&mut self, number: SaleNumber, knife: Knife<'_>) -> Result<Done, Refusal> {
        let change = self.shelf.cancel(number)?;
        Ok(self.finish(change, Line::Cancellation { sequence: number.sequence }, knife))
    }

    /// Saves what changed, and only then tells the passenger.
    fn finish(&mut self, change: Change, line: Line, knife: Knife<'_>) -> Done {
        let by_current_book = self.shelf.is_current(change.book);
        let stored = if change.has_to_be_saved() { self.store(change.book, line, knife) } else { Ok(()) };
        let is_told = stored.is_ok() || !self.rules.till_saves_before_it_prints;
        Done { told: is_told.then_some(change.receipt), cut_off: stored.err(), by_current_book }
    }

    fn store(&mut self, book: usize, line: Line, knife: Knife<'_>) -> Result<(), CutOff> {
        if knife.cut == Some(Cut::BeforeOutbox) {
            return Err(CutOff::without_traces(Cut::BeforeOutbox, Landed::Old));
        }
        self.outbox.note(line);
        self.shelf.save(book, knife)
    }

    pub fn noted(&self) -> &[Line] {
        self.outbox.lines()
    }

    /// The lines of the outbox that the books bear out.
    pub fn unsent(&self) -> Vec<Line> {
        self.outbox.lines().iter().copied().filter(|&line| self.message_of(line).is_some()).collect()
    }

    fn number_of(&self, line: Line) -> SaleNumber {
        SaleNumber { till: self.till, sequence: line.sequence() }
    }

    fn message_of(&self, line: Line) -> Option<Message> {
        let number = self.number_of(line);
        let sale = self.shelf.find(number)?;
        match line {
            Line::Sale { bundle, .. } => Some(Message { number, what: What::Sale { question: sale.question, bundle } }),
            Line::Cancellation { .. } => sale.cancelled.then_some(Message { number, what: What::Cancellation }),
        }
    }

    /// The message for a line, which stays in the outbox until the office has answered.
    pub fn send(&mut self, line: Line) -> Option<Message> {
        let mut message = self.message_of(line)?;
        let is_sent_again = line.is_sale() && !self.sales_sent.insert(line.sequence());
        if is_sent_again && !self.rules.till_sends_again_under_the_number {
            self.fresh_numbers += 1;
            message.number.sequence = FRESH_FROM + self.fresh_numbers;
        }
        Some(message)
    }

    pub fn office_has_answered(&mut self, line: Line) {
        self.outbox.strike_out(line);
    }
}
