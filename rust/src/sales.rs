//! The sales of a book, as they are read from it.
use crate::reason::{check, index};
use crate::receipt::sum_of;
use crate::{raw, Book, Question, Refusal, SaleNumber, MOST_LEGS};
use std::iter::FusedIterator;
use std::ops::Range;

/// A sale in a [`Book`].
#[derive(Clone, Copy, Debug, PartialEq, Eq, Hash)]
pub struct Sale {
    /// Which entry of the book it is, in the order of booking, from 0.
    pub entry: usize,
    /// Its number.
    pub number: SaleNumber,
    /// What was sold.
    pub question: Question,
    /// The part of each leg in cents, as priced when the sale was booked, and zeros after them.
    pub parts: [u32; MOST_LEGS],
    /// Whether it is cancelled.
    pub cancelled: bool,
}

impl Sale {
    /// The sum of the parts: what the ticket cost, in cents, also if the sale is cancelled.
    #[must_use]
    pub fn amount(&self) -> u64 {
        sum_of(&self.parts)
    }
}

pub(crate) fn sale_of(booking: &raw::Booking) -> Result<Sale, Refusal> {
    check(&booking.head)?;
    Ok(Sale {
        entry: index(booking.entry),
        number: SaleNumber { till: booking.till, sequence: booking.sequence },
        question: booking.question,
        parts: booking.parts,
        cancelled: booking.status != 0,
    })
}

/// The sales of a [`Book`], cancelled ones too, in the order of booking. It is made by [`Book::iter`].
#[derive(Clone, Debug)]
pub struct Sales<'a> {
    book: &'a Book,
    entries: Range<usize>,
}

impl<'a> Sales<'a> {
    pub(crate) fn new(book: &'a Book) -> Sales<'a> {
        Sales { book, entries: 0..book.len() }
    }
}

impl Iterator for Sales<'_> {
    type Item = Sale;

    fn next(&mut self) -> Option<Sale> {
        self.book.get(self.entries.next()?)
    }

    fn nth(&mut self, skipped: usize) -> Option<Sale> {
        self.book.get(self.entries.nth(skipped)?)
    }

    fn size_hint(&self) -> (usize, Option<usize>) {
        self.entries.size_hint()
    }
}

impl DoubleEndedIterator for Sales<'_> {
    fn next_back(&mut self) -> Option<Sale> {
        self.book.get(self.entries.next_back()?)
    }
}

impl ExactSizeIterator for Sales<'_> {}

impl FusedIterator for Sales<'_> {}

impl<'a> IntoIterator for &'a Book {
    type Item = Sale;
    type IntoIter = Sales<'a>;

    fn into_iter(self) -> Sales<'a> {
        self.iter()
    }
}
