//! A book of sales in memory.
use crate::reason::{check, index};
use crate::receipt::receipt_of;
use crate::sales::sale_of;
use crate::{raw, Question, Reason, Receipt, Refusal, Sale, SaleNumber, Sales, BOOK_WORDS, MOST_ENTRIES};
use std::fmt;

/// A book of up to 256 sales. It is always sound, so no call on it is refused by 21.
///
/// A book is kept with [`save`](Book::save) and taken back with [`load`](Book::load).
#[derive(Clone, PartialEq, Eq)]
pub struct Book {
    words: Box<[u32]>,
}

impl Default for Book {
    fn default() -> Book {
        Book::new()
    }
}

impl fmt::Debug for Book {
    fn fmt(&self, f: &mut fmt::Formatter<'_>) -> fmt::Result {
        f.debug_struct("Book").field("len", &self.len()).finish_non_exhaustive()
    }
}

impl Book {
    /// A book with no sales.
    #[must_use]
    pub fn new() -> Book {
        Book { words: vec![0; BOOK_WORDS].into_boxed_slice() }
    }

    /// The book that has these words.
    ///
    /// # Errors
    ///
    /// 21 if it is not sound, or has not [`BOOK_WORDS`] words.
    pub fn from_words(words: &[u32]) -> Result<Book, Refusal> {
        check(&raw::count(words).head)?;
        Ok(Book { words: words.into() })
    }

    /// The words of the book.
    #[must_use]
    pub fn as_words(&self) -> &[u32] {
        &self.words
    }

    /// Books a sale, if its number is new and it can be priced. A sale that got no answer is sent again under its
    /// number: it is booked once at most, and the answer tells the first parts.
    ///
    /// # Errors
    ///
    /// 22 to 24, and the numbers of [`fare`](crate::fare). The book is then as it was.
    pub fn sale(&mut self, bundle: &[u8], number: SaleNumber, question: &Question) -> Result<Receipt, Refusal> {
        receipt_of(&raw::sale(&mut self.words, bundle, number, question))
    }

    /// Cancels a sale. Its number stays taken.
    ///
    /// # Errors
    ///
    /// 22 and 25. The book is then as it was.
    pub fn cancel(&mut self, number: SaleNumber) -> Result<Receipt, Refusal> {
        receipt_of(&raw::cancel(&mut self.words, number))
    }

    /// What a railway is owed in cents for the sales that are not cancelled.
    ///
    /// # Errors
    ///
    /// 11 if the railway is not 1 to 9999.
    pub fn balance(&self, railway: u32) -> Result<u64, Refusal> {
        amount_of(&raw::balance(&self.words, railway))
    }

    /// What all railways are owed in cents for the sales that are not cancelled.
    ///
    /// # Errors
    ///
    /// None today, as a book is always sound.
    pub fn total(&self) -> Result<u64, Refusal> {
        amount_of(&raw::total(&self.words))
    }

    /// How many sales it has, cancelled ones too.
    #[must_use]
    pub fn len(&self) -> usize {
        let tally = raw::count(&self.words);
        answered(check(&tally.head));
        index(tally.entries)
    }

    /// Whether it has no sales.
    #[must_use]
    pub fn is_empty(&self) -> bool {
        self.len() == 0
    }

    /// Whether it has no room for a further sale. It still answers repeats and cancellations.
    #[must_use]
    pub fn is_full(&self) -> bool {
        self.len() == MOST_ENTRIES
    }

    /// The sale at an entry, in the order of booking, or `None` from [`len`](Book::len) on.
    #[must_use]
    pub fn get(&self, entry: usize) -> Option<Sale> {
        answered(unless_unknown(sale_of(&raw::entry(&self.words, entry))))
    }

    /// The sale that has a number, or `None` if it is not in this book. Nothing is booked.
    ///
    /// # Errors
    ///
    /// 22 if the number is outside its limits.
    pub fn find(&self, number: SaleNumber) -> Result<Option<Sale>, Refusal> {
        unless_unknown(sale_of(&raw::find(&self.words, number)))
    }

    /// The sales, cancelled ones too, in the order of booking. Each is asked of the engine, which checks the book anew.
    ///
    /// ```
    /// use offers::Book;
    ///
    /// let book = Book::new();
    /// let live: u64 = book.iter().filter(|sale| !sale.cancelled).map(|sale| sale.amount()).sum();
    /// assert_eq!(book.total(), Ok(live));
    /// ```
    #[must_use]
    pub fn iter(&self) -> Sales<'_> {
        Sales::new(self)
    }
}

fn amount_of(sum: &raw::Sum) -> Result<u64, Refusal> {
    check(&sum.head)?;
    Ok(sum.amount)
}

fn unless_unknown(read: Result<Sale, Refusal>) -> Result<Option<Sale>, Refusal> {
    match read {
        Err(Refusal { reason: Reason::SaleUnknown, .. }) => Ok(None),
        other => other.map(Some),
    }
}

/// The answer of a call that the engine refuses of no sound book.
fn answered<T>(answer: Result<T, Refusal>) -> T {
    answer.unwrap_or_else(|refusal| unreachable!("a book is always sound: {refusal}"))
}
