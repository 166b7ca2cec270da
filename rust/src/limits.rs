//! The limits of what the engine is asked, as include/offers.h has them.

/// The words of a [`Book`](crate::Book).
pub const BOOK_WORDS: usize = 16_385;

/// The most sales of a [`Book`](crate::Book), cancelled ones too.
pub const MOST_ENTRIES: usize = 256;

/// The most bytes of a bundle.
pub const MOST_BUNDLE_BYTES: usize = 1_048_576;

/// The most legs of a [`Question`](crate::Question).
pub const MOST_LEGS: usize = 8;

/// The most cards of a [`Question`](crate::Question).
pub const MOST_CARDS: usize = 4;

/// The most persons of a [`Question`](crate::Question).
pub const MOST_PERSONS: u32 = 99;

/// The largest number of an offer; the smallest is 1.
pub const LARGEST_OFFER: u32 = 99_999;

/// The largest number of a railway; the smallest is 1.
pub const LARGEST_RAILWAY: u32 = 9999;

/// The largest number of a card; the smallest is 1.
pub const LARGEST_CARD: u32 = 999;

/// The largest plain fare of a leg per person, in cents; the smallest is 0.
pub const LARGEST_PLAIN_FARE: u32 = 999_999;

/// The largest number of a till; the smallest is 1.
pub const LARGEST_TILL: u32 = 65_535;

/// The largest sequence of a sale; the smallest is 1.
pub const LARGEST_SEQUENCE: u64 = 4_294_967_295;
