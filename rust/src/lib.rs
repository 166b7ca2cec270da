//! Judges bundles of railways' offer tables, prices tickets from them, and keeps a book of what was sold.
//!
//! The answers come from a proved engine, which is linked as an archive for Linux on x86-64 and on 64-bit Arm. Every
//! call answers for every argument. This crate lends the engine slices, turns its numbers into types, and keeps a book
//! in a file that survives a crash.
//!
//! ```
//! use offers::{judge, Reason};
//!
//! assert_eq!(judge(b""), Ok(0));
//! let refusal = judge(b"XX").unwrap_err();
//! assert_eq!(refusal.reason, Reason::MarkUnknown);
//! assert_eq!(refusal.to_string(), "a mark is unknown, or one byte is left (number 2, place 0, detail 0)");
//! ```
//!
//! A sale, and the book in a file:
//!
//! ```
//! use offers::{Book, Leg, Outcome, Question, SaleNumber, Ticket};
//!
//! # fn main() -> Result<(), Box<dyn std::error::Error>> {
//! # let path = std::env::temp_dir().join(format!("offers-first-sale-{}", std::process::id()));
//! let bundle = std::fs::read("../examples/sample.bundle")?;
//! let question = Question::new(&Ticket {
//!     offer: 42,
//!     day: 20240615,
//!     persons: 3,
//!     cards: &[7],
//!     legs: &[Leg { railway: 1185, fare: 1010 }, Leg { railway: 1181, fare: 500 }],
//! })?;
//!
//! let mut book = Book::new();
//! let number = SaleNumber { till: 1, sequence: 1 };
//! let receipt = book.sale(&bundle, number, &question)?;
//! assert_eq!((receipt.outcome, receipt.amount()), (Outcome::Booked, 2625));
//! book.save(&path)?;
//!
//! let kept = Book::load(&path)?;
//! assert_eq!(kept.balance(1185)?, 1125);
//! assert_eq!(kept.find(number)?.map(|sale| sale.question), Some(question));
//! # std::fs::remove_file(&path)?;
//! # Ok(())
//! # }
//! ```
#![deny(missing_docs)]
#![deny(unsafe_code)]

mod book;
mod checksum;
mod file;
mod limits;
mod price;
mod question;
mod raw;
mod reason;
mod receipt;
mod sales;
mod stored;

pub use book::Book;
pub use file::LoadError;
pub use limits::*;
pub use price::{fare, judge, Quote};
pub use question::{Leg, Question, Ticket, TooMany};
pub use reason::{Reason, Refusal};
pub use receipt::{Outcome, Receipt, SaleNumber};
pub use sales::{Sale, Sales};
pub use stored::{StoredError, STORED_BYTES};

/// The version of this crate, which is that of the engine and of its C header.
pub const VERSION: &str = env!("CARGO_PKG_VERSION");
