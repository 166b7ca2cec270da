//! What is asked of a fare or a sale.
use crate::{MOST_CARDS, MOST_LEGS};
use std::error::Error;
use std::fmt;

/// A leg of a journey.
#[repr(C)]
#[derive(Clone, Copy, Debug, Default, PartialEq, Eq, PartialOrd, Ord, Hash)]
pub struct Leg {
    /// The railway, 1 to 9999.
    pub railway: u32,
    /// The plain fare per person in cents, 0 to 999,999.
    pub fare: u32,
}

/// What a [`Question`] is made of, by name. Its limits are the engine's to judge, but for the counts of cards and legs.
#[derive(Clone, Copy, Debug, Default, PartialEq, Eq, Hash)]
pub struct Ticket<'a> {
    /// The offer, 1 to 99,999.
    pub offer: u32,
    /// The day as YYYYMMDD, a real one of the years 1583 to 9999.
    pub day: u32,
    /// The persons, 1 to 99.
    pub persons: u32,
    /// Up to four different cards, 1 to 999 each. Their order is part of the question.
    pub cards: &'a [u32],
    /// One to eight legs. Their order is part of the question.
    pub legs: &'a [Leg],
}

/// What is asked of a fare or a sale.
#[repr(C)]
#[derive(Clone, Copy, PartialEq, Eq, Hash)]
pub struct Question {
    pub(crate) offer: u32,
    pub(crate) day: u32,
    pub(crate) persons: u32,
    pub(crate) cards: [u32; MOST_CARDS],
    pub(crate) count: u32,
    pub(crate) legs: [Leg; MOST_LEGS],
}

impl Question {
    /// The question about a ticket. Only what has no room in a question is turned away here: all other limits the
    /// engine judges, when it is asked.
    ///
    /// ```
    /// use offers::{Leg, Question, Ticket, TooMany};
    ///
    /// let legs = [Leg { railway: 1185, fare: 1010 }; 9];
    /// let ticket = Ticket { offer: 42, day: 20240615, persons: 3, cards: &[7, 21], legs: &legs[..2] };
    /// let question = Question::new(&ticket)?;
    /// assert_eq!((question.offer(), question.cards(), question.legs().len()), (42, &[7, 21][..], 2));
    /// assert_eq!(Question::new(&Ticket { legs: &legs, ..ticket }), Err(TooMany::Legs(9)));
    /// # Ok::<(), TooMany>(())
    /// ```
    ///
    /// # Errors
    ///
    /// [`TooMany`] for more than [`MOST_CARDS`] cards or more than [`MOST_LEGS`] legs.
    pub fn new(ticket: &Ticket<'_>) -> Result<Question, TooMany> {
        let cards = slots_of(ticket.cards).ok_or(TooMany::Cards(ticket.cards.len()))?;
        let too_many_legs = TooMany::Legs(ticket.legs.len());
        let legs = slots_of(ticket.legs).ok_or(too_many_legs)?;
        let count = u32::try_from(ticket.legs.len()).map_err(|_| too_many_legs)?;
        Ok(Question { offer: ticket.offer, day: ticket.day, persons: ticket.persons, cards, count, legs })
    }

    /// The ticket that it is about.
    #[must_use]
    pub fn ticket(&self) -> Ticket<'_> {
        Ticket { offer: self.offer, day: self.day, persons: self.persons, cards: self.cards(), legs: self.legs() }
    }

    /// The offer.
    #[must_use]
    pub fn offer(&self) -> u32 {
        self.offer
    }

    /// The day, as YYYYMMDD.
    #[must_use]
    pub fn day(&self) -> u32 {
        self.day
    }

    /// The persons.
    #[must_use]
    pub fn persons(&self) -> u32 {
        self.persons
    }

    /// The cards that are given, in their order, without the empty slots behind them.
    #[must_use]
    pub fn cards(&self) -> &[u32] {
        let given = self.cards.iter().rposition(|&card| card != 0).map_or(0, |last| last + 1);
        &self.cards[..given]
    }

    /// The legs that are used, in their order.
    #[must_use]
    pub fn legs(&self) -> &[Leg] {
        &self.legs[..self.count as usize]
    }
}

impl fmt::Debug for Question {
    fn fmt(&self, f: &mut fmt::Formatter<'_>) -> fmt::Result {
        let Ticket { offer, day, persons, cards, legs } = self.ticket();
        f.debug_struct("Question")
            .field("offer", &offer)
            .field("day", &day)
            .field("persons", &persons)
            .field("cards", &cards)
            .field("legs", &legs)
            .finish()
    }
}

/// The given values and then empty slots, or `None` if there are more values than slots.
fn slots_of<T: Copy + Default, const SLOTS: usize>(given: &[T]) -> Option<[T; SLOTS]> {
    let mut slots = [T::default(); SLOTS];
    slots.get_mut(..given.len())?.copy_from_slice(given);
    Some(slots)
}

/// A ticket with more than a [`Question`] has room for.
#[derive(Clone, Copy, Debug, PartialEq, Eq, Hash)]
pub enum TooMany {
    /// So many cards, more than [`MOST_CARDS`].
    Cards(usize),
    /// So many legs, more than [`MOST_LEGS`].
    Legs(usize),
}

impl fmt::Display for TooMany {
    fn fmt(&self, f: &mut fmt::Formatter<'_>) -> fmt::Result {
        match self {
            TooMany::Cards(count) => write!(f, "a ticket has {MOST_CARDS} cards at most, and not {count}"),
            TooMany::Legs(count) => write!(f, "a ticket has {MOST_LEGS} legs at most, and not {count}"),
        }
    }
}

impl Error for TooMany {}
