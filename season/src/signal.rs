//! What becomes of a message between a till and the office.

use second::generate::random::Random;

use crate::message::Message;
use crate::outbox::Line;
use crate::tally::PassageId;

/// The longest that a message is under way, in turns of the season.
const LONGEST_WAY: u64 = 150;

/// A message on its way, and what the simulation knows of it.
#[derive(Clone, Copy)]
pub struct Upload {
    pub message: Message,
    /// Which till of the season sent it, and for which line of its outbox.
    pub post: usize,
    pub line: Line,
    pub passage: PassageId,
}

#[derive(Clone, Copy, Debug, PartialEq, Eq)]
pub enum Fate {
    LostBefore,
    HeldUp,
    Doubled,
    Arrives,
}

pub fn drawn_fate(random: &mut Random) -> Fate {
    match random.below(20) {
        0..=2 => Fate::LostBefore,
        3..=4 => Fate::HeldUp,
        5 => Fate::Doubled,
        _ => Fate::Arrives,
    }
}

pub fn is_answer_lost(random: &mut Random) -> bool {
    random.one_in(9)
}

/// The messages that are under way.
#[derive(Default)]
pub struct Air {
    /// With the turn on which each arrives.
    under_way: Vec<(u64, Upload)>,
}

impl Air {
    pub fn hold_up(&mut self, random: &mut Random, now: u64, upload: Upload) {
        self.under_way.push((now + random.between(1, LONGEST_WAY), upload));
    }

    /// Takes out those that arrive by now.
    pub fn arriving(&mut self, now: u64) -> Vec<Upload> {
        let (arriving, rest) = self.under_way.drain(..).partition(|(turn, _)| *turn <= now);
        self.under_way = rest;
        arriving.into_iter().map(|(_, upload): (u64, Upload)| upload).collect()
    }

    pub fn is_empty(&self) -> bool {
        self.under_way.is_empty()
    }

    pub fn longest_way() -> u64 {
        LONGEST_WAY
    }
}
