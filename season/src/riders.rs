//! Who rides: the tickets that are asked for, most of which can be sold.

use second::calendar::{day_after, day_before};
use second::generate::random::Random;
use second::question::{cards_of, Leg, Question, LEG_SLOTS};

use crate::bundles::{CARDS, EVERYWHERE, FAIR, FOR_GROUPS, LOCAL, RAILWAYS, UNREAD};

const CANNOT_BE_SOLD_ONE_IN: u64 = 12;

pub fn drawn_question(random: &mut Random, today: u64) -> Question {
    let mut question = sellable(random, today);
    if random.one_in(CANNOT_BE_SOLD_ONE_IN) {
        spoil(random, &mut question);
    }
    question
}

fn sellable(random: &mut Random, today: u64) -> Question {
    let offer = random.pick(&[EVERYWHERE, EVERYWHERE, EVERYWHERE, FOR_GROUPS, FOR_GROUPS, LOCAL, FAIR]);
    let railways = if offer == LOCAL { &RAILWAYS[..3] } else { &RAILWAYS[..] };
    let mut question = Question {
        offer,
        day: random.pick(&[today, today, today, day_after(today)]),
        persons: random.between(2, 6),
        cards: drawn_cards(random),
        leg_count: random.pick(&[1, 1, 1, 2, 2, 3, 4, LEG_SLOTS as u64]),
        ..Question::default()
    };
    for slot in &mut question.legs[..question.leg_count as usize] {
        *slot = Leg { railway: random.pick(railways), fare: random.between(300, 30_000) };
    }
    question
}

fn drawn_cards(random: &mut Random) -> [u64; 4] {
    let mut cards = CARDS;
    random.shuffle(&mut cards);
    let count = random.pick(&[0, 0, 1, 1, 2, 3, 4]);
    cards_of(&cards[..count])
}

/// Changes one value such that the ticket cannot be sold, by 11 to 15 or by 17.
fn spoil(random: &mut Random, question: &mut Question) {
    match random.below(6) {
        0 => question.persons = 0,
        1 => (question.offer, question.legs[0].railway) = (LOCAL, RAILWAYS[5]),
        2 => (question.offer, question.day) = (FAIR, day_before(day_before(day_before(question.day)))),
        3 => (question.offer, question.persons) = (FOR_GROUPS, random.pick(&[1, 7])),
        4 => question.offer = UNREAD,
        _ => question.cards = [CARDS[0], CARDS[1], CARDS[0], 0],
    }
}

/// One value is changed.
pub fn another_question(random: &mut Random, question: &Question) -> Question {
    let mut other = *question;
    match random.below(4) {
        0 => other.persons = question.persons % 6 + 1,
        1 => other.day = day_after(question.day),
        2 => other.legs[0].fare += 1,
        _ => other.legs[0].railway = question.legs[0].railway % 9_999 + 1,
    }
    other
}

/// The question as the engine is asked it.
pub fn asked_of_engine(question: &Question) -> offers::Question {
    let cards: Vec<u32> = question.given_cards().into_iter().map(|card| card as u32).collect();
    let leg = |leg: &Leg| offers::Leg { railway: leg.railway as u32, fare: leg.fare as u32 };
    let legs: Vec<offers::Leg> = question.used_legs().iter().map(leg).collect();
    let ticket = offers::Ticket {
        offer: question.offer as u32,
        day: question.day as u32,
        persons: question.persons as u32,
        cards: &cards,
        legs: &legs,
    };
    offers::Question::new(&ticket).expect("no more cards and legs than there are slots")
}
