//! Renders "The sales book" as histories, asked call by call on both sides.

use std::io;

use super::tally::Tally;
use super::wire::{Answer, Call, Lent, Name};
use super::{Bench, Compared, Due};
use crate::book::words::{book_of_words, empty_book};
use crate::book::{Book, MOST_ENTRIES};
use crate::fare::{fare, Fare};
use crate::generate::books::sale_number;
use crate::generate::drafts::{assemble, Draft};
use crate::generate::histories::{drawn_bundles, drawn_step, starting_book, Step};
use crate::generate::questions::{question_in_limits, with_cards, with_legs};
use crate::generate::random::Random;
use crate::generate::resent::{Change, Sent};
use crate::layout::Table;
use crate::question::{Question, CARD_SLOTS, LEG_SLOTS};

const MIXED_STEPS: u64 = 44;
const STEPS_OF_A_FULL_BOOK: u64 = 30;
const STEPS_BEFORE_RESENDING: u64 = 6;
/// So many sales and cancels come to one reading of the book.
const STEPS_PER_READING: u64 = 3;
const MOST_READ_THROUGH: u64 = 16;

pub fn run(bench: &mut Bench, random: &mut Random, turn: u64) -> io::Result<()> {
    let eighth = turn as usize / 8;
    let (legs, cards) = (1 + eighth % LEG_SLOTS, eighth % (CARD_SLOTS + 1));
    let course = match turn % 16 {
        0 => filling(bench, random),
        1 | 9 => mixed(bench, random, starting_book),
        2 | 10 => resending(bench, random, legs, cards),
        _ => mixed(bench, random, |_| empty_book()),
    };
    course?.read_through(bench)
}

/// A book on its way through a history, with the tally beside it; none beside an unsound book.
struct Course {
    bundles: Vec<Vec<u8>>,
    book: Vec<u32>,
    tally: Option<Tally>,
    settled: u64,
}

impl Course {
    fn from(bundles: Vec<Vec<u8>>, book: Vec<u32>) -> Course {
        let known = book_of_words(&book).filter(Book::is_sound);
        Course {
            bundles,
            book,
            tally: known.map(|known| Tally::of(&known)),
            settled: 0,
        }
    }

    fn take(&mut self, bench: &mut Bench, step: &Step) -> io::Result<Answer> {
        let (call, bundle) = call_of(step);
        let bundle = bundle.map_or(&[][..], |place| &self.bundles[place]);
        let lent = Lent::of(bundle, &self.book);
        let compared = bench.ask_held(&call, &lent, &self.dues(&call))?;
        if let Some(tally) = &mut self.tally {
            tally.note(&call, bundle);
        }
        self.book = compared.book;
        if matches!(call.name, Name::Sale | Name::Cancel) {
            self.settle(bench, &call.question, &compared.second)?;
            self.read_after(bench, &call, &compared.second)?;
        }
        Ok(compared.second)
    }

    fn dues(&self, call: &Call) -> Vec<Due> {
        let answer = self.tally.as_ref().and_then(|tally| tally.answer(call));
        let due = answer.map(|answer| ("the history", answer));
        due.into_iter().collect()
    }

    /// Of a call that needs no bundle and leaves the book as it is.
    fn ask(&self, bench: &mut Bench, call: &Call) -> io::Result<Compared> {
        bench.ask_held(call, &Lent::of(&[], &self.book), &self.dues(call))
    }

    /// Asks every balance, and the total, which must also be their sum.
    fn settle(&self, bench: &mut Bench, asked: &Question, answer: &Answer) -> io::Result<()> {
        let Some(tally) = &self.tally else {
            return Ok(());
        };
        let mut sum = 0;
        for railway in tally.railways(asked) {
            let compared = self.ask(bench, &Call::balance(railway))?;
            sum += compared.told().map_or(0, |told| told.value);
        }
        let call = Call::of(Name::Total);
        let mut dues = self.dues(&call);
        dues.push(("the sum of the balances", Answer::of_value(sum)));
        bench.ask_held(&call, &Lent::of(&[], &self.book), &dues)?;
        bench.coverage.note_settled(answer);
        Ok(())
    }

    /// Reads the book, each time in another way.
    fn read_after(&mut self, bench: &mut Bench, step: &Call, answer: &Answer) -> io::Result<()> {
        let Some(tally) = &self.tally else {
            return Ok(());
        };
        self.settled += 1;
        if !self.settled.is_multiple_of(STEPS_PER_READING) {
            return Ok(());
        }
        let call = reading_after(step, tally, self.settled / STEPS_PER_READING);
        let read = self.ask(bench, &call)?.second;
        let coverage = &mut bench.coverage;
        coverage.note_read_after(step, answer, &call, &read);
        Ok(())
    }

    /// Reads every entry, of a long book one in so many.
    fn read_through(&self, bench: &mut Bench) -> io::Result<()> {
        let count = self.tally.as_ref().map_or(0, Tally::count);
        let stride = 1 + count / MOST_READ_THROUGH;
        for place in (0..count).step_by(stride as usize) {
            self.ask(bench, &Call::entry(place))?;
        }
        Ok(())
    }

    fn take_drawn(&mut self, bench: &mut Bench, random: &mut Random) -> io::Result<()> {
        let known = book_of_words(&self.book).unwrap_or_default();
        let step = drawn_step(random, &known, &self.bundles);
        self.take(bench, &step)?;
        Ok(())
    }

    fn resend(
        &mut self,
        bench: &mut Bench,
        random: &mut Random,
        first: &Sent,
        change: Change,
    ) -> io::Result<()> {
        let Some(sent) = change.applied(random, first) else {
            return Ok(());
        };
        let bundle = random.place_in(self.bundles.len());
        let is_cancelled = self.is_cancelled(first);
        let answer = self.take(bench, &Step::Sale { bundle, sent })?;
        bench.coverage.note_resent(change, is_cancelled, &answer);
        Ok(())
    }

    fn is_cancelled(&self, sent: &Sent) -> bool {
        let number = (sent.till, sent.sequence);
        let tally = self.tally.as_ref();
        tally.is_some_and(|tally| tally.is_cancelled(number))
    }
}

/// In turn the count, the entry booked last, a number that is hardly in the book, a cancelled sale and the sale of the step.
fn reading_after(step: &Call, tally: &Tally, turn: u64) -> Call {
    let (till, sequence) = step.sale_number();
    let cancelled = tally.cancelled();
    match turn % 5 {
        0 => Call::of(Name::Count),
        1 => Call::entry(tally.count().saturating_sub(1)),
        2 => Call::find(till, sequence ^ 1),
        3 if !cancelled.is_empty() => {
            let (till, sequence) = cancelled[turn as usize % cancelled.len()];
            Call::find(till, sequence)
        }
        _ => Call::find(till, sequence),
    }
}

/// The call, and the place of the bundle it is lent.
pub fn call_of(step: &Step) -> (Call, Option<usize>) {
    match *step {
        Step::Sale { bundle, ref sent } => {
            let call = Call::sale(sent.till, sent.sequence, &sent.question);
            (call, Some(bundle))
        }
        Step::Cancel { till, sequence } => (Call::cancel(till, sequence), None),
        Step::Balance { railway } => (Call::balance(railway), None),
        Step::Total => (Call::of(Name::Total), None),
        Step::Count => (Call::of(Name::Count), None),
        Step::Entry { place } => (Call::entry(place), None),
        Step::Find { till, sequence } => (Call::find(till, sequence), None),
    }
}

fn mixed(
    bench: &mut Bench,
    random: &mut Random,
    book: impl Fn(&mut Random) -> Vec<u32>,
) -> io::Result<Course> {
    let mut course = Course::from(drawn_bundles(random), book(random));
    for _ in 0..MIXED_STEPS {
        course.take_drawn(bench, random)?;
    }
    Ok(course)
}

/// From the empty book until it is full, and on.
fn filling(bench: &mut Bench, random: &mut Random) -> io::Result<Course> {
    let mut bundles = drawn_bundles(random);
    let question = priceable(random, &mut bundles);
    let mut course = Course::from(bundles, empty_book());
    while (course.book[0] as usize) < MOST_ENTRIES {
        if random.one_in(5) {
            course.take_drawn(bench, random)?;
        } else {
            course.take(bench, &sale_of(random, question))?;
        }
    }
    for _ in 0..STEPS_OF_A_FULL_BOOK {
        course.take_drawn(bench, random)?;
    }
    course.take(bench, &sale_of(random, question))?;
    Ok(course)
}

/// A sale of so many legs and cards, sent again with every change there is, before its cancellation and after it.
fn resending(
    bench: &mut Bench,
    random: &mut Random,
    legs: usize,
    cards: usize,
) -> io::Result<Course> {
    let mut bundles = drawn_bundles(random);
    let question = priceable(random, &mut bundles);
    let question = with_legs(random, &question, legs);
    let question = with_cards(random, &question, cards);
    let mut course = Course::from(bundles, empty_book());
    for _ in 0..STEPS_BEFORE_RESENDING {
        course.take_drawn(bench, random)?;
    }
    let sent = numbered(random, question);
    let (till, sequence) = (sent.till, sent.sequence);
    for step in [
        Step::Sale { bundle: 0, sent },
        Step::Cancel { till, sequence },
    ] {
        course.take(bench, &step)?;
        let mut changes = Change::all();
        random.shuffle(&mut changes);
        for change in changes {
            course.resend(bench, random, &sent, change)?;
        }
    }
    Ok(course)
}

fn numbered(random: &mut Random, question: Question) -> Sent {
    let (till, sequence) = sale_number(random);
    Sent {
        till,
        sequence,
        question,
    }
}

fn sale_of(random: &mut Random, question: Question) -> Step {
    let sent = numbered(random, question);
    Step::Sale { bundle: 0, sent }
}

/// A question that the first bundle prices; a plain one takes its place where none is found.
fn priceable(random: &mut Random, bundles: &mut [Vec<u8>]) -> Question {
    for attempt in 0.. {
        if attempt == 50 {
            bundles[0] = assemble(&[Draft::plain(Table::Co)]);
        }
        let question = question_in_limits(random, &bundles[0]);
        if matches!(fare(&bundles[0], &question), Fare::Priced { .. }) {
            return question;
        }
    }
    unreachable!("a plain bundle prices some question")
}
