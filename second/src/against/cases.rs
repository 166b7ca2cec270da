//! Renders no section: what each case asks, by its index.

use std::io;

use super::histories;
use super::wire::{Answer, Call, Lent, Name};
use super::Bench;
use crate::book::words::{empty_book, words_of_book, BOOK_WORDS};
use crate::bundle::LONGEST_BUNDLE;
use crate::calendar::{FIRST_DAY, LAST_DAY};
use crate::generate::books::{
    book_at_the_bound, entry_places, sale_number, sound_book, BookDefect,
};
use crate::generate::breakage::{every_breakage, Breakage};
use crate::generate::clashes::Clashing;
use crate::generate::corpus::{every_row, Corpus};
use crate::generate::crowded::seasonal::Seasonal;
use crate::generate::crowded::Crowded;
use crate::generate::damage::with_broken_field;
use crate::generate::dearest::{costliest_offer, most_asked};
use crate::generate::histories::{any_bundle, drawn_bundles, drawn_step};
use crate::generate::questions::{question, question_in_limits, unaimed_question};
use crate::generate::random::Random;
use crate::generate::valid::{sized_bundle_with_memos, valid_bundle, valid_bundle_with_cards};
use crate::layout::Table;
use crate::program::LONGEST_INPUT;
use crate::question::{Leg, Question, CARD_SLOTS};

/// The last of so many verdict cases judges a crowded bundle as well, and the first one of many seasons.
const CROWDED_ONE_IN: u64 = 8;
const QUESTIONS_PER_BUNDLE: u64 = 12;
const STEPS_PER_BOOK: u64 = 9;
/// Enough for each way to read one.
const BOOKS_PER_KIND: u64 = 4;
/// One in so many books is read at the limits as well.
const READ_ONE_IN: u64 = 3;
const TILLS: [u64; 5] = [0, 1, 65_535, 65_536, u32::MAX as u64];
const SEQUENCES: [u64; 5] = [0, 1, (1 << 32) - 1, 1 << 32, u64::MAX];
const COUNTS: [u64; 4] = [0, 8, 9, u32::MAX as u64];
const RAILWAYS: [u64; 4] = [0, 9999, 10_000, u32::MAX as u64];
/// Wrong lengths of a book, one of which looks right once cut to 16 bits.
const WRONG_LENGTHS: [usize; 9] = [
    1,
    2,
    64,
    65,
    BOOK_WORDS - 64,
    BOOK_WORDS + 64,
    2 * BOOK_WORDS,
    BOOK_WORDS + (1 << 16),
    1 << 20,
];

pub struct Cases {
    seed: u64,
    corpus: Corpus,
    breakages: Vec<Vec<Breakage>>,
}

impl Cases {
    pub fn of_seed(seed: u64) -> Cases {
        let all = every_breakage();
        let of_row = |(table, field): (Table, u64)| {
            all.iter()
                .filter(|breakage| breakage.table == table && u64::from(breakage.field) == field)
                .cloned()
                .collect()
        };
        Cases {
            seed,
            corpus: Corpus::of_seed(seed),
            breakages: every_row().map(of_row).collect(),
        }
    }

    pub fn run(&self, bench: &mut Bench, index: u64) -> io::Result<()> {
        let random = &mut Random::from_seed_and_index(self.seed, index);
        let round = index / 10;
        match index % 10 {
            turn @ 0..=3 => self.verdict(bench, random, round * 4 + turn),
            4 | 5 => fares(bench, random),
            6 => sound(bench, random),
            7 => lent_books(bench, random, round),
            8 if round == 0 => overlong(bench, random),
            8 => limits(bench, random),
            _ => histories::run(bench, random, round),
        }
    }

    fn verdict(&self, bench: &mut Bench, random: &mut Random, turn: u64) -> io::Result<()> {
        let bundle = match sized(random, turn) {
            Some(bundle) => bundle,
            None if turn.is_multiple_of(3) => self.broken_row(random, turn / 3),
            None => self.corpus.bundle(cheap_index(turn)),
        };
        bench.ask(&Call::of(Name::Verdict), &Lent::of(&bundle, &[]))?;
        clashing(bench, random, turn)?;
        match (turn / CROWDED_ONE_IN, turn % CROWDED_ONE_IN) {
            (turn, 0) => seasonal(bench, random, turn),
            (turn, rest) if rest == CROWDED_ONE_IN - 1 => crowded(bench, random, turn),
            _ => Ok(()),
        }
    }

    fn broken_row(&self, random: &mut Random, turn: u64) -> Vec<u8> {
        let row = &self.breakages[turn as usize % self.breakages.len()];
        let way = random.place_in(row.len());
        with_broken_field(random, &row[way])
    }
}

/// The corpus has its largest bundles at 499 of each 500.
fn cheap_index(turn: u64) -> u64 {
    turn - turn % 500 + turn % 499
}

/// Bundles about the limits of length, none of which is costly to judge.
fn sized(random: &mut Random, turn: u64) -> Option<Vec<u8>> {
    let mut bundle = match turn {
        0 | 1 => sized_bundle_with_memos(random, LONGEST_BUNDLE, 100),
        2 => sized_bundle_with_memos(random, LONGEST_BUNDLE - 1, 100),
        3 => sized_bundle_with_memos(random, LONGEST_BUNDLE + 1, 100),
        4 => sized_bundle_with_memos(random, LONGEST_BUNDLE, 0),
        5 => vec![b'X'; LONGEST_BUNDLE],
        6 => vec![b'X'; LONGEST_BUNDLE + 1],
        7 => sized_bundle_with_memos(random, LONGEST_INPUT, 50),
        8 => sized_bundle_with_memos(random, LONGEST_INPUT + 1, 50),
        _ => return None,
    };
    match turn {
        1 | 4 => *bundle.last_mut()? = b'A',
        2 => bundle.push(b'C'),
        _ => (),
    }
    Some(bundle)
}

fn crowded(bench: &mut Bench, random: &mut Random, turn: u64) -> io::Result<()> {
    let crowded = Crowded::in_turn(random, turn);
    let lent = Lent::of(&crowded.bundle, &[]);
    let judged = bench.ask_held(&Call::of(Name::Verdict), &lent, &[])?;
    bench.coverage.note_crowded(&crowded, &judged.second);
    Ok(())
}

fn clashing(bench: &mut Bench, random: &mut Random, turn: u64) -> io::Result<()> {
    let bundle = Clashing::in_turn(random, turn).bundle();
    bench.ask(&Call::of(Name::Verdict), &Lent::of(&bundle, &[]))
}

fn seasonal(bench: &mut Bench, random: &mut Random, turn: u64) -> io::Result<()> {
    let seasonal = Seasonal::in_turn(random, turn);
    let lent = Lent::of(&seasonal.bundle, &[]);
    let judged = bench.ask_held(&Call::of(Name::Verdict), &lent, &[])?;
    bench.coverage.note_seasonal(&seasonal, &judged.second);
    if judged.second.number != 0 {
        return Ok(());
    }
    for question in questions_on_seasons(random, &seasonal.bundle) {
        let told = bench.ask_held(&Call::fare(&question), &lent, &[])?;
        let coverage = &mut bench.coverage;
        coverage.note_seasonal_fare(&seasonal, &told.second);
    }
    Ok(())
}

/// Two as any other, one on a day that few records have, and one on an offer that hardly is there.
fn questions_on_seasons(random: &mut Random, bundle: &[u8]) -> [Question; 4] {
    let far_off = Question {
        day: random.pick(&[FIRST_DAY, LAST_DAY]),
        ..question_in_limits(random, bundle)
    };
    [
        question_in_limits(random, bundle),
        question_in_limits(random, bundle),
        far_off,
        unaimed_question(random),
    ]
}

fn fares(bench: &mut Bench, random: &mut Random) -> io::Result<()> {
    let bundle = match random.below(5) {
        0 => any_bundle(random),
        1 | 2 => valid_bundle(random),
        _ => valid_bundle_with_cards(random),
    };
    for _ in 0..QUESTIONS_PER_BUNDLE {
        let call = Call::fare(&question(random, &bundle));
        bench.ask(&call, &Lent::of(&bundle, &[]))?;
    }
    Ok(())
}

/// Single calls, each on the book as it was.
fn sound(bench: &mut Bench, random: &mut Random) -> io::Result<()> {
    let known = sound_book(random);
    let book = words_of_book(&known).expect("a sound book fits its words");
    let bundles = drawn_bundles(random);
    for _ in 0..STEPS_PER_BOOK {
        let (call, place) = histories::call_of(&drawn_step(random, &known, &bundles));
        let bundle = place.map_or(&[][..], |place| &bundles[place]);
        bench.ask(&call, &Lent::of(bundle, &book))?;
    }
    Ok(())
}

/// Malformed books of every kind, and sound ones at their bounds.
fn lent_books(bench: &mut Bench, random: &mut Random, turn: u64) -> io::Result<()> {
    let kinds = kinds_of_malformed_books();
    let turn = turn as usize % (kinds.len() + CARD_SLOTS + 1);
    let kind = kinds.get(turn);
    let cards = turn.saturating_sub(kinds.len());
    for nth in 0..BOOKS_PER_KIND {
        let book = match kind {
            Some(_) => malformed(random, turn),
            None => at_the_bound(random, cards),
        };
        let total = each_call_on(bench, random, &book)?;
        one_reading(bench, random, &book, nth)?;
        match kind {
            Some(kind) => bench.coverage.note_malformed(kind),
            None => bench.coverage.note_at_the_bound(cards, &total),
        }
    }
    Ok(())
}

fn malformed(random: &mut Random, turn: usize) -> Vec<u32> {
    let defects = BookDefect::all();
    match defects.get(turn) {
        Some(defect) => defect.example(random),
        None => book_of_length(random, WRONG_LENGTHS[turn - defects.len()]),
    }
}

fn at_the_bound(random: &mut Random, cards: usize) -> Vec<u32> {
    let book = book_at_the_bound(random, cards);
    words_of_book(&book).expect("a sound book fits its words")
}

/// All calls but those that read sales. The answer to the last, which is the total.
fn each_call_on(bench: &mut Bench, random: &mut Random, book: &[u32]) -> io::Result<Answer> {
    let bundle = valid_bundle(random);
    let (till, sequence) = known_or_drawn_number(random, book);
    let asked = question(random, &bundle);
    let lent = Lent::of(&bundle, book);
    for call in [
        Call::sale(till, sequence, &asked),
        Call::cancel(till, sequence),
        Call::balance(random.pick(&RAILWAYS)),
        Call::balance(random.between(1, 9999)),
    ] {
        bench.ask(&call, &lent)?;
    }
    let total = bench.ask_held(&Call::of(Name::Total), &lent, &[])?;
    Ok(total.second)
}

fn one_reading(bench: &mut Bench, random: &mut Random, book: &[u32], nth: u64) -> io::Result<()> {
    let (till, sequence) = known_or_drawn_number(random, book);
    let places = entry_places(random, entries_told(book));
    let call = match nth % 3 {
        0 => Call::of(Name::Count),
        1 => Call::entry(random.pick(&places)),
        _ => Call::find(till, sequence),
    };
    bench.ask(&call, &Lent::of(&[], book))
}

fn entries_told(book: &[u32]) -> u64 {
    book.first().copied().map_or(0, u64::from)
}

pub fn kinds_of_malformed_books() -> Vec<String> {
    let all = BookDefect::all();
    let defects = all.iter().map(|defect| format!("{defect:?}"));
    let lengths = WRONG_LENGTHS.iter().map(|length| format!("{length} words"));
    defects.chain(lengths).collect()
}

fn book_of_length(random: &mut Random, length: usize) -> Vec<u32> {
    let mut book = words_of_book(&sound_book(random)).expect("a sound book fits its words");
    book.resize(length, 0);
    book
}

fn known_or_drawn_number(random: &mut Random, book: &[u32]) -> (u64, u64) {
    match book {
        [_, till, sequence, ..] if random.one_in(2) => (u64::from(*till), u64::from(*sequence)),
        _ => sale_number(random),
    }
}

/// Arguments at the limits of their ranges and of their types.
fn limits(bench: &mut Bench, random: &mut Random) -> io::Result<()> {
    let book = words_of_book(&sound_book(random)).expect("a sound book fits its words");
    let bundle = costliest_offer();
    let lent = Lent::of(&bundle, &book);
    let mut asked = question_in_limits(random, &bundle);
    for leg in &mut asked.legs {
        *leg = Leg {
            railway: random.between_with_ends(1, 9999),
            fare: random.between_with_ends(0, 999_999),
        };
    }
    let cards = random.place_in(CARD_SLOTS + 1);
    bench.ask(&Call::fare(&most_asked(cards)), &lent)?;
    for till in TILLS {
        let sequence = random.pick(&SEQUENCES);
        bench.ask(&Call::sale(till, sequence, &asked), &lent)?;
        bench.ask(&Call::cancel(till, sequence), &lent)?;
    }
    for sequence in SEQUENCES {
        let till = random.pick(&TILLS);
        bench.ask(&Call::sale(till, sequence, &asked), &lent)?;
        bench.ask(&Call::cancel(till, sequence), &lent)?;
    }
    for count in COUNTS {
        asked.leg_count = count;
        bench.ask(&Call::fare(&asked), &lent)?;
        let (till, sequence) = sale_number(random);
        bench.ask(&Call::sale(till, sequence, &asked), &lent)?;
    }
    for railway in RAILWAYS {
        bench.ask(&Call::balance(railway), &lent)?;
    }
    if random.one_in(READ_ONE_IN) {
        limits_of_reading(bench, random, &book)?;
    }
    Ok(())
}

fn limits_of_reading(bench: &mut Bench, random: &mut Random, book: &[u32]) -> io::Result<()> {
    let lent = Lent::of(&[], book);
    for till in TILLS {
        let sequence = random.pick(&SEQUENCES);
        bench.ask(&Call::find(till, sequence), &lent)?;
    }
    for sequence in SEQUENCES {
        let till = random.pick(&TILLS);
        bench.ask(&Call::find(till, sequence), &lent)?;
    }
    for place in entry_places(random, entries_told(book)) {
        bench.ask(&Call::entry(place), &lent)?;
    }
    bench.ask(&Call::of(Name::Count), &lent)
}

/// Lengths that look right once cut to 32 bits.
fn overlong(bench: &mut Bench, random: &mut Random) -> io::Result<()> {
    let bundle = valid_bundle(random);
    let book = empty_book();
    let asked = question(random, &bundle);
    let calls = [
        Call::of(Name::Verdict),
        Call::fare(&asked),
        Call::sale(1, 1, &asked),
        Call::cancel(1, 1),
        Call::balance(1185),
        Call::of(Name::Total),
        Call::of(Name::Count),
        Call::entry(0),
        Call::find(1, 1),
    ];
    let long_book = Lent {
        book_more: 1 << 32,
        ..Lent::of(&bundle, &book)
    };
    let long_bundle = Lent {
        bundle_more: 1 << 32,
        ..Lent::of(&bundle, &book)
    };
    for call in &calls {
        bench.ask(call, &long_bundle)?;
        if call.name.reads_book() {
            bench.ask(call, &long_book)?;
        }
    }
    Ok(())
}
