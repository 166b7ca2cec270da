//! Renders no section: requests and replies as the driver of the built library takes and gives them.

use std::fmt;
use std::io::{self, Read};

use crate::book::Entry;
use crate::fare::Parts;
use crate::question::{Leg, Question, CARD_SLOTS, LEG_SLOTS};
use crate::refusal::Refusal;

#[derive(Clone, Copy, Debug, PartialEq, Eq, PartialOrd, Ord)]
pub enum Name {
    Verdict = 1,
    Fare,
    Sale,
    Cancel,
    Balance,
    Total,
    Count,
    Entry,
    Find,
}

impl Name {
    pub const ALL: [Name; 9] = [
        Name::Verdict,
        Name::Fare,
        Name::Sale,
        Name::Cancel,
        Name::Balance,
        Name::Total,
        Name::Count,
        Name::Entry,
        Name::Find,
    ];

    pub const READING_A_SALE: [Name; 2] = [Name::Entry, Name::Find];

    pub fn reads_book(self) -> bool {
        self >= Name::Sale
    }

    pub fn word(self) -> &'static str {
        match self {
            Name::Verdict => "verdict",
            Name::Fare => "fare",
            Name::Sale => "sale",
            Name::Cancel => "cancel",
            Name::Balance => "balance",
            Name::Total => "total",
            Name::Count => "count",
            Name::Entry => "entry",
            Name::Find => "find",
        }
    }
}

/// A call without what it is lent. The question holds nothing wider than 32 bits.
#[derive(Clone, Copy, Debug, PartialEq, Eq)]
pub struct Call {
    pub name: Name,
    pub till: u32,
    pub sequence: u64,
    pub entry: u64,
    pub railway: u32,
    pub question: Question,
}

impl Call {
    pub fn of(name: Name) -> Call {
        Call {
            name,
            till: 0,
            sequence: 0,
            entry: 0,
            railway: 0,
            question: Question::default(),
        }
    }

    pub fn fare(question: &Question) -> Call {
        Call {
            question: narrowed(question),
            ..Call::of(Name::Fare)
        }
    }

    pub fn sale(till: u64, sequence: u64, question: &Question) -> Call {
        Call {
            name: Name::Sale,
            till: narrow(till),
            sequence,
            question: narrowed(question),
            ..Call::of(Name::Sale)
        }
    }

    pub fn cancel(till: u64, sequence: u64) -> Call {
        Call {
            till: narrow(till),
            sequence,
            ..Call::of(Name::Cancel)
        }
    }

    pub fn balance(railway: u64) -> Call {
        Call {
            railway: narrow(railway),
            ..Call::of(Name::Balance)
        }
    }

    pub fn entry(entry: u64) -> Call {
        Call {
            entry,
            ..Call::of(Name::Entry)
        }
    }

    pub fn find(till: u64, sequence: u64) -> Call {
        Call {
            till: narrow(till),
            sequence,
            ..Call::of(Name::Find)
        }
    }

    pub fn sale_number(&self) -> (u64, u64) {
        (u64::from(self.till), self.sequence)
    }
}

/// What is too wide for the library's type becomes the type's greatest value.
fn narrow(value: u64) -> u32 {
    u32::try_from(value).unwrap_or(u32::MAX)
}

fn narrowed(question: &Question) -> Question {
    question_of(&numbers_of(question))
}

/// Places of a question's numbers.
const CARDS: usize = 3;
const LEG_COUNT: usize = CARDS + CARD_SLOTS;
const LEGS: usize = LEG_COUNT + 1;
const QUESTION_NUMBERS: usize = LEGS + 2 * LEG_SLOTS;

fn numbers_of(question: &Question) -> [u32; QUESTION_NUMBERS] {
    let mut numbers = [0; QUESTION_NUMBERS];
    let head = [question.offer, question.day, question.persons];
    let legs = question.legs.iter().flat_map(|leg| [leg.railway, leg.fare]);
    let values = head
        .into_iter()
        .chain(question.cards)
        .chain([question.leg_count])
        .chain(legs);
    for (number, value) in numbers.iter_mut().zip(values) {
        *number = narrow(value);
    }
    numbers
}

fn question_of(numbers: &[u32; QUESTION_NUMBERS]) -> Question {
    let value = |place: usize| u64::from(numbers[place]);
    let mut question = Question {
        offer: value(0),
        day: value(1),
        persons: value(2),
        cards: std::array::from_fn(|slot| value(CARDS + slot)),
        leg_count: value(LEG_COUNT),
        ..Question::default()
    };
    for slot in 0..LEG_SLOTS {
        question.legs[slot] = Leg {
            railway: value(LEGS + 2 * slot),
            fare: value(LEGS + 1 + 2 * slot),
        };
    }
    question
}

/// `more` zeros are lent after the bytes or words given.
#[derive(Clone, Copy, Debug, PartialEq, Eq)]
pub struct Lent<'a> {
    pub bundle: &'a [u8],
    pub bundle_more: u64,
    pub book: &'a [u32],
    pub book_more: u64,
}

impl<'a> Lent<'a> {
    pub fn of(bundle: &'a [u8], book: &'a [u32]) -> Lent<'a> {
        Lent {
            bundle,
            bundle_more: 0,
            book,
            book_more: 0,
        }
    }
}

/// With `book_kept` the driver takes the book as its last reply left it.
pub fn encode(call: &Call, lent: &Lent, book_kept: bool) -> Vec<u8> {
    let mut bytes = Vec::new();
    for number in [
        call.sequence,
        call.entry,
        lent.bundle.len() as u64,
        lent.bundle_more,
        lent.book.len() as u64,
        lent.book_more,
    ] {
        bytes.extend(number.to_le_bytes());
    }
    let head = [
        call.name as u32,
        call.till,
        call.railway,
        u32::from(book_kept),
    ];
    for number in head.into_iter().chain(numbers_of(&call.question)) {
        bytes.extend(number.to_le_bytes());
    }
    bytes.extend(lent.bundle);
    if !book_kept {
        bytes.extend(lent.book.iter().flat_map(|word| word.to_le_bytes()));
    }
    bytes
}

/// A request with what it lends, read back from a file.
#[derive(Clone, Debug, PartialEq, Eq)]
pub struct Request {
    pub call: Call,
    pub bundle: Vec<u8>,
    pub bundle_more: u64,
    pub book: Vec<u32>,
    pub book_more: u64,
}

impl Request {
    pub fn lent(&self) -> Lent<'_> {
        Lent {
            bundle: &self.bundle,
            bundle_more: self.bundle_more,
            book: &self.book,
            book_more: self.book_more,
        }
    }
}

pub fn decode(input: &mut impl Read) -> io::Result<Request> {
    let [sequence, entry] = [read_u64(input)?, read_u64(input)?];
    let [bundle_length, bundle_more] = [read_u64(input)?, read_u64(input)?];
    let [book_words, book_more] = [read_u64(input)?, read_u64(input)?];
    let name = read_u32(input)?;
    let [till, railway] = [read_u32(input)?, read_u32(input)?];
    let _book_kept = read_u32(input)?;
    let question = read_question(input)?;
    let mut bundle = vec![0; bundle_length as usize];
    input.read_exact(&mut bundle)?;
    let book: io::Result<Vec<u32>> = (0..book_words).map(|_| read_u32(input)).collect();
    let name = Name::ALL
        .into_iter()
        .find(|known| *known as u32 == name)
        .ok_or(io::ErrorKind::InvalidData)?;
    Ok(Request {
        call: Call {
            name,
            till,
            sequence,
            entry,
            railway,
            question,
        },
        bundle,
        bundle_more,
        book: book?,
        book_more,
    })
}

/// Every value that any of the library's answers holds; what a call does not tell is 0.
#[derive(Clone, Copy, Debug, Default, PartialEq, Eq)]
pub struct Answer {
    pub number: u64,
    pub place: u64,
    pub detail: u64,
    /// Records, fare, amount or count of entries.
    pub value: u64,
    pub entry: u64,
    pub sequence: u64,
    pub outcome: u32,
    pub cancelled: u32,
    pub till: u32,
    pub status: u32,
    pub question: Question,
    pub parts: [u32; LEG_SLOTS],
}

impl Answer {
    pub fn of_value(value: u64) -> Answer {
        Answer {
            value,
            ..Answer::default()
        }
    }

    pub fn of_refusal(refusal: &Refusal) -> Answer {
        Answer {
            number: u64::from(refusal.number),
            place: refusal.place,
            detail: refusal.detail,
            ..Answer::default()
        }
    }

    pub fn of_entry(place: u64, entry: &Entry) -> Answer {
        Answer {
            entry: place,
            sequence: entry.sequence,
            till: u32::try_from(entry.till).expect("a till within its limits"),
            status: match entry.cancelled {
                false => status::LIVE,
                true => status::CANCELLED,
            },
            question: entry.question,
            parts: words_of(&entry.parts),
            ..Answer::default()
        }
    }
}

/// A value that is all there is to tell is told alone.
impl fmt::Display for Answer {
    fn fmt(&self, formatter: &mut fmt::Formatter) -> fmt::Result {
        if *self == Answer::of_value(self.value) {
            return self.value.fmt(formatter);
        }
        write!(formatter, "{self:?}")
    }
}

pub fn words_of(parts: &Parts) -> [u32; LEG_SLOTS] {
    parts.map(|part| u32::try_from(part).expect("a part within its bound"))
}

pub mod outcome {
    pub const BOOKED: u32 = 1;
    pub const ALREADY_BOOKED: u32 = 2;
    pub const CANCELLED: u32 = 3;
    pub const ALREADY_CANCELLED: u32 = 4;
}

pub mod status {
    pub const LIVE: u32 = 0;
    pub const CANCELLED: u32 = 1;
}

#[derive(Clone, Debug, PartialEq, Eq)]
pub struct Reply {
    pub finding: u32,
    pub answer: Answer,
    /// Places of words in the book and what they hold now.
    pub changes: Vec<(u32, u32)>,
}

pub fn read_reply(input: &mut impl Read) -> io::Result<Reply> {
    let [finding, count] = [read_u32(input)?, read_u32(input)?];
    let answer = read_answer(input)?;
    let changes: io::Result<Vec<(u32, u32)>> = (0..count)
        .map(|_| Ok((read_u32(input)?, read_u32(input)?)))
        .collect();
    Ok(Reply {
        finding,
        answer,
        changes: changes?,
    })
}

fn read_answer(input: &mut impl Read) -> io::Result<Answer> {
    let mut answer = Answer {
        number: read_u64(input)?,
        place: read_u64(input)?,
        detail: read_u64(input)?,
        value: read_u64(input)?,
        entry: read_u64(input)?,
        sequence: read_u64(input)?,
        outcome: read_u32(input)?,
        cancelled: read_u32(input)?,
        till: read_u32(input)?,
        status: read_u32(input)?,
        question: read_question(input)?,
        ..Answer::default()
    };
    for part in &mut answer.parts {
        *part = read_u32(input)?;
    }
    Ok(answer)
}

fn read_question(input: &mut impl Read) -> io::Result<Question> {
    let mut numbers = [0; QUESTION_NUMBERS];
    for number in &mut numbers {
        *number = read_u32(input)?;
    }
    Ok(question_of(&numbers))
}

fn read_u32(input: &mut impl Read) -> io::Result<u32> {
    let mut bytes = [0; 4];
    input.read_exact(&mut bytes)?;
    Ok(u32::from_le_bytes(bytes))
}

fn read_u64(input: &mut impl Read) -> io::Result<u64> {
    let mut bytes = [0; 8];
    input.read_exact(&mut bytes)?;
    Ok(u64::from_le_bytes(bytes))
}

#[cfg(test)]
mod tests {
    use super::*;
    use crate::generate::questions::question;
    use crate::generate::random::Random;
    use std::collections::BTreeSet;

    #[test]
    fn a_request_survives_its_bytes() {
        let mut random = Random::from_seed(71);
        for _ in 0..50 {
            let asked = question(&mut random, b"");
            let call = Call {
                entry: random.draw(),
                ..Call::sale(random.draw(), random.draw(), &asked)
            };
            let lent = Lent {
                book_more: 3,
                ..Lent::of(b"XX", &[1, 2, 3])
            };
            let request = decode(&mut &encode(&call, &lent, false)[..]).unwrap();
            assert_eq!(request.call, call);
            assert_eq!(request.lent(), lent);
        }
    }

    /// No byte of a reply's answer is passed over, nor told twice.
    #[test]
    fn each_byte_of_a_reply_makes_an_answer_of_its_own() {
        let head = [0; 2 * 4];
        let length = 6 * 8 + (4 + QUESTION_NUMBERS + LEG_SLOTS) * 4;
        let answer_to = |set: Option<usize>| {
            let mut bytes = [&head[..], &vec![0; length]].concat();
            if let Some(place) = set {
                bytes[head.len() + place] = 1;
            }
            let mut rest = &bytes[..];
            let reply = read_reply(&mut rest).unwrap();
            assert!(rest.is_empty());
            format!("{:?}", reply.answer)
        };
        let answers: BTreeSet<String> = (0..length).map(|place| answer_to(Some(place))).collect();
        assert_eq!(answers.len(), length);
        assert!(!answers.contains(&answer_to(None)));
    }

    #[test]
    fn a_value_alone_is_told_alone() {
        assert_eq!(Answer::of_value(7).to_string(), "7");
        let refused = Answer::of_refusal(&Refusal::of_call(25));
        assert!(refused.to_string().contains("number: 25"));
        let read = Answer::of_entry(3, &Entry::default());
        assert!(read.to_string().contains("entry: 3"));
    }

    #[test]
    fn wide_values_become_the_greatest_of_their_type() {
        let call = Call::sale(1 << 32, 1 << 32, &Question::default());
        assert_eq!((call.till, call.sequence), (u32::MAX, 1 << 32));
        let asked = Question {
            persons: u64::MAX,
            ..Question::default()
        };
        assert_eq!(Call::fare(&asked).question.persons, u64::from(u32::MAX));
    }
}
