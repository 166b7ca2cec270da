//! What tests/stored asks of this crate, in a program of its own; `tests/store_steps.c` is the same over
//! `examples/store.c`, and says what its commands are for.
use offers::{Book, Leg, Question, SaleNumber, StoredError, Ticket, STORED_BYTES};
use std::error::Error;
use std::{env, fs, process};

fn sell(path: &str, bundle: &str, sequence: &str) -> Result<(), Box<dyn Error>> {
    let mut book = match Book::load(path) {
        Err(error) if error.is_not_found() => Book::new(),
        loaded => loaded?,
    };
    let legs = [Leg { railway: 1185, fare: 1010 }, Leg { railway: 1181, fare: 500 }];
    let question = Question::new(&Ticket { offer: 42, day: 20_240_615, persons: 3, cards: &[7], legs: &legs })?;
    book.sale(&fs::read(bundle)?, SaleNumber { till: 1, sequence: sequence.parse()? }, &question)?;
    book.save(path)?;
    println!("saved");
    Ok(())
}

fn tell(path: &str) -> Result<(), Box<dyn Error>> {
    let book = Book::load(path)?;
    println!("{} sales, {} cents", book.len(), book.total()?);
    Ok(())
}

fn must_be(bytes: &[u8], due: StoredError, damage: &str, place: usize) -> Result<(), String> {
    match Book::from_bytes(bytes) {
        Err(error) if error == due => Ok(()),
        other => Err(format!("{damage} {place}: {other:?}, and not: {due}")),
    }
}

fn due_for_byte(bytes: &[u8], place: usize) -> StoredError {
    match place {
        0..=7 => StoredError::NotABook,
        8..=11 => StoredError::FormUnknown(u32::from_le_bytes([bytes[8], bytes[9], bytes[10], bytes[11]])),
        _ => StoredError::Checksum,
    }
}

fn notice_flipped_bits(stored: &[u8]) -> Result<usize, String> {
    let mut damaged = stored.to_vec();
    for bit in 0..8 * STORED_BYTES {
        damaged[bit / 8] ^= 1 << (bit % 8);
        must_be(&damaged, due_for_byte(&damaged, bit / 8), "flipped bit", bit)?;
        damaged[bit / 8] ^= 1 << (bit % 8);
    }
    Ok(8 * STORED_BYTES)
}

fn notice_torn_lengths(stored: &[u8]) -> Result<usize, String> {
    let twice = [stored, stored].concat();
    for length in (0..=twice.len()).filter(|&length| length != STORED_BYTES) {
        must_be(&twice[..length], StoredError::WrongLength(length), "length", length)?;
    }
    Ok(twice.len())
}

/// Zeros in place of the bytes that were not written yet; where those are zeros already, nothing is damaged.
fn notice_zeros(stored: &[u8]) -> Result<usize, String> {
    let mut damaged = stored.to_vec();
    let mut tried = 0;
    for from in (0..STORED_BYTES).rev().filter(|&from| stored[from] != 0) {
        damaged[from..].fill(0);
        must_be(&damaged, due_for_byte(&damaged, from), "zeros from byte", from)?;
        tried += 1;
    }
    Ok(tried)
}

fn notice(path: &str) -> Result<(), Box<dyn Error>> {
    let stored = fs::read(path)?;
    Book::from_bytes(&stored)?;
    let (bits, lengths) = (notice_flipped_bits(&stored)?, notice_torn_lengths(&stored)?);
    println!("{bits} flipped bits, {lengths} other lengths, {} tails of zeros", notice_zeros(&stored)?);
    Ok(())
}

fn main() {
    let given: Vec<String> = env::args().skip(1).collect();
    let done = match given.iter().map(String::as_str).collect::<Vec<_>>()[..] {
        ["sell", path, bundle, sequence] => sell(path, bundle, sequence),
        ["tell", path] => tell(path),
        ["notice", path] => notice(path),
        _ => Err("usage: store_steps sell PATH BUNDLE SEQUENCE | tell PATH | notice PATH".into()),
    };
    if let Err(error) = done {
        println!("{error}");
        process::exit(1);
    }
}
