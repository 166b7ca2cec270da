//! Renders no section: a request on which the two sides differ, kept as bytes and as text.

use std::fmt::Write;
use std::fs;
use std::io;
use std::path::{Path, PathBuf};

use super::driver::apply;
use super::wire::{encode, Answer, Call, Lent, Name};
use super::Compared;

const MOST_WORDS_TOLD: usize = 20;

pub fn save(path: &Path, call: &Call, lent: &Lent, compared: &Compared) -> io::Result<PathBuf> {
    let file = path.with_extension("request");
    fs::write(&file, encode(call, lent, false))?;
    fs::write(path.with_extension("txt"), text(call, lent, compared))?;
    Ok(file)
}

pub fn text(call: &Call, lent: &Lent, compared: &Compared) -> String {
    let mut text = asked(call, lent);
    match &compared.library {
        Ok(reply) => {
            let mut book = lent.book.to_vec();
            apply(&mut book, &reply.changes);
            tell_side(&mut text, "library", &reply.answer, lent.book, &book);
        }
        Err(ended) => {
            let _ = writeln!(text, "library: {ended}");
        }
    }
    tell_side(
        &mut text,
        "second",
        &compared.second,
        lent.book,
        &compared.book,
    );
    let difference = compared.difference.as_deref().unwrap_or("both agree");
    let _ = writeln!(text, "{difference}");
    text
}

fn asked(call: &Call, lent: &Lent) -> String {
    let mut text = format!("asked: {}\n", call.name.word());
    if matches!(call.name, Name::Sale | Name::Cancel | Name::Find) {
        let _ = writeln!(text, "till {}, sequence {}", call.till, call.sequence);
    }
    if matches!(call.name, Name::Fare | Name::Sale) {
        let _ = writeln!(text, "{:?}", call.question);
    }
    if call.name == Name::Entry {
        let _ = writeln!(text, "entry {}", call.entry);
    }
    if call.name == Name::Balance {
        let _ = writeln!(text, "railway {}", call.railway);
    }
    if call.name <= Name::Sale {
        let (bytes, more) = (lent.bundle.len(), lent.bundle_more);
        let _ = writeln!(text, "bundle of {bytes} bytes and {more} zeros");
    }
    if call.name.reads_book() {
        let (words, more) = (lent.book.len(), lent.book_more);
        let _ = writeln!(text, "book of {words} words and {more} zeros");
    }
    text
}

fn tell_side(text: &mut String, side: &str, answer: &Answer, before: &[u32], after: &[u32]) {
    let _ = writeln!(text, "{side}: {answer:?}");
    let changed = (0..after.len()).filter(|&place| before[place] != after[place]);
    for place in changed.take(MOST_WORDS_TOLD) {
        let (old, new) = (before[place], after[place]);
        let _ = writeln!(text, "{side}: book word {place} from {old} to {new}");
    }
}
