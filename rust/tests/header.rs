//! The crate says the same numbers as the C header.
const HEADER: &str = include_str!("../../include/offers.h");

/// What the header defines a name to be.
fn defined(name: &str) -> &'static str {
    let line = format!("#define OFFERS_{name} ");
    let value = HEADER.lines().find_map(|text| text.strip_prefix(&line));
    value.unwrap_or_else(|| panic!("the header does not define {name}")).trim_matches(['"', 'u'])
}

fn number(name: &str) -> u64 {
    defined(name).parse().unwrap()
}

#[test]
fn the_version_is_the_same() {
    assert_eq!(offers::VERSION, defined("VERSION"));
    let parts = ["VERSION_MAJOR", "VERSION_MINOR", "VERSION_PATCH"].map(defined);
    assert_eq!(parts.join("."), offers::VERSION);
}

#[test]
fn the_limits_are_the_same() {
    assert_eq!(number("BOOK_WORDS"), offers::BOOK_WORDS as u64);
    assert_eq!(number("MOST_ENTRIES"), offers::MOST_ENTRIES as u64);
    assert_eq!(number("MOST_BUNDLE_BYTES"), offers::MOST_BUNDLE_BYTES as u64);
    assert_eq!(number("MOST_LEGS"), offers::MOST_LEGS as u64);
    assert_eq!(number("MOST_CARDS"), offers::MOST_CARDS as u64);
    assert_eq!(number("MOST_PERSONS"), u64::from(offers::MOST_PERSONS));
    assert_eq!(number("LARGEST_OFFER"), u64::from(offers::LARGEST_OFFER));
    assert_eq!(number("LARGEST_RAILWAY"), u64::from(offers::LARGEST_RAILWAY));
    assert_eq!(number("LARGEST_CARD"), u64::from(offers::LARGEST_CARD));
    assert_eq!(number("LARGEST_PLAIN_FARE"), u64::from(offers::LARGEST_PLAIN_FARE));
    assert_eq!(number("LARGEST_TILL"), u64::from(offers::LARGEST_TILL));
    assert_eq!(number("LARGEST_SEQUENCE"), offers::LARGEST_SEQUENCE);
}
