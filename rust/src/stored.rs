//! A book as bytes: the stored form, which is the same on every processor and from C.
use crate::checksum::crc32;
use crate::{Book, BOOK_WORDS};
use std::error::Error;
use std::fmt;

const MAGIC: &[u8; 8] = b"OFFERSBK";
const FORM: u32 = 1;
const WORDS: u32 = 16_385;

const FORM_AT: usize = MAGIC.len();
const COUNT_AT: usize = FORM_AT + 4;
const WORDS_AT: usize = COUNT_AT + 4;
const CHECKSUM_AT: usize = WORDS_AT + 4 * BOOK_WORDS;

/// The bytes of a stored [`Book`].
pub const STORED_BYTES: usize = CHECKSUM_AT + 4;

const _: () = assert!(WORDS as usize == BOOK_WORDS && STORED_BYTES == 65_560);

impl Book {
    /// The stored form of the book, [`STORED_BYTES`] bytes: `OFFERSBK`, the version of the form (1), the count of
    /// words, the words, and the CRC-32 of all that. Each number is 32 bits, little-endian.
    ///
    /// ```
    /// use offers::{Book, StoredError, STORED_BYTES};
    ///
    /// let mut bytes = Book::new().to_bytes();
    /// assert_eq!((bytes.len(), &bytes[..8]), (STORED_BYTES, &b"OFFERSBK"[..]));
    /// assert_eq!(Book::from_bytes(&bytes), Ok(Book::new()));
    /// bytes[100] ^= 1;
    /// assert_eq!(Book::from_bytes(&bytes), Err(StoredError::Checksum));
    /// ```
    #[must_use]
    pub fn to_bytes(&self) -> Vec<u8> {
        let mut bytes = Vec::with_capacity(STORED_BYTES);
        bytes.extend_from_slice(MAGIC);
        for word in [FORM, WORDS].iter().chain(self.as_words()) {
            bytes.extend_from_slice(&word.to_le_bytes());
        }
        let checksum = crc32(&bytes);
        bytes.extend_from_slice(&checksum.to_le_bytes());
        bytes
    }

    /// The book that has this stored form.
    ///
    /// # Errors
    ///
    /// A [`StoredError`], the first that applies in the order in which they are declared.
    pub fn from_bytes(bytes: &[u8]) -> Result<Book, StoredError> {
        look_at_frame(bytes)?;
        let words: Vec<u32> = (0..BOOK_WORDS).map_while(|i| word_at(bytes, WORDS_AT + 4 * i)).collect();
        Book::from_words(&words).map_err(|_| StoredError::Unsound)
    }
}

fn word_at(bytes: &[u8], place: usize) -> Option<u32> {
    bytes.get(place..)?.first_chunk().map(|four| u32::from_le_bytes(*four))
}

/// Looks at all but the words. The form comes before the length, as a later form may have another length.
fn look_at_frame(bytes: &[u8]) -> Result<(), StoredError> {
    if bytes.get(..FORM_AT).is_some_and(|magic| magic != MAGIC) {
        return Err(StoredError::NotABook);
    }
    if let Some(form) = word_at(bytes, FORM_AT).filter(|&form| form != FORM) {
        return Err(StoredError::FormUnknown(form));
    }
    if bytes.len() != STORED_BYTES {
        return Err(StoredError::WrongLength(bytes.len()));
    }
    if word_at(bytes, CHECKSUM_AT) != Some(crc32(&bytes[..CHECKSUM_AT])) {
        return Err(StoredError::Checksum);
    }
    if word_at(bytes, COUNT_AT) != Some(WORDS) {
        return Err(StoredError::Unsound);
    }
    Ok(())
}

/// Why some bytes are not the stored form of a [`Book`].
#[derive(Clone, Copy, Debug, PartialEq, Eq, Hash)]
#[non_exhaustive]
pub enum StoredError {
    /// They do not begin with `OFFERSBK`.
    NotABook,
    /// The version of the form is this one, and not 1.
    FormUnknown(u32),
    /// There are so many bytes, and not [`STORED_BYTES`]. Of a longer file only one byte more is read.
    WrongLength(usize),
    /// The checksum is not that of the bytes: they were damaged.
    Checksum,
    /// The book is not sound (number 21): it was damaged before it was stored, or written by something else.
    Unsound,
}

impl fmt::Display for StoredError {
    fn fmt(&self, f: &mut fmt::Formatter<'_>) -> fmt::Result {
        match self {
            StoredError::NotABook => f.write_str("this is no stored book"),
            StoredError::FormUnknown(form) => write!(f, "the stored book has form {form}, which is not known here"),
            StoredError::WrongLength(length) if *length > STORED_BYTES => {
                f.write_str("the stored book has more than 65,560 bytes")
            }
            StoredError::WrongLength(length) => write!(f, "the stored book has {length} bytes, and not 65,560"),
            StoredError::Checksum => f.write_str("the stored book is damaged: its checksum is not that of its bytes"),
            StoredError::Unsound => f.write_str("the book is not sound (number 21)"),
        }
    }
}

impl Error for StoredError {}
