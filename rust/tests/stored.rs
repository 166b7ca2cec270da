//! The stored form of a book, and a book in a file. tests/stored at the top of the repository has the long runs.
mod common;

use common::book_of;
use offers::{Book, LoadError, StoredError, STORED_BYTES};
use std::fs;
use std::path::PathBuf;

/// A folder of its own, removed at the end of a test.
struct Folder(PathBuf);

impl Folder {
    fn new(name: &str) -> Folder {
        let path = PathBuf::from(env!("CARGO_TARGET_TMPDIR")).join(name);
        let _ = fs::remove_dir_all(&path);
        fs::create_dir_all(&path).unwrap();
        Folder(path)
    }
}

impl Drop for Folder {
    fn drop(&mut self) {
        let _ = fs::remove_dir_all(&self.0);
    }
}

#[test]
fn a_book_goes_to_bytes_and_back() {
    for sales in [0, 1, 256] {
        let book = book_of(sales);
        let bytes = book.to_bytes();
        assert_eq!((bytes.len(), &bytes[..16]), (STORED_BYTES, &b"OFFERSBK\x01\0\0\0\x01\x40\0\0"[..]));
        assert_eq!(Book::from_bytes(&bytes), Ok(book));
    }
}

#[test]
fn each_kind_of_damage_is_told_apart() {
    let stored = book_of(2).to_bytes();
    let with = |place: usize, byte: u8| {
        let mut damaged = stored.clone();
        damaged[place] = byte;
        Book::from_bytes(&damaged).unwrap_err()
    };
    assert_eq!(with(0, b'o'), StoredError::NotABook);
    assert_eq!(with(8, 2), StoredError::FormUnknown(2));
    assert_eq!(with(13, 0), StoredError::Checksum);
    assert_eq!(with(4000, 1), StoredError::Checksum);
    assert_eq!(with(STORED_BYTES - 1, !stored[STORED_BYTES - 1]), StoredError::Checksum);
    for length in [0, 7, 8, 11, 12, STORED_BYTES - 1] {
        assert_eq!(Book::from_bytes(&stored[..length]), Err(StoredError::WrongLength(length)));
    }
}

#[test]
fn a_book_survives_in_its_file() {
    let folder = Folder::new("survives");
    let path = folder.0.join("book");
    assert!(Book::load(&path).unwrap_err().is_not_found());
    for sales in [0, 3] {
        fs::write(folder.0.join("book.new"), b"left over").unwrap();
        book_of(sales).save(&path).unwrap();
        assert_eq!(Book::load(&path).unwrap(), book_of(sales));
        assert_eq!(fs::read_dir(&folder.0).unwrap().count(), 1);
    }
}

#[test]
fn a_file_that_is_no_book_is_not_loaded() {
    let folder = Folder::new("no-book");
    let path = folder.0.join("book");
    fs::write(&path, [Book::new().to_bytes(), vec![0; 10]].concat()).unwrap();
    let longer = Book::load(&path).unwrap_err();
    assert!(matches!(longer, LoadError::Stored(StoredError::WrongLength(65_561))));
    assert_eq!(longer.to_string(), "the stored book has more than 65,560 bytes");
    assert!(matches!(Book::load(&folder.0), Err(LoadError::Io(_))));
}

#[test]
fn a_save_that_fails_leaves_the_old_book() {
    let folder = Folder::new("fails");
    let path = folder.0.join("book");
    book_of(1).save(&path).unwrap();
    fs::create_dir(folder.0.join("book.new")).unwrap();
    assert!(book_of(2).save(&path).is_err());
    assert_eq!(Book::load(&path).unwrap(), book_of(1));
    assert!(book_of(2).save(folder.0.join("nowhere").join("book")).is_err());
}
