//! What is read from a book: how many sales it has, each of them, and one by its number.
mod common;

use common::{book_of, question, AMOUNT, BUNDLE, NUMBER, PARTS};
use offers::{Book, Reason, Sale, SaleNumber, LARGEST_SEQUENCE, LARGEST_TILL, MOST_ENTRIES};
use std::collections::{BTreeSet, HashSet};

fn sale_at(entry: usize) -> Sale {
    let number = SaleNumber { till: 1, sequence: entry as u64 + 1 };
    Sale { entry, number, question: question(), parts: PARTS, cancelled: false }
}

#[test]
fn a_book_is_empty_then_full() {
    let mut book = Book::new();
    assert!(book.is_empty() && !book.is_full() && book.iter().next().is_none());
    assert_eq!(book.get(0), None);
    book = book_of(MOST_ENTRIES as u64);
    assert!(book.is_full() && !book.is_empty());
    assert_eq!((book.len(), book.iter().count()), (256, 256));
    assert_eq!((book.get(255), book.get(256), book.get(usize::MAX)), (Some(sale_at(255)), None, None));
    let further = SaleNumber { till: 2, sequence: 1 };
    assert_eq!(book.sale(BUNDLE, further, &question()).unwrap_err().reason, Reason::BookFull);
}

#[test]
fn sales_come_in_the_order_of_booking_from_either_end() {
    let book = book_of(4);
    let sales: Vec<Sale> = (0..4).map(sale_at).collect();
    assert_eq!(book.iter().collect::<Vec<_>>(), sales);
    assert_eq!((&book).into_iter().rev().collect::<Vec<_>>(), sales.iter().rev().copied().collect::<Vec<_>>());
    let mut left = book.iter();
    assert_eq!((left.next(), left.next_back(), left.len()), (Some(sales[0]), Some(sales[3]), 2));
    assert_eq!((left.nth(1), left.next(), left.next_back()), (Some(sales[2]), None, None));
    assert_eq!(book.iter().map(|sale| sale.amount()).sum::<u64>(), 4 * AMOUNT);
}

#[test]
fn a_cancelled_sale_is_read_with_its_parts() {
    let mut book = book_of(2);
    book.cancel(NUMBER).unwrap();
    let cancelled = Sale { cancelled: true, ..sale_at(0) };
    assert_eq!(book.iter().collect::<Vec<_>>(), [cancelled, sale_at(1)]);
    assert_eq!(book.find(NUMBER), Ok(Some(cancelled)));
    assert_eq!((book.len(), cancelled.amount(), book.total()), (2, AMOUNT, Ok(AMOUNT)));
}

#[test]
fn a_sale_is_found_by_its_number() {
    let book = book_of(3);
    assert_eq!(book.find(SaleNumber { till: 1, sequence: 3 }), Ok(Some(sale_at(2))));
    assert_eq!(book.find(SaleNumber { till: 1, sequence: 4 }), Ok(None));
    assert_eq!(book.find(SaleNumber { till: LARGEST_TILL, sequence: LARGEST_SEQUENCE }), Ok(None));
    for (till, sequence) in [(0, 1), (1, 0), (LARGEST_TILL + 1, 1), (1, LARGEST_SEQUENCE + 1)] {
        assert_eq!(book.find(SaleNumber { till, sequence }).unwrap_err().reason, Reason::NumberOutside);
    }
}

#[test]
fn sale_numbers_have_an_order_and_a_hash() {
    let numbers = [(2, 1), (1, 2), (1, 1), (1, 1)].map(|(till, sequence)| SaleNumber { till, sequence });
    let ordered: Vec<_> = BTreeSet::from(numbers).into_iter().map(|number| (number.till, number.sequence)).collect();
    assert_eq!(ordered, [(1, 1), (1, 2), (2, 1)]);
    assert_eq!(HashSet::from(numbers).len(), 3);
    assert_eq!(numbers[0].to_string(), "till 2, sequence 1");
}

#[test]
fn a_book_is_shown_in_short() {
    assert_eq!(format!("{:?}", book_of(3)), "Book { len: 3, .. }");
}
