//! The calls and structs of include/offers.h, as C has them, and each call with slices in place of pointers.
//!
//! All that is `unsafe` in this crate stands here.
#![allow(unsafe_code)]
use crate::{Leg, Question, SaleNumber, MOST_LEGS};

/// The first three numbers of every reply: those of a refusal, or all 0.
#[repr(C)]
pub struct Head {
    pub number: u64,
    pub place: u64,
    pub detail: u64,
}

#[repr(C)]
pub struct Judgement {
    pub head: Head,
    pub records: u64,
}

#[repr(C)]
pub struct Quote {
    pub head: Head,
    pub fare: u64,
    pub parts: [u32; MOST_LEGS],
}

#[repr(C)]
pub struct Receipt {
    pub head: Head,
    pub outcome: u32,
    pub cancelled: u32,
    pub parts: [u32; MOST_LEGS],
}

#[repr(C)]
pub struct Sum {
    pub head: Head,
    pub amount: u64,
}

#[repr(C)]
pub struct Tally {
    pub head: Head,
    pub entries: u64,
}

#[repr(C)]
pub struct Booking {
    pub head: Head,
    pub entry: u64,
    pub sequence: u64,
    pub till: u32,
    pub status: u32,
    pub question: Question,
    pub parts: [u32; MOST_LEGS],
}

extern "C" {
    fn offers_verdict(bundle: *const u8, length: usize) -> Judgement;
    fn offers_fare(bundle: *const u8, length: usize, question: Question) -> Quote;
    fn offers_sale(
        book: *mut u32,
        words: usize,
        bundle: *const u8,
        length: usize,
        till: u32,
        sequence: u64,
        question: Question,
    ) -> Receipt;
    fn offers_cancel(book: *mut u32, words: usize, till: u32, sequence: u64) -> Receipt;
    fn offers_balance(book: *const u32, words: usize, railway: u32) -> Sum;
    fn offers_total(book: *const u32, words: usize) -> Sum;
    fn offers_count(book: *const u32, words: usize) -> Tally;
    fn offers_entry(book: *const u32, words: usize, entry: usize) -> Booking;
    fn offers_find(book: *const u32, words: usize, till: u32, sequence: u64) -> Booking;
}

// SAFETY of every call below: a slice is readable for its length, and a book that is lent to write in is its caller's
// alone and is aligned as `u32`. The engine asks for nothing else: it checks all values itself.

pub fn verdict(bundle: &[u8]) -> Judgement {
    unsafe { offers_verdict(bundle.as_ptr(), bundle.len()) }
}

pub fn fare(bundle: &[u8], question: &Question) -> Quote {
    unsafe { offers_fare(bundle.as_ptr(), bundle.len(), *question) }
}

pub fn sale(book: &mut [u32], bundle: &[u8], number: SaleNumber, question: &Question) -> Receipt {
    let (words, length) = (book.len(), bundle.len());
    let SaleNumber { till, sequence } = number;
    unsafe { offers_sale(book.as_mut_ptr(), words, bundle.as_ptr(), length, till, sequence, *question) }
}

pub fn cancel(book: &mut [u32], number: SaleNumber) -> Receipt {
    unsafe { offers_cancel(book.as_mut_ptr(), book.len(), number.till, number.sequence) }
}

pub fn balance(book: &[u32], railway: u32) -> Sum {
    unsafe { offers_balance(book.as_ptr(), book.len(), railway) }
}

pub fn total(book: &[u32]) -> Sum {
    unsafe { offers_total(book.as_ptr(), book.len()) }
}

pub fn count(book: &[u32]) -> Tally {
    unsafe { offers_count(book.as_ptr(), book.len()) }
}

pub fn entry(book: &[u32], entry: usize) -> Booking {
    unsafe { offers_entry(book.as_ptr(), book.len(), entry) }
}

pub fn find(book: &[u32], number: SaleNumber) -> Booking {
    unsafe { offers_find(book.as_ptr(), book.len(), number.till, number.sequence) }
}

/// The layouts of the header, held to while this is compiled.
const _: () = {
    use std::mem::{offset_of, size_of};
    assert!(size_of::<Leg>() == 8 && offset_of!(Leg, railway) == 0 && offset_of!(Leg, fare) == 4);
    assert!(size_of::<Question>() == 96);
    assert!(offset_of!(Question, offer) == 0 && offset_of!(Question, day) == 4);
    assert!(offset_of!(Question, persons) == 8 && offset_of!(Question, cards) == 12);
    assert!(offset_of!(Question, count) == 28 && offset_of!(Question, legs) == 32);
    assert!(size_of::<Head>() == 24 && offset_of!(Head, number) == 0);
    assert!(offset_of!(Head, place) == 8 && offset_of!(Head, detail) == 16);
    assert!(size_of::<Judgement>() == 32 && offset_of!(Judgement, records) == 24);
    assert!(size_of::<Quote>() == 64);
    assert!(offset_of!(Quote, fare) == 24 && offset_of!(Quote, parts) == 32);
    assert!(size_of::<Receipt>() == 64 && offset_of!(Receipt, outcome) == 24);
    assert!(offset_of!(Receipt, cancelled) == 28 && offset_of!(Receipt, parts) == 32);
    assert!(size_of::<Sum>() == 32 && offset_of!(Sum, amount) == 24);
    assert!(size_of::<Tally>() == 32 && offset_of!(Tally, entries) == 24);
    assert!(size_of::<Booking>() == 176 && offset_of!(Booking, entry) == 24);
    assert!(offset_of!(Booking, sequence) == 32 && offset_of!(Booking, till) == 40);
    assert!(offset_of!(Booking, status) == 44 && offset_of!(Booking, question) == 48);
    assert!(offset_of!(Booking, parts) == 144);
};
