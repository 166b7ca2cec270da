//! What a series of books comes to. A number that stands in two books is told and never added up in silence.

use std::collections::BTreeMap;

use offers::{Book, SaleNumber};

use crate::bundles::{IDLE_RAILWAYS, RAILWAYS};

pub struct Settlement {
    /// What each railway is owed, those too that carried nobody.
    pub balances: BTreeMap<u64, u64>,
    pub total: u64,
    /// How often each number stands in the books.
    pub numbers: BTreeMap<SaleNumber, usize>,
}

impl Settlement {
    pub fn of(books: &[Book]) -> Settlement {
        let mut numbers = BTreeMap::new();
        for sale in books.iter().flat_map(|book| book.iter()) {
            *numbers.entry(sale.number).or_default() += 1;
        }
        let railways = RAILWAYS.into_iter().chain(IDLE_RAILWAYS);
        let balances = railways.map(|railway| (railway, balance_over(books, railway))).collect();
        let total = books.iter().map(|book| book.total().expect("a book is sound")).sum();
        Settlement { balances, total, numbers }
    }
}

fn balance_over(books: &[Book], railway: u64) -> u64 {
    books.iter().map(|book| book.balance(railway as u32).expect("a railway is within its limits")).sum()
}
