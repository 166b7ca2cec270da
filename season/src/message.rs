//! What a till sends up to the office.

use offers::{Question, SaleNumber};

use crate::bundles::BundleName;

#[derive(Clone, Copy, Debug)]
pub struct Message {
    pub number: SaleNumber,
    pub what: What,
}

#[derive(Clone, Copy, Debug)]
pub enum What {
    Sale { question: Question, bundle: BundleName },
    Cancellation,
}
