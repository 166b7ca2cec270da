//! Independent second program: document 01 as of document 02 leave it, by section and by request.

pub mod against;
pub mod book;
pub mod bundle;
pub mod calendar;
pub mod cards;
pub mod fare;
pub mod generate;
pub mod layout;
pub mod period;
pub mod program;
pub mod question;
pub mod refusal;
pub mod rounding;
pub mod seasons;
pub mod values;
pub mod verdict;
