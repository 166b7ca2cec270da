//! Renders no section: seeded inputs for "The bundle", "Pricing" and "The sales book".

pub mod books;
pub mod breakage;
pub mod cards;
pub mod clashes;
pub mod corpus;
pub mod crowded;
pub mod damage;
pub mod dated;
pub mod dates;
pub mod dearest;
pub mod drafts;
pub mod histories;
pub mod overlaps;
pub mod periods;
pub mod questions;
pub mod random;
pub mod resent;
pub mod valid;
