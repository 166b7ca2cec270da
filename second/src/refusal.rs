//! Renders "Numbers that turn work away": a number with its place and detail.

#[derive(Clone, Copy, Debug, PartialEq, Eq, Hash)]
pub struct Refusal {
    pub number: u8,
    pub place: u64,
    pub detail: u64,
}

impl Refusal {
    pub fn new(number: u8, place: u64, detail: u64) -> Refusal {
        Refusal {
            number,
            place,
            detail,
        }
    }

    pub fn of_call(number: u8) -> Refusal {
        Refusal::new(number, 0, 0)
    }

    pub fn at(number: u8, place: usize) -> Refusal {
        Refusal::new(number, place as u64, 0)
    }
}
