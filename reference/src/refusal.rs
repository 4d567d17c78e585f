//! A refusal: why, by a number, and where, by a place.

#[derive(Clone, Copy, Debug, PartialEq, Eq)]
pub struct Refusal {
    pub number: u32,
    pub place: u64,
}

/// A refusal with a place.
pub fn at(number: u32, place: usize) -> Refusal {
    Refusal { number, place: place as u64 }
}

/// A refusal whose place is 0.
pub fn plain(number: u32) -> Refusal {
    Refusal { number, place: 0 }
}
