//! Refusals: the number of the first test that holds, and its place.

use std::fmt;

#[derive(Clone, Copy, Debug, PartialEq, Eq)]
pub struct Refusal {
    pub number: u8,
    pub place: u32,
}

impl fmt::Display for Refusal {
    fn fmt(&self, f: &mut fmt::Formatter) -> fmt::Result {
        write!(f, "refused {} at {}", self.number, self.place)
    }
}

/// Refuses with the number and the place if the test holds.
pub fn refuse_if(holds: bool, number: u8, place: u32) -> Result<(), Refusal> {
    if holds { Err(Refusal { number, place }) } else { Ok(()) }
}
