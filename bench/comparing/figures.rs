//! How much was compared.

use std::fmt;

/// Stands for the number of a stop that has none: a call out of turn.
pub const OUT_OF_TURN: u8 = 28;
/// Stands for the number of a refusal that is not told.
pub const NOT_TOLD: u8 = 29;

/// How many calls answered each number; 0 is accepted.
#[derive(Default)]
pub struct Tally([u64; 30]);

impl Tally {
    pub fn add(&mut self, number: u8) {
        self.0[usize::from(number)] += 1;
    }
}

impl fmt::Display for Tally {
    fn fmt(&self, f: &mut fmt::Formatter) -> fmt::Result {
        write!(f, "{} calls; accepted {}; refused", self.0.iter().sum::<u64>(), self.0[0])?;
        for (number, count) in self.0.iter().enumerate().skip(1).filter(|(_, count)| **count > 0) {
            match number as u8 {
                OUT_OF_TURN => write!(f, "; out of turn {count}")?,
                NOT_TOLD => write!(f, "; inside lists {count}")?,
                _ => write!(f, " {number}: {count}")?,
            }
        }
        Ok(())
    }
}
