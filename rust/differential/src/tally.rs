//! How often each number was answered.

use std::fmt;

/// Success and the refusals, up to the largest number.
const NUMBERS: usize = 27;

/// Counts of answers by their number.
#[derive(Clone, Copy, Debug, Default)]
pub struct Tally([u64; NUMBERS]);

impl Tally {
    /// Counts an answer.
    pub fn add(&mut self, number: u32) {
        self.0[number as usize] += 1;
    }

    /// Counts the answers of another tally too.
    pub fn join(&mut self, other: &Tally) {
        for (count, more) in self.0.iter_mut().zip(other.0) {
            *count += more;
        }
    }

    /// How often a number was answered.
    pub fn count(&self, number: u32) -> u64 {
        self.0[number as usize]
    }

    /// How many answers there were.
    pub fn all(&self) -> u64 {
        self.0.iter().sum()
    }

    /// Fails unless each of the numbers was answered so often.
    pub fn expect(&self, numbers: impl IntoIterator<Item = u32>, least: u64) {
        for number in numbers {
            let count = self.count(number);
            assert!(count >= least, "number {number} is answered {count} times");
        }
    }
}

/// The numbers that were answered at all, each with its count.
impl fmt::Display for Tally {
    fn fmt(&self, f: &mut fmt::Formatter<'_>) -> fmt::Result {
        write!(f, "{} answers", self.all())?;
        for (number, count) in self.0.iter().enumerate().filter(|(_, count)| **count > 0) {
            write!(
                f,
                "{} {number}: {count}",
                if number == 0 { ";" } else { "," }
            )?;
        }
        Ok(())
    }
}
