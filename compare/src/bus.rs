//! How much of the bus a screen takes: the bursts and the least released time of each row handed in, and the
//! running totals of all.

use crate::rules::{Refusal, Stop};

/// System clocks of one step of burst space.
const SPACE_CLOCKS: u64 = 15;

/// The row of the largest word count, as it was handed in.
#[derive(Clone, Copy, Debug, PartialEq, Eq)]
pub struct Largest {
    pub words: u64,
    pub screen: u64,
    pub row: u64,
}

/// Sums over the rows handed in.
#[derive(Clone, Copy, Debug, Default, PartialEq, Eq)]
pub struct Totals {
    pub words: u64,
    pub bursts: u64,
    pub released: u64,
    /// None before the first row.
    pub largest: Option<Largest>,
}

/// A row that is handed in, and where it stands. The words of a start go with row 0.
#[derive(Clone, Copy, Debug, PartialEq, Eq)]
pub struct Used {
    pub words: u32,
    pub screen: u32,
    pub row: u32,
}

/// What a row takes of the bus.
#[derive(Clone, Copy, Debug, PartialEq, Eq)]
pub struct Taken {
    pub bursts: u64,
    pub released: u64,
}

/// The bursts of so many words by a burst register, and the released time between them; none for a
/// burst count of 0.
fn taken(register: u16, words: u32) -> Option<Taken> {
    let [space, count] = register.to_be_bytes();
    let bursts = match (space, count) {
        (_, 0) => return None,
        // The bus is kept.
        (0, _) => u64::from(words > 0),
        _ => u64::from(words.div_ceil(count.into())),
    };
    Some(Taken {
        bursts,
        released: SPACE_CLOCKS * u64::from(space) * bursts.saturating_sub(1),
    })
}

impl Totals {
    /// These totals and a row, if all sums fit.
    fn with(&self, used: &Used, taken: Taken) -> Option<Totals> {
        let words = u64::from(used.words);
        let largest = match self.largest {
            Some(largest) if largest.words >= words => largest,
            _ => Largest {
                words,
                screen: used.screen.into(),
                row: used.row.into(),
            },
        };
        Some(Totals {
            words: self.words.checked_add(words)?,
            bursts: self.bursts.checked_add(taken.bursts)?,
            released: self.released.checked_add(taken.released)?,
            largest: Some(largest),
        })
    }

    /// Brings the totals up to date after a row. A refusal leaves them as they were.
    pub fn report(&mut self, register: u16, used: &Used) -> Result<Taken, Refusal> {
        let refuse = |number| Stop::bare(number).at_row(0);
        let taken = taken(register, used.words).ok_or_else(|| refuse(20))?;
        *self = self.with(used, taken).ok_or_else(|| refuse(21))?;
        Ok(taken)
    }
}
