//! The bus report: rows of any register, word count and totals, and the rows of screens drawn in turn.

use crate::calls::{Calls, Checked};
use crate::must;
use compare::bus::Used;
use compare::generate::Rng;
use compare::host::{BUS_ANSWER, TOTALS};

/// Rows of one list, and lists of one random frame.
const ROWS: usize = 24;
const LISTS: usize = 2;

/// A burst register: space in the high byte, count in the low.
pub fn register(rng: &mut Rng) -> u16 {
    match rng.below(8) {
        0 => rng.pick(&[0, 1, 0x00FF, 0x0101, 0x01FF, 0xFF01, 0xFFFF]),
        1 => rng.word() & 0xFF00,
        2 => rng.word() & 0x00FF,
        3 => rng.word() & 0x0F1F,
        _ => rng.word(),
    }
}

/// A word count: of a row, about a number of whole bursts, or any.
fn words(rng: &mut Rng, register: u16) -> u32 {
    let count = u32::from(register & 0xFF);
    match rng.below(8) {
        0 => rng.pick(&[0, 0, 1, 12_000, 1 << 31, u32::MAX - 1, u32::MAX]),
        1 | 2 => (count * rng.below(300) as u32 + rng.below(3) as u32).saturating_sub(1),
        3 => rng.draw() as u32,
        4 => rng.below(12_000) as u32,
        _ => rng.below(200) as u32,
    }
}

fn used(rng: &mut Rng, register: u16) -> Used {
    let place = |rng: &mut Rng| match rng.below(4) {
        0 => rng.draw() as u32,
        1 => rng.pick(&[0, u32::MAX]),
        _ => rng.below(100) as u32,
    };
    Used {
        words: words(rng, register),
        screen: place(rng),
        row: place(rng),
    }
}

/// A sum: none yet, near what 64 bits hold, or any.
fn sum(rng: &mut Rng) -> u64 {
    let shift = rng.below(64);
    match rng.below(4) {
        0 => 0,
        1 => u64::MAX - (rng.below(1 << 40) as u64 >> rng.below(40)),
        2 => u64::MAX >> shift,
        _ => rng.draw() << 16 | u64::from(rng.word()),
    }
}

/// Totals of no list of rows: sums near what 64 bits hold, any largest row, seldom a mark of it that is none.
pub fn totals(rng: &mut Rng) -> [u64; TOTALS] {
    let largest = match rng.below(3) {
        0 => sum(rng),
        _ => rng.below(300) as u64,
    };
    let mark = match rng.below(40) {
        0 => rng.pick(&[2, 255, 256, 1 << 32, u64::MAX]),
        n => (n as u64 % 4).min(1),
    };
    let mut totals = [
        sum(rng),
        sum(rng),
        sum(rng),
        largest,
        sum(rng),
        sum(rng),
        mark,
    ];
    if mark == 0 && rng.once_in(2) {
        totals[3..].fill(0);
    }
    totals
}

/// What a list of rows comes to, beside the calls.
#[derive(Debug)]
struct Sums {
    sums: [u128; 3],
    /// Word count, screen and row of the first of the largest, if there is a row.
    largest: Option<[u64; 3]>,
}

impl Sums {
    fn of(totals: &[u64; TOTALS]) -> Sums {
        Sums {
            sums: [totals[0], totals[1], totals[2]].map(u128::from),
            largest: (totals[6] == 1).then_some([totals[3], totals[4], totals[5]]),
        }
    }

    /// The sums with a row, by its bursts and released time.
    fn with(&self, used: &Used, taken: &[u64; BUS_ANSWER]) -> Sums {
        let mut sums = self.sums;
        sums[0] += u128::from(used.words);
        sums[1] += u128::from(taken[0]);
        sums[2] += u128::from(taken[1]);
        let row = [used.words, used.screen, used.row].map(u64::from);
        let largest = match self.largest {
            Some(largest) if largest[0] >= row[0] => largest,
            _ => row,
        };
        Sums {
            sums,
            largest: Some(largest),
        }
    }

    fn fit(&self) -> bool {
        self.sums.iter().all(|&sum| sum <= u64::MAX.into())
    }

    fn are(&self, totals: &[u64; TOTALS]) -> bool {
        let Sums { sums, largest } = Sums::of(totals);
        self.sums == sums && self.largest == largest
    }
}

/// Rows one after another, from totals on.
fn list(calls: &mut Calls, rng: &mut Rng) -> Checked<()> {
    let mut from = match rng.below(3) {
        0 => [0; TOTALS],
        _ => totals(rng),
    };
    let mut all = Sums::of(&from);
    let mut burst = register(rng);
    for _ in 0..ROWS {
        if rng.once_in(3) {
            burst = register(rng);
        }
        let used = used(rng, burst);
        let status = calls.bus(burst, &used, &from, BUS_ANSWER)?;
        let left = calls.totals.left();
        let given = (burst, &used, &from, left);
        if status == 0 {
            all = all.with(&used, &calls.taken.left());
            must(all.fit(), "sums that do not fit are refused", &given)?;
            must(all.are(&left), "totals are the sums of the rows", &given)?;
            from = left;
        } else {
            must(from == left, "a refusal leaves the totals", &given)?;
            if status != 20 && rng.once_in(3) {
                from = totals(rng);
                all = Sums::of(&from);
            }
        }
    }
    Ok(())
}

/// Lists of rows that no screen need have.
pub fn lists(calls: &mut Calls, rng: &mut Rng) -> Checked<()> {
    for _ in 0..LISTS {
        list(calls, rng)?;
    }
    Ok(())
}

/// The report over screens drawn in turn, with one register.
pub struct Report {
    burst: u16,
    totals: [u64; TOTALS],
    screens: u32,
    words: u64,
}

impl Report {
    pub fn new(rng: &mut Rng) -> Report {
        Report {
            burst: register(rng).max(0x0101) | 1,
            totals: [0; TOTALS],
            screens: 0,
            words: 0,
        }
    }

    /// Hands in a screen's rows by their words; those of its start are with the first one's.
    pub fn screen(&mut self, calls: &mut Calls, words: &[u32]) -> Checked<()> {
        for (row, &words) in words.iter().enumerate() {
            let used = Used {
                words,
                screen: self.screens,
                row: row as u32,
            };
            let status = calls.bus(self.burst, &used, &self.totals, BUS_ANSWER)?;
            must(status == 0, "the rows of screens fit", &self.totals)?;
            self.totals = calls.totals.left();
            self.words += u64::from(words);
        }
        self.screens += 1;
        let same = self.totals[0] == self.words;
        must(same, "a report has the words of its screens", &self.totals)
    }
}
