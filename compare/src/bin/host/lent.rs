//! Slices lent to both sides.

use std::fmt::Display;

const GUARD: usize = 8;
const MOST: usize = 2048;

/// An element of a slice.
pub trait Number: Copy + PartialEq + Display {
    const ZERO: Self;

    /// A number that calls seldom write.
    fn marked(mark: u32) -> Self;
}

impl Number for u8 {
    const ZERO: u8 = 0;

    fn marked(mark: u32) -> u8 {
        mark as u8 | 0x80
    }
}

impl Number for u16 {
    const ZERO: u16 = 0;

    fn marked(mark: u32) -> u16 {
        mark as u16 | 0x8000
    }
}

impl Number for u32 {
    const ZERO: u32 = 0;

    fn marked(mark: u32) -> u32 {
        mark | 0x8000_0000
    }
}

impl Number for u64 {
    const ZERO: u64 = 0;

    fn marked(mark: u32) -> u64 {
        u64::from(mark) << 31 | 1 << 63
    }
}

/// The same numbers twice, for this side and for the library, each copy between guard numbers.
pub struct Lent<N = u32> {
    name: &'static str,
    ours: Vec<N>,
    theirs: Vec<N>,
    count: usize,
    mark: u32,
}

impl<N: Number> Lent<N> {
    pub fn new(name: &'static str) -> Lent<N> {
        let all: Vec<N> = (0..(2 * GUARD + MOST) as u32)
            .map(|n| N::marked(0xA5A5_0000 + n))
            .collect();
        Lent {
            name,
            ours: all.clone(),
            theirs: all,
            count: 0,
            mark: 1,
        }
    }

    /// Puts numbers into both copies.
    pub fn put(&mut self, numbers: &[N]) {
        self.count = numbers.len();
        let place = GUARD..GUARD + self.count;
        self.ours[place.clone()].copy_from_slice(numbers);
        self.theirs[place].copy_from_slice(numbers);
    }

    /// Fills both copies with numbers that no earlier call has left.
    pub fn mark(&mut self, count: usize) {
        self.count = count;
        self.mark = self.mark.wrapping_mul(0x2C92_77B5).wrapping_add(1);
        for n in 0..count {
            let number = N::marked(self.mark.wrapping_add(n as u32));
            self.ours[GUARD + n] = number;
            self.theirs[GUARD + n] = number;
        }
    }

    /// This side's slice.
    pub fn ours(&mut self) -> &mut [N] {
        &mut self.ours[GUARD..GUARD + self.count]
    }

    /// The library's slice.
    pub fn theirs(&mut self) -> &mut [N] {
        &mut self.theirs[GUARD..GUARD + self.count]
    }

    /// The first so many of the numbers that a call left.
    pub fn first(&self, count: usize) -> &[N] {
        &self.ours[GUARD..GUARD + count]
    }

    /// The numbers that a call left, of a slice with the right count.
    pub fn left<const COUNT: usize>(&self) -> [N; COUNT] {
        let mut numbers = [N::ZERO; COUNT];
        numbers.copy_from_slice(&self.ours[GUARD..GUARD + self.count]);
        numbers
    }
}

/// Most places of a list that is lent, and how many calls share a look at all of them.
const LISTED: usize = 13_000;
const LOOKS: u32 = 16;

/// The same list of addresses twice, each copy between guard numbers. It is long, so the places that a call did not write
/// stay as they are for the next one, and are looked at in one call of sixteen: what is written there by mistake is found
/// then.
pub struct List {
    ours: Vec<u32>,
    theirs: Vec<u32>,
    count: usize,
    /// Places from the first on that the last call wrote.
    written: usize,
    mark: u32,
    calls: u32,
}

impl List {
    pub fn new() -> List {
        let all: Vec<u32> = (0..(2 * GUARD + LISTED) as u32)
            .map(|n| u32::marked(0x5A5A_0000 + n))
            .collect();
        List {
            ours: all.clone(),
            theirs: all,
            count: 0,
            written: 0,
            mark: 1,
            calls: 0,
        }
    }

    /// Lends so many places. What the last call wrote is marked anew.
    pub fn lend(&mut self, count: usize) {
        self.mark = self.mark.wrapping_mul(0x2C92_77B5).wrapping_add(1);
        for n in GUARD..GUARD + self.written {
            let number = u32::marked(self.mark.wrapping_add(n as u32));
            self.ours[n] = number;
            self.theirs[n] = number;
        }
        self.count = count;
        self.written = 0;
        self.calls += 1;
    }

    /// Of a call that was accepted: the words that it read.
    pub fn wrote(&mut self, words: u32) {
        self.written = words as usize;
    }

    pub fn ours(&mut self) -> &mut [u32] {
        &mut self.ours[GUARD..GUARD + self.count]
    }

    pub fn theirs(&mut self) -> &mut [u32] {
        &mut self.theirs[GUARD..GUARD + self.count]
    }

    /// The addresses that the last call left.
    pub fn read(&self) -> &[u32] {
        &self.ours[GUARD..GUARD + self.written]
    }
}

impl Differs for List {
    fn difference(&self) -> Option<String> {
        let whole = self.ours.len();
        let near = (2 * GUARD + self.written + 64).min(whole);
        let looked = if self.calls.is_multiple_of(LOOKS) {
            whole
        } else {
            near
        };
        let (ours, theirs) = (&self.ours[..looked], &self.theirs[..looked]);
        if ours == theirs {
            return None;
        }
        let n = (0..looked).find(|&n| ours[n] != theirs[n])?;
        let place = n as i64 - GUARD as i64;
        Some(format!(
            "list of {} places, place {place} after {} words: here {:X}, library {:X}",
            self.count, self.written, ours[n], theirs[n]
        ))
    }
}

/// Marks lent to both sides, each copy between guards. What they hold after a call is free, so only the guards are compared.
pub struct Marks {
    ours: Vec<u8>,
    theirs: Vec<u8>,
}

impl Marks {
    /// So many marks, with anything in them.
    pub fn new(count: usize, mark: u32) -> Marks {
        let all: Vec<u8> = (0..(2 * GUARD + count) as u32)
            .map(|n| n.wrapping_mul(mark) as u8)
            .collect();
        Marks {
            ours: all.clone(),
            theirs: all,
        }
    }

    fn between(marks: &mut [u8]) -> &mut [u8] {
        let end = marks.len() - GUARD;
        &mut marks[GUARD..end]
    }

    pub fn ours(&mut self) -> &mut [u8] {
        Marks::between(&mut self.ours)
    }

    pub fn theirs(&mut self) -> &mut [u8] {
        Marks::between(&mut self.theirs)
    }
}

impl Differs for Marks {
    fn difference(&self) -> Option<String> {
        let end = self.ours.len() - GUARD;
        let guards = |marks: &[u8]| [&marks[..GUARD], &marks[end..]].concat();
        let same = guards(&self.ours) == guards(&self.theirs);
        (!same).then(|| format!("what stands around {} marks", end - GUARD))
    }
}

/// What a call may leave different on the two sides.
pub trait Differs {
    /// The first place where the two differ, the guards included. This side cannot write outside
    /// its slice, so its guards stand.
    fn difference(&self) -> Option<String>;
}

impl<N: Number> Differs for Lent<N> {
    fn difference(&self) -> Option<String> {
        let all = ..self.count + 2 * GUARD;
        let (ours, theirs) = (&self.ours[all], &self.theirs[all]);
        if ours == theirs {
            return None;
        }
        let n = (0..ours.len()).find(|&n| ours[n] != theirs[n])?;
        let place = n as i64 - GUARD as i64;
        Some(format!(
            "{} of {} numbers, place {place}: here {}, library {}",
            self.name, self.count, ours[n], theirs[n]
        ))
    }
}
