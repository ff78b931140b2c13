//! The addresses of the words that a call reads, in order. What was read is kept as runs until the call is accepted, since a
//! refused one leaves its list as it was; then the runs are written out.

use crate::rules::{invokes, step};
use std::mem::MaybeUninit;

/// Places of a list.
pub const PLACES: usize = 12_000;

/// Most runs of a call: two blocks of a start and four of a row; of each of 30 segments its codes and a fill word; and the
/// fill words before, in and after a window.
const RUNS: usize = 6 + 60 + 3;

/// Who wants to know of words that are read one after the other.
pub(crate) trait Track {
    fn run(&mut self, address: u32, words: usize);
}

/// For a call that is lent no list.
pub(crate) struct NoTrail;

impl Track for NoTrail {
    #[inline]
    fn run(&mut self, _: u32, _: usize) {}
}

/// Words read one after the other from an address on; where they are codes that invoke, each word is followed by the words
/// of a list that its codes take.
#[derive(Clone, Copy)]
struct Run {
    address: u32,
    /// Words, or codes where there is a list.
    length: u32,
    list: Option<Taken>,
}

/// Words of a list, from an address on.
#[derive(Clone, Copy)]
struct Taken {
    address: u32,
    words: u32,
}

pub(crate) struct Trail {
    /// The first `count` of these are written.
    runs: [MaybeUninit<Run>; RUNS],
    count: usize,
    words: u32,
}

impl Trail {
    #[inline]
    pub(crate) fn new() -> Trail {
        Trail {
            runs: [const { MaybeUninit::uninit() }; RUNS],
            count: 0,
            words: 0,
        }
    }

    /// Words read so far.
    #[inline]
    pub(crate) fn words(&self) -> u32 {
        self.words
    }

    #[inline]
    fn push(&mut self, run: Run, words: u32) {
        self.runs[self.count].write(run);
        self.count += 1;
        self.words += words;
    }

    /// So many codes were read, and so many words of a list.
    #[inline]
    pub(crate) fn listed(&mut self, address: u32, codes: usize, list: u32, words: usize) {
        let both = (codes.div_ceil(2) + words) as u32;
        if words == 0 {
            return self.run(address, both as usize);
        }
        let list = Taken {
            address: list,
            words: words as u32,
        };
        let run = Run {
            address,
            length: codes as u32,
            list: Some(list),
        };
        self.push(run, both);
    }

    /// Puts the addresses into a list, whose other places stay.
    #[inline]
    pub(crate) fn write(&self, flag: u16, memory: &[u16], list: &mut [u32; PLACES]) {
        let runs = &self.runs[..self.count];
        // SAFETY: the first `count` runs are written.
        let runs = unsafe { runs.assume_init_ref() };
        let mut at = 0;
        for run in runs {
            at = match run.list {
                None => write_run(run, list, at),
                Some(taken) => {
                    let mut rest = Rest::of(run, &taken, at);
                    rest.write(flag, memory, &taken, &mut list[..self.words as usize]);
                    rest.at
                }
            };
        }
    }
}

impl Track for Trail {
    #[inline]
    fn run(&mut self, address: u32, words: usize) {
        let length = words as u32;
        let run = Run {
            address,
            length,
            list: None,
        };
        self.push(run, length);
    }
}

/// Whether so many words from an address on lie together, without a wrap.
#[inline]
fn together(address: u32, words: u32) -> bool {
    address + 2 * words <= 0x100_0000
}

/// Writes the addresses of words read one after the other from a place on. Gives the place after them.
#[inline]
fn write_run(run: &Run, list: &mut [u32; PLACES], at: usize) -> usize {
    let end = at + run.length as usize;
    let places = &mut list[at..end];
    if together(run.address, run.length) {
        for (place, n) in places.iter_mut().zip(0..) {
            *place = run.address + 2 * n;
        }
    } else {
        let mut next = run.address;
        for place in places {
            *place = next;
            next = step(next);
        }
    }
    end
}

/// What of a segment with a list is to be written: the address of the next code word, the codes from there on, the address of
/// the list's next word, and the place.
struct Rest {
    code: u32,
    codes: u32,
    next: u32,
    at: usize,
}

impl Rest {
    /// All of a segment, from a place on.
    #[inline]
    fn of(run: &Run, taken: &Taken, at: usize) -> Rest {
        Rest {
            code: run.address,
            codes: run.length,
            next: taken.address,
            at,
        }
    }

    /// Writes the addresses of code words and of the list's words that they take. The places are those of all words read.
    #[inline]
    fn write(&mut self, flag: u16, memory: &[u16], taken: &Taken, places: &mut [u32]) {
        let words = self.codes.div_ceil(2);
        if together(self.code, words) && together(self.next, taken.words) {
            let first = self.code as usize / 2;
            self.by_words(flag, &memory[first..], places);
        }
        self.by_codes(flag, memory, places);
    }

    /// Whole words, while there are three places left: a word and what its two codes may take. What they do not take is
    /// written over by what was read after.
    #[inline]
    fn by_words(&mut self, flag: u16, words: &[u16], places: &mut [u32]) {
        let [mask, value] = flag.to_be_bytes().map(|byte| u16::from(byte) * 0x101);
        let Rest {
            mut code,
            mut next,
            mut at,
            ..
        } = *self;
        let first = code;
        for &word in &words[..self.codes as usize / 2] {
            let Some(three) = places.get_mut(at..at + 3) else {
                break;
            };
            three.copy_from_slice(&[code, next, next + 2]);
            let differ = (word ^ value) & mask;
            let taken = u32::from(differ & 0xFF00 == 0) + u32::from(differ & 0xFF == 0);
            at += 1 + taken as usize;
            next += 2 * taken;
            code += 2;
        }
        self.codes -= code - first;
        (self.code, self.next, self.at) = (code, next, at);
    }

    /// Code by code, to the end; either list may wrap.
    fn by_codes(&mut self, flag: u16, memory: &[u16], places: &mut [u32]) {
        let mut write = |at: &mut usize, address: &mut u32| {
            places[*at] = *address;
            *at += 1;
            *address = step(*address);
        };
        while self.codes > 0 {
            let both = memory[self.code as usize / 2].to_be_bytes();
            write(&mut self.at, &mut self.code);
            let examined = self.codes.min(2);
            for &code in &both[..examined as usize] {
                if invokes(flag, code) {
                    write(&mut self.at, &mut self.next);
                }
            }
            self.codes -= examined;
        }
    }
}
