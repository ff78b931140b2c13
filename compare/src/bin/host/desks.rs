//! Two desks on one memory: frames, with their rows beside the cut, whose calls take turns, with writes of either desk between
//! them. A write to words that a desk's calls do not read changes nothing in them.

use crate::calls::{Calls, Checked};
use crate::frame::Frame;
use crate::lent::Differs;
use crate::scroll::soft_top;
use crate::{in_turn, must, odd};
use compare::desks::{Span, Spans};
use compare::generate::{self, Rng, Shape};
use compare::host::{
    settings_numbers, settings_of, state_of, Beside, PLACES, ROW_ANSWER, SETTINGS, START_ANSWER,
    STATE,
};
use compare::plain::{self, Notes};
use compare::rules::{Settings, CELLS};
use std::collections::HashSet;

/// Most calls of a desk, and actions of both.
const CALLS: usize = 12;
const ACTIONS: usize = 60;

/// Most words of a memory that is copied.
pub const MOST: usize = 70_000;

/// The memory of both desks twice, for this side and for the library.
pub struct Shared {
    pub ours: Vec<u16>,
    pub theirs: Vec<u16>,
    /// The word that was written last, or was to be.
    pub near: usize,
}

impl Shared {
    pub fn new(memory: &[u16]) -> Shared {
        Shared {
            ours: memory.to_vec(),
            theirs: memory.to_vec(),
            near: 0,
        }
    }

    /// The first word that differs.
    pub fn anywhere(&self) -> Option<String> {
        if self.ours == self.theirs {
            return None;
        }
        let n = (0..self.ours.len()).find(|&n| self.ours[n] != self.theirs[n])?;
        let (ours, theirs) = (self.ours[n], self.theirs[n]);
        Some(format!(
            "memory at {:06X}: here {ours:04X}, library {theirs:04X}",
            2 * n
        ))
    }
}

impl Differs for Shared {
    /// Looks around the word that was written; the whole memory is looked at in the end.
    fn difference(&self) -> Option<String> {
        let whole = self.ours.len();
        let from = self.near.min(whole).saturating_sub(4);
        let end = self.near.saturating_add(4).min(whole);
        (from..end)
            .find(|&n| self.ours[n] != self.theirs[n])
            .map(|n| format!("memory, word {n}"))
    }
}

/// A memory that is looked at everywhere.
pub struct Whole<'m>(pub &'m Shared);

impl Differs for Whole<'_> {
    fn difference(&self) -> Option<String> {
        self.0.anywhere()
    }
}

/// Counts of frames whose calls took turns with another desk's.
#[derive(Default)]
pub struct Desks {
    frames: u64,
    refused: u64,
    writes: u64,
    /// Frames with writes between their calls to words that they do not read, and those that had a word changed.
    kept: u64,
    changed: u64,
}

impl Desks {
    pub fn print(&self) {
        println!(
            "{} frames of two desks in turn, {} refused, with {} words written: {} had writes between their calls and kept \
             all, {} had a word changed that they read",
            self.frames, self.refused, self.writes, self.kept, self.changed
        );
    }
}

/// What a call left.
#[derive(Clone, PartialEq)]
struct Left {
    status: u8,
    state: Vec<u32>,
    cells: Vec<u32>,
    list: Vec<u32>,
    answer: Vec<u32>,
}

struct Desk {
    settings: [u32; SETTINGS],
    latch: u16,
    /// Of the row beside the cut, which comes after the frame where the shift is not 0.
    shift: i32,
    soft: [u16; 2],
    /// What each call of its frame leaves alone, and the words that they read.
    alone: Vec<Left>,
    read: HashSet<u32>,
    /// The calls made in turn, the state that they came to, and whether the frame has ended.
    made: usize,
    state: Vec<u32>,
    ended: bool,
    /// Whether words were written between two calls, and whether one of them is read.
    written: bool,
    changed: bool,
}

impl Desk {
    /// A desk, with its frame drawn alone.
    fn new(
        calls: &mut Calls,
        rng: &mut Rng,
        (settings, soft): Source,
        memory: &[u16],
    ) -> Checked<Desk> {
        let mut desk = Desk {
            settings,
            latch: in_turn::latch(rng),
            shift: rng.pick(&[0, 1, -1]),
            soft,
            alone: Vec::new(),
            read: HashSet::new(),
            made: 0,
            state: Vec::new(),
            ended: false,
            written: false,
            changed: false,
        };
        while desk.alone.len() < CALLS {
            let last = desk.ended;
            if last && desk.shift == 0 {
                break;
            }
            let read = desk.read_by(memory);
            let left = desk.call(calls, memory)?;
            let given = (&desk.settings, &desk.state, &read);
            let same = left.status != 0 || left.list == read;
            must(same, "a list has the words that were read", &given)?;
            desk.read.extend(read);
            desk.alone.push(left);
            if last {
                break;
            }
        }
        (desk.made, desk.state, desk.ended) = (0, Vec::new(), false);
        Ok(desk)
    }

    /// The words that the next call reads, refused or not.
    fn read_by(&self, memory: &[u16]) -> Vec<u32> {
        let mut notes = Notes::default();
        let Some(settings) = settings_of(&self.settings) else {
            return notes.read;
        };
        if self.made == 0 {
            let _ = plain::start(&settings, memory, self.latch, &mut notes);
        } else if self.ended && self.shift < 0 {
            let settings = Settings {
                top: self.soft,
                ..settings
            };
            if let Ok(state) = plain::start(&settings, memory, self.latch, &mut notes) {
                let _ = plain::row(&settings, memory, &state, &mut notes);
            }
        } else if let Some(mut state) = state_of(&self.state) {
            if self.ended {
                state.fields.lines_left = 1;
            }
            let _ = plain::row(&settings, memory, &state, &mut notes);
        }
        notes.read
    }

    /// The next call: the start, then rows, then the row beside the cut.
    fn call(&mut self, calls: &mut Calls, memory: &[u16]) -> Checked<Left> {
        let settings = &self.settings;
        let first = self.made == 0;
        let status = if first {
            calls.start(settings, memory, self.latch, STATE, PLACES, START_ANSWER)?
        } else if !self.ended {
            calls.row(settings, memory, &self.state, CELLS, PLACES, ROW_ANSWER)?
        } else {
            let from = Beside {
                shift: self.shift,
                soft: self.soft,
                latch: self.latch,
                state: &self.state,
            };
            calls.beside(settings, memory, &from, CELLS, PLACES, ROW_ANSWER)?
        };
        self.made += 1;
        let accepted = status == 0;
        if accepted || !first {
            self.state = calls.state.first(STATE).to_vec();
        } else {
            // A refused start leaves no state.
            self.state = vec![0; STATE];
        }
        self.ended |= !accepted || self.state[2] == 0;
        let (cells, answers) = match (accepted, first) {
            (false, _) => (0, 3),
            (true, true) => (0, START_ANSWER),
            (true, false) => (CELLS, ROW_ANSWER),
        };
        Ok(Left {
            status,
            state: self.state.clone(),
            cells: calls.cells.first(cells).to_vec(),
            list: calls.list.read().to_vec(),
            answer: calls.answer.first(answers).to_vec(),
        })
    }

    /// The next call in turn, if there is one: as alone, unless a word that its frame reads was changed.
    fn turn(&mut self, calls: &mut Calls, memory: &[u16]) -> Checked<bool> {
        let Some(alone) = self.alone.get(self.made).cloned() else {
            return Ok(false);
        };
        let last = self.ended;
        let left = self.call(calls, memory)?;
        if self.changed {
            // Each call follows the memory that it finds, so the frame may end otherwise.
            return Ok(!last);
        }
        let what = "a write to words that a frame does not read changes nothing in it";
        must(left == alone, what, &(&self.settings, &self.state))?;
        Ok(true)
    }

    /// A word was written between two calls.
    fn note(&mut self, address: u32) {
        if self.made > 0 && self.made < self.alone.len() {
            self.written = true;
        }
        self.changed |= self.read.contains(&address);
    }

    fn count(&self, all: &mut Desks) {
        all.frames += 1;
        all.refused += u64::from(self.alone.iter().any(|left| left.status != 0));
        all.changed += u64::from(self.changed);
        all.kept += u64::from(self.written && !self.changed);
    }
}

/// An end of a span: in memory, near its end, or any.
fn end(rng: &mut Rng, words: usize) -> u32 {
    match rng.below(8) {
        0 => rng.pick(&[0, 1, 0xFF_FFFF, 0x100_0000, u32::MAX - 1, u32::MAX]),
        1 => (2 * words + rng.below(6)).saturating_sub(3) as u32,
        _ => rng.below(2 * words + 2) as u32,
    }
}

/// Two spans: one after the other, or any, some of which share an address or have none.
fn spans(rng: &mut Rng, words: usize) -> [Span; 2] {
    let mut ends = [0; 4].map(|_: u32| end(rng, words));
    match rng.below(12) {
        0 => {}
        1 => {
            ends.sort_unstable();
            ends[2] = ends[1];
        }
        2 => {
            ends.sort_unstable();
            ends.swap(0, 1);
        }
        3..=5 => {
            ends.sort_unstable();
            ends[2] = ends[1].saturating_add(1).min(ends[3]);
        }
        _ => {
            let half = words as u32 & !1;
            ends = [0, half.saturating_sub(1), half, (2 * words) as u32];
        }
    }
    let [a, b, c, d] = ends;
    [Span { first: a, last: b }, Span { first: c, last: d }]
}

/// An address to write to: in the span, at its ends, one that no frame reads, or any.
fn address(rng: &mut Rng, span: &Span, desks: &[Desk; 2], words: usize) -> u32 {
    let inside = span.last.saturating_sub(span.first).saturating_add(1);
    let within = span.first.saturating_add(rng.below(inside as usize) as u32);
    match rng.below(12) {
        0 => rng.pick(&[span.first, span.last, span.last.wrapping_add(2)]) & !1,
        1 => span.first.wrapping_sub(rng.below(3) as u32),
        2 => span.last.wrapping_add(rng.below(4) as u32),
        3 => within | 1,
        4 => end(rng, words),
        5 => within & !1,
        _ => {
            // The first from there on that neither frame reads.
            let read = |address: &u32| desks.iter().any(|desk| desk.read.contains(address));
            let mut from = (within & !1..=span.last).step_by(2).take(4000);
            from.find(|address| !read(address)).unwrap_or(within & !1)
        }
    }
}

/// What a desk draws from: settings, and a soft top.
type Source = ([u32; SETTINGS], [u16; 2]);

/// What two desks draw from, and their memory: two frames one after the other in it, or one with two tops.
fn pair(rng: &mut Rng, frame: &Frame) -> ([Source; 2], Vec<u16>) {
    if rng.once_in(2) || frame.memory().len() > MOST {
        let words = rng.range(1000, 16_000);
        let half = words / 2;
        let shape = Shape::words(words);
        let low = generate::case(rng, &shape);
        let high = generate::case(
            rng,
            &Shape {
                first: half,
                ..shape
            },
        );
        let mut memory = low.memory.clone();
        memory.resize(words, 0);
        let end = high.memory.len().max(half);
        memory[half..end].copy_from_slice(&high.memory[half.min(high.memory.len())..]);
        let low = (settings_numbers(&low.settings), rng.pick(&low.tops));
        let high = (settings_numbers(&high.settings), rng.pick(&high.tops));
        return ([low, high], memory);
    }
    let mut other = frame.settings;
    let top = rng.pick(&frame.tops);
    other[5..7].copy_from_slice(&top.map(u32::from));
    if rng.once_in(12) {
        other = odd::settings(rng, &other);
    }
    let [first, second] = [frame.settings, other].map(|settings| (settings, soft_top(rng, frame)));
    ([first, second], frame.memory().to_vec())
}

/// Frames of two desks, whose calls and writes come in any order.
pub fn take_turns(calls: &mut Calls, rng: &mut Rng, frame: &Frame) -> Checked<()> {
    let ([first, second], memory) = pair(rng, frame);
    let words = memory.len();
    let first = Desk::new(calls, rng, first, &memory)?;
    let second = Desk::new(calls, rng, second, &memory)?;
    let mut desks = [first, second];
    let mut shared = Shared::new(&memory);
    let mut held = spans(rng, words);
    let mut going = [true; 2];
    for _ in 0..ACTIONS {
        if going == [false; 2] {
            break;
        }
        let n = rng.below(2);
        if rng.once_in(2) {
            going[n] = going[n] && desks[n].turn(calls, &shared.ours)?;
            continue;
        }
        if rng.once_in(20) {
            held = spans(rng, words);
        }
        let both = Spans {
            own: held[n],
            other: held[1 - n],
        };
        let address = address(rng, &both.own, &desks, words);
        let word = rng.word();
        if calls.write_word(&mut shared, &both, address, word)? == 0 {
            calls.tally.desks.writes += 1;
            let apart = both.own.holds(address) && !both.other.holds(address);
            must(apart, "a desk writes in its own span", &(&both, address))?;
            must(
                shared.ours[address as usize / 2] == word,
                "a word is written",
                &address,
            )?;
            for desk in &mut desks {
                desk.note(address);
            }
        }
    }
    for desk in &desks {
        desk.count(&mut calls.tally.desks);
    }
    must(
        shared.anywhere().is_none(),
        "both memories are the same",
        &(),
    )
}
