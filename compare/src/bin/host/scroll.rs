//! Soft scroll: shift calls in sequence, each from the last one's scroll and hard top, with frames and
//! rows beside the cut between them.

use crate::calls::{Calls, Checked, Difference};
use crate::frame::Frame;
use crate::{in_turn, must, odd};
use compare::generate::{scroll_word, Rng};
use compare::host::{Beside, PLACES, PREFIX, ROW_ANSWER, SCROLL, SETTINGS, SHIFT_ANSWER, STATE};
use compare::rules::{pointer, step, CELLS};

/// Shift calls of one random frame's settings and memory, and how many of them may be refused.
const CALLS: usize = 40;
const REFUSED: usize = 8;

/// A scroll that goes on: its numbers, and what they mean.
fn in_range(scroll: &[u32; SCROLL]) -> bool {
    let shift = scroll[0] as i32;
    match scroll[2] {
        0 => (-31..=0).contains(&shift) && scroll[1] <= 7,
        1 => (0..=31).contains(&shift) && scroll[1] <= 7,
        _ => false,
    }
}

/// A soft top: one of the frame's main blocks; seldom null, damaged or any.
pub fn soft_top(rng: &mut Rng, frame: &Frame) -> [u16; 2] {
    let mut top = rng.pick(&frame.tops);
    match rng.below(16) {
        0 => rng.pick(&[[0, 0], [0, 1], [0xFF00, 1], [0x80FF, 0]]),
        1 => {
            top[rng.below(2)] ^= 1 << rng.below(16);
            top
        }
        2 => [rng.word() & 0xFF, rng.word()],
        _ => top,
    }
}

/// What a console holds between frames.
struct Console<'f> {
    frame: &'f Frame,
    settings: [u32; SETTINGS],
    memory: Vec<u16>,
    /// The words of memory that were changed, first to last.
    changes: Vec<(u32, u16)>,
    soft: [u16; 2],
    scroll: [u32; SCROLL],
    latch: u16,
    /// One call in so many comes after a change of memory.
    calm: usize,
}

impl Console<'_> {
    fn top(&self) -> [u16; 2] {
        [self.settings[5] as u16, self.settings[6] as u16]
    }

    fn set_top(&mut self, top: [u16; 2]) {
        self.settings[5..7].copy_from_slice(&top.map(u32::from));
    }

    /// The address so many words on.
    fn after(&self, address: u32, words: usize) -> u32 {
        (0..words).fold(address, |address, _| step(address))
    }

    /// The word at an address, 0 outside memory.
    fn word(&self, address: u32) -> u16 {
        let word = self.memory.get(address as usize / 2);
        word.copied().unwrap_or(0)
    }

    /// The pointer that stands at an address.
    fn pointer_at(&self, address: u32) -> u32 {
        let second = self.word(self.after(address, 1));
        pointer(self.word(address), second)
    }

    fn write(&mut self, address: u32, word: u16) {
        if let Some(place) = self.memory.get_mut(address as usize / 2) {
            *place = word;
            self.changes.push((address, word));
        }
    }

    /// The hard or the soft main block, and its first row block.
    fn blocks(&self, rng: &mut Rng) -> (u32, u32) {
        let [first, second] = rng.pick(&[self.top(), self.soft]);
        let main = pointer(first, second);
        (main, self.pointer_at(main))
    }

    /// A count of words that leaves out the end of a main block, or of a first row block or redefinition.
    fn cut(&self, rng: &mut Rng) -> usize {
        let (main, row) = self.blocks(rng);
        let redefinition = self.pointer_at(self.after(row, 3));
        let words = 3 + 5 * usize::from(self.word(self.after(row, 2)) & 15);
        let (block, words) = rng.pick(&[(main, 7), (row, words), (row, 3), (redefinition, 3)]);
        let words = block as usize / 2 + rng.below(words + 1);
        words.min(self.memory.len())
    }

    /// Changes M4 of a main block, or what says how many scan lines its first row has.
    fn change(&mut self, rng: &mut Rng) {
        let (main, row) = self.blocks(rng);
        let (m4, head) = (self.after(main, 4), self.after(row, 2));
        let redefinition = self.pointer_at(self.after(row, 3));
        let was = self.word(m4);
        let lines = rng.pick(&[0, 1, 3, 7, 9, 15, 31, rng.clone().word()]);
        match rng.below(16) {
            0 | 1 => self.write(m4, was ^ 0x2000),
            2 => self.write(m4, was ^ 0x4000),
            3 | 4 => self.write(m4, was & 0xF0FF | rng.word() & 0x0F00),
            5 => self.write(m4, was | 0x5000),
            6 => self.write(m4, was & !0x1000),
            7 => self.write(m4, rng.word()),
            8 | 9 => self.write(m4, scroll_word(rng)),
            10 | 11 => self.write(self.after(main, 6), lines),
            12 => self.write(head, self.word(head) ^ 0x8000),
            13 => self.write(head, self.word(head) & 0x8000 | rng.word() & 0xF),
            14 if self.word(head) & 0x8000 != 0 => self.write(self.after(row, 4), rng.word()),
            14 => self.write(self.after(main, 1), rng.word()),
            _ if self.word(head) & 0x8000 != 0 && redefinition != 0 => {
                self.write(self.after(redefinition, 1), lines);
            }
            _ => self.write(m4, scroll_word(rng)),
        }
    }

    /// What a console, or a fault, does between two shift calls.
    fn between(&mut self, rng: &mut Rng) {
        if rng.once_in(self.calm) {
            self.change(rng);
        }
        if rng.once_in(8) {
            self.soft = soft_top(rng, self.frame);
        }
        if rng.once_in(20) {
            self.scroll = odd::scroll(rng);
        }
    }

    /// One shift call, with settings seldom changed and memory seldom cut. The console goes on from what it gives;
    /// after a refusal it mends what was refused, or stays.
    fn shift(&mut self, calls: &mut Calls, rng: &mut Rng) -> Checked<u8> {
        let mut settings = self.settings;
        if rng.once_in(24) {
            settings = odd::settings(rng, &settings);
        }
        let mut memory = &self.memory[..];
        if rng.once_in(12) {
            memory = &memory[..self.cut(rng)];
        }
        let last = self.scroll;
        let status = calls.shift(&settings, memory, self.soft, &last, SHIFT_ANSWER)?;
        match status {
            0 => {
                self.scroll = calls.scroll.left();
                let answer: [u32; SHIFT_ANSWER] = calls.answer.left();
                let given = (&settings, self.soft, last, self.scroll, answer);
                let what = "what a shift call gives is in range";
                must(in_range(&self.scroll), what, &given)?;
                let soft = self.soft.map(u32::from);
                let top = &answer[PREFIX..];
                let ended = self.scroll[..2] == [0, 0] && top == soft;
                let same = top == &settings[5..7];
                let what = "another hard top is the soft one, without a shift";
                must(ended || same, what, &given)?;
                self.set_top([top[0] as u16, top[1] as u16]);
            }
            3 => self.scroll = [0, 0, rng.below(2) as u32],
            _ if rng.once_in(2) => {
                self.set_top(rng.pick(&self.frame.tops));
                self.soft = soft_top(rng, self.frame);
            }
            _ => {}
        }
        Ok(status)
    }

    /// The frame after a shift call, and its row beside the cut.
    fn draw(&mut self, calls: &mut Calls, rng: &mut Rng) -> Checked<()> {
        let latch = self.latch;
        let ended = in_turn::frame(calls, rng, &self.settings, &self.memory, latch)?;
        self.latch = ended.latch;
        let state = ended.state.unwrap_or([0; STATE]);
        let from = Beside {
            shift: self.scroll[0] as i32,
            soft: self.soft,
            latch,
            state: &state,
        };
        calls.beside(
            &self.settings,
            &self.memory,
            &from,
            CELLS,
            PLACES,
            ROW_ANSWER,
        )?;
        Ok(())
    }

    fn frames(&mut self, calls: &mut Calls, rng: &mut Rng) -> Checked<()> {
        let mut refused = 0;
        for _ in 0..CALLS {
            self.between(rng);
            let status = self.shift(calls, rng)?;
            refused += usize::from(status != 0);
            if refused == REFUSED {
                break;
            }
            let often = if self.scroll[0] == 0 { 80 } else { 6 };
            if status == 0 && rng.once_in(often) {
                self.draw(calls, rng)?;
            }
        }
        let mut memory = self.frame.memory().to_vec();
        for &(address, word) in &self.changes {
            memory[address as usize / 2] = word;
        }
        must(memory == self.memory, "memory stays", &())
    }
}

/// Shift calls in sequence, over a copy of a frame's memory that changes between them.
pub fn frames(calls: &mut Calls, rng: &mut Rng, of: &Frame) -> Checked<()> {
    let mut console = Console {
        frame: of,
        settings: of.settings,
        memory: of.memory().to_vec(),
        changes: Vec::new(),
        soft: soft_top(rng, of),
        scroll: [0, 0, rng.below(2) as u32],
        latch: in_turn::latch(rng),
        calm: rng.pick(&[2, 6, 30]),
    };
    if rng.once_in(2) {
        console.set_top(rng.pick(&of.tops));
    }
    let made = console.frames(calls, rng);
    made.map_err(|Difference(text)| {
        let changes = console.changes.iter();
        let changes: Vec<_> = changes
            .map(|(a, word)| format!("{a:06X} {word:04X}"))
            .collect();
        Difference(format!(
            "{text}\nafter words changed: {}",
            changes.join(", ")
        ))
    })
}

/// Rows beside the cut of any shift, state, row buffer and list.
pub fn odd_rows(
    calls: &mut Calls,
    rng: &mut Rng,
    frame: &Frame,
    real: &[[u32; STATE]],
) -> Checked<()> {
    for _ in 0..6 {
        let mut settings = frame.settings;
        if rng.once_in(6) {
            settings = odd::settings(rng, &settings);
        }
        let shift = odd::shift(rng);
        let mut state = rng.pick(real).to_vec();
        if rng.once_in(2) {
            state = odd::state(rng, &rng.clone().pick(real), frame.memory().len()).to_vec();
        }
        // Any slice, where there is no row and where it is a start's.
        if shift <= 0 && rng.once_in(2) {
            state.resize(rng.below(40), rng.word().into());
        }
        let from = Beside {
            shift,
            soft: soft_top(rng, frame),
            latch: in_turn::latch(rng),
            state: &state,
        };
        let (cells, places) = match rng.below(4) {
            0 => odd::sizes(rng),
            _ => (CELLS, PLACES),
        };
        calls.beside(&settings, frame.memory(), &from, cells, places, ROW_ANSWER)?;
    }
    Ok(())
}
