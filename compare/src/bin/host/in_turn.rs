//! Frames drawn in turn, each from the latch that the one before handed on.

use crate::bus::Report;
use crate::calls::{Calls, Checked};
use crate::frame::Frame;
use crate::{must, odd};
use compare::generate::Rng;
use compare::host::{
    LATCH_ANSWER, PLACES, PREFIX, ROW_ANSWER, ROW_LINES, ROW_WORDS, SETTINGS, SHEET_ANSWER,
    SHEET_LINES, START_ANSWER, STATE, UNFIT, WINDOW_NUMBER,
};
use compare::rules::{pointer, step, CELLS};
use std::iter::successors;

/// Frames drawn in turn of one random frame's settings and memory.
const FRAMES: usize = 4;

/// How the rows of a frame went.
enum End {
    /// To the last line.
    Drawn,
    Refused,
    /// The console left the frame before its last line.
    Left,
}

/// A latch to start from: 0 as after reset, or any.
pub fn latch(rng: &mut Rng) -> u16 {
    match rng.below(4) {
        0 => 0,
        1 => 0x8000 | rng.word(),
        _ => rng.word(),
    }
}

/// Most words from a pointer on that a row reads: those of a list with its fill words.
const WORDS: usize = 300;

/// Of a word missing in a frame from a start: whether it is reached from the pointer that begins where the refusal
/// says; from a register's, or from one that begins at 0, where it says 0.
fn told(settings: &[u32; SETTINGS], memory: &[u16], refused: &[u32]) -> bool {
    let &[_, missing, from, ..] = refused else {
        return false;
    };
    let reaches = |first: u16, second: u16| {
        let begin = pointer(first, second);
        let mut words = successors(Some(begin), |&address| Some(step(address)));
        begin != 0 && words.by_ref().take(WORDS).any(|address| address == missing)
    };
    let word = |address: u32| memory.get(address as usize / 2).copied();
    if let (Some(first), Some(second)) = (word(from), word(step(from))) {
        if reaches(first, second) {
            return true;
        }
    }
    let [top0, top1, tow0, tow1] = [5, 6, 7, 8].map(|n: usize| settings[n] as u16);
    from == 0 && (reaches(top0, top1) || reaches(tow0, tow1))
}

/// What the rows of a frame show of their windows: a cell of source 2 has the number of the window in hand, any
/// other one 0; and the number goes on by one with each block read.
fn numbered(before: &[u32; STATE], after: &[u32; STATE], cells: &[u32; CELLS]) -> bool {
    let due = before[12] == 1 && before[1] > before[14];
    let number = before[WINDOW_NUMBER] + u32::from(due);
    let cell = |&cell: &u32| match cell >> 20 & 3 {
        2 => cell >> 24 == number,
        _ => cell >> 24 == 0,
    };
    (after[12] == 0 || after[WINDOW_NUMBER] == number) && cells.iter().all(cell)
}

/// Row calls from a frame's first state on, until they have drawn all lines, or one is refused, or
/// the frame is left. A call refused 1 or 25 is no row, and does not end the frame. Gives the last state;
/// the words of each row come after those of the start.
fn rows(
    calls: &mut Calls,
    rng: &mut Rng,
    settings: &[u32; SETTINGS],
    memory: &[u16],
    lines: u32,
    words: &mut Vec<u32>,
) -> Checked<(End, [u32; STATE])> {
    let mut state: [u32; STATE] = calls.state.left();
    let mut drawn = 0;
    while drawn < lines {
        if rng.once_in(200) {
            return Ok((End::Left, state));
        }
        if rng.once_in(30) {
            let short = PLACES - rng.below(2);
            let status = calls.row(settings, memory, &state, CELLS - 1, short, ROW_ANSWER)?;
            must(status == 1, "a row of 131 cells is refused 1", &state)?;
            let status = calls.row(settings, memory, &state, CELLS, PLACES - 1, ROW_ANSWER)?;
            must(
                status == 25,
                "a list of 11,999 places is refused 25",
                &state,
            )?;
        }
        let status = calls.row(settings, memory, &state, CELLS, PLACES, ROW_ANSWER)?;
        let before = state;
        state = calls.state.left();
        let answer: [u32; ROW_ANSWER] = calls.answer.left();
        if status == 0 {
            let right = numbered(&before, &state, &calls.cells.left());
            must(right, "cells name their window", &(before, state))?;
        } else {
            let right = status != 7 || told(settings, memory, &answer);
            must(right, "a missing word is told by its pointer", &answer)?;
            return Ok((End::Refused, state));
        }
        drawn += answer[ROW_LINES];
        words.push(answer[ROW_WORDS]);
    }
    Ok((End::Drawn, state))
}

/// What a frame leaves: the latch that it hands on, and its last state, unless its start was refused.
pub struct Ended {
    pub latch: u16,
    pub state: Option<[u32; STATE]>,
    /// The words of each row drawn; those of the start are with row 0's.
    words: Vec<u32>,
}

/// Puts the words of a start to those of row 0, where that was drawn.
fn with_start(words: Vec<u32>) -> Vec<u32> {
    match words[..] {
        [start, first, ref rest @ ..] => [&[start + first], rest].concat(),
        _ => Vec::new(),
    }
}

/// A frame from a latch. It hands on the latch of its last row where it was drawn to its last line,
/// else the one that it was started with. The call says the same of its last state.
pub fn frame(
    calls: &mut Calls,
    rng: &mut Rng,
    settings: &[u32; SETTINGS],
    memory: &[u16],
    latch: u16,
) -> Checked<Ended> {
    let refused = Ended {
        latch,
        state: None,
        words: Vec::new(),
    };
    calls.sheet(settings, SHEET_ANSWER)?;
    let sheet: [u32; SHEET_ANSWER] = calls.answer.left();
    let status = calls.start(settings, memory, latch, STATE, PLACES, START_ANSWER)?;
    if status == UNFIT {
        return Ok(refused);
    }
    if status != 0 {
        let answer: [u32; START_ANSWER] = calls.answer.left();
        let right = status != 7 || told(settings, memory, &answer) && answer[2] == 0;
        must(
            right,
            "a start's missing word is told by a register",
            &answer,
        )?;
        let all = &mut calls.tally.in_turn;
        all.count(latch, latch);
        all.refused_starts += 1;
        return Ok(refused);
    }
    let began: [u32; START_ANSWER] = calls.answer.left();
    let mut words = vec![began[PREFIX]];
    let lines = sheet[SHEET_LINES];
    let (end, state) = rows(calls, rng, settings, memory, lines, &mut words)?;
    let reached = state[0] as u16;
    let handed_on = match end {
        End::Drawn => reached,
        End::Refused | End::Left => latch,
    };
    calls.latch(latch, &state, LATCH_ANSWER)?;
    let answer: [u32; LATCH_ANSWER] = calls.answer.left();
    let same = answer == [0, 0, 0, handed_on.into()];
    must(same, "a frame hands on its latch", &(latch, state))?;
    let all = &mut calls.tally.in_turn;
    all.count(latch, handed_on);
    match end {
        End::Drawn => {}
        End::Refused => all.refused_row(latch, reached),
        End::Left => all.left += 1,
    }
    Ok(Ended {
        latch: handed_on,
        state: Some(state),
        words: with_start(words),
    })
}

/// Frames in turn, from a latch: of the settings and memory of a frame, and seldom of such settings
/// changed, or of a part of that memory, so that there are refused ones among them.
pub fn frames(calls: &mut Calls, rng: &mut Rng, of: &Frame) -> Checked<()> {
    let mut handed_on = latch(rng);
    let mut report = Report::new(rng);
    for _ in 0..FRAMES {
        let mut settings = of.settings;
        if rng.once_in(6) {
            settings = odd::settings(rng, &settings);
        }
        let mut memory = of.memory();
        if rng.once_in(6) {
            memory = &memory[..rng.below(memory.len() + 1)];
        }
        let ended = frame(calls, rng, &settings, memory, handed_on)?;
        report.screen(calls, &ended.words)?;
        handed_on = ended.latch;
    }
    Ok(())
}
