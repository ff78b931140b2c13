//! Mending: steps until nothing is left to mend, and the frame that is then drawn to its end.

use crate::calls::{Calls, Checked};
use crate::desks::{Shared, MOST};
use crate::frame::Frame;
use crate::{in_turn, must, odd};
use compare::generate::{self, Rng, Shape};
use compare::host::{
    settings_numbers, MEND_ANSWER, MEND_CHANGED, PLACES, PREFIX, ROW_ANSWER, SETTINGS,
    START_ANSWER, STATE, TOW, UNFIT,
};
use compare::rules::CELLS;

/// Most steps for one frame.
const STEPS: usize = 60;

/// Counts of mended frames.
#[derive(Default)]
pub struct Mended {
    frames: u64,
    good: u64,
    refused: u64,
    /// Pointers changed, by the number of the refusal.
    changes: [u64; 14],
    registers: u64,
    /// Most changes of one frame.
    most: usize,
}

impl Mended {
    pub fn print(&self) {
        let by_number: Vec<String> = (7..14)
            .map(|n: usize| format!("{} for {n}", self.changes[n]))
            .collect();
        println!(
            "{} frames mended: {} good, {} refused as they are; pointers changed: {}, {} of them registers; most of a frame {}",
            self.frames,
            self.good,
            self.refused,
            by_number.join(", "),
            self.registers,
            self.most
        );
    }
}

/// Words that are not 0, registers counted.
fn nonzero(settings: &[u32], memory: &[u16]) -> usize {
    let registers = settings[TOW - 2..TOW + 2].iter().filter(|&&n| n != 0);
    registers.count() + memory.iter().filter(|&&word| word != 0).count()
}

/// What the refusal of an answer is, by the frame's own calls: number, row and two addresses; none where it is drawn to its end.
fn refusal(
    calls: &mut Calls,
    settings: &[u32],
    memory: &[u16],
    latch: u16,
) -> Checked<Option<(u8, Vec<u32>)>> {
    let mut status = calls.start(settings, memory, latch, STATE, PLACES, START_ANSWER)?;
    while status == 0 {
        let state: [u32; STATE] = calls.state.left();
        if state[2] == 0 {
            return Ok(None);
        }
        status = calls.row(settings, memory, &state, CELLS, PLACES, ROW_ANSWER)?;
    }
    Ok(Some((status, calls.answer.first(PREFIX).to_vec())))
}

/// Settings and memory to mend: those of a frame, or of one with any number of faults.
fn damaged(rng: &mut Rng, frame: &Frame) -> ([u32; SETTINGS], Vec<u16>) {
    if rng.once_in(3) && frame.memory().len() <= MOST {
        let mut settings = frame.settings;
        if rng.once_in(12) {
            settings = odd::settings(rng, &settings);
        }
        return (settings, frame.memory().to_vec());
    }
    let shape = match rng.below(12) {
        0 => Shape {
            rows: 4,
            lines: 12,
            ..Shape::PAGES
        },
        _ => Shape {
            rows: 6,
            lines: 16,
            ..Shape::words(rng.range(200, 6000))
        },
    };
    let case = generate::damaged(rng, &shape);
    (settings_numbers(&case.settings), case.memory)
}

/// Mends a frame step by step.
pub fn frames(calls: &mut Calls, rng: &mut Rng, frame: &Frame) -> Checked<()> {
    let (mut settings, memory) = damaged(rng, frame);
    let mut memory = Shared::new(&memory);
    let latch = in_turn::latch(rng);
    calls.tally.mended.frames += 1;
    for steps in 0..STEPS {
        let told = refusal(calls, &settings, &memory.ours, latch)?;
        let before = nonzero(&settings, &memory.ours);
        let status = calls.mend(&settings, &mut memory, latch, MEND_ANSWER)?;
        let after: [u32; SETTINGS] = calls.settings.left();
        let answer: [u32; MEND_ANSWER] = calls.answer.left();
        let given = (settings, after, status, answer);
        let left = nonzero(&after, &memory.ours);
        let all = &mut calls.tally.mended;
        if status != 0 {
            let same = told.is_some_and(|(number, three)| {
                number == status
                    && three == answer[..PREFIX]
                    && matches!(number, 2 | 6 | 7 | 14 | 17)
            });
            must(same && steps == 0, "a frame is refused as it is", &given)?;
            let stays = after == settings && left == before;
            must(stays, "a refused mending changes nothing", &given)?;
            all.refused += 1;
            break;
        }
        if answer[MEND_CHANGED] == 0 {
            let stays = after == settings && left == before && answer == [0; MEND_ANSWER];
            must(stays && told.is_none(), "a good list is unchanged", &given)?;
            all.good += u64::from(steps == 0);
            break;
        }
        let number = answer[MEND_ANSWER - 1];
        let needed = told.is_some_and(|(refused, _)| {
            u32::from(refused) == number
                && answer[..PREFIX] == [0; PREFIX]
                && (7..=13).contains(&number)
        });
        must(needed, "a change was needed", &given)?;
        must(left < before, "a change leaves fewer nonzero words", &given)?;
        all.changes[number as usize] += 1;
        all.registers += u64::from(after != settings);
        all.most = all.most.max(steps + 1);
        settings = after;
    }
    Ok(())
}

/// One step with a slice that does not fit.
pub fn unfit(calls: &mut Calls, rng: &mut Rng, frame: &Frame) -> Checked<()> {
    if frame.memory().len() > MOST {
        return Ok(());
    }
    let mut memory = Shared::new(frame.memory());
    let latch = rng.word();
    let short = odd::recounted(rng, &frame.settings);
    let answers = odd::count(rng, MEND_ANSWER);
    let statuses = [
        calls.mend(&short, &mut memory, latch, MEND_ANSWER)?,
        calls.mend(&frame.settings, &mut memory, latch, answers)?,
    ];
    let stays = statuses == [UNFIT; 2] && memory.ours == frame.memory();
    must(stays, "a slice that does not fit gives 255", &short)
}
