//! The converter: segmented frames turned by both sides, and the linear frame after held to the segmented one before.

use crate::calls::{Calls, Checked};
use crate::desks::{Shared, MOST};
use crate::frame::Frame;
use crate::lent::Marks;
use crate::{in_turn, must, odd};
use compare::convert::{screen, Screen};
use compare::generate::{self, Rng, Shape};
use compare::host::{
    row_numbers, settings_numbers, settings_of, state_numbers, CONVERT_ANSWER, PLACES, PREFIX,
    ROW_ANSWER, SETTINGS, START_ANSWER, STATE, TOP, TOW, UNFIT,
};
use compare::rules::CELLS;

/// Counts of conversions.
#[derive(Default)]
pub struct Converted {
    frames: u64,
    turned: u64,
    rows: u64,
    /// Pointers that changed, and most of one frame.
    pointers: u64,
    most: u32,
}

impl Converted {
    pub fn print(&self) {
        println!(
            "{} frames to convert: {} turned and drawn as before, {} rows; {} pointers changed, most of a frame {}",
            self.frames, self.turned, self.rows, self.pointers, self.most
        );
    }
}

/// Settings and memory to convert: of a segmented frame, or of any as if it were one.
fn segmented(rng: &mut Rng, frame: &Frame) -> ([u32; SETTINGS], Vec<u16>) {
    if rng.once_in(12) && frame.memory().len() <= MOST {
        let mut settings = frame.settings;
        settings[0] = 0;
        return (settings, frame.memory().to_vec());
    }
    let shape = Shape {
        rows: 6,
        lines: 16,
        ..match rng.below(12) {
            0 | 1 => Shape::PAGES,
            2 => Shape::words(rng.range(20, 400)),
            _ => Shape::words(rng.range(400, 6000)),
        }
    };
    let case = generate::segmented(rng, &shape);
    let mut settings = settings_numbers(&case.settings);
    if rng.once_in(16) {
        settings = odd::settings(rng, &settings);
    }
    (settings, case.memory)
}

/// Converts a frame. Where it is accepted, it is drawn, and converted again.
pub fn frames(calls: &mut Calls, rng: &mut Rng, frame: &Frame) -> Checked<()> {
    let (settings, old) = segmented(rng, frame);
    let mut memory = Shared::new(&old);
    let latch = in_turn::latch(rng);
    let count = match rng.below(16) {
        0 => odd::count(rng, old.len() + 1),
        _ => old.len(),
    };
    let mut marks = Marks::new(count, rng.draw() as u32);
    calls.tally.converted.frames += 1;
    let status = calls.convert(&settings, &mut memory, &mut marks, latch, CONVERT_ANSWER)?;
    let after: [u32; SETTINGS] = calls.settings.left();
    let answer: [u32; CONVERT_ANSWER] = calls.answer.left();
    let given = (settings, after, status, answer);
    must(
        (status == 22) == (count != old.len()),
        "another number of marks is refused first",
        &given,
    )?;
    if status != 0 {
        let stays = after == settings && memory.ours == old && answer[PREFIX] == 0;
        return must(stays, "a refused conversion changes nothing", &given);
    }
    let changed = old.iter().zip(&memory.ours).filter(|(a, b)| a != b).count();
    let registers = [TOP, TOW].map(|place| u32::from(after[place] != settings[place]));
    let counted = changed as u32 + registers.iter().sum::<u32>();
    let first = answer == [0, 0, 0, counted];
    must(first, "pointers whose words change are counted", &given)?;
    let Some(before) = settings_of(&settings).map(|settings| screen(&settings, &old, latch)) else {
        return must(false, "settings of a conversion", &given);
    };
    drawn_as(calls, &before, &after, &memory.ours, latch)?;
    let all = &mut calls.tally.converted;
    all.turned += 1;
    all.rows += before.rows.len() as u64;
    all.pointers += u64::from(counted);
    all.most = all.most.max(counted);
    let again = calls.convert(&after, &mut memory, &mut marks, latch, CONVERT_ANSWER)?;
    must(again == 26, "what is linear is not turned again", &given)
}

/// The frame of a conversion: rows, answers, words read and the state at its end, as they were before.
fn drawn_as(
    calls: &mut Calls,
    before: &Screen,
    settings: &[u32],
    memory: &[u16],
    latch: u16,
) -> Checked<()> {
    let begun = calls.start(settings, memory, latch, STATE, PLACES, START_ANSWER)?;
    must(begun == 0, "a turned frame is started", &settings)?;
    let mut read = calls.list.read().to_vec();
    let mut state: [u32; STATE] = calls.state.left();
    for (row, cells) in &before.rows {
        let status = calls.row(settings, memory, &state, CELLS, PLACES, ROW_ANSWER)?;
        let drawn: [u32; CELLS] = calls.cells.left();
        let answer: [u32; ROW_ANSWER] = calls.answer.left();
        let same = status == 0 && drawn[..] == cells[..] && answer == row_numbers(row);
        must(same, "a turned row is drawn as before", &(settings, state))?;
        read.extend(calls.list.read());
        state = calls.state.left();
    }
    let ended = before.ended.as_ref().ok().map(state_numbers);
    let same = ended == Some(state) && state[2] == 0 && read == before.read;
    must(same, "a turned frame ends as before", &(settings, state))
}

/// Conversions with a slice that does not fit, whatever the number of marks.
pub fn unfit(calls: &mut Calls, rng: &mut Rng, frame: &Frame) -> Checked<()> {
    if frame.memory().len() > MOST {
        return Ok(());
    }
    let mut memory = Shared::new(frame.memory());
    let marks = rng.pick(&[memory.ours.len(), memory.ours.len() / 2]);
    let mut marks = Marks::new(marks, 1);
    let latch = rng.word();
    let short = odd::recounted(rng, &frame.settings);
    let answers = odd::count(rng, CONVERT_ANSWER);
    let statuses = [
        calls.convert(&short, &mut memory, &mut marks, latch, CONVERT_ANSWER)?,
        calls.convert(&frame.settings, &mut memory, &mut marks, latch, answers)?,
    ];
    let stays = statuses == [UNFIT; 2] && memory.ours == frame.memory();
    must(stays, "a slice that does not fit gives 255", &short)
}
