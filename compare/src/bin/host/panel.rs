//! Pictures of shifted frames, made through the calls as a console makes them, and held line by line against the picture that
//! is laid out scan line by scan line.

use crate::calls::{Calls, Checked};
use crate::frame::Frame;
use crate::scroll::soft_top;
use crate::{in_turn, must, odd};
use compare::generate::Rng;
use compare::host::{
    settings_of, LINE_ANSWER, PLACES, ROW_ANSWER, SETTINGS, START_ANSWER, STATE, TOP, UNFIT,
};
use compare::picture::{Kind, Layer, Picture, Scan, Scene};
use compare::rules::CELLS;

/// Places of a state: lines left, scan lines, and a window's mark, rows and columns.
const LEFT: usize = 2;
const SCAN_LINES: usize = 7;
const WINDOW: usize = 12;

/// Most rows of a picture, and screen lines that are looked at.
const ROWS: usize = 70;
const LINES: usize = 200;

/// Counts of pictures.
#[derive(Default)]
pub struct Pictures {
    pictures: u64,
    lines: u64,
    /// Lines with a row from above, from below, and with none.
    above: u64,
    below: u64,
    dark: u64,
    windows: u64,
    /// Frames refused at a row.
    refused: u64,
}

impl Pictures {
    pub fn print(&self) {
        println!(
            "{} pictures, {} lines: {} from above, {} from below, {} without a row that glides, {} under a window; {} refused at a row",
            self.pictures, self.lines, self.above, self.below, self.dark, self.windows, self.refused
        );
    }
}

/// A row that a console keeps.
struct Kept {
    cells: [u32; CELLS],
    height: u32,
    columns: Option<(u32, u32)>,
    behind: Vec<u32>,
}

/// A console that draws a picture.
struct Console<'f> {
    settings: [u32; SETTINGS],
    memory: &'f [u16],
}

impl Console<'_> {
    /// The next row, and what is behind it; none where it is refused.
    fn row(&self, calls: &mut Calls, state: &mut [u32; STATE]) -> Checked<Option<Kept>> {
        let mut bare = *state;
        let call = |calls: &mut Calls, state: &[u32; STATE]| {
            calls.row(
                &self.settings,
                self.memory,
                state,
                CELLS,
                PLACES,
                ROW_ANSWER,
            )
        };
        if call(calls, state)? != 0 {
            return Ok(None);
        }
        let number = calls.answer.left::<ROW_ANSWER>()[0];
        *state = calls.state.left();
        let mut kept = Kept {
            cells: calls.cells.left(),
            height: state[SCAN_LINES],
            columns: None,
            behind: Vec::new(),
        };
        let &[window, top, bottom, left, right] = &state[WINDOW..WINDOW + 5] else {
            return Ok(Some(kept));
        };
        if window == 1 && (top..=bottom).contains(&number) {
            kept.columns = Some((left, right));
            bare[WINDOW] = 0;
            if call(calls, &bare)? == 0 {
                kept.behind = calls.cells.left::<CELLS>().to_vec();
            }
        }
        Ok(Some(kept))
    }

    /// Rows while lines are left, and whether all were accepted.
    fn rows(&self, calls: &mut Calls, state: &mut [u32; STATE]) -> Checked<(Vec<Kept>, bool)> {
        let mut rows = Vec::new();
        while state[LEFT] > 0 && rows.len() < ROWS {
            match self.row(calls, state)? {
                Some(kept) => rows.push(kept),
                None => return Ok((rows, false)),
            }
        }
        Ok((rows, state[LEFT] == 0))
    }

    fn start(&self, calls: &mut Calls, latch: u16) -> Checked<Option<[u32; STATE]>> {
        let status = calls.start(
            &self.settings,
            self.memory,
            latch,
            STATE,
            PLACES,
            START_ANSWER,
        )?;
        Ok((status == 0).then(|| calls.state.left()))
    }
}

fn layer(row: Option<&Kept>) -> Layer<'_> {
    Layer {
        cells: row.map_or(&[], |row| &row.cells),
        columns: row.and_then(|row| row.columns),
    }
}

/// The row that an answer names: its kind, index and scan line.
fn named(kind: u32, index: u32, line: u32, rows: usize) -> Option<Scan> {
    let index = index as usize;
    let (kind, index) = match kind {
        0 => return None,
        2 => (Kind::Above, index),
        _ if index < rows => (Kind::Frame, index),
        _ => (Kind::Below, index - rows),
    };
    Some(Scan { kind, index, line })
}

/// The picture of a frame with a shift, from any latch: each line by the two calls, and as it is laid out.
pub fn pictures(calls: &mut Calls, rng: &mut Rng, frame: &Frame) -> Checked<()> {
    let mut console = Console {
        settings: frame.settings,
        memory: frame.memory(),
    };
    if rng.once_in(2) {
        let top = rng.pick(&frame.tops).map(u32::from);
        console.settings[TOP..TOP + 2].copy_from_slice(&top);
    }
    let (soft, latch) = (soft_top(rng, frame), in_turn::latch(rng));
    let shift = match rng.below(8) {
        0 => 0,
        1..=3 => rng.range(1, 31) as i32,
        4 | 5 => -(rng.range(1, 31) as i32),
        6 => rng.range(1, 4) as i32,
        _ => -(rng.range(1, 4) as i32),
    };
    let Some(settings) = settings_of(&console.settings) else {
        return Ok(());
    };
    let picture = Picture::new(&Scene {
        settings: &settings,
        memory: console.memory,
        soft,
        latch,
        shift,
    });
    if picture.rows.len() >= ROWS {
        return Ok(());
    }
    let Some(mut state) = console.start(calls, latch)? else {
        return must(
            picture.rows.is_empty(),
            "a refused start has no picture",
            &(),
        );
    };
    let (mut rows, accepted) = console.rows(calls, &mut state)?;
    let count = rows.len();
    let mut above = None;
    if shift > 0 && accepted {
        state[LEFT] = shift as u32;
        rows.extend(console.rows(calls, &mut state)?.0);
    }
    if shift < 0 {
        console.settings[TOP..TOP + 2].copy_from_slice(&soft.map(u32::from));
        if let Some(mut state) = console.start(calls, latch)? {
            above = console.row(calls, &mut state)?;
        }
    }
    let heights: Vec<u32> = rows.iter().map(|row| row.height).collect();
    let height = above.as_ref().map_or(0, |row| row.height);
    calls.tally.pictures.pictures += 1;
    calls.tally.pictures.refused += u64::from(!accepted);
    let mut until = 0;
    for (y, (still, gliding)) in picture.screen().into_iter().enumerate().take(LINES) {
        let status = calls.line(shift, height, &heights, count, y as u32, LINE_ANSWER)?;
        let answer: [u32; LINE_ANSWER] = calls.answer.left();
        let [kind, index, line, stands, still_index, still_line, lines] = answer;
        let given = (y, shift, &heights, count, height, answer);
        must(status == 0, "a line of a picture is told", &given)?;
        let same = still == named(stands, still_index, still_line, count)
            && gliding == named(kind, index, line, count);
        must(same, "a line has the rows that are laid out", &given)?;
        // A stretch ends where it was said to end.
        must(
            y >= until || y + lines as usize == until,
            "a stretch is whole",
            &given,
        )?;
        until = y + lines as usize;
        let own = still.map(|scan| &rows[scan.index]);
        let glides = gliding.map(|scan| match scan.kind {
            Kind::Frame => &rows[scan.index],
            Kind::Below => &rows[count + scan.index],
            Kind::Above => above.as_ref().unwrap_or(&rows[0]),
        });
        let behind = glides.map_or(&[][..], |row| &row.behind);
        calls.shown(&layer(own), &layer(glides), behind, CELLS)?;
        let cells: [u32; CELLS] = calls.cells.left();
        let same = cells == picture.shown(still, gliding);
        must(same, "a line has the cells that are laid out", &given)?;
        let tally = &mut calls.tally.pictures;
        tally.lines += 1;
        tally.windows += u64::from(own.is_some_and(|row| row.columns.is_some()));
        match gliding.map(|scan| scan.kind) {
            Some(Kind::Above) => tally.above += 1,
            Some(Kind::Below) => tally.below += 1,
            Some(Kind::Frame) => {}
            None => tally.dark += 1,
        }
    }
    Ok(())
}

/// Lines of any heights, shift and count.
pub fn odd_lines(calls: &mut Calls, rng: &mut Rng) -> Checked<()> {
    for _ in 0..6 {
        let mut heights: Vec<u32> = (0..rng.below(12))
            .map(|_| rng.range(1, 32) as u32)
            .collect();
        let mut rows = rng.below(heights.len() + 1);
        let mut above = rng.below(33) as u32;
        let mut shift = rng.below(63) as i32 - 31;
        let mut y = rng.below(100) as u32;
        let mut answers = LINE_ANSWER;
        match rng.below(24) {
            0 => rows = heights.len() + 1 + rng.below(3),
            1 => heights.push(rng.pick(&[0, 33, u32::MAX])),
            2 => above = rng.pick(&[33, u32::MAX]),
            3 => shift = rng.pick(&[-32, 32, i32::MIN, i32::MAX]),
            4 => answers = odd::count(rng, LINE_ANSWER),
            5 => y = rng.pick(&[u32::MAX, u32::MAX - 31, 1 << 31]),
            6 => rows = usize::MAX,
            _ => {}
        }
        calls.line(shift, above, &heights, rows, y, answers)?;
    }
    Ok(())
}

/// Cells of any rows, columns and counts.
pub fn odd_cells(calls: &mut Calls, rng: &mut Rng) -> Checked<()> {
    for _ in 0..4 {
        let cells = |rng: &mut Rng| -> Vec<u32> {
            let count = match rng.below(8) {
                0 | 1 => 0,
                2 => rng.pick(&[1, 131, 133]),
                _ => CELLS,
            };
            (0..count).map(|_| rng.draw() as u32).collect()
        };
        let columns = |rng: &mut Rng| {
            let first = rng.below(140) as u32;
            let last = rng.pick(&[first + rng.clone().below(30) as u32, 131, u32::MAX]);
            (first <= last && !rng.once_in(3)).then_some((first, last))
        };
        let (own, glides, behind) = (cells(rng), cells(rng), cells(rng));
        let still = Layer {
            cells: &own,
            columns: columns(rng),
        };
        let gliding = Layer {
            cells: &glides,
            columns: columns(rng),
        };
        let count = rng.pick(&[CELLS, CELLS, CELLS, 0, 131, 133]);
        let status = calls.shown(&still, &gliding, &behind, count)?;
        must(status != UNFIT, "cells are never unfit", &())?;
    }
    Ok(())
}
