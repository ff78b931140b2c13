//! Soft scroll of the background: the shift call before a frame, and the row beside the cut.

use crate::rules::{
    self, begin, buffer_of, check, drawn, list_of, main_block, pointer, Main, Origin, Reader,
    Refusal, Row, Settings, State, Stop, SCROLL,
};
use crate::trail::Trail;

/// M4: the scroll goes up.
const UP: u16 = 0x2000;

/// What a shift call goes on from. A caller may hand in any numbers.
#[derive(Clone, Copy, Debug, PartialEq, Eq)]
pub struct Scroll {
    /// Scan lines, positive up and negative down.
    pub shift: i32,
    pub phase: u32,
    /// 1 up, 0 down.
    pub direction: u32,
}

/// What a shift call gives: the frame's scroll, and its hard top.
#[derive(Clone, Copy, Debug, PartialEq, Eq)]
pub struct Shifted {
    pub scroll: Scroll,
    pub top: [u16; 2],
}

impl Scroll {
    fn in_range(&self) -> bool {
        let sign = match self.direction {
            0 => self.shift <= 0,
            1 => self.shift >= 0,
            _ => return false,
        };
        sign && self.shift.unsigned_abs() <= 31 && self.phase <= 7
    }
}

/// The shift call before a frame: `settings` has the hard top, `last` is what the frame before had.
pub fn shift(
    settings: &Settings,
    memory: &[u16],
    soft: [u16; 2],
    last: &Scroll,
) -> Result<Shifted, Refusal> {
    // Met in no row, a refusal has row 0.
    shifted(settings, memory, soft, last).map_err(|stop| stop.at_row(0))
}

fn shifted(
    settings: &Settings,
    memory: &[u16],
    soft: [u16; 2],
    last: &Scroll,
) -> Result<Shifted, Stop> {
    check(settings)?;
    if !last.in_range() {
        return Err(Stop::bare(3));
    }
    let main = main_block(memory, settings.top)?;
    let m4 = main.words[4];
    let up = m4 & UP != 0;
    let direction = u32::from(up);
    let still = Scroll {
        shift: 0,
        phase: 0,
        direction,
    };
    if m4 & SCROLL == 0 {
        return Ok(Shifted {
            scroll: still,
            top: settings.top,
        });
    }
    // Up, the hard list's first row leaves; down, the soft list's enters.
    let lines = if up {
        first_lines(memory, &main)?
    } else {
        first_lines(memory, &main_block(memory, soft)?)?
    };
    let from = if last.direction == direction {
        last
    } else {
        &still
    };
    let (gone, phase) = advance(m4, from.shift.unsigned_abs(), from.phase);
    if gone >= lines {
        return Ok(Shifted {
            scroll: still,
            top: soft,
        });
    }
    let gone = gone as i32;
    Ok(Shifted {
        scroll: Scroll {
            shift: if up { gone } else { -gone },
            phase,
            direction,
        },
        top: settings.top,
    })
}

/// The lines gone and the phase, one frame later at M4's rate.
fn advance(m4: u16, gone: u32, phase: u32) -> (u32, u32) {
    let rate = u32::from(m4 >> 8 & 15);
    if rate < 8 {
        // 1 to 8 lines a frame.
        return (gone + rate + 1, 0);
    }
    // A line in 1 to 8 frames.
    let frames = rate - 7;
    if phase + 1 >= frames {
        (gone + 1, 0)
    } else {
        (gone, phase + 1)
    }
}

/// The scan lines of the first row of a main block's list. Its block is read whole, then its
/// redefinition; neither is judged.
fn first_lines(memory: &[u16], main: &Main) -> Result<u32, Stop> {
    let mut lines = main.words[6];
    let block = main.first.address;
    if block != 0 {
        let mut reader = Reader::open(memory, block, main.first.origin());
        let [_, _, head] = reader.block()?;
        let mut redefinition = 0;
        if head & 0x8000 != 0 {
            let [first, second] = reader.block()?;
            redefinition = pointer(first, second);
        }
        for _ in 0..head & 15 {
            let _: [u16; 5] = reader.block()?;
        }
        if redefinition != 0 {
            let origin = Origin::inside(block, 3);
            [_, lines, _] = Reader::open(memory, redefinition, origin).block()?;
        }
    }
    Ok(u32::from(lines & 31) + 1)
}

/// The row beside the cut, up: the one after the frame's last, given one line. `state` is what the
/// frame ended with.
pub fn after_last(
    settings: &Settings,
    memory: &[u16],
    state: &State,
    buffer: &mut [u32],
    list: &mut [u32],
) -> Result<Row, Refusal> {
    let mut state = *state;
    state.fields.lines_left = 1;
    rules::row(settings, memory, &mut state, buffer, list)
}

/// The row beside the cut, down: row 0 of a start at the soft top, from the latch that the frame was
/// started with. Its words are the start's and then the row's.
pub fn before_first(
    settings: &Settings,
    memory: &[u16],
    soft: [u16; 2],
    latch: u16,
    buffer: &mut [u32],
    list: &mut [u32],
) -> Result<Row, Refusal> {
    let settings = Settings {
        top: soft,
        ..*settings
    };
    // A refusal has row 0: that of the start, and that of its row.
    first_row(&settings, memory, latch, buffer, list).map_err(|stop| stop.at_row(0))
}

fn first_row(
    settings: &Settings,
    memory: &[u16],
    latch: u16,
    buffer: &mut [u32],
    list: &mut [u32],
) -> Result<Row, Stop> {
    // It is one call, and a row's first checks are those of its buffer and its list.
    let buffer = buffer_of(buffer)?;
    let list = list_of(list)?;
    let mut trail = Trail::new();
    let mut state = begin(settings, memory, latch, &mut trail)?.state;
    let row = drawn(settings, memory, &mut state, buffer, &mut trail)?;
    trail.write(settings.flag, memory, list);
    Ok(row)
}
