//! The text of a soft scroll: a script with a draw for each frame, and what every line of its frames shows.

use crate::picture::{Cells, Kind, Picture, Scan, Scene, NOTHING};
use crate::script::{line, put_cells, put_refusal, Script};
use crate::scroll::{shift, Scroll};

/// Frames that go on after the last draw, at most.
const MORE: usize = 256;

/// What goes on from frame to frame.
struct Console {
    script: Script,
    scroll: Scroll,
    latch: u16,
    frames: usize,
    out: Vec<u8>,
}

/// The whole text of an input.
pub fn output(input: &[u8]) -> Vec<u8> {
    let mut console = Console {
        script: Script::new(),
        scroll: Scroll {
            shift: 0,
            phase: 0,
            direction: 0,
        },
        latch: 0,
        frames: 0,
        out: Vec::new(),
    };
    let mut at = 0;
    loop {
        match console.script.read(input, at) {
            Ok(after) => at = after,
            Err(offset) => {
                line(&mut console.out, format_args!("refused script at {offset}"));
                return console.out;
            }
        }
        if !console.frame() {
            return console.out;
        }
        if at == input.len() {
            return console.to_end();
        }
    }
}

impl Console {
    /// Frames until one has no shift and no phase.
    fn to_end(mut self) -> Vec<u8> {
        for _ in 0..MORE {
            if self.scroll.shift == 0 && self.scroll.phase == 0 {
                break;
            }
            if !self.frame() {
                return self.out;
            }
        }
        line(&mut self.out, format_args!("end frames {}", self.frames));
        self.out
    }

    /// One frame; false where it is refused.
    fn frame(&mut self) -> bool {
        let soft = [self.script.registers[4], self.script.registers[5]];
        let settings = &mut self.script.settings;
        let moved = match shift(settings, &self.script.memory, soft, &self.scroll) {
            Ok(moved) => moved,
            Err(refusal) => {
                put_refusal(&mut self.out, &refusal);
                return false;
            }
        };
        self.scroll = moved.scroll;
        settings.top = moved.top;
        self.script.registers[0x09..0x0B].copy_from_slice(&moved.top);
        let picture = Picture::new(&Scene {
            settings,
            memory: &self.script.memory,
            soft,
            latch: self.latch,
            shift: moved.scroll.shift,
        });
        let [first, second] = moved.top;
        let direction = ["down", "up"][moved.scroll.direction as usize];
        line(
            &mut self.out,
            format_args!(
                "frame {} shift {} phase {} {direction} top {first:04X} {second:04X} latch {:04X}",
                self.frames, moved.scroll.shift, moved.scroll.phase, self.latch
            ),
        );
        put_picture(&mut self.out, &picture, self.script.settings.columns());
        self.frames += 1;
        self.latch = picture.latch;
        if let Some(refusal) = &picture.refusal {
            put_refusal(&mut self.out, refusal);
            return false;
        }
        true
    }
}

/// The row of a scan line, if there is one.
fn row_of(scan: &Option<Scan>) -> Option<(Kind, usize)> {
    scan.as_ref().map(|scan| (scan.kind, scan.index))
}

/// A picture, stretch by stretch.
fn put_picture(out: &mut Vec<u8>, picture: &Picture, columns: usize) {
    let screen = picture.screen();
    let mut y = 0;
    while let Some((Some(still), gliding)) = screen.get(y) {
        let same = |(s, g): &&(Option<Scan>, Option<Scan>)| {
            row_of(s) == Some((still.kind, still.index)) && row_of(g) == row_of(gliding)
        };
        let lines = screen[y..].iter().take_while(same).count();
        let last = y + lines - 1;
        let mut text = format!("lines {y} to {last} {} still", told(picture, gliding));
        text += &numbers(picture, still);
        if let Some((first, last)) = picture.row(still).columns {
            text += &format!(" window {first} to {last}");
        }
        line(out, format_args!("{text}"));
        let cells = picture.shown(Some(*still), *gliding);
        line(out, format_args!("|{}|", characters(&cells, columns)));
        put_cells(out, &cells[..columns]);
        y += lines;
    }
}

/// What glides.
fn told(picture: &Picture, gliding: &Option<Scan>) -> String {
    let Some(scan) = gliding else {
        return String::from("none");
    };
    let kind = match scan.kind {
        Kind::Frame => "row",
        Kind::Below => "below",
        Kind::Above => "above",
    };
    kind.to_owned() + &numbers(picture, scan)
}

fn numbers(picture: &Picture, scan: &Scan) -> String {
    let row = picture.row(scan);
    format!(
        " {} from {} of {} attr {:03X}",
        scan.index, scan.line, row.height, row.attributes
    )
}

fn characters(cells: &Cells, columns: usize) -> String {
    let character = |cell: &u32| match (*cell & NOTHING != 0, *cell as u8) {
        (true, _) => ' ',
        (_, code @ 0x20..=0x7E) => code as char,
        (_, code @ 0xA0..=0xFE) => (code & 0x7F) as char,
        _ => '?',
    };
    cells[..columns].iter().map(character).collect()
}
