//! A set of small named scripts for the mending program, and one with several hundred damages.

use crate::vectors::{Segment, Sketch};

/// A named script, the lines of its changes, and how the last line of its output begins.
pub struct Vector {
    pub name: &'static str,
    pub script: Vec<u8>,
    pub changes: &'static [&'static str],
    pub last_line: &'static str,
}

struct Set(Vec<Vector>);

impl Set {
    fn add(
        &mut self,
        name: &'static str,
        changes: &'static [&'static str],
        last_line: &'static str,
        draw: impl FnOnce(&mut Sketch),
    ) {
        let mut sketch = Sketch::new();
        draw(&mut sketch);
        self.0.push(Vector {
            name,
            script: sketch.script(),
            changes,
            last_line,
        });
    }
}

/// All named scripts: each kind of pointer for each number from 7 to 13, lists that stay as they are, several damages.
pub fn all() -> Vec<Vector> {
    let mut set = Set(Vec::new());
    missing_words(&mut set);
    windows(&mut set);
    lengths(&mut set);
    widths(&mut set);
    window_widths(&mut set);
    edges(&mut set);
    fill_words(&mut set);
    as_they_are(&mut set);
    several(&mut set);
    set.0
}

/// 7: the pointer in use.
fn missing_words(set: &mut Set) {
    let end = "end rows 2 words";
    set.add("7-first-row-block", &["000010 0000 9000 7"], end, |s| {
        s.write(0x10, &[0, 0x9000]).done();
    });
    set.add("7-row-link", &["000100 0000 9000 7"], end, |s| {
        s.row(0x100, 0x9000, &[(0x200, 0, 2, 2)])
            .text(0x200, b"AB")
            .done();
    });
    set.add("7-redefinition", &["000106 0000 7FFC 7"], end, |s| {
        s.block(0x100, 0x100, Some(0x7FFC), &[(0x200, 0, 2, 2)])
            .text(0x200, b"AB")
            .done();
    });
    set.add("7-code-pointer", &["000110 0000 9000 7"], end, |s| {
        s.row(0x100, 0x100, &[(0x200, 0, 2, 2), (0x9000, 0, 2, 2)])
            .text(0x200, b"AB")
            .done();
    });
    set.add("7-attribute-pointer", &["00010A 0000 7FFE 7"], end, |s| {
        s.row(0x100, 0x100, &[(0x200, 0x7FFE, 2, 2)])
            .text(0x200, &[0x80, 0x81])
            .write(0x7FFE, &[0x8002])
            .done();
    });
    set.add(
        "7-attribute-pointer-of-a-fill-word",
        &["00010A 0000 9000 7"],
        end,
        |s| {
            s.fill_flag = true;
            s.row(0x100, 0x100, &[(0x200, 0x9000, 2, 3)])
                .text(0x200, b"AB")
                .write(0x10E, &[0x0303])
                .text(0x200, &[0x41, 0x42, 0x43])
                .done();
        },
    );
    set.add("7-top-of-window", &["000000 0000 9000 7"], end, |s| {
        s.tow = 0x9000;
    });
    set.add("7-window-link", &["000180 0000 9000 7"], end, |s| {
        s.tow = 0x180;
        s.window(0x180, 0x9000, 0, (0, 0), (0, 1)).done();
    });
    set.add("7-window-row-pointer", &["000184 0000 7FFE 7"], end, |s| {
        s.tow = 0x180;
        s.window(0x180, 0, 0x7FFE, (0, 1), (0, 1)).done();
    });
    set.add("7-window-row-link", &["0001A0 0000 9000 7"], end, |s| {
        s.tow = 0x180;
        s.window(0x180, 0, 0x1A0, (0, 1), (0, 1))
            .row(0x1A0, 0x9000, &[(0x210, 0, 2, 2)])
            .text(0x210, b"WX")
            .done();
    });
    set.add(
        "7-window-code-and-attribute-pointer",
        &["0001A6 0000 9000 7", "0001B4 0000 9000 7"],
        end,
        |s| {
            s.tow = 0x180;
            s.window(0x180, 0, 0x1A0, (0, 0), (0, 3))
                .row(0x1A0, 0, &[(0x9000, 0, 2, 2), (0x210, 0x9000, 2, 2)])
                .text(0x210, &[0x80, 0x41])
                .done();
        },
    );
}

/// 8: the pointer that led to the window block.
fn windows(set: &mut Set) {
    let end = "end rows 3 words";
    set.add(
        "8-first-window-rows",
        &["000000 0000 0180 8"],
        "end rows 2 words",
        |s| {
            s.tow = 0x180;
            s.window(0x180, 0, 0, (1, 0), (0, 1)).done();
        },
    );
    set.add("8-next-window-order", &["000190 0000 01A0 8"], end, |s| {
        s.tow = 0x180;
        s.lines = 3;
        s.window(0x180, 0x190, 0x1C0, (0, 0), (0, 1))
            .window(0x190, 0x1A0, 0x1C0, (1, 1), (0, 1))
            .window(0x1A0, 0, 0x1C0, (1, 2), (0, 1))
            .row(0x1C0, 0x1C0, &[(0x210, 0, 2, 2)])
            .text(0x210, b"WX")
            .done();
    });
    set.add("8-next-window-columns", &["000180 0000 0190 8"], end, |s| {
        s.tow = 0x180;
        s.lines = 3;
        s.window(0x180, 0x190, 0, (0, 0), (0, 1))
            .window(0x190, 0, 0, (1, 1), (0, 132))
            .done();
    });
    set.add("8-window-chain-loops", &["000180 0000 0180 8"], end, |s| {
        s.tow = 0x180;
        s.lines = 3;
        s.window(0x180, 0x180, 0, (0, 0), (0, 1)).done();
    });
}

/// 9: the pointer that led to the row block or window row block.
fn lengths(set: &mut Set) {
    let end = "end rows 2 words";
    let bad: &[Segment] = &[(0x200, 0, 1, 2)];
    set.add("9-first-row-block", &["000010 0000 0100 9"], end, |s| {
        s.row(0x100, 0x100, bad).text(0x200, b"AB").done();
    });
    set.add("9-row-link", &["000100 0000 0120 9"], end, |s| {
        s.row(0x100, 0x120, &[(0x200, 0, 2, 2)])
            .row(0x120, 0x100, bad)
            .text(0x200, b"AB")
            .done();
    });
    set.add("9-window-row-pointer", &["000184 0000 01A0 9"], end, |s| {
        s.tow = 0x180;
        s.window(0x180, 0, 0x1A0, (0, 1), (0, 3))
            .row(0x100, 0x100, &[(0x200, 0, 4, 4)])
            .row(0x1A0, 0x1A0, bad)
            .text(0x200, b"ABCD")
            .done();
    });
    set.add("9-window-row-link", &["0001A0 0000 01C0 9"], end, |s| {
        s.tow = 0x180;
        s.window(0x180, 0, 0x1A0, (0, 1), (0, 3))
            .row(0x1A0, 0x1C0, &[(0x200, 0, 2, 2)])
            .row(0x1C0, 0x1A0, bad)
            .text(0x200, b"AB")
            .done();
    });
}

/// 10: the pointer that led to the row block.
fn widths(set: &mut Set) {
    let bad: &[Segment] = &[(0, 0, 0, 100), (0, 0, 0, 33)];
    set.add(
        "10-first-row-block",
        &["000010 0000 0100 10"],
        "end rows 2 words",
        |s| s.row(0x100, 0x100, bad).done(),
    );
    set.add(
        "10-row-link-under-window",
        &["000120 0000 0140 10"],
        "end rows 3 words",
        |s| {
            s.tow = 0x180;
            s.lines = 3;
            s.window(0x180, 0, 0, (0, 2), (0, 131))
                .row(0x100, 0x120, &[])
                .row(0x120, 0x140, &[])
                .row(0x140, 0x100, bad)
                .done();
        },
    );
}

/// 11: the pointer that led to the window.
fn window_widths(set: &mut Set) {
    set.add(
        "11-first-window",
        &["000000 0000 0180 11"],
        "end rows 2 words",
        |s| {
            s.tow = 0x180;
            s.window(0x180, 0, 0x1A0, (1, 1), (0, 1))
                .row(0x1A0, 0, &[(0, 0, 0, 3)])
                .done();
        },
    );
    set.add(
        "11-next-window-second-row",
        &["000180 0000 0190 11"],
        "end rows 4 words",
        |s| {
            s.tow = 0x180;
            s.lines = 4;
            s.window(0x180, 0x190, 0x1A0, (0, 0), (0, 1))
                .window(0x190, 0, 0x1A0, (2, 3), (0, 1))
                .row(0x1A0, 0x1C0, &[(0x210, 0, 2, 2)])
                .row(0x1C0, 0, &[(0x210, 0, 2, 2), (0, 0, 0, 1)])
                .text(0x210, b"WX")
                .done();
        },
    );
}

/// 12: the pointer that led to the window, not the one to the row block.
fn edges(set: &mut Set) {
    set.add(
        "12-first-window-left-edge",
        &["000000 0000 0180 12"],
        "end rows 2 words",
        |s| {
            s.tow = 0x180;
            s.window(0x180, 0, 0, (1, 1), (1, 1))
                .row(0x100, 0x100, &[(0x200, 0, 2, 2)])
                .text(0x200, b"AB")
                .done();
        },
    );
    set.add(
        "12-next-window-right-edge",
        &["000180 0000 0190 12"],
        "end rows 3 words",
        |s| {
            s.tow = 0x180;
            s.lines = 3;
            s.window(0x180, 0x190, 0, (0, 0), (0, 1))
                .window(0x190, 0, 0, (1, 2), (0, 2))
                .row(0x100, 0x100, &[(0x200, 0, 2, 2), (0x202, 0, 2, 2)])
                .text(0x200, b"ABCD")
                .done();
        },
    );
}

/// 13: the attribute pointer in use.
fn fill_words(set: &mut Set) {
    let end = "end rows 2 words";
    set.add("13-own-segment", &["00010A 0000 0300 13"], end, |s| {
        s.fill_flag = true;
        s.row(0x100, 0x100, &[(0, 0x300, 0, 2)])
            .write(0x300, &[0x7FFF])
            .done();
    });
    set.add(
        "13-last-segment-before-a-window",
        &["00010A 0000 0300 13"],
        end,
        |s| {
            s.fill_flag = true;
            s.tow = 0x180;
            // The second segment is covered: after the window the first one's list is in use.
            s.window(0x180, 0, 0, (0, 0), (2, 3))
                .row(0x100, 0x120, &[(0x200, 0x300, 2, 2), (0, 0x310, 0, 2)])
                .text(0x200, b"AB")
                .write(0x300, &[1])
                .done();
        },
    );
    set.add(
        "13-last-segment-of-a-window",
        &["0001B4 0000 0310 13"],
        end,
        |s| {
            s.fill_flag = true;
            s.tow = 0x180;
            s.window(0x180, 0, 0x1A0, (0, 0), (0, 5))
                .row(0x1A0, 0, &[(0x200, 0, 2, 2), (0x200, 0x310, 2, 2)])
                .text(0x200, b"AB")
                .write(0x310, &[0x2000])
                .done();
        },
    );
}

/// Good lists, and refusals with nobody to blame.
fn as_they_are(set: &mut Set) {
    set.add("good-list", &[], "end rows 2 words", |s| {
        s.tow = 0x180;
        s.window(0x180, 0, 0x1A0, (0, 1), (0, 1))
            .row(0x100, 0x100, &[(0x200, 0x300, 2, 2)])
            .row(0x1A0, 0x1A0, &[(0x200, 0, 2, 2)])
            .text(0x200, &[0x80, 0x41])
            .done();
    });
    set.add("2-as-it-is", &[], "refused 2 row 0 at 000000", |s| {
        s.columns = 133;
        s.write(0x10, &[0, 0x9000]).done();
    });
    set.add("6-as-it-is", &[], "refused 6 row 0 at 000000", |s| {
        s.top = [0xFF00, 1];
        s.tow = 0x9000;
    });
    set.add("17-as-it-is", &[], "refused 17 row 0 at 000000", |s| {
        s.segmented = true;
        s.write(0x10, &[0, 0x9000]).done();
    });
    set.add("14-as-it-is", &[], "refused 14 row 0 at 000000", |s| {
        s.tow = 0x9000;
        s.write(0x18, &[0x5000]).done();
    });
    set.add(
        "7-on-a-main-block-as-it-is",
        &[],
        "refused 7 row 0 at 008000 from 000000",
        |s| s.top = [0, 0x7FF4],
    );
}

/// Damages one after the other.
fn several(set: &mut Set) {
    set.add(
        "ignored-bits-are-printed",
        &["000000 FF00 0181 8", "000100 FF01 0011 7"],
        "end rows 2 words",
        |s| {
            s.register(0x0B, 0xFF00)
                .register(0x0C, 0x0181)
                .write(0x180, &[0, 0, 0, 0, 0x0100])
                .row(0x100, 0, &[(0x200, 0, 2, 2)])
                .text(0x200, b"AB")
                .write(0x100, &[0xFF01, 0x0011])
                .done();
        },
    );
    set.add(
        "one-block-through-two-pointers",
        &["000100 0000 0120 9", "000184 0000 0120 9"],
        "end rows 3 words",
        |s| {
            // A row block of the background, and of a window.
            s.lines = 3;
            s.tow = 0x180;
            s.window(0x180, 0, 0x120, (1, 2), (0, 3))
                .row(0x100, 0x120, &[])
                .row(0x120, 0x100, &[(0x200, 0, 1, 2)])
                .done();
        },
    );
    set.add(
        "pointer-words-that-are-codes-too",
        &["000110 0000 9000 7"],
        "end rows 2 words",
        |s| {
            s.row(0x100, 0x100, &[(0x110, 0, 4, 4), (0x9000, 0, 2, 2)])
                .done();
        },
    );
    set.add(
        "damages-of-a-window-until-it-goes",
        &[
            "0001A6 0000 9000 7",
            "0001AA 0000 9000 7",
            "0001A0 0000 01C0 9",
            "000000 0000 0180 12",
        ],
        "end rows 3 words",
        |s| {
            s.tow = 0x180;
            s.lines = 3;
            s.fill_flag = true;
            s.window(0x180, 0, 0x1A0, (0, 2), (0, 3))
                .row(0x100, 0x120, &[])
                .row(0x120, 0x140, &[])
                .row(0x140, 0, &[(0x200, 0, 6, 6)])
                .row(0x1A0, 0x1C0, &[(0x9000, 0x9000, 3, 2)])
                .row(0x1C0, 0, &[(0x200, 0, 2, 3)])
                .text(0x200, b"ABCDEF")
                .done();
        },
    );
}

/// A screen of so many rows of fifteen segments, each with a code list outside memory and an attribute list that is outside
/// memory too, or has a fill word without bit 15; under windows of one row whose row blocks are refused 9, and last a window
/// that is refused 11.
pub fn many(rows: u16) -> Vec<u8> {
    let mut sketch = Sketch::new();
    sketch.lines = rows;
    sketch.columns = 132;
    sketch.fill_flag = true;
    sketch.tow = 0x100 + u32::from(rows) * 0x100;
    let at = |n: u16| 0x100 + u32::from(n) * 0x100;
    for n in 0..rows {
        let mut segments = [(0x9000, 0x9000, 8, 8); 15];
        for segment in segments.iter_mut().step_by(2) {
            segment.1 = 0x40;
        }
        let link = if n + 1 < rows { at(n + 1) } else { 0 };
        sketch.row(at(n), link, &segments);
    }
    let window = |n: u16| at(rows) + u32::from(n) * 0x20;
    for n in 0..rows {
        let link = if n + 1 < rows { window(n + 1) } else { 0 };
        let wide = if n + 1 < rows {
            (0x200, 0, 1, 2)
        } else {
            (0, 0, 0, 10)
        };
        sketch
            .window(window(n), link, window(n) + 0x0C, (n, n), (120, 123))
            .row(window(n) + 0x0C, 0, &[wide]);
    }
    sketch.script()
}
