//! A set of small named scripts for the converting program. Their memory is half a page, so no list goes on over a page end.

use crate::vectors::{self, Sketch};

/// A named script, and what its conversion comes to: how many pointers change, or the line of the refusal.
pub struct Vector {
    pub name: &'static str,
    pub script: Vec<u8>,
    pub comes_to: Result<u32, &'static str>,
}

struct Set(Vec<Vector>);

impl Set {
    /// A script of segmented memory.
    fn add(
        &mut self,
        name: &'static str,
        comes_to: Result<u32, &'static str>,
        draw: impl FnOnce(&mut Sketch),
    ) {
        let mut sketch = Sketch::new();
        sketch.segmented = true;
        draw(&mut sketch);
        self.0.push(Vector {
            name,
            script: sketch.script(),
            comes_to,
        });
    }
}

/// The scripts that the draw program refuses 17, and what they come to here.
const SEGMENTED: [(&str, Result<u32, &str>); 5] = [
    (
        "top-null-under-ignored-bits-segmented",
        Err("refused 6 row 0 at 000000"),
    ),
    (
        "missing-list-at-end-of-page-0-segmented",
        Err("refused 7 row 0 at 00FFFE from 000106"),
    ),
    (
        "missing-page-127-segmented",
        Err("refused 7 row 0 at 7F0010 from 000106"),
    ),
    ("segmented-pointers-with-ignored-bits", Ok(4)),
    (
        "from-segmented-link-with-ignored-bits",
        Err("refused 7 row 1 at 010010 from 000100"),
    ),
];

/// All named scripts.
pub fn all() -> Vec<Vector> {
    let mut set = Set(Vec::new());
    for vector in vectors::all() {
        let found = SEGMENTED.iter().find(|(name, _)| *name == vector.name);
        set.0.extend(found.map(|&(name, comes_to)| Vector {
            name,
            script: vector.script,
            comes_to,
        }));
    }
    turned(&mut set);
    shared(&mut set);
    refused(&mut set);
    set.0
}

/// Which pointers are turned.
fn turned(set: &mut Set) {
    set.add("pointers-that-stay", Ok(0), |s| {
        s.row(0x100, 0x100, &[(0x200, 0x300, 2, 2)])
            .text(0x200, &[0x80, 0x41])
            .done();
    });
    set.add("null-pointers-are-turned", Ok(4), |s| {
        // TOW, the link, both of the segment.
        s.register(0x0B, 0x80FF)
            .register(0x0C, 0x0001)
            .row(0x100, 0, &[(0, 0, 0, 2)])
            .write(0x100, &[0x80FF, 0x0000])
            .write(0x106, &[0x0055, 0x0001, 0x8000, 0x0001])
            .done();
    });
    set.add("each-once-in-windows-and-loops", Ok(6), |s| {
        // TOW, the window's two, its row's link, the row's link and its redefinition, all read in both rows.
        s.register(0x0B, 0x00FF)
            .register(0x0C, 0x0180)
            .window(0x180, 0, 0x1A0, (0, 1), (0, 1))
            .write(0x180, &[0x8000, 0x0000, 0x807F, 0x01A0])
            .row(0x1A0, 0x1A0, &[(0x210, 0, 2, 2)])
            .write(0x1A0, &[0x00FF, 0x01A1])
            .block(0x100, 0x100, Some(0x1C0), &[(0x200, 0, 2, 2)])
            .write(0x100, &[0x8000, 0x0100])
            .write(0x106, &[0x00AA, 0x01C0])
            .write(0x1C0, &[0x0123, 0x0000, 0x0102])
            .text(0x200, b"AB")
            .text(0x210, b"WX")
            .done();
    });
    set.add("link-of-the-last-row-is-turned", Ok(1), |s| {
        // The block that it points at is not read, and stays.
        s.lines = 1;
        s.row(0x100, 0x120, &[])
            .write(0x100, &[0x8055, 0x0120])
            .write(0x120, &[0x80FF, 0x0100])
            .done();
    });
    set.add("covered-segments-are-turned", Ok(2), |s| {
        s.tow = 0x180;
        s.window(0x180, 0, 0, (0, 1), (0, 1))
            .row(0x100, 0, &[(0x9000, 0x9000, 2, 2)])
            .write(0x106, &[0x7FFF, 0x9000, 0x7FFF, 0x9000])
            .done();
    });
    set.add("registers-are-kept-soft-tops-turned", Ok(0), |s| {
        // The soft tops do not count, and the list that one leads to is not followed; bits past a field stay.
        s.register(0x00, 0x1234)
            .register(0x04, 0x80FF)
            .register(0x05, 0x0180)
            .register(0x06, 0x7F55)
            .register(0x07, 0x0001)
            .register(0x10, 0x1008)
            .register(0x12, 0xF002)
            .register(0x15, 0xFFFF)
            .row(0x100, 0, &[])
            .write(0x180, &[0x80FF, 0x0100])
            .done();
    });
    set.add("words-read-twice-as-no-pointer", Ok(0), |s| {
        // Codes from the word that counts segments.
        s.row(0x100, 0, &[(0x104, 0, 2, 2)]).done();
    });
}

/// 19: a pointer word that is read as anything else.
fn shared(set: &mut Set) {
    set.add(
        "19-codes-from-a-first-word",
        Err("refused 19 row 0 at 000100"),
        |s| {
            s.row(0x100, 0, &[(0x100, 0, 2, 2)]).done();
        },
    );
    set.add(
        "19-codes-from-a-second-word",
        Err("refused 19 row 0 at 000102"),
        |s| {
            s.row(0x100, 0, &[(0x102, 0, 2, 2)]).done();
        },
    );
    set.add(
        "19-codes-that-come-to-a-pointer",
        Err("refused 19 row 0 at 000106"),
        |s| {
            s.row(0x100, 0, &[(0x104, 0, 3, 3)]).done();
        },
    );
    set.add(
        "19-attribute-from-a-code-pointer",
        Err("refused 19 row 0 at 000108"),
        |s| {
            s.row(0x100, 0, &[(0x200, 0x108, 2, 2)])
                .text(0x200, &[0x41, 0x80])
                .done();
        },
    );
    set.add(
        "19-fill-word-from-an-attribute-pointer",
        Err("refused 19 row 0 at 00010A"),
        |s| {
            s.fill_flag = true;
            s.row(0x100, 0, &[(0, 0x10A, 0, 2)]).done();
        },
    );
    set.add(
        "19-redefinition-from-a-link",
        Err("refused 19 row 0 at 000100"),
        |s| {
            s.block(0x100, 0, Some(0x100), &[]).done();
        },
    );
    set.add(
        "19-first-window-in-the-main-block",
        Err("refused 19 row 0 at 000014"),
        |s| {
            // Its link is M0, M1.
            s.tow = 0x10;
        },
    );
    set.add(
        "19-link-from-codes",
        Err("refused 19 row 1 at 000120"),
        |s| {
            s.row(0x100, 0x120, &[(0x120, 0, 2, 2)]).done();
        },
    );
    set.add(
        "19-first-word-from-a-second",
        Err("refused 19 row 1 at 000102"),
        |s| {
            s.row(0x100, 0x102, &[]).done();
        },
    );
    set.add(
        "19-second-word-from-a-first",
        Err("refused 19 row 1 at 000100"),
        |s| {
            s.row(0x100, 0xFE, &[]).done();
        },
    );
}

/// Refusals before the walk, and the drawing's own.
fn refused(set: &mut Set) {
    set.add("26-linear", Err("refused 26 row 0 at 000000"), |s| {
        s.segmented = false;
    });
    set.add("2-segmented", Err("refused 2 row 0 at 000000"), |s| {
        s.columns = 133;
    });
    set.add("2-before-26", Err("refused 2 row 0 at 000000"), |s| {
        s.segmented = false;
        s.columns = 133;
    });
    set.add("14-main-block", Err("refused 14 row 0 at 000000"), |s| {
        s.write(0x18, &[0x5000]).done();
    });
    set.add("8-window", Err("refused 8 row 0 at 000000"), |s| {
        s.tow = 0x180;
        s.window(0x180, 0, 0, (1, 0), (0, 1)).done();
    });
    set.add("13-fill-word", Err("refused 13 row 0 at 000302"), |s| {
        s.fill_flag = true;
        s.row(0x100, 0, &[(0x200, 0x300, 2, 2)])
            .text(0x200, &[0x80, 0x41])
            .write(0x300, &[0x8001, 0x0001])
            .done();
    });
    set.add("9-second-row", Err("refused 9 row 1 at 000000"), |s| {
        s.row(0x100, 0x120, &[])
            .row(0x120, 0, &[(0x200, 0, 1, 2)])
            .write(0x100, &[0x80FF, 0x0120])
            .done();
    });
    set.0.push(Vector {
        name: "script-cut",
        script: vec![3, 0x10, 1, 8],
        comes_to: Err("refused script at 4"),
    });
}
