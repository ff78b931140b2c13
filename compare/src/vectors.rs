//! A set of small named scripts for the draw program, one for each place worth a test.

use crate::script;

/// A named script and how its output must end.
pub struct Vector {
    pub name: &'static str,
    pub script: Vec<u8>,
    /// How the last line of the output begins.
    pub last_line: &'static str,
}

impl Vector {
    pub fn output(&self) -> Vec<u8> {
        script::run(&self.script)
    }
}

/// Code address, list address, length and visible of a segment.
pub(crate) type Segment = (u32, u32, u16, u16);

/// A script under construction: a frame of two rows of one line and eight columns, linear,
/// flag 8080, main block at 0010, fill code 20.
pub(crate) struct Sketch {
    pub(crate) segmented: bool,
    pub(crate) display_hidden: bool,
    interlace: u8,
    cursor: Option<(u16, u16)>,
    pub(crate) fill_flag: bool,
    scan_lines: u16,
    pub(crate) lines: u16,
    pub(crate) columns: u16,
    flag: u16,
    pub(crate) top: [u16; 2],
    pub(crate) tow: u32,
    /// Registers set after all others.
    registers: Vec<(u8, u16)>,
    words: Vec<(u32, u16)>,
}

impl Sketch {
    pub(crate) fn new() -> Sketch {
        Sketch {
            segmented: false,
            display_hidden: false,
            interlace: 0,
            cursor: None,
            fill_flag: false,
            scan_lines: 1,
            lines: 2,
            columns: 8,
            flag: 0x8080,
            top: [0, 0x10],
            tow: 0,
            registers: Vec::new(),
            words: Vec::new(),
        }
    }

    fn pointer(&self, address: u32) -> [u16; 2] {
        let high = (address >> 16) as u16;
        [
            if self.segmented { high << 8 } else { high },
            address as u16,
        ]
    }

    pub(crate) fn write(&mut self, address: u32, words: &[u16]) -> &mut Sketch {
        for (n, &word) in words.iter().enumerate() {
            self.words.push((address + 2 * n as u32, word));
        }
        self
    }

    /// Codes from an address on, two to a word.
    pub(crate) fn text(&mut self, address: u32, codes: &[u8]) -> &mut Sketch {
        for (n, pair) in codes.chunks(2).enumerate() {
            let low = pair.get(1).copied().unwrap_or(0);
            self.write(
                address + 2 * n as u32,
                &[u16::from_be_bytes([pair[0], low])],
            );
        }
        self
    }

    pub(crate) fn row(&mut self, address: u32, link: u32, segments: &[Segment]) -> &mut Sketch {
        self.block(address, link, None, segments)
    }

    pub(crate) fn block(
        &mut self,
        address: u32,
        link: u32,
        redefinition: Option<u32>,
        segments: &[Segment],
    ) -> &mut Sketch {
        let mut words = self.pointer(link).to_vec();
        words.push(segments.len() as u16);
        if let Some(address) = redefinition {
            words[2] |= 0x8000;
            words.extend(self.pointer(address));
        }
        for &(code, list, length, visible) in segments {
            words.extend(self.pointer(code));
            words.extend(self.pointer(list));
            words.push(length << 8 | visible);
        }
        self.write(address, &words)
    }

    pub(crate) fn window(
        &mut self,
        address: u32,
        link: u32,
        first: u32,
        rows: (u16, u16),
        columns: (u16, u16),
    ) -> &mut Sketch {
        let mut words = self.pointer(link).to_vec();
        words.extend(self.pointer(first));
        words.push(rows.0 << 8 | rows.1);
        words.push(columns.0 << 8 | columns.1);
        self.write(address, &words)
    }

    pub(crate) fn register(&mut self, register: u8, value: u16) -> &mut Sketch {
        self.registers.push((register, value));
        self
    }

    /// The script, with a main block whose first row block is at 0100, all before its draw.
    fn open(&self) -> Vec<u8> {
        let switches = u8::from(!self.segmented)
            | u8::from(self.display_hidden) << 1
            | self.interlace << 2
            | u8::from(self.cursor.is_some()) << 4;
        let mut bytes = vec![3, switches];
        let interlaced = u16::from(self.interlace != 0);
        let tow = self.pointer(self.tow);
        let mut registers = vec![
            (0x08, self.flag),
            (0x09, self.top[0]),
            (0x0A, self.top[1]),
            (0x0B, tow[0]),
            (0x0C, tow[1]),
            (0x11, interlaced << 6 | interlaced),
            (0x12, interlaced + self.lines),
            (0x13, 2 * interlaced + self.lines),
            (0x16, 1),
            (0x17, (self.columns + 1) | 1),
            (0x18, self.columns + 1),
        ];
        registers.retain(|&(_, value)| value != 0);
        registers.extend(&self.registers);
        for (register, value) in registers {
            bytes.extend(record_register(register, value));
        }
        let cursor = self.cursor.map_or(0, |(x, y)| x << 8 | y);
        let row = self.pointer(0x100);
        let fill = u16::from(self.fill_flag) << 8 | 0x20;
        let main = [row[0], row[1], cursor, fill, 0, 0, self.scan_lines - 1];
        for (n, &word) in main.iter().enumerate() {
            if word != 0 {
                bytes.extend(record_word(0x10 + 2 * n as u32, word));
            }
        }
        for &(address, word) in &self.words {
            if word != 0 {
                bytes.extend(record_word(address, word));
            }
        }
        bytes
    }

    pub(crate) fn script(&self) -> Vec<u8> {
        let mut bytes = self.open();
        bytes.push(0);
        bytes
    }
}

fn record_register(register: u8, value: u16) -> Vec<u8> {
    let [high, low] = value.to_be_bytes();
    vec![1, register, high, low]
}

fn record_word(address: u32, word: u16) -> Vec<u8> {
    let [_, a2, a1, a0] = address.to_be_bytes();
    let [high, low] = word.to_be_bytes();
    vec![2, a2, a1, a0, high, low]
}

/// The script of sheet S.
pub fn sheet_s() -> Vec<u8> {
    let mut bytes = vec![3, 0x11];
    for (register, value) in [
        (0x08, 0x8080),
        (0x0A, 0x0010),
        (0x12, 0x0010),
        (0x13, 0x0014),
        (0x16, 0x0001),
        (0x17, 0x0007),
        (0x18, 0x0005),
    ] {
        bytes.extend(record_register(register, value));
    }
    let blocks: [(u32, &[u16]); 4] = [
        (
            0x10,
            &[0x0000, 0x0020, 0x0100, 0x0020, 0x0000, 0x0000, 0x0007],
        ),
        (
            0x20,
            &[
                0x0000, 0x0030, 0x0001, 0x0000, 0x0060, 0x0000, 0x0070, 0x0403,
            ],
        ),
        (0x60, &[0x4180, 0x4281]),
        (0x70, &[0x2000, 0x8002]),
    ];
    for (address, words) in blocks {
        for (n, &word) in words.iter().enumerate() {
            bytes.extend(record_word(address + 2 * n as u32, word));
        }
    }
    bytes.push(0);
    bytes
}

struct Set(Vec<Vector>);

impl Set {
    fn bytes(&mut self, name: &'static str, last_line: &'static str, script: Vec<u8>) {
        self.0.push(Vector {
            name,
            script,
            last_line,
        });
    }

    fn sketch(
        &mut self,
        name: &'static str,
        last_line: &'static str,
        draw: impl FnOnce(&mut Sketch),
    ) {
        let mut sketch = Sketch::new();
        draw(&mut sketch);
        self.bytes(name, last_line, sketch.script());
    }
}

/// The named set.
pub fn all() -> Vec<Vector> {
    let mut set = Set(Vec::new());
    scripts(&mut set);
    settings(&mut set);
    missing_words(&mut set);
    windows_refused(&mut set);
    segments_refused(&mut set);
    windows(&mut set);
    fills(&mut set);
    latches(&mut set);
    frames(&mut set);
    scrolls(&mut set);
    pointers(&mut set);
    numbers(&mut set);
    linear_twins(&mut set);
    set.0
}

/// The script itself: replaced records, cuts, damage.
fn scripts(set: &mut Set) {
    set.bytes("sheet-s", "end rows 2 words 22", sheet_s());

    let mut s = sheet_s();
    s.extend([9, 2, 0]);
    set.bytes(
        "sheet-s-bytes-after-draw-not-read",
        "end rows 2 words 22",
        s,
    );

    // Earlier records that later ones replace; registers and bits without a meaning.
    let mut s = vec![3, 0x0A];
    s.extend(record_word(0x60, 0xFFFF));
    s.extend(record_register(0x12, 0x0001));
    for register in [0x00, 0x01, 0x02, 0x07, 0x0D, 0x10, 0x15] {
        s.extend(record_register(register, 0xFFFF));
    }
    s.extend(sheet_s());
    s.pop();
    s.extend([3, 0xF1]);
    s.extend(record_register(0x11, 0xF000));
    s.extend(record_register(0x12, 0xF010));
    s.extend(record_register(0x14, 0xFF00));
    s.extend(record_register(0x16, 0xFE01));
    s.extend(record_register(0x17, 0xFC07));
    s.push(0);
    set.bytes(
        "sheet-s-records-replaced-bits-ignored",
        "end rows 2 words 22",
        s,
    );

    let s = sheet_s();
    set.bytes("script-empty", "refused script at 0", vec![]);
    set.bytes(
        "script-without-draw",
        "refused script at 144",
        s[..s.len() - 1].to_vec(),
    );
    set.bytes(
        "script-cut-in-switches",
        "refused script at 1",
        s[..1].to_vec(),
    );
    set.bytes(
        "script-cut-in-register",
        "refused script at 5",
        s[..5].to_vec(),
    );
    set.bytes(
        "script-cut-in-word",
        "refused script at 143",
        s[..s.len() - 2].to_vec(),
    );
    set.bytes(
        "script-cut-after-bad-register",
        "refused script at 5",
        vec![3, 0, 1, 0x19, 0],
    );
    set.bytes(
        "script-unknown-kind-first",
        "refused script at 0",
        vec![4, 0],
    );
    set.bytes(
        "script-unknown-kind-last-byte",
        "refused script at 2",
        vec![3, 0, 0xFF],
    );
    set.bytes(
        "script-register-19",
        "refused script at 2",
        vec![3, 0, 1, 0x19, 0, 0, 0],
    );
    set.bytes(
        "script-odd-address",
        "refused script at 2",
        vec![3, 1, 2, 0, 0x10, 1, 0, 0, 0],
    );
    set.bytes(
        "script-address-past-memory",
        "refused script at 0",
        vec![2, 0, 0x80, 0, 0, 0, 0],
    );
    set.bytes(
        "script-interlace-3",
        "refused script at 0",
        vec![3, 0x0D, 0],
    );
    set.bytes(
        "script-two-bad-records",
        "refused script at 2",
        vec![3, 0, 3, 0x0C, 9, 0],
    );
    set.bytes("script-draw-only", "refused 2 row 0 at 000000", vec![0]);

    set.sketch("script-last-word-of-memory", "end rows 2 words", |s| {
        s.row(0x100, 0, &[(0x7FFE, 0, 2, 2)]).text(0x7FFE, b"AB");
    });
    // The kind of one record changed: the rest is read out of step.
    let mut s = sheet_s();
    s[2] = 3;
    set.bytes("script-out-of-step", "refused script at 4", s);
}

/// Refusals 2 and 6, and settings at the end of what is good.
fn settings(set: &mut Set) {
    let two = "refused 2 row 0 at 000000";
    set.sketch("settings-val-not-above-vsd", two, |s| {
        s.register(0x11, 2 << 6);
    });
    set.sketch("settings-133-columns", two, |s| s.columns = 133);
    set.sketch("settings-132-columns", "end rows 2 words", |s| {
        s.columns = 132;
        s.row(0x100, 0, &[(0x200, 0, 3, 3)]).text(0x200, b"ABC");
    });
    set.sketch("settings-rfi-even-vsw", two, |s| {
        s.interlace = 1;
        s.register(0x11, 1 << 6);
    });
    set.sketch("settings-iv-even-htc", two, |s| {
        s.interlace = 2;
        s.register(0x17, 10);
    });
    set.sketch("top-null", "refused 6 row 0 at 000000", |s| s.top = [0, 0]);
    set.sketch(
        "top-null-under-ignored-bits-linear",
        "refused 6 row 0 at 000000",
        |s| {
            s.top = [0xFF00, 1];
        },
    );
    set.sketch(
        "top-null-under-ignored-bits-segmented",
        "refused 17 row 0 at 000000",
        |s| {
            s.segmented = true;
            s.top = [0x80FF, 1];
        },
    );
}

/// Refusal 7 for every kind of word.
fn missing_words(set: &mut Set) {
    set.sketch(
        "missing-main-block-part",
        "refused 7 row 0 at 008000 from 000000",
        |s| s.top = [0, 0x7FF8],
    );
    set.sketch(
        "missing-first-window-block",
        "refused 7 row 0 at 008000 from 000000",
        |s| s.tow = 0x7FFC,
    );
    set.sketch(
        "missing-row-block-segment",
        "refused 7 row 1 at 008000 from 000100",
        |s| {
            s.row(0x100, 0x7FF6, &[])
                .row(0x7FF6, 0, &[(0x200, 0, 0, 0)]);
            s.words.retain(|&(address, _)| address < 0x8000);
        },
    );
    set.sketch(
        "missing-redefinition",
        "refused 7 row 0 at 020000 from 000106",
        |s| {
            s.block(0x100, 0, Some(0x2_0000), &[]);
        },
    );
    set.sketch(
        "missing-window-row-block",
        "refused 7 row 0 at 00FFF0 from 000184",
        |s| {
            s.tow = 0x180;
            s.window(0x180, 0, 0xFFF0, (0, 0), (0, 1))
                .row(0x100, 0, &[]);
        },
    );
    set.sketch(
        "missing-code-word-after-latch",
        "refused 7 row 1 at 008000 from 000116",
        |s| {
            s.row(0x100, 0x110, &[])
                .row(0x110, 0, &[(0x7FFE, 0x300, 4, 4)]);
            s.text(0x7FFE, &[0x80, 0x41]).write(0x300, &[0x8001]);
        },
    );
    set.sketch(
        "missing-attribute-word",
        "refused 7 row 0 at 008000 from 00010A",
        |s| {
            s.row(0x100, 0, &[(0x200, 0x7FFE, 4, 4)])
                .text(0x200, &[0x80, 0x81, 0x41, 0x42]);
        },
    );
    set.sketch(
        "missing-fill-word",
        "refused 7 row 0 at 008000 from 00010A",
        |s| {
            s.fill_flag = true;
            s.row(0x100, 0, &[(0x200, 0x7FFE, 2, 2)])
                .text(0x200, &[0x80, 0x41]);
        },
    );
    set.sketch(
        "missing-list-at-end-of-page-0-segmented",
        "refused 17 row 0 at 000000",
        |s| {
            s.segmented = true;
            s.row(0x100, 0, &[(0xFFFE, 0, 4, 4)]);
        },
    );
    set.sketch(
        "missing-list-at-fffffe-linear",
        "refused 7 row 0 at FFFFFE from 000106",
        |s| {
            s.row(0x100, 0, &[(0xFF_FFFE, 0, 4, 4)]);
        },
    );
    set.sketch(
        "missing-page-127-segmented",
        "refused 17 row 0 at 000000",
        |s| {
            s.segmented = true;
            s.row(0x100, 0x7F_0010, &[(0x7F_0010, 0, 1, 1)]);
        },
    );
}

/// Refusal 8.
fn windows_refused(set: &mut Set) {
    let eight = "refused 8 row 0 at 000000";
    set.sketch("window-first-row-above-last", eight, |s| {
        s.tow = 0x180;
        s.window(0x180, 0, 0, (1, 0), (0, 1));
    });
    set.sketch("window-first-column-above-last", eight, |s| {
        s.tow = 0x180;
        s.window(0x180, 0, 0, (0, 0), (2, 1));
    });
    set.sketch("window-last-column-132", eight, |s| {
        s.tow = 0x180;
        s.window(0x180, 0, 0, (0, 0), (0, 132));
    });
    set.sketch(
        "window-next-begins-on-last-row-before",
        "refused 8 row 2 at 000000",
        |s| {
            s.tow = 0x180;
            s.lines = 4;
            s.window(0x180, 0x190, 0, (1, 1), (0, 1))
                .window(0x190, 0, 0, (1, 2), (0, 1));
        },
    );
    set.sketch("window-chain-loops", "refused 8 row 2 at 000000", |s| {
        s.tow = 0x180;
        s.lines = 6;
        s.window(0x180, 0x190, 0x1A0, (0, 0), (2, 3))
            .window(0x190, 0x180, 0x1A0, (1, 1), (4, 5));
        s.row(0x1A0, 0x1A0, &[(0x210, 0, 2, 2)]).text(0x210, b"WX");
        s.row(0x100, 0x100, &[(0x200, 0, 2, 2)]).text(0x200, b"AB");
    });
}

/// Refusals 9 to 13.
fn segments_refused(set: &mut Set) {
    set.sketch("visible-above-length", "refused 9 row 1 at 000000", |s| {
        s.row(0x100, 0x110, &[(0x200, 0, 2, 2)])
            .row(0x110, 0, &[(0x200, 0, 2, 3)]);
        s.text(0x200, b"AB");
    });
    set.sketch(
        "visible-above-length-under-window",
        "refused 9 row 0 at 000000",
        |s| {
            s.tow = 0x180;
            s.window(0x180, 0, 0, (0, 0), (0, 2))
                .row(0x100, 0, &[(0x200, 0, 2, 3)]);
        },
    );
    set.sketch(
        "visible-above-length-in-window",
        "refused 9 row 0 at 000000",
        |s| {
            s.tow = 0x180;
            s.window(0x180, 0, 0x1A0, (0, 0), (0, 2))
                .row(0x1A0, 0, &[(0x200, 0, 2, 3)]);
        },
    );
    set.sketch("visible-above-length-null-code", "end rows 2 words", |s| {
        s.row(0x100, 0, &[(0, 0, 0, 3)]);
    });
    set.sketch("widths-100-and-33", "refused 10 row 0 at 000000", |s| {
        s.row(0x100, 0, &[(0, 0, 0, 100), (0, 0, 0, 33)]);
    });
    set.sketch("widths-100-and-32", "end rows 2 words", |s| {
        s.row(0x100, 0, &[(0, 0, 0, 100), (0, 0, 0, 32)]);
    });
    set.sketch(
        "widths-by-length-with-dh",
        "refused 10 row 0 at 000000",
        |s| {
            s.display_hidden = true;
            s.row(0x100, 0, &[(0x200, 0, 130, 1), (0, 0, 255, 3)]);
        },
    );
    set.sketch(
        "window-widths-above-window",
        "refused 11 row 1 at 000000",
        |s| {
            s.tow = 0x180;
            s.window(0x180, 0, 0x1A0, (1, 1), (1, 3));
            s.row(0x1A0, 0, &[(0x200, 0, 2, 2), (0x200, 0, 2, 2)])
                .text(0x200, b"AB");
        },
    );
    set.sketch(
        "window-left-edge-inside-segment",
        "refused 12 row 0 at 000000",
        |s| {
            s.tow = 0x180;
            s.window(0x180, 0, 0, (0, 0), (1, 3))
                .row(0x100, 0, &[(0x200, 0, 4, 4)]);
        },
    );
    set.sketch(
        "window-right-edge-inside-segment",
        "refused 12 row 1 at 000000",
        |s| {
            s.tow = 0x180;
            s.window(0x180, 0, 0, (1, 1), (2, 4))
                .row(0x100, 0x120, &[(0x200, 0, 1, 1)]);
            s.row(0x120, 0, &[(0x200, 0, 2, 2), (0x200, 0, 4, 4)])
                .text(0x200, b"ABCD");
        },
    );
    set.sketch(
        "fill-word-without-bit-15-of-segment",
        "refused 13 row 0 at 000302",
        |s| {
            s.fill_flag = true;
            s.row(0x100, 0, &[(0x200, 0x300, 2, 2)])
                .text(0x200, &[0x80, 0x41]);
            s.write(0x300, &[0x2001, 0x0001]);
        },
    );
    set.sketch(
        "fill-word-without-bit-15-after-window",
        "refused 13 row 0 at 000304",
        |s| {
            s.fill_flag = true;
            s.tow = 0x180;
            s.window(0x180, 0, 0, (0, 0), (4, 5))
                .row(0x100, 0, &[(0, 0x300, 0, 2)]);
            s.write(0x300, &[0x8001, 0x8002, 0x7003]);
        },
    );
}

/// Windows that are drawn.
fn windows(set: &mut Set) {
    set.sketch("window-at-left-screen-edge", "end rows 3 words", |s| {
        s.tow = 0x180;
        s.lines = 3;
        s.window(0x180, 0, 0x1A0, (0, 1), (0, 1));
        s.row(0x1A0, 0x1B0, &[(0x210, 0, 2, 2)])
            .row(0x1B0, 0, &[(0x212, 0, 1, 1)]);
        s.row(0x100, 0x100, &[(0x200, 0, 2, 2), (0x202, 0, 3, 3)]);
        s.text(0x200, b"ABCDE").text(0x210, b"WXYZ");
    });
    set.sketch("window-at-right-screen-edge", "end rows 2 words", |s| {
        s.tow = 0x180;
        s.columns = 132;
        s.cursor = Some((131, 0));
        s.window(0x180, 0, 0x1A0, (0, 0), (130, 131))
            .row(0x1A0, 0, &[(0x210, 0, 1, 1)]);
        s.row(
            0x100,
            0,
            &[(0x200, 0, 2, 2), (0, 0, 0, 128), (0x204, 0, 2, 2)],
        );
        s.text(0x200, b"ABCDEF").text(0x210, b"W");
    });
    set.sketch("window-over-whole-row", "end rows 2 words", |s| {
        s.tow = 0x180;
        s.window(0x180, 0, 0x1A0, (1, 255), (0, 131))
            .row(0x1A0, 0, &[(0x210, 0, 3, 3)]);
        s.row(0x100, 0x100, &[(0x200, 0, 4, 4), (0x200, 0, 1, 0)]);
        s.text(0x200, b"ABCD").text(0x210, b"WXY");
    });
    set.sketch(
        "window-zero-width-segments-at-edges",
        "end rows 2 words",
        |s| {
            s.tow = 0x180;
            s.window(0x180, 0, 0x1C0, (0, 0), (2, 3))
                .row(0x1C0, 0, &[(0x210, 0, 2, 2)]);
            // The segments of no width at 2 and 4 are covered, those at 0 and 5 are not.
            let zero = |list| (0x208, list, 1, 0);
            let row = [
                zero(0x300),
                (0x200, 0, 2, 2),
                zero(0x302),
                (0x202, 0, 2, 2),
                zero(0x304),
                (0x204, 0, 1, 1),
                zero(0x306),
            ];
            s.row(0x100, 0x160, &row).row(0x160, 0, &[]);
            s.text(0x200, b"ABCDE")
                .text(0x208, &[0x80])
                .text(0x210, b"WX");
            s.write(0x300, &[0x8001, 0x8002, 0x8003, 0x8004]);
        },
    );
    set.sketch(
        "window-past-the-segments-makes-two-runs",
        "end rows 2 words",
        |s| {
            s.fill_flag = true;
            s.tow = 0x180;
            s.window(0x180, 0, 0x1A0, (0, 0), (4, 5))
                .row(0x1A0, 0, &[(0x210, 0, 2, 2)]);
            s.row(0x100, 0, &[(0x200, 0x300, 2, 2)])
                .text(0x200, b"AB")
                .text(0x210, b"WX");
            s.write(0x300, &[0x8001, 0x8002]);
        },
    );
    set.sketch(
        "window-without-segments-shows-fill",
        "end rows 2 words",
        |s| {
            s.tow = 0x180;
            s.window(0x180, 0, 0, (0, 1), (1, 2));
            s.row(
                0x100,
                0x100,
                &[(0x200, 0, 1, 1), (0x200, 0, 2, 2), (0x202, 0, 1, 1)],
            );
            s.text(0x200, b"ABC");
        },
    );
    set.sketch("window-chain-of-three", "end rows 6 words", |s| {
        s.tow = 0x180;
        s.lines = 6;
        s.window(0x180, 0x190, 0x1B0, (0, 0), (0, 0))
            .window(0x190, 0x1A0, 0x1B0, (1, 2), (1, 1));
        s.window(0x1A0, 0, 0x1B0, (4, 4), (2, 7))
            .row(0x1B0, 0, &[(0x210, 0, 1, 1)]);
        let row = [(0x200, 0, 1, 1), (0x200, 0, 1, 1)];
        s.row(0x100, 0x100, &row)
            .text(0x200, b"A")
            .text(0x210, b"W");
    });
    set.sketch("window-covered-list-not-read", "end rows 2 words", |s| {
        s.tow = 0x180;
        s.window(0x180, 0, 0x1A0, (0, 0), (1, 2))
            .row(0x1A0, 0, &[(0x210, 0, 2, 2)]);
        s.row(
            0x100,
            0,
            &[(0x200, 0, 1, 1), (0xFFF0, 0x300, 2, 2), (0x200, 0, 1, 1)],
        );
        s.text(0x200, b"A")
            .text(0x210, b"WX")
            .write(0x300, &[0x8007]);
    });
    set.sketch("window-head-bit-15-ignored", "end rows 2 words", |s| {
        s.tow = 0x180;
        s.window(0x180, 0, 0x1A0, (0, 0), (0, 1))
            .row(0x1A0, 0, &[(0x210, 0, 2, 2)]);
        s.write(0x1A4, &[0xFFF1]).text(0x210, b"WX");
    });
}

/// Fill runs.
fn fills(set: &mut Set) {
    set.sketch("fill-runs-that-touch", "end rows 2 words", |s| {
        s.fill_flag = true;
        s.row(
            0x100,
            0,
            &[(0x200, 0x300, 1, 1), (0, 0x310, 0, 2), (0, 0x320, 0, 2)],
        );
        s.text(0x200, b"A")
            .write(0x310, &[0x8001])
            .write(0x320, &[0x8002, 0x8003]);
    });
    set.sketch("fill-runs-that-touch-in-window", "end rows 2 words", |s| {
        s.fill_flag = true;
        s.tow = 0x180;
        s.window(0x180, 0, 0x1A0, (0, 0), (0, 5))
            .row(0x1A0, 0, &[(0, 0x300, 0, 2)]);
        s.row(0x100, 0, &[]).write(0x300, &[0x8001, 0xC002]);
    });
    set.sketch("fill-null-list-leaves-latch", "end rows 2 words", |s| {
        s.fill_flag = true;
        s.row(0x100, 0, &[(0x200, 0x300, 2, 2), (0, 0, 0, 2)]);
        s.text(0x200, &[0x80, 0x41]).write(0x300, &[0x8001, 0x8002]);
    });
    set.sketch(
        "fill-word-with-ignore-hides-later",
        "end rows 2 words",
        |s| {
            s.fill_flag = true;
            s.row(0x100, 0x120, &[(0, 0x300, 0, 2), (0x200, 0, 2, 2)]);
            s.row(0x120, 0, &[(0x200, 0, 3, 3)]);
            s.text(0x200, b"ABC").write(0x300, &[0xA001, 0x8002]);
        },
    );
}

/// Attributes, the latch, ignore and lengths.
fn latches(set: &mut Set) {
    set.sketch(
        "latch-unlatched-word-and-latched-ignore",
        "end rows 2 words",
        |s| {
            s.row(0x100, 0, &[(0x200, 0x300, 6, 6)]);
            s.text(0x200, &[0x41, 0x80, 0x81, 0x42, 0x82, 0x43]);
            s.write(0x300, &[0xA001, 0x4005, 0x8002]);
        },
    );
    set.sketch("latch-of-dropped-characters", "end rows 2 words", |s| {
        s.row(0x100, 0, &[(0x200, 0x300, 4, 1), (0x204, 0, 1, 1)]);
        s.text(0x200, &[0x41, 0x80, 0x81, 0x42, 0x43])
            .write(0x300, &[0x8001, 0x8003]);
    });
    set.sketch(
        "latch-crosses-segments-rows-and-window",
        "end rows 3 words",
        |s| {
            s.tow = 0x180;
            s.lines = 3;
            s.window(0x180, 0, 0x1A0, (1, 1), (1, 2))
                .row(0x1A0, 0, &[(0x210, 0x310, 2, 2)]);
            let row = [(0x200, 0x300, 1, 1), (0x202, 0, 2, 2), (0x202, 0, 2, 2)];
            s.row(0x100, 0x100, &row)
                .text(0x200, &[0x80, 0, 0x41, 0x42]);
            s.text(0x210, &[0x57, 0x80])
                .write(0x300, &[0x8001])
                .write(0x310, &[0x8005]);
        },
    );
    set.sketch("latch-mask-0-every-code-invokes", "end rows 2 words", |s| {
        s.flag = 0x0055;
        s.row(0x100, 0, &[(0x200, 0x300, 3, 3)]).text(0x200, b"ABC");
        s.write(0x300, &[0x5FFF, 0x0001, 0xC7FF]);
    });
    set.sketch(
        "lengths-odd-low-byte-not-examined",
        "end rows 2 words",
        |s| {
            s.row(0x100, 0, &[(0x200, 0x300, 3, 3), (0x204, 0x300, 1, 1)]);
            s.text(0x200, &[0x41, 0x42, 0x43, 0x80, 0x44, 0x80])
                .write(0x300, &[0x8001]);
        },
    );
    set.sketch("lengths-255-dropped-after-132", "end rows 2 words", |s| {
        // The codes run over other blocks; only the count of words and the latch tell.
        s.row(0x100, 0, &[(0x200, 0, 255, 132)]).text(0x200, b"AB");
        s.columns = 4;
    });
    set.sketch("dh-clear-hidden-left-out", "end rows 2 words", |s| {
        s.row(0x100, 0, &[(0x200, 0x300, 3, 2)]);
        s.text(0x200, &[0x41, 0x80, 0x42]).write(0x300, &[0xA000]);
    });
    set.sketch("dh-set-hidden-shown", "end rows 2 words", |s| {
        s.display_hidden = true;
        s.row(0x100, 0, &[(0x200, 0x300, 3, 2)]);
        s.text(0x200, &[0x41, 0x80, 0x42]).write(0x300, &[0xA000]);
    });
    set.sketch("dh-set-null-code-keeps-visible", "end rows 2 words", |s| {
        s.display_hidden = true;
        s.row(0x100, 0, &[(0, 0, 9, 2), (0x200, 0, 1, 0)])
            .text(0x200, b"A");
    });
}

/// Rows, lines, redefinitions, interlace, addressing.
fn frames(set: &mut Set) {
    set.sketch("row-chain-loops-on-itself", "end rows 5 words", |s| {
        s.lines = 5;
        s.row(0x100, 0x100, &[(0x200, 0, 2, 2)]).text(0x200, b"AB");
    });
    set.sketch("row-chain-loops-over-two-blocks", "end rows 5 words", |s| {
        s.lines = 5;
        s.cursor = Some((1, 3));
        s.row(0x100, 0x120, &[(0x200, 0, 2, 2)])
            .row(0x120, 0x100, &[(0x202, 0, 2, 2)]);
        s.text(0x200, b"ABCD");
    });
    set.sketch(
        "row-redefinition-holds-last-lines-cut",
        "end rows 5 words",
        |s| {
            s.lines = 12;
            s.scan_lines = 2;
            s.block(0x100, 0x120, None, &[])
                .block(0x120, 0x130, Some(0x400), &[]);
            s.block(0x130, 0x140, Some(0), &[])
                .block(0x140, 0, Some(0x406), &[]);
            s.write(0x400, &[0xFC2A, 0xFFE2, 0x0305])
                .write(0x406, &[0x03FF, 0x0002, 0xFFFF]);
        },
    );
    set.sketch("row-of-fifteen-segments", "end rows 2 words", |s| {
        let segments: Vec<Segment> = (0..15).map(|n| (0x200 + 2 * (n % 3), 0, 1, 1)).collect();
        s.columns = 16;
        s.row(0x100, 0, &segments).text(0x200, b"A.B.C.");
        // The other bits of the head are ignored.
        s.write(0x104, &[0x7FFF]);
    });
    set.sketch("interlace-rfi-half-the-lines", "end rows 3 words", |s| {
        s.interlace = 1;
        s.lines = 6;
        s.row(0x100, 0x100, &[(0x200, 0, 1, 1)]).text(0x200, b"A");
    });
    set.sketch("interlace-iv-all-the-lines", "end rows 6 words", |s| {
        s.interlace = 2;
        s.lines = 6;
        s.row(0x100, 0x100, &[(0x200, 0, 1, 1)]).text(0x200, b"A");
    });
    set.sketch(
        "segmented-pointers-with-ignored-bits",
        "refused 17 row 0 at 000000",
        |s| {
            s.segmented = true;
            s.top = [0x80FF, 0x11];
            s.row(0x100, 0, &[(0x200, 0x300, 2, 2)])
                .text(0x200, &[0x80, 0x41])
                .write(0x300, &[0x8001]);
            s.write(0x100, &[0x8001, 0x0001])
                .write(0x106, &[0x80AA, 0x0201, 0x8055, 0x0301]);
        },
    );
    set.sketch(
        "linear-pointers-with-ignored-bits",
        "end rows 2 words",
        |s| {
            s.top = [0xFF00, 0x11];
            s.row(0x100, 0, &[(0x200, 0x300, 2, 2)])
                .text(0x200, &[0x80, 0x41])
                .write(0x300, &[0x8001]);
            s.write(0x100, &[0xAA00, 0x0001])
                .write(0x106, &[0x7F00, 0x0201, 0x5500, 0x0301]);
        },
    );
    set.sketch("null-first-row-link", "end rows 2 words 7", |s| {
        s.write(0x12, &[0x0001]).done()
    });
}

/// Refusal 14: M4 with enable and window of soft scroll. A draw makes no shift call.
fn scrolls(set: &mut Set) {
    let fourteen = "refused 14 row 0 at 000000";
    set.sketch("scroll-enable-and-window", fourteen, |s| {
        s.write(0x18, &[0x5000]).done()
    });
    set.sketch("scroll-before-missing-window-block", fourteen, |s| {
        s.tow = 0x7FFC;
        s.write(0x18, &[0xFFFF]).done()
    });
    set.sketch(
        "scroll-after-missing-main-block-part",
        "refused 7 row 0 at 008000 from 000000",
        |s| {
            s.top = [0, 0x7FF4];
            s.write(0x7FFC, &[0x7000]).done()
        },
    );
    set.sketch("scroll-enabled-draws-unshifted", "end rows 2 words", |s| {
        s.row(0x100, 0x100, &[(0x200, 0, 2, 2)]).text(0x200, b"AB");
        s.write(0x18, &[0xEFFF]).done()
    });
    set.sketch("scroll-window-without-enable", "end rows 2 words", |s| {
        s.row(0x100, 0x100, &[(0x200, 0, 2, 2)]).text(0x200, b"AB");
        s.write(0x18, &[0xBFFF]).done()
    });
}

/// Refusal 7 through every kind of pointer, told by the address where that begins.
fn pointers(set: &mut Set) {
    set.sketch("from-m0", "refused 7 row 0 at 009000 from 000010", |s| {
        s.write(0x12, &[0x9000]).done()
    });
    set.sketch(
        "from-row-link",
        "refused 7 row 1 at 009000 from 000100",
        |s| {
            s.row(0x100, 0x9000, &[(0x200, 0, 2, 2)])
                .text(0x200, b"AB")
                .done()
        },
    );
    set.sketch(
        "from-redefinition-last-word",
        "refused 7 row 0 at 008000 from 000106",
        |s| {
            s.block(0x100, 0x9000, Some(0x7FFC), &[(0x9100, 0x9200, 2, 2)])
                .done()
        },
    );
    set.sketch(
        "from-code-pointer-after-redefinition",
        "refused 7 row 0 at 009000 from 000114",
        |s| {
            s.block(0x100, 0, Some(0), &[(0x200, 0, 2, 2), (0x9000, 0, 2, 2)])
                .text(0x200, b"AB")
                .done()
        },
    );
    set.sketch(
        "from-attribute-pointer-of-second-segment",
        "refused 7 row 0 at 009000 from 000114",
        |s| {
            s.row(0x100, 0, &[(0x200, 0, 1, 1), (0x202, 0x9000, 2, 2)])
                .text(0x200, &[0x41, 0, 0x42, 0x80])
                .done()
        },
    );
    set.sketch(
        "from-fill-word-of-null-code",
        "refused 7 row 0 at 008000 from 00010A",
        |s| {
            s.fill_flag = true;
            s.row(0x100, 0, &[(0, 0x7FFE, 0, 2)])
                .write(0x7FFE, &[0x8001])
                .done()
        },
    );
    set.sketch(
        "from-fill-word-of-last-segment-drawn",
        "refused 7 row 0 at 009000 from 00010A",
        |s| {
            s.fill_flag = true;
            s.tow = 0x180;
            s.window(0x180, 0, 0, (0, 0), (2, 3))
                .row(0x100, 0, &[(0x200, 0x9000, 2, 2), (0, 0x300, 0, 2)])
                .text(0x200, b"AB")
                .done()
        },
    );
    set.sketch(
        "from-window-link",
        "refused 7 row 1 at 009000 from 000180",
        |s| {
            s.tow = 0x180;
            s.window(0x180, 0x9000, 0, (0, 0), (0, 1)).done()
        },
    );
    set.sketch(
        "from-row-pointer-of-second-window",
        "refused 7 row 1 at 009000 from 000194",
        |s| {
            s.tow = 0x180;
            s.window(0x180, 0x190, 0, (0, 0), (0, 1))
                .window(0x190, 0, 0x9000, (1, 1), (0, 1))
                .done()
        },
    );
    set.sketch(
        "from-window-row-link",
        "refused 7 row 1 at 009000 from 0001A0",
        |s| {
            s.tow = 0x180;
            s.window(0x180, 0, 0x1A0, (0, 1), (0, 1))
                .row(0x1A0, 0x9000, &[(0x210, 0, 2, 2)])
                .text(0x210, b"WX")
                .done()
        },
    );
    set.sketch(
        "from-code-pointer-in-window",
        "refused 7 row 0 at 009000 from 0001A6",
        |s| {
            // Bit 15 of the count word is ignored: the first segment follows it.
            s.tow = 0x180;
            s.window(0x180, 0, 0x1A0, (0, 0), (0, 1))
                .row(0x1A0, 0, &[(0x9000, 0, 2, 2)])
                .write(0x1A4, &[0x8001])
                .done()
        },
    );
    set.sketch(
        "from-attribute-pointer-in-window",
        "refused 7 row 0 at 008000 from 0001B4",
        |s| {
            s.tow = 0x180;
            s.window(0x180, 0, 0x1A0, (0, 0), (0, 3))
                .row(0x1A0, 0, &[(0x210, 0, 1, 1), (0x212, 0x7FFE, 2, 2)])
                .text(0x210, &[0x57, 0, 0x80, 0x81])
                .write(0x7FFE, &[0x8001])
                .done()
        },
    );
    set.sketch(
        "from-fill-word-in-window",
        "refused 7 row 0 at 009000 from 0001AA",
        |s| {
            s.fill_flag = true;
            s.tow = 0x180;
            s.window(0x180, 0, 0x1A0, (0, 0), (0, 3))
                .row(0x1A0, 0, &[(0x210, 0x9000, 2, 2)])
                .text(0x210, b"WX")
                .done()
        },
    );
    set.sketch(
        "from-segmented-link-with-ignored-bits",
        "refused 17 row 0 at 000000",
        |s| {
            s.segmented = true;
            s.row(0x100, 0x1_0010, &[(0x200, 0, 2, 2)])
                .text(0x200, b"AB")
                .write(0x100, &[0x81FF, 0x0011])
                .done()
        },
    );
}

/// Cells that name their window along the chain.
fn numbers(set: &mut Set) {
    set.sketch("number-of-each-window", "end rows 5 words", |s| {
        s.tow = 0x180;
        s.lines = 5;
        s.window(0x180, 0x190, 0x1B0, (0, 0), (0, 2))
            .window(0x190, 0x1A0, 0x1B0, (1, 2), (3, 5))
            .window(0x1A0, 0, 0x1B0, (3, 3), (6, 7))
            .row(0x1B0, 0, &[(0x210, 0, 2, 2)])
            .row(0x100, 0x100, &[])
            .text(0x210, b"WX")
            .done()
    });
    set.sketch(
        "number-goes-on-after-window-without-segments",
        "end rows 3 words",
        |s| {
            s.tow = 0x180;
            s.lines = 3;
            s.fill_flag = true;
            s.cursor = Some((1, 1));
            s.window(0x180, 0x190, 0, (0, 0), (0, 2))
                .window(0x190, 0, 0x1B0, (1, 1), (0, 3))
                .row(0x1B0, 0, &[(0x210, 0x300, 2, 2)])
                .text(0x210, &[0x57, 0x80])
                .write(0x300, &[0xC7FF, 0x8001])
                .done()
        },
    );
}

/// The screens above whose settings are segmented, which are refused 17 and no more, in linear form.
fn linear_twins(set: &mut Set) {
    // The words of a null TOP, segmented: linear, the low byte of the first is part of the address.
    set.sketch(
        "top-at-ff0000-under-ignored-bits-linear",
        "refused 7 row 0 at FF0000 from 000000",
        |s| s.top = [0x80FF, 1],
    );
    set.sketch(
        "missing-list-at-end-of-page-0-linear",
        "refused 7 row 0 at 00FFFE from 000106",
        |s| s.row(0x100, 0, &[(0xFFFE, 0, 4, 4)]).done(),
    );
    set.sketch(
        "missing-page-127-linear",
        "refused 7 row 0 at 7F0010 from 000106",
        |s| s.row(0x100, 0x7F_0010, &[(0x7F_0010, 0, 1, 1)]).done(),
    );
    // TOW, the window's two, its row's three, the redefinition's; those of "linear-pointers-with-ignored-bits" are the others.
    set.sketch(
        "linear-pointers-of-window-with-ignored-bits",
        "end rows 2 words",
        |s| {
            s.register(0x0B, 0x8000).register(0x0C, 0x0181);
            s.window(0x180, 0, 0x1A0, (0, 0), (2, 3))
                .write(0x180, &[0x7F00, 0x0001, 0xAA00, 0x01A1]);
            s.row(0x1A0, 0, &[(0x210, 0x310, 2, 2)])
                .write(0x1A0, &[0x5500, 0x0001])
                .write(0x1A6, &[0xFF00, 0x0211, 0x0100, 0x0311]);
            s.block(0x100, 0, Some(0x400), &[(0x200, 0x300, 2, 2)])
                .write(0x106, &[0xFE00, 0x0401]);
            s.text(0x200, &[0x80, 0x41])
                .text(0x210, &[0x57, 0x80])
                .write(0x300, &[0x8001])
                .write(0x310, &[0x8002])
                .write(0x400, &[0x002A, 0x0000, 0x0000]);
        },
    );
    set.sketch(
        "from-linear-link-with-ignored-bits",
        "refused 7 row 1 at 010010 from 000100",
        |s| {
            s.row(0x100, 0x1_0010, &[(0x200, 0, 2, 2)])
                .text(0x200, b"AB")
                .write(0x100, &[0x8101, 0x0011])
                .done()
        },
    );
}

impl Sketch {
    /// Ends a chain of calls.
    pub(crate) fn done(&mut self) {}
}
