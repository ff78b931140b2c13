//! The marked examples, sheet S, the misreadings, and random comparisons.

use crate::generate::{self, Case, Rng, Shape};
use crate::mail;
use crate::plain::{self, Notes};
use crate::rules::{
    self, effect, invokes, pointer, sheet, step, Edition, Effect, Fields, Interlace, Part, Pointer,
    Refusal, Row, Settings, Sheet, Start, State, Window, CELLS,
};
use crate::script::{self, UNSET};
use crate::scroll::{self, Scroll};
use crate::trail::PLACES;
use crate::vectors::{self, sheet_s};

const SHEET_S_OUTPUT: &str = "\
row 0 lines 8 attr 000 words 12
00100041 00500042 00100281 00000220
row 1 lines 8 attr 000 words 3
00000220 00000220 00000220 00000220
end rows 2 words 22
";

/// A start whose list is not looked at.
pub fn start(settings: &Settings, memory: &[u16], latch: u16) -> Result<Start, Refusal> {
    rules::start(settings, memory, latch, &mut [0; PLACES])
}

/// A row whose list is not looked at.
pub fn row(
    settings: &Settings,
    memory: &[u16],
    state: &mut State,
    buffer: &mut [u32],
) -> Result<Row, Refusal> {
    rules::row(settings, memory, state, buffer, &mut [0; PLACES])
}

fn output(bytes: &[u8]) -> String {
    String::from_utf8(script::run(bytes)).unwrap()
}

#[test]
fn s_whole_output() {
    assert_eq!(output(&sheet_s()), SHEET_S_OUTPUT);
}

/// A frame of one screen: linear, 132 columns, flag 8080, TOP at 0010, rows of one line.
pub fn wide() -> Settings {
    Settings {
        linear: true,
        flag: 0x8080,
        top: [0, 0x10],
        val: 16,
        vtot: 20,
        htc: 200,
        hsd: 1,
        htd: 133,
        ..UNSET
    }
}

/// Memory of the draw program's size with a main block at 0010, whose first row block is at 0100.
pub struct Board {
    pub memory: Vec<u16>,
}

impl Board {
    pub fn new(fill: u16) -> Board {
        let mut board = Board {
            memory: vec![0; script::MEMORY],
        };
        board.write(0x10, &[0, 0x100, 0, fill, 0, 0, 0]);
        board
    }

    pub fn write(&mut self, address: usize, words: &[u16]) -> &mut Board {
        self.memory[address / 2..address / 2 + words.len()].copy_from_slice(words);
        self
    }

    /// A row block with linear pointers below 10000 and segments (code, list, L, V).
    pub fn row(
        &mut self,
        address: usize,
        link: u16,
        segments: &[(u16, u16, u16, u16)],
    ) -> &mut Board {
        let mut words = vec![0, link, segments.len() as u16];
        for &(code, list, length, visible) in segments {
            words.extend([0, code, 0, list, length << 8 | visible]);
        }
        self.write(address, &words)
    }

    /// A window block.
    pub fn window(
        &mut self,
        address: usize,
        link: u16,
        first: u16,
        rows: (u16, u16),
        columns: (u16, u16),
    ) -> &mut Board {
        let words = [
            0,
            link,
            0,
            first,
            rows.0 << 8 | rows.1,
            columns.0 << 8 | columns.1,
        ];
        self.write(address, &words)
    }

    /// Rows of a first frame up to its end or first refusal.
    fn frame(&self, settings: &Settings) -> (Vec<(Row, [u32; CELLS])>, Option<Refusal>) {
        let mut rows = Vec::new();
        let ended = self.frame_from(settings, 0, &mut rows);
        (rows, ended.err())
    }

    /// A frame from a latch, its rows put into a list: the latch that it ends with, or a refusal.
    fn frame_from(
        &self,
        settings: &Settings,
        latch: u16,
        rows: &mut Vec<(Row, [u32; CELLS])>,
    ) -> Result<u16, Refusal> {
        let mut state = start(settings, &self.memory, latch)?.state;
        while state.fields.lines_left > 0 {
            let mut cells = [0; CELLS];
            let answer = row(settings, &self.memory, &mut state, &mut cells)?;
            rows.push((answer, cells));
        }
        Ok(state.latch)
    }

    /// The first row from a latch.
    fn first_row(&self, settings: &Settings, latch: u16) -> Result<[u32; CELLS], Refusal> {
        let mut state = start(settings, &self.memory, latch)?.state;
        let mut cells = [0; CELLS];
        row(settings, &self.memory, &mut state, &mut cells)?;
        Ok(cells)
    }

    fn first_effect(&self, settings: &Settings) -> Effect {
        let state = start(settings, &self.memory, 0).unwrap().state;
        effect(settings, &self.memory, &state.fields).0
    }
}

#[test]
fn p1_flag_e000() {
    assert!(invokes(0xE000, 0x1F));
    assert!(!invokes(0xE000, 0x20));
}

#[test]
fn p2_flag_ff7f() {
    assert!(invokes(0xFF7F, 0x7F));
    assert!(!invokes(0xFF7F, 0x7E));
}

#[test]
fn p3_address_step() {
    assert_eq!(step(0x00_FFFE), 0x01_0000);
    assert_eq!(step(0xFF_FFFE), 0);
}

#[test]
fn p4_pointer_first_word() {
    assert_eq!(pointer(0x0123, 0), 0x23_0000);
    assert_eq!(pointer(0xFF00, 1), 0);
}

#[test]
fn p5_p6_rows_of_s() {
    let s = script::parse(&sheet_s()).unwrap();
    let begun = start(&s.settings, &s.memory, 0).unwrap();
    assert_eq!(begun.words, 7);
    let mut state = begun.state;
    let mut cells = [7; CELLS];
    let first = row(&s.settings, &s.memory, &mut state, &mut cells).unwrap();
    let expected = Row {
        row: 0,
        lines: 8,
        attributes: 0,
        curs: 0,
        cure: 31,
        words: 12,
    };
    assert_eq!(first, expected);
    assert_eq!(cells[..4], [0x100041, 0x500042, 0x100281, 0x000220]);
    assert_eq!(cells[4..], [0x220; 128]);
    assert_eq!(state.latch, 0x8002);
    let second = row(&s.settings, &s.memory, &mut state, &mut cells).unwrap();
    assert_eq!(
        second,
        Row {
            row: 1,
            words: 3,
            ..expected
        }
    );
    assert_eq!(cells, [0x220; 132]);
    assert_eq!(state.fields.lines_left, 0);
    let refusal = row(&s.settings, &s.memory, &mut state, &mut cells).unwrap_err();
    assert_eq!(
        refusal,
        Refusal {
            number: 4,
            row: 2,
            address: 0,
            from: 0
        }
    );
}

#[test]
fn p7_timing_of_s() {
    let s = script::parse(&sheet_s()).unwrap();
    let got = sheet(&s.settings).unwrap();
    assert_eq!(got.even.parts(), [2, 2, 34, 32, 8, 44]);
    assert_eq!(got.even, got.odd);
    assert_eq!(got.lines, 16);
    assert_eq!((got.horizontal_sync, got.horizontal_period), (1, 8));
    assert_eq!((got.blank_rise, got.blank_fall), (6, 2));
    assert_eq!(got.invoking, 128);
}

/// P8's settings.
const P8: Settings = Settings {
    interlace: Interlace::Video,
    vsw: 5,
    vsd: 33,
    val: 513,
    vtot: 518,
    htc: 99,
    htd: 80,
    ..UNSET
};

/// The second edition: P8's settings with an odd HTD, in both fields.
#[test]
fn second_edition_interlaced() {
    for interlace in [Interlace::Video, Interlace::RepeatField] {
        let settings = Settings {
            interlace,
            htd: 81,
            edition: Edition::Z8052,
            ..P8
        };
        let got = sheet(&settings).unwrap();
        assert_eq!(got.even.parts(), [6, 33, 513, 480, 6, 525]);
        assert_eq!(got.odd.parts(), [6, 34, 514, 480, 5, 525]);
        let first = Settings {
            edition: Edition::Am8052,
            ..settings
        };
        let Sheet { even, odd, .. } = sheet(&first).unwrap();
        assert_eq!(even.parts(), [6, 34, 514, 480, 5, 525]);
        // Nothing else differs: lines for rows, clocks, invoking codes.
        assert_eq!(sheet(&first), Ok(Sheet { even, odd, ..got }));
    }
}

/// Mode none is as in the first edition.
#[test]
fn second_edition_without_interlace() {
    let s = script::parse(&sheet_s()).unwrap().settings;
    let second = Settings {
        edition: Edition::Z8052,
        ..s
    };
    assert_eq!(sheet(&second), sheet(&s));
}

#[test]
fn second_edition_refuses() {
    let second = Settings {
        edition: Edition::Z8052,
        ..P8
    };
    let number = |settings: &Settings| sheet(settings).map_err(|refusal| refusal.number);
    // An even HTD, interlaced only.
    assert_eq!(number(&second), Err(2));
    let none = Settings {
        interlace: Interlace::None,
        ..second
    };
    assert!(sheet(&none).is_ok());
    // Value bits outside the mask, in every mode.
    for interlace in [Interlace::None, Interlace::RepeatField, Interlace::Video] {
        for (flag, good) in [
            (0x0000, true),
            (0x8080, true),
            (0xFFFF, true),
            (0x8000, true),
            (0x8081, false),
            (0x0001, false),
            (0x7F80, false),
        ] {
            let second = Settings {
                interlace,
                flag,
                htd: 81,
                ..second
            };
            assert_eq!(number(&second).is_ok(), good, "{flag:04X}");
            assert!(sheet(&Settings {
                edition: Edition::Am8052,
                ..second
            })
            .is_ok());
        }
    }
    // In each call that judges settings.
    let board = Board::new(0x20);
    let bad = Settings {
        flag: 0x8081,
        edition: Edition::Z8052,
        ..wide()
    };
    let state = start(&wide(), &board.memory, 0).unwrap().state;
    assert_eq!(start(&bad, &board.memory, 0).unwrap_err().number, 2);
    let drawn = row(&bad, &board.memory, &mut state.clone(), &mut [0; CELLS]);
    assert_eq!(drawn.unwrap_err().number, 2);
    let (made, next) = effect(&bad, &board.memory, &state.fields);
    assert_eq!((made.clear, next), (made.set, None));
    assert!(matches!(
        made.clear,
        Part::Refuse(Refusal { number: 2, .. })
    ));
    let mut text = [0; 400];
    let written = crate::mail::write(&bad, &[0; CELLS], &mut text);
    assert_eq!(written.unwrap_err().number, 2);
}

/// Both editions, all modes and both fields: the parts make the field, and an interlaced one ends on a half line.
#[test]
fn fields_of_both_editions() {
    let mut rng = Rng::new(9);
    let mut interlaced = 0;
    for _ in 0..20_000 {
        let settings = generate::case(&mut rng, &Shape::words(100)).settings;
        let Ok(sheet) = sheet(&settings) else {
            continue;
        };
        for field in [sheet.even, sheet.odd] {
            let [sync, back, rise, active, front, length] = field.parts();
            assert_eq!(sync + back + active + front, length);
            assert_eq!(rise, back + active);
            let half = settings.interlace != Interlace::None;
            assert_eq!(length % 2 == 1, half);
            interlaced += u32::from(half && settings.edition == Edition::Z8052);
        }
        assert_eq!((sheet.even.field + sheet.odd.field) % 2, 0);
    }
    assert!(interlaced > 2_000);
}

#[test]
fn p8_timing_interlaced_video() {
    let settings = P8;
    let got = sheet(&settings).unwrap();
    assert_eq!(got.even.parts(), [6, 34, 514, 480, 5, 525]);
    assert_eq!(got.even, got.odd);
    assert_eq!(got.lines, 480);
    assert_eq!(got.invoking, 256);
    let half = Settings {
        interlace: Interlace::RepeatField,
        ..settings
    };
    assert_eq!(sheet(&half).unwrap().lines, 240);
    let refusal = Refusal {
        number: 2,
        row: 0,
        address: 0,
        from: 0,
    };
    for bad in [
        Settings { vsw: 4, ..settings },
        Settings {
            vsd: 32,
            ..settings
        },
        Settings {
            val: 512,
            ..settings
        },
        Settings {
            vtot: 519,
            ..settings
        },
        Settings {
            htc: 98,
            ..settings
        },
        Settings {
            vsw: 64,
            ..settings
        },
        Settings {
            htd: 133,
            htc: 255,
            ..settings
        },
        Settings {
            hsync: 99,
            ..settings
        },
    ] {
        assert_eq!(sheet(&bad), Err(refusal));
    }
    // Only the rules listed count: an even HTD is good.
    assert!(sheet(&Settings {
        htd: 81,
        ..settings
    })
    .is_ok());
}

#[test]
fn p9_ignored_and_display_hidden() {
    let mut board = Board::new(0x0020);
    board.row(0x100, 0, &[(0x200, 0x300, 3, 2)]);
    board
        .write(0x200, &[0x4180, 0x4200])
        .write(0x300, &[0xA000]);
    let cells = board.first_row(&wide(), 0).unwrap();
    assert_eq!(cells[..3], [0x100041, 0x20, 0x20]);
    let shown = Settings {
        display_hidden: true,
        ..wide()
    };
    let cells = board.first_row(&shown, 0).unwrap();
    assert_eq!(cells[..4], [0x100041, 0x100080, 0x100042, 0x20]);
}

#[test]
fn p10_effect_of_a_full_row() {
    let mut board = Board::new(0x0120);
    board.row(0x100, 0, &[(0x200, 0x300, 132, 132)]);
    board.write(0x200, &[0x4141; 66]).write(0x300, &[0x8004]);
    let expected = Effect {
        clear: Part::Keep,
        set: Part::Set(0x8004),
    };
    assert_eq!(board.first_effect(&wide()), expected);
    assert_eq!(expected.apply(0x1234), Ok(0x1234));
    assert_eq!(expected.apply(0x2234), Ok(0x8004));
}

#[test]
fn p11_widths() {
    let mut board = Board::new(0x0020);
    board.row(0x100, 0, &[(0, 0, 0, 100), (0, 0, 0, 32)]);
    assert!(board.first_row(&wide(), 0).is_ok());
    board.row(0x100, 0, &[(0, 0, 0, 100), (0, 0, 0, 33)]);
    assert_eq!(
        board.first_row(&wide(), 0),
        Err(Refusal {
            number: 10,
            row: 0,
            address: 0,
            from: 0
        })
    );
}

#[test]
fn p12_window_rows() {
    let mut board = Board::new(0x0020);
    board.window(0x400, 0, 0, (3, 3), (0, 131));
    let settings = Settings {
        tow: [0, 0x400],
        ..wide()
    };
    let (rows, refusal) = board.frame(&settings);
    assert_eq!((rows.len(), refusal), (16, None));
    board
        .window(0x400, 0x420, 0, (3, 3), (0, 131))
        .window(0x420, 0, 0, (3, 5), (0, 131));
    let (rows, refusal) = board.frame(&settings);
    assert_eq!(rows.len(), 4);
    assert_eq!(
        refusal,
        Some(Refusal {
            number: 8,
            row: 4,
            address: 0,
            from: 0
        })
    );
}

// The misreadings.

#[test]
fn unlatched_word_does_not_end_a_latched_ignore() {
    let mut board = Board::new(0x0020);
    // A latched ignore, an unlatched visible word, then a plain code that stays hidden.
    board.row(0x100, 0, &[(0x200, 0x300, 4, 4)]);
    board
        .write(0x200, &[0x8081, 0x4243])
        .write(0x300, &[0xA000, 0x0005]);
    let cells = board.first_row(&wide(), 0).unwrap();
    assert_eq!(cells[..3], [0x100581, 0x20, 0x20]);
}

#[test]
fn dropped_characters_still_latch() {
    let mut board = Board::new(0x0020);
    board.row(0x100, 0, &[(0x200, 0x300, 3, 1), (0x210, 0, 1, 1)]);
    board
        .write(0x200, &[0x4142, 0x8000])
        .write(0x210, &[0x4300])
        .write(0x300, &[0x8003]);
    let cells = board.first_row(&wide(), 0).unwrap();
    assert_eq!(cells[..3], [0x100041, 0x100343, 0x320]);
    // Also in a segment of no width.
    board.row(0x100, 0, &[(0x200, 0x300, 3, 0), (0x210, 0, 1, 1)]);
    let cells = board.first_row(&wide(), 0).unwrap();
    assert_eq!(cells[..2], [0x100343, 0x320]);
    assert_eq!(board.first_effect(&wide()).clear, Part::Set(0x8003));
}

#[test]
fn segments_under_a_window_are_not_read() {
    let mut board = Board::new(0x0020);
    board
        .window(0x400, 0, 0x420, (0, 0), (1, 2))
        .row(0x420, 0, &[(0x220, 0, 2, 2)]);
    // The covered segment would latch 8007; its codes even lie outside memory.
    board.row(
        0x100,
        0,
        &[(0x200, 0, 1, 1), (0xFFF0, 0x300, 2, 2), (0x210, 0, 1, 1)],
    );
    board
        .write(0x200, &[0x4100])
        .write(0x210, &[0x4400])
        .write(0x220, &[0x5758]);
    board.write(0x300, &[0x8007]);
    let settings = Settings {
        tow: [0, 0x400],
        ..wide()
    };
    let (rows, refusal) = board.frame(&settings);
    assert_eq!(refusal, None);
    assert_eq!(
        rows[0].1[..5],
        [0x100041, 0x200057, 0x200058, 0x100044, 0x20]
    );
    // 18 words of the row block, 8 of the window row block, three of codes.
    assert_eq!(rows[0].0.words, 29);
}

#[test]
fn an_effect_has_two_parts() {
    // From ignore clear the row is full; from ignore set a fill word is taken, and a wrong
    // one refuses in that part alone.
    let mut board = Board::new(0x0120);
    board.row(0x100, 0, &[(0x200, 0x300, 132, 132)]);
    board.write(0x200, &[0x4141; 66]).write(0x300, &[0x0004]);
    let refusal = Refusal {
        number: 13,
        row: 0,
        address: 0x300,
        from: 0,
    };
    let expected = Effect {
        clear: Part::Keep,
        set: Part::Refuse(refusal),
    };
    assert_eq!(board.first_effect(&wide()), expected);
    assert_eq!(board.first_row(&wide(), 0x2000), Err(refusal));
    assert!(board.first_row(&wide(), 0).is_ok());
}

// Places settled beside the rules.

#[test]
fn fill_runs_that_touch_take_a_word_each() {
    let mut board = Board::new(0x0120);
    board.row(0x100, 0, &[(0, 0x300, 0, 2)]);
    board.write(0x300, &[0x8001, 0x8002, 0x8003]);
    let cells = board.first_row(&wide(), 0).unwrap();
    assert_eq!(cells[..4], [0x120, 0x120, 0x220, 0x220]);
    // A window past the sum makes the last run two.
    board.window(0x400, 0, 0, (0, 0), (4, 5));
    let settings = Settings {
        tow: [0, 0x400],
        ..wide()
    };
    let cells = board.first_row(&settings, 0).unwrap();
    assert_eq!(
        cells[..7],
        [0x120, 0x120, 0x220, 0x220, 0x220, 0x220, 0x320]
    );
    assert_eq!(cells[131], 0x320);
}

#[test]
fn segments_of_no_width_at_the_edges_are_covered() {
    let mut board = Board::new(0x0020);
    board
        .write(0x200, &[0x8000])
        .write(0x310, &[0x8001])
        .write(0x320, &[0x8002]);
    board.write(0x330, &[0x8003]);
    board.row(
        0x100,
        0,
        &[
            (0, 0, 0, 2),
            (0x200, 0x310, 1, 0),
            (0, 0, 0, 2),
            (0x200, 0x320, 1, 0),
            (0, 0, 0, 3),
        ],
    );
    board.window(0x400, 0, 0, (0, 0), (2, 3));
    let settings = Settings {
        tow: [0, 0x400],
        ..wide()
    };
    assert_eq!(board.first_effect(&settings).clear, Part::Keep);
    assert_eq!(board.first_effect(&wide()).clear, Part::Set(0x8002));
    // One column further the first of them is drawn.
    board.window(0x400, 0, 0, (0, 0), (4, 6));
    assert_eq!(board.first_effect(&settings).clear, Part::Set(0x8001));
}

#[test]
fn lists_wrap() {
    // From FFFFFE to the first word.
    let mut board = Board::new(0x0020);
    board.memory.resize(0x80_0000, 0);
    board
        .row(0x100, 0, &[(0xFFFE, 0, 4, 4)])
        .write(0x106, &[0xFF])
        .write(0xFF_FFFE, &[0x4142])
        .write(0, &[0x4344]);
    let cells = board.first_row(&wide(), 0).unwrap();
    assert_eq!(cells[..4], [0x100041, 0x100042, 0x100043, 0x100044]);
    // From the end of a page to the next one.
    board.memory.truncate(0x8000);
    board.write(0x106, &[0]);
    let missing = Refusal {
        number: 7,
        row: 0,
        address: 0x1_0000,
        from: 0x106,
    };
    assert_eq!(board.first_row(&wide(), 0), Err(missing));
    assert_eq!(board.first_effect(&wide()).set, Part::Refuse(missing));
}

#[test]
fn fill_words_wrap_to_a_place_that_is_no_null() {
    // The list's second word lies at 0: still a list.
    let mut board = Board::new(0x0120);
    board.memory.resize(0x80_0000, 0);
    board
        .row(0x100, 0, &[(0, 0xFFFE, 0, 2)])
        .write(0x10A, &[0xFF])
        .write(0xFF_FFFE, &[0x8001])
        .write(0, &[0x8002]);
    let cells = board.first_row(&wide(), 0).unwrap();
    assert_eq!(cells[..3], [0x120, 0x120, 0x220]);
}

#[test]
fn joining_effects() {
    let refusal = Refusal {
        number: 13,
        row: 2,
        address: 6,
        from: 0,
    };
    let keep = Effect::EMPTY;
    let a = Effect {
        clear: Part::Set(0x2001),
        set: Part::Keep,
    };
    let b = Effect {
        clear: Part::Refuse(refusal),
        set: Part::Set(0x8001),
    };
    let c = Effect {
        clear: Part::Keep,
        set: Part::Refuse(refusal),
    };
    assert_eq!(
        a.join(b),
        Effect {
            clear: Part::Set(0x8001),
            set: Part::Set(0x8001)
        }
    );
    assert_eq!(
        a.join(c),
        Effect {
            clear: Part::Refuse(refusal),
            set: Part::Refuse(refusal)
        }
    );
    assert_eq!(a.join(keep), a);
    assert_eq!(keep.join(a), a);
    let a_again = Effect {
        clear: Part::Set(0x0001),
        set: Part::Keep,
    };
    assert_eq!(
        a_again.join(c),
        Effect {
            clear: Part::Set(0x0001),
            set: Part::Refuse(refusal)
        }
    );
    for x in [keep, a, b, c] {
        for y in [keep, a, b, c] {
            for z in [keep, a, b, c] {
                assert_eq!(x.join(y).join(z), x.join(y.join(z)));
            }
        }
    }
}

/// The latch of a frame's last row is that of the next one's first characters; a refused frame
/// hands on the latch that it was started with.
#[test]
fn frames_in_turn() {
    let settings = wide();
    let mut board = Board::new(0x0020);
    board
        .row(0x100, 0x110, &[(0x200, 0, 2, 2)])
        .row(0x110, 0, &[(0x210, 0x300, 2, 2)])
        .write(0x200, &[0x4142])
        .write(0x210, &[0x8043])
        .write(0x300, &[0x8002]);
    let draw = |board: &Board, latch| {
        let mut rows = Vec::new();
        let ended = board.frame_from(&settings, latch, &mut rows);
        (ended.unwrap_or(latch), rows)
    };
    let (latch, rows) = draw(&board, 0);
    assert_eq!(latch, 0x8002);
    assert_eq!(rows[0].1[..3], [0x100041, 0x100042, 0x20]);
    let (latch, rows) = draw(&board, latch);
    assert_eq!(latch, 0x8002);
    assert_eq!(rows[0].1[..3], [0x100241, 0x100242, 0x220]);
    // Row 1 latches, row 2 is refused.
    board.write(0x112, &[0xF000]);
    let (latch, rows) = draw(&board, 0x1234);
    assert_eq!((latch, rows.len()), (0x1234, 2));
    // A refused start.
    board.memory.truncate(8);
    let (latch, rows) = draw(&board, latch);
    assert_eq!((latch, rows.len()), (0x1234, 0));
}

/// The refusal of a frame of this board.
fn refusal_of(settings: &Settings, draw: impl FnOnce(&mut Board)) -> Refusal {
    let mut board = Board::new(0x0020);
    draw(&mut board);
    let (_, refusal) = board.frame(settings);
    refusal.expect("a refusal")
}

fn missing(row: u32, address: u32, from: u32) -> Refusal {
    Refusal {
        number: 7,
        row,
        address,
        from,
    }
}

/// A missing word tells where the pointer in use begins.
#[test]
fn who_pointed_there() {
    let at = |settings: &Settings, draw: fn(&mut Board)| refusal_of(settings, draw);
    let (plain, far) = (wide(), 0x9000);
    let windows = Settings {
        tow: [0, 0x400],
        ..wide()
    };
    // Registers: 0.
    for top in [[0, 0x9000], [0, 0x7FF6]] {
        let gone = at(&Settings { top, ..plain }, |_| {});
        assert_eq!(gone, missing(0, gone.address, 0));
    }
    let tow = [0, 0x9000];
    assert_eq!(at(&Settings { tow, ..plain }, |_| {}), missing(0, far, 0));
    // M0, a row link, a redefinition.
    let m0 = at(&plain, |b| {
        b.write(0x10, &[0, 0x9000]);
    });
    assert_eq!(m0, missing(0, far, 0x10));
    let link = at(&plain, |b| {
        b.row(0x100, 0x9000, &[]);
    });
    assert_eq!(link, missing(1, far, 0x100));
    let redefinition = at(&plain, |b| {
        b.write(
            0x100,
            &[0, 0, 0x8001, 0, 0x9000, 0, 0x9100, 0, 0x9200, 0x101],
        );
    });
    assert_eq!(redefinition, missing(0, far, 0x106));
    // Lists: of the second segment, without and with a redefinition pointer before it.
    let codes = at(&plain, |b| {
        b.row(0x100, 0, &[(0x200, 0, 2, 2), (0x9000, 0, 2, 2)]);
    });
    assert_eq!(codes, missing(0, far, 0x110));
    let after = at(&plain, |b| {
        b.write(0x100, &[0, 0, 0x8002, 0, 1, 0, 0x200, 0, 0, 0x101]);
        b.write(0x114, &[0, 0x9000, 0, 0, 0x101]);
    });
    assert_eq!(after, missing(0, far, 0x114));
    let attributes = at(&plain, |b| {
        b.row(0x100, 0, &[(0x200, 0, 2, 2), (0x210, 0x9000, 2, 2)])
            .write(0x210, &[0x8080]);
    });
    assert_eq!(attributes, missing(0, far, 0x114));
    // Fill words: a list's own pointer, however far it was read.
    let fill = |b: &mut Board| {
        b.write(0x16, &[0x120])
            .row(0x100, 0, &[(0x210, 0x7FFE, 2, 2)])
            .write(0x210, &[0x4180])
            .write(0x7FFE, &[0x8001]);
    };
    assert_eq!(at(&plain, fill), missing(0, 0x8000, 0x10A));
    // Windows: the link of the one before, its rows' pointer, a window row's link, its lists.
    let next = at(&windows, |b| {
        b.window(0x400, 0x9000, 0, (0, 1), (0, 1));
    });
    assert_eq!(next, missing(2, far, 0x400));
    let first = at(&windows, |b| {
        b.window(0x400, 0, 0x9000, (1, 1), (0, 1));
    });
    assert_eq!(first, missing(1, far, 0x404));
    let rows = at(&windows, |b| {
        b.window(0x400, 0, 0x420, (1, 2), (0, 1))
            .row(0x420, 0x9000, &[]);
    });
    assert_eq!(rows, missing(2, far, 0x420));
    let inside = at(&windows, |b| {
        b.window(0x400, 0, 0x420, (0, 0), (0, 3))
            .row(0x420, 0, &[(0, 0, 0, 1), (0x9000, 0, 2, 2)])
            .write(0x424, &[0x8002]);
    });
    assert_eq!(inside, missing(0, far, 0x430));
    let list = at(&windows, |b| {
        b.window(0x400, 0, 0x420, (0, 0), (0, 3))
            .row(0x420, 0, &[(0x210, 0x9000, 2, 2)])
            .write(0x210, &[0x8080]);
    });
    assert_eq!(list, missing(0, far, 0x42A));
}

/// Pointers begin where the step comes to: after a page's last word in the next page, after FFFFFE at 0.
#[test]
fn pointers_begin_after_a_step() {
    // A block at FFFA whose first segment begins at 10000, and the list's pointer at 10004; page 2 is not there.
    let mut board = Board::new(0x0120);
    board.memory.resize(0x1_0000, 0);
    board.write(0x10, &[0, 0xFFFA]).write(0xFFFA, &[0, 0, 1]);
    board.write(0x1_0000, &[2, 0, 0, 0, 0x0202]);
    let refusal = board.first_row(&wide(), 0).unwrap_err();
    assert_eq!(refusal, missing(0, 0x2_0000, 0x1_0000));
    board.write(0x1_0000, &[0, 0, 2, 0, 0x0202]);
    let refusal = board.first_row(&wide(), 0).unwrap_err();
    assert_eq!(refusal, missing(0, 0x2_0000, 0x1_0004));
    // A redefinition's pointer at 10000.
    board
        .write(0xFFFA, &[0, 0, 0x8000])
        .write(0x1_0000, &[2, 0, 0, 0, 0]);
    let refusal = board.first_row(&wide(), 0).unwrap_err();
    assert_eq!(refusal, missing(0, 0x2_0000, 0x1_0000));

    // In all that 24 bits address: a window block at FFFFFC has its second pointer at 0.
    let mut board = Board::new(0x0020);
    board.memory.resize(0x80_0000, 0);
    board
        .write(0xFF_FFFC, &[0, 0x500])
        .write(0, &[0, 0x600, 0x0003, 0x0001]);
    let settings = Settings {
        tow: [0xFF, 0xFFFC],
        ..wide()
    };
    let state = start(&settings, &board.memory, 0).unwrap().state;
    let window = state.fields.window.unwrap();
    let pointer = |address, from| Pointer { address, from };
    assert_eq!(state.fields.next_row, pointer(0x100, 0x10));
    assert_eq!(window.next_block, pointer(0x500, 0xFF_FFFC));
    assert_eq!(window.next_row, pointer(0x600, 0));
}

/// A state's addresses of pointers: those that are refused, and that the others are believed.
#[test]
fn pointers_of_states() {
    let mut board = Board::new(0x0020);
    board
        .window(0x400, 0, 0x420, (0, 3), (0, 1))
        .row(0x420, 0, &[]);
    let settings = Settings {
        tow: [0, 0x400],
        ..wide()
    };
    let begun = start(&settings, &board.memory, 0).unwrap().state;
    let places: [fn(&mut State) -> &mut Pointer; 3] = [
        |state| &mut state.fields.next_row,
        |state| &mut state.fields.window.as_mut().unwrap().next_row,
        |state| &mut state.fields.window.as_mut().unwrap().next_block,
    ];
    let number = |place: fn(&mut State) -> &mut Pointer, address, from| {
        let mut state = begun;
        *place(&mut state) = Pointer { address, from };
        let answer = row(&settings, &board.memory, &mut state, &mut [0; CELLS]);
        let parts = effect(&settings, &board.memory, &state.fields).0;
        match answer {
            Ok(_) => 0,
            Err(refusal) => {
                assert_eq!(parts.clear, Part::Refuse(refusal));
                refusal.number
            }
        }
    };
    for place in places {
        for from in [1, 0x11, 0xFF_FFFF, 0x100_0000, u32::MAX, 0x8000_0000] {
            assert_eq!(number(place, 0x420, from), 3, "{from:X}");
            assert_eq!(number(place, 0, from), 3, "{from:X}");
        }
        for from in [0, 2, 0xFF_FFFE] {
            assert_eq!(number(place, 0x420, from), 0);
            let beside_null = if from == 0 { 0 } else { 3 };
            assert_eq!(number(place, 0, from), beside_null);
        }
    }
    // Believed as it stands.
    let mut state = begun;
    state.fields.next_row = Pointer {
        address: 0x9000,
        from: 0xABC_DE0,
    };
    let answer = row(&settings, &board.memory, &mut state, &mut [0; CELLS]);
    assert_eq!(answer.unwrap_err(), missing(0, 0x9000, 0xABC_DE0));
    // No window: its pointers do not matter. A passed one's are judged too.
    state.fields.row = 9;
    state.fields.next_row = begun.fields.next_row;
    state.fields.window.as_mut().unwrap().next_row.from = 1;
    let answer = row(&settings, &board.memory, &mut state, &mut [0; CELLS]);
    assert_eq!(answer.unwrap_err().number, 3);
}

/// Cells name their window along the chain; its fill does not.
#[test]
fn windows_are_numbered() {
    let mut board = Board::new(0x0020);
    let settings = Settings {
        tow: [0, 0x400],
        ..wide()
    };
    // Windows on rows 0, 2 to 3 and 4; the second has no segments.
    board
        .window(0x400, 0x410, 0x440, (0, 0), (0, 2))
        .window(0x410, 0x420, 0, (2, 3), (0, 2))
        .window(0x420, 0, 0x440, (4, 4), (1, 3))
        .row(0x440, 0, &[(0x200, 0, 2, 2)])
        .row(0x100, 0x100, &[(0x200, 0, 1, 1)])
        .write(0x200, &[0x4142]);
    let (rows, refusal) = board.frame(&settings);
    assert_eq!(refusal, None);
    let shown = |row: usize| &rows[row].1[..5];
    assert_eq!(shown(0), [0x0020_0041, 0x0020_0042, 0x20, 0x20, 0x20]);
    assert_eq!(shown(1), [0x0010_0041, 0x20, 0x20, 0x20, 0x20]);
    assert_eq!(shown(2), [0x20; 5]);
    assert_eq!(shown(3), [0x20; 5]);
    assert_eq!(
        shown(4),
        [0x0010_0041, 0x0220_0041, 0x0220_0042, 0x20, 0x20]
    );
    assert_eq!(shown(5), shown(1));
}

/// A state's number: what follows it in the chain goes on from there, blocks read but never shown too.
#[test]
fn numbers_of_states() {
    let mut board = Board::new(0x0020);
    board
        .window(0x410, 0x420, 0x440, (6, 7), (0, 1))
        .window(0x420, 0, 0x440, (8, 255), (0, 1))
        .row(0x440, 0x440, &[(0x200, 0, 2, 2)])
        .write(0x200, &[0x4142]);
    let settings = wide();
    let mut state = start(&settings, &board.memory, 0).unwrap().state;
    state.fields.row = 20;
    state.fields.window = Some(Window {
        first_row: 5,
        last_row: 5,
        first_column: 0,
        last_column: 0,
        next_row: Pointer {
            address: 0,
            from: 0,
        },
        next_block: Pointer {
            address: 0x410,
            from: 0,
        },
        number: 5,
    });
    let mut cells = [0; CELLS];
    // The one read in row 20 has passed too.
    row(&settings, &board.memory, &mut state, &mut cells).unwrap();
    assert_eq!(cells[0], 0x20);
    assert_eq!(state.fields.window.unwrap().number, 6);
    row(&settings, &board.memory, &mut state, &mut cells).unwrap();
    assert_eq!(cells[..2], [0x0720_0041, 0x0720_0042]);
    assert_eq!(state.fields.window.unwrap().number, 7);
    // A number above its window's first row is out of range.
    for (number, refused) in [(8, None), (9, Some(3)), (255, Some(3)), (256, Some(3))] {
        let mut state = state;
        state.fields.window.as_mut().unwrap().number = number;
        let answer = row(&settings, &board.memory, &mut state, &mut cells);
        assert_eq!(answer.err().map(|refusal| refusal.number), refused);
        if refused.is_none() {
            assert_eq!(cells[0], number << 24 | 0x20_0041);
        }
    }
    // The highest: 255 on row 255.
    let window = state.fields.window.as_mut().unwrap();
    (window.first_row, window.number) = (255, 255);
    state.fields.row = 255;
    row(&settings, &board.memory, &mut state, &mut cells).unwrap();
    assert_eq!(cells[1], 0xFF20_0042);
}

#[test]
fn refused_scripts() {
    let refused = |bytes: &[u8]| output(bytes);
    assert_eq!(refused(&[]), "refused script at 0\n");
    assert_eq!(refused(&[4]), "refused script at 0\n");
    assert_eq!(refused(&[3, 0x0C, 0]), "refused script at 0\n");
    assert_eq!(refused(&[3, 0xE0]), "refused script at 2\n");
    assert_eq!(refused(&[3, 0, 1, 0x19, 0, 0, 0]), "refused script at 2\n");
    assert_eq!(refused(&[3, 0, 1, 0x19, 0]), "refused script at 5\n");
    assert_eq!(refused(&[2, 0, 0, 1, 0, 0, 9]), "refused script at 0\n");
    assert_eq!(refused(&[2, 0, 0, 1, 0]), "refused script at 5\n");
    assert_eq!(
        refused(&[2, 0, 0x7F, 0xFE, 0, 0, 9]),
        "refused script at 6\n"
    );
    assert_eq!(refused(&[2, 0, 0x80, 0, 0, 0, 9]), "refused script at 0\n");
    assert_eq!(refused(&[2, 1, 0, 0, 0, 0, 9]), "refused script at 0\n");
    assert_eq!(refused(&[0, 9, 9]), "refused 2 row 0 at 000000\n");
}

/// 17 just after 2, in each call that draws or shifts; in a row with the state's row.
#[test]
fn segmented_settings() {
    let board = Board::new(0x0020);
    let state = start(&wide(), &board.memory, 0).unwrap().state;
    let segmented = Settings {
        linear: false,
        ..wide()
    };
    let bad = Settings {
        vsd: 99,
        ..segmented
    };
    // A null TOP, a state out of range in row 9, a scroll out of range: 6 and 3 come after.
    let no_top = Settings {
        top: [0x00FF, 0],
        ..segmented
    };
    let mut odd = state;
    (odd.fields.row, odd.fields.scan_lines) = (9, 33);
    let scroll = Scroll {
        shift: 99,
        phase: 0,
        direction: 0,
    };
    for (settings, number) in [(&segmented, 17), (&no_top, 17), (&bad, 2)] {
        let told = |row| Refusal {
            number,
            row,
            address: 0,
            from: 0,
        };
        assert_eq!(start(settings, &board.memory, 0).err(), Some(told(0)));
        for state in [state, odd] {
            let (mut after, mut cells) = (state, [7; CELLS]);
            let told = told(state.fields.row);
            let refused = row(settings, &board.memory, &mut after, &mut cells);
            assert_eq!(refused, Err(told));
            assert_eq!((after, cells), (state, [7; CELLS]));
            let part = Part::Refuse(told);
            let both = Effect {
                clear: part,
                set: part,
            };
            let effect = effect(settings, &board.memory, &state.fields);
            assert_eq!(effect, (both, None));
        }
        let shifted = scroll::shift(settings, &board.memory, [0, 0], &scroll);
        assert_eq!(shifted, Err(told(0)));
    }
    // The sheet, and a row's text for mail, have it not.
    assert_eq!(sheet(&segmented), sheet(&wide()));
    let text = |settings| {
        let mut text = [0; 2000];
        let length = mail::write(settings, &[0x41; CELLS], &mut text);
        (length, text)
    };
    assert_eq!(text(&segmented), text(&wide()));
}

#[test]
fn named_vectors() {
    let all = vectors::all();
    let mut names: Vec<&str> = all.iter().map(|vector| vector.name).collect();
    names.sort_unstable();
    names.dedup();
    assert_eq!(names.len(), all.len());
    let mut seen = std::collections::BTreeSet::new();
    for vector in &all {
        let text = String::from_utf8(vector.output()).unwrap();
        let last = text.lines().last().unwrap();
        assert!(
            last.starts_with(vector.last_line),
            "{}: {last}",
            vector.name
        );
        assert!(vector.script.len() < 2000, "{}", vector.name);
        seen.insert(last.split(' ').take(2).collect::<Vec<_>>().join(" "));
    }
    for number in [2, 6, 7, 8, 9, 10, 11, 12, 13, 14, 17] {
        assert!(seen.contains(&format!("refused {number}")));
    }
}

// Random comparisons.

fn begin(case: &Case) -> Option<State> {
    match case.state {
        Some(state) => Some(state),
        None => start(&case.settings, &case.memory, 0)
            .ok()
            .map(|start| start.state),
    }
}

/// What random cases came to.
#[derive(Debug, Default)]
struct Tally {
    /// Calls by refusal number, accepted rows at 0.
    calls: [u32; 26],
    rows_with_window: u32,
    /// Rows with a block or list that goes on in another page, and at 0 after FFFFFE.
    rows_over_a_page_end: u32,
    rows_with_wrap: u32,
    effects_with_two_words: u32,
    effects_refused_in_one_part: u32,
}

/// A list lent to calls, of up to 13,000 places, each of which has a mark of its own.
struct Lent {
    marks: Vec<u32>,
    list: Vec<u32>,
}

impl Lent {
    fn new() -> Lent {
        let marks: Vec<u32> = (0..13_000).map(|n| 0x8000_0001 + 2 * n).collect();
        Lent {
            list: marks.clone(),
            marks,
        }
    }

    /// Whether the addresses stand in the list, and every place past them as it was. It is then as it was.
    fn holds(&mut self, read: &[u32]) -> bool {
        let (list, rest) = self.list.split_at_mut(read.len());
        let (marks, rest_marks) = self.marks.split_at(read.len());
        let right = list == read && rest == rest_marks;
        list.copy_from_slice(marks);
        right
    }
}

/// Runs a case's calls, each held against the plain form, and tallies refusals.
fn compare_case(case: &Case, lent: &mut Lent, tally: &mut Tally) {
    let (settings, memory) = (&case.settings, &case.memory[..]);
    let mut notes = Notes::default();
    let by_plain = plain::start(settings, memory, 0, &mut notes);
    let words = notes.read.len() as u32;
    let by_plain = by_plain.map(|state| Start { state, words });
    let got = rules::start(settings, memory, 0, &mut lent.list[..PLACES]);
    assert_eq!(got, by_plain);
    assert!(lent.holds(if got.is_ok() { &notes.read } else { &[] }));
    if let Err(refusal) = by_plain {
        if case.state.is_none() {
            tally.calls[usize::from(refusal.number)] += 1;
        }
    }
    let Some(first) = begin(case) else {
        return;
    };
    let mut state = first;
    // Demand 3: the effects of the rows above, joined, and the fields that they come with.
    let mut joined = Effect::EMPTY;
    let mut reached: Fields = first.fields;
    for &(length, places) in &case.buffers {
        let mut buffer: Vec<u32> = (0..length as u32).map(|n| n.wrapping_mul(0x9E37)).collect();
        let (old_state, old_buffer) = (state, buffer.clone());
        let list = &mut lent.list[..places];
        let got = rules::row(settings, memory, &mut state, &mut buffer, list);
        if let Err(refusal) = got {
            assert_eq!((state, &buffer), (old_state, &old_buffer));
            assert!(lent.holds(&[]));
            assert_eq!(refusal.row, old_state.fields.row);
            tally.calls[usize::from(refusal.number)] += 1;
        } else {
            tally.calls[0] += 1;
        }
        if length != CELLS {
            assert_eq!(got.unwrap_err().number, 1);
            continue;
        }
        if places != PLACES {
            assert_eq!(got.unwrap_err().number, 25);
            continue;
        }
        let mut notes = Notes::default();
        match plain::row(settings, memory, &old_state, &mut notes) {
            Err(refusal) => assert_eq!(got, Err(refusal)),
            Ok(drawn) => {
                assert!(lent.holds(&notes.read));
                assert_eq!(got, Ok(drawn.answer));
                assert_eq!(state, drawn.next);
                assert_eq!(buffer, drawn.cells);
                assert!(drawn.answer.words < 12_000);
                tally.rows_with_window += u32::from(drawn.window);
                let goes_on = |end: fn(u32) -> bool| {
                    u32::from(notes.wanted.iter().any(|word| word.after.is_some_and(end)))
                };
                tally.rows_over_a_page_end += goes_on(|last| last & 0xFFFE == 0xFFFE);
                tally.rows_with_wrap += goes_on(|last| last == 0xFF_FFFE);
            }
        }
        match joined.apply(first.latch) {
            Err(refusal) => assert_eq!(got, Err(refusal)),
            Ok(latch) => {
                let mut alone = State {
                    latch,
                    fields: reached,
                };
                let mut cells = [0; CELLS];
                let list = &mut lent.list[..PLACES];
                let answer = rules::row(settings, memory, &mut alone, &mut cells, list);
                assert_eq!(answer, got);
                assert!(lent.holds(if got.is_ok() { &notes.read } else { &[] }));
                if got.is_ok() {
                    assert_eq!(alone, state);
                    assert_eq!(cells[..], buffer[..]);
                }
            }
        }
        let (one, next) = effect(settings, memory, &reached);
        let by_plain = plain::effect(settings, memory, &reached);
        assert_eq!((one, next), by_plain);
        match (one.clear, one.set) {
            (Part::Refuse(_), Part::Refuse(_)) => {}
            (Part::Refuse(_), _) | (_, Part::Refuse(_)) => tally.effects_refused_in_one_part += 1,
            (clear, set) => tally.effects_with_two_words += u32::from(clear != set),
        }
        joined = joined.join(one);
        reached = next.unwrap_or(reached);
    }
}

fn compare_shape(seed: u64, cases: usize, shape: impl Fn(&mut Rng) -> Shape) -> Tally {
    let mut rng = Rng::new(seed);
    let mut tally = Tally::default();
    let mut lent = Lent::new();
    for _ in 0..cases {
        let shape = shape(&mut rng);
        let case = generate::case(&mut rng, &shape);
        compare_case(&case, &mut lent, &mut tally);
    }
    tally
}

#[test]
fn random_small_memories() {
    let tally = compare_shape(1, 60_000, |rng| {
        let words = match rng.below(4) {
            0 => rng.range(1, 400),
            _ => rng.range(400, 6000),
        };
        Shape::words(words)
    });
    println!("small: {tally:?}");
    for number in [0, 1, 2, 3, 4, 6, 7, 8, 9, 10, 11, 12, 13, 14, 17, 25] {
        assert!(tally.calls[number] > 300, "{number}: {tally:?}");
    }
    assert_eq!(tally.calls[5], 0);
    assert!(tally.rows_with_window > 10_000);
    assert!(tally.effects_with_two_words > 1_000);
    assert!(tally.effects_refused_in_one_part > 100);
}

#[test]
fn random_pages() {
    let tally = compare_shape(2, 10_000, |_| Shape::PAGES);
    println!("pages: {tally:?}");
    assert!(tally.rows_over_a_page_end > 300);
}

#[test]
fn random_whole_memories() {
    let tally = compare_shape(3, 2_000, |_| Shape::WHOLE);
    println!("whole: {tally:?}");
    assert!(tally.rows_with_wrap > 100);
}

#[test]
fn random_scripts() {
    let mut rng = Rng::new(4);
    let mut counts = std::collections::BTreeMap::new();
    for _ in 0..4_000 {
        let bytes = generate::script(&mut rng);
        let text = output(&bytes);
        let last = text.lines().last().unwrap();
        let kind: Vec<&str> = last.split(' ').take(2).collect();
        *counts.entry(kind.join(" ")).or_insert(0) += 1;
        // Trailing bytes are never looked at, and every cut is refused at its length
        // unless a record before it is refused.
        if let Ok(parsed) = script::parse(&bytes) {
            let mut longer = bytes.clone();
            longer.push(rng.word() as u8);
            assert_eq!(output(&longer), text);
            assert_eq!(parsed.memory.len(), script::MEMORY);
        }
    }
    println!("scripts: {counts:?}");
    for number in [2, 6, 7, 8, 9, 10, 11, 12, 13, 14, 17] {
        assert!(counts[&format!("refused {number}")] > 15, "{counts:?}");
    }
    assert!(counts["refused script"] > 300);
    assert!(counts["end rows"] > 1000);
}

/// Every proper cut of S is refused with its own length.
#[test]
fn every_cut_of_s() {
    let bytes = sheet_s();
    for length in 0..bytes.len() {
        assert_eq!(
            output(&bytes[..length]),
            format!("refused script at {length}\n")
        );
    }
}

/// Random states from whole ranges of bits, with no frame behind them.
#[test]
fn random_bits() {
    let mut rng = Rng::new(5);
    let mut tally = Tally::default();
    let mut lent = Lent::new();
    for _ in 0..30_000 {
        let memory: Vec<u16> = {
            let words = rng.below(600);
            let mask = rng.pick(&[0xFFFF, 0x0FFF, 0x03FF, 0x8F0F]);
            (0..words).map(|_| rng.word() & mask).collect()
        };
        let shape = Shape::words(600);
        let mut case = generate::case(&mut rng, &shape);
        case.settings.top = [0, rng.word() & 0x3FF];
        case.settings.tow = [0, rng.word() & 0x3FF];
        case.memory = memory;
        compare_case(&case, &mut lent, &mut tally);
    }
    println!("bits: {tally:?}");
}

#[test]
fn rules_need_no_alphabet() {
    // Every mask gives as many invoking codes as the sheet says.
    for flag in 0..=0xFFFFu16 {
        let settings = Settings { flag, ..wide() };
        let count = (0..=255).filter(|&code| rules::invokes(flag, code)).count();
        assert_eq!(sheet(&settings).unwrap().invoking as usize, count);
    }
}
