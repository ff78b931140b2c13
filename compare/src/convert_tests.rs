//! The converter: each named script, page ends, the order of its checks, and the request's claims over random frames.

use crate::convert::{convert, screen, Screen};
use crate::converted;
use crate::generate::{self, Case, Rng, Shape};
use crate::host::{self, settings_numbers, CONVERT_ANSWER, TOW};
use crate::rules::{Refusal, Settings, CELLS};
use crate::script::{self, converted as output};
use crate::tests::{row, start, wide, Board};
use std::collections::{BTreeSet, HashSet};

/// Segmented settings for a board, with TOW null under ignored bits.
fn segmented() -> Settings {
    Settings {
        linear: false,
        tow: [0x80FF, 0x0001],
        ..wide()
    }
}

fn refusal(number: u8, row: u32, address: u32) -> Refusal {
    Refusal {
        number,
        row,
        address,
        from: 0,
    }
}

/// A conversion with as many marks as words: what it answers, and settings and memory then.
fn converted_from(
    settings: &Settings,
    memory: &[u16],
    latch: u16,
) -> (Result<u32, Refusal>, Settings, Vec<u16>) {
    let (mut settings, mut memory) = (*settings, memory.to_vec());
    let mut marks = vec![0xA5; memory.len()];
    let answer = convert(&mut settings, &mut memory, &mut marks, latch);
    (answer, settings, memory)
}

/// Converts a board of two whole pages.
fn convert_pages(settings: &Settings, draw: impl FnOnce(&mut Board)) -> Result<u32, Refusal> {
    let mut board = Board::new(0x0120);
    board.memory.resize(0x1_0000, 0);
    draw(&mut board);
    converted_from(settings, &board.memory, 0).0
}

#[test]
fn named_vectors() {
    let all = converted::all();
    let names: BTreeSet<&str> = all.iter().map(|vector| vector.name).collect();
    assert_eq!(names.len(), all.len());
    for vector in &all {
        let out = output(&vector.script);
        let name = vector.name;
        let Ok(count) = vector.comes_to else {
            let line = format!("{}\n", vector.comes_to.unwrap_err());
            assert_eq!(String::from_utf8(out), Ok(line), "{name}");
            continue;
        };
        let old = script::parse(&vector.script).unwrap();
        let (answer, settings, memory) = converted_from(&old.settings, &old.memory, 0);
        assert_eq!(answer, Ok(count), "{name}");
        let new = script::parse(&out).unwrap();
        assert_eq!((new.settings, new.memory), (settings, memory), "{name}");
        let drawn = script::run(&out);
        assert_eq!(drawn, script::drawn_below(&vector.script), "{name}");
        assert!(drawn.starts_with(b"row 0 "), "{name}");
        assert!(script::run(&vector.script).starts_with(b"refused 17 "));
    }
}

/// P4's segmented half: words 0123 4567 become 0001 4567, which point where they did.
#[test]
fn p4_first_word_turned() {
    let mut board = Board::new(0x0020);
    board.write(0x100, &[0x0123, 0x4567]);
    let settings = Settings {
        top: [0x80FF, 0x0011],
        val: 1,
        ..segmented()
    };
    let (answer, settings, memory) = converted_from(&settings, &board.memory, 0);
    assert_eq!(answer, Ok(3));
    assert_eq!((settings.top, settings.tow), ([0, 0x11], [0, 1]));
    assert!(settings.linear);
    board.write(0x100, &[0x0001, 0x4567]);
    assert_eq!(memory, board.memory);
}

/// P3's segmented half: what goes on after 00FFFE is 18 there, what ends there is turned.
#[test]
fn p3_page_ends() {
    let over = |page: u32| Err(refusal(18, 0, page << 16 | 0xFFFE));
    // Main blocks of seven words.
    for (at, comes_to) in [(0xFFF2, Ok(1)), (0xFFF4, over(0)), (0xFFFE, over(0))] {
        let settings = Settings {
            top: [0, at],
            ..segmented()
        };
        let got = convert_pages(&settings, |_| {});
        assert_eq!(got, comes_to, "{at:04X}");
    }
    // First window blocks of six, in page 1.
    for (at, comes_to) in [(0xFFF4, Ok(1)), (0xFFF6, over(1)), (0xFFF8, over(1))] {
        let settings = Settings {
            tow: [0x0100, at],
            ..segmented()
        };
        let got = convert_pages(&settings, |_| {});
        assert_eq!(got, comes_to, "{at:04X}");
    }
    // Row blocks: a head that ends the page, and one with a segment or a redefinition pointer after it.
    for (at, head, comes_to) in [
        (0xFFFA, 0, Ok(1)),
        (0xFFFA, 1, over(0)),
        (0xFFFA, 0x8000, over(0)),
        (0xFFFC, 0, over(0)),
        (0xFFFE, 0, over(0)),
        (0xFFF0, 1, Ok(1)),
        (0xFFEE, 0x8001, over(0)),
        (0xFFEC, 0x8001, Ok(1)),
    ] {
        let got = convert_pages(&segmented(), |board| {
            board.write(0x12, &[at]);
            let block = usize::from(at);
            board.memory[(block / 2 + 2).min(0x7FFF)] = head;
        });
        assert_eq!(got, comes_to, "{at:04X} {head:04X}");
    }
    // Redefinitions of three words.
    for (at, comes_to) in [(0xFFFA, Ok(2)), (0xFFFC, over(1))] {
        let got = convert_pages(&segmented(), |board| {
            board.write(0x100, &[0, 0, 0x8000, 0x0100, at]);
        });
        assert_eq!(got, comes_to, "{at:04X}");
    }
    // Lists of codes; the one at the beginning of page 1 is read from its pointer, and no other page's end.
    for (first, second, length, comes_to) in [
        (0x0000, 0xFFFC, 4, Ok(1)),
        (0x0000, 0xFFFC, 5, over(0)),
        (0x0100, 0xFFFE, 1, Ok(2)),
        (0x8100, 0xFFFE, 2, Ok(2)),
        (0x0100, 0xFFFF, 3, over(1)),
        (0x0100, 0x0000, 255, Ok(2)),
    ] {
        let got = convert_pages(&segmented(), |board| {
            let size = length << 8;
            board.write(0x100, &[0, 0, 1, first, second, 0, 0, size]);
        });
        assert_eq!(got, comes_to, "{first:04X} {second:04X} {length}");
    }
}

/// Attribute words and the fill word after them are one list.
#[test]
fn attributes_over_a_page_end() {
    let over = Err(refusal(18, 0, 0x1_FFFE));
    for (codes, at, comes_to) in [
        (0x8080, 0xFFFA, Ok(2)),
        (0x8080, 0xFFFC, over),
        (0x8080, 0xFFFE, over),
        (0x8041, 0xFFFC, Ok(2)),
        (0x8041, 0xFFFE, over),
        (0x4142, 0xFFFE, Ok(2)),
    ] {
        let settings = Settings {
            val: 1,
            ..segmented()
        };
        let got = convert_pages(&settings, |board| {
            board
                .write(0x100, &[0, 0, 1, 0, 0x200, 0x0100, at, 0x0202])
                .write(0x200, &[codes]);
            board.memory[0xFFF0..].fill(0x8001);
        });
        assert_eq!(got, comes_to, "{codes:04X} {at:04X}");
    }
}

/// At one word 18 comes before 19; before it, what was met before.
#[test]
fn page_ends_and_shared_words() {
    let settings = Settings {
        top: [0x0000, 0x0002],
        ..segmented()
    };
    let row_at = |codes: u16, length: u16| {
        convert_pages(&settings, |board| {
            board
                .write(0x2, &[0, 0x100, 0, 0x20, 0, 0, 0])
                .write(0x100, &[0, 0, 1, 0, codes, 0, 0, length << 8]);
        })
    };
    // From FFFE on to 0, and from there to the main block's pointer at 2.
    assert_eq!(row_at(0xFFFE, 6), Err(refusal(18, 0, 0xFFFE)));
    // From the block's code pointer on.
    assert_eq!(row_at(0x106, 6), Err(refusal(19, 0, 0x106)));
    // A row block that comes round to the main block's pointer.
    let got = convert_pages(&settings, |board| {
        board
            .write(0x2, &[0, 0xFFFC, 0, 0x20, 0, 0, 0])
            .write(0xFFFC, &[0, 0]);
    });
    assert_eq!(got, Err(refusal(18, 0, 0xFFFE)));
}

/// Rows count from 0: 18 in the second one.
#[test]
fn page_end_in_a_later_row() {
    let got = convert_pages(&segmented(), |board| {
        board
            .write(0x100, &[0x0100, 0xFFF0, 0])
            .write(0x1_FFF0, &[0, 0, 2]);
    });
    assert_eq!(got, Err(refusal(18, 1, 0x1_FFFE)));
}

/// 22 first, then 2, then 26; nothing is changed.
#[test]
fn order_of_the_checks() {
    let board = Board::new(0x0020);
    let words = board.memory.len();
    let bad = Settings {
        vsd: 99,
        ..segmented()
    };
    let bad_linear = Settings {
        linear: true,
        ..bad
    };
    let no_top = Settings {
        top: [0x80FF, 1],
        ..segmented()
    };
    for (settings, marks, number) in [
        (bad, words - 1, 22),
        (bad_linear, words + 1, 22),
        (wide(), 0, 22),
        (no_top, 2 * words, 22),
        (bad, words, 2),
        (bad_linear, words, 2),
        (wide(), words, 26),
        (no_top, words, 6),
    ] {
        let (mut after, mut memory) = (settings, board.memory.clone());
        let answer = convert(&mut after, &mut memory, &mut vec![7; marks], 0);
        assert_eq!(answer, Err(refusal(number, 0, 0)));
        assert_eq!((after, memory), (settings, board.memory.clone()));
    }
}

/// Through slices of numbers: 255 before all, then 22, then 2 for numbers past their range.
#[test]
fn over_slices() {
    let mut board = Board::new(0x0020);
    board.write(0x100, &[0x0123, 0x4567]);
    let one_row = Settings {
        val: 1,
        ..segmented()
    };
    let good = settings_numbers(&one_row);
    let words = board.memory.len();
    let call = |settings: &[u32], marks: usize, answers: usize| {
        let (mut settings, mut memory) = (settings.to_vec(), board.memory.clone());
        let mut answer = vec![9; answers];
        let mut marks = vec![7; marks];
        let status = host::convert(&mut settings, &mut memory, &mut marks, 0, &mut answer);
        (status, settings, memory, answer)
    };
    // The link and TOW.
    let (status, settings, memory, answer) = call(&good, words, CONVERT_ANSWER);
    assert_eq!((status, &answer[..]), (0, &[0, 0, 0, 2][..]));
    let mut turned = good;
    (turned[0], turned[TOW]) = (1, 0);
    assert_eq!(settings, turned);
    assert_eq!(memory[0x80..0x82], [0x0001, 0x4567]);
    assert_eq!(
        (&memory[..0x80], &memory[0x82..]),
        (&board.memory[..0x80], &board.memory[0x82..])
    );
    // Refused: nothing is changed, and no pointer is counted.
    let mut linear = good;
    linear[0] = 1;
    let mut past = good;
    past[0] = 2;
    let mut far = good;
    far[6] = 0x7FF4;
    for (settings, marks, status, told) in [
        (&past, words + 1, 22, [0, 0, 0, 0]),
        (&past, words, 2, [0, 0, 0, 0]),
        (&linear, words, 26, [0, 0, 0, 0]),
        (&far, words, 7, [0, 0x8000, 0, 0]),
    ] {
        let same = (
            status,
            settings.to_vec(),
            board.memory.clone(),
            told.to_vec(),
        );
        assert_eq!(call(settings, marks, CONVERT_ANSWER), same);
    }
    // Slices of another count, before the number of marks.
    for (settings, answers) in [
        (&good[1..], CONVERT_ANSWER),
        (&good[..], CONVERT_ANSWER - 1),
        (&good[..], CONVERT_ANSWER + 1),
    ] {
        let same = (
            255,
            settings.to_vec(),
            board.memory.clone(),
            vec![9; answers],
        );
        assert_eq!(call(settings, 0, answers), same);
    }
}

/// The latch decides which words are read: where it hides characters there is a fill run.
#[test]
fn from_a_latch() {
    let mut board = Board::new(0x0120);
    // A full row, whose list begins in its own code pointer.
    board
        .write(0x100, &[0, 0, 1, 0, 0x200, 0, 0x106, 0x8484])
        .write(0x200, &[0x4141; 66]);
    let settings = Settings {
        val: 1,
        ..segmented()
    };
    let told = [0, 0x2000].map(|latch| converted_from(&settings, &board.memory, latch).0);
    assert_eq!(told, [Ok(1), Err(refusal(19, 0, 0x106))]);
}

/// How many words differ.
fn changed(old: &[u16], new: &[u16]) -> usize {
    old.iter().zip(new).filter(|(old, new)| old != new).count()
}

/// Converts a case and holds what comes of it to the request. Gives the number of the refusal, or 0.
fn convert_case(case: &Case, latch: u16) -> u8 {
    let (old_settings, old) = (case.settings, &case.memory);
    let (answer, settings, memory) = converted_from(&old_settings, old, latch);
    let count = match answer {
        Ok(count) => count,
        Err(refusal) => {
            assert_eq!((settings, &memory), (old_settings, old));
            match refusal.number {
                2 | 26 => assert_eq!((refusal.row, refusal.address), (0, 0)),
                18 => assert_eq!(refusal.address & 0xFFFF, 0xFFFE),
                19 => assert!(screen(&settings, old, latch)
                    .read
                    .contains(&refusal.address)),
                _ => assert_eq!(screen(&settings, old, latch).ended, Err(refusal)),
            }
            return refusal.number;
        }
    };
    // Settings: linear, and the pages of TOP and TOW.
    let page = |[first, second]: [u16; 2]| [first >> 8 & 0x7F, second];
    let turned = Settings {
        linear: true,
        top: page(old_settings.top),
        tow: page(old_settings.tow),
        ..old_settings
    };
    assert_eq!(settings, turned);
    let registers = usize::from(settings.top != old_settings.top)
        + usize::from(settings.tow != old_settings.tow);
    assert_eq!(count as usize, registers + changed(old, &memory));
    // The same screen, in both forms, and nothing else is changed.
    let before = screen(&old_settings, old, latch);
    assert_eq!(screen(&settings, &memory, latch), before);
    same_in_rules(&before, &settings, &memory, latch);
    let read: HashSet<u32> = before.read.iter().copied().collect();
    for (n, (old, new)) in old.iter().zip(&memory).enumerate() {
        assert!(old == new || *new == old >> 8 & 0x7F && read.contains(&(2 * n as u32)));
    }
    let again = converted_from(&settings, &memory, latch);
    assert_eq!(again, (Err(refusal(26, 0, 0)), settings, memory));
    0
}

/// The calls that draw give the screen.
fn same_in_rules(screen: &Screen, settings: &Settings, memory: &[u16], latch: u16) {
    let begun = start(settings, memory, latch).unwrap();
    let mut words = begun.words;
    let mut state = begun.state;
    for (answer, drawn) in &screen.rows {
        let mut cells = [0; CELLS];
        let got = row(settings, memory, &mut state, &mut cells);
        assert_eq!(got, Ok(*answer));
        assert_eq!(cells[..], drawn[..]);
        words += answer.words;
    }
    assert_eq!(screen.ended, Ok(state));
    assert_eq!(words as usize, screen.read.len());
    assert_eq!(state.fields.lines_left, 0);
}

#[test]
fn random_frames() {
    let mut rng = Rng::new(8);
    let mut counts = [0; 27];
    for n in 0..12_000 {
        let shape = match n % 8 {
            0..=2 => Shape::PAGES,
            3 => Shape::words(rng.range(1, 400)),
            4 => Shape::SCRIPT,
            _ => Shape {
                rows: 6,
                lines: 20,
                ..Shape::words(rng.range(400, 8000))
            },
        };
        let case = generate::segmented(&mut rng, &shape);
        let latch = rng.word();
        counts[usize::from(convert_case(&case, latch))] += 1;
    }
    println!("conversions: {counts:?}");
    for number in [2, 6, 7, 8, 9, 10, 11, 12, 13, 14, 18, 19, 26] {
        assert!(counts[number] > 15, "{number}: {counts:?}");
    }
    assert!(counts[0] > 3_000 && counts[18] > 500 && counts[19] > 300);
}

/// What the converting program writes is drawn as the screen was.
#[test]
fn random_scripts() {
    let mut rng = Rng::new(80);
    let shape = Shape {
        segmented: 97,
        ..Shape::SCRIPT
    };
    let mut scripts = 0;
    for n in 0..2_000 {
        let bytes = match n % 4 {
            0 => generate::script_of(&mut rng, &shape),
            _ => generate::segmented_script(&mut rng, &shape),
        };
        let out = output(&bytes);
        if out.starts_with(b"refused ") {
            assert_eq!(out.iter().filter(|&&byte| byte == b'\n').count(), 1);
            continue;
        }
        scripts += 1;
        assert_eq!(script::run(&out), script::drawn_below(&bytes));
        assert!(output(&out).starts_with(b"refused 26 "));
        let before = script::parse(&bytes).expect("it was converted").registers;
        let after = script::parse(&out).expect("it is a script").registers;
        for (register, (old, new)) in before.into_iter().zip(after).enumerate() {
            match register {
                // The first words of soft tops, TOP and TOW.
                0x04 | 0x06 | 0x09 | 0x0B => assert_eq!(new, old >> 8 & 0x7F),
                _ => assert_eq!(new, old),
            }
        }
    }
    assert!(scripts > 500, "{scripts}");
}
