//! Mending: each named script, the request's claims over random damages, and the pointer to blame held against the plain
//! form.

use crate::generate::{self, Case, Rng, Shape};
use crate::host::{self, settings_numbers, MEND_ANSWER, TOW};
use crate::mend::{mend, Change, Place};
use crate::mended;
use crate::plain::{self, Notes};
use crate::rules::{step, Refusal, Settings};
use crate::script;
use crate::tests::wide;
use std::collections::BTreeSet;

fn output(script: &[u8]) -> String {
    String::from_utf8(script::mended(script)).unwrap()
}

#[test]
fn named_vectors() {
    let all = mended::all();
    let names: BTreeSet<&str> = all.iter().map(|vector| vector.name).collect();
    assert_eq!(names.len(), all.len());
    let mut numbers = BTreeSet::new();
    for vector in &all {
        let text = output(&vector.script);
        let changes = text.lines().take(vector.changes.len());
        assert!(
            changes.eq(vector.changes.iter().copied()),
            "{}: {text}",
            vector.name
        );
        // Nothing else is printed but the draw program's output, which is that of the mended list.
        let drawn: Vec<&str> = text.lines().skip(vector.changes.len()).collect();
        let first = drawn[0];
        assert!(
            first.starts_with("row 0 ") || first.starts_with("refused"),
            "{}: {text}",
            vector.name
        );
        let last = drawn[drawn.len() - 1];
        assert!(
            last.starts_with(vector.last_line),
            "{}: {last}",
            vector.name
        );
        assert!(vector.script.len() < 1000);
        numbers.extend(vector.changes.iter().map(|line| line[17..].to_string()));
    }
    for number in 7..=13 {
        assert!(numbers.contains(&number.to_string()), "{number}");
    }
}

#[test]
fn scripts_that_are_refused_or_good() {
    assert_eq!(output(&[]), "refused script at 0\n");
    assert_eq!(output(&[3, 0x0C, 0]), "refused script at 0\n");
    let s = crate::vectors::sheet_s();
    assert_eq!(output(&s).into_bytes(), script::run(&s));
}

/// Several hundred damages: 30 for each row, and one for each window.
#[test]
fn many_damages() {
    let text = output(&mended::many(20));
    let changes = text.lines().take_while(|line| !line.starts_with("row"));
    assert_eq!(changes.count(), 20 * 30 + 20);
    assert!(text.lines().last().unwrap().starts_with("end rows 20 "));
}

/// The pointer to blame by the plain form, or the refusal that is given as it is.
fn blamed(
    settings: &Settings,
    memory: &[u16],
    latch: u16,
) -> Result<Option<(Place, Refusal)>, Refusal> {
    let mut notes = Notes::default();
    let mut state = match plain::start(settings, memory, latch, &mut notes) {
        Ok(state) => state,
        // Seven words of a main block.
        Err(refusal) if notes.read.len() >= 7 && refusal.number != 14 => {
            return Ok(Some((Place::Tow, refusal)))
        }
        Err(refusal) => return Err(refusal),
    };
    let mut led = Place::Tow;
    while state.fields.lines_left > 0 {
        let mut notes = Notes::default();
        let window = state
            .fields
            .window
            .filter(|w| state.fields.row > w.last_row);
        if let Some(passed) = window {
            led = Place::At(passed.next_block.from);
        }
        match plain::row(settings, memory, &state, &mut notes) {
            Ok(drawn) => state = drawn.next,
            Err(refusal) => {
                let place = match refusal.number {
                    7..=10 | 13 => Place::At(notes.blame),
                    11 | 12 => led,
                    number => panic!("refusal {number} in a frame"),
                };
                return Ok(Some((place, refusal)));
            }
        }
    }
    Ok(None)
}

fn nonzero(settings: &Settings, memory: &[u16]) -> usize {
    let registers = settings.top.iter().chain(&settings.tow);
    let words = memory.iter().chain(registers);
    words.filter(|&&word| word != 0).count()
}

/// Mends a case to its end, each step held to the request. Gives the changes.
fn mend_case(case: &Case, latch: u16) -> Vec<Change> {
    let (mut settings, mut memory) = (case.settings, case.memory.clone());
    let mut left = nonzero(&settings, &memory);
    let mut changes = Vec::new();
    loop {
        let (old_settings, old_memory) = (settings, memory.clone());
        let expected = blamed(&settings, &memory, latch);
        let mended = mend(&mut settings, &mut memory, latch);
        let change = match mended {
            Ok(Some(change)) => change,
            ended => {
                // Nothing is changed by a good list, nor by a refusal with nobody to blame, which only a first one can be.
                assert_eq!((settings, &memory), (old_settings, &old_memory));
                assert_eq!(ended.map(|_| None), expected);
                if let Err(refusal) = ended {
                    assert!(changes.is_empty());
                    assert!(matches!(refusal.number, 2 | 6 | 7 | 14 | 17));
                    assert!(refusal.number != 7 || refusal.from == 0);
                }
                return changes;
            }
        };
        assert_eq!(expected, Ok(Some((change.place, change.refusal))));
        // Two words are 0 and nothing else differs.
        match change.place {
            Place::Tow => {
                assert_eq!(settings.tow, [0, 0]);
                settings.tow = change.words;
                assert_eq!((settings, &memory), (old_settings, &old_memory));
                settings.tow = [0, 0];
            }
            Place::At(first) => {
                let places = [first, step(first)].map(|a| a as usize / 2);
                for (place, word) in places.into_iter().zip(change.words) {
                    assert_eq!(memory[place], 0);
                    memory[place] = word;
                }
                assert_eq!((settings, &memory), (old_settings, &old_memory));
                for place in places {
                    memory[place] = 0;
                }
            }
        }
        let now = nonzero(&settings, &memory);
        assert!(now < left);
        left = now;
        changes.push(change);
    }
}

#[test]
fn random_damages() {
    let mut rng = Rng::new(9);
    let mut counts = [0; 14];
    let mut most = 0;
    for n in 0..20_000 {
        let shape = match n % 20 {
            0 => Shape::PAGES,
            1 => Shape::words(rng.range(20, 400)),
            _ => Shape {
                rows: 6,
                lines: 20,
                ..Shape::words(rng.range(400, 8000))
            },
        };
        let case = match n % 4 {
            0 => generate::case(&mut rng, &shape),
            _ => generate::damaged(&mut rng, &shape),
        };
        let latch = rng.word();
        let changes = mend_case(&case, latch);
        for change in &changes {
            counts[usize::from(change.refusal.number)] += 1;
        }
        most = most.max(changes.len());
    }
    println!("changes by number: {counts:?}, most of a frame {most}");
    for number in 7..=13 {
        assert!(counts[number] > 200, "{counts:?}");
    }
    assert!(most > 20);
}

/// A window's row pointer that begins at address 0, after a wrap, is in memory: TOW is not changed.
#[test]
fn a_pointer_at_address_0() {
    let mut memory = vec![0; 0x80_0000];
    memory[8..15].copy_from_slice(&[0, 0, 0, 0x20, 0, 0, 0]);
    // Link, then the row pointer at 0 and 2, rows 0..0, columns 0..1.
    memory[0..4].copy_from_slice(&[0, 0x100, 0x0000, 0x0001]);
    // Its row block is refused 9.
    memory[0x80..0x88].copy_from_slice(&[0, 0, 1, 0, 0x200, 0, 0, 0x0102]);
    let tow = [0xFF, 0xFFFC];
    let mut settings = Settings { tow, ..wide() };
    let change = mend(&mut settings, &mut memory, 0).unwrap().unwrap();
    assert_eq!((change.place, change.words), (Place::At(0), [0, 0x100]));
    assert_eq!((change.refusal.number, settings.tow), (9, tow));
    assert_eq!(memory[..2], [0, 0]);
    assert_eq!(mend(&mut settings, &mut memory, 0), Ok(None));
}

/// Through slices of numbers.
#[test]
fn steps_over_slices() {
    let board = crate::tests::Board::new(0x20);
    let mut memory = board.memory.clone();
    let good = settings_numbers(&wide());
    let mut answer = [9; MEND_ANSWER];
    // Nothing to mend.
    let mut settings = good;
    assert_eq!(host::mend(&mut settings, &mut memory, 0, &mut answer), 0);
    assert_eq!((answer, settings), ([0; MEND_ANSWER], good));
    assert_eq!(memory, board.memory);
    // A register.
    settings[TOW + 1] = 0x9000;
    assert_eq!(host::mend(&mut settings, &mut memory, 0, &mut answer), 0);
    assert_eq!((answer, settings), ([0, 0, 0, 1, 0, 0, 0x9000, 7], good));
    // A pointer in memory, met in row 2.
    memory[0x80..0x83].copy_from_slice(&[0, 0x120, 0]);
    memory[0x90..0x93].copy_from_slice(&[0x1234, 0x9001, 0]);
    assert_eq!(host::mend(&mut settings, &mut memory, 0, &mut answer), 0);
    let expected = [0, 0, 0, 1, 0x120, 0x1234, 0x9001, 7];
    assert_eq!((answer, settings), (expected, good));
    assert_eq!(memory[0x90..0x92], [0, 0]);
    // Refused as it is, with the first three numbers of the answer.
    let mut bad = good;
    bad[9] = 99;
    let mut answer = [9; MEND_ANSWER];
    assert_eq!(host::mend(&mut bad, &mut memory, 0, &mut answer), 2);
    assert_eq!(answer, [0, 0, 0, 9, 9, 9, 9, 9]);
    settings[6] = 0x7FF4;
    assert_eq!(host::mend(&mut settings, &mut memory, 0, &mut answer), 7);
    assert_eq!(answer, [0, 0x8000, 0, 9, 9, 9, 9, 9]);
    // Slices of another count.
    assert_eq!(
        host::mend(&mut settings[1..], &mut memory, 0, &mut answer),
        255
    );
    assert_eq!(
        host::mend(&mut settings, &mut memory, 0, &mut answer[1..]),
        255
    );
}
