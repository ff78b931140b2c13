//! Two desks on one memory: lists of addresses, their refusal, and the writer call.

use crate::desks::{write, Span, Spans};
use crate::host::{self, settings_numbers, state_numbers, ROW_ANSWER, START_ANSWER, STATE};
use crate::rules::{self, Settings, CELLS};
use crate::script;
use crate::tests::{start, wide, Board};
use crate::trail::PLACES;
use crate::vectors::sheet_s;

/// Addresses one word after the other.
fn run(first: u32, words: usize) -> Vec<u32> {
    (first..).step_by(2).take(words).collect()
}

#[test]
fn lists_of_sheet_s() {
    let s = script::parse(&sheet_s()).unwrap();
    let mut list = [9; PLACES];
    let begun = rules::start(&s.settings, &s.memory, 0, &mut list).unwrap();
    assert_eq!(list[..7], run(0x10, 7));
    assert_eq!(list[7..], [9; PLACES - 7]);
    let mut state = begun.state;
    let mut cells = [0; CELLS];
    list = [9; PLACES];
    rules::row(&s.settings, &s.memory, &mut state, &mut cells, &mut list).unwrap();
    // A code word, then the attribute words that its codes take.
    let read = [run(0x20, 8), vec![0x60, 0x70, 0x62, 0x72]].concat();
    assert_eq!(list[..12], read);
    assert_eq!(list[12..], [9; PLACES - 12]);
    list = [9; PLACES];
    rules::row(&s.settings, &s.memory, &mut state, &mut cells, &mut list).unwrap();
    assert_eq!(list[..3], run(0x30, 3));
    assert_eq!(list[3..], [9; PLACES - 3]);
}

/// A row with all that a row reads: a due window's block, row block, redefinition, window row block, then code words,
/// attribute words and fill words from left to right.
#[test]
fn order_of_a_row() {
    let mut board = Board::new(0x120);
    board
        .row(0x100, 0x120, &[])
        .write(0x120, &[0, 0, 0x8002, 0, 0x500])
        .write(0x12A, &[0, 0x200, 0, 0x300, 0x0302])
        .write(0x134, &[0, 0x210, 0, 0x310, 0x0404])
        .write(0x200, &[0xC1C2, 0xC300, 0, 0, 0, 0, 0, 0, 0x4142, 0xC344])
        .write(0x300, &[1, 0x8002, 3, 0x8004])
        .write(0x310, &[0x8005, 0x8006, 0x8007])
        .window(0x400, 0x420, 0, (0, 0), (0, 0))
        .window(0x420, 0, 0x440, (1, 1), (10, 12))
        .row(0x440, 0, &[(0, 0x320, 9, 2)])
        .write(0x320, &[0x8008, 0x8009])
        .write(0x500, &[0, 0, 0]);
    let settings = Settings {
        tow: [0, 0x400],
        ..wide()
    };
    let mut list = [9; PLACES];
    let begun = rules::start(&settings, &board.memory, 0, &mut list).unwrap();
    assert_eq!(list[..13], [run(0x10, 7), run(0x400, 6)].concat());
    let mut state = begun.state;
    let mut cells = [0; CELLS];
    rules::row(&settings, &board.memory, &mut state, &mut cells, &mut list).unwrap();
    list = [9; PLACES];
    let row = rules::row(&settings, &board.memory, &mut state, &mut cells, &mut list).unwrap();
    let read = [
        run(0x420, 6),
        run(0x120, 15),
        run(0x500, 3),
        run(0x440, 8),
        vec![0x200, 0x300, 0x302, 0x202, 0x304],
        vec![0x210, 0x212, 0x310],
        // Fill runs: before the window; in it two, that of its segment and the one past it; after it.
        vec![0x312, 0x320, 0x322, 0x314],
    ]
    .concat();
    assert_eq!(row.words as usize, read.len());
    assert_eq!(list[..read.len()], read);
    assert_eq!(list[read.len()..], [9; PLACES - 44]);
    // Refused at the last of its words, it leaves the list.
    board.write(0x314, &[7]);
    let mut state = begun.state;
    rules::row(&settings, &board.memory, &mut state, &mut cells, &mut list).unwrap();
    list = [9; PLACES];
    let refused = rules::row(&settings, &board.memory, &mut state, &mut cells, &mut list);
    assert_eq!(refused.unwrap_err().number, 13);
    assert_eq!(list, [9; PLACES]);
}

/// Lists that wrap go on at the address stepped to.
#[test]
fn addresses_past_a_wrap() {
    let last = 0xFF_FFFE;
    let mut memory = vec![0; 0x80_0000];
    memory[8..15].copy_from_slice(&[0, 0x100, 0, 0x20, 0, 0, 0]);
    memory[0x80..0x88].copy_from_slice(&[0, 0, 1, 0xFF, 0xFFFE, 0xFF, 0xFFFE, 0x0404]);
    memory[last as usize / 2] = 0xC1C2;
    memory[0] = 0xC3C4;
    let mut state = start(&wide(), &memory, 0).unwrap().state;
    let mut list = [9; PLACES];
    let row = rules::row(&wide(), &memory, &mut state, &mut [0; CELLS], &mut list).unwrap();
    let listed = [last, last, 0, 0, 2, 4];
    assert_eq!(row.words, 14);
    assert_eq!(list[..14], [run(0x100, 8), listed.to_vec()].concat());
}

/// 25 for any other number of places: first of all in a start, just after 1 in a row.
#[test]
fn lists_of_another_size() {
    let board = Board::new(0x20);
    let bad = Settings { vsd: 99, ..wide() };
    let mut state = start(&wide(), &board.memory, 0).unwrap().state;
    state.fields.row = 7;
    for places in [0, 1, 132, PLACES - 1, PLACES + 1, 2 * PLACES] {
        let mut list = vec![9; places];
        for settings in [
            wide(),
            bad,
            Settings {
                top: [0, 0],
                ..wide()
            },
        ] {
            let refusal = rules::start(&settings, &board.memory, 0, &mut list).unwrap_err();
            assert_eq!((refusal.number, refusal.row, refusal.address), (25, 0, 0));
        }
        for (settings, lines, cells, number) in [
            (wide(), 5, CELLS, 25),
            (bad, 5, CELLS, 25),
            (wide(), 0, CELLS, 25),
            (wide(), 5000, CELLS, 25),
            (bad, 5, 131, 1),
            (wide(), 0, 0, 1),
        ] {
            let mut state = state;
            state.fields.lines_left = lines;
            let mut buffer = vec![0; cells];
            let drawn = rules::row(&settings, &board.memory, &mut state, &mut buffer, &mut list);
            let refusal = drawn.unwrap_err();
            assert_eq!((refusal.number, refusal.row), (number, 7));
        }
        assert!(list.iter().all(|&place| place == 9));
    }
}

/// Through slices of numbers: 255 before 1, 1 before 25, 25 before 2.
#[test]
fn slices_before_lists() {
    let board = Board::new(0x20);
    let good = settings_numbers(&wide());
    let state = state_numbers(&start(&wide(), &board.memory, 0).unwrap().state);
    let mut list = [9; 5];
    let mut answer = [0; ROW_ANSWER];
    for (settings, from, cells, status) in [
        (&good[1..], &state[..], CELLS, 255),
        (&good[..], &state[1..], CELLS, 255),
        (&good, &[0x1_0000; STATE], 131, 255),
        (&good, &state, 131, 1),
        (&good, &state, CELLS, 25),
        (&[u32::MAX; 18], &state, CELLS, 25),
    ] {
        let (mut from, mut cells) = (from.to_vec(), vec![0; cells]);
        let got = host::row(
            settings,
            &board.memory,
            &mut from,
            &mut cells,
            &mut list,
            &mut answer,
        );
        assert_eq!(got, status);
    }
    let mut begun = [0; STATE];
    let mut answer = [7; START_ANSWER];
    let mut begin = |settings: &[u32]| {
        host::start(
            settings,
            &board.memory,
            0,
            &mut begun,
            &mut list,
            &mut answer,
        )
    };
    assert_eq!(begin(&good[1..]), 255);
    assert_eq!(begin(&[u32::MAX; 18]), 25);
    assert_eq!((answer, list), ([0, 0, 0, 7], [9; 5]));
}

fn spans(own: (u32, u32), other: (u32, u32)) -> Spans {
    let span = |(first, last)| Span { first, last };
    Spans {
        own: span(own),
        other: span(other),
    }
}

#[test]
fn spans_that_share_an_address() {
    for (own, other, shared) in [
        ((0, 9), (10, 19), false),
        ((0, 10), (10, 19), true),
        ((10, 19), (0, 9), false),
        ((10, 19), (0, 10), true),
        ((0, 19), (5, 6), true),
        ((5, 6), (0, 19), true),
        ((5, 5), (5, 5), true),
        ((0, u32::MAX), (u32::MAX, u32::MAX), true),
        // None has no address to share.
        ((6, 5), (0, 19), false),
        ((0, 19), (6, 5), false),
        ((6, 5), (6, 5), false),
        ((u32::MAX, 0), (0, u32::MAX), false),
    ] {
        let mut memory = [7; 4];
        // Also where the write itself is fine, or bad.
        for address in [0, 2, 3, 6, 8, u32::MAX] {
            let written = write(&mut memory, &spans(own, other), address, 5);
            assert_eq!(written == Err(16), shared, "{own:?} {other:?}");
            if shared {
                assert_eq!(memory, [7; 4]);
            }
        }
    }
}

#[test]
fn writes_inside_the_span() {
    let own = spans((3, 9), (20, 30));
    let apart = |own| spans(own, (100, 100));
    for (spans, address, accepted) in [
        (own, 2, false),
        (own, 4, true),
        (own, 5, false),
        (own, 8, true),
        (own, 10, false),
        // The ends may be odd or even; a word is inside by its own address.
        (apart((4, 8)), 4, true),
        (apart((4, 8)), 8, true),
        (apart((4, 9)), 8, true),
        (apart((4, 9)), 10, false),
        (apart((8, 4)), 6, false),
        // Outside memory.
        (apart((0, 99)), 14, true),
        (apart((0, 99)), 16, false),
        (apart((102, u32::MAX)), u32::MAX - 1, false),
    ] {
        let mut memory = [7; 8];
        let written = write(&mut memory, &spans, address, 5);
        let mut after = [7; 8];
        if accepted {
            after[address as usize / 2] = 5;
        }
        assert_eq!(written, if accepted { Ok(()) } else { Err(15) });
        assert_eq!(memory, after);
    }
    assert_eq!(write(&mut [], &apart((0, 99)), 0, 5), Err(15));
}

/// The longest row: a due window, a redefinition, fifteen segments of 255 codes that all take a word on either side, and every
/// fill run there can be.
#[test]
fn longest_row() {
    let mut board = Board::new(0x120);
    let segments = [(0x1000, 0x2000, 255, 1); 15];
    board
        .row(0x100, 0x120, &[])
        .row(0x124, 0, &segments)
        .write(0x120, &[0, 0, 0x800F, 0, 0x500])
        .window(0x400, 0x420, 0, (0, 0), (0, 0))
        .window(0x420, 0, 0x440, (1, 1), (17, 130))
        .row(0x440, 0, &segments);
    board.memory[0x1000..0x1200].fill(0xA000);
    let settings = Settings {
        flag: 0,
        tow: [0, 0x400],
        ..wide()
    };
    let mut state = start(&settings, &board.memory, 0).unwrap().state;
    let mut cells = [0; CELLS];
    let mut list = [9; PLACES];
    rules::row(&settings, &board.memory, &mut state, &mut cells, &mut list).unwrap();
    list = [9; PLACES];
    let row = rules::row(&settings, &board.memory, &mut state, &mut cells, &mut list).unwrap();
    assert_eq!(6 + 80 + 3 + 78 + 30 * (128 + 255 + 1) + 3, 11_690);
    assert_eq!(row.words, 11_690);
    assert!(list[..11_690].iter().all(|&place| place != 9));
    assert_eq!(list[11_690..], [9; 310]);
}
