//! Shift calls and rows beside the cut: each rule by itself, the order of the checks, and random
//! sequences held against the plain form.

use crate::generate::{self, Rng, Shape};
use crate::host::{self, Beside, ROW_ANSWER, STATE};
use crate::plain;
use crate::rules::{Refusal, Settings, CELLS};
use crate::scroll::{after_last, before_first, shift, Scroll, Shifted};
use crate::tests::{row, start, wide, Board};
use crate::trail::PLACES;
use std::cell::Cell;

/// M4: enabled.
const DOWN: u16 = 0x4000;
const UP: u16 = 0x6000;
const SOFT: [u16; 2] = [0, 0x30];

fn scroll(shift: i32, phase: u32, direction: u32) -> Scroll {
    Scroll {
        shift,
        phase,
        direction,
    }
}

fn refused(number: u8, address: u32) -> Result<Shifted, Refusal> {
    missing(number, address, 0)
}

fn missing(number: u8, address: u32, from: u32) -> Result<Shifted, Refusal> {
    Err(Refusal {
        number,
        row: 0,
        address,
        from,
    })
}

/// A hard list at 0010 whose rows have 4 lines, and a soft one at 0030 whose rows have 6; M4 of the hard one.
fn lists(m4: u16) -> Board {
    let mut board = Board::new(0x20);
    board
        .write(0x10, &[0, 0x100, 0, 0x20, m4, 0, 3])
        .write(0x30, &[0, 0x140, 0, 0x20, 0, 0, 5])
        .row(0x100, 0x120, &[(0x200, 0, 2, 2)])
        .row(0x120, 0, &[(0x202, 0, 2, 2)])
        .row(0x140, 0x100, &[(0x204, 0, 2, 2)])
        .write(0x200, &[0x4142, 0x4344, 0x4546]);
    board
}

fn made(board: &Board, last: Scroll) -> Result<Shifted, Refusal> {
    shift(&wide(), &board.memory, SOFT, &last)
}

fn at_hard(scroll: Scroll) -> Result<Shifted, Refusal> {
    Ok(Shifted {
        scroll,
        top: wide().top,
    })
}

fn at_soft(scroll: Scroll) -> Result<Shifted, Refusal> {
    Ok(Shifted { scroll, top: SOFT })
}

/// From 0 at each of the rates, over rows of 1 to 32 lines, in both directions: every move takes its
/// frames, and the scroll ends with the one that reaches the lines.
#[test]
fn sixteen_rates() {
    for (rate, (step, frames)) in plain::RATES.into_iter().enumerate() {
        for lines in 1..=32 {
            for (m4, direction, sign) in [(UP, 1, 1), (DOWN, 0, -1)] {
                let mut board = lists(m4 | (rate as u16) << 8);
                board.write(0x1C, &[lines as u16 - 1]);
                board.write(0x3C, &[lines as u16 - 1]);
                let calls = (lines + step - 1) / step * frames as i32;
                let mut last = scroll(0, 0, direction);
                for call in 1..calls {
                    let moves = call / frames as i32;
                    let phase = call as u32 % frames;
                    last = scroll(sign * moves * step, phase, direction);
                    let before = (call - 1) / frames as i32 * step * sign;
                    let before = scroll(before, (call as u32 - 1) % frames, direction);
                    assert_eq!(made(&board, before), at_hard(last));
                }
                assert_eq!(made(&board, last), at_soft(scroll(0, 0, direction)));
            }
        }
    }
}

#[test]
fn enable_off_and_turned() {
    for (m4, direction) in [(0, 0), (0x2F00, 1), (0x1000, 0), (0x3000, 1)] {
        for last in [scroll(3, 2, 1), scroll(-3, 2, 0), scroll(0, 7, 0)] {
            let still = at_hard(scroll(0, 0, direction));
            assert_eq!(made(&lists(m4), last), still);
        }
    }
    // The shift and phase of the other direction are gone before the move.
    assert_eq!(
        made(&lists(DOWN | 0x100), scroll(3, 7, 1)),
        at_hard(scroll(-2, 0, 0))
    );
    assert_eq!(
        made(&lists(UP | 0x900), scroll(-3, 7, 0)),
        at_hard(scroll(0, 1, 1))
    );
}

#[test]
fn phases_cross_rates() {
    // A fast rate sets the phase 0; a slow one of fewer frames moves at once.
    let up = |m4, last| made(&lists(UP | m4), last);
    assert_eq!(up(0x000, scroll(1, 7, 1)), at_hard(scroll(2, 0, 1)));
    assert_eq!(up(0xA00, scroll(1, 7, 1)), at_hard(scroll(2, 0, 1)));
    assert_eq!(up(0xF00, scroll(1, 7, 1)), at_hard(scroll(2, 0, 1)));
    assert_eq!(up(0xF00, scroll(1, 6, 1)), at_hard(scroll(1, 7, 1)));
}

#[test]
fn scan_lines_of_the_row() {
    // A row that has become shorter ends the scroll without a move.
    let slow = lists(UP | 0xF00);
    assert_eq!(made(&slow, scroll(3, 0, 1)), at_hard(scroll(3, 1, 1)));
    assert_eq!(made(&slow, scroll(4, 0, 1)), at_soft(scroll(0, 0, 1)));
    // Down, the soft list's count.
    let slow = lists(DOWN | 0xF00);
    assert_eq!(made(&slow, scroll(-5, 0, 0)), at_hard(scroll(-5, 1, 0)));
    assert_eq!(made(&slow, scroll(-6, 0, 0)), at_soft(scroll(0, 0, 0)));
    // Its redefinition's, where it has one.
    let mut board = lists(UP | 0xF00);
    board.write(0x100, &[0, 0, 0x8000, 0, 0x400]);
    board.write(0x400, &[0, 0x1F, 0]);
    assert_eq!(made(&board, scroll(31, 0, 1)), at_hard(scroll(31, 1, 1)));
    board.write(0x400, &[0, 0xFFE0, 0]);
    assert_eq!(made(&board, scroll(0, 0, 1)), at_hard(scroll(0, 1, 1)));
    assert_eq!(made(&board, scroll(1, 0, 1)), at_soft(scroll(0, 0, 1)));
    board.write(0x106, &[0, 1]);
    assert_eq!(made(&board, scroll(3, 0, 1)), at_hard(scroll(3, 1, 1)));
    // No row block: M6's.
    board.write(0x10, &[0xFF00, 1]);
    assert_eq!(made(&board, scroll(3, 0, 1)), at_hard(scroll(3, 1, 1)));
    assert_eq!(made(&board, scroll(4, 0, 1)), at_soft(scroll(0, 0, 1)));
}

#[test]
fn scrolls_out_of_range() {
    let board = lists(UP);
    for last in [
        scroll(32, 0, 1),
        scroll(-32, 0, 0),
        scroll(i32::MIN, 0, 0),
        scroll(i32::MAX, 0, 1),
        scroll(1, 0, 0),
        scroll(-1, 0, 1),
        scroll(0, 8, 1),
        scroll(0, u32::MAX, 0),
        scroll(0, 0, 2),
        scroll(0, 0, u32::MAX),
    ] {
        assert_eq!(made(&board, last), refused(3, 0));
    }
    for last in [scroll(31, 7, 1), scroll(-31, 7, 0), scroll(0, 7, 0)] {
        assert!(made(&board, last).is_ok());
    }
}

#[test]
fn order_of_the_checks() {
    let good = scroll(0, 0, 1);
    let bad = scroll(0, 8, 1);
    let mut board = lists(UP);
    let shut = |top, last: &Scroll, board: &Board| {
        let settings = Settings { top, ..wide() };
        shift(&settings, &board.memory, SOFT, last)
    };
    let settings = Settings { vsd: 99, ..wide() };
    let two = shift(&settings, &board.memory, SOFT, &bad);
    assert_eq!(two, refused(2, 0));
    assert_eq!(shut([0, 1], &bad, &board), refused(3, 0));
    assert_eq!(shut([0xFF00, 1], &good, &board), refused(6, 0));
    assert_eq!(shut([0, 0x7FF6], &good, &board), refused(7, 0x8000));
    // 14 after the whole main block, and before its row.
    board
        .write(0x7FF6, &[0, 0, 0, 0, 0x5000])
        .write(0x18, &[0x7000])
        .write(0x10, &[0, 0x9000]);
    assert_eq!(shut([0, 0x7FF6], &good, &board), refused(7, 0x8000));
    assert_eq!(made(&board, good), refused(14, 0));
    board.write(0x18, &[UP]);
    assert_eq!(made(&board, good), missing(7, 0x9000, 0x10));
    // With enable off nothing but the hard main block is read.
    board.write(0x18, &[0x3F00]);
    assert_eq!(made(&board, good), at_hard(good));
    // The whole row block before its redefinition; its segments are not judged.
    let mut board = lists(UP);
    board
        .write(0x12, &[0x7FEE])
        .write(0x7FEE, &[0, 0, 0x8001, 0, 0x9000]);
    assert_eq!(made(&board, good), missing(7, 0x8000, 0x10));
    // Without a segment the block is there, and its redefinition is not.
    board.write(0x7FF2, &[0x8000]);
    assert_eq!(made(&board, good), missing(7, 0x9000, 0x7FF4));
    board.row(0x100, 0, &[(0x200, 0, 1, 2), (0, 0, 0, 200)]);
    board.write(0x12, &[0x100]);
    assert_eq!(made(&board, good), at_hard(scroll(1, 0, 1)));
}

#[test]
fn soft_tops() {
    let soft = |m4: u16, soft: [u16; 2]| {
        let mut board = lists(m4);
        board.write(0x40, &[0, 0x9000, 0, 0, 0, 0, 0]);
        board.write(0x50, &[0, 0, 0, 0, 0x5000, 0, 0]);
        shift(
            &wide(),
            &board.memory,
            soft,
            &scroll(0, 0, u32::from(m4 >> 13 & 1)),
        )
    };
    assert_eq!(soft(DOWN, [0xFF00, 1]), refused(6, 0));
    assert_eq!(soft(DOWN, [1, 0]), refused(7, 0x1_0000));
    assert_eq!(soft(DOWN, [0, 0x50]), refused(14, 0));
    assert_eq!(soft(DOWN, [0, 0x40]), missing(7, 0x9000, 0x40));
    // Up it is not looked at, and becomes the hard top with its ignored bits.
    for top in [[0xFF00, 1], [1, 0], [0, 0x50], [0, 0x40]] {
        assert_eq!(soft(UP, top), at_hard(scroll(1, 0, 1)));
        let ended = Ok(Shifted {
            scroll: scroll(0, 0, 1),
            top,
        });
        assert_eq!(soft(UP | 0x700, top), ended);
    }
}

/// A start refuses 14 after its main block's 7 and before it reads a window.
#[test]
fn starts_refuse_14() {
    let mut board = lists(0x5000);
    let settings = Settings {
        tow: [0, 0x9000],
        ..wide()
    };
    let number = |board: &Board, top| {
        let settings = Settings { top, ..settings };
        start(&settings, &board.memory, 0).unwrap_err().number
    };
    assert_eq!(number(&board, [0, 0x10]), 14);
    board.write(0x18, &[0x7FFF]);
    assert_eq!(number(&board, [0, 0x10]), 14);
    board.write(0x7FF6, &[0, 0, 0, 0, 0x5000]);
    assert_eq!(number(&board, [0, 0x7FF6]), 7);
    for m4 in [0x4000, 0x6F00, 0x3F00, 0xBFFF] {
        board.write(0x18, &[m4]);
        assert_eq!(number(&board, [0, 0x10]), 7);
        assert!(start(&wide(), &board.memory, 0).is_ok());
    }
}

#[test]
fn rows_beside_the_cut() {
    let board = lists(UP);
    let memory = &board.memory;
    // 4 lines: one row. The row after it is given one line.
    let settings = Settings { val: 4, ..wide() };
    let mut state = start(&settings, memory, 0).unwrap().state;
    let mut cells = [7; CELLS];
    row(&settings, memory, &mut state, &mut cells).unwrap();
    let mut list = [9; PLACES];
    let below = after_last(&settings, memory, &state, &mut cells, &mut list).unwrap();
    assert_eq!((below.row, below.lines, below.words), (1, 1, 9));
    assert_eq!(cells[..3], [0x100043, 0x100044, 0x20]);
    let block = |at: u32| (at..).step_by(2);
    assert!(block(0x120).take(8).chain([0x202]).eq(list[..9].to_vec()));
    assert_eq!(list[9..], [9; PLACES - 9]);
    // The soft list's first, from the start latch, with its own lines: 7 words and 9.
    let above = before_first(&settings, memory, SOFT, 0x8002, &mut cells, &mut list).unwrap();
    assert_eq!((above.row, above.lines, above.words), (0, 4, 16));
    assert_eq!(cells[..3], [0x100245, 0x100246, 0x220]);
    let read = block(0x30).take(7).chain(block(0x140).take(8));
    assert!(read.chain([0x204]).eq(list[..16].to_vec()));
    assert_eq!(list[16..], [9; PLACES - 16]);
    let above = before_first(&wide(), memory, SOFT, 0, &mut cells, &mut list).unwrap();
    assert_eq!(above.lines, 6);
}

/// Through slices of numbers: which refusal comes first, and what is not looked at.
#[test]
fn beside_over_slices() {
    let board = lists(UP);
    let good = host::settings_numbers(&wide());
    let bad = host::settings_numbers(&Settings { vsd: 99, ..wide() });
    let mut state = host::state_numbers(&start(&wide(), &board.memory, 0).unwrap().state);
    let places = Cell::new(PLACES);
    let beside = |settings: &[u32], shift, soft, state: &[u32], cells: usize, answers: usize| {
        let from = Beside {
            shift,
            soft,
            latch: 0,
            state,
        };
        let mut cells = vec![7; cells];
        let mut list = vec![5; places.get()];
        let mut answer = vec![9; answers];
        let status = host::beside(
            settings,
            &board.memory,
            &from,
            &mut cells,
            &mut list,
            &mut answer,
        );
        let words = if status == 0 { answer[7] } else { 0 };
        assert!(list[words as usize..].iter().all(|&place| place == 5));
        if status != 0 {
            let written = if status == host::UNFIT { 0 } else { 3 };
            assert!(cells.iter().all(|&cell| cell == 7));
            assert!(answer[written..].iter().all(|&number| number == 9));
        }
        (status, answer)
    };
    let null = [0, 0];
    // No row: settings, soft top, state and cells do not matter.
    let (status, answer) = beside(&bad, 0, null, &[], 5, ROW_ANSWER);
    assert_eq!((status, answer), (0, vec![0; ROW_ANSWER]));
    assert_eq!(beside(&bad[1..], 0, null, &[], 5, ROW_ANSWER).0, 255);
    assert_eq!(beside(&good, 0, null, &state, CELLS, ROW_ANSWER - 1).0, 255);
    // Up: 255, 1, 2, 3. Lines left do not matter; the soft top does not.
    for left in [0, 5, 0xFFFF, 0x1_0000, u32::MAX] {
        state[2] = left;
        assert_eq!(beside(&good, 1, null, &state, CELLS, ROW_ANSWER).0, 0);
    }
    let (status, answer) = beside(&good, i32::MAX, null, &state, CELLS, ROW_ANSWER);
    assert_eq!((status, answer[host::ROW_LINES]), (0, 1));
    assert_eq!(beside(&good, 1, null, &state[1..], 5, ROW_ANSWER).0, 255);
    state[1] = 4095;
    let (status, answer) = beside(&bad, 1, null, &state, 131, ROW_ANSWER);
    assert_eq!((status, &answer[..3]), (1, &[4095, 0, 0][..]));
    assert_eq!(beside(&bad, 1, null, &state, CELLS, ROW_ANSWER).0, 2);
    assert_eq!(beside(&good, 1, null, &state, CELLS, ROW_ANSWER).0, 3);
    // Down: any state, 1, 2, 6.
    for state in [&[][..], &[u32::MAX; 40], &state] {
        assert_eq!(beside(&good, -1, SOFT, state, CELLS, ROW_ANSWER).0, 0);
        let (status, answer) = beside(&bad, -1, null, state, 133, ROW_ANSWER);
        assert_eq!((status, &answer[..3]), (1, &[0, 0, 0][..]));
        assert_eq!(beside(&bad, i32::MIN, null, state, CELLS, ROW_ANSWER).0, 2);
        assert_eq!(beside(&good, i32::MIN, null, state, CELLS, ROW_ANSWER).0, 6);
    }
    assert_eq!(state.len(), STATE);
    // Another list: not looked at without a row, else just after 1, with the row of a row.
    for other in [0, PLACES - 1, PLACES + 1] {
        places.set(other);
        assert_eq!(beside(&bad, 0, null, &[], 5, ROW_ANSWER).0, 0);
        for (shift, row) in [(1, 4095), (-1, 0)] {
            assert_eq!(beside(&bad, shift, null, &state, 5, ROW_ANSWER).0, 1);
            let (status, answer) = beside(&bad, shift, null, &state, CELLS, ROW_ANSWER);
            assert_eq!((status, &answer[..3]), (25, &[row, 0, 0][..]));
        }
    }
}

/// Shift calls in sequence over random frames, held against the plain form.
#[test]
fn random_shifts() {
    let mut rng = Rng::new(6);
    let (mut statuses, mut ended, mut moved) = ([0; 18], 0, [0; 2]);
    for n in 0..6_000 {
        let shape = match n % 300 {
            0 => Shape::WHOLE,
            1..=30 => Shape::PAGES,
            _ => Shape::words(rng.range(100, 6000)),
        };
        let case = generate::case(&mut rng, &shape);
        let mut settings = case.settings;
        let mut last = scroll(0, 0, 0);
        for _ in 0..60 {
            if rng.once_in(20) {
                settings.top = rng.pick(&case.tops);
            }
            if rng.once_in(20) {
                last = scroll(
                    rng.below(34) as i32 - 16,
                    rng.below(9) as u32,
                    rng.below(2) as u32,
                );
            }
            let soft = rng.pick(&case.tops);
            let got = shift(&settings, &case.memory, soft, &last);
            assert_eq!(got, plain::shift(&settings, &case.memory, soft, &last));
            match got {
                Err(refusal) => {
                    statuses[usize::from(refusal.number)] += 1;
                    last = scroll(0, 0, 0);
                }
                Ok(given) => {
                    statuses[0] += 1;
                    ended += u32::from(given.top != settings.top);
                    moved[given.scroll.direction as usize] += u32::from(given.scroll.shift != 0);
                    (last, settings.top) = (given.scroll, given.top);
                }
            }
        }
    }
    println!("shifts: {statuses:?}, ended {ended}, moved {moved:?}");
    for number in [0, 2, 3, 6, 7, 14, 17] {
        assert!(statuses[number] > 300, "{number}: {statuses:?}");
    }
    assert!(ended > 10_000 && moved[0] > 10_000 && moved[1] > 10_000);
}
